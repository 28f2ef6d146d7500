/** A gate, by Java's own monitor. */
class PlainGate {
    private boolean isOpen;

    synchronized void pass() throws InterruptedException {
        while (!isOpen) wait();
    }

    synchronized void open(boolean isToAll) {
        isOpen = true;
        if (isToAll) notifyAll();
        else notify();
    }
}
