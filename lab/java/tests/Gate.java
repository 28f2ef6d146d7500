import lab.Monitor;

/** A gate, by the lab's monitor. */
class Gate {
    private final Monitor monitor = new Monitor();
    private boolean isOpen;

    void pass() {
        monitor.enter();
        while (!isOpen) monitor.await("gate", () -> isOpen);
        monitor.leave();
    }

    void open(boolean isToAll) {
        monitor.enter();
        isOpen = true;
        if (isToAll) monitor.signalAll("gate");
        else monitor.signal("gate");
        monitor.leave();
    }
}
