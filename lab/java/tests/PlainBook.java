/** Readers and writers, by Java's own monitor, which has one condition for both. */
class PlainBook {
    private int readers;
    private boolean isWritten;

    void read() throws InterruptedException {
        synchronized (this) {
            while (isWritten) wait();
            readers++;
        }
        synchronized (this) {
            readers--;
            if (readers == 0) notifyAll();
        }
    }

    void write() throws InterruptedException {
        synchronized (this) {
            while (isWritten || readers > 0) wait();
            isWritten = true;
        }
        synchronized (this) {
            isWritten = false;
            notifyAll();
        }
    }

    /** A test may be synchronized, too. */
    synchronized boolean isRight() { return !isWritten || readers == 0; }
}
