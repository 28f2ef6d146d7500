import lab.Monitor;

/** Readers and writers, by the lab's monitor. */
class Book {
    private final Monitor monitor = new Monitor();
    private int readers;
    private boolean isWritten;

    void read() {
        monitor.enter();
        while (isWritten) monitor.await("read", () -> !isWritten);
        readers++;
        monitor.signal("read");
        monitor.leave();
        monitor.enter();
        readers--;
        if (readers == 0) monitor.signal("write");
        monitor.leave();
    }

    void write() {
        monitor.enter();
        while (isWritten || readers > 0) monitor.await("write", () -> !isWritten && readers == 0);
        isWritten = true;
        monitor.leave();
        monitor.enter();
        isWritten = false;
        monitor.signal("read");
        monitor.leave();
    }

    boolean isRight() { return !isWritten || readers == 0; }
}
