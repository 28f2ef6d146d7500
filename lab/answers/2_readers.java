/* An answer to exercise 2 in Java: a reader that was let in lets in the next one. It counts who waits, because a signal
 * must find somebody, and because under immediate return there is one signal. */
import lab.Monitor;

class Book {
    final Monitor monitor = new Monitor();
    int readers;
    boolean isWritten;
    private int waitingReaders;

    void startRead() {
        monitor.enter();
        while (isWritten) {
            waitingReaders++;
            monitor.await("read", () -> !isWritten);
            waitingReaders--;
        }
        readers++;
        monitor.signal("read");
        monitor.leave();
    }

    void endRead() {
        monitor.enter();
        readers--;
        if (readers == 0) monitor.signal("write");
        monitor.leave();
    }

    void startWrite() {
        monitor.enter();
        while (isWritten || readers > 0) monitor.await("write", () -> !isWritten && readers == 0);
        isWritten = true;
        monitor.leave();
    }

    void endWrite() {
        monitor.enter();
        isWritten = false;
        monitor.signal(waitingReaders > 0 ? "read" : "write");
        monitor.leave();
    }
}
