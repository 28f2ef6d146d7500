/* Exercise 2 in Java: readers and writers. Fill in the four methods, then run: python3 check.py skeleton.java
 *
 * Nobody may read while somebody writes, and one writes at a time. Readers may read together. Try it first with a
 * signal to all (monitor.signalAll("read")), which two kinds have. Then find a way with single signals, for all ten. */
import lab.Monitor;

class Book {
    final Monitor monitor = new Monitor();
    /** How many read. */
    int readers;
    /** Whether somebody writes. */
    boolean isWritten;

    void startRead() {
        monitor.enter();
        // wait while somebody writes
        readers++;
        monitor.leave();
    }

    void endRead() {
        monitor.enter();
        readers--;
        // tell a writer, if this was the last reader
        monitor.leave();
    }

    void startWrite() {
        monitor.enter();
        // wait while somebody reads or writes
        isWritten = true;
        monitor.leave();
    }

    void endWrite() {
        monitor.enter();
        isWritten = false;
        // tell readers and writers
        monitor.leave();
    }
}
