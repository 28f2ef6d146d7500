/** A buffer without an end, by Java's own monitor. Its condition has the name of the class. */
class PlainBuffer {
    private static final long A_SECOND = 1000;
    private int items;

    synchronized void takeByIf() throws InterruptedException {
        if (items == 0) wait();
        if (items == 0) throw new IllegalStateException("nothing is there");
        items--;
    }

    synchronized int take() throws InterruptedException {
        while (items == 0) wait();
        return items--;
    }

    /** It gives up by an exception, which its caller catches. */
    synchronized void takeAtOnce(double hurry, String... words) {
        if (items == 0) throw new IllegalStateException(words[0] + hurry);
        items--;
    }

    void steal() {
        try {
            takeAtOnce(1, "nothing is there");
        } catch (IllegalStateException nothing) {
            return;
        }
    }

    void put() {
        synchronized (this) {
            items++;
            notify();
        }
    }

    synchronized void putFirst() {
        notify();
        items++;
    }

    /** It holds the monitor already, so it comes in once. */
    synchronized void putQuietly() {
        synchronized (this) {
            items++;
        }
    }

    void putForEver() {
        for (boolean isOver = false; !isOver; ) {
            synchronized (this) {
                isOver = false;
            }
        }
    }

    synchronized void putLate() throws InterruptedException {
        wait(A_SECOND);
        items++;
    }

    void putAtAnother() {
        synchronized (new Object()) {
            items++;
        }
    }
}
