/* Exercise 4 in Java: lost wake-ups. Run: python3 check.py skeleton.java
 *
 * Three pairs of programs are in Given.java, each with a mistake. First write down under which kinds each goes wrong.
 * Then copy each to here and mend it, so that it goes right under every kind. Change how it waits and signals, and not
 * what it does to the data. */
import lab.Monitor;

/** Under which kinds does each of Given.java go wrong? ("PB NPB" would say: under these two.) */
class Wrong {
    static final String WRONG_LATE_WORK = "";
    static final String WRONG_EARLY_SIGNAL = "";
    static final String WRONG_ONE_SIGNAL = "";
}

class LateWork {
    final Monitor monitor = new Monitor();
    int items;

    void take() { }

    void put() { }
}

class EarlySignal {
    final Monitor monitor = new Monitor();
    boolean isOpen;

    void pass() { }

    void open() { }
}

/** There may be two guests at the gate. */
class OneSignal {
    final Monitor monitor = new Monitor();
    boolean isOpen;

    void pass() { }

    void open() { }
}
