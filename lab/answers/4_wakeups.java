/* An answer to exercise 4 in Java. */
import lab.Monitor;

class Wrong {
    static final String WRONG_LATE_WORK = "PB NPB PQB NPQB PIR NPIR";
    static final String WRONG_EARLY_SIGNAL = "PB NPB PNB NPNB PQB NPQB PIR NPIR";
    static final String WRONG_ONE_SIGNAL = "PB NPB PNB NPNB PQB NPQB PIR NPIR";
}

class LateWork {
    final Monitor monitor = new Monitor();
    int items;

    void take() {
        monitor.enter();
        while (items == 0) monitor.await("item", () -> items > 0);
        items--;
        monitor.leave();
    }

    void put() {
        monitor.enter();
        items++;
        monitor.signal("item");
        monitor.leave();
    }
}

class EarlySignal {
    final Monitor monitor = new Monitor();
    boolean isOpen;

    void pass() {
        monitor.enter();
        while (!isOpen) monitor.await("gate", () -> isOpen);
        monitor.leave();
    }

    void open() {
        monitor.enter();
        isOpen = true;
        monitor.signal("gate");
        monitor.leave();
    }
}

class OneSignal {
    final Monitor monitor = new Monitor();
    boolean isOpen;

    void pass() {
        monitor.enter();
        while (!isOpen) monitor.await("gate", () -> isOpen);
        monitor.signal("gate");
        monitor.leave();
    }

    void open() {
        monitor.enter();
        isOpen = true;
        monitor.signal("gate");
        monitor.leave();
    }
}
