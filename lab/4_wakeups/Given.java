import lab.Monitor;

/** Three pairs of programs of exercise 4 in Java, each with a mistake. They stay: skeleton.java says what to do. */
class Given {
    static class LateWork {
        final Monitor monitor = new Monitor();
        int items;

        void take() {
            monitor.enter();
            while (items == 0) monitor.await("item", () -> items > 0);
            items--;
            monitor.leave();
        }

        /** It signals before it has put the item. */
        void put() {
            monitor.enter();
            monitor.signal("item");
            items++;
            monitor.leave();
        }
    }

    static class EarlySignal {
        final Monitor monitor = new Monitor();
        boolean isOpen;

        /** It waits without a look at the gate. */
        void pass() {
            monitor.enter();
            monitor.await("gate", () -> isOpen);
            monitor.leave();
        }

        void open() {
            monitor.enter();
            isOpen = true;
            monitor.signal("gate");
            monitor.leave();
        }
    }

    static class OneSignal {
        final Monitor monitor = new Monitor();
        boolean isOpen;

        /** There may be two guests at the gate. */
        void pass() {
            monitor.enter();
            while (!isOpen) monitor.await("gate", () -> isOpen);
            monitor.leave();
        }

        void open() {
            monitor.enter();
            isOpen = true;
            monitor.signal("gate");
            monitor.leave();
        }
    }
}
