import java.util.ArrayDeque;
import java.util.Deque;
import lab.Monitor;

/** A buffer without an end, by the lab's monitor, with mistakes. */
class Buffer {
    private final Monitor monitor = new Monitor();
    private final Deque<String> items = new ArrayDeque<>();

    void takeByIf() {
        monitor.enter();
        if (items.isEmpty()) monitor.await("item", () -> !items.isEmpty());
        items.pop();
        monitor.leave();
    }

    @SuppressWarnings("try")
    void take() {
        try (var visit = monitor.enter()) {
            while (items.isEmpty()) monitor.await("item", () -> !items.isEmpty());
            items.pop();
        }
    }

    void put() {
        monitor.enter();
        items.push("tea");
        monitor.signal("item");
        monitor.leave();
    }

    void steal() {
        monitor.enter();
        items.poll();
        monitor.leave();
    }

    void putFirst() {
        monitor.enter();
        monitor.signal("item");
        items.push("tea");
        monitor.leave();
    }

    void putQuietly() {
        monitor.enter();
        items.push("tea");
        monitor.leave();
    }

    void putAndStay() {
        monitor.enter();
        items.push("tea");
        monitor.signal("item");
    }

    void putForEver() {
        while (true) {
            monitor.enter();
            monitor.leave();
        }
    }

    void putOutside() {
        items.push("tea");
        put();
    }

    void putAndSpin() {
        monitor.enter();
        items.push("tea");
        while (!items.isEmpty()) Thread.onSpinWait();
    }

    void putAndExit() {
        monitor.enter();
        System.exit(0);
    }
}
