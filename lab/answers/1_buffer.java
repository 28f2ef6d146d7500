/* An answer to exercise 1 in Java. */
import java.util.ArrayList;
import java.util.List;
import lab.Monitor;

class Buffer {
    final Monitor monitor = new Monitor();
    /** At most one item. */
    final List<String> items = new ArrayList<>();

    void put(String item) {
        monitor.enter();
        while (!items.isEmpty()) monitor.await("room", () -> items.isEmpty());
        items.add(item);
        monitor.signal("item");
        monitor.leave();
    }

    String take() {
        monitor.enter();
        while (items.isEmpty()) monitor.await("item", () -> !items.isEmpty());
        String item = items.remove(0);
        monitor.signal("room");
        monitor.leave();
        return item;
    }

    static final String WRONG_WITH_IF = "NPNB NPQB NPIR";
}
