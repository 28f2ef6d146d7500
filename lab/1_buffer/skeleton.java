/* Exercise 1 in Java: a buffer of one place. Fill in the two methods, then run: python3 check.py skeleton.java
 *
 * The calls are monitor.enter(), monitor.leave(), monitor.await("item", () -> !items.isEmpty()) and
 * monitor.signal("item"). Nobody can interrupt what is between two calls. The second word of `await` is the test for the
 * kinds that have no signals. */
import java.util.ArrayList;
import java.util.List;
import lab.Monitor;

class Buffer {
    final Monitor monitor = new Monitor();
    /** At most one item. */
    final List<String> items = new ArrayList<>();

    void put(String item) {
        monitor.enter();
        // wait while there is no room
        items.add(item);
        // tell a taker
        monitor.leave();
    }

    String take() {
        monitor.enter();
        // wait while there is no item
        String item = items.remove(0);
        // tell a putter
        monitor.leave();
        return item;
    }

    // Write `if` for each `while`. Under which kinds does it go wrong then? ("PB NPB" would say: under these two.)
    static final String WRONG_WITH_IF = "";
}
