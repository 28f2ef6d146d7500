import java.util.ArrayList;
import java.util.Collections;
import java.util.List;
import lab.Scene;

/** The scene of exercise 1 in Java. */
class Check {
    /**
     * Putters and takers of that number, and so many items of each putter. There is never more than one item, and each
     * arrives once.
     */
    static Scene buffer(String... words) {
        int putters = Integer.parseInt(words[0]), takers = Integer.parseInt(words[1]);
        int items = Integer.parseInt(words[2]);
        Buffer buffer = new Buffer();
        List<String> brought = new ArrayList<>(), got = new ArrayList<>();
        Scene scene = new Scene().watch(buffer).invariant(() -> buffer.items.size() <= 1);
        for (int i = 0; i < takers; i++) scene.program("taker", () -> takeAll(buffer, putters * items / takers, got));
        for (int i = 0; i < putters; i++) {
            List<String> mine = new ArrayList<>();
            for (int item = 0; item < items; item++) mine.add("item " + (i * items + item));
            brought.addAll(mine);
            scene.program("putter", () -> mine.forEach(buffer::put));
        }
        return scene.end(() -> arrived(got).equals(brought));
    }

    private static void takeAll(Buffer buffer, int number, List<String> got) {
        for (int i = 0; i < number; i++) {
            String item = buffer.take();
            if (item == null) throw new IllegalStateException("take returned nothing: it ends by `return item`");
            got.add(item);
        }
    }

    private static List<String> arrived(List<String> got) {
        Collections.sort(got);
        return got;
    }
}
