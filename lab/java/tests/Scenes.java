import java.util.Map;
import lab.Scene;
import lab.Work;

/** Scenes whose histories have to be those of the same scenes in Python (lab/same.py); and with faults of Java. */
class Scenes {
    static Scene buffer(String... how) {
        Buffer buffer = new Buffer();
        Work twice = () -> {
            buffer.put();
            buffer.put();
        };
        return new Scene().watch(buffer).program("taker", how[0].equals("if") ? buffer::takeByIf : buffer::take)
            .program("putter", twice).program("thief", buffer::steal);
    }

    static Scene pair(String... how) {
        Buffer buffer = new Buffer();
        Map<String, Work> ways = Map.of("first", buffer::putFirst, "quietly", buffer::putQuietly,
            "stay", buffer::putAndStay, "forever", buffer::putForEver, "outside", buffer::putOutside,
            "spin", buffer::putAndSpin, "exit", buffer::putAndExit);
        return new Scene().watch(buffer).program("taker", buffer::take).program("putter", ways.get(how[0]));
    }

    static Scene gate(String... how) {
        Gate gate = new Gate();
        return new Scene().watch(gate).program("guest", gate::pass).program("guest", gate::pass)
            .program("porter", () -> gate.open(how[0].equals("all")));
    }

    static Scene book(String... how) {
        Book book = new Book();
        return new Scene().watch(book).invariant(book::isRight).program("reader", book::read)
            .program("reader", book::read).program("writer", book::write);
    }
}
