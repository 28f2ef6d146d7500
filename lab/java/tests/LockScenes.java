import java.util.Map;
import lab.Monitor;
import lab.Scene;
import lab.Work;

/** The scenes of {@link Scenes}, of classes that were written for a ReentrantLock. */
class LockScenes {
    static Scene buffer(String... how) {
        LockBuffer buffer = new LockBuffer(new Monitor());
        Work twice = () -> {
            buffer.put();
            buffer.put();
        };
        return new Scene().watch(buffer).program("taker", how[0].equals("if") ? buffer::takeByIf : buffer::take)
            .program("putter", twice).program("thief", buffer::steal);
    }

    static Scene pair(String... how) {
        LockBuffer buffer = new LockBuffer(new Monitor());
        Map<String, Work> ways = Map.of("first", buffer::putFirst, "quietly", buffer::putQuietly,
            "stay", buffer::putAndStay, "forever", buffer::putForEver, "hurry", buffer::putInAHurry);
        return new Scene().watch(buffer).program("taker", buffer::take).program("putter", ways.get(how[0]));
    }

    static Scene gate(String... how) {
        LockGate gate = new LockGate(new Monitor());
        return new Scene().watch(gate).program("guest", gate::pass).program("guest", gate::pass)
            .program("porter", () -> gate.open(how[0].equals("all")));
    }

    static Scene book(String... how) {
        LockBook book = new LockBook(new Monitor());
        return new Scene().watch(book).invariant(book::isRight).program("reader", book::read)
            .program("reader", book::read).program("writer", book::write);
    }
}
