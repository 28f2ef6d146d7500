import java.util.Map;
import lab.Scene;
import lab.Work;

/** Scenes of classes with `synchronized`, `wait` and `notify`, which know nothing of a lab. */
class PlainScenes {
    static Scene buffer(String... how) {
        PlainBuffer buffer = new PlainBuffer();
        Work twice = () -> {
            buffer.put();
            buffer.put();
        };
        return new Scene().watch(buffer).program("taker", how[0].equals("if") ? buffer::takeByIf : buffer::take)
            .program("putter", twice).program("thief", buffer::steal);
    }

    static Scene pair(String... how) {
        PlainBuffer buffer = new PlainBuffer();
        Map<String, Work> ways = Map.of("first", buffer::putFirst, "quietly", buffer::putQuietly,
            "forever", buffer::putForEver, "late", buffer::putLate, "another", buffer::putAtAnother);
        return new Scene().watch(buffer).program("taker", buffer::take).program("putter", ways.get(how[0]));
    }

    static Scene gate(String... how) {
        PlainGate gate = new PlainGate();
        return new Scene().watch(gate).program("guest", gate::pass).program("guest", gate::pass)
            .program("porter", () -> gate.open(how[0].equals("all")));
    }

    static Scene shapes(String... how) {
        PlainShapes shapes = new PlainShapes();
        Map<String, Work> ways = Map.of("all", shapes::all, "static", PlainShapes::visit,
            "sealed", PlainShapes.Sealed.ONE::visit);
        return new Scene().program("visitor", ways.get(how[0]));
    }

    static Scene book(String... how) {
        PlainBook book = new PlainBook();
        return new Scene().watch(book).invariant(book::isRight).program("reader", book::read)
            .program("reader", book::read).program("writer", book::write);
    }
}
