import lab.Scene;

/** The scenes of exercise 2 in Java: readers and writers of those numbers. */
class Check {
    private final Book book = new Book();
    private int reading, writing;

    static Scene book(String... words) {
        Check check = new Check();
        return check.scene(words).invariant(() -> check.book.readers == 0 || !check.book.isWritten);
    }

    /** In it two readers at once are forbidden, to see whether they ever are. */
    static Scene together(String... words) {
        Check check = new Check();
        return check.scene(words).invariant(() -> check.reading <= 1);
    }

    private Scene scene(String... words) {
        Scene scene = new Scene().watch(book);
        for (int i = Integer.parseInt(words[0]); i > 0; i--) scene.program("reader", this::read);
        for (int i = Integer.parseInt(words[1]); i > 0; i--) scene.program("writer", this::write);
        return scene;
    }

    private void read() {
        book.startRead();
        reading++;
        checkBoth();
        Scene.onceInside(() -> reading--);          // others may come before it is inside again
        book.endRead();
    }

    private void write() {
        book.startWrite();
        writing++;
        checkBoth();
        Scene.onceInside(() -> writing--);
        book.endWrite();
    }

    private void checkBoth() {
        boolean isRight = writing <= 1 && (writing == 0 || reading == 0);
        if (!isRight) throw new IllegalStateException(reading + " read and " + writing + " write at once");
    }
}
