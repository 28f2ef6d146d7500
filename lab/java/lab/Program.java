package lab;

import java.util.concurrent.Semaphore;
import java.util.concurrent.TimeUnit;
import java.util.concurrent.locks.LockSupport;
import java.util.function.BooleanSupplier;

/** A program of a scene, in a thread that goes on only while the driver waits for it. */
final class Program {
    private static final ThreadLocal<Program> HERE = new ThreadLocal<>();
    /** By it the driver goes on: a program has come to its next call, or to its end. */
    private static final Semaphore BACK = new Semaphore(0);
    /** So often a program of a run that is over is told so, if it catches whatever is thrown. Then it is stopped. */
    private static final int MOST_REFUSED = 100;

    final String name;
    private final Scene scene;
    private final int number;
    private final Work work;
    private final Semaphore turn = new Semaphore(0);
    private Worker worker;
    private Call call;
    private Throwable fault;
    private Runnable then;
    /** How often it holds the lock, which is re-entrant. */
    private int depth;
    private int refused;
    private volatile boolean isGone, hasEnded;

    Program(Scene scene, int number, String name, Work work) {
        this.scene = scene;
        this.number = number;
        this.name = name;
        this.work = work;
    }

    /** Thrown in a program whose run is over, to end it. */
    @SuppressWarnings("serial")
    private static final class Gone extends Error {
        Gone() { super(null, null, false, false); }
    }

    // ---- called by its own thread

    /** Whether this thread may make calls, or has to be refused: the driver's own makes none. */
    static boolean isHere() { return HERE.get() != null || !Driver.isHere(); }

    /** The program of this thread. */
    static Program here() {
        Program program = HERE.get();
        if (program != null) return program;
        throw new IllegalStateException("only the programs of a scene make calls, and this thread is none");
    }

    static void back() { BACK.release(); }

    void run() {
        HERE.set(this);
        try {
            work.run();
        } catch (Gone over) {
            fault = null;
        } catch (Throwable thrown) {
            fault = thrown;
        }
        hasEnded = true;
    }

    /** Makes a call. Returns when the driver has let this program go on. */
    void make(String verb, String condition, BooleanSupplier until) {
        if (isGone) refuse();
        if (until != null) scene.note(number + " " + condition, until);
        call = new Call(verb, condition, until != null);
        back();
        turn.acquireUninterruptibly();
        if (isGone) throw new Gone();
        if (then != null && verb.equals("enter")) {
            Runnable once = then;
            then = null;
            once.run();
        }
    }

    void lock() {
        if (depth++ == 0) make("enter", "", null);
    }

    /** The last of nested locks leaves, and so does one that wasn't locked, which is then refused. */
    void unlock() {
        depth = Math.max(0, depth - 1);
        if (depth == 0) make("leave", "", null);
    }

    void onceInside(Runnable once) { then = once; }

    private void refuse() {
        while (++refused > MOST_REFUSED) {
            if (refused == MOST_REFUSED + 1) back();
            LockSupport.park();
        }
        throw new Gone();
    }

    // ---- called by the driver

    /** Lets it run up to its next call. */
    void goOn() {
        if (worker == null) worker = Worker.of(this);
        else turn.release();
    }

    /** Whether it came to its end, or to a fault. */
    boolean isThrough() { return hasEnded; }

    /** The thread in which it runs. */
    Thread thread() { return worker; }

    /** Whether it comes to its next call, or to its end, in time. */
    boolean isBack(long millis) throws InterruptedException {
        return Patience.sees(most -> BACK.tryAcquire(most, TimeUnit.MILLISECONDS), worker, millis);
    }

    /** Where it came to: a fault, its end, or a call. */
    void tell(Json answer) {
        if (fault != null) answer.text("fault", Place.words(fault)).place(Place.own(fault));
        else if (hasEnded) answer.truth("ended", true);
        else call.tell(answer.place(Place.own(worker)));
    }

    /** Ends it, wherever it is. False if it doesn't let itself be ended. */
    boolean ends(long millis) throws InterruptedException {
        isGone = true;
        if (worker == null || hasEnded) return true;
        turn.release();
        return isBack(millis);
    }
}
