package lab;

import java.util.concurrent.TimeUnit;
import java.util.concurrent.locks.Condition;
import java.util.concurrent.locks.Lock;
import java.util.function.BooleanSupplier;

/**
 * The monitor of a scene. It has no kind: who plays the scene names one. A call returns when the driver has made it and
 * the kernel has let this program go on. The code between two calls runs at once. Only the programs of a scene make
 * calls: another thread gets an IllegalStateException.
 *
 * <p>It is a lock, too, so that a class written for a ReentrantLock runs unchanged. Such code has no tests, so the
 * automatic kinds (PIS, NPIS) have no such call.
 */
public final class Monitor implements Lock {
    private int conditions;

    /** A scene has one monitor: a second one is an IllegalStateException. */
    public Monitor() { Scene.claim(this); }

    public Visit enter() {
        Program.here().make("enter", "", null);
        return this::leave;
    }

    public void leave() { Program.here().make("leave", "", null); }

    public void await(String condition) { await(condition, null); }

    /** The test is for the automatic kinds, which have no signals: there the program waits until it holds. */
    public void await(String condition, BooleanSupplier until) { Program.here().make("wait", condition, until); }

    public void signal(String condition) { Program.here().make("signal", condition, null); }

    public void signalAll(String condition) { Program.here().make("signal_all", condition, null); }

    /** As enter and leave, but re-entrant: nested ones are no calls. */
    @Override public void lock() { Program.here().lock(); }
    @Override public void lockInterruptibly() { lock(); }
    @Override public void unlock() { Program.here().unlock(); }

    /** A condition, whose name is that of its field in an object that the scene watches. */
    @Override public Condition newCondition() { return new NamedCondition("condition" + ++conditions); }

    @Override public boolean tryLock() { throw no("tryLock"); }
    @Override public boolean tryLock(long time, TimeUnit unit) { throw no("tryLock"); }

    static UnsupportedOperationException no(String call) {
        return new UnsupportedOperationException("a monitor of a scene has no " + call);
    }
}
