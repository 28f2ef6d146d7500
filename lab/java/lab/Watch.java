package lab;

import java.util.concurrent.atomic.AtomicLong;
import java.util.concurrent.locks.LockSupport;

/**
 * A thread that looks whether the driver is late: what a student wrote runs in the driver's own thread, too, when a
 * scene is made, and in its tests and the words of its data.
 */
final class Watch extends Thread {
    private static final long NANOS = 1_000_000, LOOK_MS = 25, NEVER = 0, TOLD = -1;
    private final AtomicLong since = new AtomicLong(NEVER);
    private final Thread driver;
    private final Runnable tell;
    private volatile long millis;

    /** The task is run once if what that thread does takes too long, and then the process ends. */
    Watch(Thread driver, Runnable tell) {
        super("watch");
        this.driver = driver;
        this.tell = tell;
        setDaemon(true);
        start();
    }

    /** So long may what is watched take. */
    void begins(long most) {
        millis = most;
        since.set(System.nanoTime());
    }

    long limit() { return millis; }

    /** What is watched has ended. If it was told to be late, this doesn't return. */
    void ends() {
        while (since.getAndUpdate(it -> it == TOLD ? TOLD : NEVER) == TOLD) LockSupport.park();
    }

    @Override public void run() {
        while (true) {
            LockSupport.parkNanos(LOOK_MS * NANOS);
            long began = since.get();
            boolean isLate = began != NEVER && System.nanoTime() - began > millis * NANOS;
            if (isLate && !endsLate(began) && since.compareAndSet(began, TOLD)) {
                tell.run();
                Runtime.getRuntime().halt(1);
            }
        }
    }

    private boolean endsLate(long began) {
        try {
            return Patience.sees(look -> {
                sleep(look);
                return since.get() != began;
            }, driver, 0);
        } catch (InterruptedException never) {
            return false;
        }
    }
}
