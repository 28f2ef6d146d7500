package lab;

import java.util.Date;
import java.util.concurrent.TimeUnit;
import java.util.concurrent.locks.Condition;

/** A condition of the monitor of a scene, for code that was written for a ReentrantLock. */
final class NamedCondition implements Condition {
    private static final String TIMED = "wait with a time limit";
    private String name;

    NamedCondition(String name) { this.name = name; }

    void rename(String other) { name = other; }

    @Override public void await() { Program.here().make("wait", name, null); }
    @Override public void awaitUninterruptibly() { await(); }
    @Override public void signal() { Program.here().make("signal", name, null); }
    @Override public void signalAll() { Program.here().make("signal_all", name, null); }
    @Override public long awaitNanos(long nanos) { throw Monitor.no(TIMED); }
    @Override public boolean await(long time, TimeUnit unit) { throw Monitor.no(TIMED); }
    @Override public boolean awaitUntil(Date deadline) { throw Monitor.no(TIMED); }
}
