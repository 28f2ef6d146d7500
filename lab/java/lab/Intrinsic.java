package lab;

import java.util.Locale;

/**
 * What stands in place of `synchronized`, `wait` and `notify` in code that knows nothing of a lab. {@link Rewriter}
 * puts it there. The one condition of such a monitor has the name of its class. Tests and the making of a scene run
 * while no program does, so there `synchronized` has nothing to do.
 */
public final class Intrinsic {
    private Intrinsic() { }

    public static void enter(Object monitor) {
        if (Program.isHere()) {
            Scene.claim(monitor);
            Program.here().lock();
        }
    }

    public static void leave(Object monitor) {
        if (Program.isHere()) Program.here().unlock();
    }

    public static void wait(Object monitor) { Program.here().make("wait", name(monitor), null); }
    public static void notify(Object monitor) { Program.here().make("signal", name(monitor), null); }
    public static void notifyAll(Object monitor) { Program.here().make("signal_all", name(monitor), null); }
    public static void wait(Object monitor, long millis) { throw Monitor.no("wait with a time limit"); }
    public static void wait(Object monitor, long millis, int nanos) { wait(monitor, millis); }

    private static String name(Object monitor) {
        String simple = monitor.getClass().getSimpleName();
        return simple.isEmpty() ? "object" : simple.toLowerCase(Locale.ROOT);
    }
}
