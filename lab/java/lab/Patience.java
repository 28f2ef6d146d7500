package lab;

import java.time.Duration;

/** How long the lab waits for a thread: up to a limit, and longer while other processes keep it from running. */
final class Patience {
    private static final int LOOKS = 12, LOOK_MS = 500;

    private Patience() { }

    /** Whether something happens within so many milliseconds. */
    interface Event {
        boolean isWithin(long millis) throws InterruptedException;
    }

    /**
     * Whether it happens in time. A thread that could run has more time for each look in which this process had less
     * than half a processor.
     */
    static boolean sees(Event event, Thread thread, long millis) throws InterruptedException {
        boolean isThere = event.isWithin(millis);
        for (int look = 0; !isThere && look < LOOKS && thread.getState() == Thread.State.RUNNABLE; look++) {
            long before = millisRun();
            isThere = event.isWithin(LOOK_MS);
            if (millisRun() - before > LOOK_MS / 2) break;
        }
        return isThere;
    }

    private static long millisRun() {
        return ProcessHandle.current().info().totalCpuDuration().map(Duration::toMillis).orElse(0L);
    }
}
