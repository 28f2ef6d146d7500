import java.lang.management.ManagementFactory;
import java.util.concurrent.BrokenBarrierException;
import java.util.concurrent.CyclicBarrier;
import java.util.concurrent.locks.ReentrantLock;

/**
 * Visits that meet, by Java's fair ReentrantLock: Meeting visits THREADS ROUNDS INSIDE
 *
 * <p>bench/c_library builds it, and compares. It prints what c_library.c prints: the nanoseconds of a visit, by the
 * clock and of all processors, if each works for INSIDE nanoseconds inside. As many rounds run before, so that what is
 * measured is compiled.
 */
final class Meeting {
    private static final int TURNS = 100_000;
    private static final int TRIES = 50;
    private static final ReentrantLock lock = new ReentrantLock(true);
    private static volatile long turned;
    private static long count;

    private static void work(long turns) {
        for (long turn = 0; turn < turns; turn++) {
            turned = turn;
        }
    }

    /** How many turns of work take that long: by the fastest of some tries. */
    private static long turnsOf(double nanoseconds) {
        double best = Double.MAX_VALUE;
        for (int i = 0; nanoseconds > 0 && i < TRIES; i++) {
            long began = System.nanoTime();
            work(TURNS);
            best = Math.min(best, System.nanoTime() - began);
        }
        return (long) (nanoseconds * TURNS / best);
    }

    private static void visits(long rounds, long turns) {
        for (long i = 0; i < rounds; i++) {
            lock.lock();
            try {
                count++;
                work(turns);
            } finally {
                lock.unlock();
            }
        }
    }

    private static void meet(int threads, long rounds, long turns) throws InterruptedException {
        CyclicBarrier line = new CyclicBarrier(threads);
        Thread[] crew = new Thread[threads];
        for (int i = 0; i < threads; i++) {
            crew[i] = new Thread(() -> {
                try {
                    line.await();
                } catch (InterruptedException | BrokenBarrierException gone) {
                    return;
                }
                visits(rounds, turns);
            });
            crew[i].start();
        }
        for (Thread thread : crew) {
            thread.join();
        }
    }

    private static long processors() {
        return ((com.sun.management.OperatingSystemMXBean) ManagementFactory.getOperatingSystemMXBean())
            .getProcessCpuTime();
    }

    public static void main(String[] words) throws InterruptedException {
        int threads = Integer.parseInt(words[1]);
        long rounds = Long.parseLong(words[2]);
        long turns = turnsOf(Double.parseDouble(words[3]));
        meet(threads, rounds, turns);
        long before = processors();
        long began = System.nanoTime();
        meet(threads, rounds, turns);
        double visits = (double) rounds * threads;
        double took = (System.nanoTime() - began) / visits;
        System.out.println(took + " " + (processors() - before) / visits);
    }
}
