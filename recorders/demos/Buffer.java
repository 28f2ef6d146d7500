import java.nio.file.Path;
import java.util.ArrayDeque;
import java.util.ArrayList;
import java.util.List;
import java.util.concurrent.TimeUnit;

/**
 * A bounded buffer in Java: Buffer PREFIX RUNS STYLE. Its logs are PREFIX.0, PREFIX.1, ..
 *
 * <ul>
 *   <li>good: a ReentrantLock with two conditions, each signalled
 *   <li>fair: the same with a fair lock
 *   <li>timed: as good, with waits that run out
 *   <li>synchronized: synchronized, with notifyAll
 *   <li>if: a fault: a thread that waited doesn't test again
 *   <li>forgotten: a fault: a taker signals nobody
 * </ul>
 *
 * Putters wait on condition 0 (predicate 0 of a buffer), takers on condition 1 (predicate 1).
 */
public final class Buffer {
    private static final int PUTTERS = 3;
    private static final int TAKERS = 3;
    private static final int SIZE = 2;
    private static final int ITEMS = 60;
    private static final int PUT = 0;
    private static final int TAKE = 1;
    private static final long SHORT_MICROSECONDS = 20;
    private static final long LONG_MILLISECONDS = 20000;
    private static final long LONG_IF_HANGING_MILLISECONDS = 400;

    /** What a thread does with the buffer. */
    private interface Step {
        void take(int round) throws InterruptedException;
    }

    private final MonkLog log = new MonkLog();
    private final ArrayDeque<Integer> items = new ArrayDeque<>();
    private final String style;
    private final MonkLog.Lock lock;
    private final MonkLog.Waiters notFull;
    private final MonkLog.Waiters notEmpty;

    private Buffer(String style) {
        this.style = style;
        boolean isLock = !style.equals("synchronized");
        lock = log.lock(style.equals("fair"));
        notFull = isLock ? lock.newCondition() : null;
        notEmpty = isLock ? lock.newCondition() : null;
    }

    private boolean isFull() {
        return items.size() >= SIZE;
    }

    private void put(int item) {
        items.add(item);
        log.act(PUT, item, 1);
    }

    private void take() {
        int item = items.isEmpty() ? 0 : items.remove();
        log.act(TAKE, 0, item + 1);
    }

    private synchronized void putSynchronized(int item) throws InterruptedException {
        log.enter();
        while (isFull()) {
            log.await(this);
        }
        put(item);
        log.signalAll(this);
        log.leave();
    }

    private synchronized void takeSynchronized(int round) throws InterruptedException {
        log.enter();
        while (items.isEmpty()) {
            log.await(this);
        }
        take();
        log.signalAll(this);
        log.leave();
    }

    private void await(MonkLog.Waiters condition) throws InterruptedException {
        if (style.equals("timed")) {
            condition.await(SHORT_MICROSECONDS, TimeUnit.MICROSECONDS);
        } else {
            condition.await();
        }
    }

    private void putLocked(int item) throws InterruptedException {
        lock.lock();
        try {
            boolean again = true;
            while (again && isFull()) {
                await(notFull);
                again = !style.equals("if");
            }
            put(item);
            notEmpty.signal();
        } finally {
            lock.unlock();
        }
    }

    private void takeLocked(int round) throws InterruptedException {
        lock.lock();
        try {
            boolean again = true;
            while (again && items.isEmpty()) {
                await(notEmpty);
                again = !style.equals("if");
            }
            take();
            if (!style.equals("forgotten")) {
                notFull.signal();
            }
        } finally {
            lock.unlock();
        }
    }

    private static Thread start(Step step) {
        Thread thread = new Thread(() -> {
            try {
                for (int round = 1; round <= ITEMS; round++) {
                    step.take(round);
                }
            } catch (InterruptedException end) {
                Thread.currentThread().interrupt();
            }
        });
        thread.setDaemon(true);
        thread.start();
        return thread;
    }

    private MonkLog run() throws InterruptedException {
        boolean isLock = !style.equals("synchronized");
        Step put = isLock ? this::putLocked : this::putSynchronized;
        Step take = isLock ? this::takeLocked : this::takeSynchronized;
        List<Thread> threads = new ArrayList<>();
        for (int i = 0; i < PUTTERS + TAKERS; i++) {
            threads.add(start(i < PUTTERS ? put : take));
        }
        boolean mayHang = style.equals("if") || style.equals("forgotten");
        long end = System.currentTimeMillis() + (mayHang ? LONG_IF_HANGING_MILLISECONDS : LONG_MILLISECONDS);
        for (Thread thread : threads) {
            thread.join(Math.max(1, end - System.currentTimeMillis()));
        }
        return log;
    }

    public static void main(String[] words) throws Exception {
        int runs = Integer.parseInt(words[1]);
        for (int number = 0; number < runs; number++) {
            new Buffer(words[2]).run().write(Path.of(words[0] + "." + number), "buffer " + SIZE);
        }
        System.exit(0);
    }
}
