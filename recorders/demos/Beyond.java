import java.nio.file.Path;
import java.util.concurrent.locks.Condition;
import java.util.concurrent.locks.Lock;

/**
 * Forty threads, or the last of ten conditions, and a signal without the lock; then waits for ever: Beyond FILE
 * [conditions].
 */
public final class Beyond {
    private static final int THREADS = 40, CONDITIONS = 10, MOMENT = 300;

    public static void main(String[] words) throws Exception {
        MonkLog log = new MonkLog();
        Lock lock = log.lock(false);
        Condition[] conditions = new Condition[CONDITIONS];
        for (int i = 0; i < CONDITIONS; i++) {
            conditions[i] = lock.newCondition();
        }
        try {
            conditions[0].signal();
        } catch (IllegalMonitorStateException refused) {
            System.out.println("refused");
        }
        log.endAfter(MOMENT, Path.of(words[0]), "buffer 1");
        boolean isOfConditions = words.length > 1;
        for (int i = 0; i < (isOfConditions ? 1 : THREADS); i++) {
            Thread thread = new Thread(() -> {
                lock.lock();
                lock.unlock();
            });
            thread.start();
            thread.join();
        }
        lock.lock();
        conditions[isOfConditions ? CONDITIONS - 1 : 0].await();
    }
}
