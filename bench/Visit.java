import java.util.concurrent.locks.LockSupport;
import java.util.concurrent.locks.ReentrantLock;

/**
 * The nanoseconds of a visit by Java's ReentrantLock: Visit CHUNKS
 *
 * bench/c_library builds it, and compares. It is measured as bench/c_library.c measures a visit: the least of CHUNKS
 * chunks of 2,000. As many chunks run before, so that what is measured is compiled.
 */
final class Visit {
    private static final int CHUNK = 2000;
    private static final ReentrantLock lock = new ReentrantLock();
    private static long count;

    private static double chunk() {
        long began = System.nanoTime();
        for (int i = 0; i < CHUNK; i++) {
            lock.lock();
            try {
                count++;
            } finally {
                lock.unlock();
            }
        }
        return (double) (System.nanoTime() - began) / CHUNK;
    }

    public static void main(String[] words) {
        int chunks = Integer.parseInt(words[0]);
        Thread other = new Thread(LockSupport::park);
        other.setDaemon(true);
        other.start();
        for (int i = 0; i < chunks; i++) {
            chunk();
        }
        double least = Double.MAX_VALUE;
        for (int i = 0; i < chunks; i++) {
            least = Math.min(least, chunk());
        }
        System.out.println(least);
    }
}
