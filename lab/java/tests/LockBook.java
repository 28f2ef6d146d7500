import java.util.concurrent.locks.Condition;
import java.util.concurrent.locks.Lock;

/** A class that knows nothing of a lab: new LockBook(new ReentrantLock()) is for threads. */
class LockBook {
    private final Lock lock;
    private final Condition read, write;
    private int readers;
    private boolean isWritten;

    LockBook(Lock lock) {
        this.lock = lock;
        read = lock.newCondition();
        write = lock.newCondition();
    }

    void read() throws InterruptedException {
        lock.lock();
        while (isWritten) read.await();
        readers++;
        read.signal();
        lock.unlock();
        lock.lock();
        readers--;
        if (readers == 0) write.signal();
        lock.unlock();
    }

    void write() throws InterruptedException {
        lock.lock();
        while (isWritten || readers > 0) write.await();
        isWritten = true;
        lock.unlock();
        lock.lock();
        isWritten = false;
        read.signal();
        lock.unlock();
    }

    boolean isRight() { return !isWritten || readers == 0; }
}
