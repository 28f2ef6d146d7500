import java.util.ArrayDeque;
import java.util.Deque;
import java.util.concurrent.locks.Condition;
import java.util.concurrent.locks.Lock;

/** A class that knows nothing of a lab: new LockBuffer(new ReentrantLock()) is for threads. */
class LockBuffer {
    private final Lock lock;
    private final Condition item;
    private final Deque<String> items = new ArrayDeque<>();

    LockBuffer(Lock lock) {
        this.lock = lock;
        item = lock.newCondition();
    }

    void takeByIf() throws InterruptedException {
        lock.lock();
        if (items.isEmpty()) item.await();
        items.pop();
        lock.unlock();
    }

    void take() throws InterruptedException {
        lock.lock();
        try {
            while (items.isEmpty()) item.await();
            items.pop();
        } finally {
            lock.unlock();
        }
    }

    void put() {
        lock.lock();
        try {
            items.push("tea");
            item.signal();
        } finally {
            lock.unlock();
        }
    }

    void steal() {
        lock.lock();
        items.poll();
        lock.unlock();
    }

    void putFirst() {
        lock.lock();
        item.signal();
        items.push("tea");
        lock.unlock();
    }

    void putQuietly() {
        lock.lock();
        items.push("tea");
        lock.unlock();
    }

    void putAndStay() {
        lock.lock();
        items.push("tea");
        item.signal();
    }

    void putInAHurry() {
        if (lock.tryLock()) put();
    }

    void putForEver() {
        while (true) {
            lock.lock();
            lock.unlock();
        }
    }
}
