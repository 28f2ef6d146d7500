import java.util.concurrent.locks.Condition;
import java.util.concurrent.locks.Lock;

/** A class that knows nothing of a lab: new LockGate(new ReentrantLock()) is for threads. */
class LockGate {
    private final Lock lock;
    private final Condition gate;
    private boolean isOpen;

    LockGate(Lock lock) {
        this.lock = lock;
        gate = lock.newCondition();
    }

    void pass() throws InterruptedException {
        lock.lock();
        while (!isOpen) gate.await();
        lock.unlock();
    }

    void open(boolean isToAll) {
        lock.lock();
        isOpen = true;
        if (isToAll) gate.signalAll();
        else gate.signal();
        lock.unlock();
    }
}
