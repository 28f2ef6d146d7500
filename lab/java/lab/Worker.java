package lab;

import java.util.ArrayDeque;
import java.util.Deque;
import java.util.concurrent.Semaphore;

/** A thread in which programs run, one after the other: to begin one anew for each run would take longer. */
final class Worker extends Thread {
    private static final Deque<Worker> IDLE = new ArrayDeque<>();
    private final Semaphore begins = new Semaphore(0);
    private Program program;

    private Worker() {
        super("program");
        setDaemon(true);
        start();
    }

    /** A thread that is idle, or else a new one, which runs the program from its beginning. */
    static Worker of(Program program) {
        Worker worker = IDLE.isEmpty() ? new Worker() : IDLE.pop();
        worker.program = program;
        worker.begins.release();
        return worker;
    }

    @Override public void run() {
        while (true) {
            begins.acquireUninterruptibly();
            program.run();
            IDLE.push(this);                // the driver waits, so nobody else uses the list
            Program.back();
        }
    }
}
