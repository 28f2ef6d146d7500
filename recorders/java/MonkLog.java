import java.io.IOException;
import java.lang.StackWalker.StackFrame;
import java.nio.file.Files;
import java.nio.file.Path;
import java.nio.file.StandardOpenOption;
import java.util.ArrayList;
import java.util.Date;
import java.util.LinkedHashMap;
import java.util.List;
import java.util.Map;
import java.util.concurrent.TimeUnit;
import java.util.concurrent.atomic.AtomicInteger;
import java.util.concurrent.locks.Condition;
import java.util.concurrent.locks.ReentrantLock;

/**
 * Records one monitor. The thread that holds the lock writes each line.
 *
 * <p>For a {@code ReentrantLock}: {@code log.lock(fair)} in its place, and {@code lock.newCondition()} for its
 * conditions.
 *
 * <p>In {@code synchronized (object)}: {@link #enter} first and {@link #leave} last in each block, and {@link #await},
 * {@link #signal} and {@link #signalAll} in place of {@code wait}, {@code notify} and {@code notifyAll}.
 *
 * <p>{@link #write} writes the log, and beside it the threads' names and the places in the source of its lines.
 *
 * <p>recorders/README.md says what a recorder can't see.
 */
public final class MonkLog {
    /** The limits of a log. */
    private static final int SEATS = 32, CONDITIONS = 8;

    private static final int STATUS_LATE = 124;

    /** The frames of {@link #caller} and of the method that asks. */
    private static final int OWN_FRAMES = 2;

    private static final StackWalker STACK = StackWalker.getInstance();

    /** A line, and the frame from which it comes. (Its file and line are asked for only when the log is written.) */
    private static final class Line {
        private final String text;
        private final StackFrame from;

        private Line(String text, StackFrame from) {
            this.text = text;
            this.from = from;
        }

        private String site() {
            return from == null ? "?:0" : from.getFileName() + ":" + from.getLineNumber();
        }
    }

    private final List<Line> lines = new ArrayList<>();
    private final Map<Thread, Integer> seats = new LinkedHashMap<>();
    private final AtomicInteger strays = new AtomicInteger();
    private int conditions;
    private String stopped = "";

    /** The place from which the method that asks was called; a method that the program calls asks itself. */
    private static StackFrame caller() {
        return STACK.walk(frames -> frames.skip(OWN_FRAMES).findFirst()).orElse(null);
    }

    /** The lines before one that isn't written are a log too. */
    private void put(StackFrame from, String verb, String numbers) {
        Integer seat = seats.get(Thread.currentThread());
        if (seat == null && seats.size() == SEATS) {
            stop("there are more than " + SEATS + " threads, and a log has no more seats");
        }
        if (!stopped.isEmpty()) {
            return;
        }
        if (seat == null) {
            seat = seats.size();
            seats.put(Thread.currentThread(), seat);
        }
        lines.add(new Line(verb + " " + seat + numbers, from));
    }

    private void put(StackFrame from, String verb, int condition) {
        if (condition >= CONDITIONS) {
            stop("there are more than " + CONDITIONS + " conditions, and a log has no more");
        }
        put(from, verb, " " + condition);
    }

    /** The first reason stays. */
    private void stop(String why) {
        if (stopped.isEmpty()) {
            stopped = why;
        }
    }

    /** A signal is written down if its caller holds the lock; else it is counted, and the library refuses it. */
    private void tell(boolean isHeld, StackFrame from, String verb, int condition) {
        if (isHeld) {
            put(from, verb, condition);
        } else {
            strays.incrementAndGet();
        }
    }

    /** The log so far; {@code object} is the object and its size, as {@code buffer 4}. No thread may be active. */
    public String text(String object) {
        return text(lines, object);
    }

    private String text(List<Line> all, String object) {
        StringBuilder text = new StringBuilder();
        text.append("log 1 " + seats.size() + " " + Math.min(conditions, CONDITIONS) + " " + object + "\n");
        all.forEach(line -> text.append(line.text).append('\n'));
        return text.toString();
    }

    /** The text beside the log: the threads' names, how the program ended if that is known, the lines' places. */
    private String names(List<Line> all, String ended) {
        StringBuilder text = new StringBuilder(), numbers = new StringBuilder("lines");
        seats.forEach((thread, seat) -> text.append("seat " + seat + " " + thread.getName() + "\n"));
        text.append(ended);
        Map<String, Integer> places = new LinkedHashMap<>();
        for (Line line : all) {
            numbers.append(" " + places.computeIfAbsent(line.site(), unused -> places.size() + 1));
        }
        places.forEach((place, number) -> text.append("site " + number + " " + place + "\n"));
        return text + numbers.toString() + "\n";
    }

    private void write(Path file, String object, String ended) throws IOException {
        List<Line> all = new ArrayList<>(lines);
        Files.writeString(file, text(all, object), StandardOpenOption.CREATE_NEW);
        Files.writeString(Path.of(file + ".names"), names(all, ended), StandardOpenOption.CREATE_NEW);
    }

    /** Writes the log so far into a new file, and beside it the file of names. No thread may be active. */
    public void write(Path file, String object) throws IOException {
        write(file, object, "");
    }

    /** What was seen, in words. */
    public String summary() {
        String seen = lines.size() + " lines, " + seats.size() + " threads, " + conditions + " conditions";
        String cut = stopped.isEmpty() ? "" : "; it ends early, since " + stopped;
        return seen + cut + (strays.get() == 0 ? "" : "; signals without the lock, refused: " + strays);
    }

    /** For a program that hangs: after that many milliseconds its log is written, and it ends with status 124. */
    public void endAfter(long milliseconds, Path file, String object) {
        Thread watch = new Thread(() -> {
            try {
                Thread.sleep(milliseconds);
                write(file, object, "ended after MONK_SECONDS\n");
                System.err.println("monk: " + file + ": " + summary());
            } catch (InterruptedException | IOException error) {
                System.err.println("monk: " + file + ": no log, since " + error);
            }
            Runtime.getRuntime().halt(STATUS_LATE);
        });
        watch.setDaemon(true);
        watch.start();
    }

    /** Reports an operation on what the lock guards: its code, its argument and its reply (docs/MONITORS.md). */
    public void act(int code, long arg, long reply) {
        put(caller(), "act", " " + code + " " + arg + " " + reply);
    }

    // ---- synchronized, which has one condition

    public void enter() {
        put(caller(), "enter", "");
    }

    public void leave() {
        put(caller(), "leave", "");
    }

    public void await(Object monitor) throws InterruptedException {
        await(caller(), monitor, 0);
    }

    /** Nothing says whether a wait with a time ran out, so its line is always a {@code resume}. */
    public void await(Object monitor, long milliseconds) throws InterruptedException {
        await(caller(), monitor, milliseconds);
    }

    private void await(StackFrame from, Object monitor, long milliseconds) throws InterruptedException {
        conditions = 1;
        put(from, "wait", 0);
        String end = "lapse";
        try {
            monitor.wait(milliseconds);
            end = "resume";
        } finally {
            put(from, end, "");
        }
    }

    public void signal(Object monitor) {
        conditions = 1;
        tell(Thread.holdsLock(monitor), caller(), "signal", 0);
        monitor.notify();
    }

    public void signalAll(Object monitor) {
        conditions = 1;
        tell(Thread.holdsLock(monitor), caller(), "broadcast", 0);
        monitor.notifyAll();
    }

    // ---- ReentrantLock

    public Lock lock(boolean fair) {
        return new Lock(fair);
    }

    /** Takes the place of a {@code ReentrantLock}. A thread that has the lock already comes in only once. */
    public final class Lock implements java.util.concurrent.locks.Lock {
        private final ReentrantLock raw;

        private Lock(boolean fair) {
            raw = new ReentrantLock(fair);
        }

        /** Comes in, with the lock. The frame was asked for before, when nobody had to wait for that. */
        private void comeIn(StackFrame from) {
            if (raw.getHoldCount() == 1) {
                put(from, "enter", "");
            }
        }

        @Override
        public void lock() {
            StackFrame from = caller();
            raw.lock();
            comeIn(from);
        }

        /** Whether it was free. */
        @Override
        public boolean tryLock() {
            StackFrame from = caller();
            boolean got = raw.tryLock();
            if (got) {
                comeIn(from);
            }
            return got;
        }

        /** Whether it became free before the time was over. */
        @Override
        public boolean tryLock(long time, TimeUnit unit) throws InterruptedException {
            StackFrame from = caller();
            boolean got = raw.tryLock(time, unit);
            if (got) {
                comeIn(from);
            }
            return got;
        }

        @Override
        public void lockInterruptibly() throws InterruptedException {
            StackFrame from = caller();
            raw.lockInterruptibly();
            comeIn(from);
        }

        @Override
        public void unlock() {
            if (raw.getHoldCount() == 1) {
                put(caller(), "leave", "");
            }
            raw.unlock();
        }

        @Override
        public Waiters newCondition() {
            return new Waiters(raw, raw.newCondition(), conditions++);
        }
    }

    /** A condition of a lock. */
    public final class Waiters implements Condition {
        private final ReentrantLock lock;
        private final Condition raw;
        private final int number;

        private Waiters(ReentrantLock lock, Condition raw, int number) {
            this.lock = lock;
            this.raw = raw;
            this.number = number;
        }

        /** A wait, which returns whether it ended before its time. */
        private interface Waiting {
            boolean endsEarly() throws InterruptedException;
        }

        /** A wait with its two lines. A thread that doesn't hold the lock has none: the library refuses the wait. */
        private boolean recorded(StackFrame from, Waiting waiting) throws InterruptedException {
            if (!lock.isHeldByCurrentThread()) {
                return waiting.endsEarly();
            }
            put(from, "wait", number);
            boolean early = false;
            try {
                early = waiting.endsEarly();
            } finally {
                put(from, early ? "resume" : "lapse", "");
            }
            return early;
        }

        @Override
        public void await() throws InterruptedException {
            recorded(caller(), () -> {
                raw.await();
                return true;
            });
        }

        @Override
        public void awaitUninterruptibly() {
            StackFrame from = caller();
            if (lock.isHeldByCurrentThread()) {
                put(from, "wait", number);
            }
            raw.awaitUninterruptibly();
            put(from, "resume", "");
        }

        /** Whether the wait ended before its time. */
        @Override
        public boolean await(long time, TimeUnit unit) throws InterruptedException {
            return recorded(caller(), () -> raw.await(time, unit));
        }

        /** Whether the wait ended before that date. */
        @Override
        public boolean awaitUntil(Date deadline) throws InterruptedException {
            return recorded(caller(), () -> raw.awaitUntil(deadline));
        }

        /** How many nanoseconds were left when it ended. */
        @Override
        public long awaitNanos(long nanoseconds) throws InterruptedException {
            long[] left = {0};
            recorded(caller(), () -> {
                left[0] = raw.awaitNanos(nanoseconds);
                return left[0] > 0;
            });
            return left[0];
        }

        @Override
        public void signal() {
            tell(lock.isHeldByCurrentThread(), caller(), "signal", number);
            raw.signal();
        }

        @Override
        public void signalAll() {
            tell(lock.isHeldByCurrentThread(), caller(), "broadcast", number);
            raw.signalAll();
        }
    }
}
