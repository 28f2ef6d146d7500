package lab;

import java.util.stream.Stream;

/** Where in the code of a student or a teacher something is. */
final class Place {
    private Place() { }

    /** The innermost line of the thread that isn't the lab's or Java's own; null if there is none. */
    static StackTraceElement own(Thread thread) { return innermost(Stream.of(thread.getStackTrace())); }
    static StackTraceElement own(Throwable fault) { return innermost(Stream.of(bare(fault).getStackTrace())); }

    /** The line at which some thread ends the process; null if it isn't known. */
    static StackTraceElement ofExit() {
        return Thread.getAllStackTraces().values().stream().filter(Place::isExit).findFirst()
            .map(trace -> innermost(Stream.of(trace))).orElse(null);
    }

    private static boolean isExit(StackTraceElement[] trace) {
        String exits = Runtime.class.getName();
        return Stream.of(trace).anyMatch(it -> it.getClassName().equals(exits) && it.getMethodName().equals("exit"));
    }

    /** What was thrown, in words. */
    static String words(Throwable thrown) {
        Throwable fault = bare(thrown);
        String name = fault.getClass().getSimpleName();
        try {
            return fault.getMessage() == null ? name : name + ": " + fault.getMessage();
        } catch (RuntimeException | Error unsaid) {
            return name + ": (its text can't be made)";
        }
    }

    /** What was thrown while a class was made ready, without its envelope. */
    private static Throwable bare(Throwable fault) {
        return fault instanceof ExceptionInInitializerError && fault.getCause() != null ? fault.getCause() : fault;
    }

    private static StackTraceElement innermost(Stream<StackTraceElement> frames) {
        return frames.filter(Place::isOwn).findFirst().orElse(null);
    }

    private static boolean isOwn(StackTraceElement frame) {
        return frame.getModuleName() == null && !frame.getClassName().startsWith("lab.") && frame.getLineNumber() > 0;
    }
}
