package lab;

/** A visit to a monitor, which ends by `leave`: `try (var visit = monitor.enter()) { .. }`. */
@FunctionalInterface
public interface Visit extends AutoCloseable {
    @Override void close();
}
