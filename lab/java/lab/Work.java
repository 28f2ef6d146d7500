package lab;

/** What a program of a scene does. */
@FunctionalInterface
public interface Work {
    /** Makes the program's calls. Whatever it throws is the fault of the run. */
    void run() throws Exception;
}
