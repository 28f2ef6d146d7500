package lab;

import java.io.BufferedReader;
import java.io.FileDescriptor;
import java.io.FileOutputStream;
import java.io.IOException;
import java.io.InputStream;
import java.io.InputStreamReader;
import java.io.OutputStream;
import java.lang.reflect.InvocationTargetException;
import java.lang.reflect.Method;
import java.nio.charset.StandardCharsets;
import java.nio.file.Path;
import java.util.Arrays;

/**
 * The process of a lab (c/python/monk/foreign.py): {@code java lab.Driver FOLDER CLASS}. A line on standard input is
 * {@code new WORD METHOD WORDS}, which calls that static method of the class for a fresh scene; {@code go NUMBERS},
 * which runs these programs one after the other, each up to its next call; or {@code end}. Each is answered by that
 * first word, a digest of all answers of this run, and a line of JSON. The moves of a line count in the digest as if
 * each were asked alone. One thread runs at a time, so nothing depends on luck.
 */
public final class Driver {
    /** How long a scene may take to be made, which loads its classes, and how long a program may run. */
    private static final long MAKE_MS = 2000;
    private static final long LIMIT_MS = Long.parseLong(System.getenv().getOrDefault("LAB_MS", "2000"));
    private static final Thread HERE = Thread.currentThread();
    /** The digest is FNV-1a's, of 64 bits. */
    private static final long BASIS = 0xcbf29ce484222325L, PRIME = 0x100000001b3L;
    private static final int BYTE = 0xff;

    private final OutputStream out = new FileOutputStream(FileDescriptor.out);
    private final Class<?> scenes;
    private final Watch watch = new Watch(HERE, this::tellOfLate);
    private Scene scene = new Scene();
    /** The program that moved last. */
    private Program moved;
    /** By it each answer begins, so that what a program prints there is none. */
    private volatile String word = "";
    private long digest = BASIS;

    private Driver(Class<?> scenes) { this.scenes = scenes; }

    /** Whether this thread is the driver's. */
    static boolean isHere() { return Thread.currentThread() == HERE; }

    public static void main(String[] arguments) throws Exception {
        BufferedReader asked = new BufferedReader(new InputStreamReader(System.in, StandardCharsets.UTF_8));
        System.setOut(System.err);              // what a program prints doesn't come between
        System.setIn(InputStream.nullInputStream());
        Loader loader = new Loader(Path.of(arguments[0]));
        Driver driver = new Driver(Class.forName(arguments[1], false, loader));
        Runtime.getRuntime().addShutdownHook(new Thread(driver::tellOfExit));
        for (String line = asked.readLine(); line != null; line = asked.readLine()) driver.say(driver.answer(line));
        Runtime.getRuntime().halt(0);
    }

    private Json answer(String line) throws InterruptedException {
        String[] words = line.split(" ");
        if (words[0].equals("go")) return move(words);
        Program late = words[0].equals("new") ? scene.end(LIMIT_MS) : null;
        return late == null ? watched(words) : late(late.thread(), LIMIT_MS);
    }

    /** Runs programs one after the other, each up to its next call. Of one that is through, nothing is told. */
    private Json move(String[] words) throws InterruptedException {
        Json answer = new Json();
        for (int i = 1; i < words.length; i++) {
            if (i > 1) noted(answer);
            moved = scene.program(Integer.parseInt(words[i]));
            if (moved.isThrough()) return new Json();
            moved.goOn();
            if (!moved.isBack(LIMIT_MS)) return late(moved.thread(), LIMIT_MS);
            answer = watched(words);
        }
        return answer;
    }

    private Json watched(String[] words) {
        watch.begins(words[0].equals("new") ? MAKE_MS : LIMIT_MS);
        try {
            return told(words);
        } catch (ReflectiveOperationException | RuntimeException | Error fault) {
            return new Json().text("fault", Place.words(fault)).place(Place.own(fault));
        } finally {
            watch.ends();
        }
    }

    private Json told(String[] words) throws ReflectiveOperationException {
        Json answer = new Json();
        if (words[0].equals("end")) {
            scene.tellEnd(answer);
        } else if (words[0].equals("new")) {
            make(words);
            scene.tell(answer);
        } else {
            moved.tell(answer);
            scene.tellState(answer);
        }
        return answer;
    }

    private void make(String[] words) throws ReflectiveOperationException {
        word = words[1];
        digest = BASIS;
        Scene.forget();
        Method method = scenes.getDeclaredMethod(words[2], String[].class);
        method.setAccessible(true);
        try {
            scene = (Scene) method.invoke(null, (Object) Arrays.copyOfRange(words, 3, words.length));
        } catch (InvocationTargetException fault) {
            if (fault.getCause() instanceof Error) throw (Error) fault.getCause();
            if (fault.getCause() instanceof RuntimeException) throw (RuntimeException) fault.getCause();
            throw fault;
        }
    }

    private static Json late(Thread thread, long limit) {
        return new Json().number("endless", limit).place(Place.own(thread));
    }

    private void tellOfLate() { say(late(HERE, watch.limit())); }

    /** A program calls System.exit: that is its fault, and the process ends. */
    private void tellOfExit() {
        say(new Json().text("fault", "ends the whole process").place(Place.ofExit()).truth("is_last", true));
    }

    /** The bytes of an answer, which count in the digest from now on. */
    private byte[] noted(Json answer) {
        byte[] bytes = answer.toString().getBytes(StandardCharsets.UTF_8);
        for (byte one : bytes) digest = (digest ^ (one & BYTE)) * PRIME;
        return bytes;
    }

    private void say(Json answer) {
        try {
            String text = new String(noted(answer), StandardCharsets.UTF_8);
            out.write((word + " " + Long.toHexString(digest) + " " + text + "\n").getBytes(StandardCharsets.UTF_8));
        } catch (IOException closed) {
            Runtime.getRuntime().halt(1);
        }
    }
}
