package lab;

import java.util.ArrayList;
import java.util.LinkedHashMap;
import java.util.List;
import java.util.Map;
import java.util.function.BooleanSupplier;
import java.util.function.Supplier;

/**
 * A scene: programs that meet at a monitor, and what has to hold. The check of an exercise has a static method for each
 * of its scenes, which makes all data anew: {@code static Scene buffer(String... words)}.
 */
public final class Scene {
    private static Object monitor;

    private final List<Program> programs = new ArrayList<>();
    private final Map<String, BooleanSupplier> tests = new LinkedHashMap<>();
    private final List<String> mayWait = new ArrayList<>();
    private final Data data = new Data();
    private BooleanSupplier invariant, end;

    // ---- for who teaches

    /** One more program. Those of one name are numbered by the driver. */
    public Scene program(String name, Work work) {
        programs.add(new Program(this, programs.size(), name, work));
        return this;
    }

    /** The fields of this object are shown, and may be changed inside the monitor alone. */
    public Scene watch(Object object) {
        data.watch(object);
        return this;
    }

    /** This value, too. */
    public Scene data(String name, Supplier<?> value) {
        data.add(name, value);
        return this;
    }

    /** What has to hold whenever the monitor is given up. */
    public Scene invariant(BooleanSupplier test) {
        invariant = test;
        return this;
    }

    /** What has to hold when nobody can go on any more. */
    public Scene end(BooleanSupplier test) {
        end = test;
        return this;
    }

    /** Programs of this name may rightly wait for ever. */
    public Scene mayWait(String name) {
        mayWait.add(name);
        return this;
    }

    /** What this program does as soon as it is inside next, after its next call to enter. */
    public static void onceInside(Runnable then) { Program.here().onceInside(then); }

    // ---- for the lab

    /** The monitor of this scene, which has one. */
    static void claim(Object one) {
        if (monitor != null && monitor != one) {
            String name = one.getClass().getSimpleName();
            throw new IllegalStateException("a scene has one monitor, and this " + name + " is another");
        }
        monitor = one;
    }

    static void forget() { monitor = null; }

    /** The test of a program on a condition. */
    void note(String key, BooleanSupplier until) { tests.put(key, until); }

    Program program(int number) { return programs.get(number); }

    /** What it is made of. */
    void tell(Json answer) {
        answer.texts("programs", programs.stream().map(program -> program.name));
        answer.texts("may_wait", mayWait.stream()).truth("has_end", end != null);
        tellState(answer);
    }

    /** What holds now, and the data. */
    void tellState(Json answer) {
        answer.test("invariant", invariant);
        answer.object("tests", tests, (json, entry) -> json.test(entry.getKey(), entry.getValue()));
        data.tell(answer);
    }

    void tellEnd(Json answer) { answer.test("end", end); }

    /** Ends its programs. Returns one that doesn't let itself be ended. */
    Program end(long millis) throws InterruptedException {
        for (Program program : programs) {
            if (!program.ends(millis)) return program;
        }
        return null;
    }
}
