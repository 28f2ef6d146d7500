import java.util.function.BooleanSupplier;
import lab.Scene;
import lab.Work;

/** The scenes of exercise 4 in Java, each with the programs that are given, or as they were mended. */
class Check {
    static Scene given(String... name) {
        switch (name[0]) {
            case "late_work": return lateWork(new Given.LateWork());
            case "early_signal": return earlySignal(new Given.EarlySignal());
            default: return oneSignal(new Given.OneSignal());
        }
    }

    static Scene mended(String... name) {
        switch (name[0]) {
            case "late_work": return lateWork(new LateWork());
            case "early_signal": return earlySignal(new EarlySignal());
            default: return oneSignal(new OneSignal());
        }
    }

    private static Scene lateWork(Given.LateWork it) { return items(it, it::take, it::put, () -> it.items == 0); }
    private static Scene lateWork(LateWork it) { return items(it, it::take, it::put, () -> it.items == 0); }
    private static Scene earlySignal(Given.EarlySignal it) { return gate(1, it, it::pass, it::open, () -> it.isOpen); }
    private static Scene earlySignal(EarlySignal it) { return gate(1, it, it::pass, it::open, () -> it.isOpen); }
    private static Scene oneSignal(Given.OneSignal it) { return gate(2, it, it::pass, it::open, () -> it.isOpen); }
    private static Scene oneSignal(OneSignal it) { return gate(2, it, it::pass, it::open, () -> it.isOpen); }

    /** The item is taken at the end. */
    private static Scene items(Object it, Work take, Work put, BooleanSupplier isTaken) {
        return new Scene().watch(it).program("taker", take).program("putter", put).end(isTaken);
    }

    /** The gate is open at the end, and no guest goes through before. */
    private static Scene gate(int guests, Object it, Work pass, Work open, BooleanSupplier isOpen) {
        Scene scene = new Scene().watch(it).end(isOpen);
        for (int i = 0; i < guests; i++) scene.program("guest", () -> passOpen(pass, isOpen));
        return scene.program("porter", open);
    }

    private static void passOpen(Work pass, BooleanSupplier isOpen) throws Exception {
        pass.run();
        if (!isOpen.getAsBoolean()) throw new IllegalStateException("a guest went through a gate that was shut");
    }
}
