import lab.Scene;

/** The scenes of exercise 3 in Java: a car from each of the sides that are named. */
class Check {
    private final Bridge bridge = new Bridge();
    private final int[] on = new int[2];

    static Scene bridge(String... sides) {
        Check check = new Check();
        return check.scene(sides).invariant(() -> check.bridge.cars[0] == 0 || check.bridge.cars[1] == 0);
    }

    /** In it two cars of one side are forbidden, to see whether they ever are on the bridge together. */
    static Scene alone(String... sides) {
        Check check = new Check();
        return check.scene(sides).invariant(() -> check.on[0] <= 1 && check.on[1] <= 1);
    }

    private Scene scene(String... sides) {
        Scene scene = new Scene().watch(bridge);
        for (String side : sides) scene.program(side.equals("0") ? "east" : "west", () -> cross(Integer.parseInt(side)));
        return scene.end(() -> bridge.cars[0] == 0 && bridge.cars[1] == 0);
    }

    private void cross(int side) {
        bridge.arrive(side);
        on[side]++;
        if (on[1 - side] > 0) throw new IllegalStateException("cars of both sides are on the bridge");
        Scene.onceInside(() -> on[side]--);         // others may come before it is inside again
        bridge.depart(side);
    }
}
