/* An answer to exercise 3 in Java: a car that was let on lets on the next one of its side. */
import lab.Monitor;

class Bridge {
    private static final String EAST = "east", WEST = "west";
    final Monitor monitor = new Monitor();
    final int[] cars = new int[2];

    void arrive(int side) {
        monitor.enter();
        while (cars[1 - side] > 0) monitor.await(name(side), () -> cars[1 - side] == 0);
        cars[side]++;
        monitor.signal(name(side));
        monitor.leave();
    }

    void depart(int side) {
        monitor.enter();
        cars[side]--;
        if (cars[side] == 0) monitor.signal(name(1 - side));
        monitor.leave();
    }

    private static String name(int side) { return side == 0 ? EAST : WEST; }
}
