/* Exercise 3 in Java: a bridge of one lane. Fill in the two methods, then run: python3 check.py skeleton.java
 *
 * Cars come from two sides, 0 and 1. Those of one side may be on the bridge together, and never those of both. A car
 * may not wait at an empty bridge for ever. */
import lab.Monitor;

class Bridge {
    final Monitor monitor = new Monitor();
    /** How many cars of each side are on the bridge. */
    final int[] cars = new int[2];

    void arrive(int side) {
        monitor.enter();
        // wait while cars of the other side are on the bridge
        cars[side]++;
        // let on the next one of this side
        monitor.leave();
    }

    void depart(int side) {
        monitor.enter();
        cars[side]--;
        // tell the other side, if this was the last car
        monitor.leave();
    }
}
