/* Exercise 3 in C: a bridge of one lane. Fill in the two procedures, then run: python3 check.py skeleton.c
 *
 * Cars come from two sides, 0 and 1. Those of one side may be on the bridge together, and never those of both. */
#include "lab.h"

int cars[2];        /* how many cars of each side are on the bridge */

void arrive(int side) {
    lab_enter();
    /* wait while cars of the other side are on the bridge */
    cars[side]++;
    /* let on the next one of this side */
    lab_leave();
}

void depart(int side) {
    lab_enter();
    cars[side]--;
    /* tell the other side, if this was the last car */
    lab_leave();
}
