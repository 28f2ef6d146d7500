/* An answer to exercise 3 in C: a car that was let on lets on the next one of its side. */
#include "lab.h"

int cars[2];
static const char *const sides[] = {"east", "west"};

static bool no_west(void) { return !cars[1]; }
static bool no_east(void) { return !cars[0]; }

void arrive(int side) {
    lab_enter();
    while (cars[1 - side]) lab_wait(sides[side], side ? no_east : no_west);
    cars[side]++;
    lab_signal(sides[side]);
    lab_leave();
}

void depart(int side) {
    lab_enter();
    cars[side]--;
    if (!cars[side]) lab_signal(sides[1 - side]);
    lab_leave();
}
