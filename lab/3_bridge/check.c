/* The scenes of exercise 3 in C: a car from each of the sides that are named. In `alone` two cars of one side are
 * forbidden, to see whether they ever are on the bridge together. */
#include "lab.h"
#include <assert.h>
#include <stdlib.h>
#include <string.h>

enum { SIDES = 2 };
extern int cars[SIDES];
void arrive(int side), depart(int side);
static int on[SIDES];

static bool is_one_way(void) { return !(cars[0] && cars[1]); }
static bool is_alone(void) { return on[0] <= 1 && on[1] <= 1; }
static bool is_empty(void) { return !cars[0] && !cars[1]; }

/* Others may come before it is inside again. */
static void goes_east(void) { on[0]--; }
static void goes_west(void) { on[1]--; }

static void car(int side) {
    arrive(side);
    on[side]++;
    assert(!on[1 - side]);
    lab_once_inside(side ? goes_west : goes_east);
    depart(side);
}

void lab_scene(int words, char **word) {
    for (int i = 1; i < words; i++) lab_program(atoi(word[i]) ? "west" : "east", car, atoi(word[i]));
    lab_int("cars[0]", &cars[0]), lab_int("cars[1]", &cars[1]);
    lab_invariant(strcmp(word[0], "alone") ? is_one_way : is_alone), lab_end(is_empty);
}
