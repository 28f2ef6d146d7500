/* Exercise 1 in C: a buffer of one place. Fill in the two procedures, then run: python3 check.py skeleton.c
 *
 * The calls are lab_enter(), lab_leave(), lab_wait("item", is_there) and lab_signal("item"). Nobody can interrupt what
 * is between two calls. The second word of lab_wait is the test for the kinds that have no signals. */
#include "lab.h"

int count;      /* how many items there are: 0 or 1 */
int item;       /* the item, if there is one */

void put(int new_item) {
    lab_enter();
    /* wait while there is no room */
    item = new_item;
    count++;
    /* tell a taker */
    lab_leave();
}

int take(void) {
    lab_enter();
    /* wait while there is no item */
    int taken = item;
    count--;
    /* tell a putter */
    lab_leave();
    return taken;
}

/* Write `if` for each `while`. Under which kinds does it go wrong then? ("PB NPB" would say: under these two.) */
const char *const wrong_with_if = "";
