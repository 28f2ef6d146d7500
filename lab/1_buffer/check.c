/* The scene of exercise 1 in C: takers, and putters with some items each. There is never more than one item, and each
 * arrives once. */
#include "lab.h"
#include <stdlib.h>

enum { MOST_ITEMS = 64 };
extern int count, item;
void put(int item);
int take(void);
static int putters, takers, items, got[MOST_ITEMS + 1];

static void putter(int number) {
    for (int i = 1; i <= items; i++) put(number * items + i);
}

static void taker(int number) {
    (void)number;
    for (int i = 0; i < putters * items / takers; i++) {
        int it = take();
        if (it >= 0 && it <= MOST_ITEMS) got[it]++;
    }
}

static bool has_one_at_most(void) { return count >= 0 && count <= 1; }

static bool all_arrived_once(void) {
    for (int it = 1; it <= putters * items; it++)
        if (got[it] != 1) return false;
    return true;
}

void lab_scene(int words, char **word) {
    putters = words > 1 ? atoi(word[1]) : 1, takers = words > 2 ? atoi(word[2]) : 1;
    items = words > 3 ? atoi(word[3]) : 1;
    for (int i = 0; i < takers; i++) lab_program("taker", taker, i);
    for (int i = 0; i < putters; i++) lab_program("putter", putter, i);
    lab_int("count", &count), lab_int("item", &item);
    lab_invariant(has_one_at_most), lab_end(all_arrived_once);
}
