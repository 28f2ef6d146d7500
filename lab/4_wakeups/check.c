/* The scenes of exercise 4 in C: `given NAME` and `mended NAME`. An item is taken at the end; or the gate is open at
 * the end, and no guest goes through before. */
#include "given.c"
#include <assert.h>
#include <string.h>

int items, is_open;
void taker(void), putter(void), early_guest(void), early_porter(void), guest(void), porter(void);

static void take_given(int number) { (void)number, given_taker(); }
static void put_given(int number) { (void)number, given_putter(); }
static void take_mended(int number) { (void)number, taker(); }
static void put_mended(int number) { (void)number, putter(); }

static void pass(void (*guest_of)(void)) {
    guest_of();
    assert(is_open);
}

static void early_given(int number) { (void)number, pass(given_early_guest); }
static void early_mended(int number) { (void)number, pass(early_guest); }
static void guest_given(int number) { (void)number, pass(given_guest); }
static void guest_mended(int number) { (void)number, pass(guest); }
static void open_given(int number) { (void)number, given_porter(); }
static void open_early(int number) { (void)number, early_porter(); }
static void open_mended(int number) { (void)number, porter(); }

static bool all_taken(void) { return items == 0; }
static bool gate_is_open(void) { return is_open; }

static void late_work(bool is_given) {
    lab_program("taker", is_given ? take_given : take_mended, 0);
    lab_program("putter", is_given ? put_given : put_mended, 0);
    lab_int("items", &items), lab_end(all_taken);
}

static void early_signal(bool is_given) {
    lab_program("guest", is_given ? early_given : early_mended, 0);
    lab_program("porter", is_given ? open_given : open_early, 0);
    lab_int("is_open", &is_open), lab_end(gate_is_open);
}

static void one_signal(bool is_given) {
    for (int i = 0; i < 2; i++) lab_program("guest", is_given ? guest_given : guest_mended, i);
    lab_program("porter", is_given ? open_given : open_mended, 0);
    lab_int("is_open", &is_open), lab_end(gate_is_open);
}

void lab_scene(int words, char **word) {
    bool is_given = !strcmp(word[0], "given");
    const char *name = words > 1 ? word[1] : "";
    if (!strcmp(name, "late_work")) late_work(is_given);
    if (!strcmp(name, "early_signal")) early_signal(is_given);
    if (!strcmp(name, "one_signal")) one_signal(is_given);
}
