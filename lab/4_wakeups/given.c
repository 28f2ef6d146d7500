/* Three programs of exercise 4 in C, each with a mistake. They stay as they are: skeleton.c says what to do. */
#include "lab.h"

extern int items, is_open;

static bool is_there(void) { return items > 0; }
static bool opened(void) { return is_open; }

void given_taker(void) {
    lab_enter();
    while (items == 0) lab_wait("item", is_there);
    items--;
    lab_leave();
}

void given_putter(void) {           /* it signals before it has put the item */
    lab_enter();
    lab_signal("item");
    items++;
    lab_leave();
}

void given_early_guest(void) {      /* it waits without a look at the gate */
    lab_enter();
    lab_wait("gate", opened);
    lab_leave();
}

void given_guest(void) {            /* there may be two guests at the gate */
    lab_enter();
    while (!is_open) lab_wait("gate", opened);
    lab_leave();
}

void given_porter(void) {
    lab_enter();
    is_open = 1;
    lab_signal("gate");
    lab_leave();
}
