/* An answer to exercise 4 in C. */
#include "lab.h"

extern int items, is_open;

const char *const wrong_late_work = "PB NPB PQB NPQB PIR NPIR";
const char *const wrong_early_signal = "PB NPB PNB NPNB PQB NPQB PIR NPIR";
const char *const wrong_one_signal = "PB NPB PNB NPNB PQB NPQB PIR NPIR";

static bool is_there(void) { return items > 0; }
static bool opened(void) { return is_open; }

void taker(void) {
    lab_enter();
    while (items == 0) lab_wait("item", is_there);
    items--;
    lab_leave();
}

void putter(void) {
    lab_enter();
    items++;
    lab_signal("item");
    lab_leave();
}

void early_guest(void) {
    lab_enter();
    while (!is_open) lab_wait("gate", opened);
    lab_leave();
}

void early_porter(void) {
    lab_enter();
    is_open = 1;
    lab_signal("gate");
    lab_leave();
}

void guest(void) {
    lab_enter();
    while (!is_open) lab_wait("gate", opened);
    lab_signal("gate");
    lab_leave();
}

void porter(void) { early_porter(); }
