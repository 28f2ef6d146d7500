/* Exercise 4 in C: lost wake-ups. Run: python3 check.py skeleton.c
 *
 * Three programs are in given.c, each with a mistake. First write down under which kinds each goes wrong. Then mend the
 * copies below, so that each goes right under every kind. Change how it waits and signals, and not what it does to the
 * data. */
#include "lab.h"

extern int items, is_open;

/* Under which kinds does each of given.c go wrong? ("PB NPB" would say: under these two.) */
const char *const wrong_late_work = "";
const char *const wrong_early_signal = "";
const char *const wrong_one_signal = "";

/* late_work */
void taker(void) { }
void putter(void) { }

/* early_signal */
void early_guest(void) { }
void early_porter(void) { }

/* one_signal: two guests */
void guest(void) { }
void porter(void) { }
