/* The scenes of exercise 2 in C: readers and writers. In `together` two readers at once are forbidden, to see whether
 * they ever are. */
#include "lab.h"
#include <assert.h>
#include <stdlib.h>
#include <string.h>

extern int readers, is_written;
void start_read(void), end_read(void), start_write(void), end_write(void);
static int reading, writing;

static bool is_right(void) { return writing <= 1 && !(reading && writing); }
static bool is_told_right(void) { return !(readers && is_written); }
static bool is_alone(void) { return reading <= 1; }

/* Others may come before it is inside again. */
static void stop_reading(void) { reading--; }
static void stop_writing(void) { writing--; }

static void reader(int number) {
    (void)number;
    start_read();
    reading++;
    assert(is_right());
    lab_once_inside(stop_reading);
    end_read();
}

static void writer(int number) {
    (void)number;
    start_write();
    writing++;
    assert(is_right());
    lab_once_inside(stop_writing);
    end_write();
}

void lab_scene(int words, char **word) {
    for (int i = words > 1 ? atoi(word[1]) : 1; i > 0; i--) lab_program("reader", reader, i);
    for (int i = words > 2 ? atoi(word[2]) : 1; i > 0; i--) lab_program("writer", writer, i);
    lab_int("readers", &readers), lab_int("is_written", &is_written);
    lab_invariant(strcmp(word[0], "together") ? is_told_right : is_alone);
}
