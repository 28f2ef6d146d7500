/* Exercise 2 in C: readers and writers. Fill in the four procedures, then run: python3 check.py skeleton.c
 *
 * Nobody may read while somebody writes, and one writes at a time. Readers may read together. Try it first with a
 * signal to all (lab_signal_all("read")), which two kinds have. Then find a way with single signals, for all ten. */
#include "lab.h"

int readers;        /* how many read */
int is_written;     /* whether somebody writes */

void start_read(void) {
    lab_enter();
    /* wait while somebody writes */
    readers++;
    lab_leave();
}

void end_read(void) {
    lab_enter();
    readers--;
    /* tell a writer, if this was the last reader */
    lab_leave();
}

void start_write(void) {
    lab_enter();
    /* wait while somebody reads or writes */
    is_written = 1;
    lab_leave();
}

void end_write(void) {
    lab_enter();
    is_written = 0;
    /* tell readers and writers */
    lab_leave();
}
