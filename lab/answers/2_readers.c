/* An answer to exercise 2 in C: a reader that was let in lets in the next one. It counts who waits, because a signal
 * must find somebody, and because under immediate return there is one signal. */
#include "lab.h"

int readers, is_written;
static int waiting_readers;

static bool nobody_writes(void) { return !is_written; }
static bool nobody_is_there(void) { return !is_written && !readers; }

void start_read(void) {
    lab_enter();
    while (is_written) {
        waiting_readers++;
        lab_wait("read", nobody_writes);
        waiting_readers--;
    }
    readers++;
    lab_signal("read");
    lab_leave();
}

void end_read(void) {
    lab_enter();
    readers--;
    if (readers == 0) lab_signal("write");
    lab_leave();
}

void start_write(void) {
    lab_enter();
    while (is_written || readers) lab_wait("write", nobody_is_there);
    is_written = 1;
    lab_leave();
}

void end_write(void) {
    lab_enter();
    is_written = 0;
    lab_signal(waiting_readers ? "read" : "write");
    lab_leave();
}
