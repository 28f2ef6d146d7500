/* The proved part of the library: seats of monitors of any of the ten kinds. See crates/monk_c/src/lib.rt for what each
   function ensures. No function waits or wakes, and only monk_k_make takes memory that it keeps.

   One call at a time uses a handle, and no other code does. What it points to belongs to the kernel. A handle may go
   from thread to thread: the program orders that by a lock, a thread's start or join, or a sequentially consistent
   atomic. */
#ifndef MONK_KERNEL_H
#define MONK_KERNEL_H

#include <stddef.h>
#include <stdint.h>

/* `at` points to monk_k_seat_size() bytes of the program, aligned as malloc aligns. All bytes 0: no seat. */
typedef struct monk_k_seat {
    void *at;
} monk_k_seat;

/* What a call returns: the place where the seat then is; or below 0 why the call was refused, and then nothing has
   changed. If several refusals apply, it is the last of them in this list. */
enum {
    MONK_K_OUTSIDE = 1,
    MONK_K_WAITING = 2,
    MONK_K_INSIDE = 3,
    MONK_K_MEMORY = -5,
    MONK_K_SPENT = -2,
    MONK_K_NOT_NOW = -1,
    MONK_K_RANGE = -4,
    MONK_K_NOT_OF_KIND = -3,
    MONK_K_CLOSED = -10
};

size_t monk_k_seat_size(void);

/* Makes a monitor of a kind (0 to 9: PB NPB PNB NPNB PQB NPQB PIR NPIR PIS NPIS); handle i gets its seat i. Returns
   0, MONK_K_RANGE or MONK_K_MEMORY. A seat that a handle had before is dropped. */
int32_t monk_k_make(uint8_t kind, uint8_t conditions, uint8_t flags, uint32_t budget, monk_k_seat *seats, size_t count);

int32_t monk_k_arrive(monk_k_seat *seat);
int32_t monk_k_poll(monk_k_seat *seat);

/* An arrival, and then a poll. */
int32_t monk_k_enter(monk_k_seat *seat);

/* A wish is 0 for entry, 2 for a signaller, any other for a waiter. `*granted` is the word of the seat that may come in
   now (monk_k_word of its handle), or 0. The program wakes the thread that waits there. */
int32_t monk_k_leave(monk_k_seat *seat, uint8_t wish, size_t *granted);
int32_t monk_k_start_wait(monk_k_seat *seat, uint8_t condition, uint8_t wish, size_t *granted);
int32_t monk_k_start_signal(monk_k_seat *seat, uint8_t condition, uint8_t wish, size_t *granted);
int32_t monk_k_signal_leave(monk_k_seat *seat, uint8_t condition, uint8_t wish, size_t *granted);
int32_t monk_k_broadcast(monk_k_seat *seat, uint8_t condition);
int32_t monk_k_start_signal_wait(monk_k_seat *seat, uint8_t condition, uint8_t wait_condition, uint8_t wish,
    size_t *granted);
int32_t monk_k_set_flags(monk_k_seat *seat, uint32_t bits);
int32_t monk_k_start_wait_until(monk_k_seat *seat, uint8_t flag, uint8_t wish, size_t *granted);

/* At any time: the place (0: no seat), the events left, and the word of a seat that waits, else 0. These and the next
   two don't change the seat. */
int32_t monk_k_place(const monk_k_seat *seat);
uint32_t monk_k_left(const monk_k_seat *seat);
size_t monk_k_word(const monk_k_seat *seat);

/* From inside: how many wait on a condition; the length of the history's text up to now. The text is written to `out`
   if it fits into `room` bytes. Below 0: why not. */
int64_t monk_k_waiting(const monk_k_seat *seat, uint8_t condition);
int64_t monk_k_history(const monk_k_seat *seat, uint8_t *out, size_t room);

/* Closes the monitor of which these are all handles, through handle `by`: that seat arrives, comes in, and stays.
   Returns its place, or the first of these that applies: MONK_K_RANGE if there is no handle `by`, MONK_K_CLOSED if a
   handle has no seat, MONK_K_NOT_NOW if a seat isn't outside, MONK_K_SPENT. */
int32_t monk_k_close(monk_k_seat *seats, size_t count, size_t by);

/* Gives the seat up; after that the handle has none. A seat that is inside leaves, and nobody learns whom that let in.
   One that waits keeps its place, and keeps the monitor once its turn has come. */
void monk_k_drop(monk_k_seat *seat);

#endif
