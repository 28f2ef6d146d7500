/* The recorder's own small locks, and what a signal handler has to know about them. Part of libmonk_log.c. */
#ifndef MONK_ORDER_H
#define MONK_ORDER_H

#include <errno.h>
#include <pthread.h>
#include <stdatomic.h>
#include <time.h>

enum {
    TRIES = 4000,           /* before a thread sleeps: a signal that wakes somebody takes a microsecond or two */
    NAPS = 10000,           /* before it gives up, which is about a second */
    NAP_NANOSECONDS = 20000,
    STUCK = -1              /* in place of the process: somebody gave up, so others needn't wait as long */
};

/* For a variable of each thread, without a call that might ask for memory. */
#define OF_THREAD static __thread __attribute__((tls_model("initial-exec")))

/* A function of its own for what is seldom called, so that the usual way keeps no registers for it. */
#define SELDOM __attribute__((noinline, cold))

/* How many of these locks the thread has or waits for. A signal handler that finds any must not ask for another. */
OF_THREAD volatile int busy;
/* Which process this is, of those that a fork made one after the other. */
static int process;

static inline void get_busy(void) {
    busy++;
    atomic_signal_fence(memory_order_seq_cst);
}

static inline void get_idle(void) {
    atomic_signal_fence(memory_order_seq_cst);
    busy--;
}

/* A lock has the number of the process that holds it, and 0 if it is free. So a child finds no lock held by a thread
   that it doesn't have. */
static inline int try_order(atomic_int *order) {
    int before = atomic_load_explicit(order, memory_order_relaxed), mine = process + 1;
    if (before == mine || before == STUCK)
        return 0;
    return atomic_compare_exchange_strong_explicit(order, &before, mine, memory_order_acquire, memory_order_relaxed);
}

/* Not a point at which a thread can be cancelled. */
SELDOM static void nap(void) {
    struct timespec time = {0, NAP_NANOSECONDS};
    int state, error = errno;
    pthread_setcancelstate(PTHREAD_CANCEL_DISABLE, &state);
    nanosleep(&time, 0);
    pthread_setcancelstate(state, &state);
    errno = error;
}

SELDOM static int await_order(atomic_int *order) {
    int theirs = process + 1;
    for (int tries = 0; tries < TRIES + NAPS && atomic_load(order) != STUCK; tries++) {
        if (try_order(order))
            return 1;
        if (tries >= TRIES)
            nap();
    }
    atomic_compare_exchange_strong(order, &theirs, STUCK);
    return 0;
}

/* Whether the caller has the lock. It gives up if the thread that has it was stopped, or left by a jump out of a
 * signal handler. */
static inline int take_order(atomic_int *order) {
    get_busy();
    if (try_order(order) || await_order(order))
        return 1;
    get_idle();
    return 0;
}

static inline void end_order(atomic_int *order) {
    atomic_store_explicit(order, 0, memory_order_release);
    get_idle();
}

#endif
