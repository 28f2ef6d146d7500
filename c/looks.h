/* looks.h - whether a thread that waits had better look for its turn before it sleeps. For seats.h.

   Only time rests on this, so a thread may read what another is about to change. If a thread looks in vain for as long
   as a sleep costs, visits take long. If it looks in vain and then sleeps for long, a thread lost its processor: others
   want it, and looking keeps it from them. In both cases threads sleep at once from then on. Now and then one tries
   again, and more seldom if that soon was in vain. */
#ifndef MONK_LOOKS_H
#define MONK_LOOKS_H
#include <stdatomic.h>
#include <stdint.h>
#include <time.h>

enum {
    NS_A_SECOND = 1000000000,
    MOST_VAIN = 4,              /* after so many looks in vain in a row looking doesn't pay */
    FEWEST_WAITS = 1024,        /* then so many waits go by before one tries whether it does again */
    MOST_WAITS = 1 << 18,       /* and at most so many, if tries are in vain */
    WAITS_MORE = 8,             /* so many times more after each such try */
    SOON_NS = 50000000,         /* a try was in vain if looking doesn't pay any more after less than that */
    LONG_NS = 1000000           /* what no sleep takes, unless a visit is long or its thread has no processor */
};

/* How the last looks of waiting threads ended. */
typedef struct tally {
    _Atomic unsigned vain;              /* so many in a row were in vain, up to MOST_VAIN */
    _Atomic unsigned slept;             /* threads that slept because looking didn't pay, since the last try */
    _Atomic unsigned waits;             /* so many sleep before the next try */
    _Atomic uint64_t tried;             /* when the last try was */
} tally;

static inline uint64_t now_ns(void) {
    struct timespec now;
    clock_gettime(CLOCK_MONOTONIC, &now);
    return (uint64_t)now.tv_sec * NS_A_SECOND + (uint64_t)now.tv_nsec;
}

static inline int pays(tally *t) {
    return atomic_load_explicit(&t->vain, memory_order_relaxed) < MOST_VAIN;
}

/* Whether to try again, though looking doesn't pay. Then it does, until one more look is in vain. */
static inline int tries_again(tally *t) {
    unsigned waits = atomic_load_explicit(&t->waits, memory_order_relaxed);
    if (atomic_fetch_add_explicit(&t->slept, 1, memory_order_relaxed) < waits) return 0;
    atomic_store_explicit(&t->slept, 0, memory_order_relaxed);
    atomic_store_explicit(&t->tried, now_ns(), memory_order_relaxed);
    atomic_store_explicit(&t->vain, MOST_VAIN - 1, memory_order_relaxed);
    return 1;
}

/* Notes that looking hasn't paid since then. */
static inline void note_in_vain(tally *t, uint64_t since) {
    unsigned waits = atomic_load_explicit(&t->waits, memory_order_relaxed) * WAITS_MORE;
    int was_soon = since < atomic_load_explicit(&t->tried, memory_order_relaxed) + SOON_NS;
    if (!was_soon || waits < FEWEST_WAITS) waits = FEWEST_WAITS;
    atomic_store_explicit(&t->waits, waits < MOST_WAITS ? waits : MOST_WAITS, memory_order_relaxed);
    atomic_store_explicit(&t->vain, MOST_VAIN, memory_order_relaxed);
}

/* Notes how a thread's looks ended. While looking doesn't pay it looks briefly, which tells nothing. */
static inline void note_look(tally *t, int was_let_in) {
    unsigned vain = atomic_load_explicit(&t->vain, memory_order_relaxed), then = was_let_in ? 0 : vain + 1;
    if (vain >= MOST_VAIN || then == vain) return;
    if (then == MOST_VAIN) note_in_vain(t, now_ns());
    else atomic_store_explicit(&t->vain, then, memory_order_relaxed);
}

/* Notes how long a thread slept that had looked in vain, and whose turn came next. */
static inline void note_sleep(tally *t, uint64_t since) {
    if (now_ns() - since > LONG_NS) note_in_vain(t, since);
}

#endif
