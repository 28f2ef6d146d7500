/* layer_numbers.h - numbers: the seats of a monitor by which threads come. Part of libmonk_pthread.c. */
#ifndef LAYER_NUMBERS_H
#define LAYER_NUMBERS_H

#include "layer_start.h"

static int count_standing(struct monitor *m, int standing) {
    int count = 0;
    for (int n = 0; n < NUMBERS; n++) count += m->places[n].standing == standing;
    return count;
}

/* A number that nobody has: the thread's own if it is free, so that in most histories a seat is a thread. */
static int free_number(struct monitor *m, const struct thread *t) {
    uint32_t is = atomic_load(&m->free);
    while (is) {
        unsigned n = t->index % NUMBERS;
        if (!(is & 1u << n)) n = (unsigned)__builtin_ctz(is);
        if (atomic_compare_exchange_weak(&m->free, &is, is & ~(1u << n))) return (int)n;
    }
    return NONE;
}

enum { NUMBER_NS = 20000000 };

static int has_number(struct thread *t) {
    const struct monitor *m = t->turn.what;
    return m->free != 0 || m->has_stepped_down;
}

/* Sleeps until a number is given back, for a short while at most: a ghost may give its number back unheard. */
static void await_number(struct monitor *m) {
    if (is_by_turns(me) && sleep_by_turns(me, has_number, m, turns.now + NUMBER_NS) != FREELY) return;
    struct timespec while_none = {0, NUMBER_NS};
    atomic_fetch_add(&m->wanting, 1);
    if (!m->free) syscall(SYS_futex, &m->free, FUTEX_WAIT_PRIVATE, 0, &while_none, NULL, 0);
    atomic_fetch_sub(&m->wanting, 1);
}

/* Looks for a number before there are too many threads: by then some that were served may have gone on. */
enum { PATIENT_LOOKS = 20 };

/* Lends the number to the thread that calls. */
static int lend(struct monitor *m, int n, struct thread *t) {
    t->numbers++;
    m->places[n].is_signaller = 0;
    store(m->places[n].who, t);
    return n;
}

static int is_steward_free(struct monitor *m) { return !atomic_exchange(&m->has_steward, 1); }

/* NONE: the monitor has stepped down, or has to, because all numbers wait. */
static int take_number(struct monitor *m, struct thread *t) {
    for (int looks = 0;; looks++) {
        if (m->has_stepped_down) return NONE;
        int n = free_number(m, t);
        if (n == NONE && count_standing(m, GHOST_WAITS) && is_steward_free(m)) n = STEWARD;
        if (n != NONE) return lend(m, n, t);
        if (looks > PATIENT_LOOKS && count_standing(m, WAITS) == NUMBERS) return NONE;
        await_number(m);
    }
}

static void give_number(struct monitor *m, int n) {
    struct place *p = &m->places[n];
    struct thread *t = p->who;
    store(p->who, NULL);
    store(p->used, NULL);
    store(p->home, NULL);
    store(p->standing, AWAY);
    if (n == STEWARD)
        let(&m->has_steward);
    else
        atomic_fetch_or(&m->free, 1u << n);
    if (m->wanting) syscall(SYS_futex, &m->free, FUTEX_WAKE_PRIVATE, INT32_MAX, NULL, NULL, 0);
    if (t) drop_number(t);
}

#endif
