/* layer_descents.h - a monitor steps down in the middle of a run: it has more waiters than seats, or more conditions
   with waiters than the library has. From then on its mutex and its conditions are what they were. All who wait wake
   unasked, as POSIX allows, and lock the mutex; whoever wants to enter locks it instead. Part of libmonk_pthread.c. */
#ifndef LAYER_DESCENTS_H
#define LAYER_DESCENTS_H

#include "layer_ghosts.h"

/* The mutexes that were monitors, and never will be again. */
static struct table lowered;

static struct {
    _Atomic int count;
    struct name mutex, wait; /* of the first one: its mutex, and its first wait */
    const char *why;
} descents;

static int is_lowered(const void *mutex) { return lowered.count && find(&lowered, mutex) != NULL; }

static void note_lowered(const void *mutex) {
    struct known *k = room_for(sizeof *k);
    atomic_store(&k->address, mutex);
    take(&lowered.lock);
    if (!find(&lowered, mutex)) insert(&lowered, k);
    let(&lowered.lock);
}

/* Its memory is used for another mutex. */
static void forget_lowered(const void *mutex) {
    if (!is_lowered(mutex)) return;
    take(&lowered.lock);
    struct known *k = find(&lowered, mutex);
    if (k) take_out(&lowered, k);
    let(&lowered.lock);
}

static void tell_descents(struct output *file) {
    if (!descents.count) return;
    put_line(file, "descents %d %s %s %s\n", descents.count, descents.mutex.text, descents.wait.text, descents.why);
}

/* ---- The mutex as it is */

static int is_free(struct thread *t) {
    return !(((const pthread_mutex_t *)t->turn.what)->__data.__lock & FUTEX_TID_MASK);
}

static pthread_mutex_t *mutex_below(struct monitor *m) { return (pthread_mutex_t *)(uintptr_t)m->known.address; }

static void lock_below(struct monitor *m, int times) {
    pthread_mutex_t *mutex = mutex_below(m);
    while (times-- > 0) {
        int answer = EBUSY;
        while (is_by_turns(me) && (answer = real.trylock(mutex)) == EBUSY) sleep_by_turns(me, is_free, mutex, NEVER);
        if (answer == EBUSY) real.lock(mutex);
    }
}

/* ---- Stepping down */

static void forget_conditions(struct monitor *m) {
    for (int k = 0; k < CONDITIONS; k++) {
        const void *address = m->conditions[k];
        struct condition *c = address ? condition_of(address) : NULL;
        if (c && c->of == m) forget_condition(address);
    }
}

static void count_ended(struct monitor *m) {
    static _Atomic int lock;
    take(&lock);
    ended_volumes += m->volumes + 1, ended_timeouts += m->timeouts, ended_outside += m->outside;
    let(&lock);
}

/* By the seat n that is inside, and stays in its hall for ever: so all others come back from there. The thread has the
   mutex afterwards. */
static void step_down(struct monitor *m, int n, int depth, const char *why) {
    if (!atomic_fetch_add(&descents.count, 1)) {
        descents.mutex = name_of(m->known.address), descents.wait = name_of(m->first_wait);
        descents.why = why;
    }
    save_volume(m, m->hall, n);
    save_names(m);
    count_ended(m);
    lock_below(m, depth);
    forget_conditions(m);
    note_lowered(m->known.address);
    take(&monitors.lock);
    take_out(&monitors, &m->known);
    let(&monitors.lock);
    m->is_dead = m->has_stepped_down = 1;
    note_outside(m);
    struct hall *h = m->hall;
    monk_stop(h->monitor);
}

#endif
