/* layer_queues.h - who waits on which condition. The kernel has the same queues, so the layer knows whom a signal
   serves before it calls the kernel. All functions are called from inside. Part of libmonk_pthread.c. */
#ifndef LAYER_QUEUES_H
#define LAYER_QUEUES_H

#include "layer_numbers.h"

static int is_queued(const struct place *p, int condition) {
    int standing = p->standing;
    return (standing == WAITS || standing == GHOST_WAITS) && p->condition == condition;
}

static int count_queued(struct monitor *m, int condition) {
    int count = 0;
    for (int n = 0; n < NUMBERS; n++) count += is_queued(&m->places[n], condition);
    return count;
}

/* Without ghosts. */
static int count_waiting(struct monitor *m, int condition) {
    int count = 0;
    for (int n = 0; n < NUMBERS; n++) count += m->places[n].standing == WAITS && m->places[n].condition == condition;
    return count;
}

static int first_queued(struct monitor *m, int condition) {
    int first = NONE;
    for (int n = 0; n < NUMBERS; n++)
        if (is_queued(&m->places[n], condition) && (first == NONE || m->places[n].ticket < m->places[first].ticket))
            first = n;
    return first;
}

enum served { SERVED_NOBODY, SERVED_GHOST, SERVED_THREAD };

/* Serves the first who waits. A thread whose time is over at this moment has become a ghost, or comes in by this
   signal. */
static enum served serve(struct monitor *m, int condition) {
    int first = first_queued(m, condition), is = WAITS;
    if (first == NONE) return SERVED_NOBODY;
    m->transit++;
    if (atomic_compare_exchange_strong(&m->places[first].standing, &is, SERVED)) return SERVED_THREAD;
    m->places[first].standing = GHOST_SERVED;
    m->passed_on++;
    atomic_fetch_add(&m->due, 1);
    return SERVED_GHOST;
}

#endif
