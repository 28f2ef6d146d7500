/* scheduler.h - whom a release of the plain model chooses, and how a seat comes in. The rules are in
 * docs/MONITORS.md, "The wish". */
#ifndef MONK_REFERENCE_SCHEDULER_H
#define MONK_REFERENCE_SCHEDULER_H

#include "state.h"

/* The first of those who wait until a flag is set, and whose flag is set; -1 if there is none. */
static inline int first_ready(const monk_monitor *m) {
    for (int i = 0; i < m->until.count; i++) {
        int seat = m->until.seats[(m->until.first + i) % MOST_SEATS];
        if (m->bits >> m->seats[seat].flag & 1) return seat;
    }
    return -1;
}

static inline int wish_of(monk_seat *s) {
    if (s->wish != MONK_ANY) return s->wish;
    s->dice ^= s->dice << 13, s->dice ^= s->dice >> 7, s->dice ^= s->dice << 17;
    return (int)((s->dice >> 32) % 3);
}

/* Whom a release of seat s chooses, over the queues after its own moves. */
static inline way choose(monk_monitor *m, monk_seat *s, int *chosen) {
    const rules *r = m->rules;
    int automatic = r->mode == MONK_AUTOMATIC, ready = automatic ? first_ready(m) : -1, wish = wish_of(s);
    int waiters = automatic ? ready >= 0 : m->waiters.count > 0, signallers = m->signallers.count > 0;
    int waiter_open = waiters && (!signallers || r->signaller <= r->waiter);
    int signaller_open = signallers && (!waiters || r->waiter <= r->signaller);
    int entry_open = m->entry.count > 0 && (!waiters || r->waiter <= r->entry)
        && (!signallers || r->signaller <= r->entry);
    way w;
    if (wish == MONK_ENTRY && entry_open) w = ENTRY;
    else if (wish == MONK_WAITER && waiter_open) w = WAITER;
    else if (wish == MONK_SIGNALLER && signaller_open) w = SIGNALLER;
    else if (!waiters && !signallers) w = ENTRY;
    else w = waiter_open ? WAITER : SIGNALLER;
    switch (w) {
    case WAITER:
        if (automatic) return *chosen = ready, READY;
        return *chosen = front(&m->waiters), WAITER;
    case SIGNALLER:
        *chosen = front(&m->signallers);
        return *chosen == s->number ? STAY : SIGNALLER;
    default: return ENTRY;
    }
}

static inline void come_in(monk_monitor *m, monk_seat *s) {
    verb v = s->due == FREE || s->due == HANDED ? ENTER : RESUME;
    record(m, (event){.verb = (uint8_t)v, .seat = s->number, .way = s->due});
    s->due = NOBODY;
    s->place = MONK_INSIDE;
}

static inline void make_due(monk_monitor *m, int seat, way by) {
    m->seats[seat].due = (uint8_t)by;
    m->holder = seat;
}

/* Records a release of the seat that is inside, after the moves of its own, and hands the monitor on. */
static inline void release(monk_monitor *m, monk_seat *s, event e, int place) {
    int chosen = 0;
    e.seat = s->number;
    e.way = (uint8_t)choose(m, s, &chosen);
    e.chosen = (uint8_t)chosen;
    record(m, e);
    if (e.way != STAY) s->place = (uint8_t)place;
    switch (e.way) {
    case STAY: take_front(&m->signallers); return;
    case ENTRY:
        if (m->entry.count) make_due(m, take_front(&m->entry), HANDED);
        else m->holder = -1;
        return;
    case WAITER: make_due(m, take_front(&m->waiters), WAITER); return;
    case SIGNALLER: make_due(m, take_front(&m->signallers), SIGNALLER); return;
    case READY: take_out(&m->until, chosen), make_due(m, chosen, READY); return;
    }
}

static inline void free_seat(monk_seat *s) { s->taken = s->abandoned = 0; }

/* Moves the first who waits on a condition to the waiter queue, if there is one. */
static inline int serve(monk_monitor *m, unsigned condition) {
    if (!m->condition[condition].count) return 0;
    join(&m->waiters, take_front(&m->condition[condition]));
    return 1;
}

/* Lets an abandoned seat that is due come in. It passes on a signal that served it to the next who waits there, if it
 * has events enough; not a broadcast, which served all. Then it leaves, unless it waits after its signal. */
static inline void go_on_and_out(monk_monitor *m, monk_seat *s) {
    unsigned c = s->condition;
    int leaves = m->rules->mode == MONK_IMMEDIATE_RETURN;
    int signalled = s->due == WAITER && s->broadcasts == m->broadcasts[c];
    come_in(m, s);
    if (signalled && s->left >= (leaves ? 1 : 3) && serve(m, c)) {
        if (!leaves) join(&m->signallers, s->number);
        event e = {.verb = leaves ? SIGNAL_LEAVE : SIGNAL, .a = (uint8_t)c};
        release(m, s, e, leaves ? MONK_OUTSIDE : MONK_WAITING);
    }
    if (s->place == MONK_INSIDE) release(m, s, (event){.verb = LEAVE}, MONK_OUTSIDE);
    if (s->place == MONK_OUTSIDE) free_seat(s);
}

/* Seats that were abandoned come in when they are due. Returns whom to wake then, or -1. */
static inline int settle(monk_monitor *m) {
    for (;;) {
        monk_seat *s = m->holder < 0 ? NULL : &m->seats[m->holder];
        if (!s || !s->due) return -1;
        if (!s->abandoned) return s->number;
        go_on_and_out(m, s);
    }
}

#endif
