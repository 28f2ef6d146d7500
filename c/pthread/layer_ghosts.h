/* layer_ghosts.h - seats without a thread. They wait for entry or for a condition, though their thread doesn't want
   to wait any longer; or they carry a signal in. Once inside they do their errands, and leave. Part of
   libmonk_pthread.c. */
#ifndef LAYER_GHOSTS_H
#define LAYER_GHOSTS_H

#include "layer_signals.h"

/* The seat goes out, and sends the signal that was kept for this. */
static void leave_by(struct monitor *m, monk_seat *seat) {
    int condition = m->deferred;
    m->deferred = NONE;
    if (condition == NONE) {
        sure(m, monk_leave(seat), "leave");
        return;
    }
    serve(m, condition);
    sure(m, monk_signal_leave(seat, (unsigned)condition), "signal_leave");
}

/* What a ghost does once it is in. A signal that served it is passed on by the signaller, or by the ghost as it
   leaves. After its own signal it may be out. */
static void do_errands(struct monitor *m, int n) {
    struct place *p = &m->places[n];
    int passes_on = asked.mode == MONK_IMMEDIATE_RETURN && count_queued(m, p->condition);
    if (monk_left(p->home->seats[n]) < p->home->budget / 2) m->wants_renewal = 1;
    if (p->standing == GHOST_SERVED) m->transit--, m->deferred = passes_on ? p->condition : NONE;
    if (p->is_signaller) m->transit--, p->is_signaller = 0;
    if (p->standing == GHOST_LATE) send_pending(m, n);
}

/* Whether the ghost came in. Under the monitor's lock. */
static int look_after(struct monitor *m, int n) {
    struct place *p = &m->places[n];
    struct hall *h = p->home;
    int standing = p->standing;
    if ((standing != GHOST_LATE && standing != GHOST_SERVED) || !h || monk_poll(h->seats[n]) != MONK_INSIDE) return 0;
    do_errands(m, n);
    if (p->is_signaller) return 1; /* it signalled, and waits to come back in */
    atomic_fetch_sub(&m->due, 1);
    leave_by(m, h->seats[n]);
    give_number(m, n);
    return 1;
}

static int look_after_all(struct monitor *m) {
    int moved = 0;
    take(&m->lock);
    for (int n = 0; n < SEATS; n++) moved |= look_after(m, n);
    let(&m->lock);
    return moved;
}

static void look_after_ghosts(struct monitor *m) {
    while (atomic_load(&m->due) > 0 && look_after_all(m)) continue;
}

static void released(struct monitor *m) {
    if (atomic_load(&m->due) > 0) look_after_ghosts(m);
}

/* A number for a visit: the steward's if all others are lent. NONE if by now somebody else sends the signals: a
   thread that has come in, or this thread by its own seat, which a signal has served. It doesn't sleep for a number,
   because others may wait for its own seat. */
static int visiting_number(struct monitor *m, struct thread *t, const struct place *own) {
    for (;;) {
        int n = free_number(m, t);
        if (n == NONE && is_steward_free(m)) n = STEWARD;
        if (n != NONE) return lend(m, n, t);
        if (!atomic_load(&m->has_pending) || atomic_load(&m->owner) || (own && own->standing == SERVED)) return NONE;
        look_after_ghosts(m);
        if (is_by_turns(me))
            pass(me);
        else
            real.yield();
    }
}

/* A ghost visits to send the pending signals, so that no thread sleeps because it signals. */
static void visit(struct monitor *m, int n) {
    struct place *p = &m->places[n];
    take(&m->lock); /* no renewal now */
    struct hall *h = m->hall;
    p->used = p->home = h;
    sure(m, monk_arrive(h->seats[n]), "arrive");
    atomic_fetch_add(&m->due, 1);
    p->standing = GHOST_LATE;
    let(&m->lock);
    look_after_ghosts(m);
}

/* After the monitor was given up: sends signals that came too late for the seat that was inside, if nobody is inside
   now. The thread may wait by its own seat. */
static void visit_if_pending(struct monitor *m, const struct place *own) {
    if (!atomic_load(&m->has_pending) || atomic_load(&m->owner)) return;
    int n = visiting_number(m, self(), own);
    if (n != NONE) visit(m, n);
}

#endif
