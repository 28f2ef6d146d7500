/* layer_signals.h - signals from inside, and those from outside, which the seat that is inside sends. Part of
   libmonk_pthread.c.

   A ghost signals too, if it was made to carry a signal in. It has no thread then (the thread is null), so nobody
   sleeps for it. */
#ifndef LAYER_SIGNALS_H
#define LAYER_SIGNALS_H

#include "layer_halls.h"

/* ---- Sleeping until a seat is called */

static const struct timespec no_time; /* a limit that is over */

/* Whether its turn at the monitor has come, or its hall was left. */
static int is_called(struct thread *t) {
    t->turn.answer = monk_await_until((monk_seat *)(uintptr_t)t->turn.what, &no_time);
    return t->turn.answer != MONK_WAITING;
}

/* By turns, as monk_await_until. MONK_WAITING also if turns are over. A thread that is cancelled looks too. */
static int await_by_turns(struct thread *t, monk_seat *seat, int64_t until) {
    int answer = monk_await_until(seat, &no_time);
    if (answer != MONK_WAITING) return answer;
    t->turn.answer = MONK_WAITING;
    sleep_by_turns(t, is_called, seat, until);
    return t->turn.answer;
}

/* As monk_await_until; null: no limit. */
static int await_seat(monk_seat *seat, const struct timespec *limit) {
    int answer = MONK_WAITING;
    if (is_by_turns(me)) {
        answer = await_by_turns(me, seat, limit ? limit_by_turns(CLOCK_MONOTONIC, limit) : NEVER);
        if (answer != MONK_WAITING || !turns.is_over) return answer;
    }
    return limit ? monk_await_until(seat, limit) : monk_await(seat, -1);
}

/* ---- Releases and signals */

/* Lets ghosts come in if it is their turn. It follows each release. */
static void released(struct monitor *m);

/* Locks the mutex of a monitor that has stepped down. */
static void lock_below(struct monitor *m, int times);

static const int64_t a_broadcast = (int64_t)1 << 32; /* among pending signals; a signal is 1 */

static monk_seat *seat_in(struct monitor *m, int n) {
    struct hall *h = m->hall;
    return h->seats[n];
}

/* From inside, so nobody else counts at the same time. */
static void count_step(struct monitor *m) {
    store(m->steps, atomic_load_explicit(&m->steps, memory_order_relaxed) + 1);
}

static void note_inside(struct monitor *m, int n, struct thread *t, int depth) {
    store(m->places[n].standing, INSIDE);
    store(m->inside, n);
    m->depth = depth;
    atomic_store(&m->owner, t);
    count_step(m);
}

/* Before the release: after this, a signal from outside finds nobody inside, and isn't left to this thread. */
static void note_outside(struct monitor *m) {
    count_step(m);
    store(m->inside, NONE);
    atomic_store(&m->owner, NULL);
}

/* The thread gives the monitor up to the one that it signalled, and sleeps until it has it back. */
static void signal_and_return(struct monitor *m, int n, int condition, struct thread *t) {
    monk_seat *seat = seat_in(m, n);
    int depth = m->depth, answer = MONK_INSIDE;
    m->places[n].standing = SIGNALS;
    note_outside(m);
    if (sure(m, monk_start_signal(seat, (unsigned)condition), "signal") == MONK_WAITING) {
        released(m);
        answer = await_seat(seat, NULL);
    }
    if (answer == MONK_STOPPED && m->has_stepped_down) {
        give_number(m, n);
        lock_below(m, depth);
        return;
    }
    sure(m, answer, "signal");
    note_inside(m, n, t, depth);
    m->transit--;
}

static void signal_as_ghost(struct monitor *m, int n, int condition) {
    m->places[n].is_signaller = 1;
    if (sure(m, monk_start_signal(seat_in(m, n), (unsigned)condition), "signal") != MONK_INSIDE) return;
    m->places[n].is_signaller = 0;
    m->transit--;
}

static enum served signal_once(struct monitor *m, int n, int condition, struct thread *t) {
    enum served served = serve(m, condition);
    if (asked.mode == MONK_NON_BLOCKING || served == SERVED_NOBODY) {
        sure(m, monk_signal(seat_in(m, n), (unsigned)condition), "signal");
        return served;
    }
    m->transit++;
    if (t)
        signal_and_return(m, n, condition, t);
    else
        signal_as_ghost(m, n, condition);
    return served;
}

/* An immediate-return kind keeps the signal to the next release. */
static void defer_signal(struct monitor *m, int condition, int is_broadcast) {
    int count = count_queued(m, condition);
    const char *what = NULL;
    if (!count) return;
    if (is_broadcast && count > 1)
        what = "a broadcast to more than one";
    else if (m->deferred != NONE && (m->deferred != condition || count > 1))
        what = "two signals in one visit";
    if (what) refuse_of(m, "%s, which a monitor of immediate return can't do", what);
    m->deferred = condition;
}

static void broadcast_at_once(struct monitor *m, int n, int condition) {
    while (serve(m, condition) != SERVED_NOBODY) continue;
    sure(m, monk_broadcast(seat_in(m, n), (unsigned)condition), "broadcast");
}

static int is_still_inside(struct monitor *m, int n, const struct thread *t) {
    return t ? m->inside == n : !m->places[n].is_signaller;
}

/* A ghost that signals may be out before all signals are sent: it sends the rest when it is back. */
static void keep_rest(struct monitor *m, int condition, int count) {
    if (count <= 0) return;
    atomic_fetch_add(&m->pending[condition], count);
    atomic_store(&m->has_pending, 1);
}

/* If signals hand the monitor over, a broadcast is as many signals as seats wait at its beginning. */
static void signal_each(struct monitor *m, int n, int condition, struct thread *t) {
    int count = count_queued(m, condition);
    for (; count > 0 && is_still_inside(m, n, t); count--) signal_once(m, n, condition, t);
    keep_rest(m, condition, count);
}

/* A signal that met a ghost is sent again. */
static void signal_one(struct monitor *m, int n, int condition, struct thread *t) {
    enum served served = SERVED_GHOST;
    while (served == SERVED_GHOST && is_still_inside(m, n, t)) served = signal_once(m, n, condition, t);
    keep_rest(m, condition, served == SERVED_GHOST);
}

/* By the seat n that is inside. */
static void signal_by(struct monitor *m, int n, int condition, int is_broadcast, struct thread *t) {
    if (asked.mode == MONK_IMMEDIATE_RETURN) {
        defer_signal(m, condition, is_broadcast);
        return;
    }
    if (t) renew_if_due(m, n);
    if (!is_broadcast && asked.mend != BROADCASTS)
        signal_one(m, n, condition, t);
    else if (asked.mode == MONK_NON_BLOCKING)
        broadcast_at_once(m, n, condition);
    else
        signal_each(m, n, condition, t);
}

/* ---- Signals of threads that were outside, sent by the seat n that is inside before it releases the monitor */

/* Whether a signal is pending. A broadcast takes all that are. */
static int take_pending(struct monitor *m, int condition, int *is_broadcast) {
    int64_t is = atomic_load(&m->pending[condition]);
    *is_broadcast = is >= a_broadcast;
    if (is) atomic_fetch_sub(&m->pending[condition], *is_broadcast ? is : 1);
    return is != 0;
}

/* Whether all were sent: a ghost that signalled may be out, and an immediate-return kind signals once a visit. */
static int send_pending_of(struct monitor *m, int n, int condition, struct thread *t) {
    int is_broadcast;
    while (m->deferred == NONE && take_pending(m, condition, &is_broadcast)) {
        signal_by(m, n, condition, is_broadcast, t);
        if (!t && m->places[n].is_signaller) return 0;
    }
    return !m->pending[condition];
}

static void send_pending(struct monitor *m, int n) {
    struct thread *t = m->inside == n ? m->owner : NULL;
    if (!atomic_load(&m->has_pending)) return;
    atomic_store(&m->has_pending, 0);
    for (int k = 0; k < CONDITIONS; k++) {
        if (send_pending_of(m, n, k, t)) continue;
        atomic_store(&m->has_pending, 1);
        return;
    }
}

/* If a signal gives the monitor up, none may be sent between the program's test and its wait: what was tested might
   not hold any more. They are kept until after the wait. No more are kept than have somebody to serve by now, so that
   they don't serve this wait. */
static void keep_pending_of(struct monitor *m, int condition) {
    int64_t is = atomic_load(&m->pending[condition]), most;
    do {
        int waiting = count_queued(m, condition);
        most = is >= a_broadcast || is > waiting ? waiting : is;
    } while (is != most && !atomic_compare_exchange_weak(&m->pending[condition], &is, most));
}

static void keep_pending(struct monitor *m) {
    for (int k = 0; k < CONDITIONS; k++) keep_pending_of(m, k);
}

#endif
