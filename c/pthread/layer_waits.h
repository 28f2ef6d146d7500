/* layer_waits.h - waits on conditions, with and without a limit. Part of libmonk_pthread.c.

   A thread whose time is over makes its seat a ghost, if no signal has served it, and comes in by another seat. A
   signal that serves the ghost is passed on. A later wait of the thread on the same condition takes the ghost over,
   at its old place in the queue. */
#ifndef LAYER_WAITS_H
#define LAYER_WAITS_H

#include "layer_shakes.h"
#include "layer_visits.h"

enum { MS_A_SECOND = 1000, NS_A_SECOND = 1000000000, SLICE_NS = 200000000 };

struct wait {
    struct monitor *monitor;
    struct thread *thread;
    int number, depth, condition;
    const struct timespec *until; /* null: no limit */
    clockid_t clock;
};

/* ---- Times */

static int is_before(struct timespec a, struct timespec b) {
    return a.tv_sec < b.tv_sec || (a.tv_sec == b.tv_sec && a.tv_nsec < b.tv_nsec);
}

static struct timespec time_of(clockid_t clock) {
    struct timespec now;
    time_by_turns(clock, &now);
    return now;
}

/* The same time by the clock of limits, as the clocks are now; the present time if it is over. */
static struct timespec monotonic(clockid_t clock, const struct timespec *until) {
    struct timespec now = time_of_limits(), here = time_of(clock);
    if (!is_before(here, *until)) return now;
    now.tv_sec += until->tv_sec - here.tv_sec;
    now.tv_nsec += until->tv_nsec - here.tv_nsec;
    if (now.tv_nsec < 0) now.tv_sec--, now.tv_nsec += NS_A_SECOND;
    if (now.tv_nsec >= NS_A_SECOND) now.tv_sec++, now.tv_nsec -= NS_A_SECOND;
    return now;
}

/* When a wait wakes to look at its clock, which may have been set, and whether its thread was cancelled. */
static struct timespec next_look(clockid_t clock, const struct timespec *until) {
    struct timespec look = time_of_limits(), limit = until ? monotonic(clock, until) : look;
    look.tv_nsec += SLICE_NS;
    if (look.tv_nsec >= NS_A_SECOND) look.tv_sec++, look.tv_nsec -= NS_A_SECOND;
    return until && is_before(limit, look) ? limit : look;
}

static int is_over(clockid_t clock, const struct timespec *until) {
    return until && !is_before(time_of(clock), *until);
}

static int is_time(const struct timespec *time) { return time->tv_nsec >= 0 && time->tv_nsec < NS_A_SECOND; }

static int is_clock(clockid_t clock) { return clock == CLOCK_REALTIME || clock == CLOCK_MONOTONIC; }

/* ---- Numbers of conditions */

static int number_with(struct monitor *m, const void *address) {
    int k = 0;
    while (k < CONDITIONS && m->conditions[k] != address) k++;
    return k < CONDITIONS ? k : NONE;
}

static int number_without(struct monitor *m, int (*count)(struct monitor *, int)) {
    int k = 0;
    while (k < CONDITIONS && count(m, k)) k++;
    return k < CONDITIONS ? k : NONE;
}

/* The number that the condition had (it may have gone to another mutex, and come back), else one that was never used,
   else one where nobody waits; last, one where only ghosts wait, because they pass each signal on. */
static int spare_number(struct monitor *m, const void *address) {
    int k = number_with(m, address);
    if (k == NONE) k = number_with(m, NULL);
    if (k == NONE) k = number_without(m, count_queued);
    return k == NONE ? number_without(m, count_waiting) : k;
}

static void use_number(struct monitor *m, int k, struct condition *c) {
    const void *before = m->conditions[k];
    struct condition *old = before ? condition_of(before) : NULL;
    if (old && old->of == m && old->number == k) old->of = NULL;
    m->conditions[k] = c->known.address;
    m->pending[k] = 0;
    c->number = k;
    atomic_store(&c->of, m);
}

/* NONE: eight others have waiters. */
static int number_of(struct monitor *m, const void *address) {
    struct condition *c = make_condition(address);
    if (c->of == m && m->conditions[c->number] == address) return c->number;
    look_at_mutexes(c, m);
    int k = spare_number(m, address);
    if (k != NONE) use_number(m, k, c);
    return k;
}

/* ---- A wait */

/* The ghost of this thread that waits on this condition. */
static int own_ghost(const struct wait *w) {
    struct monitor *m = w->monitor;
    for (int n = 0; n < NUMBERS && m->deferred == NONE; n++) {
        struct place *p = &m->places[n];
        if (p->standing == GHOST_WAITS && p->who == w->thread && p->condition == w->condition) return n;
    }
    return NONE;
}

static void take_over(struct wait *w, int ghost) {
    struct monitor *m = w->monitor;
    monk_seat *seat = seat_in(m, w->number);
    struct place *p = &m->places[ghost];
    m->taken_over++;
    atomic_store(&p->used, p->home);
    p->standing = WAITS;
    note_outside(m);
    leave_by(m, seat);
    released(m);
    give_number(m, w->number);
    w->number = ghost;
}

static void start_wait(struct wait *w) {
    struct monitor *m = w->monitor;
    struct place *p = &m->places[w->number];
    monk_seat *seat = seat_in(m, w->number);
    unsigned condition = (unsigned)w->condition;
    int signals = m->deferred;
    m->deferred = NONE;
    if (signals != NONE) serve(m, signals);
    p->condition = w->condition;
    p->ticket = m->tickets++;
    p->home = m->hall;
    p->standing = WAITS;
    note_outside(m);
    sure(m,
         signals == NONE ? monk_start_wait(seat, condition)
                         : monk_start_signal_wait(seat, (unsigned)signals, condition),
         "wait");
    released(m);
}

static void begin_wait(struct wait *w) {
    struct monitor *m = w->monitor;
    int hands_over = asked.mode == MONK_BLOCKING || asked.mode == MONK_QUASI_BLOCKING;
    if (hands_over)
        keep_pending(m);
    else
        send_pending(m, w->number);
    renew_if_due(m, w->number);
    int ghost = own_ghost(w);
    if (ghost != NONE)
        take_over(w, ghost);
    else
        start_wait(w);
    visit_if_pending(m, &m->places[w->number]);
}

/* Whether the thread is to end now: it was cancelled, and allows that. */
static int is_to_end(struct thread *t) {
    int state = PTHREAD_CANCEL_DISABLE;
    if (!t->is_cancelled) return 0;
    pthread_setcancelstate(PTHREAD_CANCEL_DISABLE, &state);
    pthread_setcancelstate(state, NULL);
    return state == PTHREAD_CANCEL_ENABLE;
}

extern void __asan_handle_no_return(void) __attribute__((weak)); /* AddressSanitizer's */

/* The frames of a thread that ends here are left without a return, which AddressSanitizer doesn't see by itself. */
static void end_if_cancelled(struct thread *t) {
    if (t->is_cancelled && __asan_handle_no_return) __asan_handle_no_return();
    pthread_testcancel();
}

/* Whether the seat is given up: its time is over or its thread is to end, and no signal has served it. */
static int is_given_up(struct wait *w, struct place *p) {
    int is = WAITS;
    if (!is_over(w->clock, w->until) && !is_to_end(w->thread)) return 0;
    return atomic_compare_exchange_strong(&p->standing, &is, GHOST_WAITS);
}

/* Until it is called, or it is time to look again: by turns that is only when its time is over. */
static int sleep_a_while(struct wait *w, struct place *p, monk_seat *seat) {
    const struct timespec *until = p->standing == SERVED ? NULL : w->until;
    if (is_by_turns(w->thread)) {
        w->thread->turn.may_end = 1;
        int answer = await_by_turns(w->thread, seat, until ? limit_by_turns(w->clock, until) : NEVER);
        w->thread->turn.may_end = 0;
        if (answer != MONK_WAITING || !turns.is_over) return answer;
    }
    struct timespec look = next_look(w->clock, until);
    return monk_await_until(seat, &look);
}

enum slept { GIVEN_UP, WAS_SERVED, WAS_LEFT };

/* Whether a signal served the seat, or it was given up, or its monitor has stepped down. */
static enum slept sleep_through(struct wait *w) {
    struct monitor *m = w->monitor;
    struct place *p = &m->places[w->number];
    for (;;) {
        struct hall *h = use(p, &p->home);
        int answer = sleep_a_while(w, p, h->seats[w->number]);
        if (answer == MONK_INSIDE) return WAS_SERVED;
        if (answer == MONK_STOPPED && m->has_stepped_down) return WAS_LEFT;
        if (answer == MONK_STOPPED) continue;
        sure(m, answer, "wait");
        if (is_given_up(w, p)) return GIVEN_UP;
    }
}

static void end_served(struct wait *w) {
    struct monitor *m = w->monitor;
    if (m->places[w->number].standing != SERVED) refuse_of(m, "the kernel served another seat than expected");
    m->transit--;
    note_inside(m, w->number, w->thread, w->depth);
    renew_if_due(m, w->number);
}

/* The thread is inside again, by another number. If it was cancelled, it ends here, while its clean-up handlers have
   the mutex. */
static int end_given_up(struct wait *w) {
    struct monitor *m = w->monitor;
    int is_late = is_over(w->clock, w->until);
    m->places[w->number].used = NULL;
    m->timeouts++;
    if (enter(m, w->thread, NULL, w->depth) == STEPPED_DOWN) lock_below(m, w->depth);
    if (is_late) return ETIMEDOUT;
    end_if_cancelled(w->thread);
    w->thread->is_cancelled = 0; /* the mark was for another of the same name */
    return 0;
}

/* The thread woke unasked, because its monitor has stepped down. */
static int end_left(struct wait *w) {
    give_number(w->monitor, w->number);
    lock_below(w->monitor, w->depth);
    end_if_cancelled(w->thread);
    return is_over(w->clock, w->until) ? ETIMEDOUT : 0;
}

enum { NOT_HERE = -1 };

/* The wait of pthread_cond_wait and the like by the thread that is inside: 0 or ETIMEDOUT. NOT_HERE: the monitor has
   stepped down, and the thread has the mutex to wait with. */
static int wait_with(struct monitor *m, const void *condition, clockid_t clock, const struct timespec *until) {
    struct wait w = {
        .monitor = m, .thread = self(), .number = m->inside, .depth = m->depth, .until = until, .clock = clock};
    end_if_cancelled(w.thread);
    w.condition = number_of(m, condition);
    if (w.condition == NONE) {
        step_down(m, w.number, w.depth, "has more than 8 conditions with waiters");
        give_number(m, w.number);
        return NOT_HERE;
    }
    begin_wait(&w);
    w.thread->sleeps = !until;
    enum slept how = sleep_through(&w);
    w.thread->sleeps = 0;
    if (how == WAS_LEFT) return end_left(&w);
    if (how == GIVEN_UP) return end_given_up(&w);
    end_served(&w);
    return 0;
}

/* ---- Waits that wake unasked */

/* A wait that nobody has to end, by the thread that is inside, as POSIX allows. It comes back at once, or others may
   come in between. A mutex that is left alone (null) isn't given up. */
static void wake_unasked(struct monitor *m, struct thread *t) {
    end_if_cancelled(t);
    if (!m || roll(t) % 2) return;
    int depth = m->depth;
    go_out(m);
    if (is_by_turns(t))
        pass(t);
    else
        real.yield();
    if (enter(m, t, NULL, depth) == STEPPED_DOWN) lock_below(m, depth);
}

#endif
