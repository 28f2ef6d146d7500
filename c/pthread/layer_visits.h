/* layer_visits.h - threads come in and go out; how a mutex becomes a monitor, and ceases to be one. Part of
   libmonk_pthread.c. */
#ifndef LAYER_VISITS_H
#define LAYER_VISITS_H

#include "layer_descents.h"

static void go_out(struct monitor *m) {
    int n = m->inside;
    send_pending(m, n);
    monk_seat *seat = seat_in(m, n);
    note_outside(m);
    leave_by(m, seat);
    released(m);
    give_number(m, n);
    visit_if_pending(m, NULL);
}

/* MONK_WAITING if the limit is over (a time of CLOCK_MONOTONIC; null if there is none). MONK_STOPPED: another hall
   took this one's place. */
static int arrive_at(struct monitor *m, struct hall *h, int n, const struct timespec *limit) {
    if (!limit && !is_by_turns(me)) return monk_enter(h->seats[n]);
    if (sure(m, monk_arrive(h->seats[n]), "arrive") == MONK_INSIDE) return MONK_INSIDE;
    return limit == &no_time ? monk_await_until(h->seats[n], limit) : await_seat(h->seats[n], limit);
}

/* The thread goes away, and its seat waits on as a ghost, unless the hall in which it waits has been left meanwhile. */
static void stay_as_ghost(struct monitor *m, int n) {
    struct place *p = &m->places[n];
    take(&m->lock);
    if (m->hall == p->used) {
        atomic_fetch_add(&m->due, 1);
        p->standing = GHOST_LATE;
    } else {
        give_number(m, n);
    }
    let(&m->lock);
    look_after_ghosts(m);
}

enum entered { TOO_LATE, ENTERED, STEPPED_DOWN };

/* Whether it came in by this number before the limit was over. */
static enum entered come_in_by(struct monitor *m, int n, const struct timespec *limit) {
    struct place *p = &m->places[n];
    int answer = MONK_STOPPED;
    store(p->standing, AT_THE_ENTRY);
    while (answer == MONK_STOPPED) {
        struct hall *h = use(p, &m->hall);
        store(p->home, h);
        answer = arrive_at(m, h, n, limit);
        if (answer == MONK_STOPPED && m->has_stepped_down) return give_number(m, n), STEPPED_DOWN;
    }
    if (sure(m, answer, "enter") != MONK_WAITING) return ENTERED;
    stay_as_ghost(m, n);
    return TOO_LATE;
}

/* All numbers wait. The steward comes in, and the monitor steps down, unless it has meanwhile. */
static void step_down_as_steward(struct monitor *m, struct thread *t) {
    while (!m->has_stepped_down && !is_steward_free(m)) real.yield();
    if (m->has_stepped_down) return;
    lend(m, STEWARD, t);
    if (come_in_by(m, STEWARD, NULL) != ENTERED) return;
    note_inside(m, STEWARD, t, 1);
    step_down(m, STEWARD, 1, "has more than 31 waiters");
    give_number(m, STEWARD);
    real.unlock(mutex_below(m));
}

/* Whether the thread came in before the limit was over. The steward is lent if ghosts have all numbers: it leaves
   them behind in a new hall, and then the thread comes in by another number. */
static enum entered enter(struct monitor *m, struct thread *t, const struct timespec *limit, int depth) {
    for (;;) {
        int n = take_number(m, t);
        if (n == NONE) return step_down_as_steward(m, t), STEPPED_DOWN;
        enum entered how = come_in_by(m, n, limit);
        if (how != ENTERED) return how;
        note_inside(m, n, t, depth);
        renew_if_due(m, n);
        if (n != STEWARD) return ENTERED;
        if (may_renew(m)) renew(m, n);
        go_out(m);
    }
}

/* ---- Promotion. The thread that has a mutex makes it a monitor, while it has it. A thread that slept at the mutex
   looks again once it has it. So a thread that has the mutex, and finds no monitor, is inside. */

enum { TYPE_BITS = 3, ROBUST = 16, INHERITS = 32, PROTECTS = 64, SHARED = 128 };

static int type_of(const pthread_mutex_t *mutex) { return mutex->__data.__kind & TYPE_BITS; }

/* Whether it is in the list of places to be left alone, which has blanks between them. */
static int is_named(const void *address) {
    struct name name = name_of(address);
    size_t length = strlen(name.text);
    const char *at = asked.left_alone;
    for (; (at = strstr(at, name.text)); at += length) {
        int begins = at == asked.left_alone || at[-1] == ' ', ends = !at[length] || at[length] == ' ';
        if (begins && ends) return 1;
    }
    return 0;
}

/* Whether it is between processes, robust or with priorities; or named by the user; or locked by nobody we know. */
static int is_left_alone(const pthread_mutex_t *mutex, const struct thread *t) {
    if (mutex->__data.__kind & (ROBUST | INHERITS | PROTECTS | SHARED) || mutex->__data.__owner != t->id) return 1;
    return is_lowered(mutex) || (asked.left_alone && is_named(mutex));
}

/* Whether nothing for its last mutex is under way any more. */
static int is_unused(struct monitor *m) {
    if (!m->is_dead || m->has_stepped_down || m->free != (1u << NUMBERS) - 1 || m->has_steward) return 0;
    take(&m->lock);
    free_retired(m);
    let(&m->lock);
    return !m->retired;
}

/* A monitor whose mutex was destroyed, or a new one. Under the table's lock. */
static struct monitor *spare_monitor(void) {
    struct monitor *m = every_monitor;
    while (m && !is_unused(m)) m = m->next;
    if (m) return m;
    m = room_for(sizeof *m);
    m->is_dead = 1;
    m->next = every_monitor;
    every_monitor = m;
    return m;
}

static void set_up(struct monitor *m, const void *mutex, struct hall *h, int serial) {
    atomic_store(&m->known.address, mutex);
    m->serial = serial;
    m->deferred = m->inside = NONE;
    m->owner = NULL;
    m->first_wait = NULL;
    m->names = NO_NAMES;
    m->free = (1u << NUMBERS) - 1;
    m->due = m->transit = m->has_pending = m->wants_renewal = 0;
    m->volumes = m->timeouts = m->passed_on = m->taken_over = m->outside = m->late_renewals = 0;
    memset((void *)m->pending, 0, sizeof m->pending);
    memset((void *)m->conditions, 0, sizeof m->conditions);
    m->hall = h;
    m->is_dead = 0;
}

/* The monitor of a mutex that the thread has locked `times` times: the thread is inside. Null if there is no room. */
static struct monitor *make_monitor(pthread_mutex_t *mutex, struct thread *t, int times) {
    int serial = atomic_fetch_add(&serials, 1) + 1;
    struct hall *h = make_hall(1, serial);
    if (!h) return NULL;
    take(&monitors.lock);
    struct monitor *m = monitors.count < SLOTS / 2 ? spare_monitor() : NULL;
    if (m) {
        set_up(m, mutex, h, serial);
        enter(m, t, NULL, times);
        insert(&monitors, &m->known);
    }
    let(&monitors.lock);
    if (!m) free_hall(h);
    return m;
}

/* Null if the mutex is left what it is. */
static struct monitor *promote(pthread_mutex_t *mutex, struct thread *t) {
    if (is_left_alone(mutex, t)) return NULL;
    int times = type_of(mutex) == PTHREAD_MUTEX_RECURSIVE ? (int)mutex->__data.__count : 1;
    struct monitor *m = make_monitor(mutex, t, times);
    for (int i = 0; m && i < times; i++) real.unlock(mutex);
    return m;
}

/* Whether a wait may be named that is to leave the mutex alone: one on the heap or on a stack has no name. */
static int may_be_left(const pthread_mutex_t *mutex) {
    Dl_info in;
    return asked.left_alone && !(dladdr(mutex, &in) && in.dli_fname);
}

/* Promotes a mutex at its first lock, if fewer than asked for were. What locks meanwhile isn't the program. */
__attribute__((noinline, cold)) static void promote_early(pthread_mutex_t *mutex) {
    static __thread __attribute__((tls_model("initial-exec"))) int is_busy;
    if (is_busy || serials >= asked.eager || may_be_left(mutex)) return;
    is_busy = 1;
    promote(mutex, self());
    is_busy = 0;
}

/* ---- The end of a mutex */

/* All ghosts go. Under the monitor's lock. */
static void give_ghosts_back(struct monitor *m) {
    for (int n = 0; n < SEATS; n++)
        if (m->places[n].standing >= GHOST_WAITS) give_number(m, n);
}

/* The mutex is destroyed, or its memory is used for another. If somebody has it or waits, it stays: that is an error
   of the program. */
static void forget_mutex(const void *mutex) {
    struct monitor *m = monitor_of(mutex);
    forget_lowered(mutex);
    if (!m || m->owner || count_standing(m, WAITS) || enter(m, self(), &no_time, 1) != ENTERED) return;
    int n = m->inside;
    save_volume(m, m->hall, n);
    save_names(m);
    count_ended(m);
    forget_conditions(m);
    take(&monitors.lock);
    take_out(&monitors, &m->known);
    let(&monitors.lock);
    take(&m->lock);
    give_ghosts_back(m);
    m->places[n].used = NULL;
    retire(m, m->hall);
    note_outside(m);
    give_number(m, n);
    m->is_dead = 1;
    let(&m->lock);
}

#endif
