/* layer_calls.h - the calls of mutexes and conditions. Part of libmonk_pthread.c. */
#ifndef LAYER_CALLS_H
#define LAYER_CALLS_H

#include "layer_ends.h"

/* ---- Mutexes */

enum how { LOCK, TRY, TIMED, CLOCK };

/* A call that locks a mutex. */
struct locking {
    pthread_mutex_t *mutex;
    enum how how;
    clockid_t clock;
    const struct timespec *until;
    const void *from;
};

/* Whether the thread has it already, and is told so. */
static int is_told_own(const pthread_mutex_t *mutex) {
    int type = type_of(mutex), is_told = type == PTHREAD_MUTEX_RECURSIVE || type == PTHREAD_MUTEX_ERRORCHECK;
    return is_told && mutex->__data.__owner == self()->id;
}

/* EBUSY if turns are over. */
static int lock_by_turns(const struct locking *it) {
    int answer = EBUSY;
    clockid_t clock = it->how == CLOCK ? it->clock : CLOCK_REALTIME;
    int64_t until = it->until && is_clock(clock) && is_time(it->until) ? limit_by_turns(clock, it->until) : NEVER;
    while (is_by_turns(me) && (answer = real.trylock(it->mutex)) == EBUSY)
        if (sleep_by_turns(me, is_free, it->mutex, until) == LATE) return ETIMEDOUT;
    return answer;
}

/* For ever, if need be. */
static int lock_noted(const struct locking *it) {
    if (is_told_own(it->mutex)) return real.lock(it->mutex);
    int answer = real.trylock(it->mutex);
    if (answer != EBUSY) return answer;
    note_call("locks", it->from);
    return after_call(real.lock(it->mutex));
}

/* Whether a thread that can't have the mutex gives its turn up. (One of another process may have it.) */
static int is_locked_by_turns(const struct locking *it) {
    return is_by_turns(me) && it->how != TRY && !is_told_own(it->mutex) && !(it->mutex->__data.__kind & SHARED);
}

static inline int lock_really(const struct locking *it) {
    if (is_locked_by_turns(it)) {
        int answer = lock_by_turns(it);
        if (answer != EBUSY) return answer;
    }
    switch (it->how) {
    case TRY:
        return real.trylock(it->mutex);
    case TIMED:
        return real.timedlock(it->mutex, it->until);
    case CLOCK:
        return real.clocklock(it->mutex, it->clock, it->until);
    default:
        return lock_noted(it);
    }
}

/* The thread has it already. For a plain mutex that is a deadlock: the thread waits for itself. */
static int lock_again(struct monitor *m, const struct locking *it) {
    int type = type_of(it->mutex);
    if (type == PTHREAD_MUTEX_RECURSIVE) return m->depth++, 0;
    if (type == PTHREAD_MUTEX_ERRORCHECK && it->how != TRY) return EDEADLK;
    return EBUSY;
}

static int look_again(const struct locking *it, int answer);

/* By how long it may take. */
static int enter_for(struct monitor *m, const struct locking *it) {
    static const int answers[] = {[TOO_LATE] = ETIMEDOUT, [ENTERED] = 0};
    struct timespec limit;
    if (it->how == TRY && m->owner) return EBUSY;
    if (it->until) limit = monotonic(it->clock, it->until);
    enum entered how = enter(m, self(), it->how == TRY ? &no_time : it->until ? &limit : NULL, 1);
    if (how == STEPPED_DOWN) return look_again(it, lock_really(it));
    return it->how == TRY && how == TOO_LATE ? EBUSY : answers[how];
}

static int lock_monitor(struct monitor *m, const struct locking *it) {
    struct thread *t = self();
    int answer = m->owner == t ? lock_again(m, it) : 0, is_own = m->owner == t;
    if (is_own && (answer != EBUSY || it->how == TRY)) return answer;
    if (it->until && (!is_clock(it->clock) || !is_time(it->until))) return EINVAL;
    return enter_for(m, it);
}

/* Looks again once it has the mutex: it may have become a monitor while the thread slept there. */
static int look_again(const struct locking *it, int answer) {
    if (answer && answer != EOWNERDEAD) return answer;
    struct monitor *m = monitor_of(it->mutex);
    if (m) return real.unlock(it->mutex), lock_monitor(m, it);
    if (asked.eager > serials) promote_early(it->mutex);
    return answer;
}

static int lock_by(struct locking it) {
    init();
    begin_call("locks", it.from);
    struct monitor *m = monitor_of(it.mutex);
    return m ? lock_monitor(m, &it) : look_again(&it, lock_really(&it));
}

/* For an ordinary mutex the way is short. */
int pthread_mutex_lock(pthread_mutex_t *mutex) {
    int is = attention;
    if (is == ALL || (is == MONITORS && monitor_of(mutex)))
        return lock_by((struct locking){.mutex = mutex, .how = LOCK, .from = CALLER});
    int answer = real.lock(mutex);
    if (attention == NOTHING || !monitor_of(mutex)) return answer;
    return look_again(&(struct locking){.mutex = mutex, .how = LOCK, .from = CALLER}, answer);
}

int pthread_mutex_trylock(pthread_mutex_t *mutex) {
    return lock_by((struct locking){.mutex = mutex, .how = TRY, .from = CALLER});
}

int pthread_mutex_timedlock(pthread_mutex_t *mutex, const struct timespec *until) {
    return lock_by((struct locking){mutex, TIMED, CLOCK_REALTIME, until, CALLER});
}

int pthread_mutex_clocklock(pthread_mutex_t *mutex, clockid_t clock, const struct timespec *until) {
    return lock_by((struct locking){mutex, CLOCK, clock, until, CALLER});
}

static int unlock_monitor(struct monitor *m, const pthread_mutex_t *mutex, const void *from) {
    int type = type_of(mutex);
    if (m->owner != self() && (type == PTHREAD_MUTEX_RECURSIVE || type == PTHREAD_MUTEX_ERRORCHECK)) return EPERM;
    if (m->inside == NONE) return 0;
    look_at_owner(m, from);
    if (--m->depth <= 0) go_out(m);
    return 0;
}

/* By turns others may come after it: before it they would sleep at once. */
static int unlock_by(pthread_mutex_t *mutex, const void *from) {
    init();
    if (!is_by_turns(me)) shake();
    struct monitor *m = monitor_of(mutex);
    int answer = m ? unlock_monitor(m, mutex, from) : real.unlock(mutex);
    if (is_by_turns(me)) begin_call("unlocked", from);
    return answer;
}

int pthread_mutex_unlock(pthread_mutex_t *mutex) {
    int is = attention;
    return is == ALL || (is == MONITORS && monitor_of(mutex)) ? unlock_by(mutex, CALLER) : real.unlock(mutex);
}

int pthread_mutex_init(pthread_mutex_t *mutex, const pthread_mutexattr_t *attributes) {
    init();
    forget_mutex(mutex);
    return real.init(mutex, attributes);
}

int pthread_mutex_destroy(pthread_mutex_t *mutex) {
    init();
    struct monitor *m = monitor_of(mutex);
    if (m && m->owner) return EBUSY;
    forget_mutex(mutex);
    return real.destroy(mutex);
}

/* ---- Conditions */

/* With a mutex that is left alone. The condition may have been one of a monitor before: signals don't go there now. */
static int wait_really(struct locking it, pthread_cond_t *condition) {
    waits_left_alone++;
    forget_condition(condition);
    switch (it.how) {
    case TIMED:
        return real.timedwait(condition, it.mutex, it.until);
    case CLOCK:
        return real.clockwait(condition, it.mutex, it.clock, it.until);
    default:
        return real.wait(condition, it.mutex);
    }
}

enum { IS_MONOTONIC = 2 }; /* the bit of a condition that was made for this clock */

/* Where the program waits: what C++'s library calls is called for it. */
static const void *wait_place(struct thread *t, const void *from) {
    if (t->wait_of_cpp) from = t->wait_of_cpp;
    t->wait_of_cpp = NULL;
    t->from = from;
    return from;
}

static int wait_by(struct locking it, pthread_cond_t *condition, const void *from) {
    init();
    struct thread *t = self();
    from = wait_place(t, from);
    begin_call("waits", from);
    struct monitor *m = monitor_of(it.mutex);
    if (m && m->owner != t) return EPERM;
    if (attention == NOTHING) attention = MONITORS;
    be_watched();
    if (!m && !(asked.left_alone && is_named(from))) m = promote(it.mutex, t);
    if (it.how == TIMED) it.clock = condition->__data.__wrefs & IS_MONOTONIC ? CLOCK_MONOTONIC : CLOCK_REALTIME;
    if (it.until && (!is_clock(it.clock) || !is_time(it.until))) return EINVAL;
    if (it.until) look_at_clock(it.clock, it.until, from);
    if (m && !m->first_wait) m->first_wait = from;
    if (is_unasked(t)) return wake_unasked(m, t), 0;
    int answer = m ? wait_with(m, condition, it.clock, it.until) : NOT_HERE;
    return answer == NOT_HERE ? wait_really(it, condition) : answer;
}

int pthread_cond_wait(pthread_cond_t *condition, pthread_mutex_t *mutex) {
    return wait_by((struct locking){.mutex = mutex, .how = LOCK, .from = CALLER}, condition, CALLER);
}

/* std::condition_variable::wait(std::unique_lock<std::mutex>&) */
void _ZNSt18condition_variable4waitERSt11unique_lockISt5mutexE(void *condition, void *lock) {
    init();
    self()->wait_of_cpp = CALLER;
    if (!real.wait_of_cpp) *(void **)&real.wait_of_cpp = dlsym(RTLD_NEXT, __func__);
    real.wait_of_cpp(condition, lock);
}

int pthread_cond_timedwait(pthread_cond_t *condition, pthread_mutex_t *mutex, const struct timespec *until) {
    return wait_by((struct locking){mutex, TIMED, CLOCK_REALTIME, until, CALLER}, condition, CALLER);
}

int pthread_cond_clockwait(pthread_cond_t *condition, pthread_mutex_t *mutex, clockid_t clock,
                           const struct timespec *until) {
    return wait_by((struct locking){mutex, CLOCK, clock, until, CALLER}, condition, CALLER);
}

/* By a thread outside: the seat that is inside sends it. If nobody waits, there is nobody to serve. */
static void signal_from_outside(struct monitor *m, int k, int is_broadcast) {
    if (!count_queued(m, k)) return;
    m->outside++;
    atomic_fetch_add(&m->pending[k], is_broadcast ? a_broadcast : 1);
    atomic_store(&m->has_pending, 1);
    visit_if_pending(m, NULL);
}

/* Whether the condition is one of a monitor. */
static int is_signalled(const void *condition, int is_broadcast, const void *from) {
    init();
    begin_call(is_broadcast ? "broadcasts" : "signals", from);
    struct condition *c = condition_of(condition);
    struct monitor *m = c ? c->of : NULL;
    if (!m) return 0;
    struct thread *t = self();
    if (m->owner == t)
        signal_by(m, m->inside, c->number, is_broadcast, t);
    else
        signal_from_outside(m, c->number, is_broadcast);
    return 1;
}

static int signal_at(pthread_cond_t *condition, const void *from) {
    return is_signalled(condition, 0, from) ? 0 : real.signal(condition);
}

static int broadcast_at(pthread_cond_t *condition, const void *from) {
    return is_signalled(condition, 1, from) ? 0 : real.broadcast(condition);
}

int pthread_cond_signal(pthread_cond_t *condition) { return signal_at(condition, CALLER); }

int pthread_cond_broadcast(pthread_cond_t *condition) { return broadcast_at(condition, CALLER); }

int pthread_cond_init(pthread_cond_t *condition, const pthread_condattr_t *attributes) {
    init();
    forget_condition(condition);
    return real.cond_init(condition, attributes);
}

int pthread_cond_destroy(pthread_cond_t *condition) {
    init();
    return forget_condition(condition) ? 0 : real.cond_destroy(condition);
}

#endif
