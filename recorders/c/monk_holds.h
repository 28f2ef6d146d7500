/* Which thread holds which mutex: locks, unlocks, and owners that have ended. Part of libmonk_log.c. */
#ifndef MONK_HOLDS_H
#define MONK_HOLDS_H

#include "monk_outside.h"
#include "monk_sites.h"
#include <errno.h>

/* The types of a mutex, below what else its kind says. */
enum { EVERY_TYPE = 128 };

static inline void hold(struct monitor *m, struct thread *thread, int times) {
    m->times = times;
    atomic_store_explicit(&m->owner, thread, memory_order_relaxed);
    if (thread->depth < HELD)
        thread->held[thread->depth++] = m;
}

static inline void let_go(struct monitor *m, struct thread *thread) {
    int at = thread->depth - 1;
    atomic_store_explicit(&m->owner, 0, memory_order_relaxed);
    if (at >= 0 && thread->held[at] == m) {
        thread->depth = at;
        return;
    }
    while (at >= 0 && thread->held[at] != m)
        at--;
    if (at < 0)
        return;
    for (thread->depth--; at < thread->depth; at++)
        thread->held[at] = thread->held[at + 1];
}

static inline int holds(struct thread *thread, struct monitor *m) {
    return thread && m && atomic_load_explicit(&m->owner, memory_order_relaxed) == thread;
}

/* A thread ended while it held a robust mutex, which another has now. (Nobody looks at what the dead one holds.) */
SELDOM static void leave_for_dead(struct monitor *m, unsigned site) {
    struct thread *dead = atomic_load_explicit(&m->owner, memory_order_relaxed);
    if (!dead)
        return;
    put(present_log(m), dead, LEAVE, 0, site);
    atomic_store_explicit(&m->owner, 0, memory_order_relaxed);
}

/* A mutex that its thread has locked already is entered only once. */
static inline int entered(const void *mutex, int result, unsigned site) {
    if (result && result != EOWNERDEAD)
        return result;
    struct monitor *m = monitor_of(mutex, site);
    struct thread *thread = self();
    if (!m || !thread)
        return result;
    if (result)
        leave_for_dead(m, site);
    if (holds(thread, m)) {
        m->times++;
        return result;
    }
    refresh(m);
    if (atomic_load_explicit(&m->lost_one, memory_order_relaxed))
        renew(m);
    hold(m, thread, 1);
    m->entered_at = site;
    put(present_log(m), thread, ENTER, 0, site);
    return result;
}

/* Whether the system lets any thread unlock it. */
static int is_plain(const pthread_mutex_t *mutex) {
    int type = mutex->__data.__kind % EVERY_TYPE;
    return type == PTHREAD_MUTEX_TIMED_NP || type == PTHREAD_MUTEX_ADAPTIVE_NP;
}

/* The mutex is another thread's, so this one's line is noted as a signal from outside is: the owner may write a line
   meanwhile. From now on nobody holds it. */
SELDOM static void leave_of_another(struct monitor *m, const void *mutex, unsigned site) {
    struct thread *thread = self();
    if (!m || !thread || !atomic_load(&m->owner) || !is_plain(mutex))
        return;
    struct log *log = log_beside(m);
    if (log)
        note_leave(log, thread, site);
    atomic_store(&m->owner, 0);
}

/* Mostly it is the mutex that was locked last, which needn't be looked for. */
static inline void leave(const void *mutex, unsigned site) {
    struct thread *thread = me;
    struct monitor *m = thread && thread->depth ? thread->held[thread->depth - 1] : 0;
    if (!holds(thread, m) || m->known.address != mutex)
        m = monitor_of(mutex, site);
    if (!holds(thread, m)) {
        leave_of_another(m, mutex, site);
        return;
    }
    if (--m->times > 0)
        return;
    put(present_log(m), thread, LEAVE, 0, site);
    let_go(m, thread);
}

#endif
