/* layer_c11.h - C11: in the C library a mtx_t is a pthread_mutex_t, and a cnd_t a pthread_cond_t. Part of
   libmonk_pthread.c. */
#ifndef LAYER_C11_H
#define LAYER_C11_H

#include "layer_calls.h"

static pthread_mutex_t *mutex_of(mtx_t *mutex) { return (pthread_mutex_t *)mutex; }

static pthread_cond_t *cond_of(cnd_t *condition) { return (pthread_cond_t *)condition; }

static int in_c11(int answer) {
    switch (answer) {
    case 0:
        return thrd_success;
    case ETIMEDOUT:
        return thrd_timedout;
    case EBUSY:
        return thrd_busy;
    case ENOMEM:
        return thrd_nomem;
    default:
        return thrd_error;
    }
}

int mtx_init(mtx_t *mutex, int type) {
    init();
    forget_mutex(mutex);
    return real.mtx_init(mutex, type);
}

void mtx_destroy(mtx_t *mutex) {
    init();
    forget_mutex(mutex);
    real.mtx_destroy(mutex);
}

int mtx_lock(mtx_t *mutex) {
    return in_c11(lock_by((struct locking){.mutex = mutex_of(mutex), .how = LOCK, .from = CALLER}));
}

int mtx_trylock(mtx_t *mutex) {
    return in_c11(lock_by((struct locking){.mutex = mutex_of(mutex), .how = TRY, .from = CALLER}));
}

int mtx_timedlock(mtx_t *restrict mutex, const struct timespec *restrict until) {
    return in_c11(lock_by((struct locking){mutex_of(mutex), TIMED, CLOCK_REALTIME, until, CALLER}));
}

int mtx_unlock(mtx_t *mutex) { return in_c11(unlock_by(mutex_of(mutex), CALLER)); }

int cnd_wait(cnd_t *condition, mtx_t *mutex) {
    return in_c11(wait_by((struct locking){.mutex = mutex_of(mutex), .how = LOCK}, cond_of(condition), CALLER));
}

int cnd_timedwait(cnd_t *restrict condition, mtx_t *restrict mutex, const struct timespec *restrict until) {
    return in_c11(wait_by((struct locking){mutex_of(mutex), TIMED, CLOCK_REALTIME, until, CALLER},
                          cond_of(condition), CALLER));
}

int cnd_signal(cnd_t *condition) { return in_c11(signal_at(cond_of(condition), CALLER)); }

int cnd_broadcast(cnd_t *condition) { return in_c11(broadcast_at(cond_of(condition), CALLER)); }

int cnd_init(cnd_t *condition) {
    init();
    forget_condition(condition);
    return real.cnd_init(condition);
}

void cnd_destroy(cnd_t *condition) {
    init();
    if (!forget_condition(condition)) real.cnd_destroy(condition);
}

#endif
