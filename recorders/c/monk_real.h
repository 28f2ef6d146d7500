/* The system's functions, which those of the recorder replace. Part of libmonk_log.c. */
#ifndef MONK_REAL_H
#define MONK_REAL_H

#include <dlfcn.h>
#include <pthread.h>
#include <signal.h>
#include <stdatomic.h>
#include <threads.h>
#include <time.h>

static struct {
    int (*init)(pthread_mutex_t *, const pthread_mutexattr_t *), (*destroy)(pthread_mutex_t *);
    int (*lock)(pthread_mutex_t *), (*trylock)(pthread_mutex_t *), (*unlock)(pthread_mutex_t *);
    int (*timedlock)(pthread_mutex_t *, const struct timespec *);
    int (*clocklock)(pthread_mutex_t *, clockid_t, const struct timespec *);
    int (*cond_init)(pthread_cond_t *, const pthread_condattr_t *), (*cond_destroy)(pthread_cond_t *);
    int (*wait)(pthread_cond_t *, pthread_mutex_t *);
    int (*timedwait)(pthread_cond_t *, pthread_mutex_t *, const struct timespec *);
    int (*clockwait)(pthread_cond_t *, pthread_mutex_t *, clockid_t, const struct timespec *);
    int (*signal)(pthread_cond_t *), (*broadcast)(pthread_cond_t *);
    int (*mtx_init)(mtx_t *, int), (*mtx_lock)(mtx_t *), (*mtx_trylock)(mtx_t *), (*mtx_unlock)(mtx_t *);
    int (*mtx_timedlock)(mtx_t *, const struct timespec *);
    void (*mtx_destroy)(mtx_t *), (*cnd_destroy)(cnd_t *);
    int (*cnd_init)(cnd_t *), (*cnd_signal)(cnd_t *), (*cnd_broadcast)(cnd_t *);
    int (*cnd_wait)(cnd_t *, mtx_t *), (*cnd_timedwait)(cnd_t *, mtx_t *, const struct timespec *);
    int (*sigaction)(int, const struct sigaction *, struct sigaction *);
    void (*(*set_signal)(int, void (*)(int)))(int);
    void (*end)(int);
    pid_t (*setsid)(void);
} real;

static atomic_int is_ready;

/* On these machines glibc has an old form of conditions by the same name, which dlsym would find. But another library
   that was loaded for the same reason as this one goes first. A version is asked for only with these names: if there
   is none, the loader makes a message, which asks for memory, and so may lock a mutex. */
static void *find_condition(const char *name) {
    void *next = dlsym(RTLD_NEXT, name);
#if defined __x86_64__ || defined __i386__
    void *newer = dlvsym(RTLD_NEXT, name, "GLIBC_2.3.2");
    Dl_info of_next, of_newer;
    if (next && newer && dladdr(next, &of_next) && dladdr(newer, &of_newer) && of_next.dli_fbase == of_newer.dli_fbase)
        return newer;
#endif
    return next;
}

#define FIND(field, name) (*(void **)&real.field = dlsym(RTLD_NEXT, name))
#define FIND_CONDITION(field, name) (*(void **)&real.field = find_condition(name))

static void find_mutexes(void) {
    FIND(lock, "pthread_mutex_lock");
    FIND(unlock, "pthread_mutex_unlock");
    FIND(trylock, "pthread_mutex_trylock");
    FIND(init, "pthread_mutex_init");
    FIND(destroy, "pthread_mutex_destroy");
    FIND(timedlock, "pthread_mutex_timedlock");
    FIND(clocklock, "pthread_mutex_clocklock");
    FIND(mtx_init, "mtx_init");
    FIND(mtx_lock, "mtx_lock");
    FIND(mtx_trylock, "mtx_trylock");
    FIND(mtx_timedlock, "mtx_timedlock");
    FIND(mtx_unlock, "mtx_unlock");
    FIND(mtx_destroy, "mtx_destroy");
}

static void find_conditions(void) {
    FIND_CONDITION(cond_init, "pthread_cond_init");
    FIND_CONDITION(cond_destroy, "pthread_cond_destroy");
    FIND_CONDITION(wait, "pthread_cond_wait");
    FIND_CONDITION(timedwait, "pthread_cond_timedwait");
    FIND_CONDITION(signal, "pthread_cond_signal");
    FIND_CONDITION(broadcast, "pthread_cond_broadcast");
    FIND(clockwait, "pthread_cond_clockwait");
    FIND(cnd_init, "cnd_init");
    FIND(cnd_destroy, "cnd_destroy");
    FIND(cnd_wait, "cnd_wait");
    FIND(cnd_timedwait, "cnd_timedwait");
    FIND(cnd_signal, "cnd_signal");
    FIND(cnd_broadcast, "cnd_broadcast");
}

__attribute__((noinline, cold)) static void find_all(void) {
    static int is_busy;
    if (is_busy)
        return;
    is_busy = 1;
    find_mutexes();
    find_conditions();
    FIND(sigaction, "sigaction");
    FIND(set_signal, "signal");
    FIND(end, "_exit");
    FIND(setsid, "setsid");
    atomic_store(&is_ready, 1);
}

/* The first call comes while the program has one thread. */
static inline void init(void) {
    if (!atomic_load_explicit(&is_ready, memory_order_relaxed))
        find_all();
}

#endif
