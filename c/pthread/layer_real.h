/* layer_real.h - the system's functions that those of the layer replace. Part of libmonk_pthread.c. */
#ifndef LAYER_REAL_H
#define LAYER_REAL_H

#include <dlfcn.h>
#include <pthread.h>
#include <semaphore.h>
#include <signal.h>
#include <sys/time.h>
#include <sys/types.h>
#include <threads.h>
#include <time.h>

static struct {
    int (*lock)(pthread_mutex_t *), (*trylock)(pthread_mutex_t *), (*unlock)(pthread_mutex_t *);
    int (*timedlock)(pthread_mutex_t *, const struct timespec *);
    int (*clocklock)(pthread_mutex_t *, clockid_t, const struct timespec *);
    int (*init)(pthread_mutex_t *, const pthread_mutexattr_t *), (*destroy)(pthread_mutex_t *);
    int (*cond_init)(pthread_cond_t *, const pthread_condattr_t *), (*cond_destroy)(pthread_cond_t *);
    int (*wait)(pthread_cond_t *, pthread_mutex_t *);
    int (*timedwait)(pthread_cond_t *, pthread_mutex_t *, const struct timespec *);
    int (*clockwait)(pthread_cond_t *, pthread_mutex_t *, clockid_t, const struct timespec *);
    int (*signal)(pthread_cond_t *), (*broadcast)(pthread_cond_t *);
    int (*mtx_init)(mtx_t *, int), (*cnd_init)(cnd_t *);
    void (*mtx_destroy)(mtx_t *), (*cnd_destroy)(cnd_t *);
    int (*cancel)(pthread_t);
    int (*create)(pthread_t *, const pthread_attr_t *, void *(*)(void *), void *);
    int (*thrd_create)(thrd_t *, thrd_start_t, void *);
    int (*join)(pthread_t, void **), (*thrd_join)(thrd_t, int *);
    int (*sem_wait)(sem_t *), (*sem_trywait)(sem_t *), (*sem_post)(sem_t *);
    int (*sem_timedwait)(sem_t *, const struct timespec *);
    int (*sem_clockwait)(sem_t *, clockid_t, const struct timespec *);
    int (*read_lock)(pthread_rwlock_t *), (*try_read_lock)(pthread_rwlock_t *);
    int (*write_lock)(pthread_rwlock_t *), (*try_write_lock)(pthread_rwlock_t *), (*rwlock_unlock)(pthread_rwlock_t *);
    int (*barrier_wait)(pthread_barrier_t *);
    int (*clock_gettime)(clockid_t, struct timespec *), (*gettimeofday)(struct timeval *, void *);
    time_t (*time)(time_t *);
    int (*nanosleep)(const struct timespec *, struct timespec *), (*usleep)(useconds_t), (*yield)(void);
    int (*clock_nanosleep)(clockid_t, int, const struct timespec *, struct timespec *);
    unsigned (*sleep)(unsigned);
    void (*wait_of_cpp)(void *, void *);
    long (*syscall)(long, ...);
    ssize_t (*read)(int, void *, size_t), (*write)(int, const void *, size_t);
    ssize_t (*recv)(int, void *, size_t, int), (*send)(int, const void *, size_t, int);
    int (*sigaction)(int, const struct sigaction *, struct sigaction *);
    void (*(*set_signal)(int, void (*)(int)))(int);
    void (*end)(int);
} real;

#define FIND(field, name) (*(void **)&real.field = dlsym(RTLD_NEXT, name))

/* The x86-64 library has these conditions twice; programs use the later ones. */
static void *condition_function(const char *name) {
    void *found = dlvsym(RTLD_NEXT, name, "GLIBC_2.3.2");
    return found ? found : dlsym(RTLD_NEXT, name);
}

#define FIND_CONDITION(field, name) (*(void **)&real.field = condition_function(name))

/* Functions of mutexes come first: an allocator may lock a mutex of its own while the others are looked for. */
static void find_functions(void) {
    FIND(syscall, "syscall");
    FIND(lock, "pthread_mutex_lock");
    FIND(unlock, "pthread_mutex_unlock");
    FIND(trylock, "pthread_mutex_trylock");
    FIND(timedlock, "pthread_mutex_timedlock");
    FIND(clocklock, "pthread_mutex_clocklock");
    FIND(init, "pthread_mutex_init");
    FIND(destroy, "pthread_mutex_destroy");
    FIND(clock_gettime, "clock_gettime");
    FIND_CONDITION(cond_init, "pthread_cond_init");
    FIND_CONDITION(cond_destroy, "pthread_cond_destroy");
    FIND_CONDITION(wait, "pthread_cond_wait");
    FIND_CONDITION(timedwait, "pthread_cond_timedwait");
    FIND_CONDITION(signal, "pthread_cond_signal");
    FIND_CONDITION(broadcast, "pthread_cond_broadcast");
    FIND(clockwait, "pthread_cond_clockwait");
    FIND(mtx_init, "mtx_init");
    FIND(mtx_destroy, "mtx_destroy");
    FIND(cnd_init, "cnd_init");
    FIND(cnd_destroy, "cnd_destroy");
    FIND(cancel, "pthread_cancel");
    FIND(create, "pthread_create");
    FIND(thrd_create, "thrd_create");
    FIND(join, "pthread_join");
    FIND(thrd_join, "thrd_join");
    FIND(sem_wait, "sem_wait");
    FIND(sem_trywait, "sem_trywait");
    FIND(sem_post, "sem_post");
    FIND(sem_timedwait, "sem_timedwait");
    FIND(sem_clockwait, "sem_clockwait");
    FIND(read_lock, "pthread_rwlock_rdlock");
    FIND(try_read_lock, "pthread_rwlock_tryrdlock");
    FIND(write_lock, "pthread_rwlock_wrlock");
    FIND(try_write_lock, "pthread_rwlock_trywrlock");
    FIND(rwlock_unlock, "pthread_rwlock_unlock");
    FIND(barrier_wait, "pthread_barrier_wait");
    FIND(gettimeofday, "gettimeofday");
    FIND(time, "time");
    FIND(nanosleep, "nanosleep");
    FIND(clock_nanosleep, "clock_nanosleep");
    FIND(usleep, "usleep");
    FIND(sleep, "sleep");
    FIND(yield, "sched_yield");
    FIND(wait_of_cpp, "_ZNSt18condition_variable4waitERSt11unique_lockISt5mutexE");
    FIND(read, "read");
    FIND(write, "write");
    FIND(recv, "recv");
    FIND(send, "send");
    FIND(sigaction, "sigaction");
    FIND(set_signal, "signal");
    FIND(end, "_exit");
}

#endif
