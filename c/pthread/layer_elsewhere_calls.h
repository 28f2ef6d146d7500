/* layer_elsewhere_calls.h - the calls of layer_elsewhere.h as programs make them. Part of libmonk_pthread.c. */
#ifndef LAYER_ELSEWHERE_CALLS_H
#define LAYER_ELSEWHERE_CALLS_H

#include "layer_elsewhere.h"

int pthread_join(pthread_t thread, void **answer) {
    init();
    note_call("joins", CALLER);
    await_end(thread, CALLER);
    return after_call(real.join(thread, answer));
}

int thrd_join(thrd_t thread, int *answer) {
    init();
    note_call("joins", CALLER);
    await_end(thread, CALLER);
    return after_call(real.thrd_join(thread, answer));
}

int sem_wait(sem_t *semaphore) { return wait_for_semaphore(semaphore, CLOCK_REALTIME, NULL, CALLER); }

int sem_timedwait(sem_t *restrict semaphore, const struct timespec *restrict until) {
    return wait_for_semaphore(semaphore, CLOCK_REALTIME, until, CALLER);
}

int sem_clockwait(sem_t *restrict semaphore, clockid_t clock, const struct timespec *restrict until) {
    return wait_for_semaphore(semaphore, clock, until, CALLER);
}

int sem_trywait(sem_t *semaphore) {
    init();
    begin_call("tries a semaphore", CALLER);
    return real.sem_trywait(semaphore);
}

int sem_post(sem_t *semaphore) {
    init();
    begin_call("posts", CALLER);
    return real.sem_post(semaphore);
}

int pthread_rwlock_rdlock(pthread_rwlock_t *lock) {
    init();
    note_call("locks to read", CALLER);
    return after_call(lock_rwlock(lock, real.try_read_lock, real.read_lock));
}

int pthread_rwlock_wrlock(pthread_rwlock_t *lock) {
    init();
    note_call("locks to write", CALLER);
    return after_call(lock_rwlock(lock, real.try_write_lock, real.write_lock));
}

int pthread_rwlock_unlock(pthread_rwlock_t *lock) {
    init();
    int answer = real.rwlock_unlock(lock);
    rwlock_unlocks++;
    begin_call("unlocked", CALLER);
    return answer;
}

int pthread_barrier_wait(pthread_barrier_t *barrier) {
    init();
    note_call("waits at a barrier", CALLER);
    return after_call(meet(barrier));
}

int nanosleep(const struct timespec *time, struct timespec *rest) {
    return sleeps_by_turns(time, CALLER) ? 0 : real.nanosleep(time, rest);
}

int clock_nanosleep(clockid_t clock, int flags, const struct timespec *time, struct timespec *rest) {
    init();
    struct timespec length = *time;
    if (is_by_turns(me) && flags & TIMER_ABSTIME) {
        int64_t ns = limit_by_turns(clock, time) - turns.now;
        length = later((struct timespec){0, 0}, ns > 0 ? ns : 0);
    }
    return sleeps_by_turns(&length, CALLER) ? 0 : real.clock_nanosleep(clock, flags, time, rest);
}

enum { US_A_SECOND = 1000000, NS_A_US = 1000 };

int usleep(useconds_t us) {
    struct timespec time = {us / US_A_SECOND, us % US_A_SECOND * NS_A_US};
    return sleeps_by_turns(&time, CALLER) ? 0 : real.usleep(us);
}

unsigned sleep(unsigned seconds) {
    struct timespec time = {seconds, 0};
    return sleeps_by_turns(&time, CALLER) ? 0 : real.sleep(seconds);
}

int thrd_sleep(const struct timespec *time, struct timespec *rest) {
    return sleeps_by_turns(time, CALLER) ? 0 : real.nanosleep(time, rest);
}

/* A thread that lets others go first does so in turns too. */
static int yield_by(const void *at) {
    init();
    if (!is_by_turns(me)) return real.yield();
    yield_turn(me);
    return give_turn(me, "yields", at), 0;
}

int sched_yield(void) { return yield_by(CALLER); }

void thrd_yield(void) { yield_by(CALLER); }

ssize_t read(int file, void *bytes, size_t size) {
    await_file(file, POLLIN, "reads", CALLER);
    return real.read(file, bytes, size);
}

ssize_t write(int file, const void *bytes, size_t size) {
    await_file(file, POLLOUT, "writes", CALLER);
    return real.write(file, bytes, size);
}

ssize_t recv(int file, void *bytes, size_t size, int flags) {
    await_file(file, POLLIN, "receives", CALLER);
    return real.recv(file, bytes, size, flags);
}

ssize_t send(int file, const void *bytes, size_t size, int flags) {
    await_file(file, POLLOUT, "sends", CALLER);
    return real.send(file, bytes, size, flags);
}

/* (A system call has six words at most.) */
long syscall(long number, ...) {
    long words[6];
    va_list list;
    va_start(list, number);
    for (int i = 0; i < 6; i++) words[i] = va_arg(list, long);
    va_end(list);
    init();
    if (is_wait_at_futex(number, words[1], CALLER)) count_elsewhere(FUTEXES, 1);
    return real.syscall(number, words[0], words[1], words[2], words[3], words[4], words[5]);
}

/* ---- Time, which stands still while nobody has a turn */

int clock_gettime(clockid_t clock, struct timespec *now) {
    init();
    return time_by_turns(clock, now);
}

int gettimeofday(struct timeval *restrict now, void *restrict zone) {
    struct timespec time;
    init();
    if (!asked.turns) return real.gettimeofday(now, zone);
    time_by_turns(CLOCK_REALTIME, &time);
    *now = (struct timeval){time.tv_sec, time.tv_nsec / NS_A_US};
    return 0;
}

time_t time(time_t *now) {
    struct timespec time;
    init();
    if (!asked.turns) return real.time(now);
    time_by_turns(CLOCK_REALTIME, &time);
    if (now) *now = time.tv_sec;
    return time.tv_sec;
}

#endif
