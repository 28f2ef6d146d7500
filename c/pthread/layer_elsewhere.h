/* layer_elsewhere.h - calls by which threads meet or sleep outside monitors: joins, semaphores, read-write locks,
   barriers, sleeps, pipes and sockets. They stay what they are. They are counted, and in a run by turns they hand the
   turn on. Part of libmonk_pthread.c. */
#ifndef LAYER_ELSEWHERE_H
#define LAYER_ELSEWHERE_H

#include "layer_waits.h"
#include <poll.h>

/* What is counted: calls that might have waited, and those that did. The waits have no order that is tried. */
enum elsewhere { SEMAPHORES, RWLOCKS, BARRIERS, FUTEXES, ELSEWHERE };

static struct {
    _Atomic long calls, waits;
} elsewhere[ELSEWHERE];

static void count_elsewhere(enum elsewhere what, int waits) {
    elsewhere[what].calls++;
    elsewhere[what].waits += waits;
}

static void tell_elsewhere(struct output *file) {
    static const char *const names[] = {"semaphores", "rwlocks", "barriers", "futexes"};
    for (int what = 0; what < ELSEWHERE; what++)
        if (elsewhere[what].calls)
            put_line(file, "elsewhere %s %ld %ld\n", names[what], elsewhere[what].calls, elsewhere[what].waits);
}


/* ---- Joins */

static struct thread *member_of(pthread_t handle) {
    for (struct thread *t = every_thread; t; t = t->next)
        if (t->turn.is_member && !t->turn.is_joined && pthread_equal(t->self, handle)) return t;
    return NULL;
}

static int has_left(struct thread *t) { return ((const struct thread *)t->turn.what)->turn.state == OVER; }

static void await_end(pthread_t handle, const void *at) {
    begin_call("joins", at);
    struct thread *other = is_by_turns(me) ? member_of(handle) : NULL;
    if (!other || other == me) return;
    other->turn.is_joined = 1;
    if (other->turn.state != OVER) sleep_by_turns(me, has_left, other, NEVER);
}

/* ---- Semaphores */

static int is_posted(struct thread *t) {
    int value = 0;
    return !sem_getvalue((sem_t *)(uintptr_t)t->turn.what, &value) && value > 0;
}

/* Whether other processes may post it; as glibc keeps it, after the value. */
static int is_of_processes(const sem_t *semaphore) { return ((const int *)(const void *)semaphore)[2] != 0; }

/* Whether it was taken by turns; else its time is over (LATE), or the thread has to wait freely. */
static enum waited take_by_turns(sem_t *semaphore, int64_t until) {
    while (is_by_turns(me)) {
        me->turn.is_of_others = is_of_processes(semaphore);
        enum waited how = sleep_or_end(me, is_posted, semaphore, until);
        me->turn.is_of_others = 0;
        if (how == LATE) return LATE;
        pthread_testcancel();
        if (!real.sem_trywait(semaphore)) return MAY_GO_ON;
    }
    return FREELY;
}

static int is_taken(sem_t *semaphore, const void *at) {
    begin_call("waits for a semaphore", at);
    int is = !real.sem_trywait(semaphore);
    count_elsewhere(SEMAPHORES, !is);
    return is;
}

static int take_semaphore(sem_t *semaphore, clockid_t clock, const struct timespec *until, const void *at) {
    if (is_taken(semaphore, at)) return 0;
    enum waited how = FREELY;
    if (is_by_turns(me)) how = take_by_turns(semaphore, until ? limit_by_turns(clock, until) : NEVER);
    if (how == MAY_GO_ON) return 0;
    if (how == LATE) return errno = ETIMEDOUT, -1;
    if (!until) return real.sem_wait(semaphore);
    return clock == CLOCK_REALTIME ? real.sem_timedwait(semaphore, until) : real.sem_clockwait(semaphore, clock, until);
}

static int wait_for_semaphore(sem_t *semaphore, clockid_t clock, const struct timespec *until, const void *at) {
    init();
    note_call("waits for a semaphore", at);
    return after_call(take_semaphore(semaphore, clock, until, at));
}

/* ---- Read-write locks: whoever is refused tries again after an unlock */

static _Atomic unsigned long rwlock_unlocks;

static int may_try_again(struct thread *t) { return (uintptr_t)t->turn.what != rwlock_unlocks; }

static int lock_rwlock(pthread_rwlock_t *lock, int (*attempt)(pthread_rwlock_t *), int (*wait)(pthread_rwlock_t *)) {
    begin_call(me->does, me->at);
    int answer = attempt(lock);
    count_elsewhere(RWLOCKS, answer == EBUSY);
    while (answer == EBUSY && is_by_turns(me) && !lock->__data.__shared) {
        uintptr_t seen = rwlock_unlocks;
        sleep_by_turns(me, may_try_again, (const void *)seen, NEVER);
        answer = attempt(lock);
    }
    return answer == EBUSY ? wait(lock) : answer;
}

/* ---- Barriers, of which the layer reads how many threads they want, and whether those of other processes come too */

struct barrier {
    unsigned arrived, round, wanted;
    int is_of_processes;
};

static int is_through(struct thread *t) { return t->turn.answer; }

static int count_at(const void *barrier) {
    int count = 0;
    for (int i = 0; i < turns.count; i++) {
        const struct turn *it = &turns.members[i]->turn;
        count += it->state == BLOCKS && it->may_go_on == is_through && it->what == barrier;
    }
    return count;
}

static void let_through(const void *barrier) {
    for (int i = 0; i < turns.count; i++) {
        struct turn *it = &turns.members[i]->turn;
        if (it->may_go_on == is_through && it->what == barrier) it->answer = 1;
    }
}

static int meet(pthread_barrier_t *barrier) {
    const struct barrier *it = (const void *)barrier;
    begin_call(me->does, me->at);
    count_elsewhere(BARRIERS, 1);
    if (!is_by_turns(me) || it->is_of_processes) return real.barrier_wait(barrier);
    if ((unsigned)count_at(barrier) + 1 == it->wanted) return let_through(barrier), PTHREAD_BARRIER_SERIAL_THREAD;
    me->turn.answer = 0;
    sleep_by_turns(me, is_through, barrier, NEVER);
    return me->turn.answer ? 0 : real.barrier_wait(barrier);
}

/* ---- Waits at a futex, as those of C++20's atomics: they sleep in the system */

extern const char __ehdr_start, _end; /* of this library, which has futexes of its own */

static int is_wait_at_futex(long number, long operation, const char *from) {
    if (number != SYS_futex || (from >= &__ehdr_start && from < &_end)) return 0;
    int command = (int)operation & FUTEX_CMD_MASK;
    return command == FUTEX_WAIT || command == FUTEX_WAIT_BITSET;
}

/* ---- Sleeps */

/* Whether the thread slept by turns. */
static int sleeps_by_turns(const struct timespec *time, const void *at) {
    init();
    if (!is_by_turns(me)) return 0;
    give_turn(me, "sleeps", at);
    if (!is_by_turns(me) || time->tv_sec > INT32_MAX) return 0;
    int64_t until = turns.now + time->tv_sec * (int64_t)NS_A_SECOND + time->tv_nsec;
    if (sleep_or_end(me, NULL, NULL, until) == FREELY) return 0;
    pthread_testcancel();
    return 1;
}

/* ---- Pipes and sockets */

struct transfer {
    int file;
    short events;
};

static int is_ready_for(struct thread *t) {
    const struct transfer *it = t->turn.what;
    struct pollfd file = {.fd = it->file, .events = it->events};
    return poll(&file, 1, 0) != 0;
}

static int may_sleep_at(int file) {
    struct stat is;
    return !fstat(file, &is) && (S_ISFIFO(is.st_mode) || S_ISSOCK(is.st_mode));
}

/* Before a read or a write. */
static void await_file(int file, short events, const char *does, const void *at) {
    struct transfer it = {file, events};
    init();
    if (!is_by_turns(me) || !may_sleep_at(file)) return;
    int error = errno;
    give_turn(me, does, at);
    me->turn.what = &it, me->turn.is_of_others = 1;
    if (is_by_turns(me) && !is_ready_for(me)) sleep_by_turns(me, is_ready_for, &it, NEVER);
    me->turn.is_of_others = 0;
    errno = error;
}

#endif
