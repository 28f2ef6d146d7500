/* calls.c - the interface of monk.h by one mutex and a condition variable for each seat. Nothing in it is proved: it
 * is a plain model of the rules, an oracle for tests of the proved library and a peer for its benchmarks. Here are
 * the calls by a seat; seats.c lends seats and makes and ends monitors, history.c writes the history.
 *
 * Everything is changed under the mutex, so each call is one step; a thread that waits sleeps on its seat's bell. One
 * thing that the library has is missing: a pointer to a seat that was given back is that of the next owner. */
#define _GNU_SOURCE
#include "frame.h"
#include <errno.h>
#include <sys/eventfd.h>
#include <time.h>

/* ---- Calls that don't wait */

int monk_arrive(monk_seat *s) {
    int r = begin(s);
    if (r) return r;
    if ((r = refusal(s, MONK_OUTSIDE, 2))) return end(s, r);
    s->place = MONK_WAITING;
    if (s->monitor->holder < 0) make_due(s->monitor, s->number, FREE);
    else join(&s->monitor->entry, s->number);
    return end(s, MONK_WAITING);
}

int monk_poll(monk_seat *s) {
    int r = begin(s);
    if (r) return r;
    if ((r = refusal(s, MONK_WAITING, 0))) return end(s, r);
    if (s->due) come_in(s->monitor, s);
    return end(s, s->place);
}

static void wait_on(monk_seat *s, unsigned condition) {
    join(&s->monitor->condition[condition], s->number);
    s->condition = (uint8_t)condition, s->broadcasts = s->monitor->broadcasts[condition];
}

int monk_start_wait(monk_seat *s, unsigned condition) {
    int r = begin(s);
    if (r) return r;
    if (mode_of(s) == MONK_AUTOMATIC) return end(s, MONK_NOT_OF_KIND);
    if (!in_conditions(s, condition)) return end(s, MONK_RANGE);
    if ((r = refusal(s, MONK_INSIDE, 3))) return end(s, r);
    wait_on(s, condition);
    release(s->monitor, s, (event){.verb = WAIT, .a = (uint8_t)condition}, MONK_WAITING);
    return end(s, s->place);
}

int monk_start_signal(monk_seat *s, unsigned condition) {
    int r = begin(s);
    if (r) return r;
    if (!is_explicit(s)) return end(s, MONK_NOT_OF_KIND);
    if (!in_conditions(s, condition)) return end(s, MONK_RANGE);
    if ((r = refusal(s, MONK_INSIDE, 3))) return end(s, r);
    event e = {.verb = SIGNAL, .seat = s->number, .a = (uint8_t)condition, .way = STAY};
    if (serve(s->monitor, condition)) {
        join(&s->monitor->signallers, s->number);
        release(s->monitor, s, e, MONK_WAITING);
    } else record(s->monitor, e);
    return end(s, s->place);
}

int monk_start_signal_wait(monk_seat *s, unsigned condition, unsigned wait_condition) {
    int r = begin(s);
    if (r) return r;
    if (mode_of(s) != MONK_IMMEDIATE_RETURN) return end(s, MONK_NOT_OF_KIND);
    if (!in_conditions(s, condition) || !in_conditions(s, wait_condition)) return end(s, MONK_RANGE);
    if ((r = refusal(s, MONK_INSIDE, 3))) return end(s, r);
    serve(s->monitor, condition);
    wait_on(s, wait_condition);
    event e = {.verb = SIGNAL_WAIT, .a = (uint8_t)condition, .b = (uint8_t)wait_condition};
    release(s->monitor, s, e, MONK_WAITING);
    return end(s, s->place);
}

int monk_start_wait_until(monk_seat *s, unsigned flag) {
    int r = begin(s);
    if (r) return r;
    if (mode_of(s) != MONK_AUTOMATIC) return end(s, MONK_NOT_OF_KIND);
    if (flag >= s->monitor->flag_count) return end(s, MONK_RANGE);
    if ((r = refusal(s, MONK_INSIDE, 3))) return end(s, r);
    event e = {.verb = UNTIL, .seat = s->number, .a = (uint8_t)flag, .way = STAY};
    if (s->monitor->bits >> flag & 1) record(s->monitor, e);
    else {
        s->flag = (uint8_t)flag;
        join(&s->monitor->until, s->number);
        release(s->monitor, s, e, MONK_WAITING);
    }
    return end(s, s->place);
}

/* For a call that doesn't return the seat's place: the place becomes MONK_OK. */
static int taken(int answer) { return answer > 0 ? MONK_OK : answer; }

int monk_leave(monk_seat *s) {
    int r = begin(s);
    if (r) return r;
    if ((r = refusal(s, MONK_INSIDE, 1))) return end(s, r);
    release(s->monitor, s, (event){.verb = LEAVE}, MONK_OUTSIDE);
    return taken(end(s, s->place));
}

int monk_signal_leave(monk_seat *s, unsigned condition) {
    int r = begin(s);
    if (r) return r;
    if (mode_of(s) != MONK_IMMEDIATE_RETURN) return end(s, MONK_NOT_OF_KIND);
    if (!in_conditions(s, condition)) return end(s, MONK_RANGE);
    if ((r = refusal(s, MONK_INSIDE, 1))) return end(s, r);
    serve(s->monitor, condition);
    release(s->monitor, s, (event){.verb = SIGNAL_LEAVE, .a = (uint8_t)condition}, MONK_OUTSIDE);
    return taken(end(s, s->place));
}

int monk_broadcast(monk_seat *s, unsigned condition) {
    int r = begin(s);
    if (r) return r;
    if (mode_of(s) != MONK_NON_BLOCKING) return end(s, MONK_NOT_OF_KIND);
    if (!in_conditions(s, condition)) return end(s, MONK_RANGE);
    if ((r = refusal(s, MONK_INSIDE, 2))) return end(s, r);
    while (serve(s->monitor, condition)) {}
    s->monitor->broadcasts[condition]++;
    record(s->monitor, (event){.verb = SIGNAL_ALL, .seat = s->number, .a = (uint8_t)condition});
    return taken(end(s, s->place));
}

int monk_set_flags(monk_seat *s, uint32_t bits) {
    int r = begin(s);
    if (r) return r;
    unsigned n = s->monitor->flag_count;
    if (!n || (n < 32 && bits >> n)) return end(s, MONK_RANGE);
    if ((r = refusal(s, MONK_INSIDE, 2))) return end(s, r);
    s->monitor->bits = bits;
    record(s->monitor, (event){.verb = ACT, .seat = s->number, .bits = bits});
    return taken(end(s, s->place));
}

/* ---- Calls that wait */

/* A stop sends a seat home, unless it comes for a look at the history. */
static int is_stopped(const monk_seat *s) { return s->monitor->stopped && !s->is_visitor; }

/* Sleeps until the seat is due, or the time is over. A thread that is cancelled sleeps on: it would end with the
 * lock. */
static void sleep_until_due(monk_seat *s, const struct timespec *limit) {
    pthread_mutex_t *lock = &s->monitor->lock;
    int before, late = 0;
    pthread_setcancelstate(PTHREAD_CANCEL_DISABLE, &before);
    while (!s->due && !is_stopped(s) && late != ETIMEDOUT)
        late = limit ? pthread_cond_timedwait(&s->bell, lock, limit) : pthread_cond_wait(&s->bell, lock);
    pthread_setcancelstate(before, NULL);
}

static int is_time(const struct timespec *time) {
    return time->tv_sec >= 0 && time->tv_nsec >= 0 && time->tv_nsec < 1000000000L;
}

/* Sleeps until the seat is due, and lets it come in. */
static int await(monk_seat *s, const struct timespec *limit) {
    int answer = begin(s);
    if (answer) return answer;
    monk_monitor *m = s->monitor;
    if (limit && !is_time(limit)) return end(s, MONK_RANGE);
    if (s->place == MONK_INSIDE) return end(s, MONK_INSIDE);
    if ((answer = refusal(s, MONK_WAITING, 0))) return end(s, answer);
    s->calling = 1;
    sleep_until_due(s, limit);
    s->calling = 0;
    if (s->due) come_in(m, s);
    answer = s->place;
    if (answer == MONK_WAITING && is_stopped(s)) answer = MONK_STOPPED;
    pthread_mutex_unlock(&m->lock);
    return answer;
}

int monk_await(monk_seat *s, long milliseconds) {
    struct timespec limit;
    if (milliseconds < 0) return await(s, NULL);
    clock_gettime(CLOCK_MONOTONIC, &limit);
    limit.tv_sec += milliseconds / 1000;
    limit.tv_nsec += milliseconds % 1000 * 1000000L;
    if (limit.tv_nsec >= 1000000000L) limit.tv_sec++, limit.tv_nsec -= 1000000000L;
    return await(s, &limit);
}

int monk_await_until(monk_seat *s, const struct timespec *time) { return time ? await(s, time) : MONK_RANGE; }

int monk_wait_fd(monk_seat *s, int *file) {
    if (!file) return MONK_RANGE;
    int r = begin(s);
    if (r) return r;
    if (s->place == MONK_INSIDE) return end(s, MONK_INSIDE);
    if ((r = refusal(s, MONK_WAITING, 0))) return end(s, r);
    if (s->due) return come_in(s->monitor, s), end(s, s->place);
    if (is_stopped(s)) return end(s, MONK_STOPPED);
    if (s->file == NO_FILE) s->file = eventfd(0, EFD_CLOEXEC | EFD_NONBLOCK);
    if (s->file == NO_FILE) return end(s, MONK_IO);
    syscall(SYS_read, s->file, &(uint64_t){0}, sizeof(uint64_t));
    *file = s->file;
    return end(s, s->place);
}

int monk_enter_within(monk_seat *s, long milliseconds) {
    int started = monk_arrive(s);
    return started == MONK_WAITING ? monk_await(s, milliseconds) : started;
}

/* The rest of a call that has started. */
static int finished(monk_seat *s, int started) {
    if (started == MONK_WAITING) started = await(s, NULL);
    return taken(started);
}

int monk_enter(monk_seat *s) { return finished(s, monk_arrive(s)); }
int monk_wait(monk_seat *s, unsigned condition) { return finished(s, monk_start_wait(s, condition)); }
int monk_signal(monk_seat *s, unsigned condition) { return finished(s, monk_start_signal(s, condition)); }
int monk_signal_wait(monk_seat *s, unsigned c, unsigned w) { return finished(s, monk_start_signal_wait(s, c, w)); }
int monk_wait_until(monk_seat *s, unsigned flag) { return finished(s, monk_start_wait_until(s, flag)); }

int monk_pause(monk_seat *s, unsigned n) {
    if (!s) return MONK_RANGE;
    return mode_of(s) == MONK_AUTOMATIC ? monk_wait_until(s, n) : monk_wait(s, n);
}

/* The way out of an automatic kind: the flag is only looked at. */
static int leave_for(monk_seat *s, unsigned flag) {
    int r = begin(s);
    if (r) return r;
    if (flag >= s->monitor->flag_count) return end(s, MONK_RANGE);
    if ((r = refusal(s, MONK_INSIDE, 1))) return end(s, r);
    release(s->monitor, s, (event){.verb = LEAVE}, MONK_OUTSIDE);
    return taken(end(s, s->place));
}

int monk_finish(monk_seat *s, unsigned n) {
    if (!s) return MONK_RANGE;
    if (mode_of(s) == MONK_IMMEDIATE_RETURN) return monk_signal_leave(s, n);
    if (mode_of(s) == MONK_AUTOMATIC) return leave_for(s, n);
    int r = monk_signal(s, n);
    return r ? r : monk_leave(s);
}

const char *monk_build(void) { return "reference, not proved"; }
