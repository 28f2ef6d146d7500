/* calls.c - the calls of monk.h by a seat: each asks the kernel for its step, and sleeps if it has to wait. */
#include "seats.h"
#include <sys/eventfd.h>

/* ---- Steps of a call that is under way */

static int poll_once(monk_seat *s) {
    int answer = monk_k_poll(s->token);
    if (answer != MONK_INSIDE) return answer;
    see_what_was_shown(s->monitor);
    unwatch(s);
    s->waits_on = NO_CONDITION;
    return noted(s, answer, 1);
}

/* Arrives, and comes in if it may do so at once. */
static int arrive_and_poll(monk_seat *s) {
    int answer = monk_k_enter(s->token);
    if (answer != MONK_INSIDE) return noted(s, answer, 0);
    see_what_was_shown(s->monitor);
    return noted(s, answer, 1);
}

static int go_out(monk_seat *s) {
    size_t word = NOBODY;
    show_from_inside(s);
    int answer = monk_k_leave(s->token, wish_of(s), &word);
    return handed_on(s, answer, word);
}

/* How many broadcasts there were on a condition, if the seat is inside; else 0: its wait is refused. */
static uint32_t broadcasts_on(const monk_seat *s, unsigned condition) {
    return place_of(s) == MONK_INSIDE && condition < MOST_CONDITIONS ? s->monitor->broadcasts[condition] : 0;
}

/* What follows a wait on a condition. */
static int waits_on(monk_seat *s, unsigned condition, uint32_t broadcasts, int answer, size_t word) {
    if (answer == MONK_WAITING) s->waits_on = byte_of(condition), s->broadcasts = broadcasts;
    return handed_on(s, answer, word);
}

static int wait_on(monk_seat *s, unsigned condition) {
    size_t word = NOBODY;
    uint32_t broadcasts = broadcasts_on(s, condition);
    show_from_inside(s);
    int answer = monk_k_start_wait(s->token, byte_of(condition), wish_of(s), &word);
    return waits_on(s, condition, broadcasts, answer, word);
}

static int signal_on(monk_seat *s, unsigned condition) {
    size_t word = NOBODY;
    show_from_inside(s);
    int answer = monk_k_start_signal(s->token, byte_of(condition), wish_of(s), &word);
    return handed_on(s, answer, word);
}

static int signal_and_wait(monk_seat *s, unsigned condition, unsigned wait_condition) {
    size_t word = NOBODY;
    uint32_t broadcasts = broadcasts_on(s, wait_condition);
    show_from_inside(s);
    int answer = monk_k_start_signal_wait(s->token, byte_of(condition), byte_of(wait_condition), wish_of(s), &word);
    return waits_on(s, wait_condition, broadcasts, answer, word);
}

static int wait_for_flag(monk_seat *s, unsigned flag) {
    size_t word = NOBODY;
    show_from_inside(s);
    int answer = monk_k_start_wait_until(s->token, byte_of(flag), wish_of(s), &word);
    return handed_on(s, answer, word);
}

/* Whether a stop ends this seat's wait. It doesn't end a look at the history. */
static int is_sent_home(const monk_seat *s) {
    if (s->is_visitor || !atomic_load(&s->monitor->stopped)) return 0;
    see_what_was_shown(&s->monitor->stopped);
    return 1;
}

/* Waits for that word, at its bell. The bell is read before the poll and the stop flag. If these miss a grant or a
 * stop, it rings later, and then the thread doesn't fall asleep, or is woken. */
static int come_in_at(monk_seat *s, size_t word, bell *b, const struct timespec *limit) {
    for (int in_time = 1;;) {
        uint32_t seen = atomic_load(&b->rings);
        int answer = poll_once(s);
        if (answer != MONK_WAITING) return answer;
        if (is_sent_home(s)) return MONK_STOPPED;
        if (!in_time) return MONK_WAITING;
        if (!rings_soon(s->monitor, word, seen)) in_time = sleep_until_turn(s->monitor, word, seen, limit);
    }
}

/* Waits until the seat is inside. A stop sends it home, unless it comes for a look at the history. */
static int come_in(monk_seat *s, const struct timespec *limit) {
    int answer = poll_once(s);
    if (answer != MONK_WAITING) return answer;
    size_t word = monk_k_word(s->token);
    bell *b = bell_of(s->monitor, word);
    atomic_store_explicit(&b->waiter, AWAKE, memory_order_relaxed);
    answer = come_in_at(s, word, b, limit);
    atomic_store_explicit(&b->waiter, NONE, memory_order_relaxed);
    return answer;
}

/* The rest of a call that has started, and may have to wait. */
static int finished(monk_seat *s, int started) {
    return done(end(s, started == MONK_WAITING ? come_in(s, NULL) : started));
}

/* ---- Calls that don't wait */

int monk_arrive(monk_seat *s) {
    int r = begin(&s);
    return r ? r : end(s, noted(s, monk_k_arrive(s->token), 0));
}

int monk_poll(monk_seat *s) {
    int r = begin(&s);
    return r ? r : end(s, poll_once(s));
}

int monk_leave(monk_seat *s) {
    int r = begin(&s);
    return r ? r : done(end(s, go_out(s)));
}

int monk_start_wait(monk_seat *s, unsigned condition) {
    int r = begin(&s);
    return r ? r : end(s, wait_on(s, condition));
}

int monk_start_signal(monk_seat *s, unsigned condition) {
    int r = begin(&s);
    return r ? r : end(s, signal_on(s, condition));
}

int monk_start_signal_wait(monk_seat *s, unsigned condition, unsigned wait_condition) {
    int r = begin(&s);
    return r ? r : end(s, signal_and_wait(s, condition, wait_condition));
}

int monk_start_wait_until(monk_seat *s, unsigned flag) {
    int r = begin(&s);
    return r ? r : end(s, wait_for_flag(s, flag));
}

int monk_signal_leave(monk_seat *s, unsigned condition) {
    size_t word = NOBODY;
    int r = begin(&s);
    if (r) return r;
    show_from_inside(s);
    r = monk_k_signal_leave(s->token, byte_of(condition), wish_of(s), &word);
    return done(end(s, handed_on(s, r, word)));
}

int monk_broadcast(monk_seat *s, unsigned condition) {
    int r = begin(&s);
    if (r) return r;
    r = noted(s, monk_k_broadcast(s->token, byte_of(condition)), 1);
    if (r == MONK_INSIDE) s->monitor->broadcasts[condition]++;
    return done(end(s, r));
}

int monk_set_flags(monk_seat *s, uint32_t bits) {
    int r = begin(&s);
    if (r) return r;
    r = noted(s, monk_k_set_flags(s->token, bits), 1);
    if (r == MONK_INSIDE) s->monitor->bits = bits;
    return done(end(s, r));
}

int monk_waiting(monk_seat *s, unsigned condition) {
    int r = begin(&s);
    return r ? r : end(s, (int)monk_k_waiting(s->token, byte_of(condition)));
}

int monk_flags(monk_seat *s, uint32_t *bits) {
    if (!bits) return MONK_RANGE;
    int r = begin(&s);
    if (r) return r;
    if (place_of(s) != MONK_INSIDE) return end(s, MONK_NOT_NOW);
    *bits = s->monitor->bits;
    return end(s, MONK_OK);
}

/* ---- Calls that wait */

enum { MS_A_SECOND = 1000, NS_A_MS = 1000000 };

/* The time that is `milliseconds` from now. */
static struct timespec limit_in(long milliseconds) {
    struct timespec limit;
    clock_gettime(CLOCK_MONOTONIC, &limit);
    limit.tv_sec += milliseconds / MS_A_SECOND;
    limit.tv_nsec += milliseconds % MS_A_SECOND * NS_A_MS;
    if (limit.tv_nsec >= NS_A_SECOND) limit.tv_sec++, limit.tv_nsec -= NS_A_SECOND;
    return limit;
}

/* As come_in. The clock isn't asked if the seat comes in at once, or if there is no time to wait. */
static int come_in_within(monk_seat *s, long milliseconds) {
    if (milliseconds < 0) return come_in(s, NULL);
    int answer = poll_once(s);
    if (answer != MONK_WAITING) return answer;
    if (milliseconds == 0) return is_sent_home(s) ? MONK_STOPPED : MONK_WAITING;
    struct timespec limit = limit_in(milliseconds);
    return come_in(s, &limit);
}

int monk_await(monk_seat *s, long milliseconds) {
    int r = begin(&s);
    if (r) return r;
    return end(s, place_of(s) == MONK_INSIDE ? MONK_INSIDE : come_in_within(s, milliseconds));
}

int monk_await_until(monk_seat *s, const struct timespec *time) {
    if (!time) return MONK_RANGE;
    int r = begin(&s);
    if (r) return r;
    if (time->tv_sec < 0 || time->tv_nsec < 0 || time->tv_nsec >= NS_A_SECOND) return end(s, MONK_RANGE);
    return end(s, place_of(s) == MONK_INSIDE ? MONK_INSIDE : come_in(s, time));
}

/* From now on the seat's eventfd is written when its bell rings; what was written before is discarded. */
static int watch(monk_seat *s) {
    if (s->file == NO_FILE) s->file = eventfd(0, EFD_CLOEXEC | EFD_NONBLOCK);
    if (s->file == NO_FILE) return MONK_IO;
    s->watched = bell_of(s->monitor, monk_k_word(s->token));
    atomic_store(&s->watched->file, s->file + 1);
    syscall(SYS_read, s->file, &(uint64_t){0}, sizeof(uint64_t));
    return MONK_OK;
}

/* The file is watched before the poll and the look at the stop flag, as a bell is read before them. */
int monk_wait_fd(monk_seat *s, int *file) {
    if (!file) return MONK_RANGE;
    int r = begin(&s);
    if (r) return r;
    if (place_of(s) == MONK_INSIDE) return end(s, MONK_INSIDE);
    if (place_of(s) != MONK_WAITING) return end(s, MONK_NOT_NOW);
    int watched = watch(s);
    r = come_in_within(s, 0);
    if (r != MONK_WAITING) return end(s, r);
    if (watched) return end(s, watched);
    *file = s->file;
    return end(s, r);
}

int monk_enter_within(monk_seat *s, long milliseconds) {
    int r = begin(&s);
    if (r) return r;
    r = arrive_and_poll(s);
    return end(s, r == MONK_WAITING ? come_in_within(s, milliseconds) : r);
}

int monk_enter(monk_seat *s) {
    int r = begin(&s);
    return r ? r : finished(s, arrive_and_poll(s));
}

int monk_wait(monk_seat *s, unsigned condition) {
    int r = begin(&s);
    return r ? r : finished(s, wait_on(s, condition));
}

int monk_signal(monk_seat *s, unsigned condition) {
    int r = begin(&s);
    return r ? r : finished(s, signal_on(s, condition));
}

int monk_signal_wait(monk_seat *s, unsigned condition, unsigned wait_condition) {
    int r = begin(&s);
    return r ? r : finished(s, signal_and_wait(s, condition, wait_condition));
}

int monk_wait_until(monk_seat *s, unsigned flag) {
    int r = begin(&s);
    return r ? r : finished(s, wait_for_flag(s, flag));
}

int monk_pause(monk_seat *s, unsigned n) {
    if (!s) return MONK_RANGE;
    return monk_mode_of(seat_of(s)->monitor->kind) == MONK_AUTOMATIC ? monk_wait_until(s, n) : monk_wait(s, n);
}

/* The way out of an automatic kind, which needs no signal: the kernel isn't told of the flag. */
static int leave_for(monk_seat *s, unsigned flag) {
    int r = begin(&s);
    if (r) return r;
    return done(end(s, flag < s->monitor->flag_count ? go_out(s) : MONK_RANGE));
}

/* One call: no other by the seat comes in between. */
static int signal_and_go(monk_seat *s, unsigned condition) {
    int r = begin(&s);
    if (r) return r;
    r = signal_on(s, condition);
    if (r == MONK_WAITING) r = come_in(s, NULL);
    return done(end(s, r == MONK_INSIDE ? go_out(s) : r));
}

int monk_finish(monk_seat *s, unsigned n) {
    if (!s) return MONK_RANGE;
    int mode = monk_mode_of(seat_of(s)->monitor->kind);
    if (mode == MONK_IMMEDIATE_RETURN) return monk_signal_leave(s, n);
    return mode == MONK_AUTOMATIC ? leave_for(s, n) : signal_and_go(s, n);
}
