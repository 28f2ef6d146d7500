/* layer_remarks.h - uses of mutexes and conditions that POSIX leaves undefined, or that can't be meant. Each is
   remarked once in a process; the report has the remarks, and the program doesn't see them. Part of
   libmonk_pthread.c. */
#ifndef LAYER_REMARKS_H
#define LAYER_REMARKS_H

#include "layer_queues.h"

enum misuse { TWO_MUTEXES, NOT_ITS_OWNER, OTHER_CLOCK, MISUSES };

static struct {
    _Atomic int is_said, is_whole;
    char text[LONGEST_LINE];
} remarks[MISUSES];

__attribute__((format(printf, 2, 3))) static void remark(enum misuse what, const char *format, ...) {
    va_list words;
    if (atomic_exchange(&remarks[what].is_said, 1)) return;
    va_start(words, format);
    vsnprintf(remarks[what].text, LONGEST_LINE, format, words);
    va_end(words);
    remarks[what].is_whole = 1;
}

static void tell_remarks(struct output *file) {
    for (int what = 0; what < MISUSES; what++)
        if (remarks[what].is_whole) put_line(file, "remark %s\n", remarks[what].text);
}

/* Of a condition on which a thread is about to wait with m, and was known to be of another monitor. A signal that is
   under way may have ended the waits there. */
static void look_at_mutexes(const struct condition *c, struct monitor *m) {
    struct monitor *other = c->of;
    if (!other || other == m || other->is_dead || other->pending[c->number] || !count_waiting(other, c->number)) return;
    remark(TWO_MUTEXES, "mutexes %s %s %s", name_of(c->known.address).text, name_of(other->known.address).text,
           name_of(m->known.address).text);
}

/* Of the thread that unlocks. (A thread that ends is known anew.) */
static void look_at_owner(struct monitor *m, const void *from) {
    const struct thread *owner = m->owner, *t = self();
    if (!owner || owner == t || owner->id == t->id) return;
    remark(NOT_ITS_OWNER, "unlock %s %s", name_of(m->known.address).text, name_of(from).text);
}

enum { A_DAY = 86400, TEN_YEARS = 3650 * A_DAY };

static int64_t seconds_until(clockid_t clock, const struct timespec *until) {
    struct timespec now;
    time_by_turns(clock, &now);
    return (int64_t)until->tv_sec - now.tv_sec;
}

/* A limit that is far from now by its own clock, and within a day from now by the other one, was read from that. */
static void look_at_clock(clockid_t clock, const struct timespec *until, const void *from) {
    clockid_t other = clock == CLOCK_MONOTONIC ? CLOCK_REALTIME : CLOCK_MONOTONIC;
    int64_t left = seconds_until(clock, until), left_there = seconds_until(other, until);
    if ((left > -A_DAY && left < TEN_YEARS) || left_there < 0 || left_there > A_DAY) return;
    remark(OTHER_CLOCK, "clock %s %s %s", name_of(from).text,
           other == CLOCK_MONOTONIC ? "CLOCK_MONOTONIC" : "CLOCK_REALTIME", left < 0 ? "at once" : "never");
}

#endif
