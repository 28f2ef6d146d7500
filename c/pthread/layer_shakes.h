/* layer_shakes.h - what POSIX may do at any time, by dice: others come first, and waits wake unasked. Part of
   libmonk_pthread.c. */
#ifndef LAYER_SHAKES_H
#define LAYER_SHAKES_H

#include "layer_known.h"
#include <sys/resource.h>

/* Marsaglia's xorshift. */
static unsigned roll(struct thread *t) {
    t->dice ^= t->dice << 13, t->dice ^= t->dice >> 7, t->dice ^= t->dice << 17;
    return (unsigned)(t->dice >> 33);
}

/* How often in 16 a thread sleeps before a call, and how often it lets others go first; how long it sleeps at most. */
enum { NAPS = 2, YIELDS = 4, SIDES = 16, NAP_NS = 250000, BIRTH_NAP_NS = 300000 };

__attribute__((noinline, cold)) static void shake_now(void) {
    unsigned dice = roll(self());
    int error = errno;
    struct timespec nap = {0, (long)(dice / SIDES % NAP_NS)};
    if (dice % SIDES < NAPS)
        real.nanosleep(&nap, NULL);
    else if (dice % SIDES < NAPS + YIELDS)
        real.yield();
    errno = error;
}

/* Before a call, which another thread's call may then precede. */
static inline void shake(void) {
    if (__builtin_expect(asked.shakes, 0)) shake_now();
}

/* A thread that was made may come first, or the one that made it. */
static void shake_after_birth(void) {
    struct timespec nap = {0, BIRTH_NAP_NS};
    if (asked.shakes && roll(self()) % 2) real.nanosleep(&nap, NULL);
    shake();
}

/* ---- Waits that wake unasked, and their places */

enum { PLACES = 64 };

static const void *_Atomic waited[PLACES], *_Atomic woken[PLACES];

/* Whether the place is new there. */
static int note_place(const void *_Atomic *places, const void *from) {
    for (int i = 0; i < PLACES; i++) {
        const void *is = NULL;
        if (places[i] == from) return 0;
        if (atomic_compare_exchange_strong(&places[i], &is, from)) return 1;
        if (is == from) return 0;
    }
    return 0;
}

static void tell_woken(struct output *file) {
    for (int i = 0; i < PLACES && woken[i]; i++) put_line(file, "woken %s\n", name_of(woken[i]).text);
}

static _Atomic int was_there; /* whether a wait was called at the place that was asked for */

static int is_there(struct thread *t) {
    const void *from = t->from;
    if (!asked.spurious_at) return 1;
    if (from == t->not_there) return 0;
    int is = strcmp(name_of(from).text, asked.spurious_at) == 0;
    if (is) was_there = 1;
    if (!is) t->not_there = from;
    return is;
}

/* What children that have ended used. It is kept as a process becomes another program. */
static long used_by_children(void) {
    struct rusage used;
    return getrusage(RUSAGE_CHILDREN, &used) ? 0 : used.ru_minflt;
}

static long used_before;

/* Whether that place has a wait. Else says so, by the process that was asked, unless it may be a place of a child. */
static int has_place(void) {
    static _Atomic int is_told;
    if (!asked.spurious_at || was_there || !is_owner() || used_by_children() > used_before) return 1;
    if (!atomic_exchange(&is_told, 1))
        say("monk: %s: no wait was called there\n", asked.spurious_at);
    return 0;
}

/* Whether this wait wakes unasked. The first wait of a place, which may be for a beginning, does in half of all runs.
   (The dice are the same if only one place is asked for.) */
static int is_unasked(struct thread *t) {
    if (__builtin_expect(!asked.spurious, 1)) return 0;
    unsigned most = note_place(waited, t->from) ? A_THOUSAND / 2 : 0;
    if (most < (unsigned)asked.spurious) most = (unsigned)asked.spurious;
    int is_here = is_there(t);
    if (roll(t) % A_THOUSAND >= most || !is_here) return 0;
    note_place(woken, t->from);
    return 1;
}

#endif
