/* MONK_SHAKE=SEED: threads let others go first at random, so that rare orders show. Part of libmonk_log.c. */
#ifndef MONK_SHAKE_H
#define MONK_SHAKE_H

#include <sched.h>
#include <time.h>

#include "monk_lines.h"

/* A thread is slow for some calls and then fast for some, at most CALLS each: a woken thread that is slow meets
   others that are fast. In SLOW of 16 cases it is slow, and sleeps NAP nanoseconds at most; in YIELDS of 16 it lets
   others go first while it is fast. */
enum { CALLS = 8, SLOW = 6, NAP = 1 << 18, YIELDS = 4, SIDES = 16 };

static const char *shake_seed;
static unsigned long seed;

/* Steele, Lea and Flood's splitmix64: each thread has numbers of its own, by the seed and the thread's number. */
static unsigned long roll(struct thread *thread) {
    if (!thread->dice)
        thread->dice = seed + (thread->number + 1) * 0xd1b54a32d192ed03ul;
    unsigned long z = thread->dice += 0x9e3779b97f4a7c15ul;
    z = (z ^ z >> 30) * 0xbf58476d1ce4e5b9ul;
    z = (z ^ z >> 27) * 0x94d049bb133111ebul;
    return z ^ z >> 31;
}

SELDOM static void shake_now(struct thread *thread) {
    unsigned long dice = roll(thread);
    int error = errno;
    if (!thread->calls_left) {
        thread->calls_left = 1 + dice / SIDES % CALLS;
        thread->is_slow = dice % SIDES < SLOW;
        dice = roll(thread);
    }
    thread->calls_left--;
    struct timespec nap = {0, (long)(dice % NAP)};
    if (thread->is_slow)
        nanosleep(&nap, 0);
    else if (dice % SIDES < YIELDS)
        sched_yield();
    errno = error;
}

/* Before a call, which another thread's call may then precede. */
static inline void shake(void) {
    struct thread *thread = shake_seed ? self() : 0;
    if (thread)
        shake_now(thread);
}

#endif
