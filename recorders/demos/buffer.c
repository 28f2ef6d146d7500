/* A bounded buffer of pthreads: buffer STYLE

     good       two conditions, each signalled
     all        one condition, and broadcasts
     timed      as good, with waits that run out
     late       signals after the unlock
     pair       as good, with one putter, one taker and room for one item: no later signal makes up for a lost one
     if         a fault: a thread that waited doesn't test again
     forgotten  a fault: a taker signals nobody
     single     a fault: as all, with room for one item, and signals: one may wake only a thread that can't go on
     early      a fault: as pair, but a putter takes no lock: its signal may come between a taker's test and its wait
     returns    a fault: a taker returns without its unlock
     deadlock   a fault: each takes two items, one after the other, and puts them back; there are two in all

   It knows nothing of the recorder except MONK_ACT, by which it reports what it did to the buffer. A putter waits on
   condition 0 (predicate 0 of a buffer), a taker on condition 1 (predicate 1). With early it reports no acts, because
   they are reported under the lock. */
#include <pthread.h>
#include <sched.h>
#include <stdatomic.h>
#include <stdio.h>
#include <string.h>
#include <time.h>

#include "../c/monk_log.h"

/* as many putters as takers */
enum { PUTTERS = 3, SIZE = 2, ITEMS = 60, ITEMS_IF_EARLY = 1000, PUT = 0, TAKE = 1, SHORT = 20000,
    SECOND = 1000000000 };

static pthread_mutex_t lock = PTHREAD_MUTEX_INITIALIZER;
static pthread_cond_t not_full = PTHREAD_COND_INITIALIZER, not_empty = PTHREAD_COND_INITIALIZER;
static unsigned ring[SIZE], first, size = SIZE, items = ITEMS;
static atomic_uint count; /* (early reads it without the lock) */
static int all, timed, late, once, forgotten, single, early, returns, deadlock;

static int is_full(void) { return count >= size; }
static int is_empty(void) { return count == 0; }

/* The condition that is used in place of this one. */
static pthread_cond_t *shared(pthread_cond_t *cond) { return all || single ? &not_full : cond; }

static void wait_for_a_while(pthread_cond_t *cond) {
    struct timespec until;
    clock_gettime(CLOCK_REALTIME, &until);
    until.tv_nsec += SHORT;
    until.tv_sec += until.tv_nsec / SECOND;
    until.tv_nsec %= SECOND;
    pthread_cond_timedwait(cond, &lock, &until);
}

static void wait_while(int (*holds)(void), pthread_cond_t *cond) {
    while (holds()) {
        if (timed)
            wait_for_a_while(cond);
        else
            pthread_cond_wait(shared(cond), &lock);
        if (once)
            break;
    }
}

static void tell_and_leave(pthread_cond_t *cond) {
    if (late)
        pthread_mutex_unlock(&lock);
    if (all)
        pthread_cond_broadcast(shared(cond));
    else if (cond)
        pthread_cond_signal(shared(cond));
    if (!late)
        pthread_mutex_unlock(&lock);
}

static void put(unsigned item) {
    pthread_mutex_lock(&lock);
    wait_while(is_full, &not_full);
    ring[(first + count++) % SIZE] = item;
    MONK_ACT(PUT, item, 1);
    tell_and_leave(&not_empty);
}

static void put_without_lock(unsigned item) {
    while (is_full())
        sched_yield();
    ring[first % SIZE] = item;
    count++;
    pthread_cond_signal(&not_empty);
}

static unsigned take(void) {
    pthread_mutex_lock(&lock);
    wait_while(is_empty, &not_empty);
    unsigned item = is_empty() ? 0 : ring[first++ % SIZE];
    count -= item > 0;
    if (!early)
        MONK_ACT(TAKE, 0, item + 1ul);
    if (!returns || item != ITEMS / 2)
        tell_and_leave(forgotten ? 0 : &not_full);
    return item;
}

static void *putter(void *unused) {
    (void)unused;
    for (unsigned item = 1; item <= items; item++)
        (early ? put_without_lock : put)(item);
    return 0;
}

static void *taker(void *unused) {
    (void)unused;
    for (unsigned taken = 0; taken < items; taken++)
        take();
    return 0;
}

static void *borrower(void *unused) {
    (void)unused;
    for (unsigned round = 0; round < items; round++) {
        unsigned one = take(), other = take();
        put(one);
        put(other);
    }
    return 0;
}

/* Returns how many putters there are. */
static int begin(const char *style) {
    int is_pair = !strcmp(style, "pair");
    all = !strcmp(style, "all");
    timed = !strcmp(style, "timed");
    late = !strcmp(style, "late");
    once = !strcmp(style, "if");
    forgotten = !strcmp(style, "forgotten");
    single = !strcmp(style, "single");
    early = !strcmp(style, "early");
    returns = !strcmp(style, "returns");
    deadlock = !strcmp(style, "deadlock");
    size = is_pair || single || early ? 1 : SIZE;
    items = early ? ITEMS_IF_EARLY : ITEMS;
    return is_pair || early ? 1 : PUTTERS;
}

int main(int words, char **word) {
    int putters = begin(words > 1 ? word[1] : "good");
    pthread_t threads[2 * PUTTERS];
    /* the conditions are numbered in the order in which they are first met, so a putter meets its own first */
    pthread_mutex_lock(&lock);
    pthread_cond_signal(&not_full);
    pthread_cond_signal(shared(&not_empty));
    pthread_mutex_unlock(&lock);
    for (unsigned item = 1; deadlock && item <= SIZE; item++)
        put(item);
    for (int i = 0; i < 2 * putters; i++)
        pthread_create(&threads[i], 0, deadlock ? borrower : i < putters ? putter : taker, 0);
    for (int i = 0; i < 2 * putters; i++)
        pthread_join(threads[i], 0);
    return 0;
}
