/* What bench/c_library compares libmonk with: a pthread mutex with its conditions (LOCK=MUTEX), and two spin locks that
 * let threads in by the order of their arrival, a ticket lock (TICKET) and the queue lock of Mellor-Crummey and Scott
 * (MCS). Threads that wait for these two never sleep, and they have no conditions. */
#ifndef LOCKS_H
#define LOCKS_H
#include <pthread.h>
#include <sched.h>
#include <stdatomic.h>
#include <stddef.h>
#define MUTEX 1
#define TICKET 2
#define MCS 3

enum { LINE = 64, LOOKS_A_YIELD = 1000 };

/* One more look in vain. With more threads than processors somebody else may have to run. */
static inline void look_again(unsigned *looks) {
    if (++*looks % LOOKS_A_YIELD == 0) sched_yield();
    else __builtin_ia32_pause();
}

#if LOCK == MUTEX
typedef struct { int unused; } node;
static pthread_mutex_t lock = PTHREAD_MUTEX_INITIALIZER;
static pthread_cond_t conditions[2] = {PTHREAD_COND_INITIALIZER, PTHREAD_COND_INITIALIZER};

static const char *lock_name(void) { return "pthread mutex"; }
static inline void acquire(node *n) { (void)n, pthread_mutex_lock(&lock); }
static inline void release(node *n) { (void)n, pthread_mutex_unlock(&lock); }
static inline void wait_on(unsigned n) { pthread_cond_wait(&conditions[n], &lock); }
static inline void signal_to(unsigned n) { pthread_cond_signal(&conditions[n]); }
#elif LOCK == TICKET
typedef struct { int unused; } node;
static struct { _Alignas(LINE) _Atomic unsigned drawn; _Alignas(LINE) _Atomic unsigned served; } tickets;

static const char *lock_name(void) { return "ticket lock"; }
static inline void acquire(node *n) {
    (void)n;
    unsigned mine = atomic_fetch_add(&tickets.drawn, 1), looks = 0;
    while (atomic_load_explicit(&tickets.served, memory_order_acquire) != mine) look_again(&looks);
}
static inline void release(node *n) {
    (void)n;
    unsigned served = atomic_load_explicit(&tickets.served, memory_order_relaxed);
    atomic_store_explicit(&tickets.served, served + 1, memory_order_release);
}
static inline void wait_on(unsigned n) { (void)n; }
static inline void signal_to(unsigned n) { (void)n; }
#else
typedef struct node {
    _Alignas(LINE) _Atomic(struct node *) next;
    _Atomic int has_turn;
} node;
static _Atomic(node *) last;

static const char *lock_name(void) { return "MCS lock"; }
static inline void acquire(node *n) {
    atomic_store(&n->next, NULL);
    atomic_store(&n->has_turn, 0);
    node *before = atomic_exchange(&last, n);
    unsigned looks = 0;
    if (!before) return;
    atomic_store(&before->next, n);
    while (!atomic_load_explicit(&n->has_turn, memory_order_acquire)) look_again(&looks);
}
static inline void release(node *n) {
    node *mine = n, *next = atomic_load(&n->next);
    unsigned looks = 0;
    if (!next && atomic_compare_exchange_strong(&last, &mine, NULL)) return;
    while (!(next = atomic_load(&n->next))) look_again(&looks);
    atomic_store_explicit(&next->has_turn, 1, memory_order_release);
}
static inline void wait_on(unsigned n) { (void)n; }
static inline void signal_to(unsigned n) { (void)n; }
#endif
#endif
