/* layer_start.h - what each call begins with: the layer is ready, others may go first. Part of libmonk_pthread.c. */
#ifndef LAYER_START_H
#define LAYER_START_H

#include "layer_turns.h"

#define CALLER __builtin_return_address(0)

static _Atomic int is_ready;

/* How much a call on a mutex has to look at. It is all while the start isn't over, if threads are shaken or run by
   turns, or if mutexes are monitors from their first lock on. Else it is whether the mutex is a monitor, once there is
   one. */
enum attention { NOTHING, MONITORS, ALL };
static _Atomic int attention = ALL;

/* An allocator that the start calls may come back here: then the functions of mutexes are known already. */
__attribute__((noinline, cold)) static void start(void) {
    static _Atomic int lock;
    static __thread __attribute__((tls_model("initial-exec"))) int is_starting;
    if (is_starting) return;
    is_starting = 1;
    find_functions();
    take(&lock);
    if (!is_ready) {
        read_settings();
        pthread_key_create(&thread_key, thread_ends);
        is_ready = 1;
        attention = asked.shakes || asked.turns || asked.eager ? ALL : NOTHING;
    }
    let(&lock);
    is_starting = 0;
}

static inline void init(void) {
    if (__builtin_expect(!atomic_load_explicit(&is_ready, memory_order_acquire), 0)) start();
}

/* Before a call that may sleep where no seat says so: a hang tells what its thread does, and where. */
static void note_call(const char *does, const void *at) {
    struct thread *t = self();
    t->does = does;
    t->at = at;
}

static int after_call(int answer) {
    me->does = NULL;
    return answer;
}

/* Before a call, which another thread's call may then precede: what it does, and where it is made. */
static inline void begin_call(const char *does, const void *at) {
    if (__builtin_expect(asked.turns, 0) && is_by_turns(me))
        give_turn(me, does, at);
    else
        shake();
}

#endif
