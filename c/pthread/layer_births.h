/* layer_births.h - how threads are made: they may come before their maker goes on, or after. Part of
   libmonk_pthread.c. */
#ifndef LAYER_BIRTHS_H
#define LAYER_BIRTHS_H

#include "layer_start.h"

static void *begin_by_turns(void *it) {
    struct thread *t = it;
    be(t);
    await_turn(t);
    return t->work(t->word);
}

static int begin_c11_by_turns(void *it) { return (int)(intptr_t)begin_by_turns(it); }

/* The thread that is about to be made, if it runs by turns. Its maker may lose its turn after that, or the child comes
   later. */
static struct thread *expect_member(void *(*work)(void *), void *word, const void *at) {
    if (!is_by_turns(self())) return NULL;
    give_turn(me, "makes a thread", at);
    struct thread *t = expect_thread();
    t->work = work, t->word = word;
    become_member(t);
    return t;
}

static void made(struct thread *t, const pthread_t *handle, int is_made) {
    if (!t) {
        if (is_made) shake_after_birth();
        return;
    }
    if (is_made)
        t->self = *handle;
    else
        leave_turns(t);
    if (is_by_turns(me)) give_turn(me, "made a thread", me->at);
}

int pthread_create(pthread_t *thread, const pthread_attr_t *attributes, void *(*work)(void *), void *word) {
    init();
    struct thread *t = expect_member(work, word, CALLER);
    int answer = t ? real.create(thread, attributes, begin_by_turns, t) : real.create(thread, attributes, work, word);
    made(t, thread, !answer);
    return answer;
}

int thrd_create(thrd_t *thread, thrd_start_t work, void *word) {
    init();
    struct thread *t = expect_member((void *(*)(void *))(uintptr_t)work, word, CALLER);
    int answer = t ? real.thrd_create(thread, begin_c11_by_turns, t) : real.thrd_create(thread, work, word);
    made(t, thread, answer == thrd_success);
    return answer;
}

#endif
