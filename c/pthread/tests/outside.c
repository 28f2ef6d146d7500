/* Signals and broadcasts without the lock meet other threads' releases. None may be lost: a waiter would sleep for
   ever. */
#include <pthread.h>
#include <sched.h>
#include <stdatomic.h>
#include <stdio.h>
#include <stdlib.h>

enum { WAITERS = 3, THREADS = WAITERS + 1, LONGEST = 2000, ODD = 37, OTHER_ODD = 53 };

static pthread_mutex_t mutex = PTHREAD_MUTEX_INITIALIZER;
static pthread_cond_t changed = PTHREAD_COND_INITIALIZER;
static int rounds = 3000, broadcasts = 1, value;
static _Atomic int turn, seen, waiting, inside;

static void await(_Atomic int *what, int count) {
    while (*what < count) sched_yield();
}

static void spend(int time) {
    for (volatile int i = 0; i < time; i++) continue;
}

static void wait_each(void) {
    for (int round = 1; round <= rounds; round++) {
        pthread_mutex_lock(&mutex);
        waiting++;
        while (value < round) pthread_cond_wait(&changed, &mutex);
        pthread_mutex_unlock(&mutex);
        seen++;
        await(&seen, round * WAITERS);
    }
}

static void visit_each(void) {
    for (int round = 1; round <= rounds; round++) {
        await(&turn, round);
        pthread_mutex_lock(&mutex);
        inside = round;
        spend(round * ODD % LONGEST);
        pthread_mutex_unlock(&mutex);
        await(&seen, round * WAITERS);
    }
}

static void *work(void *number) {
    if (number) wait_each();
    else visit_each();
    return NULL;
}

static void signal_all(int round) {
    if (broadcasts && round % 2) pthread_cond_broadcast(&changed);
    else for (int i = 0; i < WAITERS; i++) pthread_cond_signal(&changed);
}

static void change(int round) {
    await(&waiting, round * WAITERS);
    pthread_mutex_lock(&mutex);
    value = round;
    pthread_mutex_unlock(&mutex);
    turn = round;
    await(&inside, round);
    spend(round * OTHER_ODD % LONGEST);
    signal_all(round);
    await(&seen, round * WAITERS);
}

int main(int count, char **words) {
    pthread_t threads[THREADS];
    if (count > 1) rounds = atoi(words[1]);
    broadcasts = count <= 2; /* any further word: signals alone */
    for (long i = 0; i < THREADS; i++) pthread_create(&threads[i], NULL, work, (void *)i);
    for (int round = 1; round <= rounds; round++) change(round);
    for (int i = 0; i < THREADS; i++) pthread_join(threads[i], NULL);
    puts("outside: all seen");
    return 0;
}
