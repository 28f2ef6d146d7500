/* A bounded buffer: three threads put and three take. Faults: if; one (one condition, and a signal); early (a test
   without the lock); unlock (a return without one); forget (one signal in many). */
#include "textbook.h"

enum { SIZE = 2, THREADS = 6, FATAL_ROUND = 30, EARLY = 3000 };

static int items;
static pthread_mutex_t mutex = PTHREAD_MUTEX_INITIALIZER;
static pthread_cond_t not_full = PTHREAD_COND_INITIALIZER, not_empty = PTHREAD_COND_INITIALIZER;

static pthread_cond_t *condition_of(int is_put) { return is_put || has("one") ? &not_full : &not_empty; }

static void put(int round) {
    (void)round;
    pthread_mutex_lock(&mutex);
    WAIT_WHILE(items == SIZE, condition_of(1), &mutex);
    must_hold(items < SIZE);
    items++;
    pthread_cond_signal(condition_of(0));
    pthread_mutex_unlock(&mutex);
}

/* Tests, locks, and then waits by what it found before. */
static void wait_early(void) {
    for (;;) {
        int is_empty = *(volatile int *)&items == 0;
        for (volatile int pause = 0; pause < EARLY; pause++) continue;
        pthread_mutex_lock(&mutex);
        if (is_empty) pthread_cond_wait(&not_empty, &mutex);
        if (items > 0) return;
        pthread_mutex_unlock(&mutex);
    }
}

static int take(int round) {
    if (has("early")) {
        wait_early();
    } else {
        pthread_mutex_lock(&mutex);
        WAIT_WHILE(items == 0, condition_of(0), &mutex);
    }
    must_hold(items > 0);
    items--;
    if (has("unlock") && round == FATAL_ROUND) return 0;
    if (!has("forget") || round != FATAL_ROUND) pthread_cond_signal(condition_of(1));
    pthread_mutex_unlock(&mutex);
    return 1;
}

static void *work(void *number) {
    for (int round = 0; round < rounds; round++) {
        if ((long)number % 2)
            put(round);
        else if (!take(round))
            break;
    }
    return NULL;
}

int main(int count, char **words) {
    read_words(count, words);
    run_threads(THREADS, work);
    must_hold(items == 0);
    return end_of("buffer");
}
