/* No signal may be lost at waits with time limits, whether it is sent with the mutex or without. In each round three
   threads want a token each and wait without a limit. Four others wait with tiny limits and never take a token: one
   that was signalled passes the signal on, one that was late doesn't. */
#include <errno.h>
#include <pthread.h>
#include <stdio.h>
#include <stdlib.h>
#include <time.h>
#include <unistd.h>

enum {
    TAKERS = 3,
    THREADS = 7,
    NS_A_SECOND = 1000000000,
    LIMIT_NS = 1500000,
    PAUSE_US = 500,
    BETWEEN_US = 900,
    FEW = 10
};

static pthread_mutex_t mutex = PTHREAD_MUTEX_INITIALIZER;
static pthread_cond_t has_token = PTHREAD_COND_INITIALIZER, all_taken = PTHREAD_COND_INITIALIZER;
static int rounds = 100, tokens, taken, is_over;
static long late;

static void take_token(void) {
    pthread_mutex_lock(&mutex);
    while (!tokens) pthread_cond_wait(&has_token, &mutex);
    tokens--;
    if (++taken == TAKERS) pthread_cond_signal(&all_taken);
    pthread_mutex_unlock(&mutex);
}

/* From inside. */
static void wait_a_little(unsigned *seed) {
    struct timespec limit;
    clock_gettime(CLOCK_REALTIME, &limit);
    limit.tv_nsec += rand_r(seed) % LIMIT_NS;
    if (limit.tv_nsec >= NS_A_SECOND) limit.tv_sec++, limit.tv_nsec -= NS_A_SECOND;
    if (pthread_cond_timedwait(&has_token, &mutex, &limit) == ETIMEDOUT)
        late++;
    else
        pthread_cond_signal(&has_token);
}

static void pass_on(unsigned seed) {
    pthread_mutex_lock(&mutex);
    while (!is_over) {
        wait_a_little(&seed);
        if (rand_r(&seed) % 3) continue;
        pthread_mutex_unlock(&mutex);
        usleep((useconds_t)(rand_r(&seed) % PAUSE_US));
        pthread_mutex_lock(&mutex);
    }
    pthread_mutex_unlock(&mutex);
}

static void *work(void *number) {
    if ((long)number >= TAKERS) return pass_on((unsigned)(long)number), NULL;
    for (int round = 0; round < rounds; round++) take_token();
    return NULL;
}

static void give_tokens(unsigned *seed) {
    for (int i = 0; i < TAKERS; i++) {
        usleep((useconds_t)(rand_r(seed) % BETWEEN_US));
        pthread_mutex_lock(&mutex);
        tokens++;
        if (i % 2) pthread_cond_signal(&has_token);
        pthread_mutex_unlock(&mutex);
        if (i % 2 == 0) pthread_cond_signal(&has_token);
    }
}

static void await_takers(void) {
    pthread_mutex_lock(&mutex);
    while (taken < TAKERS) pthread_cond_wait(&all_taken, &mutex);
    taken = 0;
    pthread_mutex_unlock(&mutex);
}

static void give_all(unsigned seed) {
    for (int round = 0; round < rounds; round++) {
        give_tokens(&seed);
        await_takers();
    }
    pthread_mutex_lock(&mutex);
    is_over = 1;
    pthread_mutex_unlock(&mutex);
}

int main(int count, char **words) {
    pthread_t threads[THREADS];
    if (count > 1) rounds = atoi(words[1]);
    for (long i = 0; i < THREADS; i++) pthread_create(&threads[i], NULL, work, (void *)i);
    give_all(THREADS);
    for (int i = 0; i < THREADS; i++) pthread_join(threads[i], NULL);
    printf("timed: late %s\n", late > FEW ? "some" : "few");
    return 0;
}
