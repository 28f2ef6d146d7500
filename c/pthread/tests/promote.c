/* A mutex becomes a monitor while others hammer it: nobody may be inside twice. Each mutex at another moment. */
#include <pthread.h>
#include <stdio.h>
#include <stdlib.h>
#include <time.h>

enum { THREADS = 4, VISITS = 400, STRIDE = 7, WORK = 20, LIMIT_NS = 50000, NS_A_SECOND = 1000000000 };

static struct {
    pthread_mutex_t mutex;
    pthread_cond_t never;
    volatile long count;
    int moment;
} now;

static void wait_a_little(void) {
    struct timespec limit;
    clock_gettime(CLOCK_REALTIME, &limit);
    limit.tv_nsec += LIMIT_NS;
    if (limit.tv_nsec >= NS_A_SECOND) limit.tv_sec++, limit.tv_nsec -= NS_A_SECOND;
    pthread_cond_timedwait(&now.never, &now.mutex, &limit);
}

static void *work(void *number) {
    for (int i = 0; i < VISITS; i++) {
        pthread_mutex_lock(&now.mutex);
        long count = now.count;
        for (volatile int work = 0; work < WORK; work++) continue;
        now.count = count + 1;
        if (!number && i == now.moment) wait_a_little();
        pthread_mutex_unlock(&now.mutex);
    }
    return NULL;
}

static int round_is_bad(int round) {
    pthread_t threads[THREADS];
    now.moment = round * STRIDE % VISITS;
    now.count = 0;
    pthread_mutex_init(&now.mutex, NULL);
    pthread_cond_init(&now.never, NULL);
    for (long i = 0; i < THREADS; i++) pthread_create(&threads[i], NULL, work, (void *)i);
    for (int i = 0; i < THREADS; i++) pthread_join(threads[i], NULL);
    pthread_mutex_destroy(&now.mutex);
    pthread_cond_destroy(&now.never);
    return now.count != THREADS * VISITS;
}

int main(int count, char **words) {
    int rounds = count > 1 ? atoi(words[1]) : VISITS / 2, bad = 0;
    for (int round = 0; round < rounds; round++) bad += round_is_bad(round);
    printf("promote: bad %d\n", bad);
    return bad != 0;
}
