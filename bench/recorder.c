/* How long lock, signal and unlock take: recorder [THREADS [ROUNDS]]

       gcc -O2 -o recorder bench/recorder.c -lpthread
       ./recorder; MONK_LOG=run LD_PRELOAD=./libmonk_log.so ./recorder

   Each thread does so on the same mutex, after one short wait, without which there is no log. Prints the nanoseconds
   of a round. */
#include <pthread.h>
#include <stdio.h>
#include <stdlib.h>
#include <time.h>

enum { ROUNDS = 300000, MOST = 64, SECOND = 1000000000 };

static pthread_mutex_t lock = PTHREAD_MUTEX_INITIALIZER;
static pthread_cond_t cond = PTHREAD_COND_INITIALIZER;
static long rounds = ROUNDS;

static void *work(void *unused) {
    (void)unused;
    for (long i = 0; i < rounds; i++) {
        pthread_mutex_lock(&lock);
        pthread_cond_signal(&cond);
        pthread_mutex_unlock(&lock);
    }
    return 0;
}

static double now(void) {
    struct timespec time;
    clock_gettime(CLOCK_PROCESS_CPUTIME_ID, &time);
    return (double)time.tv_sec * SECOND + (double)time.tv_nsec;
}

int main(int words, char **word) {
    int count = words > 1 ? atoi(word[1]) : 1;
    struct timespec past = {0, 0};
    pthread_t threads[MOST];
    rounds = words > 2 ? atol(word[2]) : ROUNDS;
    pthread_mutex_lock(&lock);
    pthread_cond_timedwait(&cond, &lock, &past);
    pthread_mutex_unlock(&lock);
    double start = now();
    for (int i = 0; i < count && i < MOST; i++)
        pthread_create(&threads[i], 0, work, 0);
    for (int i = 0; i < count && i < MOST; i++)
        pthread_join(threads[i], 0);
    printf("%.1f\n", (now() - start) / (double)rounds / count);
    return 0;
}
