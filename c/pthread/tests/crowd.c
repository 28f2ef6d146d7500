/* Threads that all wait at one mutex at the same time: crowd THREADS CONDITIONS [heap]. The mutex has a name, or is on
   the heap. */
#include <pthread.h>
#include <stdio.h>
#include <stdlib.h>
#include <unistd.h>

enum { MOST = 64, LOOK_US = 1000 };

static pthread_mutex_t mutex = PTHREAD_MUTEX_INITIALIZER, *used = &mutex;
static pthread_cond_t conditions[MOST];
static int may_go;
static _Atomic int waiting;

static void *work(void *condition) {
    pthread_mutex_lock(used);
    waiting++;
    while (!may_go) pthread_cond_wait(condition, used);
    pthread_mutex_unlock(used);
    return NULL;
}

int main(int count, char **words) {
    int threads = count > 1 ? atoi(words[1]) : 1, many = count > 2 ? atoi(words[2]) : 1;
    pthread_t thread[MOST];
    if (threads < 1 || threads > MOST || many < 1 || many > MOST) return 2;
    if (count > 3) pthread_mutex_init(used = malloc(sizeof *used), NULL);
    for (int k = 0; k < many; k++) pthread_cond_init(&conditions[k], NULL);
    for (int i = 0; i < threads; i++) pthread_create(&thread[i], NULL, work, &conditions[i % many]);
    while (waiting < threads) usleep(LOOK_US);
    pthread_mutex_lock(used);
    may_go = 1;
    for (int k = 0; k < many; k++) pthread_cond_broadcast(&conditions[k]);
    pthread_mutex_unlock(used);
    for (int i = 0; i < threads; i++) pthread_join(thread[i], NULL);
    puts("crowd: all went");
    return 0;
}
