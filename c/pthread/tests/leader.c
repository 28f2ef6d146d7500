/* The first thread ends before the others, by pthread_exit or (leader c11) by thrd_exit. What is printed isn't
   lost. */
#include <pthread.h>
#include <stdio.h>
#include <threads.h>
#include <unistd.h>

enum { LATER_US = 200000 };

static pthread_mutex_t mutex = PTHREAD_MUTEX_INITIALIZER;
static pthread_cond_t told = PTHREAD_COND_INITIALIZER;
static int is_waiting, is_told;

static void *work(void *unused) {
    pthread_mutex_lock(&mutex);
    is_waiting = 1;
    while (!is_told) pthread_cond_wait(&told, &mutex);
    pthread_mutex_unlock(&mutex);
    usleep(LATER_US);
    printf("leader: last words\n");
    return unused;
}

static int is_told_now(void) {
    pthread_mutex_lock(&mutex);
    is_told = is_waiting;
    pthread_cond_signal(&told);
    pthread_mutex_unlock(&mutex);
    return is_told;
}

int main(int count, char **words) {
    (void)words;
    pthread_t thread;
    pthread_create(&thread, NULL, work, NULL);
    while (!is_told_now()) usleep(LATER_US / 100);
    if (count > 1) thrd_exit(0);
    pthread_exit(NULL);
}
