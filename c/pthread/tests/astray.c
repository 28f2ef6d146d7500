/* A condition that a thread waits on with one mutex and with another in turn. */
#include <pthread.h>
#include <sched.h>
#include <stdio.h>

enum { TURNS = 30 };

static pthread_mutex_t mutexes[] = {PTHREAD_MUTEX_INITIALIZER, PTHREAD_MUTEX_INITIALIZER};
static pthread_cond_t condition = PTHREAD_COND_INITIALIZER;
static int posts;
static _Atomic int begun, done;

static void *post(void *unused) {
    for (int i = 0; i < TURNS; i++) {
        while (begun <= i) sched_yield();
        pthread_mutex_lock(&mutexes[i % 2]);
        posts++;
        pthread_cond_signal(&condition);
        pthread_mutex_unlock(&mutexes[i % 2]);
        while (done <= i) sched_yield();
    }
    return unused;
}

int main(void) {
    pthread_t thread;
    pthread_create(&thread, NULL, post, NULL);
    for (int i = 0; i < TURNS; i++) {
        pthread_mutex_lock(&mutexes[i % 2]);
        begun++;
        while (!posts) pthread_cond_wait(&condition, &mutexes[i % 2]);
        posts--;
        pthread_mutex_unlock(&mutexes[i % 2]);
        done++;
    }
    pthread_join(thread, NULL);
    printf("astray: turns %d\n", done);
    return 0;
}
