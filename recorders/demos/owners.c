/* Threads that end what another began: owners STYLE

     astray     a fault: a thread unlocks the mutex that another holds
     robust     a thread ends while it holds a robust mutex, twice: the next one, which locks or has waited, is told
                (EOWNERDEAD), and makes the mutex consistent */
#include <errno.h>
#include <pthread.h>
#include <semaphore.h>
#include <stdlib.h>
#include <string.h>

static pthread_mutex_t lock;
static pthread_cond_t is_set = PTHREAD_COND_INITIALIZER;
static sem_t has_it, lost_it;
static int waiting, set, is_robust;

/* Locks, or goes on after a wait: who finds that the owner has ended says that all is well. */
static void consistent_if(int answer) {
    if (answer == EOWNERDEAD)
        pthread_mutex_consistent(&lock);
    else if (answer)
        exit(1);
}

static void wait_until_set(void) {
    waiting = 1;
    while (!set)
        consistent_if(pthread_cond_wait(&is_set, &lock));
    waiting = 0;
}

/* Comes back from its wait with the mutex, and keeps it. */
static void *keeper(void *unused) {
    consistent_if(pthread_mutex_lock(&lock));
    wait_until_set();
    sem_post(&has_it);
    if (!is_robust)
        sem_wait(&lost_it);
    return unused;
}

static void *waiter(void *unused) {
    consistent_if(pthread_mutex_lock(&lock));
    wait_until_set();
    pthread_mutex_unlock(&lock);
    return unused;
}

/* Signals, and ends with the mutex. */
static void *setter(void *unused) {
    for (int there = 0; !there;) {
        consistent_if(pthread_mutex_lock(&lock));
        there = waiting;
        if (!there)
            pthread_mutex_unlock(&lock);
    }
    set = 1;
    pthread_cond_signal(&is_set);
    if (!is_robust)
        pthread_mutex_unlock(&lock);
    return unused;
}

static void *run(void *(*first)(void *), void *(*second)(void *)) {
    pthread_t threads[2];
    set = 0;
    pthread_create(&threads[0], 0, first, 0);
    pthread_create(&threads[1], 0, second, 0);
    if (!is_robust) {
        sem_wait(&has_it);
        pthread_mutex_unlock(&lock); /* the keeper's */
        sem_post(&lost_it);
    }
    pthread_join(threads[0], 0);
    pthread_join(threads[1], 0);
    return 0;
}

int main(int words, char **word) {
    pthread_mutexattr_t kind;
    is_robust = words > 1 && !strcmp(word[1], "robust");
    pthread_mutexattr_init(&kind);
    pthread_mutexattr_setrobust(&kind, is_robust ? PTHREAD_MUTEX_ROBUST : PTHREAD_MUTEX_STALLED);
    pthread_mutex_init(&lock, &kind);
    run(keeper, setter);
    if (is_robust)
        run(waiter, setter);
    consistent_if(pthread_mutex_lock(&lock));
    pthread_mutex_unlock(&lock);
    return 0;
}
