/* A thread of a child meets its parent, who comes after it has computed for a while: at a semaphore, a mutex, a
   read-write lock or a barrier. */
#define _GNU_SOURCE
#include "textbook.h"
#include <semaphore.h>
#include <sys/mman.h>
#include <sys/wait.h>
#include <time.h>
#include <unistd.h>

enum { BUSY_NS = 800000000 };

static struct shared {
    sem_t semaphore;
    pthread_mutex_t mutex;
    pthread_rwlock_t lock;
    pthread_barrier_t barrier;
} *shared;

static void make_shared(void) {
    pthread_mutexattr_t mutex;
    pthread_rwlockattr_t lock;
    pthread_barrierattr_t barrier;
    shared = mmap(NULL, sizeof *shared, PROT_READ | PROT_WRITE, MAP_SHARED | MAP_ANONYMOUS, -1, 0);
    must_hold(shared != MAP_FAILED && sem_init(&shared->semaphore, 1, 0) == 0);
    pthread_mutexattr_init(&mutex), pthread_rwlockattr_init(&lock), pthread_barrierattr_init(&barrier);
    pthread_mutexattr_setpshared(&mutex, PTHREAD_PROCESS_SHARED);
    pthread_rwlockattr_setpshared(&lock, PTHREAD_PROCESS_SHARED);
    pthread_barrierattr_setpshared(&barrier, PTHREAD_PROCESS_SHARED);
    pthread_mutex_init(&shared->mutex, &mutex), pthread_rwlock_init(&shared->lock, &lock);
    pthread_barrier_init(&shared->barrier, &barrier, 2);
}

static void *await(void *unused) {
    if (has("semaphore")) must_hold(sem_wait(&shared->semaphore) == 0);
    if (has("mutex")) must_hold(pthread_mutex_lock(&shared->mutex) == 0 && !pthread_mutex_unlock(&shared->mutex));
    if (has("lock")) must_hold(pthread_rwlock_rdlock(&shared->lock) == 0 && !pthread_rwlock_unlock(&shared->lock));
    if (has("barrier")) must_hold(pthread_barrier_wait(&shared->barrier) <= 0);
    return unused;
}

/* Lets the child go on. */
static void come(void) {
    struct timespec used = {0};
    while (used.tv_sec == 0 && used.tv_nsec < BUSY_NS) clock_gettime(CLOCK_THREAD_CPUTIME_ID, &used);
    sem_post(&shared->semaphore);
    pthread_mutex_unlock(&shared->mutex), pthread_rwlock_unlock(&shared->lock);
    if (has("barrier")) pthread_barrier_wait(&shared->barrier);
}

int main(int count, char **words) {
    pthread_t thread;
    int status = 1;
    read_words(count, words);
    make_shared();
    pthread_mutex_lock(&shared->mutex), pthread_rwlock_wrlock(&shared->lock);
    pid_t child = fork();
    if (child == 0) {
        must_hold(pthread_create(&thread, NULL, await, NULL) == 0 && pthread_join(thread, NULL) == 0);
        return wrong;
    }
    come();
    must_hold(waitpid(child, &status, 0) == child && status == 0);
    return end_of("kin");
}
