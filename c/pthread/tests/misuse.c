/* Uses that POSIX leaves undefined or that can't be meant: mutexes (a condition with two at once), unlock (by a thread
   that hasn't locked), clock (a limit that is read from another one); right has none of them. It prints its name. */
#include "box.h"
#include <string.h>

static struct box box, other;
static int is_over;

static void *waits(void *it) {
    struct box *b = it;
    pthread_mutex_lock(&b->mutex);
    while (!is_over) pthread_cond_wait(&box.posted, &b->mutex);
    pthread_mutex_unlock(&b->mutex);
    return NULL;
}

static void *unlocks(void *it) { return pthread_mutex_unlock(it), NULL; }

static void wait_until(clockid_t clock) {
    struct timespec limit = in(clock, NS_A_SECOND / 2);
    pthread_mutex_lock(&box.mutex);
    pthread_cond_timedwait(&box.never, &box.mutex, &limit);
    pthread_mutex_unlock(&box.mutex);
}

static void run(void *(*work)(void *), void *word) {
    pthread_t thread;
    pthread_create(&thread, NULL, work, word);
    pthread_join(thread, NULL);
}

/* The second wait is over once the first thread has gone on. */
static void wait_with_two(void) {
    pthread_t threads[2];
    pthread_create(&threads[0], NULL, waits, &box);
    pthread_create(&threads[1], NULL, waits, &other);
    nanosleep(&(struct timespec){0, 100 * MS}, NULL);
    __atomic_store_n(&is_over, 1, __ATOMIC_SEQ_CST);
    for (struct box *b = &box; b; b = b == &box ? &other : NULL) {
        pthread_mutex_lock(&b->mutex);
        pthread_cond_broadcast(&box.posted);
        pthread_mutex_unlock(&b->mutex);
    }
    for (int i = 0; i < 2; i++) pthread_join(threads[i], NULL);
}

int main(int count, char **words) {
    const char *fault = count > 1 ? words[1] : "right";
    init(&box, PTHREAD_MUTEX_NORMAL), init(&other, PTHREAD_MUTEX_NORMAL);
    wait_until(strcmp(fault, "clock") ? CLOCK_REALTIME : CLOCK_MONOTONIC);
    if (!strcmp(fault, "mutexes")) wait_with_two();
    pthread_mutex_lock(&box.mutex);
    if (!strcmp(fault, "unlock"))
        run(unlocks, &box.mutex);
    else
        pthread_mutex_unlock(&box.mutex);
    printf("misuse: %s\n", fault);
    _Exit(0);
}
