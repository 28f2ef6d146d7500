/* More conditions of a mutex than a monitor has, of which few have waiters at the same time. Prints one line; 0 if all
   waits answer as they have to. */
#define _GNU_SOURCE
#include "box.h"

enum { CONDITIONS = 20 };

static void many_conditions(void) {
    static pthread_cond_t conditions[CONDITIONS];
    struct box b;
    init(&b, PTHREAD_MUTEX_NORMAL);
    for (int i = 0; i < CONDITIONS; i++) {
        struct timespec limit = in(CLOCK_REALTIME, MS);
        pthread_cond_init(&conditions[i], NULL);
        pthread_mutex_lock(&b.mutex);
        int answer = i % 2 ? pthread_cond_timedwait(&conditions[i], &b.mutex, &limit)
                           : pthread_cond_clockwait(&conditions[i], &b.mutex, CLOCK_REALTIME, &limit);
        CHECK(answer == ETIMEDOUT);
        limit.tv_nsec = NS_A_SECOND;
        CHECK(pthread_cond_timedwait(&conditions[i], &b.mutex, &limit) == EINVAL);
        pthread_mutex_unlock(&b.mutex);
    }
}

static void *take_all(void *it) {
    struct box *b = it;
    pthread_mutex_lock(&b->mutex);
    for (int i = 0; i < CONDITIONS; i++) take(b);
    pthread_mutex_unlock(&b->mutex);
    return NULL;
}

/* As each wait begins, one of two others who wait was signalled, and is on its way. */
static void signals_before_waits(void) {
    static pthread_cond_t conditions[2 * CONDITIONS];
    struct box b;
    pthread_t one, two;
    init(&b, PTHREAD_MUTEX_NORMAL);
    pthread_create(&one, NULL, take_all, &b);
    pthread_create(&two, NULL, take_all, &b);
    for (int i = 0; i < 2 * CONDITIONS; i++) {
        struct timespec limit = in(CLOCK_REALTIME, MS);
        pthread_cond_init(&conditions[i], NULL);
        pthread_mutex_lock(&b.mutex);
        b.posts++;
        pthread_cond_signal(&b.posted);
        CHECK(pthread_cond_timedwait(&conditions[i], &b.mutex, &limit) == ETIMEDOUT);
        pthread_mutex_unlock(&b.mutex);
    }
    pthread_join(one, NULL);
    pthread_join(two, NULL);
    end(&b);
}

int main(void) {
    now = "20 conditions";
    many_conditions();
    now = "20 conditions, and signals before waits";
    signals_before_waits();
    printf("conditions: bad %d\n", bad);
    return bad != 0;
}
