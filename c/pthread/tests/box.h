/* box.h - what the tests of single uses share. */
#ifndef BOX_H
#define BOX_H

#include <errno.h>
#include <pthread.h>
#include <stdio.h>
#include <time.h>

enum { NS_A_SECOND = 1000000000, MS = 1000000 };

static int bad;
static const char *now;

#define CHECK(holds)                                                 \
    do {                                                             \
        if (holds) break;                                            \
        bad++;                                                       \
        fprintf(stderr, "%s: line %d: %s\n", now, __LINE__, #holds); \
    } while (0)

/* A counter that is posted and taken. */
struct box {
    pthread_mutex_t mutex;
    pthread_cond_t posted, never;
    int posts, visits;
};

static inline void init(struct box *b, int type) {
    pthread_mutexattr_t attributes;
    pthread_mutexattr_init(&attributes);
    pthread_mutexattr_settype(&attributes, type);
    pthread_mutex_init(&b->mutex, &attributes);
    pthread_cond_init(&b->posted, NULL);
    pthread_cond_init(&b->never, NULL);
    b->posts = b->visits = 0;
}

static inline void end(struct box *b) {
    CHECK(pthread_mutex_destroy(&b->mutex) == 0);
    pthread_cond_destroy(&b->posted);
    pthread_cond_destroy(&b->never);
}

static inline void *post(void *it) {
    struct box *b = it;
    pthread_mutex_lock(&b->mutex);
    b->posts++;
    pthread_cond_signal(&b->posted);
    pthread_mutex_unlock(&b->mutex);
    return NULL;
}

/* From inside. */
static inline void take(struct box *b) {
    while (!b->posts) pthread_cond_wait(&b->posted, &b->mutex);
    b->posts--;
}

static inline struct timespec in(clockid_t clock, long ns) {
    struct timespec time;
    clock_gettime(clock, &time);
    time.tv_nsec += ns;
    if (time.tv_nsec >= NS_A_SECOND) time.tv_sec++, time.tv_nsec -= NS_A_SECOND;
    return time;
}

#endif
