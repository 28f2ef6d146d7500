/* Odd uses of pthreads and C11 threads, each with the answers that the standards give. Prints one line; 0 if all are
   right. */
#define _GNU_SOURCE
#include "box.h"
#include <stdint.h>
#include <stdlib.h>
#include <sys/mman.h>
#include <sys/wait.h>
#include <threads.h>
#include <unistd.h>

enum { TURNS = 200, CROWD = 80, MUTEXES = 100000, OBJECTS = 300 };

static void *post_late(void *it) {
    struct box *b = it;
    pthread_mutex_lock(&b->mutex);
    b->posts++;
    pthread_mutex_unlock(&b->mutex);
    pthread_cond_signal(&b->posted);
    return NULL;
}

static void *try_lock(void *it) { return (void *)(intptr_t)pthread_mutex_trylock(&((struct box *)it)->mutex); }

static void *unlock(void *it) { return (void *)(intptr_t)pthread_mutex_unlock(&((struct box *)it)->mutex); }

static void *lock_soon(void *it) {
    struct timespec limit = in(CLOCK_REALTIME, 20 * MS);
    return (void *)(intptr_t)pthread_mutex_timedlock(&((struct box *)it)->mutex, &limit);
}

static void *lock_soon_by_clock(void *it) {
    struct timespec limit = in(CLOCK_MONOTONIC, 20 * MS);
    return (void *)(intptr_t)pthread_mutex_clocklock(&((struct box *)it)->mutex, CLOCK_MONOTONIC, &limit);
}

/* What the call answers if another thread makes it. */
static int by_another(void *(*call)(void *), struct box *b) {
    pthread_t thread;
    void *answer;
    pthread_create(&thread, NULL, call, b);
    pthread_join(thread, &answer);
    return (int)(intptr_t)answer;
}

static void recursive(void) {
    struct box b;
    pthread_t thread;
    init(&b, PTHREAD_MUTEX_RECURSIVE);
    pthread_mutex_lock(&b.mutex);
    pthread_mutex_lock(&b.mutex);
    pthread_create(&thread, NULL, post, &b);
    pthread_mutex_unlock(&b.mutex);
    take(&b);
    CHECK(pthread_mutex_trylock(&b.mutex) == 0);
    pthread_mutex_unlock(&b.mutex);
    CHECK(by_another(try_lock, &b) == EBUSY);
    pthread_mutex_unlock(&b.mutex);
    CHECK(pthread_mutex_unlock(&b.mutex) == EPERM);
    pthread_join(thread, NULL);
    end(&b);
}

static void checking(void) {
    struct box b;
    pthread_t thread;
    init(&b, PTHREAD_MUTEX_ERRORCHECK);
    pthread_mutex_lock(&b.mutex);
    pthread_create(&thread, NULL, post, &b);
    take(&b);
    CHECK(pthread_mutex_lock(&b.mutex) == EDEADLK);
    CHECK(by_another(unlock, &b) == EPERM);
    CHECK(by_another(lock_soon, &b) == ETIMEDOUT);
    CHECK(by_another(lock_soon_by_clock, &b) == ETIMEDOUT);
    CHECK(by_another(try_lock, &b) == EBUSY);
    pthread_mutex_unlock(&b.mutex);
    CHECK(pthread_mutex_unlock(&b.mutex) == EPERM);
    pthread_join(thread, NULL);
    for (int i = 0; i < TURNS; i++) {
        CHECK(pthread_mutex_trylock(&b.mutex) == 0);
        pthread_mutex_unlock(&b.mutex);
    }
    end(&b);
}

static void used_again(void) {
    pthread_t thread;
    for (int i = 0; i < OBJECTS; i++) {
        struct box *b = malloc(sizeof *b);
        init(b, i % 2 ? PTHREAD_MUTEX_NORMAL : PTHREAD_MUTEX_RECURSIVE);
        pthread_mutex_lock(&b->mutex);
        pthread_create(&thread, NULL, i % 3 ? post : post_late, b);
        take(b);
        pthread_mutex_unlock(&b->mutex);
        pthread_join(thread, NULL);
        end(b);
        free(b);
    }
}

/* Two monitors, one inside the other. */
static struct box outer = {PTHREAD_MUTEX_INITIALIZER, PTHREAD_COND_INITIALIZER, PTHREAD_COND_INITIALIZER, 0, 0};
static struct box inner = {PTHREAD_MUTEX_INITIALIZER, PTHREAD_COND_INITIALIZER, PTHREAD_COND_INITIALIZER, 0, 0};

static void *answer_posts(void *unused) {
    for (int i = 0; i < TURNS; i++) {
        pthread_mutex_lock(&inner.mutex);
        take(&inner);
        pthread_mutex_unlock(&inner.mutex);
        post(&outer);
    }
    return unused;
}

static void nested(void) {
    pthread_t thread;
    pthread_create(&thread, NULL, answer_posts, NULL);
    for (int i = 0; i < TURNS; i++) {
        pthread_mutex_lock(&outer.mutex);
        post(&inner);
        take(&outer);
        pthread_mutex_unlock(&outer.mutex);
    }
    pthread_join(thread, NULL);
    CHECK(outer.posts == 0 && inner.posts == 0);
}

/* In the child, which was forked by the thread that is inside. */
static void work_in_child(void) {
    pthread_t thread;
    bad = 0;
    CHECK(pthread_mutex_trylock(&outer.mutex) == EBUSY);
    pthread_mutex_unlock(&outer.mutex);
    nested();
    pthread_mutex_lock(&outer.mutex);
    pthread_create(&thread, NULL, post, &outer);
    take(&outer);
    pthread_mutex_unlock(&outer.mutex);
    pthread_join(thread, NULL);
    _exit(bad);
}

static void forks(void) {
    int status;
    pthread_mutex_lock(&outer.mutex);
    pid_t child = fork();
    if (!child) work_in_child();
    pthread_mutex_unlock(&outer.mutex);
    waitpid(child, &status, 0);
    CHECK(status == 0);
    nested();
}

static int had_mutex;

static void clean_up(void *it) {
    struct box *b = it;
    had_mutex = pthread_mutex_trylock(&b->mutex) != 0;
    pthread_mutex_unlock(&b->mutex);
}

static void *wait_for_ever(void *it) {
    struct box *b = it;
    pthread_mutex_lock(&b->mutex);
    pthread_cleanup_push(clean_up, b);
    for (;;) pthread_cond_wait(&b->never, &b->mutex);
    pthread_cleanup_pop(0);
    return NULL;
}

static void cancelled(void) {
    struct box b;
    pthread_t thread;
    void *answer;
    init(&b, PTHREAD_MUTEX_NORMAL);
    pthread_create(&thread, NULL, wait_for_ever, &b);
    usleep(20000);
    pthread_cancel(thread);
    pthread_join(thread, &answer);
    CHECK(answer == PTHREAD_CANCELED);
    CHECK(had_mutex == 1);
    CHECK(by_another(try_lock, &b) == 0);
    pthread_mutex_unlock(&b.mutex);
}

static void init_shared(struct box *b) {
    pthread_mutexattr_t of_mutex;
    pthread_condattr_t of_condition;
    pthread_mutexattr_init(&of_mutex);
    pthread_condattr_init(&of_condition);
    pthread_mutexattr_setpshared(&of_mutex, PTHREAD_PROCESS_SHARED);
    pthread_condattr_setpshared(&of_condition, PTHREAD_PROCESS_SHARED);
    pthread_mutex_init(&b->mutex, &of_mutex);
    pthread_cond_init(&b->posted, &of_condition);
}

static void shared(void) {
    int status;
    struct box *b = mmap(NULL, sizeof *b, PROT_READ | PROT_WRITE, MAP_SHARED | MAP_ANONYMOUS, -1, 0);
    init_shared(b);
    pid_t child = fork();
    if (!child) {
        usleep(20000);
        post(b);
        _exit(0);
    }
    pthread_mutex_lock(&b->mutex);
    take(b);
    pthread_mutex_unlock(&b->mutex);
    waitpid(child, &status, 0);
    CHECK(status == 0);
}

static mtx_t c11_mutex;
static cnd_t c11_posted, c11_all;
static int c11_posts;

static int c11_post(void *unused) {
    (void)unused;
    mtx_lock(&c11_mutex);
    c11_posts++;
    cnd_signal(&c11_posted);
    cnd_broadcast(&c11_all);
    mtx_unlock(&c11_mutex);
    return 7;
}

static int c11_lock_soon(void *unused) {
    (void)unused;
    struct timespec limit = in(CLOCK_REALTIME, 5 * MS);
    return mtx_timedlock(&c11_mutex, &limit);
}

static int c11_answer(int (*work)(void *)) {
    thrd_t thread;
    int answer;
    thrd_create(&thread, work, NULL);
    thrd_join(thread, &answer);
    return answer;
}

static void c11(void) {
    thrd_t thread;
    int answer;
    struct timespec limit = in(CLOCK_REALTIME, 5 * MS);
    CHECK(mtx_init(&c11_mutex, mtx_plain | mtx_timed) == thrd_success);
    CHECK(cnd_init(&c11_posted) == thrd_success && cnd_init(&c11_all) == thrd_success);
    mtx_lock(&c11_mutex);
    CHECK(cnd_timedwait(&c11_posted, &c11_mutex, &limit) == thrd_timedout);
    thrd_create(&thread, c11_post, NULL);
    while (!c11_posts) cnd_wait(&c11_posted, &c11_mutex);
    CHECK(mtx_trylock(&c11_mutex) == thrd_busy);
    CHECK(c11_answer(c11_lock_soon) == thrd_timedout);
    mtx_unlock(&c11_mutex);
    thrd_join(thread, &answer);
    CHECK(answer == 7);
    mtx_destroy(&c11_mutex);
    cnd_destroy(&c11_posted);
    cnd_destroy(&c11_all);
}

static void *visit(void *it) {
    struct box *b = it;
    for (int i = 0; i < 20; i++) {
        pthread_mutex_lock(&b->mutex);
        b->visits++;
        usleep(50);
        pthread_mutex_unlock(&b->mutex);
    }
    return NULL;
}

static void crowd(void) {
    struct box b;
    pthread_t threads[CROWD], poster;
    init(&b, PTHREAD_MUTEX_NORMAL);
    pthread_mutex_lock(&b.mutex);
    pthread_create(&poster, NULL, post, &b);
    take(&b);
    pthread_mutex_unlock(&b.mutex);
    for (int i = 0; i < CROWD; i++) pthread_create(&threads[i], NULL, visit, &b);
    for (int i = 0; i < CROWD; i++) pthread_join(threads[i], NULL);
    pthread_join(poster, NULL);
    CHECK(b.visits == CROWD * 20);
}

static void many_mutexes(void) {
    pthread_mutex_t *mutexes = malloc(MUTEXES * sizeof *mutexes);
    for (int i = 0; i < MUTEXES; i++) pthread_mutex_init(&mutexes[i], NULL), pthread_mutex_lock(&mutexes[i]);
    for (int i = 0; i < MUTEXES; i++) pthread_mutex_unlock(&mutexes[i]), pthread_mutex_destroy(&mutexes[i]);
    free(mutexes);
}

static const struct {
    const char *name;
    void (*run)(void);
} uses[] = {{"a recursive mutex", recursive},
            {"a checking mutex", checking},
            {"mutexes that are used again", used_again},
            {"nested", nested},
            {"fork", forks},
            {"cancelled", cancelled},
            {"between processes", shared},
            {"C11", c11},
            {"80 threads", crowd},
            {"100,000 mutexes", many_mutexes}};

int main(void) {
    for (size_t i = 0; i < sizeof uses / sizeof *uses; i++) {
        now = uses[i].name;
        uses[i].run();
    }
    printf("odd: bad %d\n", bad);
    return bad != 0;
}
