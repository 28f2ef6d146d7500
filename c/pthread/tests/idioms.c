/* Ways in which programs of pthreads and C11 threads end, wait and cancel, one a word: idioms NAME. What each prints,
   and its status, are the same in each run. Without a word the names are printed. */
#define _GNU_SOURCE
#include "box.h"
#include <signal.h>
#include <stdint.h>
#include <stdlib.h>
#include <string.h>
#include <sys/wait.h>
#include <threads.h>
#include <unistd.h>

enum { WORKERS = 3, EXITED = 3, QUICKLY = 4, AT_ONCE = 5, AN_HOUR = 3600 };

static struct box box;

static void unlock(void *mutex) { pthread_mutex_unlock(mutex); }

static void take_one(void) {
    pthread_mutex_lock(&box.mutex);
    take(&box);
    pthread_mutex_unlock(&box.mutex);
}

static void *wait_for_ever(void *unused) {
    pthread_mutex_lock(&box.mutex);
    pthread_cleanup_push(unlock, &box.mutex);
    while (!box.posts) pthread_cond_wait(&box.posted, &box.mutex);
    pthread_cleanup_pop(1);
    return unused;
}

static pthread_t begun(void *(*does)(void *), void *with) {
    pthread_t thread;
    CHECK(pthread_create(&thread, NULL, does, with) == 0);
    return thread;
}

static void *result_of(pthread_t thread) {
    void *result;
    CHECK(pthread_join(thread, &result) == 0);
    return result;
}

/* ---- to end */

static void *return_seven(void *it) { return post(it), (void *)(intptr_t)7; }

static void join_(void) {
    pthread_t thread = begun(return_seven, &box);
    take_one();
    printf("joined %d\n", (int)(intptr_t)result_of(thread));
}

static void detach(void) {
    CHECK(pthread_detach(begun(post, &box)) == 0);
    take_one();
    printf("a detached thread posted\n");
}

static void leave_deep_inside(void) { pthread_exit((void *)(intptr_t)9); }

static void *exits(void *it) {
    post(it);
    leave_deep_inside();
    return NULL;
}

static void thread_exit(void) {
    pthread_t thread = begun(exits, &box);
    take_one();
    printf("ended with %d\n", (int)(intptr_t)result_of(thread));
}

static void *say_last(void *it) {
    usleep(20000);
    printf("last words\n");
    return it;
}

static void main_exits_first(void) {
    begun(say_last, NULL);
    pthread_exit(NULL);
}

static void *exit_now(void *it) {
    printf("exit from a thread\n");
    exit(it ? EXITED : 0);
}

static void exit_in_thread(void) {
    begun(exit_now, &box);
    wait_for_ever(NULL);
}

static void say_quickly(void) { printf("quickly\n"), fflush(stdout); }

static void *exit_quickly(void *unused) { return quick_exit(QUICKLY), unused; }

static void quick(void) {
    CHECK(at_quick_exit(say_quickly) == 0);
    begun(exit_quickly, NULL);
    wait_for_ever(NULL);
}

static void *exit_at_once(void *unused) {
    CHECK(write(1, "at once\n", 8) == 8);
    return _exit(AT_ONCE), unused;
}

/* Its end isn't a point at which a cancelled thread ends. */
static void cancelled_at_once(void) {
    pthread_t thread = begun(post, &box);
    take_one();
    result_of(thread);
    CHECK(pthread_cancel(pthread_self()) == 0);
    _exit(AT_ONCE);
}

static void at_once(void) {
    begun(exit_at_once, NULL);
    wait_for_ever(NULL);
}

static void *abort_now(void *unused) { return abort(), unused; }

static void aborts(void) {
    printf("aborts\n"), fflush(stdout);
    begun(abort_now, NULL);
    wait_for_ever(NULL);
}

static void *raise_now(void *unused) { return kill(getpid(), SIGTERM), unused; }

static void killed(void) {
    printf("is killed\n"), fflush(stdout);
    begun(raise_now, NULL);
    wait_for_ever(NULL);
}

static void say_at_exit(void) { printf("at exit\n"); }

static void at_exit(void) {
    CHECK(atexit(say_at_exit) == 0);
    pthread_t thread = begun(post, &box);
    take_one();
    result_of(thread);
}

/* ---- to cancel */

static void cancel(void) {
    pthread_t thread = begun(wait_for_ever, NULL);
    usleep(20000);
    CHECK(pthread_cancel(thread) == 0 && result_of(thread) == PTHREAD_CANCELED);
    CHECK(pthread_mutex_trylock(&box.mutex) == 0);
    printf("cancelled in a wait\n");
}

static void *wait_an_hour(void *unused) {
    struct timespec limit = in(CLOCK_REALTIME, 0);
    limit.tv_sec += AN_HOUR;
    pthread_mutex_lock(&box.mutex);
    pthread_cleanup_push(unlock, &box.mutex);
    pthread_cond_timedwait(&box.posted, &box.mutex, &limit);
    pthread_cleanup_pop(1);
    return unused;
}

static void cancel_timed(void) {
    pthread_t thread = begun(wait_an_hour, NULL);
    usleep(20000);
    CHECK(pthread_cancel(thread) == 0 && result_of(thread) == PTHREAD_CANCELED);
    printf("cancelled in a timed wait\n");
}

static void *wait_undisturbed(void *unused) {
    pthread_setcancelstate(PTHREAD_CANCEL_DISABLE, NULL);
    take_one();
    printf("went on\n");
    pthread_setcancelstate(PTHREAD_CANCEL_ENABLE, NULL);
    pthread_testcancel();
    return unused;
}

static void cancel_later(void) {
    pthread_t thread = begun(wait_undisturbed, NULL);
    CHECK(pthread_cancel(thread) == 0);
    post(&box);
    CHECK(result_of(thread) == PTHREAD_CANCELED);
    printf("cancelled later\n");
}

static void *count_for_ever(void *it) {
    pthread_setcanceltype(PTHREAD_CANCEL_ASYNCHRONOUS, NULL);
    for (volatile unsigned long count = 0;; count++) {}
    return it;
}

static void cancel_at_any_time(void) {
    pthread_t thread = begun(count_for_ever, NULL);
    CHECK(pthread_cancel(thread) == 0 && result_of(thread) == PTHREAD_CANCELED);
    printf("cancelled while it counted\n");
}

static void say(void *words) { printf("%s\n", (char *)words); }

static void *clean_up(void *it) {
    pthread_cleanup_push(say, "outer");
    pthread_cleanup_push(say, "inner");
    post(it);
    pthread_exit(NULL);
    pthread_cleanup_pop(0);
    pthread_cleanup_pop(0);
    return NULL;
}

static void cleanup(void) {
    pthread_t thread = begun(clean_up, &box);
    take_one();
    result_of(thread);
}

static void post_at_end(void *it) { post(it); }

static pthread_key_t key;

static void *set_key(void *it) { return pthread_setspecific(key, it), NULL; }

static void destructor(void) {
    CHECK(pthread_key_create(&key, post_at_end) == 0);
    pthread_t thread = begun(set_key, &box);
    take_one();
    result_of(thread);
    printf("a destructor posted\n");
}

/* ---- to wait */

static void broadcast(void) {
    pthread_t threads[WORKERS];
    for (int i = 0; i < WORKERS; i++) threads[i] = begun(wait_for_ever, NULL);
    pthread_mutex_lock(&box.mutex);
    box.posts = 1;
    pthread_mutex_unlock(&box.mutex);
    pthread_cond_broadcast(&box.posted);
    for (int i = 0; i < WORKERS; i++) result_of(threads[i]);
    printf("%d went on\n", WORKERS);
}

static void runs_out(void) {
    struct timespec limit = in(CLOCK_REALTIME, 20 * MS);
    pthread_mutex_lock(&box.mutex);
    int answer = pthread_cond_timedwait(&box.posted, &box.mutex, &limit);
    pthread_mutex_unlock(&box.mutex);
    printf("%s\n", answer == ETIMEDOUT ? "ran out" : "woken");
}

static void runs_out_by_clock(void) {
    struct timespec limit = in(CLOCK_MONOTONIC, 20 * MS);
    pthread_mutex_lock(&box.mutex);
    int answer = pthread_cond_clockwait(&box.posted, &box.mutex, CLOCK_MONOTONIC, &limit);
    pthread_mutex_unlock(&box.mutex);
    printf("%s\n", answer == ETIMEDOUT ? "ran out" : "woken");
}

static pthread_once_t once = PTHREAD_ONCE_INIT;

static void say_once(void) { printf("once\n"); }

static void *do_once(void *it) { return pthread_once(&once, say_once), post(it); }

static void at_most_once(void) {
    pthread_t threads[WORKERS];
    for (int i = 0; i < WORKERS; i++) threads[i] = begun(do_once, &box);
    for (int i = 0; i < WORKERS; i++) take_one();
    for (int i = 0; i < WORKERS; i++) result_of(threads[i]);
}

static void forks(void) {
    fflush(stdout);
    pid_t child = fork();
    if (child == 0) {
        pthread_t thread = begun(post, &box);
        take_one();
        result_of(thread);
        _exit(EXITED);
    }
    int status;
    CHECK(waitpid(child, &status, 0) == child);
    printf("the child ended with %d\n", WEXITSTATUS(status));
}

/* ---- by C11 */

static mtx_t mutex;
static cnd_t posted;
static int posts;

static int post11(void *unused) {
    mtx_lock(&mutex);
    posts++;
    cnd_signal(&posted);
    mtx_unlock(&mutex);
    return unused ? 1 : 11;
}

static void take11(void) {
    mtx_lock(&mutex);
    while (!posts) cnd_wait(&posted, &mutex);
    posts--;
    mtx_unlock(&mutex);
}

static void init11(void) { CHECK(mtx_init(&mutex, mtx_timed) == thrd_success && cnd_init(&posted) == thrd_success); }

static void join11(void) {
    thrd_t thread;
    int result;
    init11();
    CHECK(thrd_create(&thread, post11, NULL) == thrd_success);
    take11();
    CHECK(thrd_join(thread, &result) == thrd_success);
    printf("joined %d\n", result);
}

static int exit11(void *unused) {
    post11(unused);
    thrd_exit(12);
}

static void detach11(void) {
    thrd_t thread;
    init11();
    CHECK(thrd_create(&thread, exit11, NULL) == thrd_success && thrd_detach(thread) == thrd_success);
    take11();
    printf("a detached thread posted\n");
}

static void runs_out11(void) {
    struct timespec limit = in(CLOCK_REALTIME, 20 * MS);
    init11();
    mtx_lock(&mutex);
    int answer = cnd_timedwait(&posted, &mutex, &limit);
    mtx_unlock(&mutex);
    printf("%s\n", answer == thrd_timedout ? "ran out" : "woken");
}

#define EACH(DO) \
    DO(join_) DO(detach) DO(thread_exit) DO(main_exits_first) DO(exit_in_thread) DO(quick) DO(at_once) DO(aborts) \
    DO(killed) DO(at_exit) DO(cancel) DO(cancel_timed) DO(cancel_later) DO(cancel_at_any_time) DO(cleanup) \
    DO(destructor) DO(broadcast) DO(runs_out) DO(runs_out_by_clock) DO(at_most_once) DO(forks) DO(join11) DO(detach11) \
    DO(runs_out11) DO(cancelled_at_once)
#define ROW(name) {#name, name},

static const struct {
    const char *name;
    void (*does)(void);
} idioms[] = {EACH(ROW)};

int main(int count, char **words) {
    init(&box, PTHREAD_MUTEX_NORMAL);
    for (unsigned i = 0; i < sizeof idioms / sizeof *idioms; i++) {
        if (count < 2) printf("%s\n", idioms[i].name);
        else if (!strcmp(words[1], idioms[i].name)) return now = words[1], idioms[i].does(), bad != 0;
    }
    return count < 2 ? 0 : 1;
}
