/* Programs that a recorder may find hard: hostile STYLE. Each ends with status 7 and says `done`, but those that hang.

     many       100,000 mutexes, destroyed and made again, and one with a wait
     living     100,000 mutexes that are all there at once
     again      ten times the same memory for a mutex and a condition, which are destroyed
     renewed    the same, but the mutex is only begun anew, never destroyed, as std::mutex is
     quick      ends by quick_exit
     at-once    ends by _exit
     Exit       ends by _Exit
     hang       waits for ever
     forks      a child that waits too, and one that ends at once
     early      a key and a mutex from before any library begins; ends with 3 if the key has another's value
     c11        mtx_t and cnd_t
     acts       two mutexes held at once; the acts are on the first
     threads    40 threads of one mutex
     conds      ten conditions of one mutex
     lost       a signal without the mutex, before anybody waits
     outside    two threads wait for each other, and signal without the mutex
     outsiders  40 threads that signal without the mutex, and are never inside
     refused    waits that are refused, while another thread signals without the mutex
     handler    a signal of a thread that waits itself, by its handler of SIGUSR1
     child      signals without the mutex, in a child too
     none       no mutex
     unwaited   a mutex on whose conditions nobody waits */
#include <errno.h>
#include <pthread.h>
#include <signal.h>
#include <stdatomic.h>
#include <stdio.h>
#include <stdlib.h>
#include <string.h>
#include <sys/wait.h>
#include <threads.h>
#include <unistd.h>

#include "../c/monk_log.h"

enum { MANY = 100000, AGAIN = 10, THREADS = 40, CONDS = 10, ROUNDS = 500, STATUS = 7, WRONG = 3, PUT = 0, ITEM = 5 };

struct monitor {
    pthread_mutex_t lock;
    pthread_cond_t is_set;
    int set;
};

static struct monitor fixed = {PTHREAD_MUTEX_INITIALIZER, PTHREAD_COND_INITIALIZER, 0};

static void *set(void *it) {
    struct monitor *m = it;
    pthread_mutex_lock(&m->lock);
    m->set = 1;
    pthread_cond_signal(&m->is_set);
    pthread_mutex_unlock(&m->lock);
    return 0;
}

static pthread_key_t early_key;

/* Runs before the constructors of libraries, as those of the program's own libraries may. */
static void begin_early(int words, char **word, char **setting) {
    (void)setting;
    if (words < 2 || strcmp(word[1], "early"))
        return;
    pthread_key_create(&early_key, 0);
    pthread_mutex_lock(&fixed.lock);
    pthread_mutex_unlock(&fixed.lock);
}
__attribute__((section(".preinit_array"), used)) static void (*const early)(int, char **, char **) = begin_early;

static void await(struct monitor *m) {
    pthread_mutex_lock(&m->lock);
    while (!m->set)
        pthread_cond_wait(&m->is_set, &m->lock);
    m->set = 0;
    pthread_mutex_unlock(&m->lock);
}

/* One thread waits for the other: it has had the mutex since before the other began. */
static void meet(struct monitor *m) {
    pthread_t thread;
    pthread_mutex_lock(&m->lock);
    pthread_create(&thread, 0, set, m);
    while (!m->set)
        pthread_cond_wait(&m->is_set, &m->lock);
    m->set = 0;
    pthread_mutex_unlock(&m->lock);
    pthread_join(thread, 0);
}

static void many(void) {
    pthread_mutex_t mutex;
    for (int i = 0; i < MANY; i++) {
        pthread_mutex_init(&mutex, 0);
        pthread_mutex_lock(&mutex);
        pthread_mutex_unlock(&mutex);
        pthread_mutex_destroy(&mutex);
    }
    meet(&fixed);
}

static void living(void) {
    pthread_mutex_t *mutexes = calloc(MANY, sizeof *mutexes);
    for (int i = 0; i < MANY; i++) {
        pthread_mutex_lock(&mutexes[i]);
        pthread_mutex_unlock(&mutexes[i]);
    }
    meet(&fixed);
    free(mutexes);
}

static void again(void) {
    struct monitor *m = malloc(sizeof *m);
    for (int i = 0; i < AGAIN; i++) {
        pthread_mutex_init(&m->lock, 0);
        pthread_cond_init(&m->is_set, 0);
        m->set = 0;
        meet(m);
        pthread_cond_destroy(&m->is_set);
        pthread_mutex_destroy(&m->lock);
    }
    free(m);
}

static void renewed(void) {
    struct monitor *m = malloc(sizeof *m);
    for (int i = 0; i < AGAIN; i++) {
        *m = (struct monitor){PTHREAD_MUTEX_INITIALIZER, PTHREAD_COND_INITIALIZER, 0};
        meet(m);
        pthread_cond_destroy(&m->is_set);
    }
    free(m);
}

static void end(void) { exit(STATUS); }

static void quick(void) {
    meet(&fixed);
    puts("done");
    fflush(stdout);
    quick_exit(STATUS);
}

static void at_once(void) {
    meet(&fixed);
    if (write(STDOUT_FILENO, "done\n", 5) == 5)
        _exit(STATUS);
}

static void Exit(void) {
    meet(&fixed);
    if (write(STDOUT_FILENO, "done\n", 5) == 5)
        _Exit(STATUS);
}

static void hang(void) {
    puts("hangs");
    fflush(stdout);
    await(&fixed);
}

static void forks(void) {
    meet(&fixed);
    for (int child = 0; child < 2; child++) {
        pid_t pid = fork();
        if (!pid && child)
            _exit(0);
        if (!pid) {
            meet(&fixed);
            exit(0);
        }
        waitpid(pid, 0, 0);
    }
    meet(&fixed);
}

static mtx_t lock_of_c11;
static cnd_t cond_of_c11;
static int is_set;

static int set_of_c11(void *unused) {
    (void)unused;
    mtx_lock(&lock_of_c11);
    is_set = 1;
    cnd_signal(&cond_of_c11);
    mtx_unlock(&lock_of_c11);
    return 0;
}

static void c11(void) {
    struct timespec past = {0, 0};
    thrd_t thread;
    mtx_init(&lock_of_c11, mtx_plain);
    cnd_init(&cond_of_c11);
    mtx_lock(&lock_of_c11);
    cnd_timedwait(&cond_of_c11, &lock_of_c11, &past);
    thrd_create(&thread, set_of_c11, 0);
    while (!is_set)
        cnd_wait(&cond_of_c11, &lock_of_c11);
    mtx_unlock(&lock_of_c11);
    thrd_join(thread, 0);
    cnd_destroy(&cond_of_c11);
    mtx_destroy(&lock_of_c11);
}

static void acts(void) {
    pthread_mutex_t other = PTHREAD_MUTEX_INITIALIZER;
    meet(&fixed);
    pthread_mutex_lock(&fixed.lock);
    pthread_mutex_lock(&other);
    MONK_ACT(&fixed.lock, PUT, ITEM, 1);
    pthread_mutex_unlock(&other);
    MONK_ACT(1, 0, ITEM + 1);
    pthread_mutex_unlock(&fixed.lock);
    MONK_ACT(&fixed.lock, PUT, ITEM, 1);
}

static pthread_barrier_t everybody;

static void *set_and_meet(void *m) {
    set(m);
    pthread_barrier_wait(&everybody);
    return 0;
}

/* None ends before the others have begun. */
static void threads(void) {
    pthread_t all[THREADS];
    pthread_barrier_init(&everybody, 0, THREADS);
    pthread_mutex_lock(&fixed.lock);
    for (int i = 0; i < THREADS; i++)
        pthread_create(&all[i], 0, set_and_meet, &fixed);
    while (!fixed.set)
        pthread_cond_wait(&fixed.is_set, &fixed.lock);
    pthread_mutex_unlock(&fixed.lock);
    for (int i = 0; i < THREADS; i++)
        pthread_join(all[i], 0);
}

static void conds(void) {
    pthread_cond_t all[CONDS];
    meet(&fixed);
    pthread_mutex_lock(&fixed.lock);
    for (int i = 0; i < CONDS; i++) {
        pthread_cond_init(&all[i], 0);
        pthread_cond_signal(&all[i]);
    }
    pthread_mutex_unlock(&fixed.lock);
}

static void lost(void) {
    pthread_cond_signal(&fixed.is_set);
    meet(&fixed);
}

/* ---- signals without the mutex */

static void *set_outside(void *it) {
    struct monitor *m = it;
    pthread_mutex_lock(&m->lock);
    m->set = 1;
    pthread_mutex_unlock(&m->lock);
    pthread_cond_signal(&m->is_set);
    return 0;
}

static struct monitor sides[2] = {{PTHREAD_MUTEX_INITIALIZER, PTHREAD_COND_INITIALIZER, 0},
                                  {PTHREAD_MUTEX_INITIALIZER, PTHREAD_COND_INITIALIZER, 0}};

/* Waits for its own side, and signals the other. */
static void *answer(void *it) {
    struct monitor *mine = it, *other = mine == &sides[0] ? &sides[1] : &sides[0];
    for (int i = 0; i < ROUNDS; i++) {
        await(mine);
        set_outside(other);
    }
    return 0;
}

static void outside(void) {
    pthread_t threads[2];
    for (int i = 0; i < 2; i++)
        pthread_create(&threads[i], 0, answer, &sides[i]);
    set_outside(&sides[0]);
    for (int i = 0; i < 2; i++)
        pthread_join(threads[i], 0);
}

static void *signal_only(void *unused) {
    pthread_cond_signal(&fixed.is_set);
    pthread_barrier_wait(&everybody);
    return unused;
}

static void outsiders(void) {
    pthread_t all[THREADS];
    meet(&fixed);
    pthread_barrier_init(&everybody, 0, THREADS);
    for (int i = 0; i < THREADS; i++)
        pthread_create(&all[i], 0, signal_only, 0);
    for (int i = 0; i < THREADS; i++)
        pthread_join(all[i], 0);
    meet(&fixed);
}

static void *signal_often(void *unused) {
    for (int i = 0; i < ROUNDS; i++)
        pthread_cond_signal(&fixed.is_set);
    return unused;
}

static void refused(void) {
    struct timespec no_time = {0, -1};
    pthread_t thread;
    meet(&fixed);
    pthread_create(&thread, 0, signal_often, 0);
    for (int i = 0; i < ROUNDS; i++) {
        pthread_mutex_lock(&fixed.lock);
        pthread_cond_timedwait(&fixed.is_set, &fixed.lock, &no_time);
        pthread_mutex_unlock(&fixed.lock);
    }
    pthread_join(thread, 0);
}

static pthread_cond_t other_cond = PTHREAD_COND_INITIALIZER;
static pthread_t waiting;
static atomic_int is_handled;

static void handle(int number) {
    int error = errno;
    (void)number;
    pthread_cond_signal(&other_cond);
    atomic_store(&is_handled, 1);
    errno = error;
}

/* Once it has the lock, the other waits. */
static void *disturb(void *unused) {
    pthread_mutex_lock(&fixed.lock);
    pthread_kill(waiting, SIGUSR1);
    while (!atomic_load(&is_handled))
        usleep(1);
    pthread_mutex_unlock(&fixed.lock);
    set(&fixed);
    return unused;
}

static void handler(void) {
    struct timespec past = {0, 0};
    pthread_t thread;
    signal(SIGUSR1, handle);
    waiting = pthread_self();
    pthread_mutex_lock(&fixed.lock);
    pthread_cond_timedwait(&other_cond, &fixed.lock, &past);
    pthread_create(&thread, 0, disturb, 0);
    while (!fixed.set)
        pthread_cond_wait(&fixed.is_set, &fixed.lock);
    pthread_mutex_unlock(&fixed.lock);
    pthread_join(thread, 0);
}

static void child(void) {
    meet(&fixed);
    pthread_cond_signal(&fixed.is_set);
    pid_t pid = fork();
    pthread_cond_signal(&fixed.is_set);
    meet(&fixed);
    pthread_cond_signal(&fixed.is_set);
    if (!pid)
        exit(0);
    waitpid(pid, 0, 0);
}

static void is_its_own(void) {
    if (pthread_getspecific(early_key))
        _Exit(WRONG);
    meet(&fixed);
}

static void none(void) {}

static void unwaited(void) { set(&fixed); }

static const struct { const char *style; void (*run)(void); } styles[] = {
    {"many", many}, {"living", living}, {"again", again}, {"renewed", renewed}, {"quick", quick}, {"at-once", at_once},
    {"Exit", Exit}, {"hang", hang}, {"forks", forks}, {"c11", c11}, {"acts", acts}, {"threads", threads},
    {"conds", conds}, {"lost", lost}, {"outside", outside}, {"outsiders", outsiders}, {"refused", refused},
    {"handler", handler}, {"child", child}, {"early", is_its_own}, {"none", none}, {"unwaited", unwaited},
};

int main(int words, char **word) {
    for (size_t i = 0; words > 1 && i < sizeof styles / sizeof *styles; i++) {
        if (strcmp(word[1], styles[i].style)) continue;
        styles[i].run();
        puts("done");
        end();
    }
    fprintf(stderr, "hostile: no such style\n");
    return 2;
}
