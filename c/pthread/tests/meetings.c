/* Threads that meet outside monitors: by joins, semaphores, read-write locks, barriers, sleeps and a pipe; one makes a
   child. busy: one computes for a while. elsewhere: some also meet where no layer sees it, by a futex; spins: one waits
   for a flag without a call. */
#define _GNU_SOURCE
#include "textbook.h"
#include <linux/futex.h>
#include <semaphore.h>
#include <sys/syscall.h>
#include <sys/wait.h>
#include <time.h>
#include <unistd.h>

enum { THREADS = 4, MEETINGS = 20, SLEEP_US = 500, CHILD_NS = 100000000, BUSY_NS = 400000000 };

static sem_t full, empty;
static pthread_rwlock_t lock = PTHREAD_RWLOCK_INITIALIZER;
static pthread_barrier_t barrier;
static pthread_mutex_t mutex = PTHREAD_MUTEX_INITIALIZER;
static int pipes[2], written, item;
static _Atomic int in_round, is_told;

static void put(int number) {
    sem_wait(&empty);
    item = number;
    sem_post(&full);
}

static void take(int number) {
    sem_wait(&full);
    must_hold(item == number);
    sem_post(&empty);
}

static void read_or_write(int is_writer) {
    if (is_writer)
        pthread_rwlock_wrlock(&lock), written++;
    else
        pthread_rwlock_rdlock(&lock), must_hold(written >= 0);
    pthread_rwlock_unlock(&lock);
}

static void meet_all(int round) {
    in_round++;
    pthread_barrier_wait(&barrier);
    must_hold(in_round == (round + 1) * THREADS);
    pthread_barrier_wait(&barrier);
}

static void send_byte(int is_reader, int number) {
    char byte = (char)number;
    if (is_reader)
        must_hold(read(pipes[0], &byte, 1) == 1 && byte == (char)number);
    else
        must_hold(write(pipes[1], &byte, 1) == 1);
}

/* The thread sleeps until its child has ended, which it does by itself. */
static void make_child(void) {
    const struct timespec time = {0, CHILD_NS};
    pid_t child = vfork();
    if (child == 0) {
        syscall(SYS_nanosleep, &time, NULL);
        _exit(0);
    }
    must_hold(waitpid(child, NULL, 0) == child);
}

static void compute(void) {
    struct timespec used = {0};
    while (used.tv_sec == 0 && used.tv_nsec < BUSY_NS) clock_gettime(CLOCK_THREAD_CPUTIME_ID, &used);
}

/* Where the layer doesn't see it. */
static void meet_elsewhere(int is_waiter) {
    if (!is_waiter) usleep(SLEEP_US);
    pthread_mutex_lock(&mutex);
    pthread_mutex_unlock(&mutex);
    if (!is_waiter) {
        is_told = 1;
        syscall(SYS_futex, &is_told, FUTEX_WAKE_PRIVATE, THREADS, NULL, NULL, 0);
    }
    while (!is_told)
        if (has("elsewhere")) syscall(SYS_futex, &is_told, FUTEX_WAIT_PRIVATE, 0, NULL, NULL, 0);
}

static void *work(void *it) {
    int number = (int)(long)it;
    if (number == 0) make_child();
    if (number == 0 && has("busy")) compute();
    for (int round = 0; round < MEETINGS; round++) {
        if (number < 2) (number ? take : put)(round);
        if (number >= 2) send_byte(number == 2, round);
        read_or_write(number == round % THREADS);
        meet_all(round);
        usleep(SLEEP_US);
    }
    if (has("elsewhere") || has("spins")) meet_elsewhere(number > 0);
    return NULL;
}

int main(int count, char **words) {
    read_words(count, words);
    sem_init(&full, 0, 0), sem_init(&empty, 0, 1);
    pthread_barrier_init(&barrier, NULL, THREADS);
    must_hold(pipe(pipes) == 0);
    run_threads(THREADS, work);
    must_hold(written == MEETINGS);
    return end_of("meetings");
}
