/* A pool of threads with a queue of work, a wait until all is done, and a broadcast at the end. `after` isn't a
   fault: the signal comes after the unlock. Faults: if; one (a signal at the end). */
#include "textbook.h"

enum { WORKERS = 4, DRAINS = 3 };

struct job {
    struct job *next;
    int number;
};

static pthread_mutex_t mutex = PTHREAD_MUTEX_INITIALIZER;
static pthread_cond_t has_work = PTHREAD_COND_INITIALIZER, is_idle = PTHREAD_COND_INITIALIZER;
static struct job *head, *tail;
static int busy, is_over;
static _Atomic long sum;

static void submit(int number) {
    struct job *job = malloc(sizeof *job);
    *job = (struct job){.number = number};
    pthread_mutex_lock(&mutex);
    if (tail)
        tail->next = job;
    else
        head = job;
    tail = job;
    if (!has("after")) pthread_cond_signal(&has_work);
    pthread_mutex_unlock(&mutex);
    if (has("after")) pthread_cond_signal(&has_work);
}

static struct job *next_job(void) {
    pthread_mutex_lock(&mutex);
    WAIT_WHILE(!head && !is_over, &has_work, &mutex);
    struct job *job = head;
    must_hold(job || is_over);
    if (job) head = job->next, busy++;
    if (!head) tail = NULL;
    pthread_mutex_unlock(&mutex);
    return job;
}

static void end_job(void) {
    pthread_mutex_lock(&mutex);
    if (--busy == 0 && !head) pthread_cond_broadcast(&is_idle);
    pthread_mutex_unlock(&mutex);
}

static void work(void) {
    for (struct job *job; (job = next_job());) {
        sum += job->number;
        free(job);
        end_job();
    }
}

static void drain(void) {
    pthread_mutex_lock(&mutex);
    while (head || busy) pthread_cond_wait(&is_idle, &mutex);
    pthread_mutex_unlock(&mutex);
}

static void submit_all(void) {
    for (int drained = 1; drained <= DRAINS; drained++) {
        for (int number = 1; number <= rounds; number++) submit(number);
        drain();
        must_hold(sum == (long)drained * rounds * (rounds + 1) / 2);
    }
    pthread_mutex_lock(&mutex);
    is_over = 1;
    if (has("one"))
        pthread_cond_signal(&has_work);
    else
        pthread_cond_broadcast(&has_work);
    pthread_mutex_unlock(&mutex);
}

static void *run(void *number) {
    if (number)
        work();
    else
        submit_all();
    return NULL;
}

int main(int count, char **words) {
    read_words(count, words);
    run_threads(1 + WORKERS, run);
    return end_of("pool");
}
