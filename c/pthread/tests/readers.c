/* Readers and writers, writers first. Faults: if; one (a signal to the readers, though a broadcast is needed). */
#include "textbook.h"

enum { THREADS = 6, WRITERS = 2, WORK = 100 };

static pthread_mutex_t mutex = PTHREAD_MUTEX_INITIALIZER;
static pthread_cond_t may_read = PTHREAD_COND_INITIALIZER, may_write = PTHREAD_COND_INITIALIZER;
static int readers, is_writing, writers_that_wait;
static volatile long first, second; /* the same, but while a writer writes */

static void start_read(void) {
    pthread_mutex_lock(&mutex);
    WAIT_WHILE(is_writing || writers_that_wait, &may_read, &mutex);
    must_hold(!is_writing);
    readers++;
    pthread_mutex_unlock(&mutex);
}

static void end_read(void) {
    pthread_mutex_lock(&mutex);
    if (--readers == 0) pthread_cond_signal(&may_write);
    pthread_mutex_unlock(&mutex);
}

static void start_write(void) {
    pthread_mutex_lock(&mutex);
    writers_that_wait++;
    WAIT_WHILE(is_writing || readers, &may_write, &mutex);
    writers_that_wait--;
    must_hold(!is_writing && !readers);
    is_writing = 1;
    pthread_mutex_unlock(&mutex);
}

static void end_write(void) {
    pthread_mutex_lock(&mutex);
    is_writing = 0;
    pthread_cond_signal(&may_write);
    if (has("one"))
        pthread_cond_signal(&may_read);
    else
        pthread_cond_broadcast(&may_read);
    pthread_mutex_unlock(&mutex);
}

static void read_once(void) {
    start_read();
    must_hold(first == second);
    end_read();
}

static void write_once(void) {
    start_write();
    first++;
    for (volatile int work = 0; work < WORK; work++) continue;
    second++;
    end_write();
}

static void *work(void *number) {
    for (int round = 0; round < rounds; round++) {
        if ((long)number < WRITERS)
            write_once();
        else
            read_once();
    }
    return NULL;
}

int main(int count, char **words) {
    read_words(count, words);
    run_threads(THREADS, work);
    return end_of("readers");
}
