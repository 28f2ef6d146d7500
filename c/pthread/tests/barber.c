/* A barber and four customers, who all come again and again. Each waits for the chair, and for the end of its cut.
   Fault: if. */
#include "textbook.h"

enum { CUSTOMERS = 4 };

static pthread_mutex_t mutex = PTHREAD_MUTEX_INITIALIZER;
static pthread_cond_t chair_is_free = PTHREAD_COND_INITIALIZER, customer_is_there = PTHREAD_COND_INITIALIZER,
                      cut_is_done = PTHREAD_COND_INITIALIZER;
static int is_taken, is_cut, cuts;

static void get_cut(void) {
    pthread_mutex_lock(&mutex);
    WAIT_WHILE(is_taken, &chair_is_free, &mutex);
    must_hold(!is_taken);
    is_taken = 1;
    pthread_cond_signal(&customer_is_there);
    WAIT_WHILE(!is_cut, &cut_is_done, &mutex);
    must_hold(is_cut);
    is_cut = is_taken = 0;
    pthread_cond_signal(&chair_is_free);
    pthread_mutex_unlock(&mutex);
}

static void cut_one(void) {
    pthread_mutex_lock(&mutex);
    while (!is_taken || is_cut) pthread_cond_wait(&customer_is_there, &mutex);
    is_cut = 1;
    cuts++;
    pthread_cond_signal(&cut_is_done);
    pthread_mutex_unlock(&mutex);
}

static void *work(void *number) {
    if (number) {
        for (int round = 0; round < rounds; round++) get_cut();
    } else {
        for (int cut = 0; cut < CUSTOMERS * rounds; cut++) cut_one();
    }
    return NULL;
}

int main(int count, char **words) {
    read_words(count, words);
    run_threads(1 + CUSTOMERS, work);
    must_hold(cuts == CUSTOMERS * rounds);
    return end_of("barber");
}
