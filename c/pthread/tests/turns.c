/* One puts and one takes in turns, so that nobody can come in between. Fault: if, which is wrong only if a wait wakes
   unasked. */
#include "textbook.h"

static int items;
static pthread_mutex_t mutex = PTHREAD_MUTEX_INITIALIZER;
static pthread_cond_t changed[2] = {PTHREAD_COND_INITIALIZER, PTHREAD_COND_INITIALIZER};

/* The thread that waits for `mine` items, and changes their number. */
static void *work(void *mine) {
    int wanted = (int)(long)mine;
    for (int round = 0; round < rounds; round++) {
        pthread_mutex_lock(&mutex);
        WAIT_WHILE(items != wanted, &changed[wanted], &mutex);
        must_hold(items == wanted);
        items = !wanted;
        pthread_cond_signal(&changed[items]);
        pthread_mutex_unlock(&mutex);
    }
    return NULL;
}

int main(int count, char **words) {
    read_words(count, words);
    run_threads(2, work);
    return end_of("turns");
}
