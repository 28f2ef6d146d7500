/* Threads wait, one after the other, for a flag that the first thread sets. Faults: outside (it is set and signalled
   without the lock: between a test and its wait); twice (a double check, whose second one is missing). */
#include "textbook.h"

static pthread_mutex_t mutex = PTHREAD_MUTEX_INITIALIZER;
static pthread_cond_t is_set = PTHREAD_COND_INITIALIZER;
static _Atomic int flag, seen;

static void *await_flag(void *unused) {
    if (has("twice") && flag) return unused;
    pthread_mutex_lock(&mutex);
    while (!flag || has("twice")) {
        pthread_cond_wait(&is_set, &mutex);
        if (has("twice")) break;
    }
    seen += flag;
    pthread_mutex_unlock(&mutex);
    return unused;
}

static void set_flag(void) {
    if (!has("outside")) pthread_mutex_lock(&mutex);
    flag = 1;
    pthread_cond_signal(&is_set);
    if (!has("outside")) pthread_mutex_unlock(&mutex);
}

int main(int count, char **words) {
    rounds = 60;
    read_words(count, words);
    for (int round = 0; round < rounds; round++) {
        pthread_t thread;
        flag = 0;
        must_hold(pthread_create(&thread, NULL, await_flag, NULL) == 0);
        set_flag();
        must_hold(pthread_join(thread, NULL) == 0);
    }
    must_hold(seen <= rounds);
    return end_of("flag");
}
