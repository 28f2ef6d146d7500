/* Five philosophers, with a state and a condition for each. Faults: if (which is right here: the thread that signals
   has set the state of the one that it wakes); forget (the look at the right neighbour, and its signal). */
#include "textbook.h"

enum { SEATS = 5 };
enum { THINKS, HUNGRY, EATS };

static pthread_mutex_t mutex = PTHREAD_MUTEX_INITIALIZER;
static pthread_cond_t may_eat[SEATS];
static int state[SEATS];
static _Atomic int forks[SEATS];

static int left(int i) { return (i + SEATS - 1) % SEATS; }

static int right(int i) { return (i + 1) % SEATS; }

static void look(int i) {
    if (state[i] != HUNGRY || state[left(i)] == EATS || state[right(i)] == EATS) return;
    state[i] = EATS;
    pthread_cond_signal(&may_eat[i]);
}

static void take_forks(int i) {
    pthread_mutex_lock(&mutex);
    state[i] = HUNGRY;
    look(i);
    WAIT_WHILE(state[i] != EATS, &may_eat[i], &mutex);
    pthread_mutex_unlock(&mutex);
}

static void give_forks(int i) {
    pthread_mutex_lock(&mutex);
    state[i] = THINKS;
    look(left(i));
    if (!has("forget")) look(right(i));
    pthread_mutex_unlock(&mutex);
}

static void eat(int i) {
    must_hold(forks[i]++ == 0);
    must_hold(forks[right(i)]++ == 0);
    forks[i]--;
    forks[right(i)]--;
}

static void *work(void *number) {
    int i = (int)(long)number;
    for (int round = 0; round < rounds; round++) {
        take_forks(i);
        eat(i);
        give_forks(i);
    }
    return NULL;
}

int main(int count, char **words) {
    read_words(count, words);
    for (int i = 0; i < SEATS; i++) pthread_cond_init(&may_eat[i], NULL);
    run_threads(SEATS, work);
    return end_of("philosophers");
}
