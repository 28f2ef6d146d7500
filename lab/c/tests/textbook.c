/* Code for pthreads that knows nothing of a lab; and its scene, at the end. */
#include <assert.h>
#include <pthread.h>

static pthread_mutex_t lock = PTHREAD_MUTEX_INITIALIZER;
static pthread_cond_t item = PTHREAD_COND_INITIALIZER;
static int held;

static void take(void) {
    pthread_mutex_lock(&lock);
    if (held == 0)
        pthread_cond_wait(&item, &lock);
    assert(held > 0);
    held--;
    pthread_mutex_unlock(&lock);
}

static void put(void) {
    pthread_mutex_lock(&lock);
    held++;
    pthread_cond_signal(&item);
    pthread_mutex_unlock(&lock);
}

static void steal(void) {
    pthread_mutex_lock(&lock);
    if (held > 0)
        held--;
    pthread_mutex_unlock(&lock);
}

static void taker(int number) { (void)number, take(); }
static void putter(int number) { (void)number, put(), put(); }
static void thief(int number) { (void)number, steal(); }

void textbook(void);
void textbook(void) {
    lab_program("taker", taker, 0);
    lab_program("putter", putter, 0);
    lab_program("thief", thief, 0);
    lab_int("held", &held);
}
