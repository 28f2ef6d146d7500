/* Many threads with many visits: visits KIND THREADS VISITS FILE. The history goes into the file. */
#include "common.h"
#include <pthread.h>

enum { MOST_THREADS = 32, EVENTS_OF_A_VISIT = 2 };

static monk_monitor *monitor;
static pthread_barrier_t line;
static long visits_of_each, count;      /* count: touched only inside */

static void *play(void *unused) {
    monk_seat *s;
    MUST(monk_take_seat(monitor, &s));
    pthread_barrier_wait(&line);
    for (long i = 0; i < visits_of_each; i++) {
        MUST(monk_enter(s));
        count++;
        MUST(monk_leave(s));
    }
    MUST(monk_give_seat(s));
    return unused;
}

int main(int words, char **word) {
    HOLDS(words == 5);
    unsigned threads = (unsigned)atoi(word[2]);
    pthread_t crew[MOST_THREADS];
    HOLDS(threads > 0 && threads <= MOST_THREADS);
    visits_of_each = atol(word[3]) / threads;
    monk_shape shape = {.kind = monk_kind_named(word[1]), .seats = threads,
                        .budget = (uint32_t)(visits_of_each + 1) * EVENTS_OF_A_VISIT};
    MUST(monk_make(&monitor, &shape));
    pthread_barrier_init(&line, NULL, threads);
    for (unsigned i = 0; i < threads; i++) HOLDS(!pthread_create(&crew[i], NULL, play, NULL));
    for (unsigned i = 0; i < threads; i++) HOLDS(!pthread_join(crew[i], NULL));
    HOLDS(count == visits_of_each * threads);
    MUST(monk_close(monitor));
    save_history(monitor, word[4]);
    MUST(monk_free(monitor));
    printf("%s: %u threads, %ld visits\n", word[1], threads, count);
    return 0;
}
