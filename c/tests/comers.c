/* 10,001 threads come one after the other to a monitor of 8 seats, under each kind. Each makes two visits, but the
 * first and the last make one. They use up the whole budget of all seats, and none is refused before: it gets the seat
 * with most events left. (By the lowest seat that has events for one visit, a second visit is refused while other
 * seats are fresh.) */
#include "common.h"
#include <pthread.h>

enum { COMERS = 10001, SEATS = 8, BUDGET = 5000, OF_A_VISIT = 2 };
static monk_monitor *m;
static long events;     /* touched only inside */

static void *come(void *word) {
    monk_seat *s;
    MUST(monk_take_seat(m, &s));
    for (const char *visits = word; *visits; visits++) {
        MUST(monk_enter(s));
        events += OF_A_VISIT;
        MUST(monk_leave(s));
    }
    MUST(monk_give_seat(s));
    return NULL;
}

static void all_come(int kind) {
    monk_shape shape = {.kind = kind, .seats = SEATS, .budget = BUDGET};
    monk_seat *s;
    MUST(monk_make(&m, &shape));
    for (int i = 0; i < COMERS; i++) {
        pthread_t thread;
        HOLDS(!pthread_create(&thread, NULL, come, i == 0 || i == COMERS - 1 ? "1" : "12"));
        HOLDS(!pthread_join(thread, NULL));
    }
    HOLDS(monk_take_seat(m, &s) == MONK_SPENT);
    MUST(monk_free(m));
}

int main(void) {
    for (int kind = MONK_PB; kind <= MONK_NPIS; kind++) all_come(kind);
    HOLDS(events == (long)BUDGET * SEATS * (MONK_NPIS + 1));
    printf("%d threads came one after the other, and used all %d events of each of %d seats, under each kind\n", COMERS,
        BUDGET, SEATS);
    return 0;
}
