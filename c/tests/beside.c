/* Visits beside seats that were abandoned in a wait: beside ABANDONED
 *
 * A release looks after an abandoned seat only if it lets that seat in. So a visit takes as long beside them as
 * without them: at most a quarter more is allowed, for the clock. The two take turns, because the processor is not
 * always equally fast. */
#include "common.h"
#include <time.h>

enum { CHUNKS = 200, VISITS = 500, MOST_PERCENT = 125, SEATS = 32, NS_A_SECOND = 1000000000 };

typedef struct visited {
    monk_monitor *monitor;
    monk_seat *seat;
    double least;           /* nanoseconds of a visit */
} visited;

static double nanoseconds(void) {
    struct timespec now;
    clock_gettime(CLOCK_MONOTONIC, &now);
    return (double)now.tv_sec * NS_A_SECOND + (double)now.tv_nsec;
}

/* A monitor with that number of abandoned seats that wait on a condition. */
static visited made_beside(unsigned abandoned) {
    monk_shape shape = {.kind = MONK_PNB, .seats = SEATS, .conditions = 1, .budget = 2 * (CHUNKS + 1) * VISITS};
    visited it = {.least = NS_A_SECOND};
    MUST(monk_make(&it.monitor, &shape));
    for (unsigned i = 0; i < abandoned; i++) {
        MUST(monk_take_seat(it.monitor, &it.seat));
        MUST(monk_enter(it.seat));
        MUST(monk_start_wait(it.seat, 0));
        MUST(monk_abandon(it.seat));
    }
    MUST(monk_take_seat(it.monitor, &it.seat));
    return it;
}

static void visit(visited *it) {
    double began = nanoseconds();
    for (int i = 0; i < VISITS; i++) {
        MUST(monk_enter(it->seat));
        MUST(monk_leave(it->seat));
    }
    double each = (nanoseconds() - began) / VISITS;
    if (each < it->least) it->least = each;
}

int main(int words, char **word) {
    HOLDS(words == 2);
    visited alone = made_beside(0), beside = made_beside((unsigned)atoi(word[1]));
    for (int chunk = 0; chunk < CHUNKS; chunk++) visit(&alone), visit(&beside);
    MUST(monk_abandon(alone.seat));
    MUST(monk_abandon(beside.seat));
    MUST(monk_free(alone.monitor));
    MUST(monk_free(beside.monitor));
    printf("a visit takes %.0f ns, and %.0f ns beside %s abandoned waiters\n", alone.least, beside.least, word[1]);
    return beside.least * 100 > alone.least * MOST_PERCENT;
}
