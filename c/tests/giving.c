/* One thread gives a seat back, or finishes a visit, while another calls by the seat: no call gets what was given back,
 * and a call that is refused has done nothing.
 *
 *     giving ROUNDS
 *
 * In each round the seat is lent, and the two call at once. If `monk_give_seat` is done, the other's `monk_arrive`
 * has to be refused. Then `monk_finish` signals and leaves, which is one call: MONK_IN_USE comes before both or not at
 * all. */
#include "common.h"
#include <pthread.h>
#include <stdatomic.h>

enum { BUDGET = 1 << 20, MOST_DELAY = 200, FINISHES = 20000 };

static monk_monitor *monitor;
static monk_seat *seat;
static long rounds;
static atomic_long begun, answered;
static atomic_int is_over;
static int arrived;

static void delay(uint64_t *dice) {
    for (volatile unsigned i = thrown(dice, MOST_DELAY); i > 0; i--) {}
}

static void *call(void *unused) {
    (void)unused;
    uint64_t dice = 7;
    for (long i = 1; i <= rounds; i++) {
        while (begun < i) {}
        delay(&dice);
        arrived = monk_arrive(seat);
        answered = i;
    }
    return NULL;
}

static void *ask(void *unused) {
    while (!is_over) monk_set_wish(seat, MONK_WAITER);
    return unused;
}

static void finish(monk_kind kind) {
    pthread_t other;
    monk_shape shape = {.kind = kind, .seats = 1, .conditions = 1, .budget = BUDGET};
    MUST(monk_make(&monitor, &shape));
    MUST(monk_take_seat(monitor, &seat));
    is_over = 0;
    HOLDS(pthread_create(&other, NULL, ask, NULL) == 0);
    for (int i = 0; i < FINISHES; i++) {
        while (monk_place(seat) == MONK_OUTSIDE) monk_enter(seat);
        uint32_t left = monk_left(seat);
        while (monk_finish(seat, 0) == MONK_IN_USE) HOLDS(monk_left(seat) == left);
    }
    is_over = 1;
    HOLDS(pthread_join(other, NULL) == 0);
    MUST(monk_give_seat(seat));
    MUST(monk_free(monitor));
}

int main(int count, char **words) {
    uint64_t dice = 3;
    pthread_t other;
    HOLDS(count == 2);
    rounds = strtol(words[1], NULL, 10);
    monk_shape shape = {.kind = MONK_PB, .seats = 1, .conditions = 1, .budget = BUDGET};
    MUST(monk_make(&monitor, &shape));
    HOLDS(pthread_create(&other, NULL, call, NULL) == 0);
    for (long i = 1; i <= rounds; i++) {
        MUST(monk_take_seat(monitor, &seat));
        begun = i;
        delay(&dice);
        int given = monk_give_seat(seat);
        while (answered < i) {}
        HOLDS(given != MONK_OK || arrived == MONK_IN_USE || arrived == MONK_NOT_NOW);
        if (given != MONK_OK) MUST(monk_abandon(seat));
    }
    HOLDS(pthread_join(other, NULL) == 0);
    MUST(monk_free(monitor));
    for (monk_kind kind = MONK_PB; kind <= MONK_NPQB; kind++) finish(kind);
    return 0;
}
