/* Threads give their seats up in every place: at the entry, inside, in a wait, after a signal.
 *
 *     abandon KIND ROUNDS SEED FILE
 *
 * At the end all seats come home, by visits that let the rest go on; the history goes into the file. Prints how many
 * seats were given up, and where. */
#include "common.h"
#include <pthread.h>
#include <sched.h>
#include <stdatomic.h>

enum { THREADS = 6, SEATS = 8, QUEUES = 2, PLACES = 5, BUDGET = 200000 };

static monk_monitor *monitor;
static int kind, rounds;
static uint64_t seed;
static atomic_int given_up[PLACES];

static int is_automatic(void) { return monk_mode_of(kind) == MONK_AUTOMATIC; }

/* Some of what a thread may do inside, except to leave. It may be waiting then. */
static int works_inside(monk_seat *s, uint64_t *dice) {
    unsigned queue = thrown(dice, QUEUES);
    switch (monk_mode_of(kind)) {
    case MONK_AUTOMATIC:
        MUST(monk_set_flags(s, thrown(dice, 1u << QUEUES)));
        return monk_start_wait_until(s, queue);
    case MONK_IMMEDIATE_RETURN:
        return thrown(dice, 2) ? monk_start_wait(s, queue) : monk_start_signal_wait(s, queue, !queue);
    default: return thrown(dice, 2) ? monk_start_wait(s, queue) : monk_start_signal(s, queue);
    }
}

/* Sometimes an event loop waits for the seat, too. */
static void watch(monk_seat *s, uint64_t *dice) {
    int file;
    if (monk_place(s) == MONK_WAITING && thrown(dice, 2)) MUST(monk_wait_fd(s, &file));
}

/* Takes a seat part of the way, with any wish, and gives it up there. */
static void go_part_of_the_way(monk_seat *s, uint64_t *dice) {
    unsigned way = thrown(dice, PLACES);
    MUST(monk_set_wish(s, (int)thrown(dice, MONK_ANY + 1)));
    if (way > 0) MUST(monk_arrive(s)), watch(s, dice);
    if (way > 1) MUST(monk_await(s, -1));
    if (way > 2) MUST(works_inside(s, dice)), watch(s, dice);
    if (way > 3 && monk_await(s, 1) == MONK_INSIDE) MUST(monk_finish(s, thrown(dice, QUEUES)));
    given_up[way]++;
    MUST(monk_abandon(s));
}

/* A visit that lets everybody who waits go on; 0 if no seat is free. */
static int lets_all_go(void) {
    monk_seat *s;
    int answer = monk_take_seat(monitor, &s);
    if (answer == MONK_NO_SEAT) return 0;
    MUST(answer);
    for (unsigned queue = 0; queue < QUEUES; queue++) {
        MUST(monk_enter(s));
        if (is_automatic()) MUST(monk_set_flags(s, (1u << QUEUES) - 1));
        MUST(monk_finish(s, queue));
    }
    MUST(monk_give_seat(s));
    return 1;
}

static void *play(void *number) {
    uint64_t dice = seed * 0x9e3779b97f4a7c15u + (uint64_t)(uintptr_t)number + 1;
    for (int i = 0; i < rounds; i++) {
        monk_seat *s;
        int answer = monk_take_seat(monitor, &s);
        if (answer == MONK_NO_SEAT) {
            sched_yield();
            continue;
        }
        MUST(answer);
        go_part_of_the_way(s, &dice);
        if (thrown(&dice, 2)) lets_all_go();
    }
    return NULL;
}

int main(int words, char **word) {
    HOLDS(words == 5);
    kind = monk_kind_named(word[1]), rounds = atoi(word[2]), seed = strtoul(word[3], NULL, 10);
    MUST(kind);
    monk_shape shape = {.kind = kind, .seats = SEATS, .conditions = is_automatic() ? 0 : QUEUES, .flags = QUEUES,
        .budget = BUDGET,
                        .seed = seed};
    pthread_t threads[THREADS];
    monk_seat *spare;                   /* for the end: all others may have been given up in waits */
    MUST(monk_make(&monitor, &shape));
    MUST(monk_take_seat(monitor, &spare));
    for (uintptr_t i = 0; i < THREADS; i++) HOLDS(!pthread_create(&threads[i], NULL, play, (void *)i));
    for (int i = 0; i < THREADS; i++) HOLDS(!pthread_join(threads[i], NULL));
    MUST(monk_give_seat(spare));
    int answer;
    while ((answer = monk_close(monitor)) == MONK_BUSY) HOLDS(lets_all_go());
    MUST(answer);
    save_history(monitor, word[4]);
    MUST(monk_free(monitor));
    printf("%s: given up outside %d, at the entry %d, inside %d, in a wait %d, behind all %d\n", word[1], given_up[0],
        given_up[1],
           given_up[2], given_up[3], given_up[4]);
    return 0;
}
