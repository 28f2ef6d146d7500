/* A monitor is stopped while its threads are in every place: each call that waits comes back.
 *
 *     stops KIND THREADS ROUNDS SEED
 *
 * In each round the threads come in, pause with and without a limit, let others go on, and give seats up. At a time by
 * chance the monitor is stopped, and all go home. Then it is closed, if no seat that was given up still waits. The
 * watchdog ends the program if a round isn't over in SECONDS: a thread was never woken. */
#include "common.h"
#include <pthread.h>
#include <stdatomic.h>
#include <time.h>
#include <unistd.h>

enum { MOST_THREADS = 32, QUEUES = 2, BUDGET = 4000, SECONDS = 30, LONGEST_ROUND_NS = 2000000, WAYS = 6 };

static monk_monitor *monitor;
static int kind;
static unsigned threads, rounds;
static uint64_t seed;
static atomic_uint over;
static atomic_ulong stopped;

static void *watch(void *unused) {
    (void)unused;
    for (unsigned seen = rounds;;) {
        sleep(SECONDS);
        if (over == seen) {
            fprintf(stderr, "stops: round %u wasn't over after %d seconds\n", seen + 1, SECONDS);
            _exit(1);
        }
        seen = over;
    }
}

/* Pauses for a millisecond at most. The seat may be waiting then. */
static int pauses_briefly(monk_seat *s, unsigned queue) {
    int is_automatic = monk_mode_of(kind) == MONK_AUTOMATIC;
    int place = is_automatic ? monk_start_wait_until(s, queue) : monk_start_wait(s, queue);
    return place < 0 ? place : monk_await(s, 1);
}

/* One visit: the answer of the last call. A seat that is given up is gone, which counts as MONK_NO_SEAT. */
static int visits(monk_seat *s, uint64_t *dice) {
    unsigned way = thrown(dice, WAYS), queue = thrown(dice, QUEUES);
    int answer = way ? monk_enter(s) : monk_enter_within(s, 0);
    if (answer < 0) return answer;
    if (answer == MONK_WAITING) return MUST(monk_abandon(s)), MONK_NO_SEAT;
    if (way == 1) return MUST(monk_abandon(s)), MONK_NO_SEAT;
    if (way == 2 && (answer = monk_pause(s, queue)) < 0) return answer;
    if (way == 3) {
        if ((answer = pauses_briefly(s, queue)) < 0) return answer;
        if (answer == MONK_WAITING) return MUST(monk_abandon(s)), MONK_NO_SEAT;
    }
    if (monk_mode_of(kind) == MONK_AUTOMATIC && monk_left(s) > 2) MUST(monk_set_flags(s, thrown(dice, 1u << QUEUES)));
    return monk_finish(s, queue);
}

static void *play(void *number) {
    uint64_t dice = (seed + over * MOST_THREADS + (uintptr_t)number) * 0x9e3779b97f4a7c15u + 1;
    monk_seat *s = NULL;
    for (;;) {
        if (s == NULL && monk_take_seat(monitor, &s) < 0) return NULL;
        int answer = visits(s, &dice);
        if (answer == MONK_NO_SEAT) s = NULL;
        else if (answer < 0) break;
    }
    /* It was stopped, or the seat is spent. */
    stopped += monk_place(s) == MONK_WAITING;
    MUST(monk_abandon(s));
    return NULL;
}

static void go_round(uint64_t *dice) {
    monk_shape shape = {.kind = kind, .seats = threads, .conditions = QUEUES, .flags = QUEUES, .budget = BUDGET,
                        .seed = seed};
    if (monk_mode_of(kind) == MONK_AUTOMATIC) shape.conditions = 0;
    MUST(monk_make(&monitor, &shape));
    pthread_t crew[MOST_THREADS];
    for (uintptr_t i = 0; i < threads; i++) HOLDS(!pthread_create(&crew[i], NULL, play, (void *)i));
    struct timespec pause = {.tv_nsec = thrown(dice, LONGEST_ROUND_NS)};
    nanosleep(&pause, NULL);
    MUST(monk_stop(monitor));
    for (unsigned i = 0; i < threads; i++) HOLDS(!pthread_join(crew[i], NULL));
    int closed = monk_close(monitor);
    HOLDS(closed == MONK_OK || closed == MONK_BUSY || closed == MONK_SPENT);
    MUST(monk_free(monitor));
    over++;
}

int main(int words, char **word) {
    HOLDS(words == 5);
    kind = monk_kind_named(word[1]), threads = (unsigned)atoi(word[2]), rounds = (unsigned)atoi(word[3]);
    seed = strtoull(word[4], NULL, 10);
    HOLDS(kind >= 0 && threads > 0 && threads <= MOST_THREADS);
    pthread_t dog;
    HOLDS(!pthread_create(&dog, NULL, watch, NULL));
    uint64_t dice = seed + 1;
    for (unsigned i = 0; i < rounds; i++) go_round(&dice);
    printf("%s: %u rounds of %u threads, %lu waits stopped\n", word[1], rounds, threads, (unsigned long)stopped);
    return 0;
}
