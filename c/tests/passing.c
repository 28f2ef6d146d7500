/* No signal is lost at waits with time limits: passing KIND ROUNDS
 *
 * In each round TAKERS threads take a token each, and wait for it without a limit. Beside them HASTY threads wait
 * with tiny limits and never take one: a thread that was signalled signals the next, and one that was late gives its
 * seat up, and takes another. So the library has to pass on each signal that serves a seat that was given up. The
 * program ends if that takes minutes: a signal was lost. */
#include "common.h"
#include <pthread.h>
#include <sched.h>
#include <stdatomic.h>
#include <time.h>
#include <unistd.h>

enum { TAKERS = 3, HASTY = 4, SEATS = 32, TOKEN = 0, BUDGET = 1 << 20, SECONDS = 300, NS_A_SECOND = 1000000000,
    LONGEST_WAIT = 300000 };

static monk_monitor *monitor;
static int rounds;
static int tokens;              /* touched only inside */
static atomic_int taken, is_over;
static atomic_long late, signalled;

static void await_round(int round) {
    while (taken < (round + 1) * TAKERS) sched_yield();
}

static void *take_tokens(void *seat) {
    monk_seat *s = seat;
    for (int round = 0; round < rounds; round++) {
        MUST(monk_enter(s));
        while (!tokens) MUST(monk_wait(s, TOKEN));
        tokens--;
        MUST(monk_leave(s));
        taken++;
        await_round(round);
    }
    MUST(monk_give_seat(s));
    return NULL;
}

static struct timespec soon(uint64_t *dice) {
    struct timespec time;
    clock_gettime(CLOCK_MONOTONIC, &time);
    time.tv_nsec += thrown(dice, LONGEST_WAIT);
    if (time.tv_nsec >= NS_A_SECOND) time.tv_sec++, time.tv_nsec -= NS_A_SECOND;
    return time;
}

static void wait_in_haste(monk_seat *s, uint64_t *dice) {
    MUST(monk_enter(s));
    MUST(monk_start_wait(s, TOKEN));
    struct timespec time = soon(dice);
    if (monk_await_until(s, &time) == MONK_INSIDE) {
        signalled++;
        MUST(monk_finish(s, TOKEN));
    } else late++;
    MUST(monk_abandon(s));
}

static void *hurry(void *number) {
    uint64_t dice = (uint64_t)(uintptr_t)number + 1;
    while (!is_over) {
        monk_seat *s;
        int answer = monk_take_seat(monitor, &s);
        if (answer == MONK_NO_SEAT) sched_yield();
        else MUST(answer), wait_in_haste(s, &dice);
    }
    return NULL;
}

static void put_tokens(monk_seat *s) {
    uint64_t dice = 1;
    for (int i = 0; i < rounds * TAKERS; i++) {
        usleep(thrown(&dice, LONGEST_WAIT) / 1000);
        MUST(monk_enter(s));
        tokens++;
        MUST(monk_finish(s, TOKEN));
        if (i % TAKERS == TAKERS - 1) await_round(i / TAKERS);
    }
    MUST(monk_give_seat(s));
}

int main(int words, char **word) {
    HOLDS(words == 3);
    pthread_t takers[TAKERS], hasty[HASTY];
    monk_shape shape = {.kind = monk_kind_named(word[1]), .seats = SEATS, .conditions = 1, .budget = BUDGET};
    rounds = atoi(word[2]);
    alarm(SECONDS);
    monk_seat *seats[TAKERS], *own;         /* all others may be given up in waits */
    MUST(monk_make(&monitor, &shape));
    MUST(monk_take_seat(monitor, &own));
    for (int i = 0; i < TAKERS; i++) MUST(monk_take_seat(monitor, &seats[i]));
    for (int i = 0; i < TAKERS; i++) HOLDS(!pthread_create(&takers[i], NULL, take_tokens, seats[i]));
    for (uintptr_t i = 0; i < HASTY; i++) HOLDS(!pthread_create(&hasty[i], NULL, hurry, (void *)i));
    put_tokens(own);
    for (int i = 0; i < TAKERS; i++) HOLDS(!pthread_join(takers[i], NULL));
    is_over = 1;
    for (int i = 0; i < HASTY; i++) HOLDS(!pthread_join(hasty[i], NULL));
    HOLDS(tokens == 0 && taken == rounds * TAKERS && late > 0);
    MUST(monk_free(monitor));
    printf("%s: %d tokens taken, %ld waits late, %ld signalled\n", word[1], taken, late, signalled);
    return 0;
}
