/* misuse.h - what misuse gets, of every call by a seat, under every kind: the table of monk.h and C.md. misuse.c tries
 * it by C, misuse.cpp by monk.hpp, and misuse.py reads the lines of CALLS and tries it by the package for Python. */
#ifndef MONK_TESTS_MISUSE_H
#define MONK_TESTS_MISUSE_H
#include "monk.h"
#include <pthread.h>
#include <stdio.h>
#include <stdlib.h>
#include <time.h>

/* The kinds that have a call, and what its number is. */
enum { ALL, SIGNALLING, NOT_AUTOMATIC, NON_BLOCKING, IMMEDIATE, AUTOMATIC };
enum { NOTHING, TEXT, CONDITION, FLAG, EITHER, BITS, WISH, TIME };
enum { ANYWHERE = 0, NOT_OUTSIDE = 4 };

/* A call: the place from which it is made, the kinds that have it, its number, the events that must be left. */
#define CALLS(CALL) \
    CALL(enter, MONK_OUTSIDE, ALL, NOTHING, 2) \
    CALL(enter_within, MONK_OUTSIDE, ALL, NOTHING, 2) \
    CALL(arrive, MONK_OUTSIDE, ALL, NOTHING, 2) \
    CALL(give_seat, MONK_OUTSIDE, ALL, NOTHING, 0) \
    CALL(poll, MONK_WAITING, ALL, NOTHING, 0) \
    CALL(await, NOT_OUTSIDE, ALL, NOTHING, 0) \
    CALL(await_until, NOT_OUTSIDE, ALL, TIME, 0) \
    CALL(wait_fd, NOT_OUTSIDE, ALL, NOTHING, 0) \
    CALL(leave, MONK_INSIDE, ALL, NOTHING, 1) \
    CALL(wait, MONK_INSIDE, NOT_AUTOMATIC, CONDITION, 3) \
    CALL(start_wait, MONK_INSIDE, NOT_AUTOMATIC, CONDITION, 3) \
    CALL(signal, MONK_INSIDE, SIGNALLING, CONDITION, 3) \
    CALL(start_signal, MONK_INSIDE, SIGNALLING, CONDITION, 3) \
    CALL(broadcast, MONK_INSIDE, NON_BLOCKING, CONDITION, 2) \
    CALL(signal_leave, MONK_INSIDE, IMMEDIATE, CONDITION, 1) \
    CALL(signal_wait, MONK_INSIDE, IMMEDIATE, CONDITION, 3) \
    CALL(start_signal_wait, MONK_INSIDE, IMMEDIATE, CONDITION, 3) \
    CALL(set_flags, MONK_INSIDE, ALL, BITS, 2) \
    CALL(wait_until, MONK_INSIDE, AUTOMATIC, FLAG, 3) \
    CALL(start_wait_until, MONK_INSIDE, AUTOMATIC, FLAG, 3) \
    CALL(waiting, MONK_INSIDE, NOT_AUTOMATIC, CONDITION, 0) \
    CALL(flags, MONK_INSIDE, ALL, NOTHING, 0) \
    CALL(history, MONK_INSIDE, ALL, TEXT, 0) \
    CALL(save, MONK_INSIDE, ALL, TEXT, 0) \
    CALL(pause, MONK_INSIDE, ALL, EITHER, 3) \
    CALL(finish, MONK_INSIDE, ALL, EITHER, 0) \
    CALL(set_wish, ANYWHERE, ALL, WISH, 0) \
    CALL(abandon, ANYWHERE, ALL, NOTHING, 0)

typedef struct call {
    const char *name;
    int (*make)(unsigned number);
    int from, kinds, number;
    unsigned needs;
} call;

enum { BUDGET = 100, CONDITIONS = 2, FLAGS = 2 };

/* Each language has these: they make a monitor with a seat that is inside, and end both. */
static void begin(const monk_shape *shape);
static void end(void);
static monk_monitor *monitor;
static monk_seat *at, *other;
static const struct timespec a_moment = {0, 20000};
static int tried, failed;

static void holds(int what, const char *why, const call *c, int kind) {
    tried++;
    if (what) return;
    failed++;
    printf("%s under %s: %s\n", c->name, monk_kind_name(kind), why);
}

static void must(int answer, const char *what) {
    if (answer < 0) printf("%s: %s\n", what, monk_strerror(answer)), exit(1);
}
#define MUST(made) must((int)(made), #made)

static int is_of(int kind, int kinds) {
    switch (kinds) {
    case SIGNALLING: return monk_mode_of(kind) <= MONK_QUASI_BLOCKING;
    case NOT_AUTOMATIC: return monk_mode_of(kind) != MONK_AUTOMATIC;
    case NON_BLOCKING: return monk_mode_of(kind) == MONK_NON_BLOCKING;
    case IMMEDIATE: return monk_mode_of(kind) == MONK_IMMEDIATE_RETURN;
    case AUTOMATIC: return monk_mode_of(kind) == MONK_AUTOMATIC;
    default: return 1;
    }
}

/* Numbers that are out of range. */
static const unsigned *wrong_numbers(int number) {
    static const unsigned conditions[] = {CONDITIONS, 99, 256, UINT32_MAX, 0}, bits[] = {4, 99, UINT32_MAX, 0},
        wishes[] = {4, 99, 0},
        times[] = {1, 2, 3, 0}, none[] = {0};
    return number <= TEXT ? none : number == BITS ? bits : number == WISH ? wishes
        : number == TIME ? times : conditions;
}

static unsigned needs_of(const call *c, int kind) {
    if (c->number != EITHER || c->needs) return c->needs;
    return monk_mode_of(kind) <= MONK_QUASI_BLOCKING ? 3 : 1;
}

/* Two seats, of which `at` is at that place. */
static void arrange(int kind, int place, unsigned budget) {
    monk_shape shape = {kind, 3, CONDITIONS, FLAGS, budget, 1};
    begin(&shape);
    MUST(monk_take_seat(monitor, &other));
    if (place == MONK_INSIDE) return;
    MUST(monk_leave(at));
    if (place == MONK_WAITING) MUST(monk_enter(other)), MUST(monk_arrive(at));
}

static void clear(void) {
    monk_abandon(other);
    end();
}

/* The call is refused with this answer, and nothing has changed. */
static void refuses(const call *c, int kind, unsigned number, int answer, const char *why) {
    int place = monk_place(at);
    unsigned left = monk_left(at);
    int got = c->make(number);
    holds(got == answer, why, c, kind);
    if (got != answer) printf("  it answered %s\n", monk_strerror(got));
    holds(monk_place(at) == place && monk_left(at) == left, "after a refusal something has changed", c, kind);
}

static void at_each_place(const call *c, int kind) {
    for (int place = MONK_OUTSIDE; place <= MONK_INSIDE; place++) {
        arrange(kind, place, BUDGET);
        int is_there = place == c->from || c->from == ANYWHERE || (c->from == NOT_OUTSIDE && place != MONK_OUTSIDE);
        const unsigned *wrong = wrong_numbers(c->number);
        if (!is_of(kind, c->kinds)) refuses(c, kind, 99, MONK_NOT_OF_KIND, "not of kind");
        else for (; *wrong; wrong++) refuses(c, kind, *wrong, MONK_RANGE, "a number out of range");
        if (is_of(kind, c->kinds) && !is_there) refuses(c, kind, 0, MONK_NOT_NOW, "another place");
        clear();
    }
}

static void with_few_events(const call *c, int kind) {
    unsigned needs = needs_of(c, kind);
    if (needs < 2 || !is_of(kind, c->kinds)) return;
    arrange(kind, c->from, needs);
    refuses(c, kind, 0, MONK_SPENT, "too few events");
    if (*wrong_numbers(c->number)) refuses(c, kind, 99, MONK_RANGE, "out of range comes before too few events");
    clear();
    arrange(kind, c->from == MONK_OUTSIDE ? MONK_INSIDE : MONK_OUTSIDE, needs);
    refuses(c, kind, 0, MONK_NOT_NOW, "another place comes before too few events");
    clear();
}

/* (It may find that the other thread asks.) */
static void *waits(void *unused) {
    while (monk_await(at, -1) == MONK_IN_USE) {}
    return unused;
}

/* While another thread is in a call by the seat. */
static void in_use(const call *c, int kind) {
    pthread_t thread;
    arrange(kind, MONK_WAITING, BUDGET);
    pthread_create(&thread, NULL, waits, NULL);
    while (monk_set_wish(at, MONK_WAITER) != MONK_IN_USE) nanosleep(&a_moment, NULL);
    refuses(c, kind, 99, MONK_IN_USE, "another thread is in a call");
    MUST(monk_leave(other));
    pthread_join(thread, NULL);
    clear();
}

/* By a handle that was given back, of a monitor that then is closed. Its history can be read. */
static void given_back(const call *c, int kind) {
    arrange(kind, MONK_OUTSIDE, BUDGET);
    MUST(monk_give_seat(at));
    refuses(c, kind, 99, MONK_NOT_NOW, "the seat was given back");
    MUST(monk_give_seat(other));
    MUST(monk_close(monitor));
    refuses(c, kind, 99, c->number == TEXT ? MONK_OK : MONK_CLOSED, "the monitor is closed");
    clear();
}

static int try_all(const call *calls, int count) {
    for (int kind = MONK_PB; kind <= MONK_NPIS; kind++)
        for (int i = 0; i < count; i++) {
            at_each_place(&calls[i], kind), with_few_events(&calls[i], kind);
            in_use(&calls[i], kind), given_back(&calls[i], kind);
        }
    printf("%d refusals, %d wrong\n", tried, failed);
    return failed != 0;
}

#endif
