/* Hand-overs between threads and an event loop: events KIND TURNS
 *
 * Seats take turns in a circle, as in handover.c. Half of them have a thread each; the others have one event loop
 * together, which sleeps until one of their files can be read. A turn that nobody takes for too long ends the
 * program: a wake-up was missed. */
#include "common.h"
#include <poll.h>
#include <pthread.h>
#include <unistd.h>

enum { OF_LOOP = 2, SEATS = 4, BUDGET = 1 << 20, PATIENCE_MS = 30000 };

typedef struct looped {
    monk_seat *seat;
    unsigned number;
    long rounds;            /* turns that are still to be taken */
    int has_signalled;      /* its turn is taken, and its leave is yet to come */
} looped;

static monk_monitor *monitor;
static int kind;
static long rounds;
static unsigned turn;       /* whose it is; touched only inside */

static int is_automatic(void) { return monk_mode_of(kind) == MONK_AUTOMATIC; }

static unsigned next_of(unsigned number) { return (number + 1) % SEATS; }

static int pauses(monk_seat *s, unsigned number) {
    return is_automatic() ? monk_start_wait_until(s, number) : monk_start_wait(s, number);
}

static void *play(void *number) {
    unsigned me = (unsigned)(uintptr_t)number;
    monk_seat *s;
    MUST(monk_take_seat(monitor, &s));
    for (long i = 0; i < rounds; i++) {
        MUST(monk_enter(s));
        while (turn != me) MUST(monk_pause(s, me));
        turn = next_of(me);
        if (is_automatic()) MUST(monk_set_flags(s, 1u << turn));
        MUST(monk_finish(s, turn));
    }
    MUST(monk_give_seat(s));
    return NULL;
}

/* Takes the turn of a seat that is inside, and goes out; under kinds with signals that may wait, the leave comes
 * later. */
static void take_turn(looped *it) {
    turn = next_of(it->number);
    it->rounds--;
    if (monk_mode_of(kind) == MONK_IMMEDIATE_RETURN) {
        MUST(monk_signal_leave(it->seat, turn));
        return;
    }
    it->has_signalled = 1;
    if (is_automatic()) MUST(monk_set_flags(it->seat, 1u << turn));
    else MUST(monk_start_signal(it->seat, turn));
}

/* What a seat does once it is inside. */
static void step(looped *it) {
    if (it->has_signalled) {
        MUST(monk_leave(it->seat));
        it->has_signalled = 0;
    } else if (turn == it->number) take_turn(it);
    else MUST(pauses(it->seat, it->number));
    if (monk_place(it->seat) == MONK_OUTSIDE && it->rounds > 0) MUST(monk_arrive(it->seat));
}

/* Goes on with a seat until it waits; then its file is in `file`. Returns 0 if the seat is at its end. */
static int goes_on(looped *it, struct pollfd *file) {
    int place;
    while (monk_place(it->seat) != MONK_OUTSIDE) {
        MUST(place = monk_wait_fd(it->seat, &file->fd));
        if (place == MONK_WAITING) return 1;
        step(it);
    }
    file->fd = -1;
    return 0;
}

static void loop(void) {
    looped all[OF_LOOP];
    struct pollfd files[OF_LOOP];
    for (unsigned i = 0; i < OF_LOOP; i++) {
        all[i] = (looped){.number = i, .rounds = rounds};
        files[i] = (struct pollfd){.events = POLLIN, .revents = POLLIN};
        MUST(monk_take_seat(monitor, &all[i].seat));
        MUST(monk_arrive(all[i].seat));
    }
    for (int waiting = OF_LOOP; waiting > 0;) {
        waiting = 0;
        for (int i = 0; i < OF_LOOP; i++) waiting += files[i].revents ? goes_on(&all[i], &files[i]) : files[i].fd >= 0;
        if (waiting) HOLDS(poll(files, OF_LOOP, PATIENCE_MS) > 0);
    }
    for (int i = 0; i < OF_LOOP; i++) MUST(monk_give_seat(all[i].seat));
}

int main(int words, char **word) {
    HOLDS(words == 3);
    MUST(kind = monk_kind_named(word[1]));
    rounds = atol(word[2]) / SEATS;
    pthread_t threads[SEATS];
    monk_shape shape = {.kind = kind, .seats = SEATS, .conditions = is_automatic() ? 0 : SEATS, .flags = SEATS,
        .budget = BUDGET};
    MUST(monk_make(&monitor, &shape));
    if (is_automatic()) {
        monk_seat *s;
        MUST(monk_take_seat(monitor, &s));
        MUST(monk_enter(s));
        MUST(monk_set_flags(s, 1));
        MUST(monk_leave(s));
        MUST(monk_give_seat(s));
    }
    for (uintptr_t i = OF_LOOP; i < SEATS; i++) HOLDS(!pthread_create(&threads[i], NULL, play, (void *)i));
    loop();
    for (int i = OF_LOOP; i < SEATS; i++) HOLDS(!pthread_join(threads[i], NULL));
    MUST(monk_close(monitor));
    MUST(monk_free(monitor));
    printf("%ld turns\n", rounds * SEATS);
    return 0;
}
