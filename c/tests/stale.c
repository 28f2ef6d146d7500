/* A handle of a seat that was given back, while somebody else has the seat: every call by it is refused, and
 * disturbs nobody. */
#include "common.h"
#include <pthread.h>
#include <stdatomic.h>

enum { LENDINGS = 1000, VISITS = 100000, BUDGET = 4 * VISITS };

static monk_monitor *m;
static monk_seat *stale;
static atomic_int is_over;
static long count;      /* touched only inside */

static void make(unsigned seats) {
    monk_shape shape = {.kind = MONK_PNB, .seats = seats, .conditions = 1, .flags = 1, .budget = BUDGET};
    MUST(monk_make(&m, &shape));
}

static void give_back(monk_seat *s) { MUST(monk_give_seat(s)); }
static void abandon(monk_seat *s) { MUST(monk_abandon(s)); }

#define REFUSED(call) HOLDS((call) == MONK_NOT_NOW)

static void all_refused(monk_seat *s) {
    uint32_t bits;
    char *text;
    REFUSED(monk_enter(s)), REFUSED(monk_enter_within(s, 0)), REFUSED(monk_arrive(s)), REFUSED(monk_poll(s)),
        REFUSED(monk_await(s, 0));
    REFUSED(monk_leave(s)), REFUSED(monk_finish(s, 0)), REFUSED(monk_wait(s, 0)), REFUSED(monk_pause(s, 0)),
        REFUSED(monk_start_wait(s, 0));
    REFUSED(monk_signal(s, 0)), REFUSED(monk_start_signal(s, 0)), REFUSED(monk_broadcast(s, 0)),
        REFUSED(monk_set_flags(s, 1));
    REFUSED(monk_signal_leave(s, 0)), REFUSED(monk_signal_wait(s, 0, 0)), REFUSED(monk_wait_until(s, 0));
    REFUSED(monk_waiting(s, 0)), REFUSED(monk_flags(s, &bits)), REFUSED(monk_history(m, s, &text, NULL));
    REFUSED(monk_set_wish(s, MONK_ANY)), REFUSED(monk_place(s)), REFUSED(monk_give_seat(s)), REFUSED(monk_abandon(s));
    HOLDS(monk_left(s) == 0);
}

/* The next owner is outside, then inside, and each time stays where it is. */
static void next_owner_is_left_alone(void (*ends)(monk_seat *)) {
    monk_seat *next;
    make(1);
    MUST(monk_take_seat(m, &stale));
    ends(stale);
    all_refused(stale);
    MUST(monk_take_seat(m, &next));
    HOLDS(next != stale && monk_seat_number(next) == monk_seat_number(stale));
    all_refused(stale);
    MUST(monk_enter(next));
    all_refused(stale);
    HOLDS(monk_place(next) == MONK_INSIDE && monk_left(next) == BUDGET - 1);
    MUST(monk_leave(next));
    MUST(monk_give_seat(next));
    MUST(monk_free(m));
}

/* All earlier handles stay refused. */
static void every_lending_has_a_handle(void) {
    static monk_seat *handles[LENDINGS];
    make(1);
    for (int i = 0; i < LENDINGS; i++) {
        MUST(monk_take_seat(m, &handles[i]));
        MUST(monk_enter(handles[i]));
        for (int earlier = 0; earlier < i; earlier++) REFUSED(monk_leave(handles[earlier]));
        MUST(monk_leave(handles[i]));
        MUST(monk_give_seat(handles[i]));
    }
    MUST(monk_free(m));
}

static void *call_on(void *unused) {
    while (!is_over) {
        REFUSED(monk_enter(stale));
        REFUSED(monk_leave(stale));
    }
    return unused;
}

/* Another thread calls by a stale handle, and yet no call of the owner is refused. */
static void calls_at_the_same_time(void) {
    pthread_t other;
    monk_seat *s;
    make(1);
    MUST(monk_take_seat(m, &stale));
    MUST(monk_give_seat(stale));
    MUST(monk_take_seat(m, &s));
    HOLDS(!pthread_create(&other, NULL, call_on, NULL));
    for (int i = 0; i < VISITS; i++) {
        MUST(monk_enter(s));
        count++;
        MUST(monk_leave(s));
    }
    is_over = 1;
    HOLDS(!pthread_join(other, NULL) && count == VISITS);
    MUST(monk_give_seat(s));
    MUST(monk_free(m));
}

int main(void) {
    next_owner_is_left_alone(give_back), next_owner_is_left_alone(abandon);
    every_lending_has_a_handle(), calls_at_the_same_time();
    printf("stale handles are refused, and %d visits beside them undisturbed\n", VISITS);
    return 0;
}
