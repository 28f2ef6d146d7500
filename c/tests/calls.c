/* What every call answers, if it is allowed and if it isn't; in one thread if that will do. */
#include "calls.h"
#include <poll.h>
#include <pthread.h>
#include <time.h>

static void shapes(void) {
    monk_shape s = {MONK_PB, 4, 2, 0, 100, 0};
    IS(monk_make(NULL, &s), MONK_RANGE);
    IS(monk_make(&m, NULL), MONK_RANGE);
    s.kind = 10; IS(monk_make(&m, &s), MONK_RANGE); s.kind = -1; IS(monk_make(&m, &s), MONK_RANGE); s.kind = 0;
    s.seats = 0; IS(monk_make(&m, &s), MONK_RANGE); s.seats = 33; IS(monk_make(&m, &s), MONK_RANGE); s.seats = 4;
    s.conditions = 9; IS(monk_make(&m, &s), MONK_RANGE); s.conditions = 8;
    s.flags = 33; IS(monk_make(&m, &s), MONK_RANGE); s.flags = 32;
    s.budget = 1; IS(monk_make(&m, &s), MONK_RANGE); s.budget = (1 << 20) + 1; IS(monk_make(&m, &s), MONK_RANGE);
    s.budget = 0;
    OK(monk_make(&m, &s)); OK(monk_free(m)); OK(monk_free(NULL));
    IS(monk_kind_named("NPNB"), MONK_NPNB); IS(monk_kind_named("npnb"), MONK_RANGE);
    IS(monk_kind_named(NULL), MONK_RANGE);
    IS(monk_mode_of(MONK_PIS), MONK_AUTOMATIC); IS(monk_mode_of(11), MONK_RANGE);
}

static void misuse(void) {
    begin(MONK_PB, 2, 1, 2, 100);
    monk_seat *none;
    IS(monk_take_seat(m, &none), MONK_NO_SEAT);
    IS(monk_leave(a), MONK_NOT_NOW); IS(monk_wait(a, 0), MONK_NOT_NOW); IS(monk_signal(a, 0), MONK_NOT_NOW);
    IS(monk_poll(a), MONK_NOT_NOW); IS(monk_await(a, 0), MONK_NOT_NOW); IS(monk_set_flags(a, 1), MONK_NOT_NOW);
    IS(monk_waiting(a, 0), MONK_NOT_NOW); IS(monk_leave(NULL), MONK_RANGE); IS(monk_pause(NULL, 0), MONK_RANGE);
    char *text; IS(monk_history(m, a, &text, NULL), MONK_NOT_NOW);
    IS(monk_history(m, NULL, &text, NULL), MONK_NO_SEAT);
    OK(monk_enter(a)); IS(monk_enter(a), MONK_NOT_NOW); IS(monk_arrive(a), MONK_NOT_NOW); IS_IN(monk_await(a, 0));
    IS(monk_wait(a, 1), MONK_RANGE); IS(monk_signal(a, 7), MONK_RANGE); IS(monk_set_flags(a, 4), MONK_RANGE);
    IS(monk_set_wish(a, 4), MONK_RANGE);
    IS(monk_broadcast(a, 0), MONK_NOT_OF_KIND); IS(monk_signal_leave(a, 0), MONK_NOT_OF_KIND);
    IS(monk_signal_wait(a, 0, 0), MONK_NOT_OF_KIND);
    IS(monk_wait_until(a, 0), MONK_NOT_OF_KIND); IS(monk_give_seat(a), MONK_NOT_NOW);
    OK(monk_signal(a, 0)); IS(monk_waiting(a, 0), 0); OK(monk_set_flags(a, 3));
    uint32_t bits = 0; OK(monk_flags(a, &bits)); IS((int)bits, 3); IS((int)monk_left(a), 97);
    WAITS(monk_arrive(b)); WAITS(monk_poll(b)); IS(monk_leave(b), MONK_NOT_NOW); WAITS(monk_await(b, 10));
    IS(monk_close(m), MONK_BUSY); IS(monk_free(m), MONK_BUSY);
    ENDS(a, "monk 3 PB 2 1 flags 2\nenter 0 free\nsignal 0 0 stay\nact 0 0 3 1\n");
    OK(monk_leave(a)); IS_IN(monk_poll(b)); OK(monk_leave(b));
    OK(monk_give_seat(a)); IS(monk_enter(a), MONK_NOT_NOW); OK(monk_give_seat(b)); a = b = NULL;
    OK(monk_close(m)); IS(monk_close(m), MONK_CLOSED); IS(monk_take_seat(m, &a), MONK_CLOSED);
    ENDS(NULL, "act 0 0 3 1\nleave 0 entry\nenter 1 handed\nleave 1 entry\nenter 0 free\n");
    end();
}

static void spent(void) {
    begin(MONK_PNB, 1, 1, 0, 4);
    OK(monk_enter(a)); OK(monk_signal(a, 0)); IS((int)monk_left(a), 2);
    IS(monk_wait(a, 0), MONK_SPENT); IS(monk_signal(a, 0), MONK_SPENT); OK(monk_broadcast(a, 0));
    IS(monk_broadcast(a, 0), MONK_SPENT);
    IS(monk_finish(a, 0), MONK_SPENT); OK(monk_leave(a)); IS(monk_enter(a), MONK_SPENT);
    OK(monk_give_seat(a)); IS(monk_take_seat(m, &a), MONK_SPENT); a = NULL;
    IS(monk_close(m), MONK_SPENT);
    end();
}

/* Hoare's hand-over, step by step. */
static void hoare(void) {
    begin(MONK_PB, 2, 2, 0, 100);
    OK(monk_enter(a)); WAITS(monk_start_wait(a, 1));
    OK(monk_enter(b)); IS(monk_waiting(b, 1), 1); WAITS(monk_start_signal(b, 1)); WAITS(monk_poll(b));
    IS_IN(monk_poll(a)); OK(monk_signal(a, 0)); OK(monk_leave(a));
    WAITS(monk_enter_within(a, 10)); IS(monk_enter_within(a, 10), MONK_NOT_NOW);
    IS_IN(monk_await(b, 0)); OK(monk_leave(b)); IS_IN(monk_poll(a)); OK(monk_leave(a));
    IS_IN(monk_enter_within(b, 0)); OK(monk_leave(b)); IS(monk_enter_within(NULL, 0), MONK_RANGE);
    OK(monk_enter(a));
    ENDS(a, "monk 3 PB 2 2 flags 1\nenter 0 free\nwait 0 1 entry\nenter 1 free\nsignal 1 1 waiter 0\nresume 0 waiter\n"
            "signal 0 0 stay\nleave 0 signaller 1\nresume 1 signaller\nleave 1 entry\nenter 0 handed\nleave 0 entry\n"
            "enter 1 free\nleave 1 entry\nenter 0 free\n");
    end();
}

/* Barging under NPNB: each time, because the order of steps is given. */
static void barging(void) {
    for (int kind = MONK_PNB; kind <= MONK_NPNB; kind++) {
        begin(kind, 3, 1, 0, 100);
        OK(monk_enter(a)); WAITS(monk_start_wait(a, 0));
        OK(monk_enter(b)); OK(monk_signal(b, 0)); WAITS(monk_arrive(c));
        OK(monk_set_wish(b, MONK_ENTRY)); OK(monk_leave(b));
        IS(monk_poll(a), kind == MONK_PNB ? MONK_INSIDE : MONK_WAITING);
        IS(monk_poll(c), kind == MONK_PNB ? MONK_WAITING : MONK_INSIDE);
        end();
    }
}

static void returns(void) {
    begin(MONK_PIR, 3, 2, 0, 100);
    OK(monk_enter(a)); IS(monk_signal(a, 0), MONK_NOT_OF_KIND); WAITS(monk_start_wait(a, 0));
    OK(monk_enter(b)); WAITS(monk_start_signal_wait(b, 0, 1)); IS_IN(monk_poll(a));
    OK(monk_signal_leave(a, 1)); IS(monk_place(a), MONK_OUTSIDE); IS_IN(monk_await(b, 0)); OK(monk_finish(b, 0));
    OK(monk_enter(c));
    ENDS(c, "enter 0 free\nwait 0 0 entry\nenter 1 free\nsignal-wait 1 0 1 waiter 0\nresume 0 waiter\n"
        "signal-leave 0 1 waiter 1\nresume 1 waiter\n"
            "signal-leave 1 0 entry\nenter 2 free\n");
    end();
}

static void flags(void) {
    begin(MONK_PIS, 3, 0, 2, 100);
    OK(monk_enter(a)); IS(monk_wait(a, 0), MONK_NOT_OF_KIND); IS(monk_start_wait_until(a, 2), MONK_RANGE);
    WAITS(monk_start_wait_until(a, 1));
    OK(monk_enter(b)); WAITS(monk_start_wait_until(b, 0));
    OK(monk_enter(c)); IS(monk_signal(c, 0), MONK_NOT_OF_KIND); IS(monk_broadcast(c, 0), MONK_NOT_OF_KIND);
    OK(monk_set_flags(c, 3)); OK(monk_wait_until(c, 1)); OK(monk_finish(c, 0));
    WAITS(monk_poll(b)); IS_IN(monk_poll(a)); OK(monk_set_flags(a, 0)); OK(monk_leave(a));
    WAITS(monk_poll(b));
    OK(monk_enter(c));
    ENDS(c, "monk 3 PIS 3 0 flags 2\nenter 0 free\nuntil 0 1 entry\nenter 1 free\nuntil 1 0 entry\nenter 2 free\n"
        "act 2 0 3 1\nuntil 2 1 stay\n"
            "leave 2 until 0\nresume 0 until\nact 0 0 0 1\nleave 0 entry\nenter 2 free\n");
    end();
}

/* A thread waits, and another stops the monitor. */
static void *stopper(void *p) {
    (void)p;
    while (monk_place(a) != MONK_WAITING) nanosleep(&(struct timespec){0, 1000000}, NULL);
    IS(monk_leave(a), MONK_IN_USE);                /* a is in a wait of the main thread */
    OK(monk_stop(m));
    return NULL;
}

/* All wait for ever: a spare seat looks at the run, which is then ended. */
static void hung(void) {
    pthread_t t;
    begin(MONK_PB, 3, 1, 0, 100);
    OK(monk_give_seat(c)); c = NULL;
    OK(monk_enter(b)); WAITS(monk_start_wait(b, 0));
    OK(monk_enter(a));
    pthread_create(&t, NULL, stopper, NULL);
    IS(monk_wait(a, 0), MONK_STOPPED);
    pthread_join(t, NULL);
    ENDS(NULL, "wait 1 0 entry\nenter 0 free\nwait 0 0 entry\nenter 2 free\n");
    OK(monk_abandon(a)); OK(monk_abandon(b)); a = b = NULL;
    IS(monk_close(m), MONK_BUSY);
    end();
}

/* Abandoned seats go on when their turn comes, and leave. */
static void abandoned(void) {
    begin(MONK_PB, 4, 1, 0, 100);
    OK(monk_enter(a)); WAITS(monk_start_wait(a, 0)); OK(monk_abandon(a)); a = NULL;
    OK(monk_enter(b)); WAITS(monk_arrive(c)); OK(monk_abandon(c)); c = NULL;
    OK(monk_signal(b, 0));                /* hands over to a, which leaves, and b has it back */
    OK(monk_abandon(b)); b = NULL;        /* leaves; c comes in and leaves */
    OK(monk_enter(d));
    ENDS(d, "enter 1 free\nsignal 1 0 waiter 0\nresume 0 waiter\nleave 0 signaller 1\nresume 1 signaller\n"
        "leave 1 entry\nenter 2 handed\nleave 2 entry\nenter 3 free\n");
    OK(monk_take_seat(m, &a)); IS((int)monk_seat_number(a), 2);     /* it has most events left */
    end();
}

/* A thread that hangs inside keeps the history: the call waits a second for it. */
static void held(void) {
    char *text;
    begin(MONK_PNB, 2, 1, 0, 100);
    OK(monk_give_seat(b)); b = NULL;
    OK(monk_enter(a));
    IS(monk_history(m, NULL, &text, NULL), MONK_BUSY);
    OK(monk_leave(a));                    /* the visitor's turn comes, and it leaves */
    OK(monk_enter(a));
    ENDS(a, "leave 0 entry\nenter 1 handed\nleave 1 entry\nenter 0 free\n");
    end();
}

/* Lets that seat come in and go out again, if it may come in. Returns whether it could. */
static int comes_and_goes(monk_seat *s) {
    if (monk_place(s) == MONK_WAITING) monk_poll(s);
    if (monk_place(s) != MONK_INSIDE) return 0;
    OK(monk_leave(s));
    return 1;
}

static int signal_to(monk_seat *s, unsigned condition) {
    int leaves = monk_mode_of(monk_kind_of(m)) == MONK_IMMEDIATE_RETURN;
    return leaves ? monk_signal_leave(s, condition) : monk_start_signal(s, condition);
}

/* Two seats wait on a condition, and the first is abandoned: a signal lets the second go on, under every kind that
 * has conditions. */
static void passed_on(void) {
    for (int kind = MONK_PB; kind <= MONK_NPIR; kind++) {
        begin(kind, 4, 2, 0, 100);
        OK(monk_enter(a)); WAITS(monk_start_wait(a, 0)); OK(monk_enter(d)); WAITS(monk_start_wait(d, 0));
        OK(monk_abandon(a)); OK(monk_abandon(d));
        OK(monk_enter(b)); WAITS(monk_start_wait(b, 0));
        OK(monk_enter(c)); IS(signal_to(c, 0) >= 0, 1);
        int b_went_on = 0;
        for (int step = 0; step < 4; step++) b_went_on |= comes_and_goes(b), comes_and_goes(c);
        IS(b_went_on, 1); IS(monk_place(c), MONK_OUTSIDE);
        OK(monk_take_seat(m, &a)); IS((int)monk_seat_number(a), 0); OK(monk_take_seat(m, &d));
        end();
    }
}

/* Hoare's hand-over goes through the abandoned seat to the next one. The abandoned seat comes back after the
 * signaller, and doesn't signal again. */
static void passed_on_at_once(void) {
    begin(MONK_PB, 4, 1, 0, 100);
    OK(monk_enter(a)); WAITS(monk_start_wait(a, 0)); OK(monk_abandon(a));
    OK(monk_enter(b)); WAITS(monk_start_wait(b, 0)); OK(monk_enter(d)); WAITS(monk_start_wait(d, 0));
    OK(monk_enter(c)); WAITS(monk_start_signal(c, 0)); WAITS(monk_poll(c));
    IS_IN(monk_poll(b)); OK(monk_leave(b)); IS_IN(monk_poll(c)); OK(monk_leave(c));
    OK(monk_take_seat(m, &a)); IS((int)monk_left(a), 100 - 6);
    OK(monk_enter(c));
    ENDS(c, "signal 2 0 waiter 0\nresume 0 waiter\nsignal 0 0 waiter 1\nresume 1 waiter\n"
        "leave 1 signaller 2\nresume 2 signaller\n"
            "leave 2 signaller 0\nresume 0 signaller\nleave 0 entry\nenter 2 free\n");
    end();
}

/* Not passed on: a broadcast, which served all; and a signal that served a seat with too few events left. */
static void not_passed_on(void) {
    for (int kind = MONK_PNB; kind <= MONK_NPNB; kind++) {
        begin(kind, 3, 1, 0, 100);
        OK(monk_enter(a)); WAITS(monk_start_wait(a, 0)); OK(monk_abandon(a)); a = NULL;
        OK(monk_enter(b)); OK(monk_broadcast(b, 0)); WAITS(monk_start_wait(b, 0));
        WAITS(monk_poll(b));
        OK(monk_enter(c)); IS(monk_waiting(c, 0), 1); OK(monk_leave(c));
        end();
    }
    begin(MONK_PNB, 3, 1, 0, 4);
    OK(monk_enter(a)); WAITS(monk_start_wait(a, 0)); OK(monk_abandon(a)); a = NULL;
    OK(monk_enter(b)); WAITS(monk_start_wait(b, 0));
    OK(monk_enter(c)); OK(monk_signal(c, 0)); OK(monk_leave(c)); WAITS(monk_poll(b));
    end();
    /* At the entry it was no signal that let it in, though it waited on a condition before. */
    begin(MONK_PNB, 3, 1, 0, 100);
    OK(monk_enter(a)); WAITS(monk_start_wait(a, 0));
    OK(monk_enter(b)); OK(monk_signal(b, 0)); OK(monk_leave(b)); IS_IN(monk_poll(a)); OK(monk_leave(a));
    OK(monk_enter(b)); WAITS(monk_start_wait(b, 0));
    OK(monk_enter(c)); WAITS(monk_arrive(a)); OK(monk_abandon(a)); a = NULL;
    OK(monk_leave(c)); WAITS(monk_poll(b));
    end();
}

static long milliseconds(void) {
    struct timespec now;
    clock_gettime(CLOCK_MONOTONIC, &now);
    return now.tv_sec * 1000 + now.tv_nsec / 1000000;
}

static struct timespec in_microseconds(long microseconds) {
    struct timespec then;
    clock_gettime(CLOCK_MONOTONIC, &then);
    then.tv_nsec += microseconds * 1000;
    if (then.tv_nsec >= 1000000000) then.tv_sec++, then.tv_nsec -= 1000000000;
    return then;
}

/* How many nanoseconds late a wait of 100 microseconds ends, in the best of many that nobody ends before. */
static long least_late(void) {
    long least = 1000000000;
    for (int i = 0; i < 50; i++) {
        struct timespec until = in_microseconds(100), now;
        WAITS(monk_await_until(b, &until));
        clock_gettime(CLOCK_MONOTONIC, &now);
        long late = (now.tv_sec - until.tv_sec) * 1000000000 + now.tv_nsec - until.tv_nsec;
        IS(late >= 0, 1);
        if (late < least) least = late;
    }
    return least;
}

/* Waits until a time, which may be finer than a millisecond. */
static void until(void) {
    struct timespec over = {0, 0}, later = in_microseconds(600000), no_times[] = {{0, 1000000000}, {0, -1}, {-1, 0}};
    begin(MONK_PNB, 2, 1, 0, 100);
    for (int i = 0; i < 3; i++) IS(monk_await_until(a, &no_times[i]), MONK_RANGE);
    IS(monk_await_until(a, NULL), MONK_RANGE); IS(monk_await_until(NULL, &over), MONK_RANGE);
    IS(monk_await_until(a, &over), MONK_NOT_NOW);
    OK(monk_enter(a)); IS_IN(monk_await_until(a, &over));
    WAITS(monk_arrive(b)); WAITS(monk_await_until(b, &over));
    IS(least_late() < 900000, 1);
    OK(monk_leave(a)); IS_IN(monk_await_until(b, &over));
    WAITS(monk_arrive(a)); OK(monk_stop(m)); IS(monk_await_until(a, &later), MONK_STOPPED);
    end();
}

static int is_readable(int file) {
    struct pollfd it = {.fd = file, .events = POLLIN};
    return poll(&it, 1, 0);
}

/* A file that becomes readable when a wait ends. */
static void watched(void) {
    int file = -1, same = -1;
    begin(MONK_PNB, 2, 1, 0, 100);
    IS(monk_wait_fd(a, NULL), MONK_RANGE); IS(monk_wait_fd(NULL, &file), MONK_RANGE);
    IS(monk_wait_fd(a, &file), MONK_NOT_NOW);
    OK(monk_enter(a)); IS_IN(monk_wait_fd(a, &file)); IS(file, -1);
    WAITS(monk_arrive(b)); WAITS(monk_wait_fd(b, &file)); IS(is_readable(file), 0);
    OK(monk_leave(a)); IS(is_readable(file), 1); IS_IN(monk_wait_fd(b, &same)); IS(same, -1);
    WAITS(monk_start_wait(b, 0)); WAITS(monk_wait_fd(b, &same)); IS(same, file); IS(is_readable(file), 0);
    OK(monk_enter(a)); OK(monk_signal(a, 0)); IS(is_readable(file), 0); OK(monk_leave(a)); IS(is_readable(file), 1);
    IS_IN(monk_await(b, 0)); OK(monk_leave(b));
    /* A wait that was granted, or stopped, before the file was asked for. */
    OK(monk_enter(a)); WAITS(monk_arrive(b)); OK(monk_leave(a)); IS_IN(monk_wait_fd(b, &file));
    WAITS(monk_arrive(a)); WAITS(monk_wait_fd(a, &file)); IS(is_readable(file), 0); OK(monk_stop(m));
    IS(is_readable(file), 1); IS(monk_wait_fd(a, &file), MONK_STOPPED);
    end();
}

static void *leaver(void *p) {
    (void)p;
    nanosleep(&(struct timespec){0, 100000000}, NULL);
    OK(monk_leave(a));
    return NULL;
}

/* A stop doesn't end a look at the history. Looks in vain use up one spare seat in all, not one each. */
static void looked_at(void) {
    char *text = NULL;
    pthread_t t;
    begin(MONK_PNB, 2, 1, 0, 100);
    OK(monk_give_seat(b)); b = NULL;
    OK(monk_enter(a)); OK(monk_stop(m));
    for (int look = 0; look < 2; look++) {
        long began = milliseconds();
        IS(monk_history(m, NULL, &text, NULL), MONK_BUSY);
        IS(milliseconds() - began >= 900, 1);
    }
    IS(monk_take_seat(m, &b), MONK_NO_SEAT);       /* it still waits, for its one visit */
    pthread_create(&t, NULL, leaver, NULL);
    ENDS(NULL, "monk 3 PNB 2 1 flags 1\nenter 0 free\nleave 0 entry\nenter 1 handed\n");
    pthread_join(t, NULL);
    OK(monk_take_seat(m, &b)); IS((int)monk_left(b), 98);
    OK(monk_give_seat(b)); b = NULL;
    ENDS(NULL, "leave 1 entry\nenter 1 free\n");
    end();
}

static void *cancelled_waiter(void *p) {
    (void)p;
    OK(monk_enter(a)); OK(monk_wait(a, 0)); OK(monk_leave(a));
    pthread_testcancel();
    return NULL;
}

/* A thread that is cancelled in a wait waits on, comes in at its turn, and ends after the call. */
static void cancelled(void) {
    pthread_t t;
    void *ended = NULL;
    int waiting = 0;
    begin(MONK_PNB, 2, 1, 0, 100000);
    pthread_create(&t, NULL, cancelled_waiter, NULL);
    while (!waiting) {
        nanosleep(&(struct timespec){0, 20000000}, NULL);
        if (monk_enter(b) == MONK_OK) waiting = monk_waiting(b, 0), monk_leave(b);
    }
    pthread_cancel(t);
    nanosleep(&(struct timespec){0, 50000000}, NULL);
    OK(monk_enter(b)); IS(monk_waiting(b, 0), 1); OK(monk_signal(b, 0)); OK(monk_leave(b));
    pthread_join(t, &ended);
    IS(ended == PTHREAD_CANCELED, 1); IS(monk_place(a), MONK_OUTSIDE);
    end();
}

int main(void) {
    shapes(), misuse(), spent(), hoare(), barging(), returns(), flags(), hung(), abandoned(), passed_on(),
        passed_on_at_once();
    not_passed_on(), held(), looked_at(), cancelled(), until(), watched();
    printf("%d answers, %d wrong\n", made, failed);
    return failed != 0;
}
