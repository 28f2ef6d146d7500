/* The samples of `monk run` under the monitor of handover.h, with the same work, and the same totals at the end: a
   bounded buffer, readers and writers, a barber's shop, each of size 4.

   usage: handover SAMPLE SEATS ROUNDS */
#include "handover.h"

#include <stdio.h>
#include <stdlib.h>
#include <string.h>

enum { SIZE = 4 };

static unsigned rounds;
static int seats;

/* The buffer: one half puts the items 1 to ROUNDS, as many take. */
enum { NOT_FULL, NOT_EMPTY };
enum { PUT, TAKE };

static unsigned items[SIZE], oldest, held;

static void put(int seat, unsigned item) {
    enter(seat);
    while (held == SIZE)
        wait_on(seat, NOT_FULL);
    items[(oldest + held++) % SIZE] = item;
    act(seat, PUT, item, 1);
    signal_on(seat, NOT_EMPTY);
    leave(seat);
}

static unsigned take(int seat) {
    enter(seat);
    while (held == 0)
        wait_on(seat, NOT_EMPTY);
    unsigned item = items[oldest];
    oldest = (oldest + 1) % SIZE;
    held--;
    act(seat, TAKE, 0, item + 1ul);
    signal_on(seat, NOT_FULL);
    leave(seat);
    return item;
}

static void work_buffer(int seat) {
    for (unsigned round = 1; round <= rounds; round++)
        if (seat < seats / 2)
            put(seat, round);
        else
            take(seat);
}

/* The book: one half reads, and as many write. */
enum { CAN_READ, CAN_WRITE };
enum { START_READ, END_READ, START_WRITE, END_WRITE };

static int readers, written;

static void begin_read(int seat) {
    enter(seat);
    while (written || readers == SIZE)
        wait_on(seat, CAN_READ);
    readers++;
    act(seat, START_READ, 0, 1);
    signal_on(seat, CAN_READ);
    leave(seat);
}

static void end_read(int seat) {
    enter(seat);
    readers--;
    act(seat, END_READ, 0, 1);
    signal_on(seat, readers == 0 && condition[CAN_WRITE].count ? CAN_WRITE : CAN_READ);
    leave(seat);
}

static void begin_write(int seat) {
    enter(seat);
    while (written || readers > 0)
        wait_on(seat, CAN_WRITE);
    written = 1;
    act(seat, START_WRITE, 0, 1);
    leave(seat);
}

static void end_write(int seat) {
    enter(seat);
    written = 0;
    act(seat, END_WRITE, 0, 1);
    signal_on(seat, condition[CAN_READ].count ? CAN_READ : CAN_WRITE);
    leave(seat);
}

static void work_book(int seat) {
    for (unsigned round = 1; round <= rounds; round++)
        if (seat < seats / 2) {
            begin_read(seat);
            end_read(seat);
        } else {
            begin_write(seat);
            end_write(seat);
        }
}

/* The shop: the first seat is the barber, who has a turn for each visit of the others. */
enum { SEAT_FREE, CUSTOMER_SITS, CUT_DONE };
enum { SIT, CALL, FINISH, DEPART };

static enum { EMPTY, IN_USE, DONE } chair;
static int sitting;

static void sit(int seat) {
    enter(seat);
    while (sitting == SIZE)
        wait_on(seat, SEAT_FREE);
    sitting++;
    act(seat, SIT, 0, 1);
    signal_on(seat, CUSTOMER_SITS);
    leave(seat);
}

static void depart(int seat) {
    enter(seat);
    while (chair != DONE)
        wait_on(seat, CUT_DONE);
    chair = EMPTY;
    act(seat, DEPART, 0, 1);
    signal_on(seat, CUSTOMER_SITS);
    leave(seat);
}

static void call(int seat) {
    enter(seat);
    while (sitting == 0 || chair != EMPTY)
        wait_on(seat, CUSTOMER_SITS);
    sitting--;
    chair = IN_USE;
    act(seat, CALL, 0, 1);
    signal_on(seat, SEAT_FREE);
    leave(seat);
}

static void finish(int seat) {
    enter(seat);
    chair = DONE;
    act(seat, FINISH, 0, 1);
    signal_on(seat, CUT_DONE);
    leave(seat);
}

static void work_shop(int seat) {
    unsigned visits = seat == 0 ? (seats - 1) * rounds : rounds;
    for (unsigned visit = 0; visit < visits; visit++)
        if (seat == 0) {
            call(seat);
            finish(seat);
        } else {
            sit(seat);
            depart(seat);
        }
}

/* How often the history says that this was done. */
static unsigned long times(int code) {
    unsigned long count = 0;
    for (unsigned long at = 0; at < length; at++)
        count += history[at].verb == ACT && history[at].cond == code;
    return count;
}

static void tell_buffer(void) {
    unsigned long put_sum = 0, taken_sum = 0;
    for (unsigned long at = 0; at < length; at++)
        if (history[at].verb == ACT && history[at].cond == PUT)
            put_sum += history[at].arg;
        else if (history[at].verb == ACT)
            taken_sum += history[at].reply - 1;
    printf("put %lu %lu\ntaken %lu %lu\n", times(PUT), put_sum, times(TAKE), taken_sum);
}

static void tell_book(void) {
    printf("reads %lu %lu\n", times(START_READ), times(END_READ));
    printf("writes %lu %lu\n", times(START_WRITE), times(END_WRITE));
}

static void tell_shop(void) {
    printf("sat %lu\ncalled %lu\n", times(SIT), times(CALL));
    printf("finished %lu\ndeparted %lu\n", times(FINISH), times(DEPART));
}

static const struct sample { const char *name; void (*work)(int), (*tell)(void); } samples[] = {
    {"buffer", work_buffer, tell_buffer},
    {"book", work_book, tell_book},
    {"shop", work_shop, tell_shop},
};

static const struct sample *sample;
static pthread_barrier_t starting_line;

static void *work(void *number) {
    pthread_barrier_wait(&starting_line);
    sample->work((int)(long)number);
    return NULL;
}

/* Runs the sample in threads, none of which begins before all are there; an odd last seat of a buffer or a book stays
   idle. 0 if there was no memory or thread. */
static int run(void) {
    int working = sample->work == work_shop ? seats : seats / 2 * 2;
    pthread_t threads[MOST_SEATS];
    history = malloc(sizeof *history * seats * (64 + rounds * (40ul + 32 * seats)));
    if (!history)
        return 0;
    for (int seat = 0; seat < seats; seat++)
        pthread_cond_init(&wake[seat], NULL);
    pthread_barrier_init(&starting_line, NULL, working);
    for (long seat = 0; seat < working; seat++)
        if (pthread_create(&threads[seat], NULL, work, (void *)seat))
            return 0;
    for (int seat = 0; seat < working; seat++)
        pthread_join(threads[seat], NULL);
    return 1;
}

int main(int argc, char **argv) {
    if (argc != 4)
        return 3;
    for (unsigned at = 0; at < sizeof samples / sizeof *samples; at++)
        if (strcmp(argv[1], samples[at].name) == 0)
            sample = &samples[at];
    seats = atoi(argv[2]);
    rounds = atoi(argv[3]);
    if (!sample || seats < 2 || seats > MOST_SEATS)
        return 3;
    if (!run())
        return 4;
    sample->tell();
    return 0;
}
