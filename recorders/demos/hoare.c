/* A monitor by Hoare's rules, made of semaphores, that writes its own log: hoare buffer|barrier queue|stack

   A signal hands the monitor to the longest waiter of its condition, and the signaller steps back. A seat that leaves
   or waits hands it to the one who stepped back first, else opens it. With `stack` it hands it to the one who stepped
   back last: a fault, because it promises the order of arrival. In the buffer nobody tests again after a wait: by
   these rules nobody needs to. In the barrier all but the last wait, and each wakes the next, so that many step
   back. */
#include <pthread.h>
#include <semaphore.h>
#include <stdarg.h>
#include <stdio.h>
#include <stdlib.h>
#include <string.h>

enum { SEATS = 6, ROUNDS = 10, SIZE = 2, PUT = 0, TAKE = 1, NOT_FULL = 0, NOT_EMPTY = 1, CONDS = 2 };

struct queue {
    int seats[SEATS], length;
};

static sem_t door, own[SEATS];
static struct queue conditions[CONDS], stepped_back;
static int is_stack;

/* The log. Only the seat that is inside writes. */
static FILE *lines;
static char *text;
static size_t length;

static void say(const char *format, ...) {
    va_list numbers;
    va_start(numbers, format);
    vfprintf(lines, format, numbers);
    va_end(numbers);
}

/* ---- the monitor */

static void join(struct queue *queue, int seat) { queue->seats[queue->length++] = seat; }

static int first_of(struct queue *queue) {
    int seat = queue->seats[0];
    memmove(queue->seats, queue->seats + 1, --queue->length * sizeof *queue->seats);
    return seat;
}

static int last_of(struct queue *queue) { return queue->seats[--queue->length]; }

static void hand_on(void) {
    if (!stepped_back.length)
        sem_post(&door);
    else
        sem_post(&own[is_stack ? last_of(&stepped_back) : first_of(&stepped_back)]);
}

static void enter(int seat) {
    sem_wait(&door);
    say("enter %d\n", seat);
}

static void leave(int seat) {
    say("leave %d\n", seat);
    hand_on();
}

static void wait_on(int seat, int cond) {
    say("wait %d %d\n", seat, cond);
    join(&conditions[cond], seat);
    hand_on();
    sem_wait(&own[seat]);
    say("resume %d\n", seat);
}

static void signal_on(int seat, int cond) {
    say("signal %d %d\n", seat, cond);
    if (!conditions[cond].length)
        return;
    join(&stepped_back, seat);
    sem_post(&own[first_of(&conditions[cond])]);
    sem_wait(&own[seat]);
    say("resume %d\n", seat);
}

/* ---- what it guards */

static unsigned ring[SIZE], first, count;

static void put(int seat, unsigned item) {
    enter(seat);
    if (count == SIZE)
        wait_on(seat, NOT_FULL);
    ring[(first + count++) % SIZE] = item;
    say("act %d %d %u 1\n", seat, PUT, item);
    signal_on(seat, NOT_EMPTY);
    leave(seat);
}

static void take(int seat) {
    enter(seat);
    if (!count)
        wait_on(seat, NOT_EMPTY);
    unsigned item = ring[first++ % SIZE];
    count--;
    say("act %d %d 0 %u\n", seat, TAKE, item + 1);
    signal_on(seat, NOT_FULL);
    leave(seat);
}

static void *use_buffer(void *number) {
    int seat = (int)(size_t)number;
    for (unsigned round = 1; round <= ROUNDS; round++)
        if (seat % 2)
            take(seat);
        else
            put(seat, round);
    return 0;
}

static void *use_barrier(void *number) {
    static int came;
    int seat = (int)(size_t)number;
    for (int round = 0; round < ROUNDS; round++) {
        enter(seat);
        if (++came % SEATS)
            wait_on(seat, 0);
        signal_on(seat, 0);
        leave(seat);
    }
    return 0;
}

int main(int words, char **word) {
    pthread_t threads[SEATS];
    if (words != 3)
        return 2;
    is_stack = !strcmp(word[2], "stack");
    lines = open_memstream(&text, &length);
    sem_init(&door, 0, 1);
    for (size_t i = 0; i < SEATS; i++)
        sem_init(&own[i], 0, 0);
    for (size_t i = 0; i < SEATS; i++)
        pthread_create(&threads[i], 0, strcmp(word[1], "barrier") ? use_buffer : use_barrier, (void *)i);
    for (int i = 0; i < SEATS; i++)
        pthread_join(threads[i], 0);
    fclose(lines);
    printf("log 1 %d %d buffer %d\n%s", SEATS, CONDS, SIZE, text);
    free(text);
    return 0;
}
