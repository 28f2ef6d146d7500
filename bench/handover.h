/* A hand-over monitor of pthreads, by hand: a yardstick for the hall. Each thread sleeps on a condition variable of
   its own until the monitor is handed to it. Threads that wait for entry, on a condition or after a signal are in
   queues. A signal hands the monitor to the first that waits there, and the signaller gets it back before anybody
   enters. Every call is recorded in a history. */
#ifndef HANDOVER_H
#define HANDOVER_H

#include <pthread.h>

enum { MOST_SEATS = 16, MOST_CONDITIONS = 3 };

enum verb { ENTER, ACT, LEAVE, WAIT, SIGNAL, RESUME };

struct event { unsigned char verb, seat, cond, next; unsigned arg; unsigned long reply; };

struct queue { int first, count, seats[MOST_SEATS]; };

static pthread_mutex_t lock = PTHREAD_MUTEX_INITIALIZER;
static pthread_cond_t wake[MOST_SEATS];
static int granted[MOST_SEATS], busy;
static struct queue entry, urgent, condition[MOST_CONDITIONS];
static struct event *history;
static unsigned long length;

static void join_queue(struct queue *q, int seat) { q->seats[(q->first + q->count++) % MOST_SEATS] = seat; }

static int leave_queue(struct queue *q) {
    int seat = q->seats[q->first];
    q->first = (q->first + 1) % MOST_SEATS;
    q->count--;
    return seat;
}

static void record(enum verb verb, int seat, int cond, int next, unsigned arg, unsigned long reply) {
    history[length++] = (struct event){verb, seat, cond, next, arg, reply};
}

static void await_grant(int seat) {
    while (!granted[seat])
        pthread_cond_wait(&wake[seat], &lock);
    granted[seat] = 0;
}

/* Hands the monitor to a thread, which has to be woken then. */
static void grant(int seat) { granted[seat] = 1; }

/* Hands the monitor to the next thread, if there is one, when the active thread gives it up. */
static int hand_over(void) {
    int next = urgent.count ? leave_queue(&urgent) : entry.count ? leave_queue(&entry) : -1;
    if (next < 0)
        busy = 0;
    else
        grant(next);
    return next;
}

static void wake_up(int seat) {
    if (seat >= 0)
        pthread_cond_signal(&wake[seat]);
}

static void enter(int seat) {
    pthread_mutex_lock(&lock);
    if (busy) {
        join_queue(&entry, seat);
        await_grant(seat);
    }
    busy = 1;
    record(ENTER, seat, 0, 0, 0, 0);
    pthread_mutex_unlock(&lock);
}

static void leave(int seat) {
    pthread_mutex_lock(&lock);
    int next = hand_over();
    record(LEAVE, seat, 0, next + 1, 0, 0);
    pthread_mutex_unlock(&lock);
    wake_up(next);
}

static void wait_on(int seat, int cond) {
    pthread_mutex_lock(&lock);
    join_queue(&condition[cond], seat);
    int next = hand_over();
    record(WAIT, seat, cond, next + 1, 0, 0);
    wake_up(next);
    await_grant(seat);
    record(RESUME, seat, 0, 0, 0, 0);
    pthread_mutex_unlock(&lock);
}

static void signal_on(int seat, int cond) {
    pthread_mutex_lock(&lock);
    int next = condition[cond].count ? leave_queue(&condition[cond]) : -1;
    record(SIGNAL, seat, cond, next + 1, 0, 0);
    if (next >= 0) {
        join_queue(&urgent, seat);
        grant(next);
        wake_up(next);
        await_grant(seat);
        record(RESUME, seat, 1, 0, 0, 0);
    }
    pthread_mutex_unlock(&lock);
}

/* Records an operation of the active thread, with the object's reply. */
static void act(int seat, int code, unsigned arg, unsigned long reply) { record(ACT, seat, code, 0, arg, reply); }

#endif
