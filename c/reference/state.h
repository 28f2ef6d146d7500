/* state.h - what the plain model of calls.c keeps of each monitor: its kind's rules, its seats, queues and events. */
#ifndef MONK_REFERENCE_STATE_H
#define MONK_REFERENCE_STATE_H

#include "monk.h"
#include <pthread.h>

enum { MOST_SEATS = 32, MOST_CONDITIONS = 8, NO_FILE = -1 };

/* A kind: its name, and the priority of each queue. */
typedef struct { const char *name; monk_mode mode; int entry, waiter, signaller; } rules;

typedef enum { ENTER, ACT, LEAVE, WAIT, SIGNAL, SIGNAL_LEAVE, UNTIL, RESUME, SIGNAL_ALL, SIGNAL_WAIT } verb;

/* What a release chose, and by which queue a seat comes in; only an enter has FREE and HANDED. */
typedef enum { NOBODY, STAY, ENTRY, WAITER, SIGNALLER, READY, FREE, HANDED } way;

typedef struct { uint8_t verb, seat, a, b, way, chosen; uint32_t bits; } event;

typedef struct { uint8_t first, count, seats[MOST_SEATS]; } queue;

struct monk_seat {
    monk_monitor *monitor;
    uint8_t number, place, due /* a way, or NOBODY */, flag, condition /* that it waits for */, wish;
    uint8_t taken, abandoned, calling, is_visitor;
    uint32_t left, broadcasts /* on its condition when its wait began */;
    uint64_t dice;
    int file /* an eventfd, or NO_FILE */;
    pthread_cond_t bell;
};

struct monk_monitor {
    pthread_mutex_t lock;
    int kind;
    const rules *rules;
    unsigned seat_count, conditions, flag_count;
    int stopped, closed;
    int holder;                             /* the seat that is inside or due, or -1: the monitor is free */
    uint32_t bits, broadcasts[MOST_CONDITIONS];
    queue entry, waiters, signallers, until, condition[MOST_CONDITIONS];
    event *events;
    size_t length;
    struct monk_seat seats[MOST_SEATS];
};

static inline void join(queue *q, int seat) { q->seats[(q->first + q->count++) % MOST_SEATS] = (uint8_t)seat; }

static inline int front(const queue *q) { return q->seats[q->first]; }

static inline int take_front(queue *q) {
    int seat = front(q);
    q->first = (uint8_t)((q->first + 1) % MOST_SEATS);
    q->count--;
    return seat;
}

static inline void take_out(queue *q, int seat) {
    for (int n = q->count; n > 0; n--) {
        int other = take_front(q);
        if (other != seat) join(q, other);
    }
}

static inline void record(monk_monitor *m, event e) {
    m->events[m->length++] = e;
    m->seats[e.seat].left--;
}

#endif
