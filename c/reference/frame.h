/* frame.h - the frame of every call of the plain model: it takes the lock, refuses, and wakes who is due. */
#ifndef MONK_REFERENCE_FRAME_H
#define MONK_REFERENCE_FRAME_H

#include "scheduler.h"
#include <sys/syscall.h>
#include <unistd.h>

/* Why a call from `place` that needs `wants` events is refused. */
static inline int refusal(const monk_seat *s, int place, uint32_t wants) {
    if (s->place != place) return MONK_NOT_NOW;
    return s->left < wants ? MONK_SPENT : MONK_OK;
}

/* Whether the program has the seat. */
static inline int is_had(const monk_seat *s) { return s->taken && !s->abandoned; }

static inline int begin(monk_seat *s) {
    if (!s) return MONK_RANGE;
    pthread_mutex_lock(&s->monitor->lock);
    int answer = s->calling ? MONK_IN_USE : s->monitor->closed ? MONK_CLOSED : MONK_OK;
    if (!answer && !is_had(s)) answer = MONK_NOT_NOW;
    if (answer) pthread_mutex_unlock(&s->monitor->lock);
    return answer;
}

/* Wakes the event loop that waits for a seat, under the lock because after it the monitor may be freed. */
static inline void write_file(const monk_seat *s) {
    if (s->file != NO_FILE) syscall(SYS_write, s->file, &(uint64_t){1}, sizeof(uint64_t));
}

/* Ends a call: settles who goes on, and wakes that seat. */
static inline int end(monk_seat *s, int answer) {
    monk_monitor *m = s->monitor;
    int due = answer > MONK_OK ? settle(m) : -1;
    int wakes = due >= 0 && due != s->number;
    if (wakes) write_file(&m->seats[due]);
    pthread_mutex_unlock(&m->lock);
    if (wakes) pthread_cond_signal(&m->seats[due].bell);
    return answer;
}

static inline int mode_of(const monk_seat *s) { return (int)s->monitor->rules->mode; }

static inline int is_explicit(const monk_seat *s) { return mode_of(s) <= MONK_QUASI_BLOCKING; }

static inline int in_conditions(const monk_seat *s, unsigned c) { return c < s->monitor->conditions; }

#endif
