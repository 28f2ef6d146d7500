/* Signals by threads that don't hold the mutex, and unlocks. Part of libmonk_log.c. Such a signal has to come after
   the `wait` of a thread that it serves and before its `resume`. So the condition's order is held while the signal is
   noted and sent, and while these lines are written. The signal is no line yet, because other threads write lines
   meanwhile without any lock. It is noted with its place, and gets its seat when the log is written. So a thread that
   is never inside takes no seat from another. */
#ifndef MONK_OUTSIDE_H
#define MONK_OUTSIDE_H

#include "monk_lines.h"

enum { NOTED_AT_FIRST = 16, MOST_NOTED = 1 << 20 };

/* ---- while the program runs */

/* While the log's order is held. A log that can't have the signal ends before it. */
static int has_outside_room(struct log *log) {
    size_t room = log->outside_room ? 2 * log->outside_room : NOTED_AT_FIRST, size = sizeof *log->outside;
    struct outside *outside = 0;
    if (log->noted < log->outside_room)
        return 1;
    if (!log->outside_room)
        outside = take_block(room * size);
    else if (room <= MOST_NOTED)
        outside = grow_block(log->outside, log->noted * size, log->outside_room * size, room * size);
    if (!outside) {
        stop(log, room <= MOST_NOTED ? NO_MEMORY : TOO_LONG);
        return 0;
    }
    log->outside = outside;
    log->outside_room = room;
    return 1;
}

/* The number that the condition has in the log, or -1. While the log's order is held. */
static int known_number(const struct log *log, const struct condition *c) {
    for (int i = log->nconds - 1; i >= 0; i--)
        if (log->conds[i] == c)
            return i;
    return -1;
}

/* A signal to one or to all, and from where. */
struct signal {
    enum verb verb;
    unsigned site;
};

/* While the log's order is held; the log may be another mutex's by then. */
static void note_in(struct log *log, struct monitor *m, struct condition *c, struct thread *thread, struct signal it) {
    int number = present_log(m) == log ? known_number(log, c) : -1;
    if (number < 0 || is_stopped(log) || !has_outside_room(log)) {
        atomic_fetch_add(&seen.left_out, 1);
        return;
    }
    struct outside *noted = &log->outside[log->noted++];
    *noted = (struct outside){thread, (uint32_t)length_of(log), (uint8_t)it.verb, (uint8_t)number, (uint16_t)it.site};
}

/* A thread unlocks a mutex that another holds. */
static void note_leave(struct log *log, struct thread *thread, unsigned site) {
    if (!take_order(&log->order)) {
        stop(log, NO_ORDER);
        return;
    }
    if (!is_stopped(log) && has_outside_room(log)) {
        struct outside *noted = &log->outside[log->noted++];
        *noted = (struct outside){thread, (uint32_t)length_of(log), LEAVE, 0, (uint16_t)site};
    }
    end_order(&log->order);
}

/* The log of a mutex that isn't held, or null. (What a mutex has from before a fork isn't this process's.) */
static struct log *log_beside(struct monitor *m) {
    return m && atomic_load(&m->process) == process ? atomic_load(&m->log) : 0;
}

/* A lock that is needed can't be got. A log that can't have the signal ends before it. */
static void give_up(struct log *log) {
    if (log)
        stop(log, NO_ORDER);
    atomic_fetch_add(&seen.left_out, 1);
}

/* While the condition's order is held; m is the mutex with which somebody has waited on it last, or null. A thread
   that waits with that mutex is inside: only its signal handler can come here. */
static void note(struct monitor *m, struct condition *c, struct thread *thread, struct signal it) {
    struct log *log = log_beside(m);
    if (!log)
        atomic_fetch_add(&seen.left_out, 1);
    else if (thread->waits_with == m)
        atomic_fetch_add(&log->left_out, 1);
    else if (!take_order(&log->order))
        give_up(log);
    else {
        note_in(log, m, c, thread, it);
        end_order(&log->order);
    }
}

/* A wait that was refused has not let the mutex go, so its line is still the last. Signals that came meanwhile are
 * put before it. */
SELDOM static void take_back(struct log *log, size_t before) {
    if (!take_order(&log->order)) {
        stop(log, NO_ORDER);
        return;
    }
    atomic_store(&log->length, before);
    for (size_t i = log->noted; i > 0 && log->outside[i - 1].place > before; i--)
        log->outside[i - 1].place = (uint32_t)before;
    end_order(&log->order);
}

/* ---- when the log is written */

/* How many of what is noted are unlocks. */
static int count_unlocks(const struct log *log) {
    int unlocks = 0;
    for (size_t i = 0; i < log->noted; i++)
        unlocks += log->outside[i].verb == LEAVE;
    return unlocks;
}

static int seat_at_the_end(struct log *log, const struct thread *thread) {
    for (int i = 0; i < log->nseats; i++)
        if (log->seats[i] == thread)
            return i;
    return -1;
}

/* Whether the thread has a seat, or gets one that is left. */
static int gets_seat(struct log *log, struct thread *thread) {
    if (seat_at_the_end(log, thread) >= 0)
        return 1;
    if (log->nseats == SEATS)
        return 0;
    log->seats[log->nseats++] = thread;
    return 1;
}

/* Signals of threads that get no seat are left out. */
static void seat_outsiders(struct log *log) {
    size_t kept = 0;
    for (size_t i = 0; i < log->noted; i++) {
        if (gets_seat(log, log->outside[i].thread))
            log->outside[kept++] = log->outside[i];
        else
            atomic_fetch_add(&log->left_out, 1);
    }
    log->noted = kept;
}

#endif
