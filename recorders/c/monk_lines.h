/* The lines of a mutex, written by the thread that holds it. Part of libmonk_log.c. */
#ifndef MONK_LINES_H
#define MONK_LINES_H

#include "monk_known.h"

/* The first reason stays. */
static void stop(struct log *log, const char *why) {
    const char *none = 0;
    atomic_compare_exchange_strong(&log->stopped, &none, why);
}

static inline int is_stopped(struct log *log) { return atomic_load_explicit(&log->stopped, memory_order_relaxed) != 0; }

static inline int is_closed(void) { return atomic_load_explicit(&closed, memory_order_relaxed); }

/* As the holder of the mutex sees it; another thread sees the same if a lock orders the two. */
static inline size_t length_of(struct log *log) { return atomic_load_explicit(&log->length, memory_order_relaxed); }

static inline void append(struct log *log, uint32_t word) {
    size_t at = length_of(log);
    log->words[at] = word;
    atomic_store_explicit(&log->length, at + 1, memory_order_relaxed);
}

static const char MORE_THREADS[] = "there are more than 32 threads, and a log has no more seats";
static const char MORE_CONDS[] = "there are more than 8 conditions, and a log has no more";
static const char NO_MEMORY[] = "there is no memory", TOO_LONG[] = "it is long enough";
static const char NO_ORDER[] = "a signal by a thread that did not hold the mutex took too long";

SELDOM static int find_seat(struct log *log, struct thread *thread) {
    for (int i = 0; i < log->nseats; i++)
        if (log->seats[i] == thread)
            return log->latest = i;
    if (log->nseats == SEATS) {
        stop(log, MORE_THREADS);
        return 0;
    }
    log->seats[log->nseats] = thread;
    return log->latest = log->nseats++;
}

static inline int seat_of(struct log *log, struct thread *thread) {
    return log->seats[log->latest] == thread ? log->latest : find_seat(log, thread);
}

/* While the log's order is held. The number of a condition that is gone is used again if there is no other. */
static int new_number(struct log *log, struct condition *c) {
    int number = log->nconds < CONDS ? log->nconds++ : 0;
    while (number < CONDS && log->conds[number] && !atomic_load(&log->conds[number]->is_gone))
        number++;
    if (number == CONDS) {
        stop(log, MORE_CONDS);
        return 0;
    }
    release(log->conds[number]);
    atomic_fetch_add(&c->uses, 1);
    log->conds[number] = c;
    return log->latest_cond = number;
}

SELDOM static int find_number(struct log *log, struct condition *c) {
    for (int i = 0; i < log->nconds; i++)
        if (log->conds[i] == c)
            return log->latest_cond = i;
    if (!take_order(&log->order)) {
        stop(log, NO_ORDER);
        return 0;
    }
    int number = new_number(log, c);
    end_order(&log->order);
    return number;
}

static inline int number_of(struct log *log, struct condition *c) {
    return log->conds[log->latest_cond] == c ? log->latest_cond : find_number(log, c);
}

SELDOM static int grow(struct log *log) {
    size_t room = log->room ? 2 * log->room : WORDS_AT_FIRST, size = sizeof *log->words;
    uint32_t *words = 0;
    if (!log->room)
        words = take_block(room * size);
    else if (log->room < WORDS)
        words = grow_block(log->words, length_of(log) * size, log->room * size, room * size);
    if (!words) {
        stop(log, log->room < WORDS ? NO_MEMORY : TOO_LONG);
        return 0;
    }
    log->words = words;
    log->room = room;
    return 1;
}

static inline int has_room(struct log *log, size_t more) { return length_of(log) + more <= log->room || grow(log); }

/* The lines before one that isn't written are a log too. */
static inline void put(struct log *log, struct thread *thread, enum verb verb, unsigned number, unsigned site) {
    if (!log || is_stopped(log) || is_closed())
        return;
    unsigned seat = (unsigned)seat_of(log, thread);
    if (!is_stopped(log) && has_room(log, 1))
        append(log, verb | seat << SEAT_AT | number << NUMBER_AT | site << SITE_AT);
}

/* An operation on what a mutex guards, as it is reported. */
struct act {
    unsigned code, arg, site;
    unsigned long reply;
};

static void put_act(struct log *log, struct thread *thread, struct act it) {
    if (!log || is_stopped(log) || !has_room(log, WORDS_OF_ACT))
        return;
    size_t before = length_of(log);
    put(log, thread, ACT, 0, it.site);
    if (length_of(log) == before)
        return;
    append(log, it.code);
    append(log, it.arg);
    append(log, (uint32_t)it.reply);
    append(log, (uint32_t)(it.reply >> 32));
}

SELDOM static struct log *new_log(const struct monitor *m) {
    lock_memory();
    struct known *idle = idle_logs;
    if (idle)
        idle_logs = idle->next_free;
    unlock_memory();
    if (idle) {
        *idle = m->known;
        return (struct log *)idle;
    }
    struct log *log = take(&logs, m->known.address, m->known.site);
    if (!log)
        return 0;
    log->next = atomic_load(&all_logs);
    while (!atomic_compare_exchange_weak(&all_logs, &log->next, log))
        ;
    return log;
}

/* What a mutex has from the process before a fork doesn't belong to this one. */
static inline void refresh(struct monitor *m) {
    if (atomic_load_explicit(&m->process, memory_order_relaxed) == process)
        return;
    atomic_store(&m->log, 0);
    atomic_store(&m->process, process);
    atomic_fetch_add_explicit(&seen.mutexes, 1, memory_order_relaxed);
}

/* The memory may be that of another mutex by now, though nobody has destroyed the one before, as in C++. It is taken
   for another if all the conditions of a log were destroyed, and nobody waits. */
SELDOM static void renew(struct monitor *m) {
    struct log *log = m->log;
    atomic_store(&m->lost_one, 0);
    if (!log || log->waiting)
        return;
    for (int i = 0; i < log->nconds; i++)
        if (!atomic_load(&log->conds[i]->is_gone))
            return;
    close_log(m);
}

/* The log of a mutex that its caller holds; it begins when more than coming in and leaving is reported. */
SELDOM static struct log *begin_log(struct monitor *m, struct thread *thread) {
    struct log *log = new_log(m);
    if (!log)
        return 0;
    atomic_store(&m->log, log);
    if (atomic_load(&m->owner) == thread)
        put(log, thread, ENTER, 0, m->entered_at);
    return log;
}

/* The log that a mutex has, if it has one. */
static inline struct log *present_log(struct monitor *m) { return atomic_load_explicit(&m->log, memory_order_relaxed); }

static inline struct log *log_of(struct monitor *m, struct thread *thread) {
    struct log *log = present_log(m);
    return log ? log : begin_log(m, thread);
}

#endif
