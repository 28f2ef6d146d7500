/* What is known of threads, mutexes and conditions. Part of libmonk_log.c. */
#ifndef MONK_KNOWN_H
#define MONK_KNOWN_H

#include <pthread.h>
#include <sys/prctl.h>
#include <unistd.h>

#include "monk_sites.h"

enum {
    SEATS = 32, /* threads of one mutex, and its conditions: what the text of a log allows */
    CONDS = 8,
    WORDS = 1 << 22, /* of one log */
    WORDS_AT_FIRST = 64,
    WORDS_OF_ACT = 5,
    HELD = 64, /* mutexes that a thread holds at once, to know which it locked last */
    NAME_OF_THREAD = 16,
    /* the parts of the word of a line, the lowest first: the verb, the seat, the number of a condition, and the
     * place */
    SEAT_AT = 3,
    NUMBER_AT = SEAT_AT + 5,
    SITE_AT = NUMBER_AT + 8,
    BITS = 32
};
_Static_assert(SITE_AT + SITE_BITS <= BITS, "a line is one word");

enum verb { ENTER, RESUME, LAPSE, LEAVE, WAIT, SIGNAL, BROADCAST, ACT };

struct monitor;

/* A thread; after its end a new thread may take its place. */
struct thread {
    struct known known;
    unsigned long number, dice; /* which one it is, and the state of its dice (monk_shake.h) */
    unsigned calls_left, is_slow;
    struct monitor *held[HELD]; /* the mutexes that it holds, the last at the end; some may be another's by now */
    struct monitor *waits_with; /* the mutex of the wait that it is in */
    int depth, id, has_ended;
    char name[NAME_OF_THREAD];
};

struct condition {
    struct known known;
    _Atomic(struct monitor *) monitor; /* the one with which it was last waited on */
    atomic_ulong of;                   /* and that one's serial */
    atomic_int uses;                   /* by its place in the tree, and by logs */
    atomic_int is_gone;
    /* Held for each line of a wait on it, and for a signal from outside together with its call. */
    atomic_int order;
};

/* A signal or an unlock by a thread that doesn't hold the mutex: it comes before the word of the log at its place. */
struct outside {
    struct thread *thread;
    uint32_t place;
    uint8_t verb, number;
    uint16_t site;
};

/* The lines of a mutex. The thread that holds the mutex changes them, except what is atomic, and what has a lock. A
   line is one word. An act has four more words: its code, its argument, and its reply. */
struct log {
    struct known known;
    struct log *next;
    uint32_t *words;
    atomic_size_t length;
    size_t room, end; /* the end of the lines that are written */
    struct thread *seats[SEATS];
    int nconds, nseats, latest, latest_cond; /* the seat and the condition that were asked for last */
    int waits, waiting;            /* how many there were, and are */
    _Atomic(const char *) stopped; /* why no more lines are written, if so */
    atomic_int left_out;           /* signals from outside that it lacks */
    atomic_int order;              /* held to change what follows, or to read it without the mutex */
    struct condition *conds[CONDS];
    struct outside *outside;
    size_t noted, outside_room;
};

/* A mutex. Most have no conditions, and so no log. */
struct monitor {
    struct known known;
    _Atomic(struct thread *) owner;
    _Atomic(struct log *) log;
    int times;           /* how often its owner has locked it */
    unsigned entered_at; /* and where it did so first */
    atomic_int process;  /* the one that it was last locked in */
    atomic_int lost_one; /* a condition of it was destroyed */
};

static struct pool threads = {sizeof(struct thread), 0}, monitors = {sizeof(struct monitor), 0};
static struct pool conditions = {sizeof(struct condition), 0}, logs = {sizeof(struct log), 0};
static _Atomic(struct log *) all_logs;
static struct known *idle_logs; /* the logs that no mutex has */
static struct {
    atomic_int mutexes, stray_acts, without_memory;
    atomic_int left_out; /* signals from outside that belong to no log */
    atomic_ulong threads;
} seen;
/* no line is written any more */
static atomic_int closed;
static pthread_key_t end_of_thread;
static int has_key;
OF_THREAD struct thread *me;

/* ---- threads */

/* The mutex that a thread locked last, of those that it holds. */
static struct monitor *last_held(struct thread *thread) {
    while (thread->depth && atomic_load(&thread->held[thread->depth - 1]->owner) != thread)
        thread->depth--;
    return thread->depth ? thread->held[thread->depth - 1] : 0;
}

static void thread_ends(void *it) {
    struct thread *thread = it;
    if (last_held(thread) || thread != me)
        return;
    prctl(PR_GET_NAME, thread->name);
    thread->has_ended = 1;
    me = 0;
    give(&threads, &thread->known);
}

/* Libraries that begin before this one lock mutexes, and the first key is theirs. So the key is made only when it is
 * first needed. */
static void make_key(void) {
    if (!has_key)
        has_key = !pthread_key_create(&end_of_thread, thread_ends);
}

SELDOM static struct thread *meet_thread(void) {
    struct thread *thread = take(&threads, 0, 0);
    if (!thread)
        return 0;
    make_key();
    thread->number = atomic_fetch_add(&seen.threads, 1);
    thread->id = gettid();
    me = thread;
    if (has_key)
        pthread_setspecific(end_of_thread, thread);
    return thread;
}

static inline struct thread *self(void) { return me ? me : meet_thread(); }

/* ---- mutexes and conditions, by their addresses */

static void release(struct condition *it) {
    if (it && atomic_fetch_sub(&it->uses, 1) == 1)
        give(&conditions, &it->known);
}

/* Lines without a wait say nothing; others are kept to the end. */
static void close_log(struct monitor *m) {
    struct log *log = m->log;
    atomic_store(&m->log, 0);
    if (!log || log->waits || !take_order(&log->order))
        return;
    for (int i = 0; i < log->nconds; i++)
        release(log->conds[i]);
    memset(log->seats, 0, sizeof log->seats);
    memset(log->conds, 0, sizeof log->conds);
    log->nconds = log->nseats = log->latest = log->latest_cond = 0;
    log->length = 0;
    atomic_store(&log->stopped, NULL);
    atomic_fetch_add(&seen.left_out, atomic_exchange(&log->left_out, 0) + (int)log->noted);
    log->noted = 0;
    end_order(&log->order);
    lock_memory();
    log->known.next_free = idle_logs;
    idle_logs = &log->known;
    unlock_memory();
}

/* Puts `made` in place of `old`, or gives it back if `old` is gone. Returns what is there then, or null. */
static struct known *replace(place *at, void *old, void *made, struct pool *pool) {
    if (!made) {
        atomic_fetch_add(&seen.without_memory, 1);
        return 0;
    }
    if (atomic_compare_exchange_strong(at, &old, made))
        return made;
    give(pool, made);
    return old;
}

SELDOM static struct monitor *meet_mutex(place *at, void *old, const void *mutex, unsigned site) {
    struct known *it = replace(at, old, take(&monitors, mutex, site), &monitors);
    return it && it->address == mutex ? (struct monitor *)it : 0;
}

/* Null if there is no memory. */
static inline struct monitor *monitor_of(const void *mutex, unsigned site) {
    place *at = place_of(mutex);
    if (!at)
        return 0;
    struct known *there = atomic_load_explicit(at, memory_order_acquire);
    return there && there->address == mutex ? (struct monitor *)there : meet_mutex(at, there, mutex, site);
}

SELDOM static struct condition *meet_condition(place *at, void *old, const void *cond, unsigned site) {
    struct condition *made = take(&conditions, cond, site);
    if (made)
        made->uses = 1;
    struct known *it = replace(at, old, made, &conditions);
    return it && it->address == cond ? (struct condition *)it : 0;
}

static inline struct condition *condition_of(const void *cond, unsigned site) {
    place *at = place_of(cond);
    if (!at)
        return 0;
    struct known *there = atomic_load_explicit(at, memory_order_acquire);
    return there && there->address == cond ? (struct condition *)there : meet_condition(at, there, cond, site);
}

/* A mutex is made or destroyed: what was known of it belongs to another one. */
static void forget_mutex(const void *mutex) {
    place *at = place_of(mutex);
    struct monitor *m = at ? atomic_load(at) : 0;
    if (!m || m->known.address != mutex)
        return;
    atomic_store(at, 0);
    close_log(m);
    if (!atomic_load(&m->owner))
        give(&monitors, &m->known);
}

static void forget_condition(const void *cond) {
    place *at = place_of(cond);
    struct condition *c = at ? atomic_load(at) : 0;
    if (!c || c->known.address != cond)
        return;
    atomic_store(at, 0);
    atomic_store(&c->is_gone, 1);
    struct monitor *m = atomic_load(&c->monitor);
    if (m && atomic_load(&c->of) == m->known.serial)
        atomic_store(&m->lost_one, 1);
    release(c);
}

#endif
