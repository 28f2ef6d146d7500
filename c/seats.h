/* seats.h - what monk.c, calls.c and abandoned.c share: a monitor's seats and bells, its lock, and the frame of each
 * call. It isn't for programs. */
#ifndef MONK_SEATS_H
#define MONK_SEATS_H
#define _GNU_SOURCE
#include "looks.h"
#include "monk.h"
#include "monk_kernel.h"
#include <errno.h>
#include <linux/futex.h>
#include <stdatomic.h>
#include <stdlib.h>
#include <sys/syscall.h>
#include <time.h>
#include <unistd.h>

enum {
    MOST_SEATS = 32,
    MOST_CONDITIONS = 8,
    MOST_FLAGS = 32,
    MOST_BUDGET = 1 << 20,
    USUAL_BUDGET = 65536,
    BELLS = 2 * MOST_SEATS,     /* one for each word of a hall at which seats wait: 1 to 64 */
    LINE = 64,                  /* bytes that processors pass on together */
    LOOKS = 512,                /* how often a seat looks before it sleeps, for each visit that comes before its own:
                                   some 3 us, about as long as a thread takes to wake */
    INNER_LOOKS = 1024,         /* how often a seat looks that waits inside, for each seat: nobody knows when its turn
                                   comes, and each of the others may visit before, and come back */
    MOST_LOOKS = 4096,          /* some 20 us: a few times what a sleep costs */
    SHORT_LOOKS = 1024,         /* where looking doesn't pay: divided by the square of the number of seats */
    NOT_KNOWN = 0,              /* how many visits come before that of a seat inside */
    PATIENCE_MS = 1000,
    VISIT = 2,                  /* events that a visit needs: an enter and a leave */
    NOBODY = 0,                 /* the word that was granted if none was */
    NO_CONDITION = MOST_CONDITIONS,
    NO_FILE = -1
};

/* ThreadSanitizer doesn't see the kernel's atomic words: these calls say where one thread hands on to the next what
 * it did. The names are null in a program that is built without it. */
void __tsan_acquire(void *at) __attribute__((weak));
void __tsan_release(void *at) __attribute__((weak));

static inline void see_what_was_shown(void *at) {
    if (__tsan_acquire) __tsan_acquire(at);
}

static inline void show(void *at) {
    if (__tsan_release) __tsan_release(at);
}

/* Whether somebody has a seat. A lending is the time for which somebody has it; each has a number. */
typedef enum lent { FREE, TAKEN, ABANDONED, LENT_STATES } lent;

/* What the thread does that waits at a bell. */
typedef enum waiter { NONE, AWAKE, ASLEEP } waiter;

typedef struct bell {
    _Alignas(LINE) _Atomic uint32_t rings;
    _Atomic uint32_t waiter;            /* what its thread does; written by that thread alone, or 0 */
    _Atomic int file;                   /* an eventfd by which an event loop waits for this bell, plus 1; else 0 */
    _Atomic int is_minded;              /* its seat was abandoned: the library lets it come in, and leave */
} bell;

struct monk_seat {
    _Alignas(LINE) monk_monitor *monitor;
    monk_k_seat *token;
    uint64_t dice;
    bell *watched;                      /* at which an event loop waits for it */
    bell *bell;                         /* at which it waits, if it was abandoned; changed as `lent` is */
    _Atomic uint32_t lent;              /* LENT_STATES * lending + a lent; changed under the monitor's lock alone */
    _Atomic uint32_t left;              /* a copy of what the token says, as `place` is, for any thread */
    uint32_t broadcasts;                /* how many there had been on its condition when the wait began */
    int file;                           /* its eventfd, or NO_FILE */
    _Atomic uint8_t calling;            /* a call by this seat is under way */
    _Atomic int8_t place;
    uint8_t wish, number;
    uint8_t waits_on;                   /* the condition on which it waits, or NO_CONDITION */
    uint8_t is_visitor;                 /* lent to the library, for a look at the history; changed as `lent` is */
};
_Static_assert(sizeof(struct monk_seat) == LINE, "a seat has a line of its own, and no more");

struct monk_monitor {
    bell bells[BELLS];
    int kind;
    unsigned seat_count, flag_count;
    uint32_t bits;                              /* a copy of the flags, touched by the seat that is inside */
    uint32_t broadcasts[MOST_CONDITIONS];       /* how many there were on each condition, touched as `bits` is */
    _Atomic int stopped, closed;
    unsigned processors;                        /* that it may use */
    tally entry, inner;                         /* looks: of those whose turn to enter came next, and inside */
    _Atomic unsigned lent;                      /* how many seats are lent; changed under the lock */
    _Atomic uint32_t lock;                      /* for lending, and for abandoned seats that a release lets in */
    monk_seat *reader;                          /* the seat that closed it, through which the history is read */
    void *room;                                 /* memory of the tokens */
    monk_k_seat tokens[MOST_SEATS];
    struct monk_seat seats[MOST_SEATS];
};

/* ---- Bells: where threads sleep */

static inline void futex_wake(_Atomic uint32_t *at, int most) {
    syscall(SYS_futex, at, FUTEX_WAKE_PRIVATE, most, NULL, NULL, 0);
}

/* Sleeps if the number is still what was seen, until the limit, if there is one. 0 if the time is over. */
static inline int sleep_on(_Atomic uint32_t *at, uint32_t seen, const struct timespec *limit) {
    long slept = syscall(SYS_futex, at, FUTEX_WAIT_BITSET_PRIVATE, seen, limit, NULL, FUTEX_BITSET_MATCH_ANY);
    return slept == 0 || errno != ETIMEDOUT;
}

/* The bell of a word: each word has its own, because words count from 1 and there are two for each seat. */
static inline bell *bell_of(monk_monitor *m, size_t word) { return &m->bells[(word - 1) % BELLS]; }

/* Wakes at most that many threads that sleep there. A thread says that it is asleep, and then the system lets it sleep
 * if the bell hasn't rung since it looked. One that rings does that first, and then reads what the thread said. So it
 * finds a thread that falls asleep. */
static inline void wake(bell *b, int most) {
    if (atomic_load(&b->waiter) == ASLEEP) futex_wake(&b->rings, most);
}

/* Wakes at most that many threads that sleep there, and an event loop. (It doesn't use the C library's write, because
 * a thread could be cancelled in it.) */
static inline void ring_for(bell *b, int most) {
    atomic_fetch_add(&b->rings, 1);
    wake(b, most);
    int file = atomic_load(&b->file) - 1;
    if (file != NO_FILE) syscall(SYS_write, file, &(uint64_t){1}, sizeof(uint64_t));
}

/* The places of tickets are the odd words, in the order of their turns; after the last comes the first. */
static inline int is_for_entry(size_t word) { return word % 2 == 1; }

static inline size_t word_after(const monk_monitor *m, size_t word) {
    return word + 2 < 2 * (size_t)m->seat_count ? word + 2 : 1;
}

static inline size_t word_before(const monk_monitor *m, size_t word) {
    return word > 2 ? word - 2 : 2 * (size_t)m->seat_count - 1;
}

/* Whether there may be more threads than processors. One that looks would keep another from running. */
static inline int is_crowded(monk_monitor *m) {
    return atomic_load_explicit(&m->lent, memory_order_relaxed) > m->processors;
}

/* Wakes the thread that waits for that word. The kernel has granted it before. It also wakes the one whose turn to
 * enter comes next, so that it is awake by then: else each hand-over takes as long as a wake. */
static inline bell *ring(monk_monitor *m, size_t word) {
    bell *b = bell_of(m, word);
    ring_for(b, 1);
    if (is_for_entry(word) && !is_crowded(m) && (pays(&m->entry) || tries_again(&m->entry)))
        wake(bell_of(m, word_after(m, word)), 1);
    return b;
}

static inline void pause_processor(void) {
#if defined __x86_64__ || defined __i386__
    __builtin_ia32_pause();
#endif
}

/* How many visits come before that of the seat that waits for that word, or NOT_KNOWN. It counts those that wait right
 * before it, and may miss one. */
static inline unsigned visits_before(monk_monitor *m, size_t word) {
    if (!is_for_entry(word)) return NOT_KNOWN;
    unsigned visits = 1;
    for (size_t at = word_before(m, word); at != word; at = word_before(m, at)) {
        if (atomic_load_explicit(&bell_of(m, at)->waiter, memory_order_relaxed) == NONE) break;
        visits++;
    }
    return visits;
}

/* How often a thread looks before it sleeps, with so many visits before its own. */
static inline unsigned looks_for(monk_monitor *m, unsigned visits) {
    int is_worth_it = visits == NOT_KNOWN ? pays(&m->inner) || tries_again(&m->inner) : pays(&m->entry);
    if (is_crowded(m) || !is_worth_it) return SHORT_LOOKS / (m->seat_count * m->seat_count) + 1;
    unsigned looks = visits == NOT_KNOWN ? m->seat_count * INNER_LOOKS : visits * LOOKS;
    return looks < MOST_LOOKS ? looks : MOST_LOOKS;
}

/* Whether the bell rings within so many looks. */
static inline int rings_within(bell *b, uint32_t seen, unsigned looks) {
    for (; looks > 0; looks--) {
        if (atomic_load_explicit(&b->rings, memory_order_relaxed) != seen) return 1;
        pause_processor();
    }
    return 0;
}

/* Whether the bell for that word rings before its thread does better to sleep. */
static inline int rings_soon(monk_monitor *m, size_t word, uint32_t seen) {
    unsigned visits = visits_before(m, word);
    int rings = rings_within(bell_of(m, word), seen, looks_for(m, visits));
    if (!is_crowded(m) && visits <= 1) note_look(visits == NOT_KNOWN ? &m->inner : &m->entry, rings);
    return rings;
}

/* Sleeps until the bell rings, or until the limit. 0 if the time is over. */
static inline int sleep_at(bell *b, uint32_t seen, const struct timespec *limit) {
    atomic_store(&b->waiter, ASLEEP);
    int in_time = sleep_on(&b->rings, seen, limit);
    atomic_store_explicit(&b->waiter, AWAKE, memory_order_relaxed);
    return in_time;
}

/* The same, for the turn of a seat. If it took long though looking paid, it doesn't now. */
static inline int sleep_until_turn(monk_monitor *m, size_t word, uint32_t seen, const struct timespec *limit) {
    bell *b = bell_of(m, word);
    if (!is_for_entry(word) || is_crowded(m) || !pays(&m->entry)) return sleep_at(b, seen, limit);
    uint64_t since = now_ns();
    int in_time = sleep_at(b, seen, limit);
    note_sleep(&m->entry, since);
    return in_time;
}

/* ---- The monitor's lock. It isn't a mutex of the system, because a program may replace pthread_mutex_lock by
   something that records its own locks. */

enum { OPEN, LOCKED, WANTED };

static inline void lock(monk_monitor *m) {
    uint32_t was = OPEN;
    if (!atomic_compare_exchange_strong(&m->lock, &was, LOCKED))
        while (atomic_exchange(&m->lock, WANTED) != OPEN) sleep_on(&m->lock, WANTED, NULL);
    see_what_was_shown(&m->lock);
}

/* After the exchange the monitor may be freed: the wake uses only the address. */
static inline void unlock(monk_monitor *m) {
    show(&m->lock);
    if (atomic_exchange(&m->lock, OPEN) == WANTED) futex_wake(&m->lock, 1);
}

/* ---- Handles: what the program has for a seat. The lower bits are the seat's address, the upper ones (0 in a
   program's addresses) the number of the lending. So a handle that was given back isn't the next owner's. */

enum { ADDRESS_BITS = 48, LENDINGS = 1 << 16 };
_Static_assert(sizeof(void *) == sizeof(uint64_t), "a handle has room for a lending");

static inline monk_seat *seat_of(const monk_seat *handle) {
    return (monk_seat *)((uintptr_t)handle & (((uintptr_t)1 << ADDRESS_BITS) - 1));
}

static inline monk_seat *handle_of(monk_seat *s, uint32_t lending) {
    return (monk_seat *)((uintptr_t)s | (uintptr_t)lending << ADDRESS_BITS);
}

static inline lent lent_of(monk_seat *s) { return (lent)(atomic_load(&s->lent) % LENT_STATES); }

/* Under the lock. A seat that is lent becomes free or abandoned, or one that is abandoned free. */
static inline void set_lent(monk_seat *s, lent how) {
    if (lent_of(s) == TAKEN) atomic_fetch_sub(&s->monitor->lent, 1);
    atomic_store(&s->lent, atomic_load(&s->lent) / LENT_STATES * LENT_STATES + how);
}

/* Begins a lending, and returns its handle. Under the lock. */
static inline monk_seat *lent_anew(monk_seat *s) {
    uint32_t lending = (atomic_load(&s->lent) / LENT_STATES + 1) % LENDINGS;
    atomic_store(&s->lent, lending * LENT_STATES + TAKEN);
    atomic_fetch_add(&s->monitor->lent, 1);
    return handle_of(s, lending);
}

/* Whether the program has the seat by this handle. */
static inline int is_had_by(const monk_seat *handle) {
    return atomic_load(&seat_of(handle)->lent) == (uint32_t)((uintptr_t)handle >> ADDRESS_BITS) * LENT_STATES + TAKEN;
}

/* ---- The frame of each call */

/* Why no call may be made by this handle: MONK_CLOSED or MONK_NOT_NOW. MONK_OK if calls may be made. */
static inline int refused_to(const monk_seat *handle) {
    return atomic_load(&seat_of(handle)->monitor->closed) ? MONK_CLOSED : is_had_by(handle) ? MONK_OK : MONK_NOT_NOW;
}

/* Begins a call by the handle *s, before the kernel is asked; *s is the seat then. If it returns MONK_OK, the call is
 * under way until `end`. A handle that was given back is refused before the seat is touched, so that a call of the
 * seat's owner isn't MONK_IN_USE. */
static inline int begin(monk_seat **s) {
    monk_seat *handle = *s;
    if (!handle) return MONK_RANGE;
    *s = seat_of(handle);
    if (!is_had_by(handle)) return refused_to(handle);
    if (atomic_exchange(&(*s)->calling, 1)) return MONK_IN_USE;
    int answer = refused_to(handle);
    if (answer) atomic_store(&(*s)->calling, 0);
    return answer;
}

static inline int end(monk_seat *s, int answer) {
    atomic_store_explicit(&s->calling, 0, memory_order_release);
    return answer;
}

/* Notes where the seat is after a call that the kernel took, and how many events were recorded. */
static inline int noted(monk_seat *s, int answer, uint32_t recorded) {
    if (answer < 0) return answer;
    uint32_t left = atomic_load_explicit(&s->left, memory_order_relaxed);
    atomic_store_explicit(&s->place, (int8_t)answer, memory_order_relaxed);
    atomic_store_explicit(&s->left, left - recorded, memory_order_relaxed);
    return answer;
}

static inline int place_of(const monk_seat *s) { return atomic_load_explicit(&s->place, memory_order_relaxed); }

/* Before a release. A seat that isn't inside hands nothing on, because its call is refused. */
static inline void show_from_inside(const monk_seat *s) {
    if (place_of(s) == MONK_INSIDE) show(s->monitor);
}

/* For a call that doesn't return the seat's place: the place becomes MONK_OK. */
static inline int done(int answer) { return answer > 0 ? MONK_OK : answer; }

static inline uint8_t byte_of(unsigned number) { return number < UINT8_MAX ? (uint8_t)number : UINT8_MAX; }

static inline uint8_t wish_of(monk_seat *s) {
    if (s->wish != MONK_ANY) return s->wish;
    s->dice ^= s->dice << 13, s->dice ^= s->dice >> 7, s->dice ^= s->dice << 17;
    return (uint8_t)((s->dice >> 32) % MONK_ANY);
}

/* From now on a thread that grants the word of this waiting seat looks after it. Under the lock. */
static inline void mind(monk_seat *s) {
    s->bell = bell_of(s->monitor, monk_k_word(s->token));
    atomic_store(&s->bell->is_minded, 1);
}

/* The seat is nobody's any more. Under the lock. */
static inline void set_free(monk_seat *s) {
    if (s->bell) atomic_store(&s->bell->is_minded, 0);
    s->bell = NULL;
    set_lent(s, FREE);
}

/* ---- What follows a release */

/* Lets seats that were abandoned come in if it is their turn. Under the lock. */
void settle_abandoned(monk_monitor *m);

/* Wakes the thread that was let in, or settles its seat if it was abandoned. A thread that abandons a seat marks its
 * bell, then polls; one that releases grants, then reads the mark. So the poll finds the grant, or the release finds
 * the mark. */
static inline void let_in(monk_monitor *m, size_t word) {
    if (word == NOBODY || !atomic_load(&ring(m, word)->is_minded)) return;
    lock(m);
    settle_abandoned(m);
    unlock(m);
}

/* What follows a release. */
static inline int handed_on(monk_seat *s, int answer, size_t word) {
    if (answer < 0) return answer;
    noted(s, answer, 1);
    let_in(s->monitor, word);
    return answer;
}

/* No event loop waits for this seat any more. */
static inline void unwatch(monk_seat *s) {
    if (s->watched) atomic_store(&s->watched->file, 0);
    s->watched = NULL;
}

#endif
