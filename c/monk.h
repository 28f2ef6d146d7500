/* monk.h - monitors of ten kinds, after Buhr, Fortier and Coffin (ACM Computing Surveys 27(1), 1995), for C11 and C++.
 *
 * The same monitor code runs under Hoare's rules (MONK_PB), Mesa's (MONK_NPNB) and eight others: the kind is an
 * argument. Each run records its history, a text that `monk audit`, `monk explain` and `monk draw` read.
 *
 *     monk_monitor *m;                                     monk_seat *s;          // one seat for each thread
 *     monk_shape shape = { .kind = MONK_PB, .seats = 5, .conditions = 2, .budget = 10000 };
 *     monk_make(&m, &shape);                               monk_take_seat(m, &s);
 *
 *     int put(int item) {                                  // by Hoare's rules an `if` will do; by Mesa's write `while`
 *         monk_enter(s);
 *         if (count == SIZE) monk_wait(s, NOT_FULL);
 *         buffer[(first + count++) % SIZE] = item;
 *         monk_signal(s, NOT_EMPTY);
 *         return monk_leave(s);
 *     }
 *
 * WHERE A SEAT IS. A thread uses a monitor by a seat. The seat is in one of three places: OUTSIDE; WAITING, for entry
 * or on a queue inside; or INSIDE. At most one seat is inside. Each call says from which place it may be made.
 *
 * ANSWERS. A call that waits returns MONK_OK (0) once the seat is where the call leads. A call that doesn't wait, but
 * may leave the seat waiting, returns the seat's place, above 0. An error is below 0. After it NOTHING HAS CHANGED and
 * nothing was recorded: the seat and the monitor are as they were. There are three exceptions. MONK_STOPPED comes
 * after the call was taken. A look at the history (below) that answers MONK_BUSY has a seat that waits on; and one that
 * answers MONK_IO or MONK_MEMORY has made its visit, which the history keeps.
 * If several errors apply, the call returns the first in this order: IN_USE, CLOSED, NOT_OF_KIND, RANGE, NOT_NOW,
 * SPENT. But a null pointer is RANGE before all these, and a seat that was given back is NOT_NOW right after CLOSED.
 *
 * THREADS. One thread at a time uses a seat. The seat may pass to another thread between two calls. While a call by a
 * seat is under way, a second one returns MONK_IN_USE. Any thread may make all other calls at any time. The next
 * thread inside sees what a thread did to its data while its seat was inside: the monitor orders memory as a mutex
 * does. So does a stop for the threads that it sends home, and a seat that is given back for the thread that takes it
 * next. ThreadSanitizer sees this order.
 *
 * WHAT IS PROVED of the library (not of reference/, a plain model of it): that at most one seat is inside, that every
 * call that was taken is in the history exactly once, that the history is legal for the kind, and that every release
 * chooses by the kind's priorities; for every kind, number of seats and schedule. NOT PROVED: the C part, which sleeps,
 * wakes, lends seats and writes files; that a thread wakes, progress, fairness, time; your data, which the monitor
 * doesn't know; and that your flags are right.
 *
 * NOT OFFERED. No call is safe in a signal handler. A signal that arrives while a call waits doesn't end the call
 * (none returns EINTR). pthread_cancel doesn't either: a thread that is cancelled while it waits comes in when its
 * turn comes, and ends at its next cancellation point. It may be inside then, so it needs a clean-up handler that
 * calls monk_abandon. monk_save writes to a stream, and is such a point. A thread must not leave a call by asynchronous
 * cancellation or siglongjmp: its seat would be MONK_IN_USE, and monk_free MONK_BUSY, for ever. After fork() the child
 * must not call the library for monitors that were made before. A monitor lives in one process. To be sure that you
 * won't deadlock, make no call while the thread has a seat inside another monitor: a wait gives up only its own
 * monitor.
 */
#ifndef MONK_H
#define MONK_H

#include <stddef.h>
#include <stdint.h>
#include <stdio.h>
#include <time.h>

#ifdef __cplusplus
extern "C" {
#endif

#define MONK_VERSION 0x010000        /* 1.0.0; monk_version() is the version of the library that is linked */

typedef struct monk_monitor monk_monitor;
typedef struct monk_seat monk_seat;      /* a pointer to it names a lending of a seat, not where the seat is kept */

/* ---- Kinds ------------------------------------------------------------------------------------------------------- */

/* In a P kind, callers at the entry come after all who wait inside. In an NP kind, they tie with the lowest of
 * these. */
typedef enum monk_kind {
    MONK_PB, MONK_NPB,               /* blocking: a signal hands the monitor over (Hoare) */
    MONK_PNB, MONK_NPNB,             /* non-blocking: the signaller goes on (NPNB: Mesa, POSIX, Java) */
    MONK_PQB, MONK_NPQB,             /* quasi-blocking: either goes on */
    MONK_PIR, MONK_NPIR,             /* immediate return: a signal is the way out */
    MONK_PIS, MONK_NPIS              /* automatic: no signals, threads wait until a flag is set */
} monk_kind;

typedef enum monk_mode {
    MONK_BLOCKING, MONK_NON_BLOCKING, MONK_QUASI_BLOCKING, MONK_IMMEDIATE_RETURN, MONK_AUTOMATIC
} monk_mode;

int monk_kind_named(const char *name);           /* "PB" gives MONK_PB; MONK_RANGE if there is none */
const char *monk_kind_name(int kind);            /* "PB"; NULL if there is none */
int monk_mode_of(int kind);                      /* a monk_mode; MONK_RANGE */

/* ---- Answers ----------------------------------------------------------------------------------------------------- */

enum {
    MONK_OK = 0,
    MONK_OUTSIDE = 1, MONK_WAITING = 2, MONK_INSIDE = 3,      /* places */

    MONK_NOT_NOW = -1,       /* the seat is in a place from which the call can't be made */
    MONK_SPENT = -2,         /* the seat has too few events left: it can still leave */
    MONK_NOT_OF_KIND = -3,   /* monitors of this kind have no such call */
    MONK_RANGE = -4,         /* a kind, number of seats, condition, flag, budget or time out of range; a null pointer */
    MONK_MEMORY = -5,        /* a request for memory was refused */
    MONK_NO_SEAT = -6,       /* every seat is taken */
    MONK_BUSY = -7,          /* seats are still taken, or the monitor didn't become free in time */
    MONK_IN_USE = -8,        /* another thread is in a call by this seat */
    MONK_STOPPED = -9,       /* monk_stop: the call was taken, but the seat is not in; it still waits */
    MONK_CLOSED = -10,       /* the monitor is closed */
    MONK_IO = -11            /* a file could not be written, or made: errno says why */
};

const char *monk_strerror(int answer);           /* one line for each answer; never NULL */
uint32_t monk_version(void);                     /* 0xMMmmpp */
const char *monk_build(void);                    /* "kernel proved, KIT, commit .." or "reference, not proved" */

/* ---- Making and ending ------------------------------------------------------------------------------------------- */

typedef struct monk_shape {
    int kind;                /* a monk_kind */
    unsigned seats;          /* 1 to 32: one for each thread, and one more to look at a run that hangs */
    unsigned conditions;     /* 0 to 8 */
    unsigned flags;          /* 0 to 32 */
    uint32_t budget;         /* events of each seat, 2 to 2^20; 0: 65536. monk_make takes memory for seats * budget */
    uint64_t seed;           /* for the wish MONK_ANY */
} monk_shape;

/* Makes a monitor; sets *m on MONK_OK alone. MONK_RANGE, MONK_MEMORY. Later only texts of histories take memory. */
int monk_make(monk_monitor **m, const monk_shape *shape);

/* Ends all waiting, from any thread: each call that waits returns MONK_STOPPED, and from now on a call that would
 * have to wait returns it at once. The seat that is inside goes on, so a stopped monitor still has a legal history.
 * Use it if a run hangs, a test failed, or a seat is spent: the threads come home and give up their seats by
 * monk_abandon. */
int monk_stop(monk_monitor *m);

/* Closes the monitor: the lowest seat with two events left comes in, and stays. From then on every call by a seat
 * returns MONK_CLOSED, and the history is complete. MONK_BUSY while a seat is taken, or an abandoned one still waits;
 * MONK_SPENT if no seat has two events left; MONK_CLOSED the second time. */
int monk_close(monk_monitor *m);

/* Frees it, closed or not. MONK_BUSY while a seat is taken: nothing is freed. NULL is nothing to free: MONK_OK. */
int monk_free(monk_monitor *m);

int monk_kind_of(const monk_monitor *m);

/* ---- Seats ------------------------------------------------------------------------------------------------------- */

/* Takes, of the seats that nobody has, the one with most events left, and of several such the lowest. So threads that
 * come and go use up all seats alike. MONK_NO_SEAT if none is free; MONK_SPENT if no free seat has two events left. */
int monk_take_seat(monk_monitor *m, monk_seat **s);

/* Gives back a seat that is outside. Its events stay counted. The pointer is no seat any more: every call by it
 * returns MONK_NOT_NOW and disturbs nobody, even if somebody else has taken the seat. (Each 65,536th lending of a
 * seat has the same pointer.) */
int monk_give_seat(monk_seat *s);

/* Gives a seat back wherever it is, for a thread that ends or an error path. A seat that is inside leaves. A waiting
 * one keeps its place, comes in when its turn comes, and leaves at once: the library does that in some thread's next
 * release, and the history has it. So an abandoned seat never keeps the monitor. Nobody can take it before it is
 * outside. It doesn't keep a signal either: if one serves it, and others still wait on its condition, it signals the
 * condition before it leaves (in immediate-return kinds as it leaves). After a broadcast, which served all, it
 * doesn't. The signal needs as many events as monk_signal (or monk_signal_leave): a seat with fewer leaves without
 * it. */
int monk_abandon(monk_seat *s);

unsigned monk_seat_number(const monk_seat *s);   /* as in the history */
int monk_place(const monk_seat *s);              /* MONK_OUTSIDE, _WAITING, _INSIDE; _NOT_NOW if it was given back */
uint32_t monk_left(const monk_seat *s);          /* events that it has left: each call below says how many it needs */

/* Sets whom the seat's releases prefer if the kind's priorities leave it open (in NP and Q kinds), until it is set
 * again. At first it is MONK_WAITER. A wish for entry counts only if somebody is known to wait for entry. MONK_ANY
 * throws dice at each release: it soon shows what a program may not rely on. */
typedef enum monk_wish { MONK_ENTRY, MONK_WAITER, MONK_SIGNALLER, MONK_ANY } monk_wish;
int monk_set_wish(monk_seat *s, int wish);

/* ---- Calls ------------------------------------------------------------------------------------------------------- */
/* The last column: events that must be left, and events made.      from      to       kinds           needs, makes */
int monk_enter(monk_seat *s);                                  /* outside   inside   all                   2, 1 */
int monk_leave(monk_seat *s);                                  /* inside    outside  all                   1, 1 */

/* Waits on a condition until a signal serves the seat and its turn comes. */
int monk_wait(monk_seat *s, unsigned condition);               /* inside    inside   all but automatic     3, 2 */

/* Serves the first who waits on the condition. If nobody does, nothing happens, and nothing is kept for later. The
 * caller is always inside when it returns. Non-blocking kinds: it returns at once, and the caller never left.
 * Blocking kinds: if somebody was served, that thread goes on first, and the call BLOCKS until the caller has the
 * monitor again. What held before may not hold after it: signal last, or test again. Quasi-blocking kinds: either. */
int monk_signal(monk_seat *s, unsigned condition);             /* inside    inside   B, NB, QB             3, 1 or 2 */

/* Serves all who wait on the condition, in order; the caller goes on. */
int monk_broadcast(monk_seat *s, unsigned condition);          /* inside    inside   non-blocking          2, 1 */

/* Signals and leaves, even if nobody waits: the way out of the immediate-return kinds. */
int monk_signal_leave(monk_seat *s, unsigned condition);       /* inside    outside  immediate return      1, 1 */

/* Signals the first condition and then waits on the second, as one. */
int monk_signal_wait(monk_seat *s, unsigned condition, unsigned wait_condition);
                                                               /* inside    inside   immediate return      3, 2 */

/* Sets the flags: flag p is bit p. Automatic kinds judge by them who may go on. A thread that changed what a flag
 * stands for sets the flags before it leaves or waits. All flags are 0 at first. A monitor without flags answers
 * MONK_RANGE. In other kinds flags are data in the history. */
int monk_set_flags(monk_seat *s, uint32_t bits);               /* inside    inside   all                   2, 1 */

/* Goes on at once if the flag is set; else waits until it is set and the seat's turn has come. No other thread has been
 * inside between the release that chose it and its return, so the flag is still set. */
int monk_wait_until(monk_seat *s, unsigned flag);              /* inside    inside   automatic             3, 1 or 2 */

/* Returns how many wait on a condition; sets *bits to the flags. Both from inside. */
int monk_waiting(monk_seat *s, unsigned condition);
int monk_flags(monk_seat *s, uint32_t *bits);

/* For code that runs under all ten kinds, if its condition n and its flag n stand for the same. monk_pause is
 * monk_wait or monk_wait_until. monk_finish lets one who pauses on n go on, and leaves: it is monk_signal and
 * monk_leave, monk_signal_leave, or monk_leave. */
int monk_pause(monk_seat *s, unsigned n);                      /* inside    inside   all */
int monk_finish(monk_seat *s, unsigned n);                     /* inside    outside  all */

/* ---- The same without waiting ------------------------------------------------------------------------------------ */
/* For event loops, time limits, and tests that fix the order of steps. Each returns the seat's place: MONK_INSIDE or
 * MONK_WAITING. monk_poll or monk_await ends the waiting. monk_enter is monk_arrive and monk_await, and so on. A seat
 * whose turn has come keeps the monitor from everybody until it is polled: poll it, or abandon it. */
int monk_arrive(monk_seat *s);                                 /* outside   waiting */
int monk_poll(monk_seat *s);                                   /* waiting   inside, or waiting */
int monk_start_wait(monk_seat *s, unsigned condition);         /* inside    waiting */
int monk_start_signal(monk_seat *s, unsigned condition);       /* inside    inside or waiting */
int monk_start_signal_wait(monk_seat *s, unsigned condition, unsigned wait_condition);   /* inside  waiting */
int monk_start_wait_until(monk_seat *s, unsigned flag);        /* inside    inside or waiting */

/* Waits until the seat is inside, for that time at most (below 0: as long as it takes). MONK_INSIDE; MONK_WAITING if
 * the time is over, and then the seat waits on, at its place in its queue; MONK_STOPPED. */
int monk_await(monk_seat *s, long milliseconds);

/* As monk_await, until a time of the clock CLOCK_MONOTONIC. A time that is over is as 0 milliseconds. MONK_RANGE if a
 * part of it is below 0, or the nanoseconds are 10^9 or more. */
int monk_await_until(monk_seat *s, const struct timespec *time);

/* As monk_await with 0 milliseconds. If the answer is MONK_WAITING, *file is a descriptor that becomes readable when
 * this wait ends, by the seat's turn or a stop. It may become readable earlier. So call this again then, and at each
 * new wait. It is only for poll, epoll and the like: don't read it. Each seat has one, which stays open until
 * monk_free, so take it out of your set before you give the seat back. MONK_IO if the wait goes on and the system has
 * no file left: the seat waits on. */
int monk_wait_fd(monk_seat *s, int *file);

/* monk_arrive and monk_await as one call.                                             outside   inside, or waiting */
int monk_enter_within(monk_seat *s, long milliseconds);

/* ---- The history ------------------------------------------------------------------------------------------------- */
/* The text of all events up to now, in version 3 of monk's format: header `monk 3 KIND SEATS CONDITIONS flags FLAGS`
 * (without flags: `flags 1`, and that flag is never set). It is legal at every moment, however the run ends.
 *
 * A seat that is inside may read it (`by`). If `by` is NULL, any thread may. A closed monitor is read at once. Else
 * the library makes a visit, by a seat that nobody has (two events of it in the history), and waits for its turn for
 * one second at most: MONK_NO_SEAT, MONK_SPENT, or MONK_BUSY if its turn didn't come because the seat that is inside
 * doesn't leave. A stop doesn't end this wait. After MONK_BUSY the visit's seat waits on, and the next look uses it
 * and no other. If a run hangs because all threads wait, the monitor is free, so with one spare seat its history can
 * always be read. If a thread hangs inside, only that thread can read it. */

/* Puts the text into memory, with a 0 at the end that *length doesn't count; free() it. */
int monk_history(monk_monitor *m, monk_seat *by, char **text, size_t *length);

/* Writes the text to a stream, and flushes it. MONK_IO if that fails: a part may be written then, and errno says why.
 * It is EINTR if a handler without SA_RESTART ran while the stream blocked. */
int monk_save(monk_monitor *m, monk_seat *by, FILE *to);

#ifdef __cplusplus
}
#endif
#endif
