/* layer_turns.h - runs that repeat. Only the thread that has the turn runs between calls. At each call, and wherever a
   thread would sleep, the turn goes on, and layer_schedule.h chooses to whom. Time passes by turns too: it jumps to the
   next limit once nobody else can go on. A thread that sleeps where the layer doesn't see it, or runs on without a
   call, loses its turn after a while: then the run doesn't repeat, and if it happens often, all threads run freely.
   Part of libmonk_pthread.c. */
#ifndef LAYER_TURNS_H
#define LAYER_TURNS_H

#include "layer_schedule.h"

enum { STEP_NS = 1000, A_SECOND_NS = 1000000000, MOST_LOST = 40, COST_OF_SPIN = 30 };

#define NEVER INT64_MAX

static struct {
    _Atomic int lock, is_over; /* all run freely */
    struct thread *_Atomic holder;
    struct thread *members[MOST_MEMBERS];
    int count;
    _Atomic int64_t now;   /* since the start, in nanoseconds */
    _Atomic int64_t ahead; /* of the system's clocks, when turns were over */
    _Atomic unsigned long steps;
    _Atomic int lost, cost;
    char where[LONGEST_LINE]; /* the turn was lost first */
    struct timespec began[2]; /* by the system's clock and by the monotonic one */
} turns;

/* Whether the turn decides when the thread runs. */
static inline int is_by_turns(const struct thread *t) {
    return __builtin_expect(asked.turns, 0) && !turns.is_over && t && t->turn.is_member;
}

static void wake_by_turn(struct thread *t) {
    atomic_store(&t->turn.has, 1);
    syscall(SYS_futex, &t->turn.has, FUTEX_WAKE_PRIVATE, 1, NULL, NULL, 0);
}

/* From now on all threads run freely. Under the lock. */
static void end_turns(void) {
    struct timespec now;
    real.clock_gettime(CLOCK_MONOTONIC, &now);
    int64_t passed = (now.tv_sec - turns.began[1].tv_sec) * (int64_t)A_SECOND_NS + now.tv_nsec - turns.began[1].tv_nsec;
    turns.ahead = turns.now > passed ? turns.now - passed : 0;
    turns.is_over = 1;
    for (int i = 0; i < turns.count; i++) wake_by_turn(turns.members[i]);
}

/* Whether the thread may have the turn. What it waits for is asked until it holds, and then not again. Under the lock,
   as all that follows. */
static int is_able(struct thread *t) {
    if (t->turn.state != BLOCKS) return t->turn.state == RUNS;
    int is_ending = t->turn.may_end && t->is_cancelled;
    if (is_ending || (t->turn.may_go_on && t->turn.may_go_on(t))) t->turn.state = RUNS;
    return t->turn.state == RUNS;
}

/* Whether a thread is outside, or waits for what others than threads do: they may come back before any limit. */
static int is_outside(const struct thread *t) {
    return t->turn.state == OUTSIDE || (t->turn.state == BLOCKS && t->turn.is_of_others);
}

/* If nobody is able, the one whose time is over first; the time jumps to it. */
static struct thread *sleeper(void) {
    struct thread *first = NULL;
    int has_outside = 0;
    for (int i = 0; i < turns.count; i++) {
        struct thread *t = turns.members[i];
        int sleeps = t->turn.state == BLOCKS && t->turn.until != NEVER;
        if (sleeps && (!first || t->turn.until < first->turn.until)) first = t;
        has_outside |= is_outside(t);
    }
    if (!first || (first->turn.until > turns.now && has_outside)) return NULL;
    if (first->turn.until > turns.now) turns.now = first->turn.until;
    first->turn.state = RUNS, first->turn.is_late = 1;
    return first;
}

static struct thread *next_holder(struct thread *self) {
    struct thread *able[MOST_MEMBERS];
    int count = 0;
    if (self && self->turn.state == RUNS && goes_on_itself(self, turns.steps)) return self;
    for (int i = 0; i < turns.count; i++)
        if (is_able(turns.members[i])) able[count++] = turns.members[i];
    return count ? chosen(self, able, count) : sleeper();
}

/* The turn goes on; to the thread itself, if it is chosen. */
static void hand_on(struct thread *self) {
    turns.now += STEP_NS;
    if (self) self->turn.points++;
    struct thread *next = next_holder(self);
    turns.steps += next != NULL;
    turns.holder = next;
    if (self) self->turn.has = next == self;
    if (next && next != self) wake_by_turn(next);
}

/* ---- By the threads themselves */

static void await_turn(struct thread *t) {
    while (!t->turn.has && !turns.is_over) syscall(SYS_futex, &t->turn.has, FUTEX_WAIT_PRIVATE, 0, NULL, NULL, 0);
}

/* The thread's state says whether it can go on. A thread that lost its turn queues for it again. Under the lock, which
   is given back. */
static void hand_on_and_wait(struct thread *t) {
    int error = errno;
    if (turns.holder == t || !turns.holder) hand_on(t);
    let(&turns.lock);
    await_turn(t);
    errno = error;
}

/* Others may go first. */
static void pass(struct thread *t) {
    take(&turns.lock);
    t->turn.state = RUNS;
    hand_on_and_wait(t);
}

/* Before a call, which another thread's call may then precede. */
static void give_turn(struct thread *t, const char *does, const void *at) {
    t->does = does;
    t->at = at;
    pass(t);
}

enum waited { LATE, MAY_GO_ON, FREELY };

static void be_watched(void); /* layer_ends.h: the watcher asks those again who wait for others */

/* Gives the turn up until the thread may go on (null: it can't before its time), or its time is over. FREELY: turns
   are over, and the thread has to wait as if there were none. */
static enum waited sleep_by_turns(struct thread *t, int (*may_go_on)(struct thread *), const void *what,
                                  int64_t until) {
    be_watched();
    take(&turns.lock);
    t->turn.may_go_on = may_go_on, t->turn.what = what, t->turn.until = until;
    t->turn.is_late = 0;
    t->turn.state = BLOCKS;
    hand_on_and_wait(t);
    if (turns.is_over) return FREELY;
    return t->turn.is_late ? LATE : MAY_GO_ON;
}

/* The same at a point where a thread that was cancelled may end. */
static enum waited sleep_or_end(struct thread *t, int (*may_go_on)(struct thread *), const void *what, int64_t until) {
    t->turn.may_end = 1;
    enum waited how = sleep_by_turns(t, may_go_on, what, until);
    t->turn.may_end = 0;
    return how;
}

/* Those with lower priorities come first. */
static void yield_turn(struct thread *t) {
    take(&turns.lock);
    if (asked.turns == BY_PRIORITIES) t->turn.priority = --schedule.lowest;
    let(&turns.lock);
}

/* A thread that is made, by its maker who has the turn; or the first one. */
static void become_member(struct thread *t) {
    take(&turns.lock);
    if (turns.count == MOST_MEMBERS) end_turns();
    t->turn = (struct turn){.is_member = !turns.is_over, .priority = first_priority()};
    if (!turns.is_over) turns.members[turns.count++] = t;
    let(&turns.lock);
}

static void leave_turns(struct thread *t) {
    int i = 0;
    take(&turns.lock);
    while (i < turns.count && turns.members[i] != t) i++;
    if (i < turns.count) {
        memmove(&turns.members[i], &turns.members[i + 1], (size_t)(--turns.count - i) * sizeof *turns.members);
        t->turn.state = OVER;
        if (turns.holder == t) hand_on(t);
    }
    let(&turns.lock);
}

static void begin_turns(void) {
    struct thread *t = self();
    if (!asked.turns) return;
    read_schedule();
    real.clock_gettime(CLOCK_REALTIME, &turns.began[0]), real.clock_gettime(CLOCK_MONOTONIC, &turns.began[1]);
    become_member(t);
    t->turn.has = 1;
    turns.holder = t;
}

/* In a child, which has one thread. */
static void begin_turns_in_child(struct thread *t) {
    turns.lock = 0;
    for (int i = 0; i < turns.count; i++)
        if (turns.members[i] != t) turns.members[i]->turn.state = OVER;
    turns.count = 0;
    if (!is_by_turns(t)) return;
    turns.members[turns.count++] = t;
    t->turn.has = 1;
    turns.holder = t;
}

/* ---- By the watcher */

/* Whether the system says that the thread sleeps. (A read of a disk, a page or a vfork ends by itself: D, not S.) */
static int sleeps_in_system(pid_t id) {
    char path[64], text[256] = "";
    snprintf(path, sizeof path, "/proc/self/task/%d/stat", (int)id);
    int file = open(path, O_RDONLY | O_CLOEXEC);
    ssize_t length = file == NONE ? NONE : read(file, text, sizeof text - 1);
    if (file != NONE) close(file);
    const char *state = length > 0 ? strrchr(text, ')') : NULL;
    return state && state[1] == ' ' && state[2] == 'S';
}

static int has_others(const struct thread *holder) {
    for (int i = 0; i < turns.count; i++) {
        struct thread *t = turns.members[i];
        if (t != holder && (is_able(t) || (t->turn.state == BLOCKS && t->turn.until != NEVER))) return 1;
    }
    return 0;
}

/* The holder has made no call for a while. Under the lock. */
static void lose_turn(struct thread *t, int is_asleep) {
    if (!has_others(t)) return;
    if (!turns.lost++)
        snprintf(turns.where, sizeof turns.where, "%u %s %s %s", t->index, is_asleep ? "sleeps" : "spins",
                 t->does ? t->does : "begins", name_of(t->at).text);
    turns.cost += is_asleep ? 1 : COST_OF_SPIN;
    t->turn.state = OUTSIDE, t->turn.has = 0;
    if (turns.cost > MOST_LOST)
        end_turns();
    else
        hand_on(NULL);
}

enum { TURN_TICK_NS = 2000000, SLEEPING_TICKS = 10, SPINNING_NS = 1000000000 };

/* Whether nobody has the turn, and no thread outside, no limit and no other process gives it to anybody. */
static int are_stuck(void) {
    if (!asked.turns || turns.is_over) return 0;
    take(&turns.lock);
    int is_stuck = turns.count > 0;
    for (int i = 0; i < turns.count; i++) {
        const struct thread *t = turns.members[i];
        is_stuck &= t->turn.state == BLOCKS && t->turn.until == NEVER && !is_outside(t);
    }
    let(&turns.lock);
    return is_stuck;
}

/* Whether a thread waits for a pipe or a socket: another process may be at its other end. */
static int waits_for_others(void) {
    int found = 0;
    if (!asked.turns || turns.is_over) return 0;
    take(&turns.lock);
    for (int i = 0; i < turns.count; i++)
        found |= turns.members[i]->turn.state == BLOCKS && turns.members[i]->turn.is_of_others;
    let(&turns.lock);
    return found;
}

enum { OF_A_THREAD = 6 }; /* in the number of a clock of Linux: its processor time, as the scheduler counts it */

static void pass_time(void) {
    turns.now += TURN_TICK_NS;
    if (turns.count) hand_on(NULL);
}

/* The processor time of a thread: others may keep it from the processor for long. */
static int64_t used_by(pid_t id) {
    struct timespec used = {0};
    real.clock_gettime((clockid_t)(~(unsigned)id << 3 | OF_A_THREAD), &used);
    return used.tv_sec * (int64_t)A_SECOND_NS + used.tv_nsec;
}

/* At each tick. The turn is lost by a holder that sleeps, or has run for long; if nobody has it, others are asked
   again. Time outside passes as it does. */
static void look_at_turns(void) {
    static unsigned long seen;
    static int asleep;
    static int64_t since;
    if (!asked.turns || turns.is_over) return;
    take(&turns.lock);
    struct thread *t = turns.holder;
    int64_t used = t ? used_by(t->id) : 0;
    if (turns.steps != seen) asleep = 0, since = used;
    seen = turns.steps;
    asleep = t && sleeps_in_system(t->id) ? asleep + 1 : 0;
    if (!t) pass_time();
    if (t && (asleep > SLEEPING_TICKS || used - since > SPINNING_NS)) {
        lose_turn(t, asleep > SLEEPING_TICKS);
        asleep = 0, since = used;
    }
    let(&turns.lock);
}

static void tell_turns(struct output *file) {
    if (!asked.turns) return;
    put_line(file, "turns %lu lost %d missed %d\n", turns.steps, turns.lost, schedule.missed);
    if (turns.lost) put_line(file, "unrepeatable %s\n", turns.where);
}

/* ---- Time */

/* The clocks that stand still while nobody has a turn. */
static int clock_index(clockid_t clock) {
    switch (clock) {
    case CLOCK_REALTIME:
    case CLOCK_REALTIME_COARSE:
        return 0;
    case CLOCK_MONOTONIC:
    case CLOCK_MONOTONIC_RAW:
    case CLOCK_MONOTONIC_COARSE:
    case CLOCK_BOOTTIME:
        return 1;
    default:
        return NONE;
    }
}

static struct timespec later(struct timespec time, int64_t ns) {
    time.tv_sec += ns / A_SECOND_NS, time.tv_nsec += ns % A_SECOND_NS;
    if (time.tv_nsec >= A_SECOND_NS) time.tv_sec++, time.tv_nsec -= A_SECOND_NS;
    return time;
}

/* The time as the program sees it. */
static int time_by_turns(clockid_t clock, struct timespec *now) {
    int index = clock_index(clock);
    if (index != NONE && now && is_by_turns(me)) {
        *now = later(turns.began[index], atomic_fetch_add(&turns.now, STEP_NS));
        return 0;
    }
    int answer = real.clock_gettime(clock, now);
    if (!answer && now && index != NONE && turns.ahead) *now = later(*now, turns.ahead);
    return answer;
}

/* Now, by the clock of limits: what sleeps by turns has the program's, and what sleeps in the system that of the
   system. */
static struct timespec time_of_limits(void) {
    struct timespec now;
    if (is_by_turns(me))
        time_by_turns(CLOCK_MONOTONIC, &now);
    else
        real.clock_gettime(CLOCK_MONOTONIC, &now);
    return now;
}

/* When the limit is over, by turns. */
static int64_t limit_by_turns(clockid_t clock, const struct timespec *until) {
    const struct timespec *began = &turns.began[clock_index(clock)];
    if (until->tv_sec - began->tv_sec > INT32_MAX) return NEVER;
    int64_t ns = (until->tv_sec - began->tv_sec) * (int64_t)A_SECOND_NS + until->tv_nsec - began->tv_nsec;
    return ns < 0 ? 0 : ns;
}

#endif
