/* layer_known.h - what the layer knows: threads, monitors and their seats, conditions. Part of libmonk_pthread.c. */
#ifndef LAYER_KNOWN_H
#define LAYER_KNOWN_H

#include "layer_settings.h"
#include <limits.h>
#include <linux/futex.h>
#include <sched.h>
#include <stdatomic.h>
#include <sys/auxv.h>
#include <sys/mman.h>
#include <sys/syscall.h>

enum {
    NUMBERS = 31, /* the seats by which threads come */
    STEWARD = 31, /* the last seat: for a look at the history, and for a renewal if ghosts have all numbers */
    SEATS = 32,
    CONDITIONS = 8,
    SLOT_BITS = 14,
    SLOTS = 1 << SLOT_BITS, /* of a table */
    CHUNK = 1 << 16,        /* bytes that are asked for at once */
    LIVE = 1 << 30,         /* of a thread's uses, while it lives */
    NONE = -1               /* no number, no condition */
};

/* Where a seat is, by its number, which it keeps from hall to hall. A ghost is a seat without a thread. */
enum standing { AWAY, AT_THE_ENTRY, INSIDE, WAITS, SERVED, SIGNALS, GHOST_WAITS, GHOST_SERVED, GHOST_LATE };

/* Of a thread in a run by turns (layer_turns.h). A thread OUTSIDE has lost its turn, and one that is OVER has ended. */
enum turn_state { RUNS, BLOCKS, OUTSIDE, OVER };

struct thread;

struct turn {
    _Atomic uint32_t has; /* it has the turn; until then it sleeps on this word */
    int is_member, state;
    int (*may_go_on)(struct thread *); /* whether what it waits for is there */
    const void *what;
    int is_of_others; /* what it waits for may come from another process */
    int64_t until;    /* when its time is over */
    int may_end; /* a cancelled thread may end where it sleeps */
    int is_late, is_joined, answer, ends;
    long priority;
    unsigned points; /* at which it might have lost the turn */
};

struct thread {
    struct thread *next, *next_idle;
    struct turn turn;
    const char *_Atomic does; /* its last call that might sleep, and where that was */
    const void *_Atomic at;
    void *(*work)(void *); /* of a thread that is made by turns */
    void *word;
    pthread_t self;
    _Atomic pid_t id;
    unsigned index;   /* in the order in which threads made their first call */
    int numbers;      /* those that it has, and didn't give back itself; touched by the thread alone */
    _Atomic int uses; /* LIVE, less what others gave back for it; after its end the numbers that it still has */
    _Atomic int is_cancelled, has_ended;
    _Atomic int sleeps;       /* in a wait that has no limit: it wakes at times to look whether it is cancelled */
    const void *_Atomic from; /* where its last wait was called */
    const void *wait_of_cpp;  /* where std::condition_variable was asked to wait, which calls from its own library */
    const void *not_there;    /* a place of waits that isn't the one that was asked for */
    uint64_t dice;
};

/* One monitor of the library, with all its seats: a volume of a monitor of the program. */
struct hall {
    monk_monitor *monitor;
    monk_seat *seats[SEATS];
    struct hall *next;
    unsigned volume;
    uint32_t budget;
};

struct place {
    _Atomic int standing, condition;
    struct hall *_Atomic used; /* the hall that a thread may be using by this number: nobody frees it */
    struct hall *_Atomic home; /* the hall where the number is now */
    struct thread *_Atomic who;
    uint64_t ticket;  /* of waits, in the order in which they began */
    int is_signaller; /* of a ghost: it signalled, and is to come back in */
};

/* The beginning of what is known of an address. Its memory is never used for another kind of thing, because a thread
   may look at it late. */
struct known {
    const void *_Atomic address;
};

/* A mutex of the program on whose conditions threads wait. Only the seat that is inside touches what isn't atomic. */
struct monitor {
    struct known known;
    struct monitor *next; /* in the list of every monitor that ever was */
    _Atomic int lock;     /* for ghosts, and for renewal */
    struct hall *_Atomic hall;
    struct hall *retired;
    struct place places[SEATS];
    _Atomic uint32_t free; /* the numbers that nobody has */
    _Atomic int wanting;   /* threads that sleep until a number is free */
    _Atomic int has_steward;
    _Atomic int inside; /* the number of the thread that is inside, or NONE */
    struct thread *_Atomic owner;
    _Atomic int due; /* ghosts that are to come in and leave */
    _Atomic int has_pending;
    _Atomic int64_t pending[CONDITIONS]; /* signals by threads that were outside, and above them broadcasts */
    const void *_Atomic conditions[CONDITIONS];
    int serial, depth;
    const void *first_wait; /* where the first wait with it was called; null: none was */
    enum { NO_NAMES, HAS_NAMES, LOST_NAMES } names; /* of the file that this process writes */
    _Atomic int has_stepped_down; /* its mutex is what it was: nobody uses it again */
    int transit;  /* seats that were served or signalled, and aren't back inside */
    int deferred; /* the condition that an immediate-return kind signals as it goes out, or NONE */
    int wants_renewal;
    uint64_t tickets;
    _Atomic int is_dead; /* the mutex was destroyed: its histories are written */
    _Atomic unsigned long steps;
    _Atomic long volumes, timeouts, passed_on, taken_over, outside, late_renewals;
};

struct condition {
    struct known known;
    struct monitor *_Atomic of;
    _Atomic int number;
    struct condition *next_idle;
};

struct table {
    struct known *_Atomic slots[SLOTS];
    _Atomic int lock, count;
};

static struct table monitors, conditions;
static struct monitor *_Atomic every_monitor;
static struct thread *_Atomic every_thread;
static struct condition *idle_conditions;
static struct thread *idle_threads;
static _Atomic int room_lock, thread_lock;
static _Atomic unsigned thread_count;
static _Atomic int serials;
static _Atomic int waits_left_alone;
static pthread_key_t thread_key;
static __thread __attribute__((tls_model("initial-exec"))) struct thread *me;

__attribute__((noreturn, format(printf, 1, 2))) static void refuse(const char *format, ...);

/* ---- Names: the file of an address, and where in it. monk-try makes names of the source from them. */

struct name {
    char text[LONGEST_PATH];
};

/* The loader calls the program by the first of its words, which needn't be a path. */
static const char *path_of(const char *file) {
    return strchr(file, '/') ? file : (const char *)getauxval(AT_EXECFN);
}

static struct name name_of(const void *address) {
    struct name name;
    Dl_info in;
    if (address && dladdr(address, &in) && in.dli_fname)
        snprintf(name.text, sizeof name.text, "%s+%#lx", path_of(in.dli_fname),
                 (unsigned long)((uintptr_t)address - (uintptr_t)in.dli_fbase));
    else
        snprintf(name.text, sizeof name.text, "%p", address);
    return name;
}

__attribute__((noreturn, format(printf, 2, 3))) static void refuse_of(struct monitor *m, const char *format, ...) {
    char line[LONGEST_LINE];
    va_list words;
    va_start(words, format);
    vsnprintf(line, sizeof line, format, words);
    va_end(words);
    struct name mutex = name_of(m->known.address), wait = name_of(m->first_wait);
    if (m->first_wait) refuse("the mutex %s, whose first wait is at %s: %s", mutex.text, wait.text, line);
    refuse("the mutex %s: %s", mutex.text, line);
}

/* ---- The layer's own locks, and memory that is never given back */

static inline void take(_Atomic int *lock) {
    while (atomic_exchange_explicit(lock, 1, memory_order_acquire)) real.yield();
}

static inline void let(_Atomic int *lock) { atomic_store_explicit(lock, 0, memory_order_release); }

/* The thread that takes over what was lent, or comes in later, sees the store. Not everybody sees it at once, unlike
   a plain store to an atomic. */
#define store(object, value) atomic_store_explicit(&(object), value, memory_order_release)

/* Fresh memory, all zero. It doesn't come from malloc, whose locks may be those that the layer replaces. */
static void *room_for(size_t size) {
    static char *chunk;
    static size_t left;
    size = (size + 63) / 64 * 64;
    take(&room_lock);
    if (size > left) {
        chunk = mmap(NULL, CHUNK, PROT_READ | PROT_WRITE, MAP_PRIVATE | MAP_ANONYMOUS, -1, 0);
        left = chunk == MAP_FAILED ? 0 : CHUNK;
    }
    void *room = left ? chunk : NULL;
    if (left) chunk += size, left -= size;
    let(&room_lock);
    if (!room) refuse("no memory is left");
    return room;
}

/* ---- Tables. Readers take no lock. */

static struct known gravestone;

static inline size_t slot_of(const void *address) {
    return (size_t)(((uintptr_t)address >> 3) * 0x9e3779b97f4a7c15u >> (64 - SLOT_BITS));
}

static inline size_t slot_after(size_t slot) { return (slot + 1) % SLOTS; }

static inline struct known *find(struct table *t, const void *address) {
    for (size_t slot = slot_of(address);; slot = slot_after(slot)) {
        struct known *k = atomic_load_explicit(&t->slots[slot], memory_order_acquire);
        if (!k || atomic_load_explicit(&k->address, memory_order_relaxed) == address) return k;
    }
}

/* Under the table's lock. Returns 0 if the table is full: half of it is used. */
static int insert(struct table *t, struct known *k) {
    if (t->count >= SLOTS / 2) return 0;
    size_t slot = slot_of(k->address);
    while (t->slots[slot] && t->slots[slot] != &gravestone) slot = slot_after(slot);
    t->slots[slot] = k;
    t->count++;
    return 1;
}

/* Gravestones before an empty slot lead nowhere. Under the table's lock. */
static void sweep(struct table *t, size_t slot) {
    if (t->slots[slot_after(slot)]) return;
    for (; t->slots[slot] == &gravestone; slot = (slot + SLOTS - 1) % SLOTS) t->slots[slot] = NULL;
}

/* Under the table's lock. */
static void take_out(struct table *t, struct known *k) {
    size_t slot = slot_of(k->address);
    while (t->slots[slot] != k) slot = slot_after(slot);
    t->slots[slot] = &gravestone;
    t->count--;
    sweep(t, slot);
}

static inline struct monitor *monitor_of(const void *mutex) { return (struct monitor *)find(&monitors, mutex); }

static inline struct condition *condition_of(const void *address) {
    return (struct condition *)find(&conditions, address);
}

/* What is known of a condition, which is known from now on. */
static struct condition *make_condition(const void *address) {
    take(&conditions.lock);
    struct condition *c = condition_of(address);
    int is_new = !c;
    if (is_new && (c = idle_conditions)) idle_conditions = c->next_idle;
    if (!c) c = room_for(sizeof *c);
    if (is_new) atomic_store(&c->known.address, address);
    int has_room = !is_new || insert(&conditions, &c->known);
    let(&conditions.lock);
    if (!has_room) refuse("the program waits on more than %d conditions", SLOTS / 2);
    return c;
}

/* From now on the condition is unknown. Returns whether anybody ever waited on it with a monitor. */
static int forget_condition(const void *address) {
    if (!condition_of(address)) return 0;
    take(&conditions.lock);
    struct condition *c = condition_of(address);
    if (c) {
        take_out(&conditions, &c->known);
        atomic_store(&c->of, NULL);
        c->next_idle = idle_conditions, idle_conditions = c;
    }
    let(&conditions.lock);
    return c != NULL;
}

/* ---- Threads */

static struct thread *new_thread(void) {
    take(&thread_lock);
    struct thread *t = idle_threads;
    if (t) idle_threads = t->next_idle;
    let(&thread_lock);
    if (t) return t;
    t = room_for(sizeof *t);
    t->next = atomic_load(&every_thread);
    while (!atomic_compare_exchange_weak(&every_thread, &t->next, t)) continue;
    return t;
}

/* A thread that will call the layer. */
static struct thread *expect_thread(void) {
    struct thread *t = new_thread();
    t->index = atomic_fetch_add(&thread_count, 1);
    t->dice = asked.seed * 0x9e3779b97f4a7c15u + (t->index + 1) * 0xbf58476d1ce4e5b9u + 1;
    t->is_cancelled = t->sleeps = t->has_ended = 0;
    t->from = t->not_there = t->wait_of_cpp = NULL;
    t->numbers = 0;
    t->uses = LIVE;
    t->turn = (struct turn){0};
    t->does = NULL;
    t->at = NULL;
    return t;
}

/* By the thread itself. (One that runs by turns has its name from its maker.) */
static void be(struct thread *t) {
    t->id = (pid_t)syscall(SYS_gettid);
    me = t;
    pthread_setspecific(thread_key, t);
}

__attribute__((noinline, cold)) static struct thread *first_call(void) {
    struct thread *t = expect_thread();
    t->self = pthread_self();
    be(t);
    return t;
}

static inline struct thread *self(void) { return me ? me : first_call(); }

/* A record without a use is another thread's next. */
static void change_uses(struct thread *t, int change) {
    if (atomic_fetch_add(&t->uses, change) + change) return;
    take(&thread_lock);
    t->next_idle = idle_threads, idle_threads = t;
    let(&thread_lock);
}

static void drop_number(struct thread *t) {
    if (t == me)
        t->numbers--;
    else
        change_uses(t, -1);
}

static void leave_turns(struct thread *t);

/* A thread that runs by turns ends after what others have to do at its end. */
static void thread_ends(void *it) {
    struct thread *t = it;
    if (t->turn.is_member && t->turn.ends++ < PTHREAD_DESTRUCTOR_ITERATIONS - 2) {
        pthread_setspecific(thread_key, t);
        return;
    }
    if (t->turn.is_member) leave_turns(t);
    t->has_ended = 1;
    me = NULL;
    change_uses(t, t->numbers - LIVE);
}

#endif
