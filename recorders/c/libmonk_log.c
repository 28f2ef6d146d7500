/* Records what the threads of an unmodified program do with each mutex of pthreads or C11 on whose conditions they
   wait.

       gcc -O2 -shared -fPIC -o libmonk_log.so libmonk_log.c -ldl -lpthread
       MONK_LOG=PREFIX LD_PRELOAD=./libmonk_log.so PROGRAM ..

   When the program ends, the logs are written into PREFIX.1, PREFIX.2, .. (no file is written over), one for each mutex
   with a wait, and beside each the names in it, PREFIX.1.names. The last line on standard error says what was seen. A
   child that is forked writes PREFIX.PID.1, .. . The thread that holds the mutex writes a line. So the lines have the
   order in which things happened. For that, signals by other threads and the lines of waits need a lock of the
   recorder's own (monk_outside.h). MONK_OBJECT is the end of the first line, `buffer 1` if it isn't set. After
   MONK_SECONDS the logs are written and the program is ended with status 124, for programs that hang. With
   MONK_SHAKE=SEED threads let others go first at random.

   The parts: monk_order.h, locks; monk_memory.h, what is known of an address; monk_sites.h, where in the program a
   call is; monk_known.h, threads, mutexes and conditions; monk_lines.h, the lines; monk_holds.h, who holds what;
   monk_outside.h, signals by threads that don't hold the mutex; monk_files.h and monk_ends.h, how all are written at
   the end; monk_outputs.h, files; monk_real.h, the system's functions; monk_shake.h. recorders/README.md says what the
   recorder can't see. */
#define _GNU_SOURCE
#include "monk_ends.h"
#include "monk_holds.h"

/* ---- acts, which the program reports (monk_log.h) */

static void tell_act(struct monitor *m, struct act it) {
    if (holds(me, m))
        put_act(log_of(m, me), me, it);
    else
        atomic_fetch_add(&seen.stray_acts, 1);
}

void monk_log_act(unsigned code, unsigned arg, unsigned long reply) {
    tell_act(me ? last_held(me) : 0, (struct act){code, arg, CALLER, reply});
}

void monk_log_act_of(const void *mutex, unsigned code, unsigned arg, unsigned long reply) {
    unsigned site = CALLER;
    tell_act(monitor_of(mutex, site), (struct act){code, arg, site, reply});
}

/* ---- what replaces the functions of pthreads and C11 for mutexes */

/* Calls the system's function, between what has to be noted before and after. */
#define LOCKS(name, field, parameters, arguments) \
    int name parameters {                               \
        init();                                         \
        shake();                                        \
        return entered(mutex, real.field arguments, CALLER); \
    }

LOCKS(pthread_mutex_lock, lock, (pthread_mutex_t * mutex), (mutex))
LOCKS(pthread_mutex_trylock, trylock, (pthread_mutex_t * mutex), (mutex))
LOCKS(pthread_mutex_timedlock, timedlock, (pthread_mutex_t * mutex, const struct timespec *until), (mutex, until))
LOCKS(pthread_mutex_clocklock, clocklock,
      (pthread_mutex_t * mutex, clockid_t clock, const struct timespec *until), (mutex, clock, until))
LOCKS(mtx_lock, mtx_lock, (mtx_t * mutex), (mutex))
LOCKS(mtx_trylock, mtx_trylock, (mtx_t * mutex), (mutex))
LOCKS(mtx_timedlock, mtx_timedlock, (mtx_t * mutex, const struct timespec *until), (mutex, until))

int pthread_mutex_unlock(pthread_mutex_t *mutex) {
    init();
    shake();
    leave(mutex, CALLER);
    return real.unlock(mutex);
}

int mtx_unlock(mtx_t *mutex) {
    init();
    shake();
    leave(mutex, CALLER);
    return real.mtx_unlock(mutex);
}

int pthread_mutex_init(pthread_mutex_t *mutex, const pthread_mutexattr_t *attributes) {
    init();
    forget_mutex(mutex);
    return real.init(mutex, attributes);
}

int mtx_init(mtx_t *mutex, int type) {
    init();
    forget_mutex(mutex);
    return real.mtx_init(mutex, type);
}

int pthread_mutex_destroy(pthread_mutex_t *mutex) {
    init();
    int result = real.destroy(mutex);
    if (!result)
        forget_mutex(mutex);
    return result;
}

void mtx_destroy(mtx_t *mutex) {
    init();
    forget_mutex(mutex);
    real.mtx_destroy(mutex);
}

/* ---- and for conditions */

/* A wait: what it is given, and what is known of it while it lasts. */
struct wait {
    enum { PLAIN, TIMED, CLOCK, OF_C11, TIMED_OF_C11 } form;
    void *cond, *mutex;
    unsigned site;
    const struct timespec *until;
    clockid_t clock;
    struct monitor *monitor;
    struct condition *condition; /* null if there is no memory for what is known */
    struct thread *thread;
    int times;
    size_t before; /* how long the log was */
};

static int call_wait(const struct wait *it) {
    switch (it->form) {
    case TIMED:
        return real.timedwait(it->cond, it->mutex, it->until);
    case CLOCK:
        return real.clockwait(it->cond, it->mutex, it->clock, it->until);
    case OF_C11:
        return real.cnd_wait(it->cond, it->mutex);
    case TIMED_OF_C11:
        return real.cnd_timedwait(it->cond, it->mutex, it->until);
    default:
        return real.wait(it->cond, it->mutex);
    }
}

/* Begins a line of a wait: it is written while the condition's order is held, so that it is on the right side of each
   signal. Returns whether the order was got; a log that doesn't get it ends. */
static int begin_line(struct condition *c, struct log *log) {
    int has_order = take_order(&c->order);
    if (log && !has_order)
        stop(log, NO_ORDER);
    return has_order;
}

static void end_line(struct condition *c, int has_order) {
    if (has_order)
        end_order(&c->order);
}

/* The line comes last, right before the wait itself: a signal of another thread that comes between them finds
 * nobody. */
static void begin_wait(struct wait *it) {
    struct monitor *m = it->monitor = monitor_of(it->mutex, it->site);
    struct condition *c = condition_of(it->cond, it->site);
    struct thread *thread = it->thread = self();
    if (!m || !c || !thread)
        return;
    it->condition = c;
    refresh(m);
    it->times = holds(thread, m) ? m->times : 1;
    struct log *log = log_of(m, thread);
    unsigned number = log ? number_of(log, c) : 0;
    thread->waits_with = m;
    let_go(m, thread);
    int has_order = begin_line(c, log);
    atomic_store(&c->monitor, m);
    atomic_store(&c->of, m->known.serial);
    if (log) {
        log->waits++;
        log->waiting++;
        it->before = length_of(log);
        put(log, thread, WAIT, number, it->site);
    }
    end_line(c, has_order);
}

static void end_wait(struct wait *it, enum verb verb, int was_refused) {
    struct condition *c = it->condition;
    if (!c)
        return;
    struct log *log = present_log(it->monitor);
    hold(it->monitor, it->thread, it->times);
    it->thread->waits_with = 0;
    if (log && log->waiting)
        log->waiting--;
    if (log && was_refused) {
        take_back(log, it->before);
        return;
    }
    int has_order = begin_line(c, log);
    put(log, it->thread, verb, 0, it->site);
    end_line(c, has_order);
}

/* The thread is cancelled while it waits; it has the mutex again. */
static void cancelled(void *it) { end_wait(it, LAPSE, 0); }

static int wait_by(struct wait it) {
    int result;
    init();
    shake();
    begin_wait(&it);
    pthread_cleanup_push(cancelled, &it);
    result = call_wait(&it);
    pthread_cleanup_pop(0);
    int is_c11 = it.form == OF_C11 || it.form == TIMED_OF_C11;
    int is_late = is_c11 ? result == thrd_timedout : result == ETIMEDOUT;
    if (result == EOWNERDEAD && it.condition)
        leave_for_dead(it.monitor, it.site);
    end_wait(&it, is_late ? LAPSE : RESUME, result && !is_late && (is_c11 || result != EOWNERDEAD));
    return result;
}

int pthread_cond_wait(pthread_cond_t *cond, pthread_mutex_t *mutex) {
    return wait_by((struct wait){.form = PLAIN, .cond = cond, .mutex = mutex, .site = CALLER});
}

int pthread_cond_timedwait(pthread_cond_t *cond, pthread_mutex_t *mutex, const struct timespec *until) {
    return wait_by((struct wait){.form = TIMED, .cond = cond, .mutex = mutex, .until = until, .site = CALLER});
}

int pthread_cond_clockwait(pthread_cond_t *cond, pthread_mutex_t *mutex, clockid_t clock,
    const struct timespec *until) {
    struct wait by = {.form = CLOCK, .cond = cond, .mutex = mutex, .clock = clock, .until = until, .site = CALLER};
    return wait_by(by);
}

int cnd_wait(cnd_t *cond, mtx_t *mutex) {
    return wait_by((struct wait){.form = OF_C11, .cond = cond, .mutex = mutex, .site = CALLER});
}

int cnd_timedwait(cnd_t *cond, mtx_t *mutex, const struct timespec *until) {
    return wait_by((struct wait){.form = TIMED_OF_C11, .cond = cond, .mutex = mutex, .until = until, .site = CALLER});
}

/* The mutex with which a condition was last waited on, or null. */
static inline struct monitor *waited_with(struct condition *c) {
    struct monitor *m = atomic_load_explicit(&c->monitor, memory_order_relaxed);
    return m && atomic_load_explicit(&c->of, memory_order_relaxed) == m->known.serial ? m : 0;
}

/* A signal by a thread that doesn't hold the mutex, or on a condition on which nobody has waited yet. In the second
   case the mutex isn't known, and the one that the thread locked last is taken. Returns the condition, whose order is
   held until the signal is sent; or null. */
SELDOM static struct condition *tell_in_order(struct condition *c, struct thread *thread, enum verb verb,
    unsigned site) {
    if (is_closed())
        return 0;
    if (!take_order(&c->order)) {
        give_up(log_beside(waited_with(c)));
        return 0;
    }
    struct monitor *m = waited_with(c), *last = m ? 0 : last_held(thread);
    struct log *log = last ? log_of(last, thread) : 0;
    if (log)
        put(log, thread, verb, number_of(log, c), site);
    else
        note(m, c, thread, (struct signal){verb, site});
    return c;
}

/* Returns a condition whose order is to be let go when the signal is sent, or null. */
static struct condition *tell(enum verb verb, const void *cond, unsigned site) {
    init();
    shake();
    if (busy) {
        atomic_fetch_add(&seen.left_out, 1);
        return 0;
    }
    struct condition *c = condition_of(cond, site);
    struct thread *thread = self();
    if (!c || !thread)
        return 0;
    struct monitor *m = waited_with(c);
    if (!holds(thread, m))
        return tell_in_order(c, thread, verb, site);
    struct log *log = log_of(m, thread);
    if (log)
        put(log, thread, verb, number_of(log, c), site);
    return 0;
}

#define SIGNALS(name, field, verb, type)                        \
    int name(type *cond) {                                      \
        struct condition *in_order = tell(verb, cond, CALLER);  \
        if (!in_order)                                          \
            return real.field(cond);                            \
        int result = real.field(cond);                          \
        end_order(&in_order->order);                            \
        return result;                                          \
    }

SIGNALS(pthread_cond_signal, signal, SIGNAL, pthread_cond_t)
SIGNALS(pthread_cond_broadcast, broadcast, BROADCAST, pthread_cond_t)
SIGNALS(cnd_signal, cnd_signal, SIGNAL, cnd_t)
SIGNALS(cnd_broadcast, cnd_broadcast, BROADCAST, cnd_t)

int pthread_cond_init(pthread_cond_t *cond, const pthread_condattr_t *attributes) {
    init();
    forget_condition(cond);
    return real.cond_init(cond, attributes);
}

int cnd_init(cnd_t *cond) {
    init();
    forget_condition(cond);
    return real.cnd_init(cond);
}

int pthread_cond_destroy(pthread_cond_t *cond) {
    init();
    forget_condition(cond);
    return real.cond_destroy(cond);
}

void cnd_destroy(cnd_t *cond) {
    init();
    forget_condition(cond);
    real.cnd_destroy(cond);
}

/* ---- the beginning and the end of the program */

static void shake_by(const char *text) {
    shake_seed = text;
    seed = text ? strtoul(text, 0, 10) : 0;
}

__attribute__((constructor)) static void start(void) {
    const char *seconds = getenv("MONK_SECONDS");
    init();
    look_for_cpp();
    process = 1;
    this_process = getpid();
    make_key();
    pthread_atfork(0, 0, forked);
    at_quick_exit(finish);
    keep_errors();
    watch_signals();
    shake_by(getenv("MONK_SHAKE"));
    if (seconds)
        end_after(atof(seconds));
}

__attribute__((destructor)) static void ended(void) { finish(); }
