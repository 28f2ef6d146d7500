/* The ends of a program: by itself, by a signal, after a time; and its children. Part of libmonk_log.c. */
#ifndef MONK_ENDS_H
#define MONK_ENDS_H

#include "monk_files.h"
#include "monk_real.h"
#include "monk_shake.h"
#include <fcntl.h>
#include <sys/stat.h>

enum {
    STATUS_LATE = 124, /* as of timeout(1) */
    TICK = 20000000,   /* nanoseconds between two looks at the time */
    DOTS = 2,          /* `.` and `..`, which count as links of a folder */
};

static pid_t this_process;
static int is_child;
static atomic_int end_state;
enum { RUNNING, WRITING, WRITTEN };

static const char *why_no_log(const char *prefix, int waits) {
    if (!prefix)
        return "no log, since MONK_LOG isn't set";
    if (outputs.lost)
        return "no log, since none could be written";
    if (waits)
        return "no log, since those with waits have no lines";
    return seen.mutexes ? "no log, since nobody waited on a condition of pthreads or C11"
                        : "no log, since no mutex of pthreads or C11 was locked";
}

/* Adds to a line. */
__attribute__((format(printf, 2, 3))) static void add(char line[LONGEST_LINE], const char *format, ...) {
    size_t length = strlen(line);
    va_list words;
    va_start(words, format);
    vsnprintf(line + length, LONGEST_LINE - length, format, words);
    va_end(words);
}

static void say_last(const char *prefix, int waits) {
    char line[LONGEST_LINE] = "";
    if (is_child)
        add(line, "process %d: ", (int)this_process);
    add(line, "%d mutex%s, %d with waits, ", seen.mutexes, seen.mutexes == 1 ? "" : "es", waits);
    if (!told.written)
        add(line, "%s", why_no_log(prefix, waits));
    else if (told.written == 1)
        add(line, "1 log, %s.%d", prefix, told.first);
    else
        add(line, "%d logs, %s.%d to %s.%d", told.written, prefix, told.first, prefix, told.number);
    if (told.taken)
        add(line, "; names taken already: %d", told.taken);
    if (told.cut_by_threads)
        add(line, "; cut at thread 33: %d", told.cut_by_threads);
    if (told.cut_by_conds)
        add(line, "; cut at condition 9: %d", told.cut_by_conds);
    if (told.noted + told.left_out)
        add(line, "; signals without the mutex: %d", told.noted + told.left_out);
    if (told.left_out)
        add(line, ", left out: %d", told.left_out);
    if (told.unlocks)
        add(line, "; unlocks by a thread that did not hold the mutex: %d", told.unlocks);
    if (seen.stray_acts)
        add(line, "; acts without the mutex, left out: %d", seen.stray_acts);
    if (seen.without_memory)
        add(line, "; refused requests for memory: %d", seen.without_memory);
    if (shake_seed)
        add(line, "; shaken by seed %s", shake_seed);
    say("monk: %s\n", line);
}

/* The prefix of this process's logs. */
static const char *prefix_of(char name[PREFIX]) {
    const char *prefix = getenv("MONK_LOG");
    if (!prefix || !is_child)
        return prefix;
    if (snprintf(name, PREFIX, "%s.%d", prefix, (int)this_process) >= PREFIX)
        return prefix;
    return name;
}

static int count_waits(void) {
    int waits = 0;
    for (struct log *log = atomic_load(&all_logs); log; log = log->next)
        waits += log->waits > 0;
    return waits;
}

/* No signal is noted while its log's order is held. A signal handler doesn't wait for what its thread may hold. */
static void write_in_order(struct log *log, const char *prefix) {
    int has_order = !busy && take_order(&log->order);
    seat_outsiders(log);
    if (prefix && log->waits && log->length)
        write_log(log, prefix);
    int unlocks = count_unlocks(log);
    told.unlocks += unlocks;
    told.noted += (int)log->noted - unlocks;
    told.left_out += log->left_out;
    told.cut_by_threads += log->stopped == MORE_THREADS;
    told.cut_by_conds += log->stopped == MORE_CONDS;
    if (has_order)
        end_order(&log->order);
}

static void write_all(void) {
    char name[PREFIX];
    const char *prefix = prefix_of(name);
    struct timespec settle = {0, TO_SETTLE * MILLISECOND};
    int waits = count_waits();
    if (waits && atomic_load(&seen.threads) > 1)
        nanosleep(&settle, 0);
    for (struct log *log = atomic_load(&all_logs); log; log = log->next)
        write_in_order(log, prefix);
    told.left_out += seen.left_out;
    tell_lost("logs");
    say_last(prefix, waits);
}

/* A thread that comes second waits until the logs are written. One that was cancelled doesn't end here. */
static void finish(void) {
    int state = RUNNING, may_end;
    sigset_t all, before;
    struct timespec while_writing = {0, MILLISECOND};
    if (getpid() != this_process)
        return;
    sigfillset(&all);
    pthread_sigmask(SIG_SETMASK, &all, &before);
    pthread_setcancelstate(PTHREAD_CANCEL_DISABLE, &may_end);
    if (atomic_compare_exchange_strong(&end_state, &state, WRITING)) {
        int error = errno;
        atomic_store(&closed, 1);
        write_all();
        errno = error;
        atomic_store(&end_state, WRITTEN);
    }
    while (atomic_load(&end_state) != WRITTEN)
        nanosleep(&while_writing, 0);
    pthread_setcancelstate(may_end, 0);
    pthread_sigmask(SIG_SETMASK, &before, 0);
}

/* ---- signals that end a program that asks for nothing else */

static const int ENDING[] = {SIGINT, SIGTERM};

static int is_ending(int number) { return number == ENDING[0] || number == ENDING[1]; }

static void end_by_signal(int number) {
    struct sigaction plain = {.sa_handler = SIG_DFL};
    sigset_t this_one;
    how_it_ended = "by a signal";
    finish();
    real.sigaction(number, &plain, 0);
    sigemptyset(&this_one);
    sigaddset(&this_one, number);
    kill(getpid(), number);
    pthread_sigmask(SIG_UNBLOCK, &this_one, 0);
}

static void end_by_default(int number) {
    struct sigaction mine = {.sa_handler = end_by_signal};
    real.sigaction(number, &mine, 0);
}

static void watch_signals(void) {
    struct sigaction now;
    for (size_t i = 0; i < sizeof ENDING / sizeof *ENDING; i++)
        if (!real.sigaction(ENDING[i], 0, &now) && now.sa_handler == SIG_DFL)
            end_by_default(ENDING[i]);
}

/* The program sees its own settings, as if nothing had been changed. */
int sigaction(int number, const struct sigaction *new, struct sigaction *old) {
    init();
    int is_default = new && !(new->sa_flags & SA_SIGINFO) && new->sa_handler == SIG_DFL;
    int result = real.sigaction(number, new, old);
    if (result)
        return result;
    if (old && old->sa_handler == end_by_signal)
        *old = (struct sigaction){.sa_handler = SIG_DFL};
    if (is_default && is_ending(number))
        end_by_default(number);
    return 0;
}

void (*signal(int number, void (*handler)(int)))(int) {
    init();
    void (*old)(int) = real.set_signal(number, handler);
    if (old != SIG_ERR && handler == SIG_DFL && is_ending(number))
        end_by_default(number);
    return old == end_by_signal ? SIG_DFL : old;
}

/* ---- other ends */

void _exit(int status) {
    init();
    finish();
    real.end(status);
    __builtin_unreachable();
}

void _Exit(int status) { _exit(status); }

pid_t setsid(void) {
    init();
    if (getpid() == this_process)
        drop_errors();
    return real.setsid();
}

/* Whether the program's last thread has ended, and its first one before. The first stays until the process ends. */
static int is_alone(void) {
    char path[64], text[128] = "";
    snprintf(path, sizeof path, "/proc/self/task/%d/stat", (int)getpid());
    int file = open(path, O_RDONLY | O_CLOEXEC);
    ssize_t length = file < 0 ? file : read(file, text, sizeof text - 1);
    if (file >= 0)
        close(file);
    const char *state = length > 0 ? strrchr(text, ')') : 0;
    struct stat threads;
    return state && !strncmp(state, ") Z", 3) && !stat("/proc/self/task", &threads) && threads.st_nlink == DOTS + 2;
}

static int is_before(struct timespec one, struct timespec other) {
    return one.tv_sec < other.tv_sec || (one.tv_sec == other.tv_sec && one.tv_nsec < other.tv_nsec);
}

/* Sleeps a little again and again. If no thread of the program is left, it ends as the C library does for the last one:
   this thread doesn't count. */
static void *watch_time(void *end) {
    const struct timespec *last = end, tick = {0, TICK};
    struct timespec time;
    do {
        nanosleep(&tick, 0);
        if (is_alone())
            exit(0);
        clock_gettime(CLOCK_MONOTONIC, &time);
    } while (is_before(time, *last));
    how_it_ended = "after MONK_SECONDS";
    _exit(STATUS_LATE);
}

/* The thread for this takes no signal: each is meant for a thread of the program. */
static void end_after(double seconds) {
    static struct timespec end;
    sigset_t all, before;
    pthread_t thread;
    clock_gettime(CLOCK_MONOTONIC, &end);
    double last = end.tv_nsec + (seconds - (time_t)seconds) * SECOND;
    end.tv_sec += (time_t)seconds + (last >= SECOND);
    end.tv_nsec = (long)last % SECOND;
    sigfillset(&all);
    pthread_sigmask(SIG_SETMASK, &all, &before);
    pthread_create(&thread, 0, watch_time, &end);
    pthread_sigmask(SIG_SETMASK, &before, 0);
}

/* The child goes on with the mutexes that its one thread holds, and begins logs of its own. */
static void forked(void) {
    process++;
    is_child = 1;
    this_process = getpid();
    atomic_flag_clear(&memory_lock);
    atomic_store(&closed, 0);
    atomic_store(&end_state, RUNNING);
    atomic_store(&all_logs, 0);
    idle_logs = 0;
    memset(&told, 0, sizeof told);
    forget_outputs();
    memset(&seen, 0, sizeof seen);
    if (!me)
        return;
    atomic_store(&seen.threads, 1);
    me->id = this_process;
    for (int i = 0; i < me->depth; i++)
        refresh(me->held[i]);
}

#endif
