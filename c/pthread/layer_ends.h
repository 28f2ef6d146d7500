/* layer_ends.h - the ends of a run: by itself, by a signal, after a time, or because it hangs; and children. Part of
   libmonk_pthread.c. */
#ifndef LAYER_ENDS_H
#define LAYER_ENDS_H

#include "layer_report.h"
#include <dirent.h>
#include <sys/time.h>
#include <sys/wait.h>

enum { TICK_NS = 50000000, QUIET_TICKS = 8, STUCK_TICKS = 2, MOST_WAKES = 100, WRITING_MS = 2000 };
/* By turns it is known at once that all sleep for ever: so sleepers can be woken more often. */
enum { MOST_WAKES_BY_TURNS = 500 };
/* In such a time nothing moves if no step is made, and less than one part in so many of processor time is used. */
enum { IDLE_SECONDS = 2, LITTLE = 20 };
enum { DOTS = 2 }; /* a folder has these links beside its entries */

static _Atomic int is_ending, is_written;
static _Atomic int is_watched, has_watcher; /* whether a watcher was wanted, and whether there is one */
static _Atomic int ending_signal;           /* the signal for which the watcher is to write the histories */
static _Atomic int watcher_lock;            /* taken while the watcher begins or looks, and may be in an allocator */

/* Whether the process ends after this, or the program goes on. */
enum { GOES_ON, IS_LAST };

/* (A thread that was cancelled doesn't end here: nothing in it is a point at which it would.) */
static void finish(const char *why, int is_last) {
    if (is_in_parent() || atomic_exchange(&is_ending, 1)) return;
    turns.ahead = 0; /* the library's limits go by the system's clock */
    save_all(why, is_last);
    tell_lost("histories and reports");
    is_written = 1;
}

/* ---- If a program is ended from here, its children are ended with it */

static void end_children_of(pid_t parent);

static void end_family(pid_t process) {
    end_children_of(process);
    kill(process, SIGKILL);
}

/* Ends the children of each of its threads, as /proc lists them. */
static void end_children_of(pid_t parent) {
    char path[64];
    int child;
    snprintf(path, sizeof path, "/proc/%d/task", (int)parent);
    DIR *threads = opendir(path);
    for (struct dirent *entry; threads && (entry = readdir(threads));) {
        snprintf(path, sizeof path, "/proc/%d/task/%.20s/children", (int)parent, entry->d_name);
        FILE *file = fopen(path, "re");
        while (file && fscanf(file, "%d", &child) == 1) end_family(child);
        if (file) fclose(file);
    }
    if (threads) closedir(threads);
}

/* The program can't be run so: says this once, writes histories, and ends the program. */
static void refuse(const char *format, ...) {
    static _Atomic int is_told;
    char line[LONGEST_LINE];
    va_list words;
    va_start(words, format);
    vsnprintf(line, sizeof line, format, words);
    va_end(words);
    if (!is_ending && !atomic_exchange(&is_told, 1)) {
        say("monk: %s\n", line);
        finish("cant", IS_LAST);
        end_children_of(getpid());
        end_now(STATUS_CANT);
    }
    for (;;) pause();
}

/* ---- Whether the program hangs: no step was made for a while, and each of its threads sleeps in a futex without a
   limit */

static int has_child(void) {
    siginfo_t child;
    return waitid(P_ALL, 0, &child, WEXITED | WNOHANG | WNOWAIT) == 0;
}

/* A timer or a child may wake somebody, and so may a signal at a mutex that is left alone, or another process. */
static int may_be_woken(void) {
    struct itimerval alarm;
    char first;
    int timers = open("/proc/self/timers", O_RDONLY | O_CLOEXEC);
    int has_timer = timers != NONE && read(timers, &first, 1) > 0;
    if (timers != NONE) close(timers);
    if (has_timer || waits_left_alone || waits_for_others()) return 1;
    if (!getitimer(ITIMER_REAL, &alarm) && (alarm.it_value.tv_sec || alarm.it_value.tv_usec)) return 1;
    return has_child();
}

/* Whether another process may write there. */
static int is_shared(unsigned long address) {
    unsigned long from, to;
    char rights[8], line[LONGEST_LINE];
    int found = 0;
    FILE *maps = fopen("/proc/self/maps", "re");
    while (maps && !found && fgets(line, sizeof line, maps))
        found = sscanf(line, "%lx-%lx %7s", &from, &to, rights) == 3 && from <= address && address < to;
    if (maps) fclose(maps);
    return found && rights[3] == 's';
}

static int sleeps_in_a_wait(pid_t id) {
    for (struct thread *t = every_thread; t; t = t->next)
        if (t->id == id && !t->has_ended) return t->sleeps;
    return 0;
}

enum sleep { AWAKE, ASLEEP, GONE };

/* Found by the system call in which the thread is, and the call's arguments. */
static enum sleep sleep_of(pid_t id) {
    char path[64], text[256] = "";
    unsigned long words[4];
    int call = NONE;
    snprintf(path, sizeof path, "/proc/self/task/%d/syscall", (int)id);
    int file = open(path, O_RDONLY | O_CLOEXEC);
    ssize_t length = file == NONE ? NONE : read(file, text, sizeof text - 1);
    if (file != NONE) close(file);
    if (length <= 0) return GONE;
    int read = sscanf(text, "%d %lx %lx %lx %lx", &call, &words[0], &words[1], &words[2], &words[3]);
    if (read < 5 || call != SYS_futex || (words[3] && !sleeps_in_a_wait(id))) return AWAKE;
    return !(words[1] & FUTEX_PRIVATE_FLAG) && is_shared(words[0]) ? AWAKE : ASLEEP;
}

static int all_sleep(pid_t watcher) {
    DIR *threads = opendir("/proc/self/task");
    int sleepers = 0, is_awake = 0;
    for (struct dirent *entry; threads && !is_awake && (entry = readdir(threads));) {
        pid_t id = (pid_t)atoi(entry->d_name);
        enum sleep is = id <= 0 || id == watcher ? GONE : sleep_of(id);
        sleepers += is == ASLEEP, is_awake = is == AWAKE;
    }
    if (threads) closedir(threads);
    return sleepers && !is_awake;
}

static unsigned long count_steps(void) {
    unsigned long steps = turns.steps;
    for (struct monitor *m = every_monitor; m; m = m->next) steps += m->steps;
    return steps;
}

static void broadcast_all(struct monitor *m) {
    for (int k = 0; k < CONDITIONS; k++)
        if (count_queued(m, k)) signal_by(m, m->inside, k, 1, self());
}

/* Wakes everybody who waits, as POSIX allows; returns how many. A thread that then goes on has slept although what it
   waits for held. */
static int wake_sleepers(void) {
    int woken = 0;
    for (struct monitor *m = every_monitor; m; m = m->next) {
        struct timespec limit = time_of_limits();
        limit.tv_sec++;
        if (m->is_dead || asked.mode != MONK_NON_BLOCKING || enter(m, self(), &limit, 1) != ENTERED) continue;
        woken += count_standing(m, WAITS);
        broadcast_all(m);
        go_out(m);
    }
    return woken;
}

/* ---- The watcher: a thread of the layer that takes no signal */

static double seconds_since(struct timespec begin) {
    struct timespec now = time_of_limits();
    return (double)(now.tv_sec - begin.tv_sec) + (double)(now.tv_nsec - begin.tv_nsec) / NS_A_SECOND;
}

__attribute__((noreturn)) static void end_by_watcher(const char *why) {
    finish(why, IS_LAST);
    end_children_of(getpid());
    end_now(STATUS_LATE);
}

/* For how many ticks nothing has moved. */
static int count_quiet(int quiet, unsigned long *seen, pid_t watcher) {
    unsigned long steps = count_steps();
    int is_quiet = steps == *seen && !may_be_woken() && all_sleep(watcher);
    *seen = steps;
    return is_quiet ? quiet + 1 : 0;
}

/* What was seen when something moved last. */
struct activity {
    struct timespec at;
    unsigned long steps;
    double used;
};

static double processor_seconds(void) {
    struct timespec used = time_of(CLOCK_PROCESS_CPUTIME_ID);
    return (double)used.tv_sec + (double)used.tv_nsec / NS_A_SECOND;
}

static void look_at_activity(struct activity *last) {
    unsigned long steps = count_steps();
    double used = processor_seconds(), since = seconds_since(last->at);
    if (steps == last->steps && used - last->used < since / LITTLE) return;
    *last = (struct activity){time_of_limits(), steps, used};
}

/* Ends the program once its time is over. It hangs if nothing has moved for a while and all threads sleep; else it is
   late. A child comes to its own limit first, and says which of them it is. */
static void end_if_over(struct timespec begin, const struct activity *last, pid_t watcher) {
    double idle = asked.seconds / 2 < IDLE_SECONDS ? asked.seconds / 2 : IDLE_SECONDS;
    if (seconds_since(begin) < asked.seconds + has_child()) return;
    int may_go_on = seconds_since(last->at) < idle || has_child() || waits_for_others() || !all_sleep(watcher);
    end_by_watcher(may_go_on ? "late" : "hung");
}

/* Whether the program's last thread has ended, and its first one before. The first stays until the process ends. */
static int is_alone(void) {
    char path[64], text[128] = "";
    snprintf(path, sizeof path, "/proc/self/task/%d/stat", (int)getpid());
    int file = open(path, O_RDONLY | O_CLOEXEC);
    ssize_t length = file == NONE ? NONE : read(file, text, sizeof text - 1);
    if (file != NONE) close(file);
    const char *state = length > 0 ? strrchr(text, ')') : NULL;
    if (!state || strncmp(state, ") Z", 3)) return 0;
    struct stat threads;
    return !stat("/proc/self/task", &threads) && threads.st_nlink == DOTS + 2;
}

/* Between two looks of the watcher. Turns are looked at more often. */
static void tick(void) {
    const struct timespec all = {0, TICK_NS}, part = {0, TURN_TICK_NS};
    if (!asked.turns) real.nanosleep(&all, NULL);
    for (int ns = 0; asked.turns && ns < TICK_NS; ns += TURN_TICK_NS) {
        real.nanosleep(&part, NULL);
        look_at_turns();
        if (asked.mend == WAKES_SLEEPERS && are_stuck()) return;
    }
}

/* Whether it has been quiet for long enough to say that the program hangs, or to wake its sleepers: once it has lost a
   signal, it may lose more, and each wake-up has to come soon. */
static int is_over_after(int quiet, int wakes) {
    int is_stuck = are_stuck();
    if (asked.mend == WAKES_SLEEPERS && is_stuck) return quiet > 0;
    return quiet >= (is_stuck || wakes > 0 ? STUCK_TICKS : QUIET_TICKS);
}

/* Whether sleepers were woken, so that the run goes on. */
static int has_woken(int *wakes) {
    int most = asked.turns ? MOST_WAKES_BY_TURNS : MOST_WAKES;
    return asked.mend == WAKES_SLEEPERS && (*wakes)++ < most && wake_sleepers();
}

static void *watch(void *unused) {
    const struct timespec begin = time_of_limits();
    pid_t watcher = (pid_t)syscall(SYS_gettid);
    unsigned long seen = 0;
    struct activity last = {.at = begin};
    let(&watcher_lock);
    for (int quiet = 0, wakes = 0;; tick()) {
        if (ending_signal) finish("signal", IS_LAST);
        if (is_alone()) exit(0); /* as the C library does for the last thread: this one doesn't count */
        if (asked.seconds == 0) continue;
        look_at_activity(&last);
        end_if_over(begin, &last, watcher);
        take(&watcher_lock);
        quiet = count_quiet(quiet, &seen, watcher);
        let(&watcher_lock);
        if (!is_over_after(quiet, wakes)) continue;
        if (!has_woken(&wakes)) end_by_watcher("hung");
        quiet = 0;
    }
    return unused;
}

static void start_watcher(void) {
    sigset_t all, before;
    pthread_t thread;
    sigfillset(&all);
    pthread_sigmask(SIG_SETMASK, &all, &before);
    take(&watcher_lock);
    has_watcher = !real.create(&thread, NULL, watch, NULL);
    if (!has_watcher) let(&watcher_lock);
    pthread_sigmask(SIG_SETMASK, &before, NULL);
}

/* ---- Signals that end a program that asks for nothing else. The watcher writes, because no call is safe in a
   handler. The thread that got the signal waits for that, but not for ever: it may hold what the writing needs. */

static const int fatal[] = {SIGINT, SIGTERM, SIGHUP, SIGSEGV, SIGBUS, SIGFPE, SIGILL, SIGABRT};
enum { FATAL = sizeof fatal / sizeof *fatal };

static int is_fatal(int number) {
    int i = 0;
    while (i < FATAL && fatal[i] != number) i++;
    return i < FATAL;
}

static void end_by_signal(int number) {
    const struct timespec while_writing = {0, NS_A_SECOND / MS_A_SECOND};
    struct sigaction plain = {.sa_handler = SIG_DFL};
    int waits = has_watcher && !is_in_parent();
    if (waits) ending_signal = number;
    for (int ms = 0; waits && !is_written && ms < WRITING_MS; ms++) real.nanosleep(&while_writing, NULL);
    real.sigaction(number, &plain, NULL);
    raise(number);
}

static void end_by_default(int number) {
    struct sigaction ours = {.sa_handler = end_by_signal, .sa_flags = SA_ONSTACK | SA_NODEFER};
    if (has_watcher) real.sigaction(number, &ours, NULL);
}

static void watch_signals(void) {
    struct sigaction now;
    for (int i = 0; i < FATAL; i++)
        if (!real.sigaction(fatal[i], NULL, &now) && now.sa_handler == SIG_DFL) end_by_default(fatal[i]);
}

/* Starts to watch, once in a process, if there is anything to watch for. */
static void watch_process(void) {
    int is_for_nothing = asked.seconds == 0 && !asked.history && !asked.report && !asked.turns;
    if (is_for_nothing || atomic_exchange(&is_watched, 1)) return;
    start_watcher();
    watch_signals();
}

static void be_watched(void) {
    if (!is_watched) watch_process();
}

/* ---- Forks. In the child no mutex is a monitor. Mutexes whose monitors its thread was inside are locked by it. The
   child is watched from its first wait on, or its first sleep by turns: as it is forked, an allocator may still have
   its locks. The watcher then holds none, or the child's own watcher would wait for it for ever. */

static void before_fork(void) {
    take(&watcher_lock);
    take(&monitors.lock), take(&conditions.lock), take(&thread_lock), take(&room_lock);
}

static void let_tables(void) {
    let(&room_lock), let(&thread_lock), let(&conditions.lock), let(&monitors.lock);
    let(&watcher_lock);
}

/* (A mutex that isn't ours may be gone: its memory isn't touched.) */
static void lock_for_child(struct monitor *m) {
    pthread_mutex_t *mutex = (pthread_mutex_t *)(uintptr_t)atomic_load(&m->known.address);
    int kind = mutex->__data.__kind;
    *mutex = (pthread_mutex_t)PTHREAD_MUTEX_INITIALIZER;
    mutex->__data.__kind = kind;
    for (int i = 0; i < m->depth; i++) real.lock(mutex);
}

static void empty(struct table *t) {
    for (int slot = 0; slot < SLOTS; slot++) t->slots[slot] = NULL;
    t->count = 0;
}

static void in_child(void) {
    let_tables();
    for (struct monitor *m = every_monitor; m; m = m->next)
        if (!m->is_dead && me && m->owner == me) lock_for_child(m);
    empty(&monitors), empty(&conditions);
    every_monitor = NULL;
    is_ending = is_written = ending_signal = is_watched = has_watcher = 0;
    ended_volumes = ended_timeouts = ended_outside = 0;
    forget_outputs();
    serials = 0;
    for (struct thread *t = every_thread; t; t = t->next) t->has_ended = t != me;
    if (me) me->id = (pid_t)syscall(SYS_gettid);
    begin_turns_in_child(me);
    name_files(getenv("MONK_HISTORY"), getenv("MONK_REPORT"));
}

#endif
