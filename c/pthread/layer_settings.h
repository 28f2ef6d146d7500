/* layer_settings.h - what monk-run asks of the layer, through the environment. Part of libmonk_pthread.c. */
#ifndef LAYER_SETTINGS_H
#define LAYER_SETTINGS_H

#include "layer_real.h"
#include "monk.h"
#include <stdint.h>
#include <stdlib.h>
#include <sys/stat.h>

enum {
    STATUS_LATE = 124 /* as of timeout(1) */,
    STATUS_CANT = 125,
    STATUS_LOADED = 3, /* what a process ends with that is started to see whether the layer is there */
    LONGEST_LINE = 1200,
    LONGEST_PATH = 500,
    LONGEST_NAME = LONGEST_PATH + 32,
    A_THOUSAND = 1000,
    MOST_BUDGET = 1 << 20
};

#include "monk_outputs.h"

static int standard_error(void) { return STDERR_FILENO; }

/* How the layer mends a program, so that monk-try sees what would be right: each signal is a broadcast; or all who
   wait are woken when all sleep for ever. */
enum { AS_IT_IS, BROADCASTS, WAKES_SLEEPERS };

/* How the turn goes from thread to thread, if only one runs at a time. */
enum { FREE, BY_WALK, BY_PRIORITIES, BY_SCHEDULE };

static struct {
    int kind, mode, wish;
    int turns;
    const char *play, *schedule; /* the file that says whose turn is next; the one that is written */
    int shakes;              /* threads let others go first at random */
    int spurious;            /* so many of a thousand waits wake unasked */
    const char *spurious_at; /* only those that are called there */
    int eager; /* this number of mutexes are monitors from their first lock on */
    int mend;
    uint32_t budget; /* events of a seat in a volume; 0: each volume has twice as many as the one before */
    uint64_t seed;
    double seconds;         /* the time after which the program is ended; 0: never */
    const char *left_alone; /* mutexes that stay what they are, and places of waits with such */
    const char *history, *report;
} asked = {.kind = MONK_NPNB, .wish = MONK_WAITER, .seed = 1};

static char history_of_process[LONGEST_PATH], report_of_process[LONGEST_PATH];
static pid_t process; /* whose files these are */

/* A child of vfork runs in its parent's memory until it is another program. */
static int is_in_parent(void) { return getpid() != process; }

__attribute__((noreturn)) static void end_now(int status) {
    real.end(status);
    __builtin_unreachable();
}

__attribute__((noreturn)) static void refuse_setting(const char *name, const char *text, const char *what) {
    say("monk: %s=%s: %s\n", name, text, what);
    end_now(STATUS_CANT);
}

/* ---- Reading */

/* Reads a whole number of that range, if the variable is set. */
static void read_number(const char *name, uint64_t least, uint64_t most, uint64_t *number) {
    const char *text = getenv(name);
    char *end;
    if (!text) return;
    errno = 0;
    uint64_t is = strtoull(text, &end, 10);
    if (*text < '0' || *text > '9' || *end || errno || is < least || is > most)
        refuse_setting(name, text, "no number, or out of range");
    *number = is;
}

static int number_of_setting(const char *name, uint64_t least, uint64_t most) {
    uint64_t number = 0;
    read_number(name, least, most, &number);
    return (int)number;
}

static void read_kind(void) {
    const char *text = getenv("MONK_KIND");
    if (text) asked.kind = monk_kind_named(text);
    asked.mode = asked.kind < 0 ? MONK_AUTOMATIC : monk_mode_of(asked.kind);
    if (asked.mode == MONK_AUTOMATIC) refuse_setting("MONK_KIND", text, "none of PB NPB PNB NPNB PQB NPQB PIR NPIR");
}

static void read_wish(void) {
    static const char *const wishes[] = {"entry", "waiter", "signaller", "any"};
    const char *text = getenv("MONK_WISH");
    if (!text) return;
    asked.wish = MONK_ENTRY;
    while (asked.wish <= MONK_ANY && strcmp(text, wishes[asked.wish])) asked.wish++;
    if (asked.wish > MONK_ANY) refuse_setting("MONK_WISH", text, "none of entry waiter signaller any");
}

static void read_turns(void) {
    const char *text = getenv("MONK_TURNS");
    if (text) asked.turns = !strcmp(text, "walk") ? BY_WALK : !strcmp(text, "priorities") ? BY_PRIORITIES : FREE;
    if (text && !asked.turns) refuse_setting("MONK_TURNS", text, "none of walk priorities");
    if (getenv("MONK_PLAY")) asked.turns = BY_SCHEDULE;
}

static void read_seconds(void) {
    const char *text = getenv("MONK_SECONDS");
    char *end;
    if (!text) return;
    asked.seconds = strtod(text, &end);
    if (*text < '0' || *text > '9' || *end || !(asked.seconds < 1e9))
        refuse_setting("MONK_SECONDS", text, "no number of seconds");
}

/* Whether this is the process that monk-run became. */
static int is_owner(void) {
    const char *owner = getenv("MONK_OWNER");
    return !owner || atol(owner) == process;
}

/* The process that monk-run became writes into DIR and FILE; each other process, started or forked, writes into
   DIR/PID and FILE.PID. A schedule is of the first alone. */
static void name_files(const char *history, const char *report) {
    process = getpid();
    int is_first = is_owner();
    snprintf(history_of_process, LONGEST_PATH, is_first ? "%s" : "%s/%d", history ? history : "", (int)process);
    snprintf(report_of_process, LONGEST_PATH, is_first ? "%s" : "%s.%d", report ? report : "", (int)process);
    asked.history = history ? history_of_process : NULL;
    asked.report = report ? report_of_process : NULL;
    asked.schedule = is_first ? getenv("MONK_SCHEDULE") : NULL;
    asked.play = is_first ? getenv("MONK_PLAY") : NULL;
}

/* An allocator other than the C library's may have mutexes. A hall takes memory, so none can be made while such a
   mutex is held. */
static int has_own_allocator(void) {
    Dl_info of_malloc, of_library;
    void *allocator = dlsym(RTLD_DEFAULT, "malloc"), *library = dlsym(RTLD_NEXT, "getenv");
    return dladdr(allocator, &of_malloc) && dladdr(library, &of_library) && of_malloc.dli_fbase != of_library.dli_fbase;
}

static void read_settings(void) {
    const char *history = getenv("MONK_HISTORY");
    if (getenv("MONK_LOADED")) end_now(STATUS_LOADED);
    read_kind();
    read_wish();
    read_seconds();
    read_turns();
    read_number("MONK_SEED", 0, UINT64_MAX, &asked.seed);
    read_number("MONK_SHAKE", 0, UINT64_MAX, &asked.seed);
    asked.shakes = getenv("MONK_SHAKE") != NULL;
    asked.budget = (uint32_t)number_of_setting("MONK_BUDGET", 64, MOST_BUDGET);
    asked.spurious = number_of_setting("MONK_SPURIOUS", 0, A_THOUSAND);
    asked.eager = number_of_setting("MONK_EAGER", 0, INT32_MAX);
    asked.mend = number_of_setting("MONK_MEND", AS_IT_IS, WAKES_SLEEPERS);
    asked.left_alone = getenv("MONK_LEAVE");
    asked.spurious_at = getenv("MONK_SPURIOUS_AT");
    if (asked.eager && has_own_allocator()) asked.eager = 0;
    if (history && mkdir(history, 0755) && errno != EEXIST) refuse_setting("MONK_HISTORY", history, strerror(errno));
    name_files(history, getenv("MONK_REPORT"));
}

#endif
