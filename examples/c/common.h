/* What the examples share: a crew of threads with a seat each, and the end of a run. */
#ifndef COMMON_H
#define COMMON_H
#include "monk.h"
#include <pthread.h>
#include <sched.h>
#include <stdatomic.h>
#include <stdio.h>
#include <stdlib.h>
#include <string.h>

static monk_monitor *monitor;
static int kind, wish = MONK_WAITER, yields, idle_most;
static const char *wish_word = "waiter";
static pthread_barrier_t line;
static atomic_long bad;                       /* how often a thread found what the monitor should have kept from it */

static void must(int answer, const char *call) {
    if (answer >= 0) return;
    fprintf(stderr, "%s: %s\n", call, monk_strerror(answer));
    exit(2);
}
#define MUST(call) must(call, #call)

static inline int is_automatic(void) { return monk_mode_of(kind) == MONK_AUTOMATIC; }

/* A moment inside, in which others may come to the entry. */
static inline void linger(void) {
    for (int i = 0; i < yields; i++) sched_yield();
}

/* Work outside the monitor, of no fixed length: without it threads soon come in one fixed order, in which nobody
 * waits. */
static inline void idle(void) {
    static _Thread_local unsigned dice;
    if (!idle_most) return;
    if (!dice) dice = (unsigned)(uintptr_t)&dice | 1;
    dice = dice * 1664525u + 1013904223u;
    for (unsigned i = (dice >> 16) % (unsigned)(idle_most + 1); i > 0; i--) sched_yield();
}

/* Under automatic kinds flag n says that whoever pauses on n may go on. */
static inline void tell(monk_seat *s, uint32_t bits) {
    if (is_automatic()) MUST(monk_set_flags(s, bits));
}

typedef void role(monk_seat *s, int number);
typedef struct { role *play; int number; pthread_t thread; } worker;

static void *start(void *p) {
    worker *w = p;
    monk_seat *s;
    MUST(monk_take_seat(monitor, &s));
    MUST(monk_set_wish(s, wish));
    pthread_barrier_wait(&line);
    w->play(s, w->number);
    MUST(monk_give_seat(s));
    return NULL;
}

static inline void open_monitor(unsigned seats, unsigned conditions, uint32_t budget, uint64_t seed) {
    if (budget > 1u << 20) budget = 1u << 20;
    monk_shape shape = {.kind = kind, .seats = seats, .conditions = is_automatic() ? 0 : conditions,
                        .flags = is_automatic() ? conditions : 0, .budget = budget, .seed = seed};
    MUST(monk_make(&monitor, &shape));
}

static inline void run(worker *crew, int n) {
    pthread_barrier_init(&line, NULL, (unsigned)n);
    for (int i = 0; i < n; i++) pthread_create(&crew[i].thread, NULL, start, &crew[i]);
    for (int i = 0; i < n; i++) pthread_join(crew[i].thread, NULL);
    pthread_barrier_destroy(&line);
}

/* Closes the monitor and writes its history. */
static inline void finish_run(const char *path) {
    MUST(monk_close(monitor));
    if (path) {
        FILE *f = fopen(path, "w");
        if (!f) perror(path), exit(2);
        MUST(monk_save(monitor, NULL, f));
        if (fclose(f)) perror(path), exit(2);
    }
    MUST(monk_free(monitor));
}

static inline int wish_named(const char *w) {
    if (!strcmp(w, "entry")) return MONK_ENTRY;
    if (!strcmp(w, "signaller")) return MONK_SIGNALLER;
    return !strcmp(w, "any") ? MONK_ANY : MONK_WAITER;
}

/* -k KIND -w WISH -y YIELDS inside -x MOST YIELDS outside -n ROUNDS -s SEED -o FILE, and a word */
typedef struct { const char *word, *out; int rounds; unsigned long seed; } options;

static inline options read_options(int n, char **words, int rounds) {
    options o = {.word = "", .rounds = rounds, .seed = 1};
    kind = MONK_PB;
    for (int i = 1; i < n; i++) {
        if (words[i][0] != '-' || i + 1 == n) { o.word = words[i]; continue; }
        const char *value = words[++i];
        switch (words[i - 1][1]) {
        case 'k': kind = monk_kind_named(value); must(kind, value); break;
        case 'w': wish = wish_named(value), wish_word = value; break;
        case 'y': yields = atoi(value); break;
        case 'x': idle_most = atoi(value); break;
        case 'n': o.rounds = atoi(value); break;
        case 's': o.seed = strtoul(value, NULL, 10); break;
        case 'o': o.out = value; break;
        }
    }
    return o;
}

/* Whether somebody waits on condition n; under automatic kinds nobody does. */
static inline int waits(monk_seat *s, unsigned n) { return monk_waiting(s, n) > 0; }

static inline int report(const char *name, const char *result) {
    printf("%s %s wish %s: %s, wrong %ld\n", monk_kind_name(kind), name, wish_word, result, (long)bad);
    return bad != 0;
}
#endif
