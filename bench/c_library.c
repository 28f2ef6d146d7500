/* What a visit costs, and a bounded buffer: bench/c_library builds this with libmonk, with the plain reference, and
 * with -DLOCK=MUTEX, TICKET or MCS by a lock of bench/locks.h.
 *
 *     c_library build                       which library it is
 *     c_library visit MONITORS CHUNKS       the nanoseconds of a visit by the only seat: the least of CHUNKS chunks of
 *                                           2,000 visits to the last of MONITORS monitors; the first one's memory was
 *                                           never used before
 *     c_library abandoned SEATS CHUNKS      the same, to one monitor, while SEATS abandoned seats wait on a condition
 *     c_library visits THREADS ROUNDS INSIDE   the nanoseconds of a visit, by the clock and then of all processors,
 *                                           if each works for INSIDE nanoseconds inside
 *     c_library buffer KIND ROUNDS          the same of a visit to a buffer: two threads put ROUNDS items each, and two
 *                                           take */
#include <pthread.h>
#include <stdio.h>
#include <stdlib.h>
#include <string.h>
#include <sys/resource.h>
#include <time.h>
#include <unistd.h>
#ifdef LOCK
#include "locks.h"
#else
#include "monk.h"
#endif

enum { MOST_THREADS = 32, NOT_FULL = 0, NOT_EMPTY = 1, CONDITIONS = 2, SIZE = 8, CHUNK = 2000,
    US_A_SECOND = 1000000, NS_A_SECOND = 1000000000 };

static pthread_barrier_t line;
static long rounds, work_inside;
static long count;                          /* touched only inside, as the buffer is */
static long buffer[SIZE], first, filled, taken_sum;

#ifdef LOCK
typedef struct { node node; } seat;

static const char *build(void) { return lock_name(); }
static void make(const char *kind, unsigned threads) { (void)kind, (void)threads; }
static void abandon_one(void) {}
static void end(void) {}
static void take(seat *s) { (void)s; }
static void give(seat *s) { (void)s; }
static void enter(seat *s) { acquire(&s->node); }
static void leave(seat *s) { release(&s->node); }
static void pause_on(seat *s, unsigned n) { (void)s, wait_on(n); }
static void say(seat *s) { (void)s; }

static void finish(seat *s, unsigned n) {
    signal_to(n);
    leave(s);
}
#else
enum { BUDGET = 1 << 20 };
typedef struct { monk_seat *of; } seat;
static monk_monitor *monitor;
static int is_automatic;

static void must(int answer) {
    if (answer >= 0) return;
    fprintf(stderr, "c_library: %s\n", monk_strerror(answer));
    exit(1);
}

static const char *build(void) { return monk_build(); }

static void make(const char *kind, unsigned threads) {
    int number = monk_kind_named(kind);
    must(number);
    is_automatic = monk_mode_of(number) == MONK_AUTOMATIC;
    monk_shape shape = {.kind = number, .seats = threads, .conditions = is_automatic ? 0 : CONDITIONS,
        .flags = CONDITIONS,
                        .budget = BUDGET, .seed = 1};
    must(monk_make(&monitor, &shape));
}

static void end(void) {
    must(monk_close(monitor));
    must(monk_free(monitor));
}

/* One more seat waits on a condition, and nobody has it. */
static void abandon_one(void) {
    monk_seat *s;
    must(monk_take_seat(monitor, &s));
    must(monk_enter(s));
    must(monk_start_wait(s, NOT_FULL));
    must(monk_abandon(s));
}

static void take(seat *s) { must(monk_take_seat(monitor, &s->of)); }
static void give(seat *s) { must(monk_give_seat(s->of)); }
static void enter(seat *s) { must(monk_enter(s->of)); }
static void leave(seat *s) { must(monk_leave(s->of)); }
static void pause_on(seat *s, unsigned n) { must(monk_pause(s->of, n)); }
static void finish(seat *s, unsigned n) { must(monk_finish(s->of, n)); }

static void say(seat *s) {
    if (is_automatic) must(monk_set_flags(s->of,
        (filled < SIZE ? 1u << NOT_FULL : 0) | (filled > 0 ? 1u << NOT_EMPTY : 0)));
}
#endif

static double now(void) {
    struct timespec time;
    clock_gettime(CLOCK_MONOTONIC, &time);
    return (double)time.tv_sec + (double)time.tv_nsec / NS_A_SECOND;
}

/* Work that no compiler leaves out. */
static void work(long turns) {
    for (volatile long turn = 0; turn < turns; turn++) continue;
}

/* How many turns of work take that many nanoseconds: by the fastest of some tries. */
static long turns_of(double nanoseconds) {
    enum { TURNS = 100000, TRIES = 50 };
    double best = NS_A_SECOND;
    for (int i = 0; nanoseconds > 0 && i < TRIES; i++) {
        double began = now();
        work(TURNS);
        double took = (now() - began) * NS_A_SECOND;
        if (took < best) best = took;
    }
    return (long)(nanoseconds * TURNS / best);
}

static void visit(seat *s, long i) {
    (void)i;
    enter(s);
    count++;
    work(work_inside);
    leave(s);
}

static void put(seat *s, long i) {
    enter(s);
    say(s);
    while (filled == SIZE) pause_on(s, NOT_FULL);
    buffer[(first + filled++) % SIZE] = i;
    say(s);
    finish(s, NOT_EMPTY);
}

static void get(seat *s, long i) {
    (void)i;
    enter(s);
    say(s);
    while (filled == 0) pause_on(s, NOT_EMPTY);
    taken_sum += buffer[first];
    first = (first + 1) % SIZE, filled--;
    say(s);
    finish(s, NOT_FULL);
}

/* What a thread does in each round, and when it began and ended by its own clock: another thread may come late to
 * see it. */
typedef struct {
    void (*round)(seat *, long);
    double began, ended;
} job;

static void *play(void *at) {
    job *j = at;
    seat s;
    take(&s);
    pthread_barrier_wait(&line);
    j->began = now();
    for (long i = 0; i < rounds; i++) j->round(&s, i);
    j->ended = now();
    pthread_barrier_wait(&line);
    give(&s);
    return NULL;
}

/* How many seconds the threads take, from when the first begins until the last ends. */
static double timed(job *jobs, unsigned threads) {
    pthread_t crew[MOST_THREADS];
    pthread_barrier_init(&line, NULL, threads);
    for (unsigned i = 0; i < threads; i++) pthread_create(&crew[i], NULL, play, &jobs[i]);
    for (unsigned i = 0; i < threads; i++) pthread_join(crew[i], NULL);
    double began = jobs[0].began, ended = jobs[0].ended;
    for (unsigned i = 1; i < threads; i++) {
        if (jobs[i].began < began) began = jobs[i].began;
        if (jobs[i].ended > ended) ended = jobs[i].ended;
    }
    return ended - began;
}

/* A second thread, so that a mutex isn't cheaper than in a program that needs one. */
static void *be_there(void *unused) {
    for (;;) pause();
    return unused;
}

static double least_of(seat *s, long chunks) {
    double best = NS_A_SECOND;
    while (chunks-- > 0) {
        double began = now();
        for (int i = 0; i < CHUNK; i++) visit(s, i);
        double each = (now() - began) * NS_A_SECOND / CHUNK;
        if (each < best) best = each;
    }
    return best;
}

/* The least nanoseconds of a visit to the last of these monitors, while that number of abandoned seats wait. */
static double least(unsigned monitors, unsigned abandoned, long chunks) {
    pthread_t other;
    seat s;
    double best = 0;
    pthread_create(&other, NULL, be_there, NULL);
    while (monitors-- > 0) {
        make("PNB", abandoned + 1);
        for (unsigned i = 0; i < abandoned; i++) abandon_one();
        take(&s);
        best = least_of(&s, chunks);
        give(&s);
        if (monitors > 0) end();
    }
    return best;
}

/* The seconds for which all processors worked for this process. */
static double worked(void) {
    struct rusage used;
    getrusage(RUSAGE_SELF, &used);
    return (double)(used.ru_utime.tv_sec + used.ru_stime.tv_sec)
        + (double)(used.ru_utime.tv_usec + used.ru_stime.tv_usec) / US_A_SECOND;
}

/* Prints the nanoseconds of a visit by threads that meet, by the clock and of all processors. */
static void contended(int is_buffer, const char *kind, unsigned threads) {
    job jobs[MOST_THREADS];
    for (unsigned i = 0; i < threads; i++) jobs[i].round = !is_buffer ? visit : i % 2 ? get : put;
    make(kind, threads);
    double before = worked(), took = timed(jobs, threads), visits = (double)rounds * threads;
    printf("%.6g %.6g\n", took * NS_A_SECOND / visits, (worked() - before) * NS_A_SECOND / visits);
    end();
}

int main(int words, char **word) {
    if (words == 2 && !strcmp(word[1], "build")) return puts(build()) < 0;
    if (words < 4 || words > 5) return 2;
    int is_visit = !strcmp(word[1], "visit"), is_abandoned = !strcmp(word[1], "abandoned"),
        is_buffer = !strcmp(word[1], "buffer");
    unsigned number = is_buffer ? 4 : (unsigned)atoi(word[2]), seats = is_abandoned ? number + 1 : number;
    if (seats < 1 || seats > MOST_THREADS) return 2;
    rounds = atol(word[3]);
    if (is_visit) printf("%.6g\n", least(number, 0, rounds));
    else if (is_abandoned) printf("%.6g\n", least(1, number, rounds));
    else {
        work_inside = words == 5 ? turns_of(atof(word[4])) : 0;
        contended(is_buffer, is_buffer ? word[2] : "PNB", number);
    }
    return 0;
}
