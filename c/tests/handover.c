/* Hand-overs under a watchdog: a wake-up that is missed would leave all threads asleep.
 *
 *     handover KIND THREADS HANDOVERS
 *
 * The threads take turns: each pauses until it's its turn, and lets the next go on. So each turn is a hand-over, and
 * at most one thread is awake that isn't on its way to sleep. The watchdog ends the program if no turn was taken for
 * too long. */
#include "common.h"
#include <pthread.h>
#include <stdatomic.h>
#include <time.h>
#include <unistd.h>

enum { MOST_THREADS = 8, TURNS_OF_A_MONITOR = 50000, BUDGET = 1 << 20, SECONDS = 30 };

static monk_monitor *monitor;
static int kind;
static unsigned threads;
static long handovers;
static atomic_long turns;
static unsigned turn;                   /* whose it is; touched only inside */
static pthread_barrier_t line;

static void *watch(void *unused) {
    (void)unused;
    for (long seen = -1;;) {
        sleep(SECONDS);
        if (turns == seen) {
            fprintf(stderr, "handover: nobody took a turn for %d seconds, after %ld\n", SECONDS, seen);
            _exit(1);
        }
        seen = turns;
    }
}

static int is_automatic(void) { return monk_mode_of(kind) == MONK_AUTOMATIC; }

static void take_turns(monk_seat *s, unsigned me, long rounds) {
    unsigned next = (me + 1) % threads;
    for (long i = 0; i < rounds; i++) {
        MUST(monk_enter(s));
        while (turn != me) MUST(monk_pause(s, me));
        turn = next;
        turns++;
        if (is_automatic()) MUST(monk_set_flags(s, 1u << next));
        MUST(monk_finish(s, next));
    }
}

static void *play(void *number) {
    unsigned me = (unsigned)(uintptr_t)number;
    for (long done = 0; done < handovers; done += TURNS_OF_A_MONITOR) {
        monk_seat *s;
        pthread_barrier_wait(&line);
        MUST(monk_take_seat(monitor, &s));
        take_turns(s, me, TURNS_OF_A_MONITOR / threads);
        MUST(monk_give_seat(s));
        pthread_barrier_wait(&line);
    }
    return NULL;
}

static void make(void) {
    monk_shape shape = {.kind = kind, .seats = threads, .conditions = is_automatic() ? 0 : threads, .flags = threads,
        .budget = BUDGET,
                        .seed = 1};
    MUST(monk_make(&monitor, &shape));
    turn = 0;
    if (!is_automatic()) return;
    monk_seat *s;
    MUST(monk_take_seat(monitor, &s));
    MUST(monk_enter(s));
    MUST(monk_set_flags(s, 1));
    MUST(monk_leave(s));
    MUST(monk_give_seat(s));
}

int main(int words, char **word) {
    HOLDS(words == 4);
    kind = monk_kind_named(word[1]), threads = (unsigned)atoi(word[2]), handovers = atol(word[3]);
    HOLDS(kind >= 0 && threads > 1 && threads <= MOST_THREADS);
    pthread_t crew[MOST_THREADS], dog;
    pthread_barrier_init(&line, NULL, threads + 1);
    HOLDS(!pthread_create(&dog, NULL, watch, NULL));
    for (uintptr_t i = 0; i < threads; i++) HOLDS(!pthread_create(&crew[i], NULL, play, (void *)i));
    for (long done = 0; done < handovers; done += TURNS_OF_A_MONITOR) {
        make();
        pthread_barrier_wait(&line);
        pthread_barrier_wait(&line);
        MUST(monk_close(monitor));
        MUST(monk_free(monitor));
    }
    for (unsigned i = 0; i < threads; i++) HOLDS(!pthread_join(crew[i], NULL));
    printf("%s: %ld hand-overs by %u threads, none missed\n", word[1], (long)turns, threads);
    return 0;
}
