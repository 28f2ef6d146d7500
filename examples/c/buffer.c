/* A bounded buffer, 2 putters and 2 takers, for all ten kinds.
 *
 *     buffer [-k KIND] .. if | while | if-broadcast | while-broadcast
 *
 * `if` trusts the signal; `while` tests again. Prints how often a thread came back to a buffer that wasn't as told. */
#include "common.h"

enum { NOT_FULL, NOT_EMPTY, CONDITIONS, SIZE = 1, PUTTERS = 2, TAKERS = 2 };
static long buffer[SIZE], first, count, rounds, put_sum, got_sum;
static int again, all;

static void say(monk_seat *s) { tell(s, (count < SIZE ? 1u << NOT_FULL : 0) | (count > 0 ? 1u << NOT_EMPTY : 0)); }

static int is_ready(int put) { return put ? count < SIZE : count > 0; }

/* Waits for room or an item; 0 where the thread came back, didn't test, and was wrong. */
static int await_turn(monk_seat *s, int put) {
    int n = put ? NOT_FULL : NOT_EMPTY;
    while (!is_ready(put)) {
        MUST(monk_pause(s, (unsigned)n));
        if (!again) return is_ready(put);
    }
    return 1;
}

static void let_go(monk_seat *s, int n) {
    if (!all) { MUST(monk_finish(s, (unsigned)n)); return; }
    MUST(monk_broadcast(s, (unsigned)n));
    MUST(monk_leave(s));
}

/* One visit; 0 where the thread was wrong, and has to come again. */
static int visit(monk_seat *s, int put, long item) {
    idle();
    MUST(monk_enter(s));
    if (is_automatic()) say(s);
    linger();
    int right = await_turn(s, put);
    if (!right) bad++;
    else if (put) buffer[(first + count++) % SIZE] = item, put_sum += item;
    else got_sum += buffer[first], first = (first + 1) % SIZE, count--;
    say(s);
    /* Who was wrong has taken a signal that another may need: it passes that on. */
    let_go(s, right == put ? NOT_EMPTY : NOT_FULL);
    return right;
}

static void putter(monk_seat *s, int number) {
    for (long i = 0; i < rounds; i++)
        while (!visit(s, 1, i * PUTTERS + number)) {}
}

static void taker(monk_seat *s, int number) {
    (void)number;
    for (long i = 0; i < rounds; i++)
        while (!visit(s, 0, 0)) {}
}

int main(int n, char **words) {
    options o = read_options(n, words, 100);
    rounds = o.rounds, again = !strncmp(o.word, "while", 5), all = strstr(o.word, "broadcast") != NULL;
    open_monitor(PUTTERS + TAKERS, CONDITIONS, (uint32_t)(o.rounds * 60 + 100), o.seed);
    worker crew[] = {{putter, 0, 0}, {putter, 1, 0}, {taker, 0, 0}, {taker, 1, 0}};
    run(crew, 4);
    finish_run(o.out);
    printf("%s %s wish %s: wrong %ld, put %ld, taken %ld%s\n", monk_kind_name(kind), o.word, wish_word, (long)bad,
        put_sum, got_sum,
           put_sum == got_sum && count == 0 ? "" : " LOST");
    return put_sum != got_sum;
}
