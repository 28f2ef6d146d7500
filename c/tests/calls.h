/* calls.h - what calls.c expects of each call: its answer, or the end of the history. One monitor and up to four seats
 * of it are there at a time. */
#ifndef MONK_CALLS_H
#define MONK_CALLS_H

#include "monk.h"
#include <stdio.h>
#include <stdlib.h>
#include <string.h>

static _Atomic int failed, made;

static void is(int got, int want, const char *call, int line) {
    made++;
    if (got == want) return;
    failed++;
    printf("line %d: %s is %d (%s), not %d\n", line, call, got, monk_strerror(got), want);
}
#define IS(call, want) is((int)(call), (int)(want), #call, __LINE__)
#define OK(call) IS(call, MONK_OK)
#define WAITS(call) IS(call, MONK_WAITING)
#define IS_IN(call) IS(call, MONK_INSIDE)

static monk_monitor *m;
static monk_seat *a, *b, *c, *d;

static void begin(int kind, unsigned seats, unsigned conditions, unsigned flags, uint32_t budget) {
    monk_shape shape = {kind, seats, conditions, flags, budget, 1};
    OK(monk_make(&m, &shape));
    a = b = c = d = NULL;
    if (seats > 0) OK(monk_take_seat(m, &a));
    if (seats > 1) OK(monk_take_seat(m, &b));
    if (seats > 2) OK(monk_take_seat(m, &c));
    if (seats > 3) OK(monk_take_seat(m, &d));
}

static void text_is(monk_seat *by, const char *want, int line) {
    char *text = NULL;
    int answer = monk_history(m, by, &text, NULL);
    size_t whole = text ? strlen(text) : 0, end = strlen(want);
    made++;
    if (answer || whole < end || strcmp(text + whole - end, want)) {
        failed++;
        printf("line %d: %d, text\n%s\nwants at its end\n%s\n", line, answer, text ? text : "", want);
    }
    free(text);
}
#define ENDS(by, want) text_is(by, want, __LINE__)

static void end(void) {
    monk_seat *seats[] = {a, b, c, d};
    for (int i = 0; i < 4; i++) if (seats[i]) OK(monk_abandon(seats[i]));
    OK(monk_free(m));
}

#endif
