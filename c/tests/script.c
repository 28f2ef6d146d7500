/* Carries out a script by one thread, for differential.py: a line for each answer, and the history at the end.
 *
 *     script <SCRIPT      the first line is `KIND SEATS CONDITIONS FLAGS BUDGET`, the others are
 *                         `SEAT CALL [NUMBER [NUMBER]]`
 *
 * `take` takes the lowest seat that was abandoned and is outside, whatever SEAT is: its number is the answer. */
#include "monk.h"
#include <stdio.h>
#include <stdlib.h>
#include <string.h>

enum { MOST_SEATS = 32, WORD = 32 };

typedef int call(monk_seat *seat, unsigned a, unsigned b);

static monk_monitor *m;
static monk_seat *seats[MOST_SEATS];

static int arrive(monk_seat *s, unsigned a, unsigned b) { return (void)a, (void)b, monk_arrive(s); }
static int poll_once(monk_seat *s, unsigned a, unsigned b) { return (void)a, (void)b, monk_poll(s); }
static int leave(monk_seat *s, unsigned a, unsigned b) { return (void)a, (void)b, monk_leave(s); }
static int start_wait(monk_seat *s, unsigned a, unsigned b) { return (void)b, monk_start_wait(s, a); }
static int start_signal(monk_seat *s, unsigned a, unsigned b) { return (void)b, monk_start_signal(s, a); }
static int start_until(monk_seat *s, unsigned a, unsigned b) { return (void)b, monk_start_wait_until(s, a); }
static int signal_leave(monk_seat *s, unsigned a, unsigned b) { return (void)b, monk_signal_leave(s, a); }
static int broadcast(monk_seat *s, unsigned a, unsigned b) { return (void)b, monk_broadcast(s, a); }
static int set_flags(monk_seat *s, unsigned a, unsigned b) { return (void)b, monk_set_flags(s, a); }
static int set_wish(monk_seat *s, unsigned a, unsigned b) { return (void)b, monk_set_wish(s, (int)a); }
static int waiting(monk_seat *s, unsigned a, unsigned b) { return (void)b, monk_waiting(s, a); }
static int left(monk_seat *s, unsigned a, unsigned b) { return (void)a, (void)b, (int)monk_left(s); }

static int abandon(monk_seat *s, unsigned a, unsigned b) { return (void)a, (void)b, monk_abandon(s); }

static int take(monk_seat *s, unsigned a, unsigned b) {
    (void)a, (void)b;
    int answer = monk_take_seat(m, &s);
    if (answer) return answer;
    seats[monk_seat_number(s)] = s;
    return (int)monk_seat_number(s);
}

static const struct {
    const char *name;
    call *call;
} calls[] = {
    {"arrive", arrive},         {"poll", poll_once},        {"leave", leave},       {"wait", start_wait},
    {"signal", start_signal},   {"until", start_until},     {"signal-leave", signal_leave},
    {"signal-wait", monk_start_signal_wait},                {"signal-all", broadcast},
    {"set", set_flags},         {"wish", set_wish},         {"waiting", waiting},   {"left", left},
    {"abandon", abandon},       {"take", take},
};

static call *call_named(const char *name) {
    for (size_t i = 0; i < sizeof calls / sizeof calls[0]; i++)
        if (!strcmp(calls[i].name, name)) return calls[i].call;
    fprintf(stderr, "script: no call %s\n", name);
    exit(2);
}

static void print_history(unsigned count) {
    for (unsigned i = 0; i < count; i++) {
        char *text;
        if (monk_place(seats[i]) != MONK_INSIDE) continue;
        if (monk_history(m, seats[i], &text, NULL)) exit(2);
        fputs(text, stdout);
        free(text);
        return;
    }
    puts("nobody is inside");
}

int main(void) {
    char name[WORD];
    unsigned seat, a, b;
    monk_shape shape = {.seed = 1};
    if (scanf("%31s %u %u %u %u\n", name, &shape.seats, &shape.conditions, &shape.flags, &shape.budget) != 5) return 2;
    shape.kind = monk_kind_named(name);
    if (shape.kind < 0 || monk_make(&m, &shape)) return 2;
    for (unsigned i = 0; i < shape.seats; i++)
        if (monk_take_seat(m, &seats[i])) return 2;
    for (char line[4 * WORD]; fgets(line, sizeof line, stdin);) {
        a = b = 0;
        if (sscanf(line, "%u %31s %u %u", &seat, name, &a, &b) < 2 || seat >= shape.seats) return 2;
        printf("%d\n", call_named(name)(seats[seat], a, b));
    }
    print_history(shape.seats);
    for (unsigned i = 0; i < shape.seats; i++) monk_abandon(seats[i]);
    return monk_free(m) != MONK_OK;
}
