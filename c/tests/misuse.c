/* What misuse gets from C (misuse.h), and a null pointer. */
#include "misuse.h"

static void begin(const monk_shape *shape) {
    MUST(monk_make(&monitor, shape));
    MUST(monk_take_seat(monitor, &at));
    MUST(monk_enter(at));
}

static void end(void) {
    monk_abandon(at);
    MUST(monk_free(monitor));
}

/* The first is over, the others are none. */
static const struct timespec times[] = {{0, 0}, {0, 1000000000}, {0, -1}, {-1, 0}};
static FILE *nowhere;
static int file;
static uint32_t bits;

static int text_by(monk_seat *s) {
    char *text = NULL;
    int answer = monk_history(monitor, s, &text, NULL);
    free(text);
    return answer;
}

#define BY_SEAT(name, words) static int name(unsigned n) { (void)n; return words; }
BY_SEAT(enter, monk_enter(at)) BY_SEAT(enter_within, monk_enter_within(at, 0)) BY_SEAT(arrive, monk_arrive(at))
BY_SEAT(give_seat, monk_give_seat(at)) BY_SEAT(poll, monk_poll(at)) BY_SEAT(await, monk_await(at, 0))
BY_SEAT(await_until, monk_await_until(at, &times[n % 4])) BY_SEAT(wait_fd, monk_wait_fd(at, &file))
BY_SEAT(leave, monk_leave(at)) BY_SEAT(wait, monk_wait(at, n)) BY_SEAT(start_wait, monk_start_wait(at, n))
BY_SEAT(signal, monk_signal(at, n)) BY_SEAT(start_signal, monk_start_signal(at, n))
BY_SEAT(broadcast, monk_broadcast(at, n)) BY_SEAT(signal_leave, monk_signal_leave(at, n))
BY_SEAT(signal_wait, monk_signal_wait(at, n, n)) BY_SEAT(start_signal_wait, monk_start_signal_wait(at, 0, n))
BY_SEAT(set_flags, monk_set_flags(at, n)) BY_SEAT(wait_until, monk_wait_until(at, n))
BY_SEAT(start_wait_until, monk_start_wait_until(at, n)) BY_SEAT(waiting, monk_waiting(at, n))
BY_SEAT(flags, monk_flags(at, &bits)) BY_SEAT(history, text_by(at)) BY_SEAT(pause, monk_pause(at, n))
BY_SEAT(finish, monk_finish(at, n)) BY_SEAT(set_wish, monk_set_wish(at, (int)n))
BY_SEAT(abandon, monk_abandon(at)) BY_SEAT(save, monk_save(monitor, at, nowhere))

#define NAMED(name, from, kinds, number, needs) {#name, name, from, kinds, number, needs},
static const call calls[] = {CALLS(NAMED)};
enum { COUNT = sizeof calls / sizeof *calls };

/* (A history by no seat is a look.) */
static void null_pointers(void) {
    at = NULL;
    for (int i = 0; i < COUNT; i++)
        if (calls[i].number != TEXT) holds(calls[i].make(99) == MONK_RANGE, "a null pointer", &calls[i], MONK_PB);
}

int main(void) {
    nowhere = fopen("/dev/null", "w");
    null_pointers();
    return try_all(calls, COUNT);
}
