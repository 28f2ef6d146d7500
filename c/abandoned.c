/* abandoned.c - seats that were abandoned while they waited: they come in when it is their turn, and leave. */
#include "seats.h"

/* Whether it was a signal that let this seat in: it waited on a condition, and no broadcast served all who did. */
static int was_signalled(const monk_seat *s) {
    return s->waits_on != NO_CONDITION && s->monitor->broadcasts[s->waits_on] == s->broadcasts;
}

/* Signals the condition on which an abandoned seat waited, if anybody else waits there. After this the seat may wait,
 * or have left. */
static int pass_on(monk_seat *s, size_t *word) {
    uint8_t condition = s->waits_on;
    if (monk_k_waiting(s->token, condition) <= 0) return MONK_INSIDE;
    int leaves = monk_mode_of(s->monitor->kind) == MONK_IMMEDIATE_RETURN;
    return (leaves ? monk_k_signal_leave : monk_k_start_signal)(s->token, condition, MONK_WAITER, word);
}

/* An abandoned seat has come in: it passes on the signal that served it, unless it has too few events left, and
 * leaves. Under a blocking kind it may leave later. Under the lock. */
static void go_on_and_out(monk_seat *s) {
    monk_monitor *m = s->monitor;
    size_t word = NOBODY;
    see_what_was_shown(m);
    int signalled = was_signalled(s);
    show(m);
    int answer = signalled ? pass_on(s, &word) : MONK_INSIDE;
    s->waits_on = NO_CONDITION;
    if (answer == MONK_INSIDE || answer < 0) answer = monk_k_leave(s->token, MONK_WAITER, &word);
    atomic_store(&s->place, (int8_t)answer);
    atomic_store(&s->left, monk_k_left(s->token));
    if (word != NOBODY) ring(m, word);
    if (answer == MONK_WAITING) mind(s);
    else set_free(s);
}

/* Lets seats that were abandoned come in if it is their turn. Under the lock. */
void settle_abandoned(monk_monitor *m) {
    unsigned i = 0;
    while (i < m->seat_count) {
        monk_seat *s = &m->seats[i++];
        if (lent_of(s) != ABANDONED || monk_k_poll(s->token) != MONK_INSIDE) continue;
        go_on_and_out(s);
        i = 0;                          /* this may have let in a seat that was looked at before, and marked a bell */
    }
}
