/* history.c - the history of the plain model (calls.c) as a text. */
#define _GNU_SOURCE
#include "frame.h"
#include <stdlib.h>

/* How long a look at the history waits for its turn. */
enum { PATIENCE_MS = 1000 };

static int write_next(char *at, const event *e) {
    static const char *const words[] = {[STAY] = " stay", [ENTRY] = " entry", [WAITER] = " waiter %u",
        [SIGNALLER] = " signaller %u", [READY] = " until %u"};
    return sprintf(at, words[e->way], (unsigned)e->chosen);
}

static int write_event(char *at, const event *e) {
    static const char *const words[] = {"enter", "act", "leave", "wait", "signal", "signal-leave", "until", "resume",
        "signal-all", "signal-wait"};
    int n = sprintf(at, "%s %u", words[e->verb], (unsigned)e->seat);
    switch (e->verb) {
    case ENTER: n += sprintf(at + n, e->way == FREE ? " free" : " handed"); break;
    case RESUME:
        n += sprintf(at + n, e->way == WAITER ? " waiter" : e->way == SIGNALLER ? " signaller" : " until");
        break;
    case ACT: n += sprintf(at + n, " 0 %lu 1", (unsigned long)e->bits); break;
    case LEAVE: n += write_next(at + n, e); break;
    case SIGNAL_ALL: n += sprintf(at + n, " %u", (unsigned)e->a); break;
    case SIGNAL_WAIT:
        n += sprintf(at + n, " %u %u", (unsigned)e->a, (unsigned)e->b), n += write_next(at + n, e);
        break;
    default: n += sprintf(at + n, " %u", (unsigned)e->a), n += write_next(at + n, e);
    }
    at[n++] = '\n';
    return n;
}

/* Without flags it names one that nobody sets: an object has a size of 1 or more. */
static int write_header(char *at, const monk_monitor *m) {
    unsigned flags = m->flag_count ? m->flag_count : 1;
    return sprintf(at, "monk 3 %s %u %u flags %u\n", m->rules->name, m->seat_count, m->conditions, flags);
}

/* Nobody appends an event meanwhile: the seat that reads is inside, or the monitor is closed. */
static int text_of(const monk_monitor *m, char **text, size_t *length) {
    enum { LONGEST_LINE = 40 };
    char *page = malloc((m->length + 2) * LONGEST_LINE);
    if (!page) return MONK_MEMORY;
    size_t n = (size_t)write_header(page, m);
    for (size_t i = 0; i < m->length; i++) n += (size_t)write_event(page + n, &m->events[i]);
    page[n] = 0;
    char *fit = realloc(page, n + 1);
    *text = fit ? fit : page;
    if (length) *length = n;
    return MONK_OK;
}

/* The seat of an earlier look that still waits, because its turn didn't come in time. */
static monk_seat *visitor_that_waits(monk_monitor *m) {
    for (unsigned i = 0; i < m->seat_count; i++)
        if (m->seats[i].is_visitor && m->seats[i].abandoned) return &m->seats[i];
    return NULL;
}

/* The highest seat that nobody has and that has the events for a visit. */
static monk_seat *last_seat(monk_monitor *m, int *answer) {
    *answer = MONK_NO_SEAT;
    for (unsigned i = m->seat_count; i-- > 0;) {
        monk_seat *s = &m->seats[i];
        if (s->taken) continue;
        if (s->left >= 2) return *answer = MONK_OK, s;
        *answer = MONK_SPENT;
    }
    return NULL;
}

/* Takes a seat for a visit by the library itself. */
static int take_last_seat(monk_monitor *m, monk_seat **seat) {
    int answer = MONK_CLOSED;
    pthread_mutex_lock(&m->lock);
    if (!m->closed) {
        monk_seat *s = visitor_that_waits(m);
        if (s) answer = MONK_OK;
        else s = last_seat(m, &answer);
        if (s) s->taken = 1, s->abandoned = 0, s->is_visitor = 1, s->wish = MONK_WAITER, *seat = s;
    }
    pthread_mutex_unlock(&m->lock);
    return answer;
}

int monk_history(monk_monitor *m, monk_seat *by, char **text, size_t *length) {
    if (!m || !text || (by && by->monitor != m)) return MONK_RANGE;
    if (by) {
        int r = begin(by);
        if (r && r != MONK_CLOSED) return r;
        if (!r && (r = refusal(by, MONK_INSIDE, 0))) return end(by, r);
        if (!r) end(by, MONK_OK);
        return text_of(m, text, length);
    }
    monk_seat *s = NULL;
    int r = take_last_seat(m, &s);
    if (r == MONK_CLOSED) return text_of(m, text, length);
    if (r) return r;
    monk_arrive(s);                         /* refused if it has waited since an earlier look */
    r = monk_await(s, PATIENCE_MS);
    if (r != MONK_INSIDE) return monk_abandon(s), MONK_BUSY;
    r = text_of(m, text, length);
    monk_abandon(s);
    return r;
}
