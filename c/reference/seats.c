/* seats.c - the seats of the plain model (calls.c), and how its monitors are made and end. */
#define _GNU_SOURCE
#include "frame.h"
#include <stdlib.h>
#include <time.h>

enum { MOST_FLAGS = 32, MOST_BUDGET = 1 << 20, USUAL_BUDGET = 65536 };

static const rules all_rules[] = {
    {"PB", MONK_BLOCKING, 1, 3, 2},         {"NPB", MONK_BLOCKING, 1, 2, 1},
    {"PNB", MONK_NON_BLOCKING, 1, 2, 3},    {"NPNB", MONK_NON_BLOCKING, 1, 1, 2},
    {"PQB", MONK_QUASI_BLOCKING, 1, 2, 2},  {"NPQB", MONK_QUASI_BLOCKING, 1, 1, 1},
    {"PIR", MONK_IMMEDIATE_RETURN, 1, 2, 1}, {"NPIR", MONK_IMMEDIATE_RETURN, 1, 1, 1},
    {"PIS", MONK_AUTOMATIC, 1, 2, 1},       {"NPIS", MONK_AUTOMATIC, 1, 1, 1},
};

static int is_kind(int kind) { return kind >= 0 && kind < 10; }

/* ---- Seats */

/* A free seat that has the events for a visit: the lowest, or the one with most events left. */
static monk_seat *spare_seat(monk_monitor *m, int with_most, int *answer) {
    monk_seat *found = NULL;
    *answer = MONK_NO_SEAT;
    for (unsigned i = 0; i < m->seat_count; i++) {
        monk_seat *s = &m->seats[i];
        if (s->taken) continue;
        if (*answer) *answer = MONK_SPENT;
        if (s->left < 2) continue;
        *answer = MONK_OK;
        if (!found || (with_most && s->left > found->left)) found = s;
    }
    return found;
}

int monk_take_seat(monk_monitor *m, monk_seat **seat) {
    int answer;
    if (!m || !seat) return MONK_RANGE;
    pthread_mutex_lock(&m->lock);
    monk_seat *s = spare_seat(m, 1, &answer);
    if (m->closed) answer = MONK_CLOSED;
    else if (s) s->taken = 1, s->is_visitor = 0, s->wish = MONK_WAITER, *seat = s;
    pthread_mutex_unlock(&m->lock);
    return answer;
}

int monk_give_seat(monk_seat *s) {
    int r = begin(s);
    if (r) return r;
    if ((r = refusal(s, MONK_OUTSIDE, 0))) return end(s, r);
    free_seat(s);
    return end(s, MONK_OK);
}

int monk_abandon(monk_seat *s) {
    int r = begin(s);
    if (r) return r;
    monk_monitor *m = s->monitor;
    if (s->place == MONK_INSIDE) release(m, s, (event){.verb = LEAVE}, MONK_OUTSIDE);
    if (s->place == MONK_OUTSIDE) free_seat(s);
    else s->abandoned = 1, s->wish = MONK_WAITER;
    int due = settle(m);
    if (due >= 0) write_file(&m->seats[due]), pthread_cond_signal(&m->seats[due].bell);      /* under the lock, too */
    return end(s, MONK_OK);
}

unsigned monk_seat_number(const monk_seat *s) { return s->number; }

/* A look at a seat, under the lock because another thread may be settling it. */
int monk_place(const monk_seat *s) {
    if (!s) return MONK_RANGE;
    pthread_mutex_lock(&s->monitor->lock);
    int place = is_had(s) ? s->place : MONK_NOT_NOW;
    pthread_mutex_unlock(&s->monitor->lock);
    return place;
}

uint32_t monk_left(const monk_seat *s) {
    if (!s) return 0;
    pthread_mutex_lock(&s->monitor->lock);
    uint32_t left = is_had(s) ? s->left : 0;
    pthread_mutex_unlock(&s->monitor->lock);
    return left;
}

int monk_waiting(monk_seat *s, unsigned condition) {
    int r = begin(s);
    if (r) return r;
    if (mode_of(s) == MONK_AUTOMATIC) return end(s, MONK_NOT_OF_KIND);
    if (!in_conditions(s, condition)) return end(s, MONK_RANGE);
    r = refusal(s, MONK_INSIDE, 0);
    return end(s, r ? r : s->monitor->condition[condition].count);
}

int monk_flags(monk_seat *s, uint32_t *bits) {
    if (!bits) return MONK_RANGE;
    int r = begin(s);
    if (r) return r;
    if ((r = refusal(s, MONK_INSIDE, 0))) return end(s, r);
    *bits = s->monitor->bits;
    return end(s, MONK_OK);
}

int monk_set_wish(monk_seat *s, int wish) {
    int r = begin(s);
    if (r) return r;
    if (wish < MONK_ENTRY || wish > MONK_ANY) return end(s, MONK_RANGE);
    s->wish = (uint8_t)wish;
    return end(s, MONK_OK);
}

/* ---- Making and ending */

int monk_make(monk_monitor **out, const monk_shape *shape) {
    if (!out || !shape || !is_kind(shape->kind) || shape->seats < 1 || shape->seats > MOST_SEATS
        || shape->conditions > MOST_CONDITIONS || shape->flags > MOST_FLAGS || shape->budget > MOST_BUDGET
        || shape->budget == 1)
        return MONK_RANGE;
    uint32_t budget = shape->budget ? shape->budget : USUAL_BUDGET;
    monk_monitor *m = calloc(1, sizeof *m);
    event *events = malloc(sizeof *events * budget * shape->seats);
    if (!m || !events) return free(m), free(events), MONK_MEMORY;
    m->kind = shape->kind, m->rules = &all_rules[shape->kind], m->events = events, m->holder = -1;
    m->seat_count = shape->seats, m->conditions = shape->conditions, m->flag_count = shape->flags;
    pthread_mutex_init(&m->lock, NULL);
    pthread_condattr_t clock;
    pthread_condattr_init(&clock);
    pthread_condattr_setclock(&clock, CLOCK_MONOTONIC);
    for (unsigned i = 0; i < shape->seats; i++) {
        monk_seat *s = &m->seats[i];
        s->monitor = m, s->number = (uint8_t)i, s->place = MONK_OUTSIDE, s->left = budget, s->wish = MONK_WAITER;
        s->file = NO_FILE;
        s->dice = (shape->seed + 1) * 0x9e3779b97f4a7c15u + (i + 1) * 0xbf58476d1ce4e5b9u;
        if (!s->dice) s->dice = 1;
        pthread_cond_init(&s->bell, &clock);
    }
    pthread_condattr_destroy(&clock);
    *out = m;
    return MONK_OK;
}

int monk_stop(monk_monitor *m) {
    if (!m) return MONK_RANGE;
    pthread_mutex_lock(&m->lock);
    m->stopped = 1;
    for (unsigned i = 0; i < m->seat_count; i++)
        write_file(&m->seats[i]), pthread_cond_broadcast(&m->seats[i].bell);
    pthread_mutex_unlock(&m->lock);
    return MONK_OK;
}

static int has_taken(const monk_monitor *m) {
    for (unsigned i = 0; i < m->seat_count; i++)
        if (m->seats[i].taken) return 1;
    return 0;
}

/* Seats that were abandoned and still wait don't hinder freeing. */
static int has_lent(const monk_monitor *m) {
    for (unsigned i = 0; i < m->seat_count; i++)
        if (m->seats[i].taken && !m->seats[i].abandoned) return 1;
    return 0;
}

int monk_close(monk_monitor *m) {
    int answer = MONK_CLOSED;
    if (!m) return MONK_RANGE;
    pthread_mutex_lock(&m->lock);
    if (!m->closed) {
        monk_seat *s = spare_seat(m, 0, &answer);
        if (has_taken(m)) answer = MONK_BUSY;
        else if (s) {
            make_due(m, s->number, FREE);
            come_in(m, s);
            m->closed = 1;
        }
    }
    pthread_mutex_unlock(&m->lock);
    return answer;
}

int monk_free(monk_monitor *m) {
    if (!m) return MONK_OK;
    pthread_mutex_lock(&m->lock);
    int busy = has_lent(m);
    pthread_mutex_unlock(&m->lock);
    if (busy) return MONK_BUSY;
    for (unsigned i = 0; i < m->seat_count; i++) {
        pthread_cond_destroy(&m->seats[i].bell);
        if (m->seats[i].file != NO_FILE) close(m->seats[i].file);
    }
    pthread_mutex_destroy(&m->lock);
    free(m->events);
    free(m);
    return MONK_OK;
}

int monk_kind_of(const monk_monitor *m) { return m ? m->kind : MONK_RANGE; }
