/* layer_halls.h - the library's monitors for one monitor of the program: each is a volume of its history. Part of
   libmonk_pthread.c.

   A seat has a budget of events. When one has spent half of it, the next thread that is inside while nobody is on the
   way makes a new hall, and stops the old one. All who wait wait in the new hall in the same order. A thread that
   sleeps in the old hall comes back from it, and goes on in the new one. The renewer's seat stays inside the old hall
   for ever, so nobody else comes in there. */
#ifndef LAYER_HALLS_H
#define LAYER_HALLS_H

#include "layer_files.h"

enum { FIRST_BUDGET = 1024, GREATEST_BUDGET = 65536, DOUBLINGS = 6, FEW_EVENTS = 12 };

static uint32_t budget_of(unsigned volume) {
    if (asked.budget) return asked.budget;
    return volume > DOUBLINGS ? GREATEST_BUDGET : (uint32_t)FIRST_BUDGET << (volume - 1);
}

static struct hall *make_hall(unsigned volume, int serial) {
    struct hall *h = calloc(1, sizeof *h);
    uint64_t seed = asked.seed * 1000003 + (unsigned)serial * 101u + volume;
    monk_shape shape = {
        .kind = asked.kind, .seats = SEATS, .conditions = CONDITIONS, .budget = budget_of(volume), .seed = seed};
    if (!h || monk_make(&h->monitor, &shape)) {
        free(h);
        return NULL;
    }
    for (int n = 0; n < SEATS; n++) {
        monk_take_seat(h->monitor, &h->seats[n]);
        monk_set_wish(h->seats[n], asked.wish);
    }
    h->volume = volume, h->budget = shape.budget;
    return h;
}

static void free_hall(struct hall *h) {
    for (int n = 0; n < SEATS; n++) monk_abandon(h->seats[n]);
    monk_free(h->monitor);
    free(h);
}

/* The answer of a call that can't be refused. If it is refused, what the layer knows of the monitor is wrong, and the
   run is worth nothing. */
static int sure(struct monitor *m, int answer, const char *call) {
    if (answer < 0) refuse_of(m, "%s: %s", call, monk_strerror(answer));
    return answer;
}

/* The hall that is named there. From now on nobody frees it until the number is given back or uses another. */
static struct hall *use(struct place *p, struct hall *_Atomic *where) {
    for (;;) {
        struct hall *h = atomic_load(where);
        atomic_store(&p->used, h);
        if (atomic_load(where) == h) return h;
    }
}

static int is_used(struct monitor *m, const struct hall *h) {
    for (int n = 0; n < SEATS; n++)
        if (m->places[n].used == h) return 1;
    return 0;
}

/* Under the monitor's lock. */
static void free_retired(struct monitor *m) {
    struct hall **at = &m->retired;
    while (*at) {
        struct hall *h = *at;
        if (is_used(m, h)) {
            at = &h->next;
            continue;
        }
        *at = h->next;
        free_hall(h);
    }
}

/* Nobody comes into the hall any more, and threads that sleep there come back. Under the monitor's lock. */
static void retire(struct monitor *m, struct hall *h) {
    monk_stop(h->monitor);
    h->next = m->retired, m->retired = h;
    free_retired(m);
}

/* Of those who wait and haven't been seen, the one with the lowest ticket; or NONE. */
static int next_waiting(struct monitor *m, uint32_t seen) {
    int first = NONE;
    for (int n = 0; n < NUMBERS; n++)
        if (m->places[n].standing == WAITS && !(seen & 1u << n) &&
            (first == NONE || m->places[n].ticket < m->places[first].ticket))
            first = n;
    return first;
}

/* Lets all who wait do so in the new hall, in the same order; returns their numbers. Under the monitor's lock. */
static uint32_t carry_over(struct monitor *m, struct hall *new) {
    uint32_t moved = 0;
    for (int n; (n = next_waiting(m, moved)) != NONE; moved |= 1u << n) {
        sure(m, monk_enter(new->seats[n]), "enter");
        sure(m, monk_start_wait(new->seats[n], (unsigned)m->places[n].condition), "wait");
    }
    return moved;
}

/* A seat that was carried over may have become a ghost meanwhile: then it is a ghost of the new hall. All other
   ghosts are left behind; returns those that waited on a condition. */
static uint32_t move_numbers(struct monitor *m, struct hall *new, uint32_t moved) {
    uint32_t left = 0;
    for (int n = 0; n < SEATS; n++) {
        int standing = m->places[n].standing;
        if (moved >> n & 1)
            m->places[n].home = new;
        else if (standing == GHOST_WAITS)
            left |= 1u << n;
        if (moved >> n & 1 || (standing != GHOST_WAITS && standing != GHOST_LATE)) continue;
        if (standing == GHOST_LATE) atomic_fetch_sub(&m->due, 1);
        give_number(m, n);
    }
    return left;
}

/* A new hall takes the place of the old one, by the seat n that is inside. Nobody may be on the way: so only who
   waits where has to be carried over. 0 if there is no memory. */
static int renew(struct monitor *m, int n) {
    struct hall *old = m->hall, *new = make_hall(old->volume + 1, m->serial);
    if (!new) return 0;
    save_volume(m, old, n);
    take(&m->lock);
    uint32_t moved = carry_over(m, new);
    sure(m, monk_enter(new->seats[n]), "enter");
    atomic_store(&m->hall, new);
    uint32_t ghosts = move_numbers(m, new, moved);
    m->places[n].used = m->places[n].home = new;
    retire(m, old);
    let(&m->lock);
    save_ghosts(m, ghosts);
    m->volumes++;
    m->wants_renewal = 0;
    return 1;
}

static int may_renew(const struct monitor *m) { return m->transit == 0 && m->deferred == NONE; }

/* By the seat n that is inside. While somebody is on the way, releases prefer waiters inside, so that soon nobody
   is. */
static void renew_if_due(struct monitor *m, int n) {
    struct hall *h = m->hall;
    uint32_t left = monk_left(h->seats[n]);
    if (left < h->budget / 2) m->wants_renewal = 1;
    if (!m->wants_renewal || (may_renew(m) && renew(m, n))) return;
    monk_set_wish(h->seats[n], MONK_WAITER);
    if (left < h->budget / 4) m->late_renewals++;
    if (left < FEW_EVENTS) refuse_of(m, "a seat's events are spent, and its monitor could not be renewed");
}

#endif
