/* layer_files.h - histories and the report. Part of libmonk_pthread.c. */
#ifndef LAYER_FILES_H
#define LAYER_FILES_H

#include "layer_remarks.h"

static const char *const standings[] = {
    "away",  "at the entry", "inside", "waits", "signalled, comes in", "signaller, comes back in",
    "ghost", "ghost",        "ghost"};

static long ended_volumes, ended_timeouts, ended_outside; /* of monitors whose mutex was destroyed */

static void tell_seat(struct output *file, struct monitor *m, int n) {
    struct place *p = &m->places[n];
    struct thread *t = p->who;
    int standing = p->standing;
    if (standing == AWAY) return;
    const char *end = t && t->has_ended ? " (the thread has ended)" : "";
    put_line(file, "seat %d %d thread %d %s%s\n", m->serial, n, t ? (int)t->index : NONE, standings[standing], end);
    if (standing != WAITS && standing != GHOST_WAITS) return;
    put_line(file, "on %d %d %d %s\n", m->serial, n, p->condition, name_of(t ? t->from : NULL).text);
}

static void tell_names(struct output *file, struct monitor *m) {
    put_line(file,
             "monitor %d %s volumes %ld timeouts %ld passed_on %ld taken_over %ld outside %ld late_renewals %ld\n",
             m->serial, name_of(m->known.address).text, m->volumes + 1, m->timeouts, m->passed_on, m->taken_over,
             m->outside, m->late_renewals);
    if (m->first_wait) put_line(file, "first %d %s\n", m->serial, name_of(m->first_wait).text);
    for (int k = 0; k < CONDITIONS; k++)
        if (m->conditions[k]) put_line(file, "condition %d %d %s\n", m->serial, k, name_of(m->conditions[k]).text);
}

/* What threads do that wait for no monitor. By turns each has a last call. */
static void tell_places(struct output *file) {
    for (struct thread *t = every_thread; t; t = t->next) {
        const char *does = t->does;
        if (!does || t->has_ended || (is_by_turns(t) && t->turn.state != BLOCKS)) continue;
        put_line(file, "does %u %s %s\n", t->index, name_of(t->at).text, does);
    }
}

static void tell_monitor(struct output *file, struct monitor *m) {
    tell_names(file, m);
    for (int n = 0; n < SEATS; n++) tell_seat(file, m, n);
}

/* ---- Histories: DIR/MONITOR.VOLUME, and beside them DIR/MONITOR.names */

static void open_history(struct output *it, struct monitor *m, const char *ending, enum opening how) {
    mkdir(asked.history, 0755);
    snprintf(it->name, sizeof it->name, "%s/%d.%s", asked.history, m->serial, ending);
    open_output(it, how);
}

/* The names are written in parts, unless one was lost. */
static int open_names(struct output *it, struct monitor *m) {
    if (!asked.history || m->names == LOST_NAMES) return 0;
    open_history(it, m, "names", m->names == HAS_NAMES ? MORE : NEW);
    return 1;
}

static void close_names(struct output *it, struct monitor *m) { m->names = close_output(it) ? HAS_NAMES : LOST_NAMES; }

/* How many seats and conditions were used, so that pictures have no empty lanes. One event of the steward may be the
   look. */
static int count_used_seats(struct hall *h, int is_look) {
    if (monk_left(h->seats[STEWARD]) + (uint32_t)is_look < h->budget) return SEATS;
    int seats = NUMBERS;
    while (seats > 1 && monk_left(h->seats[seats - 1]) == h->budget) seats--;
    return seats;
}

static int count_used_conditions(struct monitor *m) {
    int count = CONDITIONS;
    while (count > 1 && !m->conditions[count - 1]) count--;
    return count;
}

/* The text without its last line. The visit that reads isn't the program's, and a history is legal without its last
   event. */
static size_t without_last_event(const char *text, size_t length) {
    do length--;
    while (length > 0 && text[length - 1] != '\n');
    return length;
}

struct text {
    const char *first;
    size_t length;
};

/* The history of a hall, whose events are given. Its first line says what was used. */
static void write_volume(struct monitor *m, struct hall *h, int is_look, struct text events) {
    struct output file;
    char volume[16];
    snprintf(volume, sizeof volume, "%u", h->volume);
    open_history(&file, m, volume, NEW);
    put_line(&file, "monk 3 %s %d %d flags 1", monk_kind_name(asked.kind), count_used_seats(h, is_look),
             count_used_conditions(m));
    put_bytes(&file, events.first, events.length);
    close_output(&file);
}

/* Writes the history of a hall, by a seat that is inside. Not if the seat is in a call. */
static int save_volume(struct monitor *m, struct hall *h, int n) {
    char *text;
    size_t length;
    if (!asked.history || monk_history(h->monitor, h->seats[n], &text, &length)) return 0;
    int is_look = n == STEWARD && m->inside != STEWARD;
    if (is_look) length = without_last_event(text, length);
    const char *events = memchr(text, '\n', length);
    if (events) write_volume(m, h, is_look, (struct text){events, length - (size_t)(events - text)});
    free(text);
    return 1;
}

/* The seats whose waits were given up before this volume ended: the next one begins without them. */
static void save_ghosts(struct monitor *m, uint32_t ghosts) {
    struct output file;
    if (!ghosts || !open_names(&file, m)) return;
    for (int n = 0; n < SEATS; n++)
        if (ghosts >> n & 1) put_line(&file, "ghost %d %ld %d\n", m->serial, m->volumes + 1, n);
    close_names(&file, m);
}

static void save_names(struct monitor *m) {
    struct output file;
    if (!open_names(&file, m)) return;
    tell_monitor(&file, m);
    close_names(&file, m);
}

#endif
