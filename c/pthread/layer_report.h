/* layer_report.h - the report, and the last volume of each history, at the end of a run. Part of libmonk_pthread.c. */
#ifndef LAYER_REPORT_H
#define LAYER_REPORT_H

#include "layer_elsewhere.h"

enum { LOOK_MS = 300, LOOKS_IN_ALL = 10 };

static struct timespec look_limit(int looks) {
    struct timespec limit = time_of_limits();
    if (looks > 0) limit.tv_nsec += LOOK_MS * (NS_A_SECOND / MS_A_SECOND);
    if (limit.tv_nsec >= NS_A_SECOND) limit.tv_sec++, limit.tv_nsec -= NS_A_SECOND;
    return limit;
}

/* A thread that ended inside won't call by its seat again. */
static void save_by_ended(struct monitor *m) {
    struct thread *t = m->owner;
    if (t && t->has_ended) save_volume(m, m->hall, m->inside);
}

/* The program goes on after this: the steward comes in and leaves, or stays as a ghost if its turn doesn't come.
   Whether it came. */
static int save_by_visit(struct monitor *m, int looks) {
    struct timespec limit = look_limit(looks);
    if (come_in_by(m, STEWARD, &limit) != ENTERED) return save_by_ended(m), 0;
    save_volume(m, m->hall, STEWARD);
    monk_leave(seat_in(m, STEWARD));
    released(m);
    give_number(m, STEWARD);
    return 1;
}

/* The process ends after this. So no seat needs to leave, and the seat that is inside may be used. (A thread that
   refuses may hold the monitor's lock.) */
static int save_at_last(struct monitor *m, int looks) {
    struct hall *h = use(&m->places[STEWARD], &m->hall);
    int inside = m->inside;
    if (inside != NONE && save_volume(m, h, inside)) return 1;
    return monk_enter_within(h->seats[STEWARD], looks > 0 ? LOOK_MS : 0) == MONK_INSIDE && save_volume(m, h, STEWARD);
}

/* By whichever seat is inside: its thread may not know yet that it was let in. */
static void save_by_another(struct monitor *m) {
    struct hall *h = m->hall;
    int n = 0;
    while (n < NUMBERS && monk_await(h->seats[n], 0) != MONK_INSIDE) n++;
    if (n < NUMBERS) save_volume(m, h, n);
}

/* Looks are patient until some of them were in vain. */
static void save_last_volume(struct monitor *m, int is_last, int *looks) {
    if (!is_steward_free(m)) return;
    lend(m, STEWARD, self());
    if (is_last ? save_at_last(m, *looks) : save_by_visit(m, *looks)) return;
    --*looks;
    if (is_last) save_by_another(m);
}

static void tell_end(struct output *file, const char *why) {
    long volumes = ended_volumes, timeouts = ended_timeouts, outside = ended_outside;
    for (struct monitor *m = every_monitor; m; m = m->next)
        if (!m->is_dead) volumes += m->volumes + 1, timeouts += m->timeouts, outside += m->outside;
    put_line(file, "end %s kind %s threads %u monitors %d volumes %ld timeouts %ld outside %ld alone %d\n", why,
             monk_kind_name(asked.kind), thread_count, serials, volumes, timeouts, outside, waits_left_alone);
}

/* The user named this file, so it may be there. */
static void save_report(const char *why) {
    struct output file;
    if (!asked.report) return;
    strcpy(file.name, asked.report);
    open_output(&file, NAMED);
    tell_end(&file, why), tell_remarks(&file), tell_woken(&file), tell_turns(&file), tell_elsewhere(&file);
    tell_places(&file);
    tell_descents(&file);
    for (struct monitor *m = every_monitor; m; m = m->next)
        if (!m->is_dead) tell_monitor(&file, m);
    close_output(&file);
}

static void save_all(const char *why, int is_last) {
    int looks = LOOKS_IN_ALL;
    save_report(why);
    save_schedule();
    for (struct monitor *m = every_monitor; m && asked.history; m = m->next) {
        if (m->is_dead) continue;
        save_names(m);
        save_last_volume(m, is_last, &looks);
    }
}

#endif
