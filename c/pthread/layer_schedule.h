/* layer_schedule.h - who has the next turn: by a walk of dice, by priorities that change at times, or as a schedule
   says. What isn't as it would be by itself is kept, and written as the schedule of this run. By itself a thread goes
   on as long as it can, and after it the oldest. Part of libmonk_pthread.c. */
#ifndef LAYER_SCHEDULE_H
#define LAYER_SCHEDULE_H

#include "layer_shakes.h"

enum { MOST_MEMBERS = 512, MOST_KNOWN = 4096, MOST_CHANGES = 1 << 18, FULL_STEPS = 20000 };
/* One of so many turns lowers the priority of the thread that has it. */
enum { CHANGE_IN = 40, FIRST_PRIORITIES = 1 << 30 };

/* At the point of a thread (its calls, and wherever it sleeps) the turn goes to another. */
struct change {
    unsigned thread, point, next;
    int following; /* of those that are asked for, the next of this thread */
    const char *does;
    const void *at;
};

static struct {
    struct change *made;  /* in this run */
    struct change *asked; /* as the file says, from 1 on */
    int first[MOST_KNOWN], last[MOST_KNOWN]; /* of a thread, by its index: what is asked for; 0: nothing */
    int count_made, count_asked;
    int missed; /* changes that were asked for, and couldn't be made */
    int is_too_long;
    uint64_t dice;
    long lowest;
} schedule;

static unsigned roll_for_all(void) {
    uint64_t *dice = &schedule.dice;
    if (!*dice) *dice = asked.seed * 0x9e3779b97f4a7c15u + 0xbf58476d1ce4e5b9u;
    *dice ^= *dice << 13, *dice ^= *dice >> 7, *dice ^= *dice << 17;
    return (unsigned)(*dice >> 33);
}

static long first_priority(void) {
    return asked.turns == BY_PRIORITIES ? (long)(roll_for_all() % FIRST_PRIORITIES) : 0;
}

/* A run of many steps changes turns more seldom as it goes on, so that it ends in time. */
static int goes_on_itself(const struct thread *self, unsigned long steps) {
    (void)self;
    return asked.turns == BY_WALK && steps > FULL_STEPS && roll_for_all() % (steps / FULL_STEPS + 1) != 0;
}

static struct change *room_for_changes(void) {
    size_t size = MOST_CHANGES * sizeof(struct change);
    void *room = mmap(NULL, size, PROT_READ | PROT_WRITE, MAP_PRIVATE | MAP_ANONYMOUS | MAP_NORESERVE, -1, 0);
    return room == MAP_FAILED ? NULL : room;
}

static void note_change(const struct thread *self, const struct thread *next) {
    if (!schedule.made) schedule.made = room_for_changes();
    schedule.is_too_long = !schedule.made || schedule.count_made == MOST_CHANGES;
    if (schedule.is_too_long) return;
    schedule.made[schedule.count_made++] =
        (struct change){self->index, self->turn.points, next->index, 0, self->does, self->at};
}

static struct thread *with_index(struct thread *const *able, int count, unsigned index) {
    for (int i = 0; i < count; i++)
        if (able[i]->index == index) return able[i];
    return NULL;
}

/* What was asked for at this point; null if nothing was, or it can't be. What was asked for earlier points is over. */
static struct thread *by_schedule(const struct thread *self, struct thread *const *able, int count) {
    if (self->index >= MOST_KNOWN) return NULL;
    int *first = &schedule.first[self->index];
    while (*first && schedule.asked[*first].point < self->turn.points)
        schedule.missed++, *first = schedule.asked[*first].following;
    if (!*first || schedule.asked[*first].point != self->turn.points) return NULL;
    struct thread *next = with_index(able, count, schedule.asked[*first].next);
    schedule.missed += !next;
    *first = schedule.asked[*first].following;
    return next;
}

static struct thread *by_priorities(struct thread *self, struct thread *const *able, int count) {
    struct thread *best = able[0];
    if (self && roll_for_all() % CHANGE_IN == 0) self->turn.priority = --schedule.lowest;
    for (int i = 1; i < count; i++)
        if (able[i]->turn.priority > best->turn.priority) best = able[i];
    return best;
}

static struct thread *chosen(struct thread *self, struct thread *const *able, int count) {
    struct thread *usual = self ? with_index(able, count, self->index) : NULL, *next = NULL;
    if (!usual) usual = able[0];
    if (asked.turns == BY_WALK) next = able[roll_for_all() % (unsigned)count];
    if (asked.turns == BY_PRIORITIES) next = by_priorities(self, able, count);
    if (asked.turns == BY_SCHEDULE && self) next = by_schedule(self, able, count);
    if (!next) next = usual;
    if (self && next != usual) note_change(self, next);
    return next;
}

/* ---- Files */

static void ask_for(struct change change) {
    int number = ++schedule.count_asked;
    schedule.asked[number] = change;
    if (change.thread >= MOST_KNOWN) return;
    int *last = &schedule.last[change.thread];
    *(*last ? &schedule.asked[*last].following : &schedule.first[change.thread]) = number;
    *last = number;
}

static void read_schedule(void) {
    char line[LONGEST_LINE];
    struct change it = {0};
    if (!asked.play) return;
    FILE *file = fopen(asked.play, "re");
    if (!file) refuse_setting("MONK_PLAY", asked.play, strerror(errno));
    if (!fgets(line, sizeof line, file) || strcmp(line, "monk schedule 1\n"))
        refuse_setting("MONK_PLAY", asked.play, "it is no schedule of monk-try");
    schedule.asked = room_for_changes();
    while (schedule.asked && schedule.count_asked < MOST_CHANGES - 1 && fgets(line, sizeof line, file))
        if (sscanf(line, "turn %u %u %u", &it.thread, &it.point, &it.next) == 3) ask_for(it);
    fclose(file);
}

static void save_schedule(void) {
    struct output file;
    if (!asked.schedule) return;
    snprintf(file.name, sizeof file.name, "%s", asked.schedule);
    open_output(&file, NEW);
    put_line(&file, "monk schedule 1\n");
    for (int i = 0; i < schedule.count_made && !schedule.is_too_long; i++) {
        const struct change *it = &schedule.made[i];
        put_line(&file, "turn %u %u %u %s %s\n", it->thread, it->point, it->next, name_of(it->at).text,
                 it->does ? it->does : "begins");
    }
    close_output(&file);
}

#endif
