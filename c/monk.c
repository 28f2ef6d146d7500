/* monk.c - monk.h over the proved kernel (monk_kernel.h): seats are lent and given back, monitors made and closed,
 * and histories become files. In calls.c threads sleep and are woken. The kernel decides who goes on, and records it.
 * Nothing in these files is proved. docs/C.md argues why no wake-up is missed. */
#include "seats.h"
#include <fcntl.h>
#include <limits.h>
#include <sched.h>

#ifndef MONK_BUILT
#define MONK_BUILT "proved kernel"
#endif

/* ---- Seats */

/* Which of the free seats that have enough events for a visit. */
typedef enum choice { LOWEST, HIGHEST, MOST_LEFT } choice;

/* Why there is no such seat. Under the lock. */
static int refused_a_seat(monk_monitor *m) {
    for (unsigned i = 0; i < m->seat_count; i++)
        if (lent_of(&m->seats[i]) == FREE) return MONK_SPENT;
    return MONK_NO_SEAT;
}

static monk_seat *spare_seat(monk_monitor *m, choice of) {
    monk_seat *found = NULL;
    for (unsigned i = 0; i < m->seat_count; i++) {
        monk_seat *s = &m->seats[i];
        if (lent_of(s) != FREE || atomic_load(&s->left) < VISIT) continue;
        int has_more = found && atomic_load(&s->left) > atomic_load(&found->left);
        if (!found || of == HIGHEST || (of == MOST_LEFT && has_more)) found = s;
    }
    return found;
}

/* The seat of an earlier look whose turn didn't come in time. It still waits, and can't be taken out of its queue. So
 * the next look uses it, and not another seat. The next look polls for it from now on, so its turn isn't missed.
 * Under the lock. */
static monk_seat *visitor_that_waits(monk_monitor *m) {
    for (unsigned i = 0; i < m->seat_count; i++) {
        monk_seat *s = &m->seats[i];
        if (!s->is_visitor || lent_of(s) != ABANDONED) continue;
        set_free(s);
        return s;
    }
    return NULL;
}

/* Lends the seat with most events left to a thread, so that threads which come and go use up all seats alike; and the
 * highest to a visitor. */
static int lend(monk_monitor *m, int is_visitor, monk_seat **seat) {
    int answer = MONK_CLOSED;
    lock(m);
    if (!atomic_load(&m->closed)) {
        monk_seat *s = is_visitor ? visitor_that_waits(m) : NULL;
        if (!s) s = spare_seat(m, is_visitor ? HIGHEST : MOST_LEFT);
        answer = s ? MONK_OK : refused_a_seat(m);
        if (s) {
            s->wish = MONK_WAITER, s->is_visitor = (uint8_t)is_visitor;
            *seat = lent_anew(s);
        }
    }
    unlock(m);
    return answer;
}

int monk_take_seat(monk_monitor *m, monk_seat **seat) { return m && seat ? lend(m, 0, seat) : MONK_RANGE; }

int monk_give_seat(monk_seat *s) {
    int r = begin(&s);
    if (r) return r;
    monk_monitor *m = s->monitor;
    if (place_of(s) != MONK_OUTSIDE) return end(s, MONK_NOT_NOW);
    lock(m);
    set_lent(s, FREE);              /* before the call ends: another thread's call finds one of the two */
    end(s, MONK_OK);
    unlock(m);                      /* after this the monitor may be freed */
    return MONK_OK;
}

int monk_abandon(monk_seat *s) {
    size_t word = NOBODY;
    int r = begin(&s);
    if (r) return r;
    monk_monitor *m = s->monitor;
    unwatch(s);
    lock(m);
    if (place_of(s) == MONK_WAITING) {
        set_lent(s, ABANDONED);
        mind(s);
    } else {
        show_from_inside(s);
        noted(s, monk_k_leave(s->token, wish_of(s), &word), 1);     /* refused if the seat is outside */
        if (word != NOBODY) ring(m, word);
        set_free(s);
    }
    settle_abandoned(m);
    end(s, MONK_OK);
    unlock(m);
    return MONK_OK;
}

unsigned monk_seat_number(const monk_seat *s) { return s ? seat_of(s)->number : 0; }
int monk_place(const monk_seat *s) {
    if (!s) return MONK_RANGE;
    return is_had_by(s) ? atomic_load(&seat_of(s)->place) : MONK_NOT_NOW;
}
uint32_t monk_left(const monk_seat *s) { return s && is_had_by(s) ? atomic_load(&seat_of(s)->left) : 0; }

int monk_set_wish(monk_seat *s, int wish) {
    int r = begin(&s);
    if (r) return r;
    if (wish < MONK_ENTRY || wish > MONK_ANY) return end(s, MONK_RANGE);
    s->wish = (uint8_t)wish;
    return end(s, MONK_OK);
}

/* ---- Making and ending */

static int is_in_range(const monk_shape *shape) {
    return shape->kind >= 0 && shape->kind <= MONK_NPIS && shape->seats >= 1 && shape->seats <= MOST_SEATS
        && shape->conditions <= MOST_CONDITIONS && shape->flags <= MOST_FLAGS && shape->budget <= MOST_BUDGET
        && shape->budget != 1;
}

/* The dice of a seat: never 0, and not those of another seat. */
static uint64_t dice_of(uint64_t seed, unsigned number) {
    uint64_t dice = (seed + 1) * 0x9e3779b97f4a7c15u + (number + 1) * 0xbf58476d1ce4e5b9u;
    return dice ? dice : 1;
}

static void set_up(monk_monitor *m, const monk_shape *shape, uint32_t budget) {
    for (unsigned i = 0; i < shape->seats; i++) {
        monk_seat *s = &m->seats[i];
        s->monitor = m, s->token = &m->tokens[i], s->number = (uint8_t)i;
        s->wish = MONK_WAITER, s->dice = dice_of(shape->seed, i);
        s->waits_on = NO_CONDITION, s->file = NO_FILE;
        s->place = MONK_OUTSIDE;
        s->left = budget;
    }
}

/* How many processors' time a container grants this process, by its control group: UINT_MAX if it sets no limit. */
static unsigned quota(void) {
    char text[64];
    unsigned long granted, period;
    int file = open("/sys/fs/cgroup/cpu.max", O_RDONLY | O_CLOEXEC);
    if (file < 0) return UINT_MAX;
    ssize_t length = read(file, text, sizeof text - 1);
    close(file);
    text[length > 0 ? length : 0] = 0;
    if (sscanf(text, "%lu %lu", &granted, &period) != 2 || period == 0) return UINT_MAX;
    return granted / period > 1 ? (unsigned)(granted / period) : 1;
}

/* On how many processors this thread may run; 1 if that isn't known. The quota is read once. */
static unsigned processors(void) {
    static _Atomic unsigned known;
    cpu_set_t set;
    unsigned allowed = sched_getaffinity(0, sizeof set, &set) == 0 ? (unsigned)CPU_COUNT(&set) : 1;
    if (!atomic_load(&known)) atomic_store(&known, quota());
    return allowed < atomic_load(&known) ? allowed : atomic_load(&known);
}

int monk_make(monk_monitor **out, const monk_shape *shape) {
    if (!out || !shape || !is_in_range(shape)) return MONK_RANGE;
    size_t each = (monk_k_seat_size() + LINE - 1) / LINE * LINE;
    monk_monitor *m = aligned_alloc(LINE, sizeof *m);
    void *room = aligned_alloc(LINE, each * shape->seats);
    if (!m || !room) return free(m), free(room), MONK_MEMORY;
    *m = (monk_monitor){.kind = shape->kind, .seat_count = shape->seats, .flag_count = shape->flags, .room = room,
        .processors = processors()};
    for (size_t at = 0; at < each * shape->seats; at++) ((char *)room)[at] = 0;
    for (unsigned i = 0; i < shape->seats; i++) m->tokens[i].at = (char *)room + each * i;
    uint32_t budget = shape->budget ? shape->budget : USUAL_BUDGET;
    int answer = monk_k_make((uint8_t)shape->kind, (uint8_t)shape->conditions, (uint8_t)shape->flags, budget, m->tokens,
        shape->seats);
    if (answer) return free(m), free(room), answer;
    set_up(m, shape, budget);
    *out = m;
    return MONK_OK;
}

int monk_stop(monk_monitor *m) {
    if (!m) return MONK_RANGE;
    show(&m->stopped);
    atomic_store(&m->stopped, 1);
    for (unsigned i = 0; i < BELLS; i++) ring_for(&m->bells[i], INT32_MAX);
    return MONK_OK;
}

static int has_lent(monk_monitor *m, int also_abandoned) {
    for (unsigned i = 0; i < m->seat_count; i++) {
        lent how = lent_of(&m->seats[i]);
        if (how == TAKEN || (also_abandoned && how == ABANDONED)) return 1;
    }
    return 0;
}

int monk_kind_of(const monk_monitor *m) { return m ? m->kind : MONK_RANGE; }
const char *monk_build(void) { return MONK_BUILT; }

/* ---- The history */

/* The text by a seat that is inside, whose call is under way. */
static int text_of(monk_seat *s, char **text, size_t *length) {
    int64_t size = monk_k_history(s->token, NULL, 0);
    if (size < 0) return (int)size;
    char *page = malloc((size_t)size + 1);
    if (!page) return MONK_MEMORY;
    int64_t written = monk_k_history(s->token, (uint8_t *)page, (size_t)size);
    if (written != size) return free(page), written < 0 ? (int)written : MONK_MEMORY;
    page[size] = 0;
    *text = page;
    if (length) *length = (size_t)size;
    return MONK_OK;
}

/* Any thread may ask for it, but only one call at a time may use a token. */
static int text_of_closed(monk_monitor *m, char **text, size_t *length) {
    lock(m);
    int r = text_of(m->reader, text, length);
    unlock(m);
    return r;
}

static int history_by(monk_seat *s, char **text, size_t *length) {
    int r = begin(&s);
    if (r) return r;
    return end(s, text_of(s, text, length));
}

int monk_history(monk_monitor *m, monk_seat *by, char **text, size_t *length) {
    if (!m || !text || (by && seat_of(by)->monitor != m)) return MONK_RANGE;
    if (atomic_load(&m->closed)) return text_of_closed(m, text, length);
    if (by) return history_by(by, text, length);
    monk_seat *visitor;
    int r = lend(m, 1, &visitor);
    if (r == MONK_CLOSED) return text_of_closed(m, text, length);
    if (r) return r;
    monk_arrive(visitor);                   /* refused if it has waited since an earlier look */
    r = monk_await(visitor, PATIENCE_MS) == MONK_INSIDE ? history_by(visitor, text, length) : MONK_BUSY;
    monk_abandon(visitor);
    return r;
}

/* ---- Closing and freeing */

/* The last visit. Everybody is outside, so the monitor is free, and the seat comes in at once. It stays: nobody
 * comes in any more, and the history can be read through it for as long as the monitor is there. Under the lock. */
static int close_by(monk_monitor *m, monk_seat *s) {
    int answer = monk_k_close(m->tokens, m->seat_count, s->number);
    if (answer < 0) return answer;
    if (answer != MONK_INSIDE) return MONK_BUSY;
    m->reader = s;
    return MONK_OK;
}

int monk_close(monk_monitor *m) {
    int answer = MONK_CLOSED;
    if (!m) return MONK_RANGE;
    lock(m);
    if (!atomic_load(&m->closed)) {
        monk_seat *s = spare_seat(m, LOWEST);
        if (has_lent(m, 1)) answer = MONK_BUSY;
        else answer = s ? close_by(m, s) : MONK_SPENT;
        if (!answer) atomic_store(&m->closed, 1);
    }
    unlock(m);
    return answer;
}

int monk_free(monk_monitor *m) {
    if (!m) return MONK_OK;
    lock(m);
    int busy = has_lent(m, 0);
    unlock(m);
    if (busy) return MONK_BUSY;
    for (unsigned i = 0; i < m->seat_count; i++) {
        monk_k_drop(&m->tokens[i]);
        if (m->seats[i].file != NO_FILE) syscall(SYS_close, m->seats[i].file);
    }
    free(m->room);
    free(m);
    return MONK_OK;
}
