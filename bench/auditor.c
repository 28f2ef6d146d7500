/* A yardstick for `monk audit`: the same audit in plain C, in one pass, and nothing in it is proved. It reads both
   versions of the text, judges all ten events, and prints what monk prints. It shares no code with monk.

   usage: auditor [--mapped] FILE      the file is read whole into memory; with --mapped it is mapped */
#include <fcntl.h>
#include <stdint.h>
#include <stdio.h>
#include <stdlib.h>
#include <string.h>
#include <sys/mman.h>
#include <sys/stat.h>
#include <unistd.h>

#include "auditor_text.h"

enum { MOST_SEATS = 32, MOST_CONDS = 8, MOST_EVENTS = 1 << 25 };
enum { ALLOWED, RANGE, CALL, TURN, PLACE, REPLY, CHOICE };
enum mode { BLOCKING, NON_BLOCKING, QUASI_BLOCKING, IMMEDIATE_RETURN, AUTOMATIC };
enum object { BUFFER, BOOK, SHOP };
enum turn { OPEN, OWNED, DUE };

/* ---- the object that is guarded */

static int object, size, count, oldest, written, chair;
static uint32_t items[64];
static const int CODES[] = {2, 4, 4}, PREDICATES[] = {2, 2, 3}, GREATEST[] = {64, 32, 64};

static uint64_t does(int code, uint32_t arg) {
    switch (object * 4 + code) {
    case BUFFER * 4 + 0:
        if (count == size) return 0;
        items[(oldest + count++) % 64] = arg;
        return 1;
    case BUFFER * 4 + 1: {
        if (!count) return 0;
        uint64_t item = items[oldest];
        oldest = (oldest + 1) % 64;
        count--;
        return item + 1;
    }
    case BOOK * 4 + 0: return written || count == size ? 0 : (count++, 1);
    case BOOK * 4 + 1: return !count ? 0 : (count--, 1);
    case BOOK * 4 + 2: return written || count ? 0 : (written = 1);
    case BOOK * 4 + 3: return !written ? 0 : (written = 0, 1);
    case SHOP * 4 + 0: return count == size ? 0 : (count++, 1);
    case SHOP * 4 + 1: return !count || chair ? 0 : (count--, chair = 1);
    case SHOP * 4 + 2: return chair != 1 ? 0 : (chair = 2, 1);
    default: return chair != 2 ? 0 : (chair = 0, 1);
    }
}

static int holds(int predicate) {
    switch (object * 4 + predicate) {
    case BUFFER * 4 + 0: return count < size;
    case BUFFER * 4 + 1: return count > 0;
    case BOOK * 4 + 0: return !written && count < size;
    case BOOK * 4 + 1: return !written && !count;
    case SHOP * 4 + 0: return count < size;
    case SHOP * 4 + 1: return count && !chair;
    default: return chair == 2;
    }
}

/* ---- the monitor */

struct queue { unsigned first, count; unsigned char seats[MOST_SEATS]; };

static int seats, conds, mode, entry_rank, waiter_rank, signaller_rank;
static struct queue waiters, signallers, conditions[MOST_CONDS];
static struct { unsigned char seat, predicate; } untils[MOST_SEATS];
static int waiting, turn, turn_seat, turn_queue, begun;
static uint32_t inside;

static void joins(struct queue *q, int seat) { q->seats[(q->first + q->count++) % MOST_SEATS] = seat; }

static int front(const struct queue *q) { return q->count ? q->seats[q->first % MOST_SEATS] : -1; }

static int takes_front(struct queue *q) {
    int seat = q->seats[q->first++ % MOST_SEATS];
    q->count--;
    return seat;
}

/* The place of the first wait whose predicate holds, or -1. */
static int ready(void) {
    for (int i = 0; i < waiting; i++)
        if (holds(untils[i].predicate)) return i;
    return -1;
}

/* Whether a release of the seat may choose this, and then the choice is made. */
static int chooses(const struct event *e) {
    switch (e->next) {
    case ENTRY:
        if (((waiters.count || ready() >= 0) && waiter_rank != entry_rank)
            || (signallers.count && signaller_rank != entry_rank)) return CHOICE;
        turn = OPEN;
        return ALLOWED;
    case WAITER:
        if (front(&waiters) != e->chosen || (signallers.count && signaller_rank > waiter_rank)) return CHOICE;
        takes_front(&waiters);
        break;
    case SIGNALLER:
        if (front(&signallers) != e->chosen || (waiters.count && waiter_rank > signaller_rank)
            || e->chosen == e->seat) return CHOICE;
        takes_front(&signallers);
        break;
    case READY: {
        int place = mode == AUTOMATIC ? ready() : -1;
        if (place < 0 || untils[place].seat != e->chosen) return CHOICE;
        memmove(untils + place, untils + place + 1, (--waiting - place) * sizeof untils[0]);
        break;
    }
    default: return CHOICE;
    }
    turn = DUE;
    turn_seat = e->chosen;
    turn_queue = e->next;
    return ALLOWED;
}

static int enters(const struct event *e) {
    if (turn != OPEN) return TURN;
    if (inside >> e->seat & 1) return PLACE;
    if (e->handed ? !begun : waiters.count || signallers.count || ready() >= 0) return PLACE;
    inside |= 1u << e->seat;
    begun = 1;
    turn = OWNED;
    turn_seat = e->seat;
    return ALLOWED;
}

static int signals(const struct event *e) {
    struct queue *q = &conditions[e->cond];
    if (!q->count) return e->next == STAY ? ALLOWED : CHOICE;
    joins(&waiters, takes_front(q));
    if (e->next == STAY) return !signallers.count && waiter_rank <= signaller_rank ? ALLOWED : CHOICE;
    joins(&signallers, e->seat);
    return chooses(e);
}

static int awaits(const struct event *e) {
    if (holds(e->cond)) return e->next == STAY ? ALLOWED : CHOICE;
    int reason = chooses(e);
    if (reason) return reason;
    untils[waiting].seat = e->seat;
    untils[waiting++].predicate = e->cond;
    return ALLOWED;
}

/* Whether the event has a condition or a predicate that is out of range, or one that the kind has no call for. */
static int is_out_of_range(const struct event *e) {
    if (e->seat >= seats || (e->next >= WAITER && e->chosen >= seats)) return 1;
    switch (e->verb) {
    case ACT: return e->code >= (uint64_t)CODES[object];
    case UNTIL: return e->cond >= PREDICATES[object];
    case SIGNAL_WAIT: return e->cond >= conds || e->wait_cond >= conds;
    case WAIT: case SIGNAL: case SIGNAL_LEAVE: case SIGNAL_ALL: return e->cond >= conds;
    default: return 0;
    }
}

static int is_no_call(int verb) {
    switch (verb) {
    case WAIT: return mode == AUTOMATIC;
    case UNTIL: return mode != AUTOMATIC;
    case SIGNAL: return mode == AUTOMATIC || mode == IMMEDIATE_RETURN;
    case SIGNAL_ALL: return mode != NON_BLOCKING;
    case SIGNAL_LEAVE: case SIGNAL_WAIT: return mode != IMMEDIATE_RETURN;
    default: return 0;
    }
}

static int judge(const struct event *e) {
    if (is_out_of_range(e)) return RANGE;
    if (is_no_call(e->verb)) return CALL;
    if (e->verb == ENTER) return enters(e);
    if (e->verb == RESUME) {
        if (turn != DUE || turn_seat != e->seat || turn_queue != e->queue) return TURN;
        turn = OWNED;
        return ALLOWED;
    }
    if (turn != OWNED || turn_seat != e->seat) return TURN;
    struct queue *q = &conditions[e->cond % MOST_CONDS];
    switch (e->verb) {
    case ACT: return does(e->code, e->arg) == e->reply ? ALLOWED : REPLY;
    case LEAVE:
        inside &= ~(1u << e->seat);
        return chooses(e);
    case WAIT:
        joins(q, e->seat);
        return chooses(e);
    case SIGNAL: return signals(e);
    case SIGNAL_LEAVE:
        if (q->count) joins(&waiters, takes_front(q));
        inside &= ~(1u << e->seat);
        return chooses(e);
    case SIGNAL_ALL:
        while (q->count) joins(&waiters, takes_front(q));
        return ALLOWED;
    case SIGNAL_WAIT:
        if (q->count) joins(&waiters, takes_front(q));
        joins(&conditions[e->wait_cond], e->seat);
        return chooses(e);
    default: return awaits(e);
    }
}

/* ---- the header */

static const struct { const char *name; int mode, waiter, signaller; } KINDS[] = {
    {"PB", BLOCKING, 3, 2},         {"NPB", BLOCKING, 2, 1},
    {"PNB", NON_BLOCKING, 2, 3},    {"NPNB", NON_BLOCKING, 1, 2},
    {"PQB", QUASI_BLOCKING, 2, 2},  {"NPQB", QUASI_BLOCKING, 1, 1},  {"PIR", IMMEDIATE_RETURN, 2, 1},
    {"NPIR", IMMEDIATE_RETURN, 1, 1}, {"PIS", AUTOMATIC, 2, 1},      {"NPIS", AUTOMATIC, 1, 1},
};
static const char *const OBJECTS[] = {"buffer", "book", "shop"};

static int read_kind(struct text *t) {
    if (!has_word(t)) return 0;
    for (int i = 0; i < 10; i++) {
        if (!takes(t, KINDS[i].name, strlen(KINDS[i].name))) continue;
        mode = KINDS[i].mode;
        entry_rank = 1;
        waiter_rank = KINDS[i].waiter;
        signaller_rank = KINDS[i].signaller;
        return 1;
    }
    return fails(t, WORD);
}

static int read_object(struct text *t) {
    if (!has_word(t)) return 0;
    for (int i = 0; i < 3; i++) {
        if (!takes(t, OBJECTS[i], strlen(OBJECTS[i]))) continue;
        object = i;
        return 1;
    }
    return fails(t, WORD);
}

/* The version, or 0 if the first line is no header. */
static int read_header(struct text *t) {
    t->flaw = 0;
    if (!TAKES("monk")) return 0;
    int version = number(t, 255);
    if (version < 1 || version > 2 || !read_kind(t)) return 0;
    seats = number(t, 255);
    conds = number(t, 255);
    if (!read_object(t)) return 0;
    size = number(t, 255);
    if (t->flaw || t->at == t->end || *t->at++ != '\n' || seats < 1 || seats > MOST_SEATS || conds > MOST_CONDS
        || size < 1) return 0;
    return version;
}

/* ---- the whole */

static int unreadable(unsigned line, int number) {
    static const char *const WORDS[] = {"", "header", "word", "number", "end", "long"};
    printf("unreadable %u %d %s\n", line, number, WORDS[number]);
    return 2;
}

static int audit(const unsigned char *start, const unsigned char *end) {
    struct text text = {start, end, 0}, *t = &text;
    if (start == end) return unreadable(1, HEADER);
    int version = read_header(t);
    if (!version) return unreadable(1, memchr(start, '\n', end - start) ? HEADER : END);
    int is_too_big = size > GREATEST[object], reason = ALLOWED;
    unsigned events = 0, step = 0;
    struct event e = {0};
    while (t->at < end) {
        const unsigned char *line = t->at;
        read_event(t, &e, version);
        if (t->flaw || events == MOST_EVENTS) {
            int is_finished = memchr(line, '\n', end - line) != NULL;
            return unreadable(events + 2, !is_finished ? END : events == MOST_EVENTS ? LONG : t->flaw);
        }
        events++;
        if (reason || is_too_big) continue;
        reason = judge(&e);
        if (reason) step = events;
    }
    static const char *const WORDS[] = {"", "range", "call", "turn", "place", "reply", "choice"};
    if (is_too_big) { puts("object"); return 2; }
    if (reason) { printf("forbidden %u %d %s\n", step, reason, WORDS[reason]); return 1; }
    printf("legal %u\n", events);
    return 0;
}

int main(int argc, char **argv) {
    int is_mapped = argc == 3 && !strcmp(argv[1], "--mapped");
    if (argc != 2 + is_mapped) return 3;
    int file = open(argv[argc - 1], O_RDONLY);
    struct stat about;
    if (file < 0 || fstat(file, &about)) return 4;
    size_t length = about.st_size;
    const unsigned char *at;
    if (is_mapped && length) {
        at = mmap(NULL, length, PROT_READ, MAP_PRIVATE, file, 0);
        if (at == MAP_FAILED) return 4;
    } else {
        unsigned char *text = malloc(length + 1);
        for (size_t done = 0; done < length;) {
            ssize_t got = text ? read(file, text + done, length - done) : -1;
            if (got <= 0) return 4;
            done += got;
        }
        at = text;
    }
    return audit(at, at + length);
}
