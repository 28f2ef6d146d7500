/* auditor_text.h - how the yardstick of auditor.c reads the text, in one pass. */
#ifndef MONK_AUDITOR_TEXT_H
#define MONK_AUDITOR_TEXT_H

#include <stdint.h>
#include <string.h>

enum { HEADER = 1, WORD, NUMBER, END, LONG };
enum verb { ENTER, ACT, LEAVE, WAIT, SIGNAL, SIGNAL_LEAVE, UNTIL, RESUME, SIGNAL_ALL, SIGNAL_WAIT };
enum next { STAY, ENTRY, WAITER, SIGNALLER, READY };

/* What is left of the text, and the first flaw of its line. The readers are inlined, so that it stays in registers. */
struct text { const unsigned char *at, *end; int flaw; };

#define INLINE static inline __attribute__((always_inline))

struct event { int verb, seat, cond, wait_cond, handed, queue, next, chosen; uint64_t code, arg, reply; };

/* Takes the word if it is the next one, and a space or the line's end follows it. */
INLINE int takes(struct text *t, const char *word, size_t length) {
    if ((size_t)(t->end - t->at) <= length || *t->at != (unsigned char)*word) return 0;
    if (memcmp(t->at, word, length) || (t->at[length] != ' ' && t->at[length] != '\n')) return 0;
    t->at += length;
    return 1;
}

#define TAKES(word) takes(t, word, sizeof word - 1)

/* Steps over the space before the next word of the line. */
INLINE int has_word(struct text *t) {
    if (t->at < t->end && *t->at == ' ') { t->at++; return 1; }
    if (!t->flaw) t->flaw = WORD;
    return 0;
}

INLINE int fails(struct text *t, int number) {
    if (!t->flaw) t->flaw = number;
    return 0;
}

INLINE uint64_t number(struct text *t, uint64_t most) {
    if (!has_word(t)) return 0;
    const unsigned char *first = t->at;
    uint64_t value = 0;
    while (t->at < t->end && (unsigned)(*t->at - '0') < 10) {
        unsigned digit = *t->at++ - '0';
        int is_above = __builtin_mul_overflow(value, 10, &value) || __builtin_add_overflow(value, digit, &value);
        if (is_above || value > most) return fails(t, NUMBER);
    }
    if (t->at == first || (*first == '0' && t->at - first > 1)) return fails(t, NUMBER);
    if (t->at == t->end || (*t->at != ' ' && *t->at != '\n')) return fails(t, NUMBER);
    return value;
}

INLINE void read_next(struct text *t, struct event *e) {
    if (!has_word(t)) return;
    if (TAKES("stay")) { e->next = STAY; return; }
    if (TAKES("entry")) { e->next = ENTRY; return; }
    if (TAKES("waiter")) e->next = WAITER;
    else if (TAKES("signaller")) e->next = SIGNALLER;
    else if (TAKES("until")) e->next = READY;
    else { fails(t, WORD); return; }
    e->chosen = number(t, 255);
}

INLINE int read_verb(struct text *t, int version) {
    if (TAKES("act")) return ACT;
    if (TAKES("enter")) return ENTER;
    if (TAKES("leave")) return LEAVE;
    if (TAKES("signal")) return SIGNAL;
    if (TAKES("resume")) return RESUME;
    if (TAKES("wait")) return WAIT;
    if (TAKES("until")) return UNTIL;
    if (TAKES("signal-leave")) return SIGNAL_LEAVE;
    if (version >= 2 && TAKES("signal-all")) return SIGNAL_ALL;
    if (version >= 2 && TAKES("signal-wait")) return SIGNAL_WAIT;
    return fails(t, WORD);
}

/* The event of the line that begins here. A flaw of the line is left in `flaw`; the text may also end before the line
   does. */
INLINE void read_event(struct text *t, struct event *e, int version) {
    t->flaw = 0;
    e->next = STAY;
    e->verb = read_verb(t, version);
    if (t->flaw) return;
    e->seat = number(t, 255);
    if (t->flaw) return;
    switch (e->verb) {
    case ENTER:
        if (!has_word(t)) return;
        if (TAKES("free")) e->handed = 0;
        else if (TAKES("handed")) e->handed = 1;
        else fails(t, WORD);
        break;
    case ACT:
        e->code = number(t, 255);
        if (!t->flaw) e->arg = number(t, UINT32_MAX);
        if (!t->flaw) e->reply = number(t, UINT64_MAX);
        break;
    case RESUME:
        if (!has_word(t)) return;
        if (TAKES("waiter")) e->queue = WAITER;
        else if (TAKES("signaller")) e->queue = SIGNALLER;
        else if (TAKES("until")) e->queue = READY;
        else fails(t, WORD);
        break;
    case LEAVE: read_next(t, e); break;
    case SIGNAL_ALL: e->cond = number(t, 255); break;
    case SIGNAL_WAIT:
        e->cond = number(t, 255);
        if (!t->flaw) e->wait_cond = number(t, 255);
        if (!t->flaw) read_next(t, e);
        break;
    default:
        e->cond = number(t, 255);
        if (!t->flaw) read_next(t, e);
    }
    if (!t->flaw && (t->at == t->end || *t->at != '\n')) fails(t, WORD);
    t->at++;
}

#endif
