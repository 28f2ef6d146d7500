/* names.c - the words of monk.h: kinds, modes, answers, the version; and how a history is written to a stream. The
 * library and the reference share them. */
#include "monk.h"
#include <errno.h>
#include <stdlib.h>
#include <string.h>

static const struct {
    const char *name;
    monk_mode mode;
} kinds[] = {
    {"PB", MONK_BLOCKING},          {"NPB", MONK_BLOCKING},          {"PNB", MONK_NON_BLOCKING},
    {"NPNB", MONK_NON_BLOCKING},    {"PQB", MONK_QUASI_BLOCKING},    {"NPQB", MONK_QUASI_BLOCKING},
    {"PIR", MONK_IMMEDIATE_RETURN}, {"NPIR", MONK_IMMEDIATE_RETURN}, {"PIS", MONK_AUTOMATIC},
    {"NPIS", MONK_AUTOMATIC},
};

enum { KINDS = sizeof kinds / sizeof kinds[0] };

const char *monk_kind_name(int kind) { return kind >= 0 && kind < KINDS ? kinds[kind].name : NULL; }

int monk_mode_of(int kind) { return kind >= 0 && kind < KINDS ? (int)kinds[kind].mode : MONK_RANGE; }

int monk_kind_named(const char *name) {
    for (int kind = 0; name && kind < KINDS; kind++)
        if (strcmp(name, kinds[kind].name) == 0) return kind;
    return MONK_RANGE;
}

const char *monk_strerror(int answer) {
    switch (answer) {
    case MONK_OK: return "done";
    case MONK_OUTSIDE: return "outside";
    case MONK_WAITING: return "waiting";
    case MONK_INSIDE: return "inside";
    case MONK_NOT_NOW: return "not now: the seat stands elsewhere";
    case MONK_SPENT: return "spent: too few events are left to the seat";
    case MONK_NOT_OF_KIND: return "monitors of this kind have no such call";
    case MONK_RANGE: return "out of range";
    case MONK_MEMORY: return "no memory";
    case MONK_NO_SEAT: return "every seat is taken";
    case MONK_BUSY: return "busy: a seat is taken still, or the monitor didn't come free";
    case MONK_IN_USE: return "another thread is in a call by this seat";
    case MONK_STOPPED: return "stopped: the seat still waits";
    case MONK_CLOSED: return "the monitor is closed";
    case MONK_IO: return "a file can't be written, or made";
    default: return "no answer of monk";
    }
}

uint32_t monk_version(void) { return MONK_VERSION; }

int monk_save(monk_monitor *m, monk_seat *by, FILE *to) {
    char *text;
    size_t length;
    int r = to ? monk_history(m, by, &text, &length) : MONK_RANGE;
    if (r) return r;
    if (fwrite(text, 1, length, to) != length || fflush(to)) r = MONK_IO;
    int error = errno;
    free(text);
    errno = error;
    return r;
}
