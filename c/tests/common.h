/* What the tests share: dice, and a check that ends the program by name. */
#ifndef MONK_TESTS_COMMON_H
#define MONK_TESTS_COMMON_H
#include "monk.h"
#include <stdint.h>
#include <stdio.h>
#include <stdlib.h>

#define MUST(call) must((call) >= 0, #call, __FILE__, __LINE__)
#define HOLDS(what) must((what) != 0, #what, __FILE__, __LINE__)

static inline void must(int holds, const char *what, const char *file, int line) {
    if (holds) return;
    fprintf(stderr, "%s:%d: %s\n", file, line, what);
    exit(1);
}

/* A number below `most`, by xorshift. */
static inline unsigned thrown(uint64_t *dice, unsigned most) {
    *dice ^= *dice << 13, *dice ^= *dice >> 7, *dice ^= *dice << 17;
    return (unsigned)((*dice >> 32) % most);
}

static inline void save_history(monk_monitor *m, const char *path) {
    FILE *file = fopen(path, "w");
    HOLDS(file != NULL);
    MUST(monk_save(m, NULL, file));
    HOLDS(fclose(file) == 0);
}
#endif
