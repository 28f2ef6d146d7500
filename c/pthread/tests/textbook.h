/* textbook.h - what the textbook programs of the tests share. Each takes a fault by name (`right` is none), and
   prints whether it went wrong. */
#ifndef TEXTBOOK_H
#define TEXTBOOK_H

#include <pthread.h>
#include <stdio.h>
#include <stdlib.h>
#include <string.h>

static int rounds = 200;
static _Atomic int wrong;
static const char *fault = "right";

static inline int has(const char *name) { return strcmp(fault, name) == 0; }

/* PROGRAM [FAULT [ROUNDS]] */
static inline void read_words(int count, char **words) {
    if (count > 1) fault = words[1];
    if (count > 2) rounds = atoi(words[2]);
}

static inline void must_hold(int holds) { wrong += !holds; }

/* Waits while the program may not go on; once at most, if the fault is `if`. */
#define WAIT_WHILE(barred, condition, mutex)     \
    do {                                         \
        while (barred) {                         \
            pthread_cond_wait(condition, mutex); \
            if (has("if")) break;                \
        }                                        \
    } while (0)

/* Runs that number of threads to their ends. */
static inline void run_threads(int count, void *(*work)(void *)) {
    pthread_t threads[count];
    for (long i = 0; i < count; i++) pthread_create(&threads[i], NULL, work, (void *)i);
    for (int i = 0; i < count; i++) pthread_join(threads[i], NULL);
}

static inline int end_of(const char *name) {
    printf("%s: wrong %d\n", name, wrong);
    return wrong != 0;
}

#endif
