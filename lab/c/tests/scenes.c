/* Scenes whose histories have to be those of the same scenes in Python (lab/same.py), and scenes with faults of C. */
#include "lab.h"

#include <assert.h>
#include <stdint.h>
#include <stdlib.h>
#include <string.h>

static int items, is_open, readers, is_writing;
static const char *how;

static bool is_there(void) { return items > 0; }
static bool opened(void) { return is_open; }
static bool nobody_writes(void) { return !is_writing; }
static bool nobody_is_there(void) { return !is_writing && !readers; }
static bool is_right(void) { return !(is_writing && readers); }

static void take_by_if(int number) {
    (void)number;
    lab_enter();
    if (items == 0) lab_wait("item", is_there);
    assert(items > 0);
    items--;
    lab_leave();
}

static void take(int number) {
    (void)number;
    lab_enter();
    while (items == 0) lab_wait("item", is_there);
    items--;
    lab_leave();
}

static void put_one(void) {
    lab_enter();
    items++;
    lab_signal("item");
    lab_leave();
}

static void put_two(int number) { (void)number, put_one(), put_one(); }

static void steal(int number) {
    (void)number;
    lab_enter();
    if (items > 0) items--;
    lab_leave();
}

static void put_first(int number) {
    (void)number;
    lab_enter();
    lab_signal("item");
    items++;
    lab_leave();
}

static void put_quietly(int number) {
    (void)number;
    lab_enter();
    items++;
    lab_leave();
}

static void put_and_stay(int number) {
    (void)number;
    lab_enter();
    items++;
    lab_signal("item");
}

static void put_for_ever(int number) {
    (void)number;
    for (;;) lab_enter(), lab_leave();
}

static void put_outside(int number) {
    items++;
    put_quietly(number);
}

static void put_at_null(int number) {
    lab_enter();
    *(volatile int *)(uintptr_t)number = 1;
}

static void put_and_spin(int number) {
    (void)number;
    lab_enter();
    items++;
    for (volatile int spins = 0; items; ) spins++;
}

static void put_and_exit(int number) {
    lab_enter();
    exit(number);
}

static void pass(int number) {
    (void)number;
    lab_enter();
    while (!is_open) lab_wait("gate", opened);
    lab_leave();
}

static void open_gate(int is_to_all) {
    lab_enter();
    is_open = 1;
    if (is_to_all) lab_signal_all("gate");
    else lab_signal("gate");
    lab_leave();
}

static void read_book(int number) {
    (void)number;
    lab_enter();
    while (is_writing) lab_wait("read", nobody_writes);
    readers++;
    lab_signal("read");
    lab_leave();
    lab_enter();
    readers--;
    if (readers == 0) lab_signal("write");
    lab_leave();
}

static void write_book(int number) {
    (void)number;
    lab_enter();
    while (is_writing || readers) lab_wait("write", nobody_is_there);
    is_writing = 1;
    lab_leave();
    lab_enter();
    is_writing = 0;
    lab_signal("read");
    lab_leave();
}

static void buffer(void) {
    lab_program("taker", strcmp(how, "if") ? take : take_by_if, 0);
    lab_program("putter", put_two, 0);
    lab_program("thief", steal, 0);
}

static void pair(void) {
    static const struct { const char *name; lab_work work; } ways[] = {{"first", put_first}, {"quietly", put_quietly},
        {"stay", put_and_stay}, {"forever", put_for_ever}, {"outside", put_outside}, {"null", put_at_null},
        {"spin", put_and_spin}, {"exit", put_and_exit}};
    lab_program("taker", take, 0);
    for (unsigned i = 0; i < sizeof ways / sizeof *ways; i++)
        if (!strcmp(how, ways[i].name)) lab_program("putter", ways[i].work, 0);
}

static void gate(void) {
    lab_program("guest", pass, 0);
    lab_program("guest", pass, 0);
    lab_program("porter", open_gate, !strcmp(how, "all"));
    lab_int("is_open", &is_open);
}

static void book(void) {
    lab_program("reader", read_book, 0);
    lab_program("reader", read_book, 0);
    lab_program("writer", write_book, 0);
    lab_invariant(is_right);
    lab_int("is_writing", &is_writing), lab_int("readers", &readers);
}

void textbook(void);

void lab_scene(int count, char **words) {
    how = count > 1 ? words[1] : "";
    if (!strcmp(words[0], "buffer")) buffer();
    if (!strcmp(words[0], "pair")) pair();
    if (!strcmp(words[0], "gate")) gate();
    if (!strcmp(words[0], "book")) book();
    if (!strcmp(words[0], "textbook")) textbook();
    lab_int("items", &items);
}
