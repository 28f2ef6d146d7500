/* How logs are written into files, and what is said at the end. Part of libmonk_log.c. A signal may end the program,
   so nothing here asks for memory or writes through stdio. */
#ifndef MONK_FILES_H
#define MONK_FILES_H

#include <dlfcn.h>
#include <stdlib.h>
#include <sys/stat.h>

#include "monk_outside.h"

enum {
    PREFIX = 4096,
    LONGEST_NAME = PREFIX + 64,
    PAGE = 1 << 14,
    LONGEST_LINE = 8192,
    MILLISECOND = 1000000,  /* in nanoseconds */
    SECOND = 1000 * MILLISECOND,
    TO_SETTLE = 10,         /* milliseconds for lines that are being written when the program ends */
    HIGH_FILE = 200         /* the number of a file that no program asks for */
};

#include "monk_outputs.h"

static const char *const verbs[] = {"enter", "resume", "lapse", "leave", "wait", "signal", "broadcast", "act"};

/* ---- standard error: a program may close it, or have something else at its number, before it ends */

static struct {
    struct stat is;
    int copy;
} errors = {.copy = -1};

static int is_errors(int file) {
    struct stat now;
    return file >= 0 && !fstat(file, &now) && now.st_dev == errors.is.st_dev && now.st_ino == errors.is.st_ino;
}

static void keep_errors(void) {
    if (!fstat(STDERR_FILENO, &errors.is))
        errors.copy = fcntl(STDERR_FILENO, F_DUPFD_CLOEXEC, HIGH_FILE);
}

/* A program that goes on in the background must not keep its caller waiting for this file's end. */
static void drop_errors(void) {
    if (is_errors(errors.copy))
        close(errors.copy);
    errors.copy = -1;
}

static int standard_error(void) {
    return is_errors(STDERR_FILENO) ? STDERR_FILENO : is_errors(errors.copy) ? errors.copy : NO_FILE;
}

/* ---- a file, and lines that aren't in it yet */

struct page {
    struct output to;
    size_t length;
    char text[PAGE];
};

static void flush(struct page *page) {
    put_bytes(&page->to, page->text, page->length);
    page->length = 0;
}

__attribute__((format(printf, 2, 3))) static void print(struct page *page, const char *format, ...) {
    va_list words;
    if (page->length + LONGEST_LINE > PAGE)
        flush(page);
    va_start(words, format);
    page->length += format_line(page->text + page->length, LONGEST_LINE, format, words);
    va_end(words);
}

static int close_page(struct page *page) {
    flush(page);
    return close_output(&page->to);
}

/* ---- the names that are written beside a log */

/* Where an address is: the name of a symbol, or the file and the offset in it. */
static void print_place(struct page *page, const void *address) {
    Dl_info info;
    if (!address || !dladdr(address, &info) || !info.dli_fname) {
        print(page, "%p", address);
        return;
    }
    size_t in = (const char *)address - (const char *)info.dli_fbase;
    if (info.dli_sname)
        print(page, "%s+%zu of ", info.dli_sname, (size_t)((const char *)address - (const char *)info.dli_saddr));
    print(page, "%s+0x%zx", info.dli_fname, in);
}

static void print_known(struct page *page, const char *what, const struct known *it) {
    print(page, "%s ", what);
    print_place(page, it->address);
    print(page, ", first used at ");
    print_place(page, (const void *)sites[it->site].address);
    print(page, "\n");
}

/* The name as it is now, or was when the thread ended. */
static void read_name(struct thread *thread) {
    char path[64];
    snprintf(path, sizeof path, "/proc/self/task/%d/comm", thread->id);
    int file = thread->has_ended ? -1 : open(path, O_RDONLY | O_CLOEXEC);
    if (file < 0)
        return;
    ssize_t length = read(file, thread->name, NAME_OF_THREAD);
    thread->name[length > 0 ? length - 1 : 0] = 0;
    close(file);
}

/* How the program ended. */
static const char *how_it_ended = "by itself";

/* ---- the logs */

static struct {
    int number, first, written, taken; /* of files; how many names there were already */
    int cut_by_threads, cut_by_conds, noted, left_out; /* signals from outside that are in logs, and that aren't */
    int unlocks;                                       /* of mutexes that other threads held */
} told;

/* A new file with the next free number. */
static void open_next(struct output *it, const char *prefix) {
    do {
        snprintf(it->name, LONGEST_NAME, "%s.%d", prefix, ++told.number);
        open_output(it, NEW);
        told.taken += it->error == EEXIST;
    } while (it->error == EEXIST);
}

static void put_text(struct page *page, const char *text) {
    while (*text)
        page->text[page->length++] = *text++;
}

/* After a space. */
static void put_number(struct page *page, unsigned long number) {
    char digits[32];
    int count = 0;
    do
        digits[count++] = '0' + number % 10;
    while (number /= 10);
    page->text[page->length++] = ' ';
    while (count)
        page->text[page->length++] = digits[--count];
}

/* A part of the word of a line, between two places of bits. */
static unsigned part_of(uint32_t word, int from, int to) { return word << (BITS - to) >> (BITS - to + from); }

static enum verb verb_of(uint32_t word) { return part_of(word, 0, SEAT_AT); }

/* What is to be done with a line, given its words. */
typedef void visit(struct page *page, const uint32_t *at);

/* (There may be a million lines, for which printf takes too long.) */
static void print_line(struct page *page, const uint32_t *at) {
    enum verb verb = verb_of(*at);
    put_text(page, verbs[verb]);
    put_number(page, part_of(*at, SEAT_AT, NUMBER_AT));
    if (verb == ACT) {
        put_number(page, at[1]);
        put_number(page, at[2]);
        put_number(page, at[3] | (unsigned long)at[4] << BITS);
    } else if (verb >= WAIT) {
        put_number(page, part_of(*at, NUMBER_AT, SITE_AT));
    }
    page->text[page->length++] = '\n';
}

static void visit_line(struct page *page, const uint32_t *at, visit *one) {
    if (page->length + LONGEST_LINE > PAGE)
        flush(page);
    one(page, at);
}

/* Visits the signals from outside, from the given one on, that come before the line at that place; returns how many
 * there are up to it. */
static size_t visit_outside(struct page *page, struct log *log, size_t from, size_t place, visit *one) {
    for (; from < log->noted && log->outside[from].place <= place; from++) {
        struct outside it = log->outside[from];
        uint32_t seat = (uint32_t)seat_at_the_end(log, it.thread);
        uint32_t word = it.verb | seat << SEAT_AT | (uint32_t)it.number << NUMBER_AT | (uint32_t)it.site << SITE_AT;
        visit_line(page, &word, one);
    }
    return from;
}

static void visit_lines(struct page *page, struct log *log, visit *one) {
    size_t outside = 0;
    for (size_t at = 0; at < log->end && !page->to.error;) {
        outside = visit_outside(page, log, outside, at, one);
        visit_line(page, log->words + at, one);
        at += verb_of(log->words[at]) == ACT ? WORDS_OF_ACT : 1;
    }
    visit_outside(page, log, outside, WORDS, one);
}

/* ---- where in the program the lines come from */

/* The numbers that places have beside a log, in the order in which its lines first come from them. */
static struct {
    unsigned count;
    uint16_t of[SITES];
} numbers;

/* The file in which the call is, and the offset in it, as addr2line counts. */
static void print_call(struct page *page, uintptr_t call) {
    static char program[PREFIX];
    Dl_info info;
    struct link_map *object;
    if (!dladdr1((const void *)call, &info, (void **)&object, RTLD_DL_LINKMAP)) {
        print(page, "0x%zx\n", (size_t)call);
        return;
    }
    ssize_t length = *object->l_name ? 0 : readlink("/proc/self/exe", program, sizeof program - 1);
    program[length > 0 ? length : 0] = 0;
    const char *name = *object->l_name ? object->l_name : *program ? program : info.dli_fname;
    print(page, "%s+0x%zx\n", name, (size_t)(call - object->l_addr));
}

/* Numbers a place that has no number yet. (The address to which a call returns may belong to the next line.) */
static void number_site(struct page *page, const uint32_t *at) {
    unsigned site = part_of(*at, SITE_AT, BITS);
    if (!site || numbers.of[site])
        return;
    numbers.of[site] = (uint16_t)++numbers.count;
    print(page, "site %u ", numbers.count);
    print_call(page, sites[site].address - 1);
}

static void print_number(struct page *page, const uint32_t *at) {
    put_number(page, numbers.of[part_of(*at, SITE_AT, BITS)]);
}

static void print_sites(struct page *page, struct log *log) {
    memset(&numbers, 0, sizeof numbers);
    visit_lines(page, log, number_site);
    print(page, "lines");
    visit_lines(page, log, print_number);
    print(page, "\n");
}

static void write_names(struct log *log, const char *name) {
    static struct page page;
    snprintf(page.to.name, LONGEST_NAME, "%.*s.names", PREFIX + 32, name);
    open_output(&page.to, NEW);
    print_known(&page, "mutex", &log->known);
    for (int i = 0; i < log->nconds; i++) {
        char what[32];
        snprintf(what, sizeof what, "condition %d", i);
        print_known(&page, what, &log->conds[i]->known);
    }
    for (int i = 0; i < log->nseats; i++) {
        read_name(log->seats[i]);
        print(&page, "seat %d thread %d %s\n", i, log->seats[i]->id, log->seats[i]->name);
    }
    print(&page, "ended %s\n", how_it_ended);
    print_sites(&page, log);
    close_page(&page);
}

static void write_log(struct log *log, const char *prefix) {
    static struct page page;
    const char *object = getenv("MONK_OBJECT"), *name = page.to.name;
    open_next(&page.to, prefix);
    print(&page, "log 1 %d %d %s\n", log->nseats, log->nconds, object ? object : "buffer 1");
    log->end = log->length;
    visit_lines(&page, log, print_line);
    if (!close_page(&page))
        return;
    told.first = told.written++ ? told.first : told.number;
    write_names(log, name);
    if (log->left_out)
        say("monk: %s: it lacks signals by threads that did not hold the mutex: %d\n", name, log->left_out);
    if (log->stopped)
        say("monk: %s: it ends early, since %s\n", name, log->stopped);
}

#endif
