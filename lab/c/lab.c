/* lab.c - the process of a lab (c/python/monk/foreign.py). A line on standard input is `new WORD WORDS`, which makes a
 * fresh scene; `go NUMBERS`, which runs these programs one after the other, each up to its next call; or `end`. Each
 * is answered by that first word, a digest of all answers of this run, and a line of JSON. The moves of a line count
 * in the digest as if each were asked alone. A program is a context with a stack of its own. Each run has a child of
 * its own, so its data are fresh, and a crash ends one run. */
#define _GNU_SOURCE
#include "lab.h"

#include <inttypes.h>
#include <signal.h>
#include <stdarg.h>
#include <stdio.h>
#include <stdlib.h>
#include <string.h>
#include <sys/mman.h>
#include <sys/prctl.h>
#include <sys/time.h>
#include <sys/uio.h>
#include <sys/wait.h>
#include <ucontext.h>
#include <unistd.h>

enum { MOST = 32, MOST_WORDS = 8, LINE = 256, ANSWER = 1 << 16, STACK = 1 << 18, PAGE = 4096, AGAIN = 77, TOLD = 78,
    NEW = 4, GO = 3, USUAL_MS = 2000, A_SECOND_MS = 1000, A_MS_US = 1000 };
/* The digest is FNV-1a's, of 64 bits. */
static const uint64_t BASIS = 0xcbf29ce484222325, PRIME = 0x100000001b3;

struct program {
    const char *name, *verb, *on, *file;
    lab_work work;
    int number, line;
    lab_test until;
    void (*then)(void);
    char *stack;
    ucontext_t context;
    char fault[LINE];
    bool has_begun, has_ended;
};

struct named_test { const char *on; int program; lab_test test; };
struct named_int { const char *name; const int *value; };
struct named_condition { const void *condition; const char *name; };

/* Everything of the lab's own, apart from the data of the programs. */
static struct lab {
    struct program programs[MOST];
    struct named_test tests[MOST];
    struct named_int data[MOST];
    struct named_condition names[MOST];
    const char *may_wait[MOST];
    int count, tests_count, data_count, names_count, may_count, here, in, out, used;
    lab_test invariant, end;
    ucontext_t driver;
    long limit_ms;
    uint64_t digest;
    char word[LINE], answer[ANSWER];
} *lab;

/* ---- answers */

__attribute__((format(printf, 1, 2))) static void say(const char *form, ...) {
    va_list rest;
    va_start(rest, form);
    lab->used += vsnprintf(lab->answer + lab->used, (size_t)(ANSWER - lab->used), form, rest);
    va_end(rest);
}

static void say_words(const char *words) {
    say("\"");
    for (; *words; words++) {
        if ((unsigned char)*words < ' ') say("\\u%04x", (unsigned)*words);
        else say(*words == '"' || *words == '\\' ? "\\%c" : "%c", *words);
    }
    say("\"");
}

static const char *between(int i) { return i ? "," : ""; }

static const char *truth(lab_test test) { return !test ? "null" : test() ? "true" : "false"; }

static void limit(long ms) {
    struct itimerval it = {.it_value = {ms / A_SECOND_MS, ms % A_SECOND_MS * A_MS_US}};
    setitimer(ITIMER_REAL, &it, 0);
}

/* What holds now, and the data. The tests are a student's, too. */
static void say_state(void) {
    limit(lab->limit_ms);
    say(",\"invariant\":%s,\"tests\":{", truth(lab->invariant));
    for (int i = 0; i < lab->tests_count; i++) {
        struct named_test it = lab->tests[i];
        say("%s\"%d %s\":%s", between(i), it.program, it.on, truth(it.test));
    }
    say("},\"data\":{");
    for (int i = 0; i < lab->data_count; i++)
        say("%s\"%s\":\"%d\"", between(i), lab->data[i].name, *lab->data[i].value);
    say("}");
    limit(0);
}

static void say_place(const struct program *program) {
    const char *file = strrchr(program->file, '/');
    say(",\"file\":\"%s\",\"line\":%d", file ? file + 1 : program->file, program->line);
}

/* Begins an answer. */
static void begin_answer(void) {
    lab->used = 0;
    say("{");
}

/* Ends an answer, which counts in the digest from now on. */
static void end_answer(void) {
    say("}");
    for (int i = 0; i < lab->used; i++) lab->digest = (lab->digest ^ (unsigned char)lab->answer[i]) * PRIME;
}

static void send(void) {
    char head[2 * LINE];
    end_answer();
    say("\n");
    int length = snprintf(head, sizeof head, "%s %" PRIx64 " ", lab->word, lab->digest);
    struct iovec parts[] = {{head, (size_t)length}, {lab->answer, (size_t)lab->used}};
    if (writev(lab->out, parts, 2) != length + lab->used) _exit(1);
}

/* ---- what a scene is made of */

static void full_if(bool is_full, const char *what) {
    if (!is_full) return;
    fprintf(stderr, "lab: more than %d %s\n", MOST, what);
    _exit(1);
}

void lab_program(const char *name, lab_work work, int number) {
    full_if(lab->count == MOST, "programs");
    struct program made = {.name = name, .work = work, .number = number, .verb = "", .file = ""};
    lab->programs[lab->count++] = made;
}

void lab_int(const char *name, const int *guarded) {
    full_if(lab->data_count == MOST, "data");
    lab->data[lab->data_count++] = (struct named_int){name, guarded};
}

void lab_invariant(lab_test test) { lab->invariant = test; }
void lab_end(lab_test test) { lab->end = test; }

void lab_may_wait(const char *name) {
    full_if(lab->may_count == MOST, "names");
    lab->may_wait[lab->may_count++] = name;
}

void lab_once_inside(void (*then)(void)) { lab->programs[lab->here].then = then; }

const char *lab_name(const void *condition, const char *words) {
    for (int i = 0; i < lab->names_count; i++)
        if (lab->names[i].condition == condition) return lab->names[i].name;
    full_if(lab->names_count == MOST, "conditions");
    lab->names[lab->names_count] = (struct named_condition){condition, words + strspn(words, "& (")};
    return lab->names[lab->names_count++].name;
}

/* ---- a program, up to its next call */

static void back(struct program *me) {
    limit(0);
    swapcontext(&me->context, &lab->driver);
}

/* The test of a program on a condition. */
static void note_test(const char *on, lab_test until) {
    int i = 0;
    while (i < lab->tests_count && (lab->tests[i].program != lab->here || strcmp(lab->tests[i].on, on))) i++;
    full_if(i == MOST, "tests");
    lab->tests[i] = (struct named_test){on, lab->here, until};
    if (i == lab->tests_count) lab->tests_count++;
}

void lab_call(const char *verb, const char *on, lab_test until, const char *file, int line) {
    struct program *me = &lab->programs[lab->here];
    me->verb = verb, me->on = on, me->until = until, me->file = file, me->line = line;
    if (until) note_test(on, until);
    back(me);
    void (*then)(void) = me->then;
    if (!then || strcmp(verb, "enter")) return;
    me->then = 0;
    then();
}

/* In place of the C library's: an assertion that fails is the program's fault, and not the end of the process. */
void __assert_fail(const char *words, const char *file, unsigned line, const char *function) {
    struct program *me = &lab->programs[lab->here];
    snprintf(me->fault, LINE, "assertion `%s' fails in %s", words, function);
    me->file = file, me->line = (int)line;
    back(me);
    _exit(1);
}

static void run(void) {
    struct program *me = &lab->programs[lab->here];
    me->work(me->number);
    me->has_ended = true;
    back(me);
}

static void too_long(int number) {
    (void)number;
    begin_answer();
    say("\"endless\":%ld", lab->limit_ms);
    send();
    _exit(TOLD);
}

static void begin(struct program *program) {
    program->has_begun = true;
    program->stack = mmap(0, STACK, PROT_READ | PROT_WRITE, MAP_PRIVATE | MAP_ANONYMOUS, -1, 0);
    if (program->stack == MAP_FAILED) _exit(1);
    mprotect(program->stack, PAGE, PROT_NONE);
    getcontext(&program->context);
    program->context.uc_stack.ss_sp = program->stack;
    program->context.uc_stack.ss_size = STACK;
    makecontext(&program->context, run, 0);
}

/* Where a program came to. */
static void tell(const struct program *program) {
    if (program->fault[0]) say("\"fault\":"), say_words(program->fault);
    else if (program->has_ended) say("\"ended\":true");
    else {
        say("\"call\":\"%s\",\"on\":", program->verb), say_words(program->on);
        say(",\"test\":%s", program->until ? "true" : "false");
    }
    if (!program->has_ended) say_place(program);
    say_state();
}

/* Runs these programs one after the other, each up to its next call. Of one that is through, nothing is told. */
static void go(char *numbers) {
    char *rest;                             /* (a student may use strtok) */
    for (char *word = strtok_r(numbers, " ", &rest), *next; word; word = next) {
        struct program *program = &lab->programs[lab->here = atoi(word)];
        if (program->has_ended || program->fault[0]) return;
        if (!program->has_begun) begin(program);
        limit(lab->limit_ms);
        swapcontext(&lab->driver, &program->context);
        tell(program);
        next = strtok_r(0, " ", &rest);
        if (next) end_answer(), begin_answer();
    }
}

/* ---- the process */

static void make(char *line) {
    char *words[MOST_WORDS];
    int count = 0;
    strtok(line + NEW, " ");
    for (char *word = strtok(0, " "); word && count < MOST_WORDS; word = strtok(0, " ")) words[count++] = word;
    lab_scene(count, words);
    say("\"programs\":[");
    for (int i = 0; i < lab->count; i++) say("%s\"%s\"", between(i), lab->programs[i].name);
    say("],\"may_wait\":[");
    for (int i = 0; i < lab->may_count; i++) say("%s\"%s\"", between(i), lab->may_wait[i]);
    say("],\"has_end\":%s", lab->end ? "true" : "false");
    say_state();
}

/* Reads a line. The driver never asks before it is answered, so one read is one line. */
static void hear(char *line) {
    ssize_t length = read(lab->in, line, LINE - 1);
    if (length <= 0) _exit(0);
    line[length - 1] = 0;
}

static void answer(char *line) {
    begin_answer();
    if (line[0] == 'n') make(line);
    else if (line[0] == 'g') go(line + GO);
    else say("\"end\":%s", truth(lab->end));
    send();
}

/* A run, in a child: it ends when the next scene is asked for, whose line it leaves. */
static void one_run(char *line) {
    prctl(PR_SET_PDEATHSIG, SIGKILL);
    do {
        answer(line);
        hear(line);
    } while (strncmp(line, "new ", NEW));
    _exit(AGAIN);
}

/* Tells of a run that ended before it was to, and said nothing. */
static void tell_of(int status) {
    if (WIFEXITED(status) && WEXITSTATUS(status) == TOLD) return;
    begin_answer();
    if (WIFEXITED(status)) say("\"fault\":\"ends the whole process (status %d)\"", WEXITSTATUS(status));
    else say("\"fault\":\"%s\"", strsignal(WTERMSIG(status)));
    send();
}

static void *shared(size_t size, int how) {
    void *at = mmap(0, size, PROT_READ | PROT_WRITE, how | MAP_ANONYMOUS, -1, 0);
    if (at == MAP_FAILED) _exit(1);
    return at;
}

int main(void) {
    lab = shared(sizeof *lab, MAP_PRIVATE);
    char *line = shared(LINE, MAP_SHARED);
    const char *ms = getenv("LAB_MS");
    lab->in = dup(0), lab->out = dup(1), lab->limit_ms = ms ? atol(ms) : USUAL_MS;
    if (!freopen("/dev/null", "r", stdin)) return 1;
    dup2(2, 1);                             /* what a program prints doesn't come between */
    signal(SIGALRM, too_long);
    for (hear(line);;) {
        int status;
        lab->digest = BASIS;
        snprintf(lab->word, LINE, "%.*s", (int)strcspn(line + NEW, " "), line + NEW);
        pid_t child = fork();
        if (child < 0) return 1;
        if (!child) one_run(line);
        waitpid(child, &status, 0);
        if (WIFEXITED(status) && WEXITSTATUS(status) == AGAIN) continue;
        tell_of(status);
        hear(line);
    }
}
