/* A library behind the layer or the recorder: calls of the system that FAILS names go wrong. FAILS is
   CALL:ERROR:FIRST:EVERY. Of the calls that write into files (`write`), open (`open`) or close them (`close`), the
   FIRST goes wrong, and each EVERY-th after it. With error 0 a part of the bytes is written. A file is closed before
   its closing fails. */
#define _GNU_SOURCE
#include <dlfcn.h>
#include <errno.h>
#include <stdarg.h>
#include <stdatomic.h>
#include <stdio.h>
#include <stdlib.h>
#include <string.h>
#include <sys/syscall.h>
#include <unistd.h>

enum { WORDS = 6, BYTES = 2 };

static struct {
    long number;
    int error, first, every;
    _Atomic int seen;
} fails;

static long (*next)(long, ...);

__attribute__((constructor)) static void begin(void) {
    char name[16] = "";
    const char *asked = getenv("FAILS");
    if (!asked || sscanf(asked, "%15[a-z]:%d:%d:%d", name, &fails.error, &fails.first, &fails.every) != 4) return;
    fails.number = !strcmp(name, "write") ? SYS_write : !strcmp(name, "close") ? SYS_close : SYS_openat;
}

static int goes_wrong(long number, long file) {
    if (!fails.number || number != fails.number || (number != SYS_openat && file <= STDERR_FILENO)) return 0;
    int after = ++fails.seen - fails.first;
    return after >= 0 && after % fails.every == 0;
}

long syscall(long number, ...) {
    long words[WORDS];
    va_list list;
    va_start(list, number);
    for (int i = 0; i < WORDS; i++) words[i] = va_arg(list, long);
    va_end(list);
    if (!next) next = (long (*)(long, ...))dlsym(RTLD_NEXT, "syscall");
    int is_wrong = goes_wrong(number, words[0]);
    if (is_wrong && number == SYS_write && !fails.error) words[2] = words[2] > BYTES ? words[2] / BYTES : words[2];
    if (is_wrong && fails.error && number != SYS_close) return errno = fails.error, -1;
    long answer = next(number, words[0], words[1], words[2], words[3], words[4], words[5]);
    return is_wrong && fails.error ? errno = fails.error, -1 : answer;
}
