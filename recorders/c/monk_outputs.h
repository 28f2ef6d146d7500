/* Files that are new, and written as a whole or not at all; and lines on standard error. The recorder and the layer
   under unchanged programs (c/pthread) write by this alone. Nothing here asks for memory. A thread that was cancelled
   doesn't end here, and a signal that comes of a full disk or a reader's end doesn't reach the program. Whoever includes
   it says how long a line and a name may be, and where standard error is. */
#ifndef MONK_OUTPUTS_H
#define MONK_OUTPUTS_H

#include <errno.h>
#include <fcntl.h>
#include <signal.h>
#include <stdarg.h>
#include <stdatomic.h>
#include <stdio.h>
#include <string.h>
#include <sys/syscall.h>
#include <time.h>
#include <unistd.h>

enum { NO_FILE = -1 };

/* What stands at a new file's name, or a link there, stays as it is. A file that the user named may be there. */
enum opening { NEW = O_CREAT | O_EXCL, MORE = O_APPEND | O_NOFOLLOW, NAMED = O_CREAT | O_TRUNC };

struct output {
    int file, error;
    enum opening how;
    char name[LONGEST_NAME];
};

/* How many files were to be written, and weren't as a whole; the first of these, and why. */
static struct {
    _Atomic int wanted, lost, is_told;
    int error;
    char first[LONGEST_NAME];
} outputs;

static int standard_error(void);

/* Opens what the name says, which stays as it is. */
static void open_output(struct output *it, enum opening how) {
    it->how = how;
    it->file = (int)syscall(SYS_openat, AT_FDCWD, it->name, O_WRONLY | O_CLOEXEC | O_LARGEFILE | how, 0666);
    it->error = it->file == NO_FILE ? errno : 0;
}

static long write_quietly(int file, const char *text, size_t length) {
    const struct timespec no_time = {0, 0};
    sigset_t ours, before, pending;
    sigemptyset(&ours), sigaddset(&ours, SIGXFSZ), sigaddset(&ours, SIGPIPE);
    pthread_sigmask(SIG_BLOCK, &ours, &before);
    sigpending(&pending);
    long wrote = syscall(SYS_write, file, text, length);
    int error = errno, number = error == EPIPE ? SIGPIPE : SIGXFSZ;
    sigemptyset(&ours), sigaddset(&ours, number);
    if (wrote < 0 && (error == EPIPE || error == EFBIG) && !sigismember(&pending, number))
        sigtimedwait(&ours, NULL, &no_time);
    pthread_sigmask(SIG_SETMASK, &before, NULL);
    errno = error;
    return wrote;
}

/* Returns 0, or why not all was written. */
static int write_bytes(int file, const char *text, size_t length) {
    while (length > 0) {
        long wrote = write_quietly(file, text, length);
        if (wrote < 0 && errno == EINTR) continue;
        if (wrote <= 0) return wrote ? errno : EIO;
        text += wrote, length -= (size_t)wrote;
    }
    return 0;
}

static void put_bytes(struct output *it, const char *text, size_t length) {
    if (!it->error) it->error = write_bytes(it->file, text, length);
}

/* Returns how long the line is: a longer one is cut. */
static size_t format_line(char *line, size_t room, const char *format, va_list words) {
    int length = vsnprintf(line, room, format, words);
    return length < 0 ? 0 : (size_t)length < room ? (size_t)length : room - 1;
}

__attribute__((format(printf, 2, 3))) static inline void put_line(struct output *it, const char *format, ...) {
    char line[LONGEST_LINE];
    va_list words;
    va_start(words, format);
    put_bytes(it, line, format_line(line, sizeof line, format, words));
    va_end(words);
}

__attribute__((format(printf, 1, 2))) static void say(const char *format, ...) {
    char line[LONGEST_LINE];
    va_list words;
    va_start(words, format);
    write_bytes(standard_error(), line, format_line(line, sizeof line, format, words));
    va_end(words);
}

/* Whether the file is there as a whole. Else it is removed, and counted. */
static int close_output(struct output *it) {
    int is_open = it->file != NO_FILE;
    if (is_open && syscall(SYS_close, it->file) && !it->error) it->error = errno;
    outputs.wanted += it->how != MORE;
    if (!it->error) return 1;
    if (it->how == MORE || (it->how == NEW && is_open)) unlink(it->name);
    if (atomic_fetch_add(&outputs.lost, 1)) return 0;
    outputs.error = it->error;
    strcpy(outputs.first, it->name);
    return 0;
}

/* Says once what is lost. */
static void tell_lost(const char *what) {
    if (outputs.lost && !atomic_exchange(&outputs.is_told, 1))
        say("monk: %d of %d files of %s couldn't be written; the first is %s: %s; make room, or name another place\n",
            outputs.lost, outputs.wanted, what, outputs.first, strerror(outputs.error));
}

static void forget_outputs(void) { memset(&outputs, 0, sizeof outputs); }

#endif
