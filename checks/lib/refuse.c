/* Loaded before the C library. It refuses the request for memory whose number is in REFUSE, and the start of the
   thread whose number is in REFUSE_THREAD. To the file descriptor in TELL it writes how many of each there were. A
   program that may start threads ends by `_exit`, which runs no destructor, so `_exit` is replaced too. In front of
   each line of standard output that begins with MARK it writes how many requests there were before that line.

   With REFUSE_EACH it refuses each request of a program of one thread, in a child. The child goes on without that
   memory and writes only to standard output. The program waits for it, for PATIENCE seconds at most. The line `try N`
   is before what the child writes, and `ended STATUS` after it. A STATUS below 0 is the signal that ended it. */
#define _GNU_SOURCE
#include <dlfcn.h>
#include <errno.h>
#include <pthread.h>
#include <stddef.h>
#include <stdio.h>
#include <stdlib.h>
#include <string.h>
#include <sys/wait.h>
#include <unistd.h>

enum { PATIENCE = 20 };

static _Atomic long requests, threads;

static long number_in(const char *name)
{
    const char *text = getenv(name);
    return text ? atol(text) : 0;
}

static void say(const char *word, long number)
{
    char line[32];
    int length = snprintf(line, sizeof line, "%s %ld\n", word, number);
    if (write(STDOUT_FILENO, line, length) != length) abort();
}

/* Whether this is the child in which the request is refused. */
static int is_child_of_request(void)
{
    int status;
    say("try", requests);
    pid_t child = fork();
    if (!child) return alarm(PATIENCE), dup2(STDOUT_FILENO, STDERR_FILENO), 1;
    if (waitpid(child, &status, 0) != child) abort();
    say("ended", WIFEXITED(status) ? WEXITSTATUS(status) : -WTERMSIG(status));
    return 0;
}

static int is_refused(void)
{
    static long wanted = -1, each;
    if (wanted < 0) wanted = number_in("REFUSE"), each = number_in("REFUSE_EACH");
    requests++;
    if (!each) return requests == wanted;
    int is_child = is_child_of_request();
    each = !is_child;
    return is_child;
}

void *malloc(size_t size)
{
    static void *(*real)(size_t);
    if (!real) real = (void *(*)(size_t)) dlsym(RTLD_NEXT, "malloc");
    return is_refused() ? NULL : real(size);
}

void *realloc(void *old, size_t size)
{
    static void *(*real)(void *, size_t);
    if (!real) real = (void *(*)(void *, size_t)) dlsym(RTLD_NEXT, "realloc");
    return is_refused() ? NULL : real(old, size);
}

int pthread_create(pthread_t *thread, const pthread_attr_t *attr, void *(*start)(void *), void *given)
{
    typedef int (*creator)(pthread_t *, const pthread_attr_t *, void *(*)(void *), void *);
    static creator real;
    if (!real) real = (creator) dlsym(RTLD_NEXT, "pthread_create");
    return ++threads == number_in("REFUSE_THREAD") ? EAGAIN : real(thread, attr, start, given);
}

ssize_t write(int file, const void *bytes, size_t size)
{
    static ssize_t (*real)(int, const void *, size_t);
    const char *mark = getenv("MARK");
    long before = requests;
    char count[32];
    if (!real) real = (ssize_t (*)(int, const void *, size_t)) dlsym(RTLD_NEXT, "write");
    if (file == STDOUT_FILENO && mark && *mark && size >= strlen(mark) && !memcmp(bytes, mark, strlen(mark)))
        real(file, count, snprintf(count, sizeof count, "%ld ", before));
    return real(file, bytes, size);
}

__attribute__((destructor)) static void tell(void)
{
    const char *text = getenv("TELL");
    if (text) dprintf(atoi(text), "%ld %ld\n", requests, threads);
}

void _exit(int status)
{
    static void (*real)(int);
    if (!real) real = (void (*)(int)) dlsym(RTLD_NEXT, "_exit");
    tell();
    real(status);
    abort();
}
