/* Lets waits of one place return at once, though nobody signalled, as POSIX allows. It knows nothing of monk.
     gcc -O1 -shared -fPIC wake.c -o wake.so -ldl
     PLACE=program+0x1234 RATE=500 SEED=1 LD_PRELOAD=./wake.so program
   PLACE is the file's name and the offset after the call, RATE how many of a thousand waits wake so. */
#define _GNU_SOURCE
#include <dlfcn.h>
#include <pthread.h>
#include <stdint.h>
#include <stdio.h>
#include <stdlib.h>
#include <string.h>

enum { A_THOUSAND = 1000, LONGEST = 300 };

static unsigned roll(void) {
    static _Atomic uint64_t threads;
    static __thread uint64_t dice;
    const char *seed = getenv("SEED");
    if (!dice) dice = (++threads + 1 + 100 * (uint64_t)atoi(seed ? seed : "1")) * 0xbf58476d1ce4e5b9u + 1;
    dice ^= dice << 13, dice ^= dice >> 7, dice ^= dice << 17;
    return (unsigned)(dice >> 33);
}

static int wakes(void *at) {
    char text[LONGEST];
    Dl_info in;
    const char *place = getenv("PLACE"), *rate = getenv("RATE");
    if (!place || !rate || !dladdr(at, &in) || !in.dli_fname) return 0;
    const char *slash = strrchr(in.dli_fname, '/');
    snprintf(text, sizeof text, "%s+%#lx", slash ? slash + 1 : in.dli_fname,
             (unsigned long)((char *)at - (char *)in.dli_fbase));
    return strcmp(text, place) == 0 && (int)(roll() % A_THOUSAND) < atoi(rate);
}

static void *following(const char *name) {
    void *found = dlvsym(RTLD_NEXT, name, "GLIBC_2.3.2");
    return found ? found : dlsym(RTLD_NEXT, name);
}

int pthread_cond_wait(pthread_cond_t *condition, pthread_mutex_t *mutex) {
    static int (*real)(pthread_cond_t *, pthread_mutex_t *);
    if (!real) *(void **)&real = following("pthread_cond_wait");
    return wakes(__builtin_return_address(0)) ? 0 : real(condition, mutex);
}

int pthread_cond_timedwait(pthread_cond_t *condition, pthread_mutex_t *mutex, const struct timespec *until) {
    static int (*real)(pthread_cond_t *, pthread_mutex_t *, const struct timespec *);
    if (!real) *(void **)&real = following("pthread_cond_timedwait");
    return wakes(__builtin_return_address(0)) ? 0 : real(condition, mutex, until);
}
