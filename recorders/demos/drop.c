/* A library with a fault, to be loaded after the recorder: every MONK_DROP-th signal wakes nobody.

       gcc -O2 -shared -fPIC -o libdrop.so drop.c -ldl
       MONK_DROP=7 LD_PRELOAD="libmonk_log.so libdrop.so" PROGRAM .. */
#define _GNU_SOURCE
#include <dlfcn.h>
#include <pthread.h>
#include <stdatomic.h>
#include <stdlib.h>

int pthread_cond_signal(pthread_cond_t *cond) {
    static atomic_int signals;
    static int (*real)(pthread_cond_t *);
    static int every;
    if (!real) {
        every = atoi(getenv("MONK_DROP"));
        real = (int (*)(pthread_cond_t *))dlvsym(RTLD_NEXT, "pthread_cond_signal", "GLIBC_2.3.2");
    }
    return atomic_fetch_add(&signals, 1) % every == every - 1 ? 0 : real(cond);
}
