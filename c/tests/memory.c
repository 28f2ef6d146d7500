/* Refuses each request for memory in turn: the call answers MONK_MEMORY, nothing is kept, and the next try succeeds.
 * Other calls make no request. A file that the system refuses is MONK_IO, and monk_free closes those that it gave.
 * Linked with --wrap for each function that gives memory. */
#include "common.h"
#include <sys/resource.h>
#include <unistd.h>

static long requests, refused_at, kept;

void *__real_malloc(size_t size);
void *__real_calloc(size_t count, size_t size);
void *__real_realloc(void *old, size_t size);
void *__real_aligned_alloc(size_t alignment, size_t size);
void __real_free(void *old);
void *__wrap_malloc(size_t size);
void *__wrap_calloc(size_t count, size_t size);
void *__wrap_realloc(void *old, size_t size);
void *__wrap_aligned_alloc(size_t alignment, size_t size);
void __wrap_free(void *old);

static int is_refused(void) { return ++requests == refused_at; }

static void *counted(void *got) {
    kept += got != NULL;
    return got;
}

void *__wrap_malloc(size_t size) { return is_refused() ? NULL : counted(__real_malloc(size)); }
void *__wrap_calloc(size_t n, size_t size) { return is_refused() ? NULL : counted(__real_calloc(n, size)); }
void *__wrap_aligned_alloc(size_t a, size_t size) {
    return is_refused() ? NULL : counted(__real_aligned_alloc(a, size));
}

void *__wrap_realloc(void *old, size_t size) {
    if (is_refused()) return NULL;
    void *got = __real_realloc(old, size);
    kept += old == NULL && got != NULL;
    return got;
}

void __wrap_free(void *old) {
    kept -= old != NULL;
    __real_free(old);
}

static monk_monitor *monitor;
static monk_seat *a, *b;
static const monk_shape shape = {.kind = MONK_PNB, .seats = 3, .conditions = 1, .flags = 2, .budget = 100};

static int make(void) { return monk_make(&monitor, &shape); }

static int read_inside(void) {
    char *text;
    int answer = monk_history(monitor, a, &text, NULL);
    if (!answer) free(text);
    return answer;
}

/* Refuses each request of the call in turn; returns how many it makes. */
static long refuse_each(int call(void)) {
    for (long n = 1;; n++) {
        long before = kept;
        requests = 0, refused_at = n;
        int answer = call();
        refused_at = 0;
        if (requests < n) {
            HOLDS(answer == MONK_OK);
            return n - 1;
        }
        HOLDS(answer == MONK_MEMORY);
        HOLDS(kept == before);
    }
}

/* The lowest number of a file that isn't open. */
static int next_file(void) {
    int file = dup(0);
    HOLDS(file >= 0 && close(file) == 0);
    return file;
}

/* A seat that waits stays where it is when its file is refused. */
static void refuse_file(void) {
    struct rlimit usual, none;
    int file = -1;
    HOLDS(getrlimit(RLIMIT_NOFILE, &usual) == 0);
    none = usual, none.rlim_cur = (rlim_t)next_file();
    HOLDS(setrlimit(RLIMIT_NOFILE, &none) == 0);
    HOLDS(monk_wait_fd(b, &file) == MONK_IO && file == -1 && monk_place(b) == MONK_WAITING);
    HOLDS(setrlimit(RLIMIT_NOFILE, &usual) == 0);
    HOLDS(monk_wait_fd(b, &file) == MONK_WAITING && file >= 0);
}

static void work(void) {
    MUST(monk_take_seat(monitor, &b));
    MUST(monk_arrive(b));
    refuse_file();
    HOLDS(monk_left(b) == shape.budget);
    MUST(monk_start_wait(a, 0));
    HOLDS(monk_poll(b) == MONK_INSIDE);
    MUST(monk_set_flags(b, 1));
    MUST(monk_signal(b, 0));
    MUST(monk_broadcast(b, 0));
    HOLDS(monk_waiting(b, 0) == 0);
    MUST(monk_leave(b));
    HOLDS(monk_poll(a) == MONK_INSIDE);
    MUST(monk_leave(a));
    MUST(monk_give_seat(b));
    MUST(monk_arrive(a));
    MUST(monk_abandon(a));
    MUST(monk_stop(monitor));
    MUST(monk_close(monitor));
}

int main(void) {
    int file = next_file();
    long made = refuse_each(make);
    MUST(monk_take_seat(monitor, &a));
    MUST(monk_enter(a));
    long read = refuse_each(read_inside);
    requests = 0;
    work();
    HOLDS(requests == 0);
    MUST(monk_free(monitor));
    HOLDS(kept == 0 && next_file() == file);
    printf("memory: %ld requests of make and %ld of a history refused, none by other calls\n", made, read);
    return 0;
}
