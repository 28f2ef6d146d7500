/* Where an error leaves something behind, as monk.h says; a wait whose descriptor is refused; and looks that fail. */
#include "calls.h"
#include <errno.h>
#include <signal.h>
#include <sys/resource.h>
#include <sys/time.h>
#include <unistd.h>

enum { KINDS = MONK_NPIS + 1 };

/* A stream that takes nothing: the visit that read the text stays in the history. */
static void saved_in_vain(int kind) {
    FILE *full = fopen("/dev/full", "w");
    begin(kind, 2, 0, 0, 100);
    OK(monk_give_seat(b)); b = NULL;
    errno = 0;
    IS(monk_save(m, NULL, full), MONK_IO); IS(errno, ENOSPC);
    IS(monk_save(m, NULL, NULL), MONK_RANGE);
    ENDS(NULL, "flags 1\nenter 1 free\nleave 1 entry\nenter 1 free\n");
    IS(monk_left(a), 100);
    fclose(full);
    end();
}

static void nothing(int number) { (void)number; }

/* A pipe that nobody reads, and a handler that lets no call go on. */
static void saved_until_a_signal(void) {
    struct sigaction interrupts = {.sa_handler = nothing};
    struct itimerval soon = {.it_interval.tv_usec = 50000, .it_value.tv_usec = 50000}, never = {.it_value.tv_sec = 0};
    int ends[2];
    sigaction(SIGALRM, &interrupts, NULL);
    IS(pipe(ends), 0);
    FILE *pipe = fdopen(ends[1], "w");
    begin(MONK_PB, 2, 0, 0, 7000);
    for (int visit = 0; visit < 3000; visit++) { OK(monk_enter(a)); OK(monk_leave(a)); }
    OK(monk_enter(a));
    setitimer(ITIMER_REAL, &soon, NULL);
    IS(monk_save(m, a, pipe), MONK_IO); IS(errno, EINTR);
    setitimer(ITIMER_REAL, &never, NULL);
    OK(monk_leave(a));
    close(ends[0]);
    signal(SIGPIPE, SIG_IGN);
    fclose(pipe);
    end();
}

/* A look whose turn doesn't come: its seat is nobody's until it has been inside. */
static void looked_in_vain(int kind) {
    char *text;
    monk_seat *more;
    begin(kind, 2, 0, 0, 100);
    OK(monk_give_seat(b)); b = NULL;
    OK(monk_enter(a));
    IS(monk_history(m, NULL, &text, NULL), MONK_BUSY);
    IS(monk_take_seat(m, &more), MONK_NO_SEAT);
    ENDS(a, "flags 1\nenter 0 free\n");
    OK(monk_leave(a)); OK(monk_give_seat(a)); a = NULL;
    OK(monk_close(m));
    ENDS(NULL, "leave 0 entry\nenter 1 handed\nleave 1 entry\nenter 0 free\n");
    end();
}

static void with_files(rlim_t count) {
    struct rlimit limit;
    getrlimit(RLIMIT_NOFILE, &limit);
    limit.rlim_cur = count;
    setrlimit(RLIMIT_NOFILE, &limit);
}

/* No descriptor is left. A seat whose turn has come is let in all the same, and one that was stopped is told so. */
static void without_descriptors(int kind) {
    struct rlimit usual;
    int file = -1;
    getrlimit(RLIMIT_NOFILE, &usual);
    begin(kind, 3, 0, 0, 100);
    OK(monk_enter(a)); WAITS(monk_arrive(b)); WAITS(monk_arrive(c));
    with_files(0);
    errno = 0;
    IS(monk_wait_fd(b, &file), MONK_IO); IS(errno, EMFILE); IS(file, -1); WAITS(monk_place(b));
    OK(monk_leave(a));
    IS_IN(monk_wait_fd(b, &file)); IS_IN(monk_place(b)); IS(file, -1);
    OK(monk_stop(m)); IS(monk_wait_fd(c, &file), MONK_STOPPED);
    OK(monk_leave(b)); IS_IN(monk_wait_fd(c, &file)); OK(monk_leave(c));
    with_files(usual.rlim_cur);
    end();
}

int main(void) {
    for (int kind = MONK_PB; kind < KINDS; kind++) saved_in_vain(kind), without_descriptors(kind);
    looked_in_vain(MONK_PB), looked_in_vain(MONK_NPIS), saved_until_a_signal();
    printf("%d answers, %d wrong\n", made, failed);
    return failed != 0;
}
