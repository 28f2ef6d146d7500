/* libmonk_pthread.c - runs an unchanged program of pthreads or C11 threads under any kind of monitor that has
   signals, by LD_PRELOAD.

   monk-run has its options, docs/TRY.md says what it reports. A mutex becomes a monitor when a thread first waits on
   a condition with it; until then it is what it was. None of this is proved: the monitors below it are (monk.h).

   The parts: layer_real.h, the system's functions; layer_settings.h, what is asked; monk_outputs.h (of the recorder),
   files that are written; layer_known.h, threads, monitors and conditions; layer_shakes.h, what the dice do;
   layer_turns.h and layer_schedule.h, runs that repeat; layer_start.h, what calls begin with; layer_numbers.h, seats;
   layer_queues.h, who waits where; layer_remarks.h, uses that can't be meant; layer_files.h, histories and the report;
   layer_halls.h, volumes of a monitor; layer_signals.h; layer_ghosts.h, seats without a thread; layer_visits.h,
   entering, leaving, and how a mutex becomes a monitor; layer_waits.h; layer_elsewhere.h, where threads meet outside
   monitors; layer_report.h and layer_ends.h, the ends of a run; layer_calls.h, layer_c11.h, layer_births.h and
   layer_elsewhere_calls.h, the calls that programs make. */
#define _GNU_SOURCE
#include "layer_births.h"
#include "layer_c11.h"
#include "layer_elsewhere_calls.h"
#include "layer_ends.h"

/* ---- The beginning */

/* Whether files are missing, or a place that was asked for. Else the status is the program's. */
static int has_all(void) { return has_place() && !outputs.lost; }

/* The status says so; what the program printed is not lost. */
__attribute__((destructor)) static void ended(void) {
    finish("exit", GOES_ON);
    if (is_in_parent() || has_all()) return;
    fflush(NULL);
    end_now(STATUS_CANT);
}

__attribute__((constructor)) static void begin(void) {
    init();
    used_before = used_by_children();
    begin_turns();
    pthread_atfork(before_fork, let_tables, in_child);
    at_quick_exit(ended);
    watch_process();
}

/* ---- Ends and signals of the process */

/* The target sees the mark when it wakes from its wait to look. A thread that isn't known yet notices as it begins a
   wait that it is cancelled. */
int pthread_cancel(pthread_t thread) {
    init();
    int answer = real.cancel(thread);
    for (struct thread *t = every_thread; t; t = t->next)
        if (!t->has_ended && pthread_equal(t->self, thread)) t->is_cancelled = 1;
    return answer;
}

void _exit(int status) {
    init();
    finish("exit", IS_LAST);
    end_now(is_in_parent() || has_all() ? status : STATUS_CANT);
}

void _Exit(int status) { _exit(status); }

/* The program sees its own settings, as if the layer had changed nothing. */
int sigaction(int number, const struct sigaction *new, struct sigaction *old) {
    init();
    int is_default = new && !(new->sa_flags &SA_SIGINFO) && new->sa_handler == SIG_DFL;
    int answer = real.sigaction(number, new, old);
    if (answer) return answer;
    if (old && old->sa_handler == end_by_signal) *old = (struct sigaction){.sa_handler = SIG_DFL};
    if (is_default && is_fatal(number)) end_by_default(number);
    return 0;
}

void (*signal(int number, void (*handler)(int)))(int) {
    init();
    void (*old)(int) = real.set_signal(number, handler);
    if (old != SIG_ERR && handler == SIG_DFL && is_fatal(number)) end_by_default(number);
    return old == end_by_signal ? SIG_DFL : old;
}
