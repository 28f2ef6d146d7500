/* Right programs that a thread of the recorder may disturb: signals STYLE. Each ends with status 7 and says
   `done`.

     setgid   sets its group, for which glibc interrupts every thread
     handled  a signal that its one thread blocks, until it is ready to handle it
     sigwait  a signal that its one thread blocks, and waits for */
#include <pthread.h>
#include <signal.h>
#include <stdio.h>
#include <string.h>
#include <unistd.h>

enum { STATUS = 7, MOMENT = 100000 /* microseconds */ };

static pthread_t first;
static volatile sig_atomic_t is_first;

static void handle(int number) {
    (void)number;
    is_first = pthread_equal(pthread_self(), first);
}

/* The process gets a signal that this thread blocks; a moment later no other thread has had it. */
static sigset_t send_blocked(void) {
    sigset_t one;
    sigemptyset(&one);
    sigaddset(&one, SIGUSR1);
    pthread_sigmask(SIG_BLOCK, &one, 0);
    kill(getpid(), SIGUSR1);
    usleep(MOMENT);
    return one;
}

static void set_group(void) {
    printf("set: %d\n", setgid(getgid()));
    usleep(MOMENT);
}

static void handled(void) {
    first = pthread_self();
    signal(SIGUSR1, handle);
    sigset_t one = send_blocked();
    pthread_sigmask(SIG_UNBLOCK, &one, 0);
    printf("handled by the first thread: %d\n", (int)is_first);
}

static void await_signal(void) {
    int number = 0;
    sigset_t one = send_blocked();
    sigwait(&one, &number);
    printf("waited for SIGUSR1: %d\n", number == SIGUSR1);
}

int main(int words, char **word) {
    const char *style = words > 1 ? word[1] : "";
    if (!strcmp(style, "setgid"))
        set_group();
    else if (!strcmp(style, "handled"))
        handled();
    else
        await_signal();
    puts("done");
    return STATUS;
}
