/* A forked child waits for what nobody signals: for ever (`hang`), or until its time is over, and then a signal ends
   it (`raise`). Or a child can't become another program (`exec`), and its parent waits so. The status is the child's,
   as a shell gives it. */
#include <pthread.h>
#include <signal.h>
#include <string.h>
#include <sys/wait.h>
#include <time.h>
#include <unistd.h>

enum { BY_SIGNAL = 128, NO_PROGRAM = 127 };

static pthread_mutex_t mutex = PTHREAD_MUTEX_INITIALIZER;
static pthread_cond_t never = PTHREAD_COND_INITIALIZER;

static void wait_for_nobody(int is_for_ever) {
    const struct timespec over = {1, 0};
    pthread_mutex_lock(&mutex);
    while (is_for_ever) pthread_cond_wait(&never, &mutex);
    pthread_cond_timedwait(&never, &mutex, &over);
    pthread_mutex_unlock(&mutex);
}

static int status_of(pid_t child) {
    int status;
    waitpid(child, &status, 0);
    return WIFSIGNALED(status) ? BY_SIGNAL + WTERMSIG(status) : WEXITSTATUS(status);
}

static int fork_and_wait(int is_for_ever) {
    pid_t child = fork();
    if (child) return status_of(child);
    wait_for_nobody(is_for_ever);
    return raise(SIGTERM);
}

static int exec_and_wait(void) {
    pid_t child = vfork();
    if (!child) execl("/no/such/program", "", (char *)NULL), _exit(NO_PROGRAM);
    wait_for_nobody(0);
    return status_of(child);
}

int main(int count, char **words) {
    const char *what = count > 1 ? words[1] : "hang";
    return strcmp(what, "exec") ? fork_and_wait(!strcmp(what, "hang")) : exec_and_wait();
}
