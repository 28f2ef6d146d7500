/* Many monitors, all at once: how much memory the process has then, in MB: `many: MONITORS virtual MB resident MB`. */
#include <pthread.h>
#include <stdio.h>
#include <stdlib.h>
#include <time.h>
#include <unistd.h>

int main(int count, char **words) {
    int many = count > 1 ? atoi(words[1]) : 1000;
    long pages, resident, page = sysconf(_SC_PAGESIZE);
    const struct timespec over = {1, 0};
    pthread_mutex_t *mutexes = calloc((size_t)many, sizeof *mutexes);
    pthread_cond_t *conditions = calloc((size_t)many, sizeof *conditions);
    for (int i = 0; i < many; i++) {
        pthread_mutex_lock(&mutexes[i]);
        pthread_cond_timedwait(&conditions[i], &mutexes[i], &over);
        pthread_mutex_unlock(&mutexes[i]);
    }
    FILE *file = fopen("/proc/self/statm", "r");
    if (!file || fscanf(file, "%ld %ld", &pages, &resident) != 2) return 1;
    printf("many: %d virtual %ld resident %ld\n", many, pages * page >> 20, resident * page >> 20);
    return 0;
}
