/* What a pair of lock and unlock takes, and what many locks take. Prints nanoseconds a pair, of one thread,
   and the resident memory before and after N locks with three pairs each. A semaphore and a mutex that is held rest
   meanwhile, and what they are then is printed. */
#include <errno.h>
#include <pthread.h>
#include <semaphore.h>
#include <stdbool.h>
#include <stdio.h>
#include <stdlib.h>
#include <time.h>
#include <unistd.h>

static double now(void) {
    struct timespec time;
    clock_gettime(CLOCK_PROCESS_CPUTIME_ID, &time);
    return (double)time.tv_sec * 1e9 + (double)time.tv_nsec;
}

static double pairs(pthread_mutex_t *mutex, int count) {
    double from = now();
    for (int i = 0; i < count; i++) {
        pthread_mutex_lock(mutex);
        pthread_mutex_unlock(mutex);
    }
    return (now() - from) / count;
}

static long resident(void) {
    long pages = 0, all = 0;
    FILE *file = fopen("/proc/self/statm", "r");
    if (!file || fscanf(file, "%ld %ld", &all, &pages) != 2) exit(1);
    fclose(file);
    return pages * sysconf(_SC_PAGESIZE) / 1024;
}

/* Two objects that rested while the many locks were used. */
static pthread_mutex_t held = PTHREAD_MUTEX_INITIALIZER;
static sem_t permits;

static void *find_rested(void *nothing) {
    int value;
    bool is_held = pthread_mutex_trylock(&held) == EBUSY;
    printf("%d permits, the mutex is %s\n", sem_getvalue(&permits, &value) ? -1 : value, is_held ? "held" : "free");
    return nothing;
}

int main(int argc, char **argv) {
    static pthread_mutex_t mutex = PTHREAD_MUTEX_INITIALIZER;
    int count = argc > 1 ? atoi(argv[1]) : 10000;
    double least = 1e9;
    for (int i = 0; i < 20; i++) {
        double took = pairs(&mutex, 50000);
        if (took < least) least = took;
    }
    printf("%.1f ns a pair\n", least);
    pthread_mutex_lock(&held);
    sem_init(&permits, 0, 5);
    for (int i = 0; i < 3; i++) sem_post(&permits);
    long before = resident();
    pthread_mutex_t *mutexes = malloc((size_t)count * sizeof *mutexes);
    for (int i = 0; i < count; i++) pthread_mutex_init(&mutexes[i], NULL);
    double from = now();
    for (int round = 0; round < 3; round++)
        for (int i = 0; i < count; i++) pairs(&mutexes[i], 1);
    printf("%d locks: %ld kB, %.0f ns a pair\n", count, resident() - before, (now() - from) / 3 / count);
    pthread_t other;
    if (pthread_create(&other, NULL, find_rested, NULL) || pthread_join(other, NULL)) return 1;
    return pthread_mutex_unlock(&held);
}
