/* pairs.c [MILLISECONDS [WORK [OWN]]]: pairs of lock and unlock a second, by 1, 2, 4 and 8 threads, beside
   pthread's. Each thread changes one number under the lock. It also works for WORK pauses of the processor under
   the lock, and for OWN without it: for none and for as many, if no numbers are given. The processor time of a
   pair says more than the wall on a machine that is busy. */
#include "aqs.h"

#include <pthread.h>
#include <stdatomic.h>
#include <stdbool.h>
#include <stdio.h>
#include <stdlib.h>
#include <string.h>
#include <time.h>
#include <unistd.h>

typedef struct {
    const char *name;
    void (*open)(void);
    void (*pair)(void);
    void (*close)(void);
} contender_t;

static pthread_mutex_t mutex = PTHREAD_MUTEX_INITIALIZER;
static aqs_lock_t *lock;
static aqs_sem_t *semaphore;
static long number;
static atomic_bool has_begun, is_over;
static atomic_ulong pairs, nanoseconds;
static int pauses, own_pauses;

static void nothing(void) {}

static inline void work_for(int left) {
    for (; left > 0; left--) __builtin_ia32_pause();
}

static void must(aqs_status_t status) {
    if (status == AQS_OK) return;
    fprintf(stderr, "pairs: %s\n", aqs_status_name(status));
    abort();
}

static void mutex_pair(void) {
    pthread_mutex_lock(&mutex);
    number++;
    work_for(pauses);
    pthread_mutex_unlock(&mutex);
}

static void open_lock(aqs_policy_t policy, aqs_when_full_t when_full) {
    aqs_options_t options = {.policy = policy, .when_full = when_full, .threads = 16};
    must(aqs_lock_open(&lock, &options));
}
static void open_nonfair(void) { open_lock(AQS_NONFAIR, AQS_TRIM); }
static void open_fair(void) { open_lock(AQS_FAIR, AQS_TRIM); }
static void open_kept(void) { open_lock(AQS_NONFAIR, AQS_REFUSE); }
static void lock_pair(void) {
    must(aqs_lock_lock(lock));
    number++;
    work_for(pauses);
    must(aqs_lock_unlock(lock));
}
static void close_lock(void) { aqs_lock_close(lock); }

static void open_semaphore(void) {
    aqs_options_t options = {.threads = 16};
    must(aqs_sem_open(&semaphore, 1, &options));
}
static void semaphore_pair(void) {
    must(aqs_sem_acquire(semaphore, 1));
    number++;
    work_for(pauses);
    must(aqs_sem_release(semaphore, 1));
}
static void close_semaphore(void) { aqs_sem_close(semaphore); }

static const contender_t contenders[] = {
    {"pthread_mutex", nothing, mutex_pair, nothing},
    {"lock, not fair", open_nonfair, lock_pair, close_lock},
    {"lock, not fair, keeps its history", open_kept, lock_pair, close_lock},
    {"lock, fair", open_fair, lock_pair, close_lock},
    {"semaphore, not fair", open_semaphore, semaphore_pair, close_semaphore},
};

static void *work(void *given) {
    const contender_t *contender = given;
    unsigned long mine = 0;
    struct timespec used;
    while (!atomic_load(&has_begun)) usleep(100);
    while (!atomic_load_explicit(&is_over, memory_order_relaxed)) {
        contender->pair();
        work_for(own_pauses);
        mine++;
    }
    clock_gettime(CLOCK_THREAD_CPUTIME_ID, &used);
    atomic_fetch_add(&pairs, mine);
    atomic_fetch_add(&nanoseconds, (unsigned long)used.tv_sec * 1000000000 + (unsigned long)used.tv_nsec);
    return NULL;
}

static double seconds(void) {
    struct timespec now;
    clock_gettime(CLOCK_MONOTONIC, &now);
    return (double)now.tv_sec + (double)now.tv_nsec / 1e9;
}

static void measure(const contender_t *contender, int threads, unsigned milliseconds) {
    pthread_t workers[8];
    contender->open();
    number = 0;
    atomic_store(&has_begun, false);
    atomic_store(&is_over, false);
    atomic_store(&pairs, 0);
    atomic_store(&nanoseconds, 0);
    for (int i = 0; i < threads; i++) pthread_create(&workers[i], NULL, work, (void *)contender);
    double begin = seconds();
    atomic_store(&has_begun, true);
    usleep(milliseconds * 1000);
    atomic_store(&is_over, true);
    for (int i = 0; i < threads; i++) pthread_join(workers[i], NULL);
    double count = (double)atomic_load(&pairs);
    double wall = seconds() - begin;
    printf("%-34s %d threads %12.0f pairs/s %7.0f ns of processor a pair%s\n", contender->name, threads,
           count / wall, (double)atomic_load(&nanoseconds) / count, number == (long)count ? "" : " WRONG");
    contender->close();
}

int main(int count, char **words) {
    unsigned milliseconds = count > 1 ? (unsigned)atoi(words[1]) : 300;
    pauses = count > 2 ? atoi(words[2]) : 0;
    own_pauses = count > 3 ? atoi(words[3]) : pauses;
    for (size_t i = 0; i < sizeof contenders / sizeof contenders[0]; i++) {
        for (int threads = 1; threads <= 8; threads *= 2) measure(&contenders[i], threads, milliseconds);
    }
    return 0;
}
