#include <aqs.h>
#include <pthread.h>
#include <stdio.h>

enum { ROOM = 8, JOBS = 100, WORKERS = 3, NO_MORE = 0 };

static aqs_lock_t lock = AQS_LOCK_INIT; /* it opens at its first call */
static aqs_cond_t not_full = AQS_COND_INIT, not_empty = AQS_COND_INIT;
static int jobs[ROOM], first, count;

static void put(int job) {
    aqs_lock_lock_or_abort(&lock);
    while (count == ROOM) aqs_or_abort(aqs_cond_wait(&not_full, &lock), "wait");
    jobs[(first + count++) % ROOM] = job;
    aqs_or_abort(aqs_cond_signal(&not_empty), "signal");
    aqs_lock_unlock_or_abort(&lock);
}

static int take(void) {
    aqs_lock_lock_or_abort(&lock);
    while (count == 0) aqs_or_abort(aqs_cond_wait(&not_empty, &lock), "wait");
    int job = jobs[first];
    first = (first + 1) % ROOM, count--;
    aqs_or_abort(aqs_cond_signal(&not_full), "signal");
    aqs_lock_unlock_or_abort(&lock);
    return job;
}

static void *work(void *sum) {
    for (int job; (job = take()) != NO_MORE;) *(int *)sum += job;
    return NULL;
}

int main(void) {
    pthread_t workers[WORKERS];
    int sums[WORKERS] = {0};
    for (int i = 0; i < WORKERS; i++)
        if (pthread_create(&workers[i], NULL, work, &sums[i]) != 0) return 1;
    for (int job = 1; job <= JOBS; job++) put(job);
    for (int i = 0; i < WORKERS; i++) put(NO_MORE);
    for (int i = 0; i < WORKERS; i++)
        if (pthread_join(workers[i], NULL) != 0) return 1;
    printf("%d\n", sums[0] + sums[1] + sums[2]);
    return aqs_history_save(aqs_lock_object(&lock), "jobs.history") != AQS_OK;
}
