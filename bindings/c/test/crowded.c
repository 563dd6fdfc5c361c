/* crowded.c: 300 threads at one object, which has 256 seats. No call that waits is refused, and no release.
   */
#include "check.h"

#include <pthread.h>
#include <sched.h>
#include <stdatomic.h>

enum { THREADS = 300, ROUNDS = 20, PERMITS = 3 };

static aqs_lock_t lock = AQS_LOCK_INIT;
static aqs_rwlock_t table = AQS_RWLOCK_INIT;
static aqs_sem_t semaphore = AQS_SEM_INIT(0);
static aqs_latch_t latch = AQS_LATCH_INIT(1);
static atomic_int came, inside, readers, done;
static int count;

static void once_locked(int i) {
    (void)i;
    IS(aqs_lock_lock(&lock), AQS_OK);
    count++;
    IS(aqs_lock_unlock(&lock), AQS_OK);
}

static void once_in_time(int i) {
    if (i % 2) IS(aqs_lock_timedlock(&lock, 60000), AQS_OK);
    else IS(aqs_lock_lock_interruptibly(&lock), AQS_OK);
    count++;
    IS(aqs_lock_unlock(&lock), AQS_OK);
}

static void once_with_a_permit(int i) {
    if (i % 3) IS(aqs_sem_acquire(&semaphore, 1), AQS_OK);
    else IS(aqs_sem_timedacquire(&semaphore, 1, 60000), AQS_OK);
    CHECK(atomic_fetch_add(&inside, 1) < PERMITS);
    sched_yield();
    atomic_fetch_sub(&inside, 1);
    atomic_fetch_add(&done, 1);
    IS(aqs_sem_release(&semaphore, 1), AQS_OK);
}

static void once_reading_or_writing(int i) {
    if (i % 8) {
        IS(aqs_rwlock_rdlock(&table), AQS_OK);
        atomic_fetch_add(&readers, 1);
        sched_yield();
        atomic_fetch_sub(&readers, 1);
        atomic_fetch_add(&done, 1);
        IS(aqs_rwlock_rdunlock(&table), AQS_OK);
    } else {
        IS(aqs_rwlock_wrlock(&table), AQS_OK);
        CHECK(atomic_load(&readers) == 0);
        atomic_fetch_add(&done, 1);
        IS(aqs_rwlock_wrunlock(&table), AQS_OK);
    }
}

static void once_at_the_latch(int i) {
    (void)i;
    IS(aqs_latch_await(&latch), AQS_OK);
    atomic_fetch_add(&done, 1);
}

static void (*once)(int);
static int rounds;

static void *run(void *number) {
    atomic_fetch_add(&came, 1);
    for (int i = 0; i < rounds; i++) once((int)(size_t)number + i);
    return NULL;
}

/* All come while the object is held, so that each seat is taken. */
static void crowd(void (*made)(int), int times, void (*hold)(void), void (*let_go)(void)) {
    static pthread_t threads[THREADS];
    once = made, rounds = times;
    atomic_store(&came, 0);
    atomic_store(&done, 0);
    hold();
    for (size_t i = 0; i < THREADS; i++) CHECK(pthread_create(&threads[i], NULL, run, (void *)i) == 0);
    while (atomic_load(&came) < THREADS) usleep(1000);
    usleep(50000);
    let_go();
    for (int i = 0; i < THREADS; i++) CHECK(pthread_join(threads[i], NULL) == 0);
}

static uint32_t queued(aqs_object_t *object) {
    uint32_t length;
    IS(aqs_object_queue_length(object, &length), AQS_OK);
    return length;
}

static void hold_lock(void) { IS(aqs_lock_lock(&lock), AQS_OK); }
static void let_lock_go(void) {
    CHECK(queued(aqs_lock_object(&lock)) == 255);
    IS(aqs_lock_unlock(&lock), AQS_OK);
}
static void hold_table(void) { IS(aqs_rwlock_wrlock(&table), AQS_OK); }
static void let_table_go(void) {
    CHECK(queued(aqs_rwlock_object(&table)) == 255);
    IS(aqs_rwlock_wrunlock(&table), AQS_OK);
}
static void hold_none(void) {}
static void release(void) {
    CHECK(queued(aqs_sem_object(&semaphore)) == 255);
    IS(aqs_sem_release(&semaphore, PERMITS), AQS_OK);
}
static void count_down(void) {
    CHECK(queued(aqs_latch_object(&latch)) == 255);
    IS(aqs_latch_count_down(&latch), AQS_OK);
}

/* A semaphore of two seats: one waits in the one that it may have, another for it. A release finds the other.
   */
static aqs_sem_t *narrow;
static void *acquires(void *n) {
    IS(aqs_sem_acquire(narrow, (uint32_t)(size_t)n), AQS_OK);
    return NULL;
}
static void two_seats(void) {
    pthread_t threads[3];
    IS(aqs_sem_open(&narrow, 0, &(aqs_options_t){.threads = 2}), AQS_OK);
    for (int i = 0; i < 3; i++) CHECK(pthread_create(&threads[i], NULL, acquires, (void *)1) == 0);
    usleep(20000);
    for (int i = 0; i < 4; i++) IS(aqs_sem_release(narrow, i < 3), AQS_OK);
    for (int i = 0; i < 3; i++) CHECK(pthread_join(threads[i], NULL) == 0);
    IS(aqs_sem_timedacquire(narrow, 1, 1), AQS_TIMED_OUT);
    aqs_sem_close(narrow);
}

/* A thread that comes back with what it remembers takes no seat that is kept back. */
static void remembered(void) {
    pthread_t threads[2];
    IS(aqs_sem_open(&narrow, 0, &(aqs_options_t){.threads = 2}), AQS_OK);
    CHECK(pthread_create(&threads[0], NULL, acquires, (void *)1) == 0);
    while (queued(aqs_sem_object(narrow)) == 0) usleep(1000);
    IS(aqs_sem_release(narrow, 0), AQS_OK); /* in the other seat, which the thread remembers */
    IS(aqs_sem_timedacquire(narrow, 1, 5), AQS_TIMED_OUT);
    CHECK(queued(aqs_sem_object(narrow)) == 1);
    IS(aqs_sem_release(narrow, 1), AQS_OK);
    CHECK(pthread_join(threads[0], NULL) == 0);
    uint64_t entries;
    IS(aqs_history_trim(aqs_sem_object(narrow), &entries), AQS_OK);
    CHECK(entries == 4); /* of a call that waited for a seat there is none */
    aqs_sem_close(narrow);
}

int main(void) {
    alarm(100);
    crowd(once_locked, ROUNDS, hold_lock, let_lock_go);
    CHECK(count == THREADS * ROUNDS);
    crowd(once_in_time, ROUNDS, hold_lock, let_lock_go);
    CHECK(count == 2 * THREADS * ROUNDS);
    crowd(once_reading_or_writing, ROUNDS, hold_table, let_table_go);
    CHECK(atomic_load(&done) == THREADS * ROUNDS);
    crowd(once_with_a_permit, ROUNDS, hold_none, release);
    CHECK(atomic_load(&done) == THREADS * ROUNDS);
    crowd(once_at_the_latch, 1, hold_none, count_down);
    CHECK(atomic_load(&done) == THREADS);
    two_seats();
    remembered();
    aqs_lock_close(&lock), aqs_rwlock_close(&table), aqs_sem_close(&semaphore), aqs_latch_close(&latch);
    puts("crowded: good");
    return 0;
}
