/* times.c: no call that has a time is over before that, not even by a part of a millisecond. */
#include "check.h"

#include <pthread.h>
#include <time.h>

enum { ROUNDS = 30, LONGEST = 3 };

/* Another thread holds these. */
static aqs_lock_t *lock;
static aqs_rwlock_t *rwlock;
static aqs_sem_t *semaphore;
static aqs_latch_t *latch;
/* This thread holds these. */
static aqs_lock_t *own_lock;
static aqs_rwlock_t *own_rwlock;
static pthread_barrier_t is_held, is_over;

static int64_t nanoseconds(void) {
    struct timespec now;
    CHECK(clock_gettime(CLOCK_MONOTONIC, &now) == 0);
    return (int64_t)now.tv_sec * 1000000000 + now.tv_nsec;
}

static aqs_status_t timedlock(uint32_t ms) { return aqs_lock_timedlock(lock, ms); }
static aqs_status_t timedwait(uint32_t ms) { return aqs_lock_timedwait(own_lock, 0, ms); }
static aqs_status_t timedrdlock(uint32_t ms) { return aqs_rwlock_timedrdlock(rwlock, ms); }
static aqs_status_t timedwrlock(uint32_t ms) { return aqs_rwlock_timedwrlock(rwlock, ms); }
static aqs_status_t rwlock_timedwait(uint32_t ms) { return aqs_rwlock_timedwait(own_rwlock, 0, ms); }
static aqs_status_t timedacquire(uint32_t ms) { return aqs_sem_timedacquire(semaphore, 1, ms); }
static aqs_status_t timedawait(uint32_t ms) { return aqs_latch_timedawait(latch, ms); }

static const struct {
    const char *name;
    aqs_status_t (*call)(uint32_t ms);
} calls[] = {
    {"timedlock", timedlock}, {"timedwait", timedwait}, {"timedrdlock", timedrdlock},
    {"timedwrlock", timedwrlock}, {"rwlock_timedwait", rwlock_timedwait}, {"timedacquire", timedacquire},
    {"timedawait", timedawait},
};

static void *hold(void *none) {
    IS(aqs_lock_lock(lock), AQS_OK);
    IS(aqs_rwlock_wrlock(rwlock), AQS_OK);
    pthread_barrier_wait(&is_held);
    pthread_barrier_wait(&is_over);
    IS(aqs_rwlock_wrunlock(rwlock), AQS_OK);
    IS(aqs_lock_unlock(lock), AQS_OK);
    return none;
}

/* How many of the calls of each length were early. */
static int early(size_t which) {
    int found = 0;
    int64_t most = 0;
    for (int i = 0; i < ROUNDS; i++) {
        for (uint32_t ms = 1; ms <= LONGEST; ms++) {
            int64_t begin = nanoseconds();
            IS(calls[which].call(ms), AQS_TIMED_OUT);
            int64_t lacks = begin + (int64_t)ms * 1000000 - nanoseconds();
            if (lacks > most) most = lacks;
            found += lacks > 0;
        }
    }
    if (found) {
        fprintf(stderr, "%s: %d of %d calls were early, by up to %lld nanoseconds\n", calls[which].name,
                found, ROUNDS * LONGEST, (long long)most);
    }
    return found;
}

int main(void) {
    pthread_t holder;
    int found = 0;
    alarm(60);
    IS(aqs_lock_open(&lock, NULL), AQS_OK);
    IS(aqs_rwlock_open(&rwlock, NULL), AQS_OK);
    IS(aqs_sem_open(&semaphore, 0, NULL), AQS_OK);
    IS(aqs_latch_open(&latch, 1, NULL), AQS_OK);
    IS(aqs_lock_open(&own_lock, NULL), AQS_OK);
    IS(aqs_rwlock_open(&own_rwlock, NULL), AQS_OK);
    CHECK(pthread_barrier_init(&is_held, NULL, 2) == 0 && pthread_barrier_init(&is_over, NULL, 2) == 0);
    CHECK(pthread_create(&holder, NULL, hold, NULL) == 0);
    pthread_barrier_wait(&is_held);
    IS(aqs_lock_lock(own_lock), AQS_OK);
    IS(aqs_rwlock_wrlock(own_rwlock), AQS_OK);
    for (size_t i = 0; i < sizeof calls / sizeof calls[0]; i++) found += early(i);
    CHECK(found == 0);
    IS(aqs_rwlock_wrunlock(own_rwlock), AQS_OK);
    IS(aqs_lock_unlock(own_lock), AQS_OK);
    pthread_barrier_wait(&is_over);
    CHECK(pthread_join(holder, NULL) == 0);
    aqs_lock_close(lock);
    aqs_rwlock_close(rwlock);
    aqs_sem_close(semaphore);
    aqs_latch_close(latch);
    aqs_lock_close(own_lock);
    aqs_rwlock_close(own_rwlock);
    puts("times: good");
    return 0;
}
