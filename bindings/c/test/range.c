/* range.c: what is out of range is said. Times below 0 and times of any length. NULL and closed objects.
   Numbers of conditions that are taken and given back. */
#include "check.h"

#include <pthread.h>
#include <string.h>
#include <time.h>

static void says(aqs_status_t status, const char *wanted) {
    IS(status, AQS_OUT_OF_RANGE);
    if (strcmp(aqs_last_error(), wanted) == 0) return;
    fprintf(stderr, "it says \"%s\", and not \"%s\"\n", aqs_last_error(), wanted);
    _Exit(1);
}

static void *says_nothing(void *none) {
    CHECK(strcmp(aqs_last_error(), "") == 0);
    return none;
}

static void openings(void) {
    aqs_lock_t *lock, own;
    aqs_rwlock_t *table;
    aqs_sem_t *semaphore;
    aqs_latch_t *latch, own_latch;
    aqs_mutex_t *mutex;
    aqs_barrier_t *barrier;
    pthread_t thread;
    CHECK(strcmp(aqs_last_error(), "") == 0);
    says(aqs_lock_open(&lock, &(aqs_options_t){.threads = 257}), "threads must be 1 to 256, not 257");
    says(aqs_rwlock_open(&table, &(aqs_options_t){.history = 15}), "history must be 16 to 4294967295, not 15");
    says(aqs_lock_init(&own, &(aqs_options_t){.conditions = 17}), "conditions must be 1 to 16, not 17");
    aqs_options_t good_but_one = {.policy = AQS_STRICT, .history = 16, .threads = 1, .conditions = 18};
    says(aqs_lock_init(&own, &good_but_one), "conditions must be 1 to 16, not 18");
    IS(aqs_lock_lock(&own), AQS_MISUSE);
    says(aqs_sem_open(&semaphore, 1, &(aqs_options_t){.conditions = 1}), "conditions must be 0, not 1");
    says(aqs_mutex_open(&mutex, &(aqs_options_t){.policy = (aqs_policy_t)3}), "policy must be 0 to 2, not 3");
    says(aqs_latch_open(&latch, 1, &(aqs_options_t){.when_full = (aqs_when_full_t)2}), "when_full must be 0 to 1, not 2");
    says(aqs_latch_open(&latch, 2147483648u, NULL), "count must be 0 to 2147483647, not 2147483648");
    CHECK(!latch);
    says(aqs_latch_init(&own_latch, 4294967295u, NULL), "count must be 0 to 2147483647, not 4294967295");
    IS(aqs_latch_await(&own_latch), AQS_MISUSE);
    says(aqs_barrier_open(&barrier, 0, NULL), "parties must be 1 to 256, not 0");
    says(aqs_barrier_open(&barrier, 4, &(aqs_options_t){.threads = 3}), "parties must be 1 to 3, not 4");
    says(aqs_thread_interrupt(4000000000u), "thread must be 0 to 255, not 4000000000");
    says(aqs_out_of_range("a", -9223372036854775807 - 1, -1, 0), "a must be -9223372036854775808 to -1, not 0");
    CHECK(pthread_create(&thread, NULL, says_nothing, NULL) == 0 && pthread_join(thread, NULL) == 0);
}

/* Each call with a time. */
static aqs_lock_t *lock;
static aqs_rwlock_t *table;
static aqs_sem_t *semaphore;
static aqs_latch_t *latch;
static aqs_mutex_t *mutex;
static aqs_cond_t condition = AQS_COND_INIT;
enum { CALLS = 10 };

static aqs_status_t timed(int call, int64_t time) {
    switch (call) {
        case 0: return aqs_lock_timedlock(lock, time);
        case 1: return aqs_lock_timedwait(lock, 0, time);
        case 2: return aqs_rwlock_timedrdlock(table, time);
        case 3: return aqs_rwlock_timedwrlock(table, time);
        case 4: return aqs_rwlock_timedwait(table, 0, time);
        case 5: return aqs_sem_timedacquire(semaphore, 1, time);
        case 6: return aqs_latch_timedawait(latch, time);
        case 7: return aqs_mutex_timedlock(mutex, time);
        case 8: return aqs_mutex_timedwait(mutex, 0, time);
        default: return aqs_cond_timedwait(&condition, lock, time);
    }
}

static void *interrupts(void *thread) {
    usleep(20000);
    IS(aqs_thread_interrupt(*(aqs_thread_t *)thread), AQS_OK);
    return NULL;
}

static void times(void) {
    static const int64_t below[] = {-1, -4294967296, INT64_MIN};
    static const int64_t long_[] = {4294967296, 9007199254740993, INT64_MAX};
    char wanted[100];
    IS(aqs_lock_open(&lock, NULL), AQS_OK);
    IS(aqs_rwlock_open(&table, NULL), AQS_OK);
    IS(aqs_sem_open(&semaphore, 0, NULL), AQS_OK);
    IS(aqs_latch_open(&latch, 1, NULL), AQS_OK);
    IS(aqs_mutex_open(&mutex, NULL), AQS_OK);
    for (int i = 0; i < 3; i++) {
        for (int call = 0; call < CALLS; call++) {
            bool owns = call == 1 || call == 9;
            snprintf(wanted, sizeof wanted, "milliseconds must be 0 or more, not %lld", (long long)below[i]);
            if (owns) IS(aqs_lock_lock(lock), AQS_OK);
            if (call == 4) IS(aqs_rwlock_wrlock(table), AQS_OK);
            if (call == 8) IS(aqs_mutex_lock(mutex), AQS_OK);
            says(timed(call, below[i]), wanted);
            if (owns || call == 4 || call == 5 || call == 6 || call == 8) {
                pthread_t thread;
                aqs_thread_t self = aqs_thread_self();
                CHECK(pthread_create(&thread, NULL, interrupts, &self) == 0);
                IS(timed(call, long_[i]), AQS_INTERRUPTED);
                CHECK(pthread_join(thread, NULL) == 0);
            }
            if (owns) IS(aqs_lock_unlock(lock), AQS_OK);
            if (call == 4) IS(aqs_rwlock_wrunlock(table), AQS_OK);
            if (call == 8) IS(aqs_mutex_unlock(mutex), AQS_OK);
        }
    }
}

/* Closed objects. What init opened stays closed, what opened at its first call opens again. */
static void closed(void) {
    static aqs_lock_t at_first_call = AQS_LOCK_INIT;
    aqs_lock_t own;
    aqs_mutex_t plain;
    aqs_sem_t permits;
    bool held;
    IS(aqs_lock_init(&own, NULL), AQS_OK);
    IS(aqs_lock_lock(&own), AQS_OK);
    IS(aqs_lock_unlock(&own), AQS_OK);
    aqs_lock_close(&own);
    aqs_lock_close(&own);
    IS(aqs_lock_lock(&own), AQS_MISUSE);
    IS(aqs_lock_trylock(&own), AQS_MISUSE);
    IS(aqs_lock_unlock(&own), AQS_MISUSE);
    IS(aqs_lock_wait(&own, 0), AQS_MISUSE);
    IS(aqs_lock_is_locked(&own, &held), AQS_MISUSE);
    IS(aqs_history_trim(aqs_lock_object(&own), NULL), AQS_MISUSE);
    IS(aqs_history_save(aqs_lock_object(&own), "nothing"), AQS_MISUSE);
    CHECK(!aqs_lock_is_mine(&own));
    IS(aqs_cond_wait(&condition, &own), AQS_MISUSE);
    IS(aqs_lock_init(&own, NULL), AQS_OK);
    IS(aqs_lock_lock(&own), AQS_OK);
    IS(aqs_lock_unlock(&own), AQS_OK);
    aqs_lock_close(&own);
    IS(aqs_mutex_init(&plain, NULL), AQS_OK);
    aqs_mutex_close(&plain);
    IS(aqs_mutex_lock(&plain), AQS_MISUSE);
    IS(aqs_mutex_unlock(&plain), AQS_MISUSE);
    IS(aqs_mutex_wait(&plain, 0), AQS_MISUSE);
    IS(aqs_mutex_timedwait(&plain, 0, 1), AQS_MISUSE);
    IS(aqs_sem_init(&permits, 1, NULL), AQS_OK);
    aqs_sem_close(&permits);
    IS(aqs_sem_acquire(&permits, 1), AQS_MISUSE);
    IS(aqs_sem_release(&permits, 1), AQS_MISUSE);
    IS(aqs_lock_lock(&at_first_call), AQS_OK);
    IS(aqs_lock_unlock(&at_first_call), AQS_OK);
    aqs_lock_close(&at_first_call);
    IS(aqs_lock_lock(&at_first_call), AQS_OK);
    IS(aqs_lock_unlock(&at_first_call), AQS_OK);
    aqs_lock_close(&at_first_call);
    static aqs_lock_t others; /* bytes that no call has made a lock of */
    memset(&others, 0x5a, sizeof others);
    IS(aqs_lock_lock(&others), AQS_MISUSE);
    memset(&others, 0, sizeof others);
    others.object_.kind_ = 9;
    IS(aqs_lock_lock(&others), AQS_MISUSE);
}

/* NULL in the place of each object. */
static void nothing(void) {
    bool is;
    uint32_t count;
    int64_t permits;
    uint8_t number;
    size_t length;
    for (int i = 0; i < 2; i++) { /* before and after the thread has remembered a seat */
        IS(aqs_lock_open(NULL, NULL), AQS_MISUSE);
        IS(aqs_lock_init(NULL, NULL), AQS_MISUSE);
        IS(aqs_rwlock_open(NULL, NULL), AQS_MISUSE);
        IS(aqs_sem_open(NULL, 1, NULL), AQS_MISUSE);
        IS(aqs_sem_init(NULL, 1, NULL), AQS_MISUSE);
        IS(aqs_latch_open(NULL, 1, NULL), AQS_MISUSE);
        IS(aqs_latch_init(NULL, 1, NULL), AQS_MISUSE);
        IS(aqs_mutex_open(NULL, NULL), AQS_MISUSE);
        IS(aqs_mutex_init(NULL, NULL), AQS_MISUSE);
        IS(aqs_barrier_open(NULL, 1, NULL), AQS_MISUSE);
        aqs_lock_close(NULL), aqs_rwlock_close(NULL), aqs_sem_close(NULL), aqs_latch_close(NULL);
        aqs_mutex_close(NULL), aqs_barrier_close(NULL);
        IS(aqs_lock_lock(NULL), AQS_MISUSE);
        IS(aqs_lock_lock_interruptibly(NULL), AQS_MISUSE);
        IS(aqs_lock_timedlock(NULL, 5), AQS_MISUSE);
        IS(aqs_lock_timedlock(NULL, INT64_MAX), AQS_MISUSE);
        IS(aqs_lock_trylock(NULL), AQS_MISUSE);
        IS(aqs_lock_unlock(NULL), AQS_MISUSE);
        IS(aqs_lock_wait(NULL, 0), AQS_MISUSE);
        IS(aqs_lock_signal_all(NULL, 0), AQS_MISUSE);
        IS(aqs_lock_is_locked(NULL, &is), AQS_MISUSE);
        CHECK(aqs_lock_holds(NULL) == 0 && !aqs_lock_is_mine(NULL));
        IS(aqs_rwlock_rdlock(NULL), AQS_MISUSE);
        IS(aqs_rwlock_wrunlock(NULL), AQS_MISUSE);
        CHECK(aqs_rwlock_read_holds(NULL) == 0 && aqs_rwlock_write_holds(NULL) == 0);
        IS(aqs_sem_acquire(NULL, 1), AQS_MISUSE);
        IS(aqs_sem_release(NULL, 1), AQS_MISUSE);
        IS(aqs_sem_drain(NULL, &count), AQS_MISUSE);
        IS(aqs_sem_getvalue(NULL, &permits), AQS_MISUSE);
        IS(aqs_latch_count_down(NULL), AQS_MISUSE);
        IS(aqs_latch_await(NULL), AQS_MISUSE);
        IS(aqs_latch_getcount(NULL, &count), AQS_MISUSE);
        IS(aqs_mutex_lock(NULL), AQS_MISUSE);
        IS(aqs_mutex_trylock(NULL), AQS_MISUSE);
        IS(aqs_mutex_unlock(NULL), AQS_MISUSE);
        IS(aqs_mutex_wait(NULL, 0), AQS_MISUSE);
        IS(aqs_mutex_timedwait(NULL, 0, 1), AQS_MISUSE);
        IS(aqs_mutex_signal(NULL, 0), AQS_MISUSE);
        IS(aqs_cond_wait(NULL, NULL), AQS_MISUSE);
        IS(aqs_cond_timedwait(&condition, NULL, 1), AQS_MISUSE);
        IS(aqs_cond_signal(NULL), AQS_MISUSE);
        IS(aqs_barrier_wait(NULL, &is), AQS_MISUSE);
        IS(aqs_object_queue_length(NULL, &count), AQS_MISUSE);
        IS(aqs_object_waiters(aqs_barrier_object(NULL), &count), AQS_MISUSE);
        IS(aqs_object_take_condition(NULL, &number), AQS_MISUSE);
        aqs_object_give_condition(NULL, 0);
        CHECK(aqs_object_policy(NULL) == AQS_NONFAIR);
        IS(aqs_history_text(NULL, NULL, 0, &length), AQS_MISUSE);
        IS(aqs_history_names(NULL, NULL, 0, &length), AQS_MISUSE);
        IS(aqs_history_write(NULL, stdout), AQS_MISUSE);
        IS(aqs_history_save(NULL, "nothing"), AQS_MISUSE);
        IS(aqs_history_save(aqs_lock_object(lock), NULL), AQS_MISUSE);
        IS(aqs_lock_lock(lock), AQS_OK);
        IS(aqs_lock_unlock(lock), AQS_OK);
    }
}

/* Conditions without a number, and as objects beside them. */
static void numbers(void) {
    static aqs_lock_t at_first_call = AQS_LOCK_INIT;
    aqs_lock_t *few;
    aqs_cond_t first = AQS_COND_INIT;
    uint8_t number, other;
    IS(aqs_lock_open(&few, &(aqs_options_t){.conditions = 3}), AQS_OK);
    aqs_object_t *object = aqs_lock_object(few);
    for (uint8_t i = 0; i < 3; i++) {
        IS(aqs_object_take_condition(object, &number), AQS_OK);
        CHECK(number == i);
    }
    number = 77;
    IS(aqs_object_take_condition(object, &number), AQS_NO_SUCH_CONDITION);
    CHECK(number == 77);
    IS(aqs_lock_lock(few), AQS_OK);
    IS(aqs_cond_timedwait(&first, few, 1), AQS_NO_SUCH_CONDITION);
    CHECK(!first.lock_); /* another lock may come next */
    aqs_object_give_condition(object, 1);
    aqs_object_give_condition(object, 1);
    aqs_object_give_condition(object, 200);
    IS(aqs_cond_timedwait(&first, few, 1), AQS_TIMED_OUT);
    IS(aqs_object_take_condition(object, &number), AQS_OK);
    CHECK(number == 1);
    IS(aqs_object_take_condition(object, &other), AQS_NO_SUCH_CONDITION);
    IS(aqs_lock_unlock(few), AQS_OK);
    aqs_lock_close(few);
    for (uint8_t i = 0; i < AQS_CONDITIONS; i++) {
        IS(aqs_object_take_condition(aqs_lock_object(&at_first_call), &number), AQS_OK);
        CHECK(number == i);
    }
    IS(aqs_object_take_condition(aqs_lock_object(&at_first_call), &number), AQS_NO_SUCH_CONDITION);
    IS(aqs_object_take_condition(aqs_sem_object(semaphore), &number), AQS_NO_SUCH_CONDITION);
}

static void where_it_lies(void) {
    static aqs_lock_t one;
    static _Thread_local int of_a_thread;
    aqs_lock_t other;
    CHECK(aqs_is_static(&one) && aqs_is_static(&condition) && aqs_is_static("text"));
    CHECK(!aqs_is_static(&other) && !aqs_is_static(lock) && !aqs_is_static(&of_a_thread) && !aqs_is_static(NULL));
    CHECK(aqs_is_static(stdout));
}

int main(void) {
    alarm(60);
    openings();
    times();
    closed();
    nothing();
    numbers();
    where_it_lies();
    aqs_lock_close(lock), aqs_rwlock_close(table), aqs_sem_close(semaphore), aqs_latch_close(latch);
    aqs_mutex_close(mutex);
    puts("range: good");
    return 0;
}
