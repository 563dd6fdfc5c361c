/* calls.c FOLDER: each call of aqs.h, each status, and what a call leaves. */
#include "check.h"

#include "aqs_core.h"

#include <pthread.h>
#include <signal.h>
#include <stdatomic.h>
#include <string.h>
#include <time.h>

static const char *folder;

/* A call that another thread makes. */
typedef struct {
    aqs_status_t (*call)(void *object);
    void *object;
    aqs_status_t status;
    _Atomic int thread; /* its number and 1, as soon as it has one */
} other_t;

static void *run(void *given) {
    other_t *other = given;
    atomic_store(&other->thread, aqs_thread_self() + 1);
    other->status = other->call(other->object);
    return NULL;
}

static pthread_t start(other_t *other) {
    pthread_t thread;
    atomic_store(&other->thread, 0);
    CHECK(pthread_create(&thread, NULL, run, other) == 0);
    while (atomic_load(&other->thread) == 0) usleep(100);
    return thread;
}

static aqs_status_t ended(pthread_t thread, other_t *other) {
    CHECK(pthread_join(thread, NULL) == 0);
    return other->status;
}

static aqs_status_t in_other(aqs_status_t (*call)(void *), void *object) {
    other_t other = {.call = call, .object = object};
    return ended(start(&other), &other);
}

static aqs_status_t try_lock(void *lock) {
    aqs_status_t status = aqs_lock_trylock(lock);
    if (status == AQS_OK) IS(aqs_lock_unlock(lock), AQS_OK);
    return status;
}
static aqs_status_t timed_lock(void *lock) { return aqs_lock_timedlock(lock, 20); }
static aqs_status_t timeless_lock(void *lock) { return aqs_lock_timedlock(lock, 0); }
static aqs_status_t unlock(void *lock) { return aqs_lock_unlock(lock); }
static aqs_status_t lock_interruptibly(void *lock) { return aqs_lock_lock_interruptibly(lock); }
static aqs_status_t lock_and_unlock(void *lock) {
    IS(aqs_lock_lock(lock), AQS_OK);
    return aqs_lock_unlock(lock);
}

static void locks(void) {
    aqs_lock_t *lock;
    aqs_options_t options = {.policy = AQS_FAIR, .when_full = AQS_REFUSE, .threads = 8, .conditions = 2};
    IS(aqs_lock_open(&lock, &options), AQS_OK);
    IS(aqs_lock_lock(lock), AQS_OK);
    IS(aqs_lock_lock(lock), AQS_OK);
    IS(aqs_lock_unlock(lock), AQS_OK);
    IS(in_other(try_lock, lock), AQS_WOULD_BLOCK);
    IS(in_other(timed_lock, lock), AQS_TIMED_OUT);
    IS(in_other(timeless_lock, lock), AQS_TIMED_OUT);
    IS(in_other(unlock, lock), AQS_NOT_OWNER);
    other_t other = {.call = lock_interruptibly, .object = lock};
    pthread_t thread = start(&other);
    usleep(10000);
    IS(aqs_thread_interrupt((aqs_thread_t)(atomic_load(&other.thread) - 1)), AQS_OK);
    IS(ended(thread, &other), AQS_INTERRUPTED);
    other.call = lock_and_unlock;
    thread = start(&other);
    usleep(10000);
    IS(aqs_lock_unlock(lock), AQS_OK);
    IS(ended(thread, &other), AQS_OK);
    IS(in_other(try_lock, lock), AQS_OK);
    IS(aqs_lock_unlock(lock), AQS_NOT_OWNER);
    keep_history(aqs_lock_object(lock), folder, "calls-lock");
    aqs_lock_close(lock);
    aqs_lock_close(NULL);
}

static int signals;

static aqs_status_t wait_for_signal(void *lock) {
    IS(aqs_lock_lock(lock), AQS_OK);
    aqs_status_t status = AQS_OK;
    while (signals == 0 && status == AQS_OK) status = aqs_lock_wait_interruptibly(lock, 1);
    if (status == AQS_OK) signals--;
    IS(aqs_lock_unlock(lock), AQS_OK);
    return status;
}

static void conditions(void) {
    aqs_lock_t *lock;
    aqs_options_t options = {.policy = AQS_FAIR, .when_full = AQS_REFUSE, .conditions = 2};
    IS(aqs_lock_open(&lock, &options), AQS_OK);
    IS(aqs_lock_wait(lock, 0), AQS_NOT_OWNER);
    IS(aqs_lock_signal(lock, 0), AQS_NOT_OWNER);
    IS(aqs_lock_signal_all(lock, 1), AQS_NOT_OWNER);
    IS(aqs_lock_lock(lock), AQS_OK);
    IS(aqs_lock_wait(lock, 2), AQS_NO_SUCH_CONDITION);
    IS(aqs_lock_timedwait(lock, 0, 10), AQS_TIMED_OUT);
    IS(aqs_lock_timedwait(lock, 0, 0), AQS_TIMED_OUT);
    IS(aqs_lock_signal(lock, 0), AQS_OK);
    IS(aqs_lock_unlock(lock), AQS_OK);
    other_t waiters[3];
    pthread_t threads[3];
    for (int i = 0; i < 3; i++) {
        waiters[i] = (other_t){.call = wait_for_signal, .object = lock};
        threads[i] = start(&waiters[i]);
        usleep(5000);
    }
    IS(aqs_lock_lock(lock), AQS_OK);
    signals++;
    IS(aqs_lock_signal(lock, 1), AQS_OK);
    IS(aqs_lock_unlock(lock), AQS_OK);
    IS(ended(threads[0], &waiters[0]), AQS_OK);
    IS(aqs_thread_interrupt((aqs_thread_t)(atomic_load(&waiters[1].thread) - 1)), AQS_OK);
    IS(ended(threads[1], &waiters[1]), AQS_INTERRUPTED);
    IS(aqs_lock_lock(lock), AQS_OK);
    signals++;
    IS(aqs_lock_signal_all(lock, 1), AQS_OK);
    IS(aqs_lock_unlock(lock), AQS_OK);
    IS(ended(threads[2], &waiters[2]), AQS_OK);
    keep_history(aqs_lock_object(lock), folder, "calls-conditions");
    aqs_lock_close(lock);
}

static aqs_status_t try_read(void *lock) {
    aqs_status_t status = aqs_rwlock_tryrdlock(lock);
    if (status == AQS_OK) IS(aqs_rwlock_rdunlock(lock), AQS_OK);
    return status;
}
static aqs_status_t try_write(void *lock) {
    aqs_status_t status = aqs_rwlock_trywrlock(lock);
    if (status == AQS_OK) IS(aqs_rwlock_wrunlock(lock), AQS_OK);
    return status;
}
static aqs_status_t timed_read(void *lock) { return aqs_rwlock_timedrdlock(lock, 10); }
static aqs_status_t timed_write(void *lock) { return aqs_rwlock_timedwrlock(lock, 10); }

static void read_write_locks(void) {
    aqs_rwlock_t *lock;
    aqs_options_t options = {.when_full = AQS_REFUSE};
    IS(aqs_rwlock_open(&lock, &options), AQS_OK);
    IS(aqs_rwlock_rdlock(lock), AQS_OK);
    IS(in_other(try_read, lock), AQS_OK);
    IS(in_other(try_write, lock), AQS_WOULD_BLOCK);
    IS(in_other(timed_write, lock), AQS_TIMED_OUT);
    IS(aqs_rwlock_rdunlock(lock), AQS_OK);
    IS(aqs_rwlock_rdunlock(lock), AQS_NOT_OWNER);
    IS(aqs_rwlock_wrlock_interruptibly(lock), AQS_OK);
    IS(in_other(timed_read, lock), AQS_TIMED_OUT);
    IS(in_other(try_read, lock), AQS_WOULD_BLOCK);
    IS(aqs_rwlock_timedwait(lock, 0, 5), AQS_TIMED_OUT);
    IS(aqs_rwlock_signal(lock, 0), AQS_OK);
    IS(aqs_rwlock_signal_all(lock, 0), AQS_OK);
    IS(aqs_rwlock_rdlock_interruptibly(lock), AQS_OK);
    IS(aqs_rwlock_wait(lock, 0), AQS_HOLDS_READ);
    IS(aqs_rwlock_wrunlock(lock), AQS_OK);
    IS(in_other(try_read, lock), AQS_OK);
    IS(in_other(try_write, lock), AQS_WOULD_BLOCK);
    IS(aqs_rwlock_rdunlock(lock), AQS_OK);
    IS(aqs_rwlock_wrunlock(lock), AQS_NOT_OWNER);
    keep_history(aqs_rwlock_object(lock), folder, "calls-rwlock");
    aqs_rwlock_close(lock);
}

static aqs_status_t write_and_wait(void *lock) {
    IS(aqs_rwlock_wrlock(lock), AQS_OK);
    aqs_status_t status = AQS_OK;
    while (signals == 0 && status == AQS_OK) status = aqs_rwlock_wait_interruptibly(lock, 0);
    if (status == AQS_OK) signals--;
    IS(aqs_rwlock_wrunlock(lock), AQS_OK);
    return status;
}

static void read_write_conditions(void) {
    aqs_rwlock_t *lock;
    aqs_options_t options = {.when_full = AQS_REFUSE};
    IS(aqs_rwlock_open(&lock, &options), AQS_OK);
    IS(aqs_rwlock_wait_interruptibly(lock, 0), AQS_NOT_OWNER);
    other_t other = {.call = write_and_wait, .object = lock};
    pthread_t thread = start(&other);
    usleep(5000);
    IS(aqs_thread_interrupt((aqs_thread_t)(atomic_load(&other.thread) - 1)), AQS_OK);
    IS(ended(thread, &other), AQS_INTERRUPTED);
    thread = start(&other);
    usleep(5000);
    IS(aqs_rwlock_wrlock(lock), AQS_OK);
    signals++;
    IS(aqs_rwlock_signal(lock, 0), AQS_OK);
    IS(aqs_rwlock_wrunlock(lock), AQS_OK);
    IS(ended(thread, &other), AQS_OK);
    keep_history(aqs_rwlock_object(lock), folder, "calls-rwlock-conditions");
    aqs_rwlock_close(lock);
}

/* The nanoseconds for which this thread had a processor. */
static long nanoseconds_used(void) {
    struct timespec used;
    CHECK(clock_gettime(CLOCK_THREAD_CPUTIME_ID, &used) == 0);
    return (long)used.tv_sec * 1000000000 + used.tv_nsec;
}

/* A thread that waits for 300 milliseconds sleeps for most of them. */
static void waits_asleep(void) {
    aqs_lock_t *lock;
    IS(aqs_lock_open(&lock, NULL), AQS_OK);
    IS(aqs_lock_lock(lock), AQS_OK);
    long before = nanoseconds_used();
    IS(aqs_lock_timedwait(lock, 0, 300), AQS_TIMED_OUT);
    CHECK(nanoseconds_used() - before < 100 * 1000000);
    IS(aqs_lock_unlock(lock), AQS_OK);
    aqs_lock_close(lock);
}

static aqs_lock_t *of_handler;
static _Atomic int in_handler;

static void try_in_handler(int number) {
    (void)number;
    atomic_store(&in_handler, aqs_lock_trylock(of_handler));
}

/* No handler may call an object. One that calls the lock for which its thread parks is told so. */
static void calls_within_calls(void) {
    aqs_lock_t *lock;
    aqs_options_t options = {.policy = AQS_FAIR};
    IS(aqs_lock_open(&lock, &options), AQS_OK);
    IS(aqs_lock_lock(lock), AQS_OK);
    of_handler = lock;
    struct sigaction action = {.sa_handler = try_in_handler};
    CHECK(sigaction(SIGUSR1, &action, NULL) == 0);
    other_t other = {.call = lock_and_unlock, .object = lock};
    pthread_t thread = start(&other);
    for (int tries = 0; atomic_load(&in_handler) != AQS_MISUSE; tries++) {
        CHECK(tries < 1000);
        usleep(10000);
        CHECK(pthread_kill(thread, SIGUSR1) == 0);
        usleep(1000);
    }
    IS(aqs_lock_unlock(lock), AQS_OK);
    IS(ended(thread, &other), AQS_OK);
    keep_history(aqs_lock_object(lock), folder, "calls-within-calls");
    aqs_lock_close(lock);
}

/* Either side of a read-write lock can be held 65535 times, if the history has room for as many unlocks. */
static void hold_limits(void) {
    aqs_rwlock_t *lock;
    aqs_status_t status;
    long reads = 0, writes = 0;
    IS(aqs_rwlock_open(&lock, &(aqs_options_t){.threads = 2}), AQS_OK);
    while ((status = aqs_rwlock_wrlock(lock)) == AQS_OK) writes++;
    IS(status, AQS_HISTORY_FULL);
    while (writes > 0) writes -= aqs_rwlock_wrunlock(lock) == AQS_OK;
    aqs_rwlock_close(lock);
    IS(aqs_rwlock_open(&lock, &(aqs_options_t){.threads = 2, .history = 400000}), AQS_OK);
    while ((status = aqs_rwlock_wrlock(lock)) == AQS_OK) writes++;
    IS(status, AQS_TOO_MANY_HOLDS);
    IS(aqs_rwlock_trywrlock(lock), AQS_TOO_MANY_HOLDS);
    while ((status = aqs_rwlock_rdlock(lock)) == AQS_OK) reads++;
    IS(status, AQS_TOO_MANY_HOLDS);
    CHECK(reads == 65535 && writes == 65535);
    while (writes-- > 0) IS(aqs_rwlock_wrunlock(lock), AQS_OK);
    while (reads-- > 0) IS(aqs_rwlock_rdunlock(lock), AQS_OK);
    IS(in_other(try_write, lock), AQS_OK);
    keep_history(aqs_rwlock_object(lock), folder, "calls-holds");
    aqs_rwlock_close(lock);
}

static aqs_status_t acquire_three(void *semaphore) { return aqs_sem_acquire(semaphore, 3); }

static void semaphores(void) {
    aqs_sem_t *semaphore;
    uint32_t n = 99;
    int64_t free = 99;
    aqs_options_t options = {.policy = AQS_FAIR, .when_full = AQS_REFUSE};
    IS(aqs_sem_open(&semaphore, 2, &options), AQS_OK);
    IS(aqs_sem_getvalue(semaphore, &free), AQS_OK);
    CHECK(free == 2);
    IS(aqs_sem_tryacquire(semaphore, 3), AQS_WOULD_BLOCK);
    IS(aqs_sem_acquire(semaphore, 1), AQS_OK);
    IS(aqs_sem_timedacquire(semaphore, 2, 10), AQS_TIMED_OUT);
    IS(aqs_sem_acquire(semaphore, 3000000000u), AQS_BAD_AMOUNT);
    other_t other = {.call = acquire_three, .object = semaphore};
    pthread_t thread = start(&other);
    usleep(10000);
    IS(aqs_sem_release(semaphore, 2), AQS_OK);
    IS(ended(thread, &other), AQS_OK);
    IS(aqs_sem_release(semaphore, 5), AQS_OK);
    IS(aqs_sem_drain(semaphore, &n), AQS_OK);
    CHECK(n == 5);
    IS(aqs_sem_getvalue(semaphore, &free), AQS_OK);
    CHECK(free == 0);
    IS(aqs_sem_drain(semaphore, NULL), AQS_OK);
    IS(aqs_sem_release(semaphore, 2147483647), AQS_OK);
    IS(aqs_sem_release(semaphore, 1), AQS_TOO_MANY_PERMITS);
    IS(aqs_thread_interrupt(aqs_thread_self()), AQS_OK);
    IS(aqs_sem_acquire_interruptibly(semaphore, 1), AQS_INTERRUPTED);
    IS(aqs_sem_acquire_interruptibly(semaphore, 1), AQS_OK);
    IS(aqs_sem_getvalue(semaphore, &free), AQS_OK);
    CHECK(free == 2147483646);
    keep_history(aqs_sem_object(semaphore), folder, "calls-semaphore");
    aqs_sem_close(semaphore);
    IS(aqs_sem_open(&semaphore, -3, NULL), AQS_OK);
    IS(aqs_sem_release(semaphore, 1), AQS_OK);
    IS(aqs_history_trim(aqs_sem_object(semaphore), NULL), AQS_OK);
    IS(aqs_sem_getvalue(semaphore, &free), AQS_OK);
    CHECK(free == -2);
    aqs_sem_close(semaphore);
}

static aqs_status_t await_latch(void *latch) { return aqs_latch_await(latch); }

static void latches(void) {
    aqs_latch_t *latch;
    aqs_options_t options = {.when_full = AQS_REFUSE};
    uint32_t count = 99;
    IS(aqs_latch_open(&latch, 2, &options), AQS_OK);
    IS(aqs_latch_getcount(latch, &count), AQS_OK);
    CHECK(count == 2);
    other_t other = {.call = await_latch, .object = latch};
    pthread_t thread = start(&other);
    IS(aqs_latch_timedawait(latch, 10), AQS_TIMED_OUT);
    IS(aqs_latch_count_down(latch), AQS_OK);
    IS(aqs_latch_getcount(latch, &count), AQS_OK);
    CHECK(count == 1);
    IS(aqs_thread_interrupt(aqs_thread_self()), AQS_OK);
    CHECK(aqs_thread_interrupted());
    CHECK(!aqs_thread_interrupted());
    IS(aqs_thread_interrupt(aqs_thread_self()), AQS_OK);
    IS(aqs_latch_await_interruptibly(latch), AQS_INTERRUPTED);
    IS(aqs_latch_count_down(latch), AQS_OK);
    IS(ended(thread, &other), AQS_OK);
    IS(aqs_latch_await(latch), AQS_OK);
    IS(aqs_latch_count_down(latch), AQS_OK);
    IS(aqs_latch_getcount(latch, &count), AQS_OK);
    CHECK(count == 0);
    keep_history(aqs_latch_object(latch), folder, "calls-latch");
    aqs_latch_close(latch);
}

static aqs_status_t own_and_end(void *lock) { return aqs_lock_lock(lock); }

/* A thread that ends as owner keeps its seat: nobody is taken for the owner. */
static void owners_that_end(void) {
    aqs_lock_t *lock;
    IS(aqs_lock_open(&lock, NULL), AQS_OK);
    IS(in_other(own_and_end, lock), AQS_OK);
    for (int i = 0; i < 3; i++) IS(in_other(try_lock, lock), AQS_WOULD_BLOCK);
    aqs_lock_close(lock);
}

static void histories(void) {
    aqs_lock_t *lock;
    aqs_options_t options = {.history = 64, .threads = 2};
    IS(aqs_lock_open(&lock, &options), AQS_OK);
    for (int i = 0; i < 10000; i++) { /* it trims itself */
        IS(aqs_lock_lock(lock), AQS_OK);
        IS(aqs_lock_unlock(lock), AQS_OK);
    }
    aqs_object_t *object = aqs_lock_object(lock);
    uint64_t count = 0;
    size_t length = 0;
    IS(aqs_history_text(object, NULL, 0, &length), AQS_NO_SPACE);
    CHECK(length > 0);
    char *text = malloc(length);
    IS(aqs_history_text(object, text, length - 1, &length), AQS_NO_SPACE);
    IS(aqs_history_text(object, text, length, &length), AQS_OK);
    CHECK(memcmp(text, "aqs-history ", 12) == 0);
    free(text);
    FILE *full = fopen("/dev/full", "w");
    if (full) {
        setvbuf(full, NULL, _IONBF, 0);
        IS(aqs_history_write(object, full), AQS_IO_ERROR);
        fclose(full);
    }
    keep_history(object, folder, "calls-trimmed");
    IS(aqs_history_trim(object, &count), AQS_OK);
    CHECK(count > 0);
    IS(aqs_history_trim(object, &count), AQS_OK);
    CHECK(count == 0);
    IS(aqs_history_trim(object, NULL), AQS_OK);
    aqs_lock_close(lock);
    options.when_full = AQS_REFUSE;
    IS(aqs_lock_open(&lock, &options), AQS_OK);
    aqs_status_t status;
    while ((status = aqs_lock_lock(lock)) == AQS_OK) IS(aqs_lock_unlock(lock), AQS_OK);
    CHECK(status == AQS_HISTORY_FULL);
    IS(aqs_history_trim(aqs_lock_object(lock), &count), AQS_OK);
    IS(aqs_lock_lock(lock), AQS_OK);
    aqs_lock_close(lock);
}

static void options_and_statuses(void) {
    aqs_lock_t *lock;
    aqs_latch_t *latch;
    aqs_sem_t *semaphore;
    lock = (aqs_lock_t *)&lock;
    IS(aqs_lock_open(&lock, &(aqs_options_t){.threads = 257}), AQS_OUT_OF_RANGE);
    CHECK(!lock);
    IS(aqs_lock_open(&lock, &(aqs_options_t){.conditions = 17}), AQS_OUT_OF_RANGE);
    IS(aqs_lock_open(&lock, &(aqs_options_t){.history = 15}), AQS_OUT_OF_RANGE);
    IS(aqs_lock_open(&lock, &(aqs_options_t){.policy = 3}), AQS_OUT_OF_RANGE);
    IS(aqs_latch_open(&latch, 2147483648u, NULL), AQS_OUT_OF_RANGE);
    IS(aqs_sem_open(&semaphore, 1, &(aqs_options_t){.conditions = 1}), AQS_OUT_OF_RANGE);
    IS(aqs_lock_open(&lock, &(aqs_options_t){.threads = 1}), AQS_OK);
    IS(aqs_lock_lock(lock), AQS_OK);
    IS(in_other(try_lock, lock), AQS_TOO_MANY_THREADS);
    IS(aqs_lock_unlock(lock), AQS_OK);
    IS(in_other(try_lock, lock), AQS_OK);
    IS(in_other(own_and_end, lock), AQS_OK);
    IS(aqs_lock_trylock(lock), AQS_TOO_MANY_THREADS);
    aqs_lock_close(lock);
    IS(aqs_thread_interrupt(AQS_THREADS), AQS_OUT_OF_RANGE);
    CHECK(strcmp(aqs_status_name(AQS_OK), "AQS_OK") == 0);
    CHECK(strcmp(aqs_status_name(AQS_MISUSE), "AQS_MISUSE") == 0);
    CHECK(strcmp(aqs_status_name((aqs_status_t)99), "no status") == 0);
}

/* Whatever numbers C passes have an answer. */
static void numbers(void) {
    aqs_pass_t none = AQS_NO_PASS, passes[2] = {AQS_NO_PASS, AQS_NO_PASS};
    aqs_header_t header = {.kind = AQS_KIND_LOCK, .policy = AQS_CORE_FAIR, .seats = 2, .cap = 100};
    aqs_answer_t answer;
    uint64_t number = 0;
    int64_t permits = 99;
    uint32_t left = 99;
    aqs_contention_t contention = {99, 99, true};
    uint8_t byte = 0;
    CHECK(aqs_open(header, passes, 1) == AQS_CORE_OUT_OF_RANGE && !passes[0].live);
    CHECK(aqs_open(header, passes, 2) == 0);
    CHECK(aqs_open(header, passes, 2) == AQS_CORE_NOT_EMPTY);
    aqs_step_now(&none, (aqs_step_t){.code = AQS_STEP_TRY}, &answer);
    CHECK(answer.kind == AQS_IS_NO_PASS);
    CHECK(aqs_step_at_once(&none, (aqs_step_t){.n = 1, .code = AQS_STEP_ACQUIRE}) == AQS_NOT_DONE);
    aqs_begin(&none, &(aqs_call_t){.kind = AQS_CALL_ACQUIRE}, &answer);
    CHECK(answer.kind == AQS_IS_NO_PASS);
    CHECK(aqs_text_now(&none, &byte, 1, &number) == AQS_IS_NO_PASS);
    CHECK(aqs_trim_now(&none, &number) == AQS_IS_NO_PASS);
    CHECK(aqs_available_now(&none, &permits) == AQS_IS_NO_PASS && permits == 99);
    CHECK(aqs_count_now(&none, &left) == AQS_IS_NO_PASS && left == 99);
    CHECK(aqs_contention_now(&none, &contention) == AQS_IS_NO_PASS && contention.waiting == 99);
    CHECK(contention.queue_length == 99 && contention.is_held);
    CHECK(aqs_contention_now(&passes[0], &contention) == AQS_IS_ENTRY && contention.waiting == 0);
    CHECK(contention.queue_length == 0 && !contention.is_held);
    CHECK(aqs_available_now(&passes[0], &permits) == AQS_IS_ENTRY && permits == 0);
    CHECK(aqs_count_now(&passes[0], &left) == AQS_IS_ENTRY && left == 0);
    aqs_drop(&none);
    for (unsigned code = 12; code < 256; code++) {
        aqs_step_now(&passes[0], (aqs_step_t){.code = (uint8_t)code}, &answer);
        CHECK(answer.kind == AQS_IS_NO_CODE);
    }
    for (unsigned code = 0; code < 256; code++) {
        bool is_acquire = code == AQS_STEP_ACQUIRE;
        uint32_t done = aqs_step_at_once(&passes[0], (aqs_step_t){.n = 1, .code = (uint8_t)code, .mode = is_acquire});
        CHECK(done == AQS_NOT_DONE);
    }
    aqs_step_now(&passes[0], (aqs_step_t){.code = AQS_STEP_TRY, .mode = 2}, &answer);
    CHECK(answer.kind == AQS_IS_NO_CODE);
    aqs_begin(&passes[0], &(aqs_call_t){.kind = 2}, &answer);
    CHECK(answer.kind == AQS_IS_NO_CODE);
    aqs_begin(&passes[0], &(aqs_call_t){.n = 1, .how = 3}, &answer);
    CHECK(answer.kind == AQS_IS_NO_CODE);
    aqs_begin(&passes[0], &(aqs_call_t){.n = 1, .interrupted = 1}, &answer);
    CHECK(answer.kind == AQS_IS_NO_CODE);
    aqs_go_on(&passes[0], AQS_WOKE_PERMIT, &answer);
    CHECK(answer.kind == AQS_IS_IN_NO_CALL);
    aqs_step_t acquire = {.n = 1, .code = AQS_STEP_ACQUIRE}, give = {.n = 1, .code = AQS_STEP_GIVE};
    CHECK(aqs_step_at_once(&passes[0], give) == AQS_NOT_DONE);
    CHECK(aqs_step_at_once(&passes[0], acquire) == AQS_DONE);
    CHECK(aqs_step_at_once(&passes[0], give) == AQS_DONE);
    aqs_begin(&passes[0], &(aqs_call_t){.n = 1}, &answer);
    CHECK(answer.kind == AQS_IS_ENTRY && answer.word == AQS_WORD_GOT && answer.seat == 0);
    CHECK(aqs_step_at_once(&passes[1], acquire) == AQS_NOT_DONE);
    aqs_begin(&passes[1], &(aqs_call_t){.n = 1}, &answer);
    CHECK(answer.kind == AQS_IS_WAITING && answer.parks && !answer.has_until && !answer.interruptible);
    aqs_begin(&passes[1], &(aqs_call_t){.n = 1}, &answer);
    CHECK(answer.kind == AQS_IS_IN_CALL);
    aqs_step_now(&passes[1], (aqs_step_t){.code = AQS_STEP_LOOK}, &answer);
    CHECK(answer.kind == AQS_IS_IN_CALL);
    aqs_go_on(&passes[1], 3, &answer);
    CHECK(answer.kind == AQS_IS_NO_CODE);
    aqs_go_on(&passes[1], AQS_WOKE_DEADLINE, &answer); /* it has no deadline, so it looks */
    CHECK(answer.kind == AQS_IS_WAITING);
    aqs_step_now(&passes[0], (aqs_step_t){.n = 1, .code = AQS_STEP_GIVE}, &answer);
    CHECK(answer.kind == AQS_IS_ENTRY && answer.has_wakes && answer.wakes == 1);
    aqs_go_on(&passes[1], AQS_WOKE_PERMIT, &answer);
    CHECK(answer.kind == AQS_IS_ENTRY && answer.word == AQS_WORD_GRANTED && answer.seat == 1);
    aqs_begin(&passes[0], &(aqs_call_t){.n = 1}, &answer);
    CHECK(answer.kind == AQS_IS_WAITING && aqs_step_at_once(&passes[0], give) == AQS_NOT_DONE);
    CHECK(aqs_step_at_once(&passes[1], give) == AQS_DONE_WAKES);
    aqs_go_on(&passes[0], AQS_WOKE_PERMIT, &answer);
    CHECK(answer.kind == AQS_IS_ENTRY && answer.word == AQS_WORD_GRANTED && answer.seat == 0);
    aqs_entry_now(&passes[0], 1000, &answer);
    CHECK(answer.kind == AQS_IS_NO_ENTRY);
    aqs_drop(&passes[0]);
    aqs_drop(&passes[1]);
    CHECK(!passes[0].live);
}

int main(int count, char **words) {
    CHECK(count == 2);
    folder = words[1];
    alarm(100);
    locks();
    conditions();
    read_write_locks();
    read_write_conditions();
    waits_asleep();
    calls_within_calls();
    hold_limits();
    semaphores();
    latches();
    owners_that_end();
    histories();
    options_and_statuses();
    numbers();
    puts("calls: good");
    return 0;
}
