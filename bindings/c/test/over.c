/* over.c: what a mutex and a barrier have that the lock below them hasn't. */
#include "check.h"

#include <pthread.h>
#include <stdatomic.h>

static aqs_mutex_t *mutex;
static aqs_barrier_t *barrier;

static void in_other(void *(*body)(void *)) {
    pthread_t thread;
    CHECK(pthread_create(&thread, NULL, body, NULL) == 0);
    CHECK(pthread_join(thread, NULL) == 0);
}

static void *find_it_owned(void *none) {
    CHECK(!aqs_mutex_is_mine(mutex));
    IS(aqs_mutex_trylock(mutex), AQS_WOULD_BLOCK);
    IS(aqs_mutex_timedlock(mutex, 1), AQS_TIMED_OUT);
    IS(aqs_mutex_unlock(mutex), AQS_NOT_OWNER);
    IS(aqs_mutex_wait(mutex, 0), AQS_NOT_OWNER);
    IS(aqs_mutex_wait_interruptibly(mutex, 0), AQS_NOT_OWNER);
    IS(aqs_mutex_timedwait(mutex, 0, 1), AQS_NOT_OWNER);
    IS(aqs_mutex_signal(mutex, 0), AQS_NOT_OWNER);
    IS(aqs_mutex_signal_all(mutex, 0), AQS_NOT_OWNER);
    IS(aqs_thread_interrupt(aqs_thread_self()), AQS_OK);
    IS(aqs_mutex_lock_interruptibly(mutex), AQS_INTERRUPTED);
    return none;
}

static void *find_it_free(void *none) {
    IS(aqs_mutex_trylock(mutex), AQS_OK);
    CHECK(aqs_mutex_is_mine(mutex));
    IS(aqs_mutex_unlock(mutex), AQS_OK);
    CHECK(!aqs_mutex_is_mine(mutex));
    return none;
}

/* The owner can't lock once more, whatever call it makes, and has it once. */
static void locks_once(void) {
    for (int i = 0; i < 3; i++) {
        if (i == 0) IS(aqs_mutex_lock(mutex), AQS_OK);
        if (i == 1) IS(aqs_mutex_lock_interruptibly(mutex), AQS_OK);
        if (i == 2) IS(aqs_mutex_timedlock(mutex, 1), AQS_OK);
        CHECK(aqs_mutex_is_mine(mutex));
        IS(aqs_mutex_lock(mutex), AQS_TOO_MANY_HOLDS);
        IS(aqs_mutex_lock_interruptibly(mutex), AQS_TOO_MANY_HOLDS);
        IS(aqs_mutex_timedlock(mutex, 1000), AQS_TOO_MANY_HOLDS);
        IS(aqs_mutex_trylock(mutex), AQS_WOULD_BLOCK);
        in_other(find_it_owned);
        IS(aqs_mutex_timedwait(mutex, 0, 1), AQS_TIMED_OUT);
        IS(aqs_mutex_wait(mutex, 16), AQS_NO_SUCH_CONDITION);
        CHECK(aqs_mutex_is_mine(mutex));
        in_other(find_it_owned);
        IS(aqs_mutex_unlock(mutex), AQS_OK);
        IS(aqs_mutex_unlock(mutex), AQS_NOT_OWNER);
        in_other(find_it_free);
    }
}

/* A thread that waits isn't the owner meanwhile, and is again afterwards. */

static bool is_set;

static void *set_it(void *none) {
    IS(aqs_mutex_lock(mutex), AQS_OK);
    is_set = true;
    IS(aqs_mutex_signal(mutex, 0), AQS_OK);
    IS(aqs_mutex_unlock(mutex), AQS_OK);
    return none;
}

static void waits(void) {
    pthread_t thread;
    IS(aqs_mutex_lock(mutex), AQS_OK);
    CHECK(pthread_create(&thread, NULL, set_it, NULL) == 0);
    while (!is_set) IS(aqs_mutex_wait(mutex, 0), AQS_OK);
    CHECK(aqs_mutex_is_mine(mutex));
    IS(aqs_mutex_lock(mutex), AQS_TOO_MANY_HOLDS);
    IS(aqs_thread_interrupt(aqs_thread_self()), AQS_OK);
    IS(aqs_mutex_wait_interruptibly(mutex, 0), AQS_INTERRUPTED);
    CHECK(aqs_mutex_is_mine(mutex));
    IS(aqs_mutex_signal_all(mutex, 0), AQS_OK);
    IS(aqs_mutex_unlock(mutex), AQS_OK);
    CHECK(pthread_join(thread, NULL) == 0);
}

/* No thread passes a barrier before all have come, and one of each opening is the last. */

enum { PARTIES = 5, OPENINGS = 300 };

static atomic_int came, lasts;

static void *pass(void *none) {
    for (int i = 1; i <= OPENINGS; i++) {
        aqs_bool_t is_last;
        atomic_fetch_add(&came, 1);
        IS(aqs_barrier_wait(barrier, &is_last), AQS_OK);
        CHECK(atomic_load(&came) >= i * PARTIES);
        atomic_fetch_add(&lasts, is_last);
        IS(aqs_barrier_wait(barrier, NULL), AQS_OK);
        CHECK(atomic_load(&lasts) == i);
    }
    return none;
}

static void all_pass(void) {
    pthread_t threads[PARTIES];
    IS(aqs_barrier_open(&barrier, PARTIES, NULL), AQS_OK);
    for (int i = 0; i < PARTIES; i++) CHECK(pthread_create(&threads[i], NULL, pass, NULL) == 0);
    for (int i = 0; i < PARTIES; i++) CHECK(pthread_join(threads[i], NULL) == 0);
    CHECK(atomic_load(&lasts) == OPENINGS);
    aqs_barrier_close(barrier);
}

static atomic_bool has_passed;

/* Its pending interrupt ends nothing, and stays. */
static void *come_once(void *none) {
    IS(aqs_thread_interrupt(aqs_thread_self()), AQS_OK);
    IS(aqs_barrier_wait(barrier, NULL), AQS_OK);
    atomic_store(&has_passed, true);
    CHECK(aqs_thread_interrupted());
    return none;
}

/* One that has passed may close it, though others are on their way out. */
static void closes(void) {
    for (int i = 0; i < 300; i++) {
        pthread_t threads[2];
        IS(aqs_barrier_open(&barrier, 3, &(aqs_options_t){.threads = 8}), AQS_OK);
        for (int j = 0; j < 2; j++) CHECK(pthread_create(&threads[j], NULL, come_once, NULL) == 0);
        IS(aqs_barrier_wait(barrier, NULL), AQS_OK);
        aqs_barrier_close(barrier);
        for (int j = 0; j < 2; j++) CHECK(pthread_join(threads[j], NULL) == 0);
    }
}

/* A barrier whose history is full and kept says so, and nobody has come then. With one of three lengths the last one
   could lock, and its signal is refused. */
static void full(uint32_t history) {
    aqs_status_t status;
    int passed = 0;
    IS(aqs_barrier_open(&barrier, 1, &(aqs_options_t){.when_full = AQS_REFUSE, .history = history}), AQS_OK);
    while ((status = aqs_barrier_wait(barrier, NULL)) == AQS_OK) passed++;
    IS(status, AQS_HISTORY_FULL);
    CHECK(passed > 2);
    for (int i = 0; i < 2; i++) {
        aqs_bool_t is_last = i;
        IS(aqs_barrier_wait(barrier, &is_last), AQS_HISTORY_FULL);
        CHECK(is_last == i);
    }
    IS(aqs_history_trim(aqs_barrier_object(barrier), NULL), AQS_OK);
    IS(aqs_barrier_wait(barrier, NULL), AQS_OK);
    aqs_barrier_close(barrier);
}

/* Another thread comes first, and waits for this one. */
static void meet_another(void) {
    pthread_t thread;
    aqs_bool_t is_last = false;
    atomic_store(&has_passed, false);
    CHECK(pthread_create(&thread, NULL, come_once, NULL) == 0);
    for (uint32_t count = 0; count == 0; usleep(50)) {
        CHECK(!atomic_load(&has_passed));
        IS(aqs_object_waiters(aqs_barrier_object(barrier), &count), AQS_OK);
    }
    IS(aqs_barrier_wait(barrier, &is_last), AQS_OK);
    CHECK(is_last);
    CHECK(pthread_join(thread, NULL) == 0);
}

/* Nor has one come whose wait can't be recorded, though it could lock. */
static void full_for_a_wait(void) {
    IS(aqs_barrier_open(&barrier, 2, &(aqs_options_t){.when_full = AQS_REFUSE, .history = 16}), AQS_OK);
    for (int i = 0; i < 2; i++) meet_another();
    for (int i = 0; i < 2; i++) {
        uint64_t entries;
        IS(aqs_barrier_wait(barrier, NULL), AQS_HISTORY_FULL);
        IS(aqs_history_trim(aqs_barrier_object(barrier), &entries), AQS_OK);
        CHECK(entries == 16);
        for (int j = 0; j < 2; j++) meet_another();
    }
    aqs_barrier_close(barrier);
}

static void out_of_range(void) {
    barrier = (aqs_barrier_t *)&barrier;
    IS(aqs_barrier_open(&barrier, 0, NULL), AQS_OUT_OF_RANGE);
    CHECK(!barrier);
    IS(aqs_barrier_open(&barrier, AQS_THREADS + 1, NULL), AQS_OUT_OF_RANGE);
    IS(aqs_barrier_open(&barrier, 3, &(aqs_options_t){.threads = 2}), AQS_OUT_OF_RANGE);
    IS(aqs_barrier_open(&barrier, 2, &(aqs_options_t){.history = 3}), AQS_OUT_OF_RANGE);
    CHECK(!barrier);
    IS(aqs_barrier_open(&barrier, 2, &(aqs_options_t){.threads = 2}), AQS_OK); /* as many as there are seats */
    aqs_barrier_close(barrier);
    IS(aqs_barrier_open(&barrier, AQS_THREADS, NULL), AQS_OK);
    aqs_barrier_close(barrier);
    aqs_mutex_t *none = (aqs_mutex_t *)&none;
    IS(aqs_mutex_open(&none, &(aqs_options_t){.threads = 999}), AQS_OUT_OF_RANGE);
    CHECK(!none);
    aqs_barrier_close(NULL);
    aqs_mutex_close(NULL);
}

int main(void) {
    alarm(60);
    IS(aqs_mutex_open(&mutex, &(aqs_options_t){.policy = AQS_FAIR}), AQS_OK);
    CHECK(!aqs_mutex_is_mine(mutex));
    locks_once();
    waits();
    uint64_t entries = 0;
    IS(aqs_history_trim(aqs_mutex_object(mutex), &entries), AQS_OK);
    CHECK(entries > 0);
    aqs_mutex_close(mutex);
    all_pass();
    closes();
    for (uint32_t history = 16; history < 19; history++) full(history);
    full_for_a_wait();
    out_of_range();
    puts("over: good");
    return 0;
}
