/* storms.c FOLDER THREADS ROUNDS: many threads at one lock, read-write lock, semaphore and latch, with
   timeouts and interrupts. Each checks that nobody has what another has. The histories are kept for `aqs
   audit`. */
#include "check.h"

#include <pthread.h>
#include <stdatomic.h>

enum { PLACES = 4, PERMITS = 3, SECONDS = 100 };

static const char *folder;
static int threads, rounds;
static atomic_bool is_over;

static unsigned next(unsigned *seed) { return *seed = *seed * 1664525u + 1013904223u; }

/* Interrupts threads at random until the storm is over. */
static void *interrupt_all(void *none) {
    unsigned seed = 7;
    while (!atomic_load(&is_over)) {
        IS(aqs_thread_interrupt((aqs_thread_t)((next(&seed) >> 8) % (unsigned)threads)), AQS_OK);
        usleep(200);
    }
    return none;
}

static void storm(void *(*work)(void *)) {
    pthread_t *workers = malloc(sizeof(pthread_t) * (size_t)threads), pest;
    atomic_store(&is_over, false);
    for (size_t i = 0; i < (size_t)threads; i++) {
        CHECK(pthread_create(&workers[i], NULL, work, (void *)i) == 0);
    }
    CHECK(pthread_create(&pest, NULL, interrupt_all, NULL) == 0);
    for (int i = 0; i < threads; i++) CHECK(pthread_join(workers[i], NULL) == 0);
    atomic_store(&is_over, true);
    CHECK(pthread_join(pest, NULL) == 0);
    free(workers);
}

static const char *kept_name;

static void *keep_by_thread(void *object) {
    char full[100];
    snprintf(full, sizeof full, "storm-%s-%d", kept_name, threads);
    keep_history(object, folder, full);
    return NULL;
}

/* By a thread that ends: the main thread takes no number, so that AQS_THREADS workers have one each. */
static void keep(aqs_object_t *object, const char *name) {
    pthread_t thread;
    kept_name = name;
    CHECK(pthread_create(&thread, NULL, keep_by_thread, object) == 0);
    CHECK(pthread_join(thread, NULL) == 0);
}

/* Whether a call has what it asked for. It may end without. */
static bool is_taken(aqs_status_t status) {
    CHECK(status == AQS_OK || status == AQS_TIMED_OUT || status == AQS_INTERRUPTED
          || status == AQS_WOULD_BLOCK);
    return status == AQS_OK;
}

/* A bounded buffer under a lock with two conditions. */

enum { NOT_FULL, NOT_EMPTY };

static aqs_lock_t *lock;
static int count;
static long put, got;

static bool is_owned(unsigned kind) {
    aqs_status_t status;
    switch (kind % 5) {
        case 0: status = aqs_lock_timedlock(lock, kind / 5 % 3); break;
        case 1: status = aqs_lock_lock_interruptibly(lock); break;
        case 2: status = aqs_lock_trylock(lock); break;
        default: status = aqs_lock_lock(lock);
    }
    return is_taken(status);
}

/* Waits until `count` isn't `bad`, or gives up. */
static bool comes(uint8_t condition, int bad, unsigned kind) {
    while (count == bad) {
        aqs_status_t status = kind % 3 ? aqs_lock_timedwait(lock, condition, 1 + kind % 3)
                                       : aqs_lock_wait_interruptibly(lock, condition);
        CHECK(status == AQS_OK || status == AQS_TIMED_OUT || status == AQS_INTERRUPTED);
        if (status != AQS_OK) return count != bad;
    }
    return true;
}

static void *pass_items(void *number) {
    unsigned seed = (unsigned)(size_t)number * 77 + 1;
    bool puts_in = (size_t)number % 2;
    for (int i = 0; i < rounds; i++) {
        unsigned kind = next(&seed) >> 8;
        if (!is_owned(kind)) continue;
        bool twice = kind % 7 == 0;
        if (twice) IS(aqs_lock_lock(lock), AQS_OK);
        if (puts_in && comes(NOT_FULL, PLACES, kind)) {
            count++;
            put++;
            IS(kind % 2 ? aqs_lock_signal(lock, NOT_EMPTY) : aqs_lock_signal_all(lock, NOT_EMPTY), AQS_OK);
        } else if (!puts_in && comes(NOT_EMPTY, 0, kind)) {
            count--;
            got++;
            IS(aqs_lock_signal(lock, NOT_FULL), AQS_OK);
        }
        CHECK(0 <= count && count <= PLACES);
        if (twice) IS(aqs_lock_unlock(lock), AQS_OK);
        IS(aqs_lock_unlock(lock), AQS_OK);
    }
    return NULL;
}

/* Room for what the threads may have to record as they wait, and little more, so that it is folded often. */
static uint32_t history_of(aqs_when_full_t when_full) {
    return when_full == AQS_TRIM ? 16 + 8 * (uint32_t)threads : 0;
}

static void lock_storm(aqs_policy_t policy, aqs_when_full_t when_full, const char *name) {
    aqs_options_t options = {
        .policy = policy, .when_full = when_full, .threads = AQS_THREADS, .conditions = 2,
        .history = history_of(when_full)};
    IS(aqs_lock_open(&lock, &options), AQS_OK);
    count = 0;
    put = got = 0;
    storm(pass_items);
    CHECK(put - got == count);
    keep(aqs_lock_object(lock), name);
    aqs_lock_close(lock);
}

/* Readers and writers of a pair whose halves are equal. */

static aqs_rwlock_t *rwlock;
static long halves[2];

static void *read_and_write(void *number) {
    unsigned seed = (unsigned)(size_t)number * 99 + 3;
    for (int i = 0; i < rounds; i++) {
        unsigned kind = next(&seed) >> 8;
        bool writes = kind % 4 == 0;
        aqs_status_t status;
        switch (kind / 4 % 3) {
            case 0: status = writes ? aqs_rwlock_wrlock(rwlock) : aqs_rwlock_rdlock(rwlock); break;
            case 1:
                status = writes ? aqs_rwlock_timedwrlock(rwlock, 1) : aqs_rwlock_timedrdlock(rwlock, 1);
                break;
            default: status = writes ? aqs_rwlock_wrlock_interruptibly(rwlock) : aqs_rwlock_tryrdlock(rwlock);
        }
        if (!is_taken(status)) continue;
        if (writes) {
            halves[0]++;
            halves[1]++;
            if (kind % 3 == 0) IS(aqs_rwlock_rdlock(rwlock), AQS_OK); /* it goes on as a reader */
            IS(aqs_rwlock_wrunlock(rwlock), AQS_OK);
            if (kind % 3 == 0) IS(aqs_rwlock_rdunlock(rwlock), AQS_OK);
        } else {
            CHECK(halves[0] == halves[1]);
            IS(aqs_rwlock_rdunlock(rwlock), AQS_OK);
        }
    }
    return NULL;
}

static void rwlock_storm(aqs_policy_t policy, const char *name) {
    aqs_options_t options = {.policy = policy, .when_full = AQS_REFUSE, .threads = AQS_THREADS};
    IS(aqs_rwlock_open(&rwlock, &options), AQS_OK);
    storm(read_and_write);
    CHECK(halves[0] == halves[1]);
    keep(aqs_rwlock_object(rwlock), name);
    aqs_rwlock_close(rwlock);
}

/* A few permits. */

static aqs_sem_t *semaphore;
static atomic_int inside;

static void *use_permits(void *number) {
    unsigned seed = (unsigned)(size_t)number * 55 + 5;
    for (int i = 0; i < rounds; i++) {
        unsigned kind = next(&seed) >> 8;
        uint32_t n = 1 + kind % PERMITS;
        aqs_status_t status;
        switch (kind / 8 % 4) {
            case 0: status = aqs_sem_acquire(semaphore, n); break;
            case 1: status = aqs_sem_timedacquire(semaphore, n, kind % 2); break;
            case 2: status = aqs_sem_acquire_interruptibly(semaphore, n); break;
            default: status = aqs_sem_tryacquire(semaphore, n);
        }
        if (!is_taken(status)) continue;
        CHECK(atomic_fetch_add(&inside, (int)n) + (int)n <= PERMITS);
        atomic_fetch_sub(&inside, (int)n);
        IS(aqs_sem_release(semaphore, n), AQS_OK);
    }
    return NULL;
}

static void semaphore_storm(aqs_policy_t policy, aqs_when_full_t when_full, const char *name) {
    aqs_options_t options = {
        .policy = policy, .when_full = when_full, .threads = AQS_THREADS, .history = history_of(when_full)};
    IS(aqs_sem_open(&semaphore, PERMITS, &options), AQS_OK);
    storm(use_permits);
    CHECK(atomic_load(&inside) == 0);
    keep(aqs_sem_object(semaphore), name);
    aqs_sem_close(semaphore);
}

/* Short calls over a history that is folded all the time, by several threads at once: none finds it full. */

static void *fold_often(void *number) {
    (void)number;
    for (int i = 0; i < 50 * rounds; i++) {
        aqs_status_t status = aqs_sem_tryacquire(semaphore, 1);
        if (status == AQS_WOULD_BLOCK) continue;
        IS(status, AQS_OK);
        IS(aqs_sem_release(semaphore, 1), AQS_OK);
    }
    return NULL;
}

static void fold_storm(void) {
    aqs_options_t options = {.threads = AQS_THREADS, .history = history_of(AQS_TRIM)};
    IS(aqs_sem_open(&semaphore, PERMITS, &options), AQS_OK);
    storm(fold_often);
    keep(aqs_sem_object(semaphore), "folds");
    aqs_sem_close(semaphore);
}

/* All come to a latch, and nobody passes it before. */

static aqs_latch_t *latch;
static atomic_int came;

static void *come_and_go(void *number) {
    atomic_fetch_add(&came, 1);
    IS(aqs_latch_count_down(latch), AQS_OK);
    for (;;) {
        aqs_status_t status = (size_t)number % 2 ? aqs_latch_timedawait(latch, 1)
                                                  : aqs_latch_await_interruptibly(latch);
        CHECK(status == AQS_OK || status == AQS_TIMED_OUT || status == AQS_INTERRUPTED);
        if (status == AQS_OK) break;
    }
    CHECK(atomic_load(&came) == threads);
    return NULL;
}

static void latch_storm(void) {
    aqs_options_t options = {.when_full = AQS_REFUSE, .threads = AQS_THREADS};
    IS(aqs_latch_open(&latch, (uint32_t)threads, &options), AQS_OK);
    atomic_store(&came, 0);
    storm(come_and_go);
    keep(aqs_latch_object(latch), "latch");
    aqs_latch_close(latch);
}

int main(int word_count, char **words) {
    CHECK(word_count == 4);
    folder = words[1];
    threads = atoi(words[2]);
    rounds = atoi(words[3]);
    CHECK(0 < threads && threads <= AQS_THREADS);
    alarm(SECONDS);
    lock_storm(AQS_NONFAIR, AQS_REFUSE, "lock");
    lock_storm(AQS_FAIR, AQS_REFUSE, "fair-lock");
    lock_storm(AQS_NONFAIR, AQS_TRIM, "folded-lock");
    rwlock_storm(AQS_NONFAIR, "rwlock");
    rwlock_storm(AQS_FAIR, "fair-rwlock");
    semaphore_storm(AQS_NONFAIR, AQS_REFUSE, "semaphore");
    semaphore_storm(AQS_STRICT, AQS_REFUSE, "strict-semaphore");
    semaphore_storm(AQS_NONFAIR, AQS_TRIM, "folded-semaphore");
    fold_storm();
    latch_storm();
    printf("storms of %d threads: good\n", threads);
    return 0;
}
