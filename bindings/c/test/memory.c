/* memory.c: what the calls of aqs.h return and leave if an allocation fails. */
#include "check.h"

#include "heap.h"

/* An object that can be opened and closed. */
typedef aqs_status_t (*open_t)(void **object, const aqs_options_t *options);

static aqs_status_t open_lock(void **object, const aqs_options_t *options) {
    return aqs_lock_open((aqs_lock_t **)object, options);
}
static aqs_status_t open_rwlock(void **object, const aqs_options_t *options) {
    return aqs_rwlock_open((aqs_rwlock_t **)object, options);
}
static aqs_status_t open_semaphore(void **object, const aqs_options_t *options) {
    return aqs_sem_open((aqs_sem_t **)object, 2, options);
}
static aqs_status_t open_latch(void **object, const aqs_options_t *options) {
    return aqs_latch_open((aqs_latch_t **)object, 2, options);
}
static aqs_status_t open_mutex(void **object, const aqs_options_t *options) {
    return aqs_mutex_open((aqs_mutex_t **)object, options);
}
static aqs_status_t open_barrier(void **object, const aqs_options_t *options) {
    return aqs_barrier_open((aqs_barrier_t **)object, 2, options);
}
static void close_lock(void *object) { aqs_lock_close(object); }
static void close_rwlock(void *object) { aqs_rwlock_close(object); }
static void close_semaphore(void *object) { aqs_sem_close(object); }
static void close_latch(void *object) { aqs_latch_close(object); }
static void close_mutex(void *object) { aqs_mutex_close(object); }
static void close_barrier(void *object) { aqs_barrier_close(object); }

/* Opens with room for no allocation, for one, and so on until that is enough. Each time before, nothing
   stays. A close asks for no memory. */
static void opens(open_t open, void (*close)(void *)) {
    const aqs_options_t options = {.threads = 3, .history = 100};
    aqs_status_t status = AQS_OUT_OF_MEMORY;
    long before = held, enough = -1;
    while (status != AQS_OK) {
        void *object = &status;
        left = ++enough;
        status = open(&object, &options);
        left = LONG_MAX;
        if (status == AQS_OK) {
            long before_close = asked;
            close(object);
            CHECK(asked == before_close);
        } else {
            IS(status, AQS_OUT_OF_MEMORY);
            CHECK(!object);
        }
        CHECK(held == before);
    }
    CHECK(enough > 5);
}

/* An acquire that finds no memory leaves the lock as it was. Unlocks need none. */
static void unlocks(void) {
    const aqs_options_t options = {.when_full = AQS_REFUSE, .threads = 2};
    aqs_lock_t *lock;
    aqs_status_t status;
    long holds = 0;
    IS(aqs_lock_open(&lock, &options), AQS_OK);
    IS(aqs_lock_lock(lock), AQS_OK);
    IS(aqs_lock_unlock(lock), AQS_OK);
    left = 0;
    while ((status = aqs_lock_lock(lock)) == AQS_OK) holds++;
    IS(status, AQS_OUT_OF_MEMORY);
    IS(aqs_lock_timedlock(lock, 1), AQS_OUT_OF_MEMORY);
    CHECK(holds > 100);
    for (long i = 0; i < holds; i++) IS(aqs_lock_unlock(lock), AQS_OK);
    IS(aqs_lock_lock(lock), AQS_OUT_OF_MEMORY);
    IS(aqs_lock_trylock(lock), AQS_OUT_OF_MEMORY);
    left = LONG_MAX;
    IS(aqs_lock_lock(lock), AQS_OK);
    IS(aqs_lock_unlock(lock), AQS_OK);
    IS(aqs_lock_unlock(lock), AQS_NOT_OWNER);
    aqs_lock_close(lock);
}

static void lock_and_unlock(aqs_lock_t *lock, long times) {
    for (long i = 0; i < times; i++) {
        IS(aqs_lock_lock(lock), AQS_OK);
        IS(aqs_lock_unlock(lock), AQS_OK);
    }
}

/* A lock that folds its history whenever it is full asks for no memory once its history was full. */
static void folds(void) {
    const aqs_options_t options = {.threads = 2, .history = 100};
    aqs_lock_t *lock;
    IS(aqs_lock_open(&lock, &options), AQS_OK);
    lock_and_unlock(lock, 100);
    long before = asked;
    lock_and_unlock(lock, 1000);
    CHECK(asked == before);
    aqs_lock_close(lock);
}

/* Objects with the default options ask for no memory after their first calls, however long they are used. */
static void default_options(void) {
    static aqs_lock_t lock = AQS_LOCK_INIT;
    static aqs_rwlock_t rwlock = AQS_RWLOCK_INIT;
    static aqs_sem_t semaphore = AQS_SEM_INIT(5);
    aqs_cond_t condition = AQS_COND_INIT;
    long before = held, then = LONG_MAX;
    for (int i = 0; i < 20000; i++) {
        IS(aqs_lock_lock(&lock), AQS_OK);
        IS(aqs_lock_timedwait(&lock, 0, 0), AQS_TIMED_OUT);
        IS(aqs_cond_timedwait(&condition, &lock, 0), AQS_TIMED_OUT);
        IS(aqs_lock_unlock(&lock), AQS_OK);
        IS(aqs_rwlock_rdlock(&rwlock), AQS_OK);
        IS(aqs_rwlock_rdunlock(&rwlock), AQS_OK);
        IS(aqs_sem_acquire(&semaphore, 1), AQS_OK);
        IS(aqs_sem_timedacquire(&semaphore, 5, 0), AQS_TIMED_OUT);
        IS(aqs_sem_release(&semaphore, 1), AQS_OK);
        if (i == 0) then = asked;
        CHECK(asked == then);
    }
    aqs_lock_close(&lock), aqs_rwlock_close(&rwlock), aqs_sem_close(&semaphore);
    CHECK(held == before);
}

/* A history that is written without memory leaves no block behind. */
static void histories(void) {
    aqs_sem_t *semaphore;
    FILE *file = fopen("/dev/null", "w");
    CHECK(file);
    IS(aqs_sem_open(&semaphore, 1, NULL), AQS_OK);
    IS(aqs_sem_acquire(semaphore, 1), AQS_OK);
    long before = held;
    left = 0;
    IS(aqs_history_write(aqs_sem_object(semaphore), file), AQS_OUT_OF_MEMORY);
    left = 1;
    IS(aqs_history_write(aqs_sem_object(semaphore), file), AQS_OUT_OF_MEMORY);
    left = LONG_MAX;
    IS(aqs_history_write(aqs_sem_object(semaphore), file), AQS_OK);
    CHECK(held == before);
    CHECK(fclose(file) == 0);
    aqs_sem_close(semaphore);
}

int main(void) {
    alarm(60);
    opens(open_lock, close_lock);
    opens(open_rwlock, close_rwlock);
    opens(open_semaphore, close_semaphore);
    opens(open_latch, close_latch);
    opens(open_mutex, close_mutex);
    opens(open_barrier, close_barrier);
    unlocks();
    folds();
    default_options();
    histories();
    CHECK(held == 0);
    puts("memory: good");
    return 0;
}
