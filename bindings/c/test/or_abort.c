/* or_abort.c: the calls for those who look at no status, and a default lock for as many threads as there can
   be. */
#include "check.h"

#include <pthread.h>
#include <signal.h>
#include <string.h>
#include <sys/wait.h>

static aqs_lock_t *lock;
static aqs_rwlock_t *rwlock;
static aqs_sem_t *semaphore;
static aqs_latch_t *latch;

static void unlock(void) { aqs_lock_unlock_or_abort(lock); }
static void wait_unowned(void) { aqs_lock_wait_or_abort(lock, 0); }
static void signal_unowned(void) { aqs_lock_signal_or_abort(lock, 0); }
static void signal_all_unowned(void) { aqs_lock_signal_all_or_abort(lock, 0); }
static void rdunlock(void) { aqs_rwlock_rdunlock_or_abort(rwlock); }
static void wrunlock(void) { aqs_rwlock_wrunlock_or_abort(rwlock); }
static void rwlock_wait(void) { aqs_rwlock_wait_or_abort(rwlock, 0); }
static void rwlock_signal(void) { aqs_rwlock_signal_or_abort(rwlock, 0); }
static void rwlock_signal_all(void) { aqs_rwlock_signal_all_or_abort(rwlock, 0); }
/* The owner of a lock names a condition that the lock hasn't. */
static void wait_at_9(void) { aqs_lock_lock_or_abort(lock), aqs_lock_wait_or_abort(lock, 9); }
static void signal_9(void) { aqs_lock_lock_or_abort(lock), aqs_lock_signal_or_abort(lock, 9); }
static void signal_all_9(void) { aqs_lock_lock_or_abort(lock), aqs_lock_signal_all_or_abort(lock, 9); }
static void rwlock_wait_at_9(void) { aqs_rwlock_wrlock_or_abort(rwlock), aqs_rwlock_wait_or_abort(rwlock, 9); }
static void rwlock_signal_9(void) { aqs_rwlock_wrlock_or_abort(rwlock), aqs_rwlock_signal_or_abort(rwlock, 9); }
static void rwlock_signal_all_9(void) {
    aqs_rwlock_wrlock_or_abort(rwlock), aqs_rwlock_signal_all_or_abort(rwlock, 9);
}
static void acquire_too_many(void) { aqs_sem_acquire_or_abort(semaphore, 3000000000u); }
static void release_too_many(void) { aqs_sem_release_or_abort(semaphore, 3000000000u); }
static void lock_too_often(void) {
    for (;;) aqs_lock_lock_or_abort(lock);
}
static void read_too_often(void) {
    for (;;) aqs_rwlock_rdlock_or_abort(rwlock);
}
static void write_too_often(void) {
    for (;;) aqs_rwlock_wrlock_or_abort(rwlock);
}

/* What can't be done, and what is said of it. */
static const struct {
    void (*call)(void);
    const char *says;
} refused[] = {
    {unlock, "aqs_lock_unlock: AQS_NOT_OWNER\n"},
    {wait_unowned, "aqs_lock_wait: AQS_NOT_OWNER\n"},
    {signal_unowned, "aqs_lock_signal: AQS_NOT_OWNER\n"},
    {signal_all_unowned, "aqs_lock_signal_all: AQS_NOT_OWNER\n"},
    {rdunlock, "aqs_rwlock_rdunlock: AQS_NOT_OWNER\n"},
    {wrunlock, "aqs_rwlock_wrunlock: AQS_NOT_OWNER\n"},
    {rwlock_wait, "aqs_rwlock_wait: AQS_NOT_OWNER\n"},
    {rwlock_signal, "aqs_rwlock_signal: AQS_NOT_OWNER\n"},
    {rwlock_signal_all, "aqs_rwlock_signal_all: AQS_NOT_OWNER\n"},
    {wait_at_9, "aqs_lock_wait: AQS_NO_SUCH_CONDITION\n"},
    {signal_9, "aqs_lock_signal: AQS_NO_SUCH_CONDITION\n"},
    {signal_all_9, "aqs_lock_signal_all: AQS_NO_SUCH_CONDITION\n"},
    {rwlock_wait_at_9, "aqs_rwlock_wait: AQS_NO_SUCH_CONDITION\n"},
    {rwlock_signal_9, "aqs_rwlock_signal: AQS_NO_SUCH_CONDITION\n"},
    {rwlock_signal_all_9, "aqs_rwlock_signal_all: AQS_NO_SUCH_CONDITION\n"},
    {acquire_too_many, "aqs_sem_acquire: AQS_BAD_AMOUNT\n"},
    {release_too_many, "aqs_sem_release: AQS_BAD_AMOUNT\n"},
    {lock_too_often, "aqs_lock_lock: AQS_HISTORY_FULL\n"},
    {read_too_often, "aqs_rwlock_rdlock: AQS_HISTORY_FULL\n"},
    {write_too_often, "aqs_rwlock_wrlock: AQS_HISTORY_FULL\n"},
};

static void aborts(void (*call)(void), const char *says) {
    int ends[2], status;
    char said[200] = "";
    CHECK(pipe(ends) == 0);
    pid_t child = fork();
    CHECK(child >= 0);
    if (child == 0) {
        CHECK(dup2(ends[1], 2) == 2);
        signal(SIGABRT, SIG_DFL);
        alarm(20);
        call();
        _Exit(0);
    }
    close(ends[1]);
    ssize_t length = read(ends[0], said, sizeof said - 1);
    close(ends[0]);
    CHECK(waitpid(child, &status, 0) == child);
    bool is_aborted = WIFSIGNALED(status) && WTERMSIG(status) == SIGABRT;
    if (length < 0 || !is_aborted || strncmp(said, says, strlen(says)) != 0) {
        fprintf(stderr, "it said '%s', and not '%s', and ended with %d\n", said, says, status);
        _Exit(1);
    }
}

/* What can be done is done. */
static void goes_on(void) {
    aqs_lock_lock_or_abort(lock);
    aqs_lock_signal_or_abort(lock, 0);
    aqs_lock_signal_all_or_abort(lock, 0);
    aqs_lock_unlock_or_abort(lock);
    IS(aqs_lock_unlock(lock), AQS_NOT_OWNER);
    aqs_rwlock_wrlock_or_abort(rwlock);
    aqs_rwlock_signal_or_abort(rwlock, 0);
    aqs_rwlock_signal_all_or_abort(rwlock, 0);
    aqs_rwlock_rdlock_or_abort(rwlock);
    aqs_rwlock_wrunlock_or_abort(rwlock);
    aqs_rwlock_rdunlock_or_abort(rwlock);
    IS(aqs_rwlock_rdunlock(rwlock), AQS_NOT_OWNER);
    aqs_sem_release_or_abort(semaphore, 2);
    aqs_sem_acquire_or_abort(semaphore, 2);
    IS(aqs_sem_tryacquire(semaphore, 1), AQS_WOULD_BLOCK);
    aqs_latch_count_down_or_abort(latch);
    aqs_latch_await_or_abort(latch);
    aqs_or_abort(AQS_OK, "nothing");
}

/* 80 threads at a default lock that looks at no status. */

enum { THREADS = 80, ADDITIONS = 500 };

static long sum;

static void *add(void *is_there) {
    pthread_barrier_wait(is_there);
    for (int i = 0; i < ADDITIONS; i++) {
        aqs_lock_lock_or_abort(lock);
        sum++;
        aqs_lock_unlock_or_abort(lock);
    }
    pthread_barrier_wait(is_there);
    return NULL;
}

static void serves_many_threads(void) {
    pthread_t threads[THREADS];
    pthread_barrier_t are_there;
    CHECK(pthread_barrier_init(&are_there, NULL, THREADS) == 0);
    for (int i = 0; i < THREADS; i++) CHECK(pthread_create(&threads[i], NULL, add, &are_there) == 0);
    for (int i = 0; i < THREADS; i++) CHECK(pthread_join(threads[i], NULL) == 0);
    CHECK(sum == (long)THREADS * ADDITIONS);
}

int main(void) {
    alarm(60);
    IS(aqs_lock_open(&lock, &(aqs_options_t){.conditions = 9}), AQS_OK);
    IS(aqs_rwlock_open(&rwlock, &(aqs_options_t){.conditions = 9}), AQS_OK);
    IS(aqs_sem_open(&semaphore, 0, NULL), AQS_OK);
    IS(aqs_latch_open(&latch, 1, NULL), AQS_OK);
    goes_on();
    for (size_t i = 0; i < sizeof refused / sizeof refused[0]; i++) aborts(refused[i].call, refused[i].says);
    serves_many_threads();
    aqs_lock_close(lock);
    aqs_rwlock_close(rwlock);
    aqs_sem_close(semaphore);
    aqs_latch_close(latch);
    puts("or_abort: good");
    return 0;
}
