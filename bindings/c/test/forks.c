/* forks.c: a process forks while its threads make calls. In the child each object is between two turns: the
   thread that forked releases what it held, and goes on. */
#include "heap.h"

#include "check.h"

#include <pthread.h>
#include <stdatomic.h>
#include <string.h>
#include <sys/wait.h>

enum { THREADS = 4, FORKS = 60 };

static aqs_lock_t lock = AQS_LOCK_INIT;
static aqs_rwlock_t rwlock = AQS_RWLOCK_INIT;
static aqs_sem_t semaphore = AQS_SEM_INIT(5);
static atomic_bool is_over;

static void try_all(void) {
    if (aqs_lock_trylock(&lock) == AQS_OK) IS(aqs_lock_unlock(&lock), AQS_OK);
    if (aqs_rwlock_tryrdlock(&rwlock) == AQS_OK) IS(aqs_rwlock_rdunlock(&rwlock), AQS_OK);
    if (aqs_sem_tryacquire(&semaphore, 1) == AQS_OK) IS(aqs_sem_release(&semaphore, 1), AQS_OK);
}

/* The other threads wait for nothing. */
static void *go_on_trying(void *none) {
    while (!atomic_load(&is_over)) try_all();
    return none;
}

static void lock_all(void) {
    IS(aqs_lock_lock(&lock), AQS_OK);
    IS(aqs_rwlock_wrlock(&rwlock), AQS_OK);
}

static void unlock_all(void) {
    IS(aqs_rwlock_wrunlock(&rwlock), AQS_OK);
    IS(aqs_lock_unlock(&lock), AQS_OK);
}

static void use_all(void) {
    lock_all();
    unlock_all();
    IS(aqs_sem_release(&semaphore, 2), AQS_OK);
    IS(aqs_sem_acquire(&semaphore, 1), AQS_OK);
}

static void *use_all_in_a_thread(void *none) {
    use_all();
    return none;
}

static void ends_well(pid_t child) {
    int status;
    CHECK(waitpid(child, &status, 0) == child);
    if (WIFEXITED(status) && WEXITSTATUS(status) == 0) return;
    fprintf(stderr, "a child ended with status %d\n", status);
    _Exit(1);
}

static void go_on_in_the_child(bool may_wait) {
    pthread_t thread;
    if (!may_wait) { /* a thread that isn't there any more may have a lock */
        try_all();
        IS(aqs_sem_release(&semaphore, 1), AQS_OK);
        _Exit(0);
    }
    use_all();
    CHECK(pthread_create(&thread, NULL, use_all_in_a_thread, NULL) == 0);
    CHECK(pthread_join(thread, NULL) == 0);
    pid_t grandchild = fork();
    CHECK(grandchild >= 0);
    if (grandchild == 0) use_all(), _Exit(0);
    ends_well(grandchild);
    aqs_lock_close(&lock), aqs_rwlock_close(&rwlock), aqs_sem_close(&semaphore);
    _Exit(0);
}

/* A program may acquire its locks before each fork, and release them in both processes. `is_ours`: in this
   fork it does. The first to say so is before the library. */
static _Thread_local bool is_ours, is_late;
static void looks_for_turns(void);
static void lock_before(void) {
    looks_for_turns();
    if (is_ours && !is_late) lock_all();
}
static void unlock_after(void) {
    if (is_ours && !is_late) unlock_all();
}
/* A child that hangs ends by its alarm. */
static void begin_in_the_child(void) {
    alarm(20);
    unlock_after();
}
static void lock_before_late(void) {
    if (is_ours && is_late) lock_all();
}
static void unlock_after_late(void) {
    if (is_ours && is_late) unlock_all();
}
static __attribute__((constructor(101))) void before_the_library(void) {
    CHECK(pthread_atfork(lock_before, unlock_after, begin_in_the_child) == 0);
}

/* In one of these ways a process forks. */
enum { HOLDS, HOLDS_NOTHING, BY_HANDLERS, BY_EARLY_HANDLERS, WAYS };

static void fork_once(int way) {
    if (way == HOLDS) lock_all();
    is_ours = way == BY_HANDLERS || way == BY_EARLY_HANDLERS, is_late = way == BY_HANDLERS;
    pid_t child = fork();
    CHECK(child >= 0);
    is_ours = false;
    if (way == HOLDS) unlock_all();
    if (child == 0) go_on_in_the_child(way != HOLDS_NOTHING);
    ends_well(child);
}

/* While a process forks, nobody makes a turn, also one who has forked before. The one that forks looks: it may find
   one of which the count is late. */

static _Thread_local bool looks;
static atomic_long turns;

static void looks_for_turns(void) {
    if (!looks) return;
    long before = atomic_load(&turns);
    usleep(5000);
    CHECK(atomic_load(&turns) <= before + 1);
}

static void *fork_and_go_on(void *none) {
    pid_t child = fork();
    CHECK(child >= 0);
    if (child == 0) _Exit(0);
    ends_well(child);
    for (; !atomic_load(&is_over); atomic_fetch_add(&turns, 1)) try_all();
    return none;
}

static void holds_turns_back(void) {
    pthread_t thread;
    atomic_store(&is_over, false);
    CHECK(pthread_create(&thread, NULL, fork_and_go_on, NULL) == 0);
    looks = true;
    for (int i = 1; i <= 5; i++) {
        while (atomic_load(&turns) < 100 * i) usleep(100);
        pid_t child = fork();
        CHECK(child >= 0);
        if (child == 0) _Exit(0);
        ends_well(child);
    }
    looks = false;
    atomic_store(&is_over, true);
    CHECK(pthread_join(thread, NULL) == 0);
}

/* A call that gets no seat leaves nothing for which a fork waits. */

static aqs_lock_t *narrow; /* with one seat */
static atomic_bool was_refused, has_forked;

static void *is_refused(void *none) {
    IS(aqs_lock_trylock(narrow), AQS_TOO_MANY_THREADS);
    atomic_store(&was_refused, true);
    while (!atomic_load(&has_forked)) usleep(1000);
    return none;
}

static void fork_after_a_refusal(void) {
    pthread_t thread;
    IS(aqs_lock_open(&narrow, &(aqs_options_t){.threads = 1}), AQS_OK);
    IS(aqs_lock_lock(narrow), AQS_OK);
    CHECK(pthread_create(&thread, NULL, is_refused, NULL) == 0);
    while (!atomic_load(&was_refused)) usleep(1000);
    fork_once(HOLDS_NOTHING);
    atomic_store(&has_forked, true);
    CHECK(pthread_join(thread, NULL) == 0);
    IS(aqs_lock_unlock(narrow), AQS_OK);
    aqs_lock_close(narrow);
}

int main(void) {
    pthread_t threads[THREADS];
    alarm(20);
    CHECK(pthread_atfork(lock_before_late, unlock_after_late, unlock_after_late) == 0);
    use_all();
    fork_after_a_refusal();
    alarm(100);
    for (int i = 0; i < THREADS; i++) CHECK(pthread_create(&threads[i], NULL, go_on_trying, NULL) == 0);
    for (int i = 0; i < FORKS; i++) fork_once(i % BY_EARLY_HANDLERS);
    atomic_store(&is_over, true);
    for (int i = 0; i < THREADS; i++) CHECK(pthread_join(threads[i], NULL) == 0);
    for (int i = 0; i < FORKS / 3; i++) fork_once(BY_EARLY_HANDLERS);
    holds_turns_back();
    aqs_lock_close(&lock), aqs_rwlock_close(&rwlock), aqs_sem_close(&semaphore);
    puts("forks: good");
    return 0;
}
