/* A program with an object of each kind: objects_of_each_kind THREADS ROUNDS [fork | hang [child]]. What it
   prints depends on neither the threads' order nor the time, so that it prints the same with and without the
   recorder. Each fact is checked; a wait that nobody ends is ended by the alarm.

   fork: the program forks while its threads run and it holds a lock; the child goes on with all objects.
   hang: when all is done it prints a line, and its threads wait for good, so that it can be killed; with child,
   those of a child do. */
#define _GNU_SOURCE
#include "check.h"

#include <errno.h>
#include <limits.h>
#include <pthread.h>
#include <sched.h>
#include <semaphore.h>
#include <signal.h>
#include <stdatomic.h>
#include <stdbool.h>
#include <stdio.h>
#include <stdlib.h>
#include <string.h>
#include <sys/wait.h>
#include <time.h>
#include <unistd.h>

static int threads, rounds;

static void in_threads(void *(*run)(void *)) {
    pthread_t *made = calloc((size_t)threads, sizeof *made);
    pthread_attr_t small;
    pthread_attr_init(&small);
    pthread_attr_setstacksize(&small, 128 * 1024);
    for (long i = 0; i < threads; i++) CHECK(pthread_create(&made[i], &small, run, (void *)i) == 0);
    for (int i = 0; i < threads; i++) CHECK(pthread_join(made[i], NULL) == 0);
    free(made);
}

/* Mutexes ------------------------------------------------------------------------------------------------ */

static pthread_mutex_t plain = PTHREAD_MUTEX_INITIALIZER;
static pthread_mutex_t recursive = PTHREAD_RECURSIVE_MUTEX_INITIALIZER_NP;
static pthread_mutex_t checked = PTHREAD_ERRORCHECK_MUTEX_INITIALIZER_NP;
static long plain_count, recursive_count, checked_count;

static void use_recursive(void) {
    CHECK(pthread_mutex_lock(&recursive) == 0);
    CHECK(pthread_mutex_trylock(&recursive) == 0);
    CHECK(pthread_mutex_lock(&recursive) == 0);
    recursive_count++;
    for (int i = 0; i < 3; i++) CHECK(pthread_mutex_unlock(&recursive) == 0);
    CHECK(pthread_mutex_unlock(&recursive) == EPERM);
}

static void use_checked(void) {
    struct timespec soon = after(CLOCK_REALTIME, 20000), later = after(CLOCK_MONOTONIC, 20000);
    CHECK(pthread_mutex_unlock(&checked) == EPERM);
    CHECK(pthread_mutex_timedlock(&checked, &soon) == 0);
    CHECK(pthread_mutex_lock(&checked) == EDEADLK);
    CHECK(pthread_mutex_trylock(&checked) == EBUSY);
    checked_count++;
    CHECK(pthread_mutex_unlock(&checked) == 0);
    CHECK(pthread_mutex_clocklock(&checked, CLOCK_MONOTONIC, &later) == 0);
    CHECK(pthread_mutex_unlock(&checked) == 0);
}

static void *use_mutexes(void *which) {
    pthread_mutex_t own;
    CHECK(pthread_mutex_init(&own, NULL) == 0);
    for (int i = 0; i < rounds; i++) {
        if (((long)which + i) % 3 || pthread_mutex_trylock(&plain)) CHECK(pthread_mutex_lock(&plain) == 0);
        plain_count++;
        CHECK(pthread_mutex_unlock(&plain) == 0);
        CHECK(pthread_mutex_lock(&own) == 0);
        CHECK(pthread_mutex_unlock(&own) == 0);
        use_recursive();
        use_checked();
    }
    CHECK(pthread_mutex_destroy(&own) == 0);
    return NULL;
}

static void *find_held(void *nothing) {
    struct timespec early = after(CLOCK_REALTIME, 30), past = {1, 0}, none = {0, 1000000000};
    struct timespec from = after(CLOCK_REALTIME, 0), now;
    CHECK(pthread_mutex_trylock(&plain) == EBUSY);
    CHECK(pthread_mutex_timedlock(&plain, &past) == ETIMEDOUT);
    CHECK(pthread_mutex_timedlock(&plain, &none) == EINVAL);
    CHECK(pthread_mutex_timedlock(&plain, &early) == ETIMEDOUT);
    clock_gettime(CLOCK_REALTIME, &now);
    CHECK((now.tv_sec - from.tv_sec) * 1000 + (now.tv_nsec - from.tv_nsec) / 1000000 >= 29);
    CHECK(pthread_mutex_trylock(&recursive) == EBUSY);
    CHECK(pthread_mutex_trylock(&checked) == EBUSY);
    CHECK(pthread_mutex_unlock(&recursive) == EPERM);
    CHECK(pthread_mutex_unlock(&checked) == EPERM);
    return nothing;
}

static void test_mutexes(void) {
    pthread_t other;
    in_threads(use_mutexes);
    printf("mutexes: %ld %ld %ld\n", plain_count, recursive_count, checked_count);
    CHECK(plain_count == (long)threads * rounds);
    CHECK(plain_count == recursive_count && plain_count == checked_count);
    CHECK(!pthread_mutex_lock(&plain) && !pthread_mutex_lock(&recursive) && !pthread_mutex_lock(&checked));
    CHECK(pthread_mutex_destroy(&checked) == EBUSY);
    CHECK(pthread_create(&other, NULL, find_held, NULL) == 0 && pthread_join(other, NULL) == 0);
    CHECK(!pthread_mutex_unlock(&plain) && !pthread_mutex_unlock(&recursive));
    CHECK(!pthread_mutex_unlock(&checked));
}

/* Conditions --------------------------------------------------------------------------------------------- */

enum { ROOM = 8, DOORS = 20 };
static pthread_mutex_t buffer_lock = PTHREAD_MUTEX_INITIALIZER;
static pthread_cond_t not_full = PTHREAD_COND_INITIALIZER, not_empty = PTHREAD_COND_INITIALIZER;
static int in_buffer;
static long put, taken;

static void *use_buffer(void *which) {
    for (int i = 0; i < rounds; i++) {
        pthread_mutex_lock(&buffer_lock);
        if ((long)which % 2) {
            while (in_buffer == ROOM) CHECK(pthread_cond_wait(&not_full, &buffer_lock) == 0);
            in_buffer++, put++;
            pthread_mutex_unlock(&buffer_lock);
            CHECK(pthread_cond_signal(&not_empty) == 0);
        } else {
            while (in_buffer == 0) CHECK(pthread_cond_wait(&not_empty, &buffer_lock) == 0);
            in_buffer--, taken++;
            CHECK(pthread_cond_signal(&not_full) == 0);
            pthread_mutex_unlock(&buffer_lock);
        }
    }
    return NULL;
}

/* All threads meet, round after round: the last one opens the door for all. */
static pthread_mutex_t meeting = PTHREAD_MUTEX_INITIALIZER;
static pthread_cond_t all_here = PTHREAD_COND_INITIALIZER;
static int here, meetings;

static void *meet(void *nothing) {
    for (int i = 0; i < rounds / 4 + 1; i++) {
        pthread_mutex_lock(&meeting);
        int mine = meetings;
        if (++here == threads) {
            here = 0, meetings++;
            if (i % 2) CHECK(pthread_cond_broadcast(&all_here) == 0);
            pthread_mutex_unlock(&meeting);
            if (i % 2 == 0) CHECK(pthread_cond_broadcast(&all_here) == 0);
            continue;
        }
        while (meetings == mine) CHECK(pthread_cond_wait(&all_here, &meeting) == 0);
        pthread_mutex_unlock(&meeting);
    }
    return nothing;
}

/* Each thread waits at a door of its own, and opens the next one: more conditions than a lock has numbers. */
static pthread_mutex_t hall = PTHREAD_MUTEX_INITIALIZER;
static pthread_cond_t doors[DOORS];
static int turn, turns_made;

static void *go_round(void *which) {
    int doors_used = threads < DOORS ? threads : DOORS, mine = (int)((long)which % doors_used);
    if ((long)which >= doors_used) return NULL;
    for (int i = 0; i < rounds; i++) {
        pthread_mutex_lock(&hall);
        while (turn != mine) CHECK(pthread_cond_wait(&doors[mine], &hall) == 0);
        turn = (turn + 1) % doors_used, turns_made++;
        CHECK(pthread_cond_signal(&doors[turn]) == 0);
        pthread_mutex_unlock(&hall);
    }
    return NULL;
}

/* Half of the threads wait for a short time, and the others ring without the lock, which makes many signals
   that no owner makes. */
static pthread_mutex_t tower = PTHREAD_MUTEX_INITIALIZER;
static pthread_cond_t bell = PTHREAD_COND_INITIALIZER;

static void *ring(void *which) {
    for (int i = 0; i < 20 * rounds && (long)which % 2; i++) {
        CHECK((i % 2 ? pthread_cond_broadcast(&bell) : pthread_cond_signal(&bell)) == 0);
        if (i % 10 == 0) sched_yield();
    }
    for (int i = 0; i < rounds && (long)which % 2 == 0; i++) {
        struct timespec soon = after(CLOCK_REALTIME, 1);
        pthread_mutex_lock(&tower);
        int error = pthread_cond_timedwait(&bell, &tower, &soon);
        CHECK(error == 0 || error == ETIMEDOUT);
        pthread_mutex_unlock(&tower);
    }
    return NULL;
}

static void test_times(void) {
    pthread_condattr_t attributes;
    pthread_cond_t steady;
    struct timespec none = {0, -1}, early = after(CLOCK_MONOTONIC, 25), real = after(CLOCK_REALTIME, 25);
    pthread_condattr_init(&attributes);
    pthread_condattr_setclock(&attributes, CLOCK_MONOTONIC);
    CHECK(pthread_cond_init(&steady, &attributes) == 0);
    pthread_mutex_lock(&plain);
    CHECK(pthread_cond_timedwait(&steady, &plain, &none) == EINVAL);
    CHECK(pthread_cond_timedwait(&steady, &plain, &early) == ETIMEDOUT);
    CHECK(pthread_cond_clockwait(&steady, &plain, CLOCK_REALTIME, &real) == ETIMEDOUT);
    pthread_mutex_unlock(&plain);
    pthread_mutex_lock(&recursive);
    early = after(CLOCK_MONOTONIC, 5);
    CHECK(pthread_cond_timedwait(&steady, &recursive, &early) == ETIMEDOUT);
    pthread_mutex_unlock(&recursive);
    CHECK(pthread_cond_destroy(&steady) == 0);
}

static void test_conditions(void) {
    for (int i = 0; i < DOORS; i++) pthread_cond_init(&doors[i], NULL);
    in_threads(use_buffer);
    in_threads(meet);
    in_threads(go_round);
    in_threads(ring);
    test_times();
    printf("conditions: %ld %ld %d, %d meetings, %d turns\n", put, taken, in_buffer, meetings, turns_made);
    for (int i = 0; i < DOORS; i++) CHECK(pthread_cond_destroy(&doors[i]) == 0);
}

/* Read-write locks --------------------------------------------------------------------------------------- */

static pthread_rwlock_t shelf = PTHREAD_RWLOCK_INITIALIZER;
static long left_book, right_book;
static atomic_int readers_in;

static void *use_shelf(void *which) {
    for (int i = 0; i < rounds; i++) {
        struct timespec late = after(CLOCK_REALTIME, 20000);
        if (((long)which + i) % 4 == 0) {
            CHECK(pthread_rwlock_wrlock(&shelf) == 0);
            CHECK(pthread_rwlock_wrlock(&shelf) == EDEADLK && pthread_rwlock_rdlock(&shelf) == EDEADLK);
            left_book++, right_book++;
        } else {
            CHECK((i % 2 ? pthread_rwlock_rdlock(&shelf) : pthread_rwlock_timedrdlock(&shelf, &late)) == 0);
            CHECK(left_book == right_book);
            if (i % 5 == 0) CHECK(pthread_rwlock_rdlock(&shelf) == 0 && pthread_rwlock_unlock(&shelf) == 0);
        }
        CHECK(pthread_rwlock_unlock(&shelf) == 0);
    }
    return NULL;
}

/* Readers that are inside at the same time. */
static void *read_together(void *which) {
    int most = threads < 200 ? threads : 200;
    if ((long)which >= most) return NULL;
    CHECK(pthread_rwlock_rdlock(&shelf) == 0);
    readers_in++;
    while (readers_in < most) usleep(1000);
    CHECK(pthread_rwlock_trywrlock(&shelf) == EBUSY);
    CHECK(pthread_rwlock_unlock(&shelf) == 0);
    return NULL;
}

static void *find_written(void *nothing) {
    struct timespec early = after(CLOCK_REALTIME, 20), later = after(CLOCK_MONOTONIC, 20), none = {0, -1};
    CHECK(pthread_rwlock_tryrdlock(&shelf) == EBUSY && pthread_rwlock_trywrlock(&shelf) == EBUSY);
    CHECK(pthread_rwlock_timedrdlock(&shelf, &none) == EINVAL);
    CHECK(pthread_rwlock_timedrdlock(&shelf, &early) == ETIMEDOUT);
    CHECK(pthread_rwlock_clockwrlock(&shelf, CLOCK_MONOTONIC, &later) == ETIMEDOUT);
    return nothing;
}

static void test_rwlocks(void) {
    pthread_t other;
    in_threads(use_shelf);
    in_threads(read_together);
    CHECK(pthread_rwlock_wrlock(&shelf) == 0);
    CHECK(pthread_create(&other, NULL, find_written, NULL) == 0 && pthread_join(other, NULL) == 0);
    CHECK(pthread_rwlock_unlock(&shelf) == 0);
    printf("read-write locks: %ld %ld\n", left_book, right_book);
}

/* Semaphores --------------------------------------------------------------------------------------------- */

static sem_t full, empty, from_handler, counted;
static atomic_long passed;

static void *use_semaphores(void *which) {
    for (int i = 0; i < rounds; i++) {
        sem_t *from = (long)which % 2 ? &empty : &full, *to = (long)which % 2 ? &full : &empty;
        struct timespec late = after(CLOCK_REALTIME, 20000);
        CHECK((i % 3 ? sem_wait(from) : sem_timedwait(from, &late)) == 0);
        passed++;
        CHECK(sem_post(to) == 0);
    }
    return NULL;
}

static void post_in_handler(int signal) {
    (void)signal;
    sem_post(&from_handler);
}

static atomic_int is_done;

/* Locks and unlocks while signals come, whose handler posts. */
static void *be_disturbed(void *nothing) {
    pthread_mutex_t own = PTHREAD_MUTEX_INITIALIZER;
    while (!is_done) {
        pthread_mutex_lock(&own);
        sem_post(&counted);
        CHECK(sem_trywait(&counted) == 0);
        pthread_mutex_unlock(&own);
    }
    return nothing;
}

static void test_handlers(void) {
    struct sigaction action = {.sa_handler = post_in_handler, .sa_flags = SA_RESTART};
    pthread_t disturbed;
    int value;
    sigaction(SIGUSR1, &action, NULL);
    CHECK(pthread_create(&disturbed, NULL, be_disturbed, NULL) == 0);
    for (int i = 0; i < 200; i++) {
        CHECK(pthread_kill(disturbed, SIGUSR1) == 0);
        while (sem_wait(&from_handler) != 0) CHECK(errno == EINTR);
    }
    is_done = 1;
    pthread_join(disturbed, NULL);
    CHECK(sem_getvalue(&from_handler, &value) == 0 && value == 0);
}

static void test_semaphores(void) {
    struct timespec early = after(CLOCK_REALTIME, 20), none = {0, -1};
    CHECK(!sem_init(&full, 0, 0) && !sem_init(&empty, 0, ROOM) && !sem_init(&from_handler, 0, 0));
    CHECK(!sem_init(&counted, 0, SEM_VALUE_MAX - 1));
    CHECK(sem_post(&counted) == 0 && sem_post(&counted) == -1 && errno == EOVERFLOW);
    for (int i = 0; i < 3; i++) CHECK(sem_trywait(&counted) == 0);
    in_threads(use_semaphores);
    test_handlers();
    CHECK(sem_trywait(&full) == -1 && errno == EAGAIN);
    CHECK(sem_timedwait(&full, &none) == -1 && errno == EINVAL);
    CHECK(sem_timedwait(&full, &early) == -1 && errno == ETIMEDOUT);
    printf("semaphores: %ld\n", passed);
    CHECK(!sem_destroy(&full) && !sem_destroy(&empty));
    CHECK(!sem_destroy(&from_handler) && !sem_destroy(&counted));
}

/* Cancelled waits ---------------------------------------------------------------------------------------- */

static pthread_mutex_t guarded = PTHREAD_MUTEX_INITIALIZER;
static pthread_cond_t never = PTHREAD_COND_INITIALIZER;
static sem_t nothing_comes;
static int cleaned;

static void clean(void *mutex) {
    cleaned++;
    CHECK(mutex == NULL || pthread_mutex_unlock(mutex) == 0);
}

static void *wait_for_never(void *nothing) {
    pthread_mutex_lock(&guarded);
    pthread_cleanup_push(clean, &guarded);
    for (;;) pthread_cond_wait(&never, &guarded);
    pthread_cleanup_pop(1);
    return nothing;
}

static void *wait_for_nothing(void *nothing) {
    pthread_cleanup_push(clean, NULL);
    for (;;) sem_wait(&nothing_comes);
    pthread_cleanup_pop(1);
    return nothing;
}

static void test_cancelled(void) {
    void *ended;
    pthread_t waits[2];
    sem_init(&nothing_comes, 0, 0);
    for (int i = 0; i < 20; i++) {
        CHECK(pthread_create(&waits[0], NULL, wait_for_never, NULL) == 0);
        CHECK(pthread_create(&waits[1], NULL, wait_for_nothing, NULL) == 0);
        if (i % 2) usleep(2000);
        for (int k = 0; k < 2; k++) {
            CHECK(pthread_cancel(waits[k]) == 0);
            CHECK(pthread_join(waits[k], &ended) == 0 && ended == PTHREAD_CANCELED);
        }
        CHECK(pthread_mutex_trylock(&guarded) == 0 && pthread_mutex_unlock(&guarded) == 0);
    }
    printf("cancelled: done\n");
    CHECK(cleaned <= 40 && cleaned >= 20);
}

/* What isn't recorded ------------------------------------------------------------------------------------ */

static void test_left_out(void) {
    pthread_mutexattr_t robust;
    pthread_mutex_t mutex;
    pthread_barrier_t barrier;
    sem_t shared;
    pthread_mutexattr_init(&robust);
    pthread_mutexattr_setrobust(&robust, PTHREAD_MUTEX_ROBUST);
    CHECK(!pthread_mutex_init(&mutex, &robust));
    CHECK(!pthread_mutex_lock(&mutex) && !pthread_mutex_unlock(&mutex));
    CHECK(!pthread_barrier_init(&barrier, NULL, 1));
    CHECK(pthread_barrier_wait(&barrier) == PTHREAD_BARRIER_SERIAL_THREAD);
    CHECK(!sem_init(&shared, 1, 1) && !sem_wait(&shared) && !sem_post(&shared) && !sem_destroy(&shared));
    CHECK(!pthread_mutex_destroy(&mutex) && !pthread_barrier_destroy(&barrier));
    printf("left out: done\n");
}

/* A fork ------------------------------------------------------------------------------------------------- */

static atomic_int stops;
static pthread_mutex_t held = PTHREAD_MUTEX_INITIALIZER;

static void *run_on(void *nothing) {
    while (!stops) {
        pthread_mutex_lock(&plain);
        pthread_mutex_unlock(&plain);
        pthread_rwlock_rdlock(&shelf);
        pthread_rwlock_unlock(&shelf);
    }
    return nothing;
}

static void before(void) { CHECK(pthread_mutex_lock(&plain) == 0); }
static void behind(void) { CHECK(pthread_mutex_unlock(&plain) == 0); }

static void be_child(void) {
    alarm(60);
    CHECK(pthread_mutex_trylock(&held) == EBUSY && pthread_mutex_unlock(&held) == 0);
    plain_count = recursive_count = checked_count = put = taken = turns_made = left_book = right_book = 0;
    in_buffer = meetings = here = turn = 0;
    in_threads(use_mutexes);
    in_threads(use_buffer);
    CHECK(plain_count == (long)threads * rounds);
    exit(7);
}

static void test_fork(void) {
    pthread_t others[3];
    int status;
    CHECK(pthread_atfork(before, behind, behind) == 0);
    for (int i = 0; i < 3; i++) CHECK(pthread_create(&others[i], NULL, run_on, NULL) == 0);
    for (int i = 0; i < 5; i++) {
        fflush(stdout);
        CHECK(pthread_mutex_lock(&held) == 0);
        pid_t child = fork();
        CHECK(child >= 0);
        if (child == 0) be_child();
        CHECK(pthread_mutex_unlock(&held) == 0);
        CHECK(waitpid(child, &status, 0) == child);
        CHECK(WIFEXITED(status) && WEXITSTATUS(status) == 7);
    }
    stops = 1;
    for (int i = 0; i < 3; i++) CHECK(pthread_join(others[i], NULL) == 0);
    printf("forks: done\n");
}

/* Waits for good, in a lock, a condition and a semaphore. */
static void *wait_for_good(void *which) {
    if ((long)which % 3 == 0) pthread_mutex_lock(&plain);
    if ((long)which % 3 == 1) wait_for_never(NULL);
    sem_wait(&nothing_comes);
    return NULL;
}

static void hang(bool in_child) {
    pthread_t made;
    alarm(0);
    fflush(stdout);
    pid_t child = in_child ? fork() : 0;
    CHECK(child >= 0);
    while (child) pause();
    pthread_mutex_lock(&plain);
    for (long i = 0; i < threads; i++) CHECK(pthread_create(&made, NULL, wait_for_good, (void *)i) == 0);
    printf("hangs\n");
    fflush(stdout);
    for (;;) pause();
}

int main(int argc, char **argv) {
    CHECK(argc > 2);
    threads = atoi(argv[1]), rounds = atoi(argv[2]);
    alarm(100);
    test_mutexes();
    test_conditions();
    test_rwlocks();
    test_semaphores();
    test_cancelled();
    test_left_out();
    if (argc > 3 && !strcmp(argv[3], "fork")) test_fork();
    if (argc > 3 && !strcmp(argv[3], "hang")) hang(argc > 4);
    return 0;
}
