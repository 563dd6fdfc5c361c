/* What each call answers, and what it leaves behind: answers CASE. Each case prints the same with and without the
   recorder, and ends with the same status. A case that hangs is ended by the alarm. Without a word the cases are
   listed. */
#define _GNU_SOURCE
#include "check.h"

#include <errno.h>
#include <limits.h>
#include <pthread.h>
#include <sched.h>
#include <semaphore.h>
#include <signal.h>
#include <stdatomic.h>
#include <stdbool.h>
#include <stdio.h>
#include <stdlib.h>
#include <string.h>
#include <sys/prctl.h>
#include <sys/wait.h>
#include <time.h>
#include <unistd.h>

static pthread_mutex_t mutex = PTHREAD_MUTEX_INITIALIZER;
static pthread_cond_t condition = PTHREAD_COND_INITIALIZER;
static pthread_rwlock_t lock = PTHREAD_RWLOCK_INITIALIZER;
static sem_t semaphore;
static atomic_int come, gone;
static const struct timespec none = {0, -1};

static pthread_t started(void *(*run)(void *), void *with) {
    pthread_t thread;
    CHECK(pthread_create(&thread, NULL, run, with) == 0);
    return thread;
}

static void join(pthread_t thread) { CHECK(pthread_join(thread, NULL) == 0); }

static void use(pthread_mutex_t *which) { CHECK(!pthread_mutex_lock(which) && !pthread_mutex_unlock(which)); }

/* Waits until so many threads have come, and then a little longer, so that they sleep. */
static void wait_for(atomic_int *count, int number) {
    while (*count < number) usleep(1000);
    usleep(20000);
}

static void handle(int number, void (*handler)(int), int flags) {
    struct sigaction action = {.sa_handler = handler, .sa_flags = flags};
    CHECK(sigaction(number, &action, NULL) == 0);
}

static const char *name_of(int error) { return strerrorname_np(error); }

/* Of a call that tells its error by errno. */
static const char *name_of_sem(int answer) { return name_of(answer ? errno : 0); }

static struct timespec soon(void) { return after(CLOCK_REALTIME, 20); }
static struct timespec late(void) { return after(CLOCK_REALTIME, 5000); }

/* Tells of a call that waited until `late()` that it failed, or got what it waited for at the end of its time: nobody
   had woken it. */
static void tell_late(const char *call, int error, const struct timespec *moment) {
    struct timespec now;
    CHECK(clock_gettime(CLOCK_REALTIME, &now) == 0);
    if (error) printf("%s: %s\n", call, name_of(error));
    else if (now.tv_sec >= moment->tv_sec) printf("%s: late\n", call);
}

/* Answers ------------------------------------------------------------------------------------------------ */

static void *find_held(void *held) {
    struct timespec moment = soon();
    printf(" another: %s", name_of(pthread_mutex_trylock(held)));
    printf(" %s", name_of(pthread_mutex_timedlock(held, &none)));
    printf(" %s", name_of(pthread_mutex_timedlock(held, &moment)));
    printf(" %s", name_of(pthread_mutex_unlock(held)));
    int error = pthread_mutex_trylock(held);
    printf(", then %s;", name_of(error));
    if (!error) CHECK(pthread_mutex_unlock(held) == 0);
    return error ? held : NULL; /* the owner still has it */
}

static void use_mutex_of_type(int type) {
    pthread_mutexattr_t attributes;
    pthread_mutex_t own;
    void *held;
    CHECK(!pthread_mutexattr_init(&attributes) && !pthread_mutexattr_settype(&attributes, type));
    CHECK(pthread_mutex_init(&own, &attributes) == 0);
    printf("type %d: free: %s", type, name_of(pthread_mutex_clocklock(&own, CLOCK_PROCESS_CPUTIME_ID, &none)));
    printf(" %s", name_of(pthread_mutex_timedlock(&own, &none)));
    CHECK(pthread_mutex_unlock(&own) == 0);
    printf(" %s; owner:", name_of(pthread_mutex_trylock(&own)));
    for (int i = 0; i < 3; i++) {
        struct timespec moment = soon();
        const struct timespec *until = i == 1 ? &none : &moment;
        int error = i == 0 ? pthread_mutex_trylock(&own) : pthread_mutex_timedlock(&own, until);
        printf(" %s", name_of(error));
        if (!error) CHECK(pthread_mutex_unlock(&own) == 0);
    }
    printf(" %s;", name_of(pthread_mutex_destroy(&own)));
    CHECK(pthread_join(started(find_held, &own), &held) == 0);
    if (held) CHECK(pthread_mutex_unlock(&own) == 0);
    printf(" %s\n", name_of(pthread_mutex_destroy(&own)));
}

static void mutexes_of_each_type(void) {
    static const int types[] = {
        PTHREAD_MUTEX_NORMAL, PTHREAD_MUTEX_RECURSIVE, PTHREAD_MUTEX_ERRORCHECK, PTHREAD_MUTEX_ADAPTIVE_NP};
    for (int i = 0; i < 4; i++) use_mutex_of_type(types[i]);
}

/* Moments, clocks and numbers that are none. */
static void arguments_that_are_none(void) {
    pthread_mutex_t checked = PTHREAD_ERRORCHECK_MUTEX_INITIALIZER_NP;
    struct timespec moment = soon();
    const clockid_t other = CLOCK_PROCESS_CPUTIME_ID;
    printf("to read: %s", name_of(pthread_rwlock_timedrdlock(&lock, &none)));
    printf(" %s", name_of(pthread_rwlock_clockrdlock(&lock, other, &moment)));
    printf(", to write: %s", name_of(pthread_rwlock_timedwrlock(&lock, &none)));
    printf(" %s\n", name_of(pthread_rwlock_clockwrlock(&lock, other, &moment)));
    CHECK(pthread_rwlock_trywrlock(&lock) == 0 && pthread_rwlock_unlock(&lock) == 0);
    printf("too many permits: %s\n", name_of_sem(sem_init(&semaphore, 0, (unsigned)SEM_VALUE_MAX + 1)));
    CHECK(sem_init(&semaphore, 0, 1) == 0);
    printf("permit: %s", name_of_sem(sem_timedwait(&semaphore, &none)));
    printf(" %s", name_of_sem(sem_clockwait(&semaphore, CLOCK_MONOTONIC, &none)));
    printf(" %s", name_of_sem(sem_clockwait(&semaphore, other, &moment)));
    printf(", then %s\n", name_of_sem(sem_trywait(&semaphore)));
    for (long more = 0; more < 2; more++) {
        const struct timespec moment_in_1970 = {1, 999999999 + more}; /* 1000000000 are too many */
        printf("no permit: %s\n", name_of_sem(sem_timedwait(&semaphore, &moment_in_1970)));
    }
    printf("not owned: %s", name_of(pthread_cond_timedwait(&condition, &checked, &moment)));
    CHECK(pthread_mutex_lock(&checked) == 0);
    printf(", owned: %s", name_of(pthread_cond_timedwait(&condition, &checked, &none)));
    printf(" %s", name_of(pthread_cond_clockwait(&condition, &checked, other, &moment)));
    printf(", then %s\n", name_of(pthread_mutex_unlock(&checked)));
}

/* A second reader comes while a writer waits behind the first: how that ends, by the kind of the lock. */
static void *write_late(void *which) {
    struct timespec moment = late();
    come++;
    CHECK(!pthread_rwlock_timedwrlock(which, &moment) && !pthread_rwlock_unlock(which));
    return NULL;
}

static void *read_soon(void *which) {
    struct timespec moment = soon();
    int error = pthread_rwlock_timedrdlock(which, &moment);
    printf(" %s\n", name_of(error));
    if (!error) CHECK(pthread_rwlock_unlock(which) == 0);
    return NULL;
}

static void locks_that_prefer_somebody(void) {
    for (int kind = 0; kind < 3; kind++) {
        pthread_rwlockattr_t attributes;
        pthread_rwlock_t own;
        CHECK(!pthread_rwlockattr_init(&attributes) && !pthread_rwlockattr_setkind_np(&attributes, kind));
        CHECK(pthread_rwlock_init(&own, &attributes) == 0);
        CHECK(pthread_rwlock_wrlock(&own) == 0 && pthread_rwlock_unlock(&own) == 0); /* that is over */
        CHECK(pthread_rwlock_rdlock(&own) == 0);
        printf("kind %d:", kind);
        pthread_t writer = started(write_late, &own);
        wait_for(&come, kind + 1);
        join(started(read_soon, &own));
        CHECK(pthread_rwlock_unlock(&own) == 0);
        join(writer);
        CHECK(pthread_rwlock_destroy(&own) == 0);
    }
}

static int ask_for(pthread_rwlock_t *which, int way) {
    static const struct timespec past = {1, 0};
    switch (way) {
        case 0: return pthread_rwlock_rdlock(which);
        case 1: return pthread_rwlock_tryrdlock(which);
        case 2: return pthread_rwlock_timedrdlock(which, &past);
        case 3: return pthread_rwlock_clockrdlock(which, CLOCK_MONOTONIC, &past);
        case 4: return pthread_rwlock_trywrlock(which);
        case 5: return pthread_rwlock_timedwrlock(which, &past);
        default: return pthread_rwlock_clockwrlock(which, CLOCK_MONOTONIC, &past);
    }
}

static void *ask_in_each_way(void *which) {
    for (int way = 0; way < 7; way++) {
        int error = ask_for(which, way);
        printf(" %s", name_of(error));
        if (!error) CHECK(pthread_rwlock_unlock(which) == 0);
    }
    puts("");
    return NULL;
}

/* Another thread reads: who asks to read gets the lock, and who asks to write doesn't. */
static void calls_beside_a_reader(void) {
    CHECK(pthread_rwlock_rdlock(&lock) == 0);
    join(started(ask_in_each_way, &lock));
    CHECK(pthread_rwlock_unlock(&lock) == 0);
}

static pthread_mutex_t recursive = PTHREAD_RECURSIVE_MUTEX_INITIALIZER_NP;
static pthread_mutex_t again = PTHREAD_RECURSIVE_MUTEX_INITIALIZER_NP;

static void *use_when_free(void *nothing) {
    printf("then to write: %s", name_of(pthread_rwlock_trywrlock(&lock)));
    printf(", mutex: %s\n", name_of(pthread_mutex_trylock(&recursive)));
    CHECK(pthread_rwlock_unlock(&lock) == 0 && pthread_mutex_unlock(&recursive) == 0);
    return nothing;
}

/* A reader asks for more holds than a lock allows. A refused one changes nothing. An owner takes more holds than a
   history has entries. */
static void many_holds_of_one_thread(void) {
    enum { READS = 70000, HOLDS = 6000 };
    int reads = 0, error = 0;
    while (reads < READS && !(error = pthread_rwlock_rdlock(&lock))) reads++;
    printf("to read: %s", error == EAGAIN ? "0" : name_of(error));
    for (int i = 0; i < reads; i++) CHECK(pthread_rwlock_unlock(&lock) == 0);
    for (int i = 0; i < HOLDS / 2; i++)
        CHECK(pthread_mutex_lock(&recursive) == 0 && pthread_mutex_trylock(&recursive) == 0);
    for (int i = 0; i < HOLDS; i++) CHECK(pthread_mutex_unlock(&recursive) == 0);
    printf(", one unlock more: %s, ", name_of(pthread_mutex_unlock(&recursive)));
    join(started(use_when_free, NULL));
    for (int i = 0; i < 2 * HOLDS; i++) CHECK(pthread_rwlock_rdlock(&lock) == 0 && pthread_rwlock_unlock(&lock) == 0);
}

static void *take_recursive(void *nothing) {
    come++;
    CHECK(pthread_mutex_lock(&recursive) == 0 && pthread_mutex_unlock(&recursive) == 0);
    return nothing;
}

/* The owner takes more holds than a history has entries while another thread waits, which gets the mutex then. */
static void many_holds_beside_one_that_waits(void) {
    enum { HOLDS = 20000 };
    CHECK(pthread_mutex_lock(&recursive) == 0);
    pthread_t thread = started(take_recursive, NULL);
    while (come < 1) usleep(1000);
    usleep(20000);
    for (int i = 1; i < HOLDS; i++) CHECK(pthread_mutex_lock(&recursive) == 0);
    for (int i = 0; i < HOLDS; i++) CHECK(pthread_mutex_unlock(&recursive) == 0);
    join(thread);
    printf("done\n");
}

/* An unlock by another thread ---------------------------------------------------------------------------- */

static void *lock_late(void *nothing) {
    struct timespec moment = late();
    come++;
    int error = pthread_mutex_timedlock(&mutex, &moment);
    tell_late("mutex", error, &moment);
    if (!error) CHECK(pthread_mutex_unlock(&mutex) == 0);
    gone++;
    return nothing;
}

static void *write_in_time(void *nothing) {
    struct timespec moment = late();
    come++;
    int error = pthread_rwlock_timedwrlock(&lock, &moment);
    tell_late("to write", error, &moment);
    if (!error) CHECK(pthread_rwlock_unlock(&lock) == 0);
    gone++;
    return nothing;
}

static void *sleep_late(void *nothing) {
    struct timespec moment = late();
    CHECK(pthread_mutex_lock(&mutex) == 0);
    come++;
    tell_late("condition", pthread_cond_timedwait(&condition, &mutex, &moment), &moment);
    CHECK(pthread_mutex_unlock(&mutex) == 0);
    gone++;
    return nothing;
}

static void *unlock_mutex(void *nothing) {
    CHECK(pthread_mutex_unlock(&mutex) == 0);
    return nothing;
}

static void *signal_condition(void *nothing) {
    CHECK(pthread_cond_signal(&condition) == 0);
    return nothing;
}

static void *signal_and_unlock(void *nothing) { return unlock_mutex(signal_condition(nothing)); }

static void *unlock_read(void *nothing) {
    CHECK(pthread_rwlock_unlock(&lock) == 0);
    int error = pthread_rwlock_trywrlock(&lock);
    printf("%s\n", name_of(error));
    if (!error) CHECK(pthread_rwlock_unlock(&lock) == 0);
    return nothing;
}

/* Starts so many, waits until they wait, lets another thread unlock, and waits until they have gone. */
static void let_go(int count, void *(*wait)(void *), void *(*unlock)(void *)) {
    pthread_t threads[8];
    come = gone = 0;
    for (int i = 0; i < count; i++) threads[i] = started(wait, NULL);
    wait_for(&come, count);
    join(started(unlock, NULL));
    for (int i = 0; i < count; i++) join(threads[i]);
    printf("%d have gone\n", gone);
}

static void *unlock_read_alone(void *nothing) {
    CHECK(pthread_rwlock_unlock(&lock) == 0);
    return nothing;
}

static void *acquire_and_end(void *nothing) {
    CHECK(pthread_mutex_lock(&mutex) == 0 && pthread_rwlock_rdlock(&lock) == 0);
    return nothing;
}

static void another_thread_unlocks(void) {
    for (int count = 1; count <= 8; count += 7) {
        CHECK(pthread_mutex_lock(&mutex) == 0);
        let_go(count, lock_late, unlock_mutex);
        CHECK(pthread_rwlock_rdlock(&lock) == 0);
        let_go(count, write_in_time, unlock_read_alone);
    }
    come = 0;
    pthread_t sleeper = started(sleep_late, NULL);
    wait_for(&come, 1);
    CHECK(pthread_mutex_lock(&mutex) == 0);
    join(started(signal_and_unlock, NULL));
    join(sleeper);
    printf("%d have gone\n", gone);
    CHECK(pthread_rwlock_rdlock(&lock) == 0 && pthread_rwlock_rdlock(&lock) == 0);
    for (int i = 0; i < 2; i++) join(started(unlock_read, NULL));
    for (int i = 0; i < 300; i++) {
        join(started(acquire_and_end, NULL));
        CHECK(pthread_mutex_unlock(&mutex) == 0 && pthread_rwlock_unlock(&lock) == 0);
    }
    printf("%s", name_of(pthread_mutex_trylock(&mutex)));
    printf(" %s\n", name_of(pthread_rwlock_trywrlock(&lock)));
}

/* More threads than seats --------------------------------------------------------------------------------- */

enum { CROWD = 7 };

static void *take_late(void *nothing) {
    struct timespec moment = late();
    come++;
    tell_late("permit", sem_timedwait(&semaphore, &moment) ? errno : 0, &moment);
    gone++;
    return nothing;
}

static void *take_permit(void *nothing) {
    come++;
    printf("a permit and a handler: %s\n", name_of_sem(sem_wait(&semaphore)));
    return nothing;
}

static void *take_and_be_cancelled(void *nothing) {
    come++;
    sem_wait(&semaphore);
    printf("it is not cancelled\n");
    return nothing;
}

/* One more comes, and leaves in time. */
static void *find_crowd(void *nothing) {
    struct timespec moment = soon(), until = soon(), moment_to_take = soon(), now;
    printf("mutex: %s", name_of(pthread_mutex_trylock(&mutex)));
    printf(" %s", name_of(pthread_mutex_timedlock(&mutex, &moment)));
    printf(", to write: %s", name_of(pthread_rwlock_trywrlock(&lock)));
    printf(" %s", name_of(pthread_rwlock_timedwrlock(&lock, &until)));
    printf(", permit: %s", name_of_sem(sem_trywait(&semaphore)));
    printf(" %s", name_of_sem(sem_timedwait(&semaphore, &moment_to_take)));
    CHECK(clock_gettime(CLOCK_REALTIME, &now) == 0);
    int is_early = now.tv_sec == moment.tv_sec ? now.tv_nsec < moment.tv_nsec : now.tv_sec < moment.tv_sec;
    printf(", %s\n", is_early ? "early" : "in time");
    return nothing;
}

static void do_nothing(int number) { (void)number; }

static void end_extra(void *(*run)(void *), bool cancels) {
    int before = come;
    void *ended;
    pthread_t extra = started(run, NULL);
    wait_for(&come, before + 1);
    CHECK((cancels ? pthread_cancel(extra) : pthread_kill(extra, SIGUSR1)) == 0);
    CHECK(pthread_join(extra, &ended) == 0);
    if (cancels) printf("cancelled: %d\n", ended == PTHREAD_CANCELED);
}

/* Seven threads wait for each object, which was touched first when there was one. Then others come and go. */
static void more_come_than_there_are_seats(void) {
    pthread_t threads[3 * CROWD];
    int value;
    CHECK(sem_init(&semaphore, 0, 0) == 0 && sem_post(&semaphore) == 0 && sem_trywait(&semaphore) == 0);
    handle(SIGUSR1, do_nothing, 0);
    CHECK(pthread_mutex_lock(&mutex) == 0 && pthread_rwlock_rdlock(&lock) == 0);
    for (int i = 0; i < CROWD; i++) {
        threads[3 * i] = started(lock_late, NULL);
        threads[3 * i + 1] = started(write_in_time, NULL);
        threads[3 * i + 2] = started(take_late, NULL);
    }
    wait_for(&come, 3 * CROWD);
    join(started(find_crowd, NULL));
    end_extra(take_permit, false);
    end_extra(take_and_be_cancelled, true);
    CHECK(sem_getvalue(&semaphore, &value) == 0 && pthread_mutex_unlock(&mutex) == 0);
    CHECK(pthread_rwlock_unlock(&lock) == 0);
    for (int i = 0; i < CROWD; i++) CHECK(sem_post(&semaphore) == 0);
    for (int i = 0; i < 3 * CROWD; i++) join(threads[i]);
    printf("%d permits, then %s, %d have gone\n", value, name_of_sem(sem_trywait(&semaphore)), gone);
}

/* Cancellation ------------------------------------------------------------------------------------------- */

static void *acquire_cancelled(void *which) {
    struct timespec moment = late();
    int error = 0;
    come++;
    if (which == (void *)0) error = pthread_mutex_lock(&mutex);
    if (which == (void *)1) error = pthread_mutex_timedlock(&mutex, &moment);
    if (which == (void *)2) error = pthread_rwlock_rdlock(&lock);
    if (which == (void *)3) error = pthread_rwlock_timedwrlock(&lock, &moment);
    CHECK((((long)which < 2) ? pthread_mutex_unlock(&mutex) : pthread_rwlock_unlock(&lock)) == 0);
    CHECK(sem_post(&semaphore) == 0 && sem_trywait(&semaphore) == 0);
    CHECK(pthread_cond_signal(&condition) == 0 && pthread_cond_broadcast(&condition) == 0);
    gone += error == 0;
    pthread_testcancel();
    printf("it is not cancelled\n");
    return NULL;
}

static void tell_clean(void *text) { printf("%s\n", (char *)text); }

static void *take_cancelled(void *nothing) {
    CHECK(pthread_cancel(pthread_self()) == 0 && sem_trywait(&semaphore) == 0 && sem_post(&semaphore) == 0);
    pthread_cleanup_push(tell_clean, "a wait for a permit that is there is cancelled");
    sem_wait(&semaphore);
    pthread_cleanup_pop(0);
    printf("it is not cancelled\n");
    return nothing;
}

static void unlock_and_tell(void *nothing) {
    (void)nothing;
    printf("it owns the mutex: %s\n", name_of(pthread_mutex_unlock(&mutex)));
}

static void *sleep_cancelled(void *nothing) {
    CHECK(pthread_mutex_lock(&mutex) == 0 && pthread_cancel(pthread_self()) == 0);
    pthread_cleanup_push(unlock_and_tell, NULL);
    pthread_cond_wait(&condition, &mutex);
    pthread_cleanup_pop(1);
    printf("it is not cancelled\n");
    return nothing;
}

/* A lock isn't a cancellation point, whatever it waits for. The waits for permits and conditions are. */
static void threads_that_were_cancelled_before(void) {
    pthread_t threads[4];
    int value;
    CHECK(sem_init(&semaphore, 0, 1) == 0 && !pthread_mutex_lock(&mutex) && !pthread_rwlock_wrlock(&lock));
    for (long i = 0; i < 4; i++) threads[i] = started(acquire_cancelled, (void *)i);
    wait_for(&come, 4);
    for (int i = 0; i < 4; i++) CHECK(pthread_cancel(threads[i]) == 0);
    usleep(20000);
    CHECK(pthread_mutex_unlock(&mutex) == 0 && pthread_rwlock_unlock(&lock) == 0);
    for (int i = 0; i < 4; i++) join(threads[i]);
    printf("%d have it\n", gone);
    join(started(take_cancelled, NULL));
    join(started(sleep_cancelled, NULL));
    CHECK(sem_getvalue(&semaphore, &value) == 0);
    printf("%d permits\n", value);
}

/* A thread that was cancelled in a wait waits twice in its handler. It takes no processor meanwhile. */
static void wait_again(void *owned) {
    struct timespec from, to, first = soon(), moment = after(CLOCK_REALTIME, 200);
    static pthread_mutex_t own = PTHREAD_MUTEX_INITIALIZER;
    static pthread_cond_t never = PTHREAD_COND_INITIALIZER;
    CHECK(clock_gettime(CLOCK_THREAD_CPUTIME_ID, &from) == 0 && pthread_mutex_lock(&own) == 0);
    CHECK(pthread_cond_timedwait(&never, &own, &first) == ETIMEDOUT);
    int error = pthread_cond_timedwait(&never, &own, &moment);
    CHECK(clock_gettime(CLOCK_THREAD_CPUTIME_ID, &to) == 0 && pthread_mutex_unlock(&own) == 0);
    double took = (double)(to.tv_sec - from.tv_sec) * 1e3 + (double)(to.tv_nsec - from.tv_nsec) / 1e6;
    printf("%s, %s\n", name_of(error), took < 50 ? "asleep" : "awake");
    if (owned) CHECK(pthread_mutex_unlock(owned) == 0);
}

static void *sleep_and_wait_again(void *nothing) {
    CHECK(pthread_mutex_lock(&mutex) == 0);
    pthread_cleanup_push(wait_again, &mutex);
    come++;
    for (;;) pthread_cond_wait(&condition, &mutex);
    pthread_cleanup_pop(0);
    return nothing;
}

static void *take_and_wait_again(void *nothing) {
    pthread_cleanup_push(wait_again, NULL);
    come++;
    sem_wait(&semaphore);
    pthread_cleanup_pop(0);
    return nothing;
}

static void cancelled_threads_wait_again(void) {
    CHECK(sem_init(&semaphore, 0, 0) == 0);
    for (int i = 0; i < 2; i++) {
        pthread_t thread = started(i ? take_and_wait_again : sleep_and_wait_again, NULL);
        wait_for(&come, i + 1);
        CHECK(pthread_cancel(thread) == 0);
        join(thread);
    }
}

/* Waits on a condition ------------------------------------------------------------------------------------ */

static pthread_mutex_t inherits; /* glibc keeps it */
static atomic_int woken, spins;

static void unlock_given(void *given) { CHECK(pthread_mutex_unlock(given) == 0); }

static int leaver; /* how many have come before the one that leaves soon */

static void *wait_once(void *given) {
    CHECK(pthread_mutex_lock(given) == 0);
    pthread_cleanup_push(unlock_given, given);
    struct timespec moment = come == leaver ? after(CLOCK_REALTIME, 100) : late();
    come++;
    int error = pthread_cond_timedwait(&condition, given, &moment);
    if (error) printf("%s;", name_of(error));
    else woken++;
    pthread_cleanup_pop(1);
    return NULL;
}

static void spin_here(int number) {
    (void)number;
    spins = 1;
    while (spins) sched_yield();
}

/* Three threads wait, of which one leaves soon: the first, the second or the last. A fourth comes. Then the three
   are signalled, one after the other. */
static void wake_three_of_four(pthread_mutex_t *given, int leaves) {
    pthread_t threads[4];
    come = 0;
    woken = 0;
    leaver = leaves;
    for (int i = 0; i < 3; i++) {
        threads[i] = started(wait_once, given);
        while (come <= i) usleep(1000);
    }
    join(threads[leaves]);
    threads[leaves] = started(wait_once, given);
    wait_for(&come, 4);
    for (int i = 1; i < 4; i++) {
        CHECK(!pthread_mutex_lock(given) && !pthread_cond_signal(&condition) && !pthread_mutex_unlock(given));
        while (woken < i) usleep(1000);
        printf(" %d woken;", woken);
    }
    for (int i = 0; i < 3; i++) join(threads[i]);
    puts("");
}

/* A signal that a cancelled thread has got goes on to the other that waits. */
static void signal_cancelled(pthread_mutex_t *given) {
    pthread_t threads[2];
    void *ended;
    come = 10;
    woken = 0;
    for (int i = 0; i < 2; i++) {
        threads[i] = started(wait_once, given);
        wait_for(&come, 11 + i);
    }
    CHECK(pthread_kill(threads[0], SIGUSR1) == 0);
    while (!spins) usleep(1000);
    CHECK(!pthread_mutex_lock(given) && !pthread_cond_signal(&condition) && !pthread_cancel(threads[0]));
    usleep(20000);
    spins = 0;
    CHECK(pthread_mutex_unlock(given) == 0);
    CHECK(pthread_join(threads[0], &ended) == 0);
    join(threads[1]);
    printf(" %d went on\n", woken);
}

static void signals_reach_those_who_wait(void) {
    pthread_mutexattr_t attributes;
    CHECK(!pthread_mutexattr_init(&attributes));
    CHECK(!pthread_mutexattr_setprotocol(&attributes, PTHREAD_PRIO_INHERIT));
    CHECK(!pthread_mutex_init(&inherits, &attributes));
    handle(SIGUSR1, spin_here, SA_RESTART);
    for (int i = 0; i < 2; i++) {
        pthread_mutex_t *given = i ? &inherits : &mutex;
        for (int k = 0; k < 3; k++) wake_three_of_four(given, k);
        signal_cancelled(given);
    }
}

static pthread_cond_t variables[17];

static void *wait_for_variable(void *variable) {
    CHECK(pthread_mutex_lock(&mutex) == 0);
    come++;
    CHECK(pthread_cond_wait(variable, &mutex) == 0);
    woken++;
    CHECK(pthread_mutex_unlock(&mutex) == 0);
    return NULL;
}

static void *signal_twice(void *which) {
    for (int i = 0; i < 2; i++) CHECK(pthread_cond_signal(&variables[(long)which]) == 0);
    return NULL;
}

static void *broadcast_both(void *nothing) {
    for (int i = 0; i < 2; i++) CHECK(pthread_cond_broadcast(&variables[i]) == 0);
    return nothing;
}

/* Four wait on each of two variables, and the main thread owns the mutex while another signals. */
static void signals_beside_the_owner(void) {
    pthread_t threads[8];
    for (int i = 0; i < 8; i++) {
        threads[i] = started(wait_for_variable, &variables[i % 2]);
        wait_for(&come, i + 1);
    }
    for (int i = 0; i < 3; i++) {
        CHECK(pthread_mutex_lock(&mutex) == 0);
        join(started(i < 2 ? signal_twice : broadcast_both, (void *)(long)(1 - i % 2)));
        usleep(20000);
        printf("%d, then", woken);
        CHECK(pthread_mutex_unlock(&mutex) == 0);
        wait_for(&woken, i < 2 ? 2 * i + 2 : 8);
        printf(" %d woken\n", woken);
    }
    for (int i = 0; i < 8; i++) join(threads[i]);
}

/* A thread waits, and another signals twice while the main thread owns the mutex, which then waits itself: no signal
   is for it. */
static void signals_from_before_a_wait(void) {
    pthread_t thread = started(wait_for_variable, &variables[0]);
    wait_for(&come, 1);
    CHECK(pthread_mutex_lock(&mutex) == 0);
    join(started(signal_twice, (void *)0));
    struct timespec moment = after(CLOCK_REALTIME, 100);
    int error = pthread_cond_timedwait(&variables[0], &mutex, &moment);
    printf("%s, %d woken\n", name_of(error), woken);
    CHECK(pthread_mutex_unlock(&mutex) == 0);
    join(thread);
}

static void *sleep_soon(void *variable) {
    struct timespec from, to, moment = soon();
    CHECK(pthread_mutex_lock(&mutex) == 0);
    come++;
    CHECK(clock_gettime(CLOCK_THREAD_CPUTIME_ID, &from) == 0);
    int error = pthread_cond_timedwait(variable, &mutex, &moment);
    CHECK(clock_gettime(CLOCK_THREAD_CPUTIME_ID, &to) == 0);
    double took = (double)(to.tv_sec - from.tv_sec) * 1e3 + (double)(to.tv_nsec - from.tv_nsec) / 1e6;
    printf("%s, %s\n", name_of(error), took < 25 ? "asleep" : "awake");
    CHECK(pthread_mutex_unlock(&mutex) == 0);
    return NULL;
}

/* The time of a wait is over while the main thread owns the mutex, which then waits on another variable. The thread
   takes no processor meanwhile. */
static void waits_that_end_beside_the_owner(void) {
    static const struct timespec past = {1, 0};
    pthread_t thread = started(sleep_soon, &variables[0]);
    while (come < 1) usleep(1000);
    CHECK(pthread_mutex_lock(&mutex) == 0);
    usleep(50000);
    CHECK(pthread_cond_timedwait(&variables[1], &mutex, &past) == ETIMEDOUT && pthread_mutex_unlock(&mutex) == 0);
    join(thread);
}

static void *wait_for_recursive(void *variable) {
    CHECK(pthread_mutex_lock(&recursive) == 0);
    come++;
    CHECK(pthread_cond_wait(variable, &recursive) == 0);
    CHECK(pthread_mutex_unlock(&recursive) == 0);
    return NULL;
}

/* A wait leaves the holds as they were: by a number of its mutex, and if 16 variables have those. */
static void holds_after_a_wait(void) {
    pthread_t threads[16];
    for (int i = 0; i < 2; i++) {
        struct timespec moment = soon();
        CHECK(pthread_mutex_lock(&recursive) == 0 && pthread_mutex_lock(&recursive) == 0);
        printf("%s:", name_of(pthread_cond_timedwait(&variables[16], &recursive, &moment)));
        for (int k = 0; k < 3; k++) printf(" %s", name_of(pthread_mutex_unlock(&recursive)));
        puts("");
        for (int k = 0; i == 0 && k < 16; k++) {
            threads[k] = started(wait_for_recursive, &variables[k]);
            while (come <= k) usleep(1000);
        }
    }
    for (int i = 0; i < 16; i++) {
        CHECK(pthread_mutex_lock(&recursive) == 0 && pthread_cond_signal(&variables[i]) == 0);
        CHECK(pthread_mutex_unlock(&recursive) == 0);
        join(threads[i]);
    }
}

/* Handlers ------------------------------------------------------------------------------------------------ */

static sem_t three[3];

static void take_in_handler(int number) {
    int kept = errno;
    (void)number;
    gone++;
    while (sem_wait(&semaphore)) continue;
    gone++;
    errno = kept;
}

/* A handler waits while its thread waits. Each gets what it waits for, whichever comes first. */
static void a_handler_waits_too(void) {
    CHECK(sem_init(&semaphore, 0, 0) == 0);
    handle(SIGUSR1, take_in_handler, SA_RESTART);
    CHECK(pthread_mutex_lock(&mutex) == 0);
    pthread_t thread = started(lock_late, NULL);
    wait_for(&come, 1);
    CHECK(pthread_kill(thread, SIGUSR1) == 0);
    wait_for(&gone, 1);
    CHECK(pthread_mutex_unlock(&mutex) == 0);
    usleep(20000);
    CHECK(sem_post(&semaphore) == 0);
    join(thread);
    printf("%d\n", gone);
}

static void post_to_three(int number) {
    (void)number;
    errno = E2BIG;
    for (int i = 0; i < 3; i++)
        for (int k = 0; k <= i; k++) sem_post(&three[i]);
    gone += errno == E2BIG;
    come++;
}

static atomic_bool is_over;

static void *use_until_over(void *nothing) {
    while (!is_over) use(&mutex);
    return nothing;
}

/* A handler posts once, twice and three times to three semaphores. It may interrupt a lock, and errno stays. */
static void a_handler_posts_to_three(void) {
    enum { TIMES = 200 };
    int value;
    for (int i = 0; i < 3; i++) CHECK(sem_init(&three[i], 0, 0) == 0);
    handle(SIGUSR1, post_to_three, SA_RESTART);
    pthread_t thread = started(use_until_over, NULL);
    for (int i = 0; i < TIMES; i++) {
        CHECK(pthread_kill(thread, SIGUSR1) == 0);
        while (come <= i) sched_yield();
    }
    is_over = true;
    join(thread);
    for (int i = 0; i < 3; i++) printf("%d ", sem_getvalue(&three[i], &value) ? -1 : value);
    printf("errno stayed %d times\n", gone);
}

enum { SEMAPHORES = 20 };
static sem_t many_semaphores[SEMAPHORES];
static atomic_int refused;

static void post_to_many(int number) {
    (void)number;
    for (int i = 0; i < SEMAPHORES; i++) refused += sem_post(&many_semaphores[i]) != 0;
    come++;
}

/* A handler posts to more semaphores than a thread can have posts of. A post that isn't made is refused. */
static void a_handler_posts_to_many(void) {
    enum { TIMES = 200 };
    int value, lost = SEMAPHORES * TIMES;
    for (int i = 0; i < SEMAPHORES; i++) CHECK(sem_init(&many_semaphores[i], 0, 0) == 0);
    handle(SIGUSR1, post_to_many, SA_RESTART);
    pthread_t thread = started(use_until_over, NULL);
    for (int i = 0; i < TIMES; i++) {
        CHECK(pthread_kill(thread, SIGUSR1) == 0);
        while (come <= i) sched_yield();
    }
    is_over = true;
    join(thread);
    for (int i = 0; i < SEMAPHORES; i++) lost -= sem_getvalue(&many_semaphores[i], &value) ? 0 : value;
    printf("%d are lost\n", lost - refused);
}

static void note_handler(int number) {
    (void)number;
    gone++;
}

static void *rest(void *nothing) {
    sigset_t held_up;
    CHECK(!sigemptyset(&held_up) && !sigaddset(&held_up, SIGUSR1));
    CHECK(pthread_sigmask(SIG_BLOCK, &held_up, NULL) == 0);
    come++;
    while (!is_over) usleep(20000);
    return nothing;
}

/* All threads of the program hold a signal up, so no handler runs. The program rests, and takes no processor. With the
   usual slack of timers a thread that sleeps until now would rest 50 microseconds each time, and so take little too. */
static void a_program_rests(void) {
    struct timespec from, to;
    sigset_t held_up, pending;
    CHECK(prctl(PR_SET_TIMERSLACK, 1) == 0);
    use(&mutex);
    handle(SIGUSR1, note_handler, 0);
    pthread_t thread = started(rest, NULL);
    wait_for(&come, 1);
    CHECK(!sigemptyset(&held_up) && !sigaddset(&held_up, SIGUSR1));
    CHECK(!pthread_sigmask(SIG_BLOCK, &held_up, NULL) && !kill(getpid(), SIGUSR1));
    CHECK(clock_gettime(CLOCK_PROCESS_CPUTIME_ID, &from) == 0);
    usleep(300000);
    CHECK(clock_gettime(CLOCK_PROCESS_CPUTIME_ID, &to) == 0 && sigpending(&pending) == 0);
    double took = (double)(to.tv_sec - from.tv_sec) * 1e3 + (double)(to.tv_nsec - from.tv_nsec) / 1e6;
    printf("%d handlers, pending %d, %s\n", gone, sigismember(&pending, SIGUSR1), took < 10 ? "asleep" : "awake");
    is_over = true;
    join(thread);
}

static int ends[2];

static void *write_after_signal(void *main_thread) {
    usleep(30000);
    CHECK(pthread_kill(*(pthread_t *)main_thread, SIGUSR2) == 0);
    usleep(30000);
    CHECK(write(ends[1], "x", 1) == 1);
    return NULL;
}

/* A read goes on after SIGUSR2, which the recorder handles if the program neither handles nor ignores it. */
static void reads_beside_sigusr2(void) {
    struct sigaction found;
    pthread_t main_thread = pthread_self();
    char byte;
    CHECK(sigaction(SIGUSR2, NULL, &found) == 0 && pipe(ends) == 0);
    use(&mutex);
    if (found.sa_handler == SIG_IGN) printf("it is ignored\n");
    if (found.sa_handler == SIG_DFL) handle(SIGUSR2, do_nothing, SA_RESTART);
    pthread_t thread = started(write_after_signal, &main_thread);
    printf("%ld byte\n", (long)read(ends[0], &byte, 1));
    join(thread);
}

/* Threads that end ---------------------------------------------------------------------------------------- */

static pthread_mutex_t checked = PTHREAD_ERRORCHECK_MUTEX_INITIALIZER_NP;
static pthread_key_t key;

/* Sets its key twice more, and then unlocks what the thread locked. */
static void unlock_at_end(void *left) {
    if ((long)left > 1) CHECK(pthread_setspecific(key, (char *)left - 1) == 0);
    else printf("at its end: %s\n", name_of(pthread_mutex_unlock(&checked)));
}

static void *lock_and_end(void *left) {
    CHECK(pthread_mutex_lock(&checked) == 0 && pthread_setspecific(key, left) == 0);
    return NULL;
}

static void *find_owned(void *nothing) {
    printf("the next: %s", name_of(pthread_mutex_trylock(&checked)));
    printf(" %s", name_of(pthread_mutex_lock(&recursive) ? EDEADLK : 0));
    printf(" %s\n", name_of(pthread_mutex_unlock(&checked)));
    CHECK(pthread_mutex_unlock(&recursive) == 0);
    return nothing;
}

/* A destructor of a key unlocks, in the first, second and third round. A thread that ends as owner stays it. */
static void threads_that_end(void) {
    CHECK(pthread_key_create(&key, unlock_at_end) == 0);
    for (long left = 1; left <= 3; left++) join(started(lock_and_end, (void *)left));
    join(started(lock_and_end, NULL));
    for (int i = 0; i < 2; i++) join(started(find_owned, NULL));
}

/* What is recorded ---------------------------------------------------------------------------------------- */

static pthread_mutex_t second = PTHREAD_MUTEX_INITIALIZER, third = PTHREAD_MUTEX_INITIALIZER;
static atomic_int stage;

/* Uses a mutex, and lives until its stage. */
static void *use_until_stage(void *last) {
    use(&mutex);
    come++;
    while (stage < (int)(long)last) usleep(1000);
    return NULL;
}

static pthread_t use_in_thread(long last) {
    int before = come;
    pthread_t thread = started(use_until_stage, (void *)last);
    while (come == before) usleep(1000);
    return thread;
}

static void in_child(void (*run)(void)) {
    int status;
    fflush(stdout);
    pid_t child = fork();
    CHECK(child >= 0);
    if (child == 0) {
        alarm(20);
        run();
        _exit(9);
    }
    CHECK(waitpid(child, &status, 0) == child && WIFEXITED(status) && WEXITSTATUS(status) == 9);
}

static void use_in_child(void) {
    use(&mutex);
    join(use_in_thread(0));
}

/* Without the recorder nothing heeds the signal that asks it to write. */
static void survive_sigusr2(void) {
    struct sigaction found;
    CHECK(sigaction(SIGUSR2, NULL, &found) == 0);
    if (found.sa_handler == SIG_DFL) handle(SIGUSR2, do_nothing, SA_RESTART);
}

/* The recorder writes what changed, at the latest in the next call of a process with one thread. */
static void ask_to_write(void) {
    CHECK(raise(SIGUSR2) == 0);
    use(&mutex);
}

static void *hold_both(void *nothing) {
    CHECK(pthread_mutex_lock(&second) == 0 && pthread_rwlock_rdlock(&lock) == 0);
    come++;
    while (!is_over) usleep(1000);
    CHECK(pthread_rwlock_unlock(&lock) == 0 && pthread_mutex_unlock(&second) == 0);
    return nothing;
}

static void find_what_is_held(void) {
    int value;
    printf("mutex: %s", name_of(pthread_mutex_trylock(&second)));
    printf(", to write: %s", name_of(pthread_rwlock_trywrlock(&lock)));
    printf(", to read: %s", name_of(pthread_rwlock_tryrdlock(&lock)));
    printf(", %d permits\n", sem_getvalue(&semaphore, &value) ? -1 : value);
    fflush(stdout);
}

/* In a child the threads of its parent hold what they held, and there are as many permits. */
static void a_child_finds_what_others_hold(void) {
    CHECK(sem_init(&semaphore, 0, 5) == 0 && sem_wait(&semaphore) == 0);
    pthread_t thread = started(hold_both, NULL);
    while (come < 1) usleep(1000);
    in_child(find_what_is_held);
    is_over = true;
    join(thread);
}

static void *signal_the_second(void *nothing) {
    while (come < 2) usleep(1000);
    CHECK(!pthread_mutex_lock(&inherits) && !pthread_cond_signal(&condition) && !pthread_mutex_unlock(&inherits));
    return nothing;
}

static void be_woken(void) {
    pthread_t signals = started(signal_the_second, NULL);
    wait_once(&inherits);
    join(signals);
    printf("%d woken\n", woken);
    fflush(stdout);
}

/* A child wakes its own thread, and not the one of its parent that waits with a mutex that glibc keeps. */
static void a_child_wakes_its_own_thread(void) {
    pthread_mutexattr_t attributes;
    CHECK(!pthread_mutexattr_init(&attributes));
    CHECK(!pthread_mutexattr_setprotocol(&attributes, PTHREAD_PRIO_INHERIT));
    CHECK(!pthread_mutex_init(&inherits, &attributes));
    leaver = -1;
    use(&mutex);
    pthread_t waits = started(wait_once, &inherits);
    wait_for(&come, 1);
    in_child(be_woken);
    CHECK(!pthread_mutex_lock(&inherits) && !pthread_cond_signal(&condition) && !pthread_mutex_unlock(&inherits));
    join(waits);
    printf("%d woken\n", woken);
}

static void use_second(void) { use(&second); }

/* A child does as much as its parent had done when that was written. */
static void a_child_does_what_was_written(void) {
    survive_sigusr2();
    use_second();
    ask_to_write();
    in_child(use_second);
    printf("done\n");
}

static void *use_once(void *nothing) {
    use(&mutex);
    return nothing;
}

/* The main thread has the number 0, though another thread calls first. */
static void a_thread_calls_before_the_main_thread(void) {
    join(started(use_once, NULL));
    use(&mutex);
    printf("done\n");
}

/* Three threads come, of which the last two end. Then two come, one after the other, and a mutex is used first. A child
   has one thread more. Then three come again, and another mutex is used first. */
static void threads_share_numbers(void) {
    pthread_t threads[4];
    use(&mutex);
    for (int i = 0; i < 3; i++) threads[i] = use_in_thread(i ? 1 : 2);
    stage = 1;
    for (int i = 1; i < 3; i++) join(threads[i]);
    for (int i = 0; i < 2; i++) join(use_in_thread(1));
    use(&second);
    in_child(use_in_child);
    for (int i = 1; i < 4; i++) threads[i] = use_in_thread(2);
    use(&third);
    stage = 2;
    for (int i = 0; i < 4; i++) join(threads[i]);
    printf("%d threads\n", come);
}

static void sleep_in_vain(pthread_cond_t *variable, pthread_mutex_t *owned) {
    static const struct timespec past = {1, 0};
    CHECK(pthread_mutex_lock(owned) == 0);
    CHECK(pthread_cond_timedwait(variable, owned, &past) == ETIMEDOUT && pthread_mutex_unlock(owned) == 0);
}

/* 22 mutexes of one place are used and destroyed, each with a sleep. What has changed is written while the third and
   the 21st are used, and before the last. One more is never used. */
static void mutexes_that_are_gone(void) {
    pthread_mutex_t unused;
    CHECK(pthread_mutex_init(&unused, NULL) == 0);
    survive_sigusr2();
    for (int i = 1; i <= 22; i++) {
        pthread_mutex_t own;
        CHECK(pthread_mutex_init(&own, NULL) == 0);
        sleep_in_vain(&condition, &own);
        for (int k = 0; (i == 3 || i == 21) && k < 2; k++) ask_to_write(), use(&own);
        for (int k = 0; i == 22 && k < 4000; k++) use(&own); /* more than a core keeps */
        CHECK(pthread_mutex_destroy(&own) == 0);
        if (i == 21) CHECK(raise(SIGUSR2) == 0); /* the next call writes */
    }
    printf("done\n");
}

/* Two mutexes are destroyed after they were written: one as it was then, and one that was used once more. A third one
   was never used. */
static void destroyed_after_they_were_written(void) {
    pthread_mutex_t unused;
    survive_sigusr2();
    CHECK(pthread_mutex_init(&unused, NULL) == 0 && pthread_mutex_destroy(&unused) == 0);
    for (int more = 0; more < 2; more++) {
        pthread_mutex_t own;
        CHECK(pthread_mutex_init(&own, NULL) == 0);
        use(&own);
        ask_to_write();
        if (more) use(&own);
        CHECK(pthread_mutex_destroy(&own) == 0);
    }
    printf("done\n");
}

/* 18 semaphores of one place are used and destroyed, each after a wait in vain. */
static void semaphores_that_are_gone(void) {
    static const struct timespec past = {1, 0};
    for (int i = 0; i < 18; i++) {
        sem_t own;
        CHECK(sem_init(&own, 0, 0) == 0 && sem_timedwait(&own, &past) == -1 && sem_destroy(&own) == 0);
    }
    printf("done\n");
}

/* 12,000 entries of each object, and four in a child. */
static void use_all_often(int count) {
    for (int i = 0; i < count; i++) {
        use(&second);
        CHECK(!pthread_rwlock_rdlock(&lock) && !pthread_rwlock_unlock(&lock));
        CHECK(!sem_post(&semaphore) && !sem_wait(&semaphore));
    }
}

static void use_all_in_child(void) { use_all_often(2); }

static void one_thread_locks_often(void) {
    CHECK(sem_init(&semaphore, 0, 0) == 0);
    use_all_often(6000);
    in_child(use_all_in_child);
    printf("done\n");
}

static void *end_at_once(void *nothing) { return nothing; }

/* Each of 24 mutexes is used once more while another thread of the recorder writes its first 2000 entries. */
static void used_while_it_is_written(void) {
    enum { MUTEXES = 24, USES = 1000 };
    static pthread_mutex_t many[MUTEXES];
    survive_sigusr2();
    join(started(end_at_once, NULL));
    for (unsigned i = 0; i < MUTEXES; i++) {
        CHECK(pthread_mutex_init(&many[i], NULL) == 0);
        for (int k = 0; k < USES; k++) use(&many[i]);
        CHECK(raise(SIGUSR2) == 0);
        usleep(50 * i);
        use(&many[i]);
    }
    printf("done\n");
}

static void *sleep_for_good(void *owned) {
    CHECK(pthread_mutex_lock(owned) == 0);
    pthread_cleanup_push(unlock_given, owned);
    come++;
    for (;;) pthread_cond_wait(&condition, owned);
    pthread_cleanup_pop(1);
    return NULL;
}

/* A wait with each of 20 variables. Then waits of one variable with a mutex, each after a wait of it with another: one
   that timed out, and one that was cancelled, also with a mutex that glibc keeps. Then a wait after the
   variable of the one before it was destroyed. */
static void conditions_change_their_mutex(void) {
    static pthread_cond_t many[23];
    pthread_mutexattr_t attributes;
    CHECK(!pthread_mutexattr_init(&attributes));
    CHECK(!pthread_mutexattr_setprotocol(&attributes, PTHREAD_PRIO_INHERIT));
    CHECK(!pthread_mutex_init(&inherits, &attributes));
    for (int i = 0; i < 20; i++) {
        CHECK(pthread_cond_init(&many[i], NULL) == 0);
        sleep_in_vain(&many[i], &second);
    }
    for (int i = 0; i < 4; i++) {
        pthread_mutex_t *first = i < 2 ? &mutex : &inherits;
        if (i % 2 == 0) {
            sleep_in_vain(&condition, first);
        } else {
            int before = come;
            pthread_t thread = started(sleep_for_good, first);
            wait_for(&come, before + 1);
            CHECK(pthread_cancel(thread) == 0);
            join(thread);
        }
        sleep_in_vain(&condition, i < 3 ? &third : &second);
    }
    for (int i = 20; i < 22; i++) CHECK(pthread_cond_init(&many[i], NULL) == 0);
    sleep_in_vain(&many[20], &second);
    for (int i = 20; i < 22; i++) CHECK(pthread_cond_destroy(&many[i]) == 0);
    CHECK(pthread_cond_init(&many[22], NULL) == 0);
    sleep_in_vain(&many[22], &second);
    printf("done\n");
}

static void *sleep_once(void *owned) {
    struct timespec moment = late();
    CHECK(pthread_mutex_lock(owned) == 0);
    come++;
    printf("%s\n", name_of(pthread_cond_timedwait(&condition, owned, &moment)));
    CHECK(pthread_mutex_unlock(owned) == 0);
    return NULL;
}

/* A condition variable is used with one mutex after the other, each of which is destroyed. In the last two rounds it is
   signalled while another thread owns the mutex, and the one before that is destroyed meanwhile. */
static void a_condition_outlives_its_mutexes(void) {
    for (int i = 1; i <= 22; i++) {
        pthread_mutex_t own;
        CHECK(pthread_mutex_init(&own, NULL) == 0);
        if (i <= 20) {
            sleep_in_vain(&condition, &own);
        } else {
            pthread_mutex_t first = PTHREAD_MUTEX_INITIALIZER;
            int before = come;
            sleep_in_vain(&condition, &first);
            pthread_t sleeper = started(sleep_once, &own);
            wait_for(&come, before + 1);
            CHECK(pthread_mutex_destroy(&first) == 0 && pthread_mutex_lock(&own) == 0);
            join(started(signal_condition, NULL));
            CHECK(pthread_mutex_unlock(&own) == 0);
            join(sleeper);
        }
        CHECK(pthread_mutex_destroy(&own) == 0);
    }
}

/* The memory of an object is used for another, and the first one wasn't destroyed. */
static void objects_have_no_end(void) {
    static pthread_mutex_t own;
    static pthread_rwlock_t shelf;
    for (int i = 1; i <= 2; i++) {
        CHECK(!pthread_mutex_init(&own, NULL) && !pthread_rwlock_init(&shelf, NULL));
        CHECK(!sem_init(&semaphore, 0, 0));
        for (int k = 0; k < i; k++) {
            use(&own);
            CHECK(!pthread_rwlock_wrlock(&shelf) && !pthread_rwlock_unlock(&shelf));
            CHECK(!sem_post(&semaphore) && !sem_wait(&semaphore));
        }
    }
    own = (pthread_mutex_t)PTHREAD_MUTEX_INITIALIZER;
    for (int i = 0; i < 3; i++) use(&own);
    printf("done\n");
}

/* The same process, with another program. */
static void executes_another(void) {
    struct sigaction found;
    CHECK(sigaction(SIGUSR2, NULL, &found) == 0);
    if (found.sa_handler == SIG_DFL) handle(SIGUSR2, do_nothing, SA_RESTART);
    ask_to_write();
    use(&mutex);
    ask_to_write();
    execl("/proc/self/exe", "answers", "uses_a_mutex_elsewhere", NULL);
}

static void uses_a_mutex_elsewhere(void) {
    CHECK(chdir("/") == 0);
    pthread_mutex_lock(&mutex); /* the first call */
    pthread_mutex_unlock(&mutex);
    _Exit(8);
}

/* A function whose name others can ask for: the program shows its names (-rdynamic). */
__attribute__((noinline)) void From_A_to_z_09(void) {
    CHECK(!pthread_mutex_lock(&mutex) && !pthread_mutex_unlock(&mutex));
}

static void calls_by_a_name(void) {
    From_A_to_z_09();
    fprintf(stderr, "%p\n", (void *)&mutex);
    printf("done\n");
}

/* A call that gets the object at once, and how that is given back. */
#define GETS(back, call, ...) CHECK(call(__VA_ARGS__) == 0 && back == 0)

static void use_in_each_way(pthread_mutex_t *own, pthread_cond_t *variable, pthread_rwlock_t *shelf) {
    static const struct timespec past = {1, 0};
    const clockid_t clock = CLOCK_MONOTONIC;
    int value;
    GETS(pthread_mutex_unlock(own), pthread_mutex_trylock, own);
    GETS(pthread_mutex_unlock(own), pthread_mutex_timedlock, own, &past);
    GETS(pthread_mutex_unlock(own), pthread_mutex_clocklock, own, clock, &past);
    GETS(pthread_rwlock_unlock(shelf), pthread_rwlock_rdlock, shelf);
    GETS(pthread_rwlock_unlock(shelf), pthread_rwlock_tryrdlock, shelf);
    GETS(pthread_rwlock_unlock(shelf), pthread_rwlock_timedrdlock, shelf, &past);
    GETS(pthread_rwlock_unlock(shelf), pthread_rwlock_clockrdlock, shelf, clock, &past);
    GETS(pthread_rwlock_unlock(shelf), pthread_rwlock_wrlock, shelf);
    GETS(pthread_rwlock_unlock(shelf), pthread_rwlock_trywrlock, shelf);
    GETS(pthread_rwlock_unlock(shelf), pthread_rwlock_timedwrlock, shelf, &past);
    GETS(pthread_rwlock_unlock(shelf), pthread_rwlock_clockwrlock, shelf, clock, &past);
    GETS(sem_post(&semaphore), sem_wait, &semaphore);
    GETS(sem_post(&semaphore), sem_trywait, &semaphore);
    GETS(sem_post(&semaphore), sem_timedwait, &semaphore, &past);
    GETS(sem_post(&semaphore), sem_clockwait, &semaphore, clock, &past);
    CHECK(sem_getvalue(&semaphore, &value) == 0 && value == 1);
    CHECK(!pthread_mutex_lock(own) && pthread_cond_clockwait(variable, own, clock, &past) == ETIMEDOUT);
    CHECK(!pthread_mutex_unlock(own) && !pthread_cond_signal(variable) && !pthread_cond_broadcast(variable));
}

static void use_shared(void) {
    pthread_mutexattr_t of_mutex;
    pthread_condattr_t of_condition;
    pthread_rwlockattr_t of_lock;
    pthread_mutex_t own;
    pthread_cond_t variable;
    pthread_rwlock_t shelf;
    CHECK(!pthread_mutexattr_init(&of_mutex) && !pthread_mutexattr_setpshared(&of_mutex, PTHREAD_PROCESS_SHARED));
    CHECK(!pthread_condattr_init(&of_condition));
    CHECK(!pthread_condattr_setpshared(&of_condition, PTHREAD_PROCESS_SHARED));
    CHECK(!pthread_rwlockattr_init(&of_lock) && !pthread_rwlockattr_setpshared(&of_lock, PTHREAD_PROCESS_SHARED));
    CHECK(!pthread_mutex_init(&own, &of_mutex) && !pthread_cond_init(&variable, &of_condition));
    CHECK(!pthread_rwlock_init(&shelf, &of_lock) && !sem_init(&semaphore, 1, 1));
    sleep_in_vain(&variable, &own);
    use_in_each_way(&own, &variable, &shelf);
    CHECK(!pthread_cond_destroy(&variable) && !pthread_mutex_destroy(&own) && !pthread_rwlock_destroy(&shelf));
    CHECK(sem_destroy(&semaphore) == 0);
}

static void use_protocol(int protocol) {
    pthread_mutexattr_t attributes;
    pthread_mutex_t own;
    CHECK(!pthread_mutexattr_init(&attributes) && !pthread_mutexattr_setprotocol(&attributes, protocol));
    CHECK(pthread_mutex_init(&own, &attributes) == 0 && pthread_mutex_destroy(&own) == 0);
}

/* What glibc keeps: four objects of processes, two mutexes of protocols, a spinlock. */
static void objects_of_other_kinds(void) {
    pthread_spinlock_t spin;
    use_shared();
    use_protocol(PTHREAD_PRIO_INHERIT);
    use_protocol(PTHREAD_PRIO_PROTECT);
    CHECK(!pthread_spin_init(&spin, PTHREAD_PROCESS_PRIVATE) && !pthread_spin_lock(&spin));
    CHECK(!pthread_spin_unlock(&spin) && !pthread_spin_destroy(&spin));
    use(&mutex);
    printf("done\n");
}

static long resident(void) {
    long pages = 0, all = 0;
    FILE *file = fopen("/proc/self/statm", "r");
    CHECK(file && fscanf(file, "%ld %ld", &all, &pages) == 2 && fclose(file) == 0);
    return pages * sysconf(_SC_PAGESIZE) / 1024;
}

static void tell_growth(long before) {
    long more = resident() - before;
    if (more < 2000) printf("no more memory\n");
    else printf("%ld kB more\n", more);
}

static void use_and_destroy(int objects, int times) {
    for (int i = 0; i < objects; i++) {
        pthread_mutex_t own;
        CHECK(pthread_mutex_init(&own, NULL) == 0);
        for (int k = 0; k < times; k++) use(&own);
        CHECK(pthread_mutex_destroy(&own) == 0);
    }
}

/* Mutexes whose history was full, however much is kept of each, and condition variables leave nothing when they are
   destroyed. */
static void full_histories_leave_no_memory(void) {
    use_and_destroy(17, 3700);
    long before = resident();
    use_and_destroy(30, 3700);
    use_and_destroy(3000, 100);
    for (int i = 0; i < 40000; i++) {
        pthread_cond_t own;
        CHECK(pthread_cond_init(&own, NULL) == 0 && pthread_cond_destroy(&own) == 0);
    }
    tell_growth(before);
}

static void *try_often(void *nothing) {
    static const struct timespec past = {1, 0};
    for (int i = 0; i < 200000; i++) CHECK(pthread_mutex_trylock(&mutex) == EBUSY);
    for (int i = 0; i < 200000; i++) CHECK(pthread_mutex_timedlock(&second, &past) == ETIMEDOUT);
    for (int i = 0; i < 200000; i++) CHECK(pthread_rwlock_trywrlock(&lock) == EBUSY);
    return nothing;
}

/* A thread finds locks held, again and again, and their owner does nothing meanwhile. */
static void many_tries_take_no_memory(void) {
    CHECK(!pthread_mutex_lock(&mutex) && !pthread_mutex_lock(&second) && !pthread_rwlock_rdlock(&lock));
    long before = resident();
    join(started(try_often, NULL));
    tell_growth(before);
    CHECK(!pthread_mutex_unlock(&mutex) && !pthread_mutex_unlock(&second) && !pthread_rwlock_unlock(&lock));
}

static void *find_all_held(void *nothing) {
    static const struct timespec past = {1, 0};
    for (int i = 0; i < 40; i++) {
        CHECK(pthread_mutex_trylock(&mutex) == EBUSY && pthread_mutex_timedlock(&mutex, &past) == ETIMEDOUT);
        CHECK(pthread_rwlock_tryrdlock(&lock) == EBUSY && pthread_rwlock_timedrdlock(&lock, &past) == ETIMEDOUT);
        CHECK(pthread_rwlock_trywrlock(&lock) == EBUSY && pthread_rwlock_timedwrlock(&lock, &past) == ETIMEDOUT);
        CHECK(sem_trywait(&semaphore) && sem_timedwait(&semaphore, &past));
    }
    return nothing;
}

/* Threads come, one after another, and find all held. They do it so often that each history is full under each of them,
   if few entries are kept. None of them keeps a seat. */
static void tries_fill_a_history(void) {
    CHECK(sem_init(&semaphore, 0, 0) == 0 && pthread_mutex_lock(&mutex) == 0 && pthread_rwlock_wrlock(&lock) == 0);
    for (int i = 0; i < 20; i++) join(started(find_all_held, NULL));
    CHECK(pthread_rwlock_unlock(&lock) == 0 && pthread_mutex_unlock(&mutex) == 0);
    printf("to read: %s\n", name_of(pthread_rwlock_tryrdlock(&lock)));
}

/* What has changed is written after few entries, and at the end, after many of one mutex and few of another. */
static void writes_a_little_and_much(void) {
    survive_sigusr2();
    use(&second);
    ask_to_write();
    for (int i = 0; i < 3000; i++) use(&second);
    int next = dup(2);
    CHECK(raise(SIGUSR2) == 0);
    use(&third); /* it writes, and keeps no file open */
    CHECK(dup(2) == next + 1);
    printf("done\n");
}

static void *lock_recursive(void *nothing) {
    come++;
    CHECK(pthread_mutex_lock(&recursive) == 0);
    gone++;
    CHECK(pthread_mutex_unlock(&recursive) == 0);
    return nothing;
}

/* Each try of the owner looks whether the history is full. */
static void use_by_tries(pthread_mutex_t *own) {
    for (int i = 0; i < 5000; i++) CHECK(pthread_mutex_trylock(own) == 0 && pthread_mutex_unlock(own) == 0);
}

/* A thread waits while the owner makes more entries than are kept: they are folded. Then more threads come than the
   mutex has seats. */
static void a_folded_history_gets_more_seats(void) {
    for (int count = 1; count <= 8; count += 7) {
        pthread_t threads[8];
        come = 0;
        CHECK(pthread_mutex_lock(&recursive) == 0);
        for (int i = 0; i < count; i++) threads[i] = started(lock_recursive, NULL);
        wait_for(&come, count);
        if (count == 1) use_by_tries(&recursive);
        CHECK(pthread_mutex_unlock(&recursive) == 0);
        for (int i = 0; i < count; i++) join(threads[i]);
    }
    printf("%d have gone\n", gone);
}

/* A mutex gets more seats, for a second condition. Its entries are folded beside a thread that isn't back yet from the
   first. Then those of two cores are dropped, or none. */
static void fold_and_drop(pthread_mutex_t *own, int more) {
    static pthread_cond_t other = PTHREAD_COND_INITIALIZER;
    struct timespec moment = soon();
    for (int i = 0; i < 10; i++) use(own);
    come = 0;
    pthread_t thread = started(sleep_once, own);
    wait_for(&come, 1);
    CHECK(pthread_mutex_lock(own) == 0);
    CHECK(pthread_cond_timedwait(&other, own, &moment) == ETIMEDOUT && pthread_cond_signal(&condition) == 0);
    use_by_tries(own);
    CHECK(pthread_mutex_unlock(own) == 0);
    join(thread);
    for (int i = 0; i < more; i++) use(own);
}

static void each_folded_entry_is_counted(void) {
    fold_and_drop(&recursive, 10000);
    fold_and_drop(&again, 0);
}

#define CASE(name) {#name, name}
static const struct {
    const char *name;
    void (*run)(void);
} cases[] = {
    CASE(mutexes_of_each_type),
    CASE(arguments_that_are_none),
    CASE(locks_that_prefer_somebody),
    CASE(calls_beside_a_reader),
    CASE(many_holds_of_one_thread),
    CASE(many_holds_beside_one_that_waits),
    CASE(another_thread_unlocks),
    CASE(more_come_than_there_are_seats),
    CASE(threads_that_were_cancelled_before),
    CASE(cancelled_threads_wait_again),
    CASE(signals_reach_those_who_wait),
    CASE(signals_beside_the_owner),
    CASE(signals_from_before_a_wait),
    CASE(waits_that_end_beside_the_owner),
    CASE(holds_after_a_wait),
    CASE(a_handler_waits_too),
    CASE(a_handler_posts_to_three),
    CASE(a_handler_posts_to_many),
    CASE(a_program_rests),
    CASE(reads_beside_sigusr2),
    CASE(threads_that_end),
    CASE(a_child_finds_what_others_hold),
    CASE(a_child_wakes_its_own_thread),
    CASE(a_child_does_what_was_written),
    CASE(a_thread_calls_before_the_main_thread),
    CASE(threads_share_numbers),
    CASE(mutexes_that_are_gone),
    CASE(destroyed_after_they_were_written),
    CASE(semaphores_that_are_gone),
    CASE(one_thread_locks_often),
    CASE(used_while_it_is_written),
    CASE(conditions_change_their_mutex),
    CASE(a_condition_outlives_its_mutexes),
    CASE(objects_have_no_end),
    CASE(executes_another),
    CASE(uses_a_mutex_elsewhere),
    CASE(calls_by_a_name),
    CASE(objects_of_other_kinds),
    CASE(full_histories_leave_no_memory),
    CASE(tries_fill_a_history),
    CASE(many_tries_take_no_memory),
    CASE(writes_a_little_and_much),
    CASE(a_folded_history_gets_more_seats),
    CASE(each_folded_entry_is_counted),
};

int main(int argc, char **argv) {
    alarm(20);
    for (size_t i = 0; i < sizeof cases / sizeof *cases; i++) {
        if (argc == 1) printf("%s\n", cases[i].name);
        else if (strcmp(argv[1], cases[i].name) == 0) cases[i].run();
    }
    return 0;
}
