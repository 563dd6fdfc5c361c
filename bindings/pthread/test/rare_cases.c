/* What programs rarely do: rare_cases CASE. Each case uses a mutex, prints the same with and without the recorder,
   and ends with the same status. A case that hangs is ended by the alarm. Without a word the cases are listed. */
#define _GNU_SOURCE
#include "check.h"

#include <errno.h>
#include <fcntl.h>
#include <pthread.h>
#include <sched.h>
#include <semaphore.h>
#include <signal.h>
#include <stdatomic.h>
#include <stdbool.h>
#include <stdio.h>
#include <stdlib.h>
#include <string.h>
#include <sys/resource.h>
#include <sys/syscall.h>
#include <sys/wait.h>
#include <threads.h>
#include <time.h>
#include <ucontext.h>
#include <unistd.h>

static pthread_mutex_t mutex = PTHREAD_MUTEX_INITIALIZER;
static pthread_cond_t condition = PTHREAD_COND_INITIALIZER;
static atomic_int is_done;

static pthread_t started(void *(*run)(void *), void *with) {
    pthread_t thread;
    CHECK(pthread_create(&thread, NULL, run, with) == 0);
    return thread;
}

static void join(pthread_t thread) { CHECK(pthread_join(thread, NULL) == 0); }

static void use_mutex(void) { CHECK(!pthread_mutex_lock(&mutex) && !pthread_mutex_unlock(&mutex)); }

static void handle(int signal, void (*handler)(int)) {
    struct sigaction action = {.sa_handler = handler, .sa_flags = SA_RESTART};
    CHECK(sigaction(signal, &action, NULL) == 0);
}

static bool is_past(const struct timespec *moment) {
    struct timespec now;
    CHECK(clock_gettime(CLOCK_REALTIME, &now) == 0);
    return now.tv_sec == moment->tv_sec ? now.tv_nsec > moment->tv_nsec : now.tv_sec > moment->tv_sec;
}

enum { CROWD = 12 };
static atomic_int crowd;

static void *lock_in_time(void *nothing) {
    struct timespec late = after(CLOCK_REALTIME, 5000);
    crowd++;
    int error = pthread_mutex_timedlock(&mutex, &late);
    if (error) printf("one of many: %s\n", strerrorname_np(error));
    else CHECK(pthread_mutex_unlock(&mutex) == 0);
    return nothing;
}

/* More threads ask for the mutex at a time than ever did. */
static void many_ask_for_the_mutex(void) {
    pthread_t threads[CROWD];
    CHECK(pthread_mutex_lock(&mutex) == 0);
    for (int i = 0; i < CROWD; i++) threads[i] = started(lock_in_time, NULL);
    while (crowd < CROWD) usleep(1000);
    usleep(20000);
    CHECK(pthread_mutex_unlock(&mutex) == 0);
    for (int i = 0; i < CROWD; i++) join(threads[i]);
}

/* Ends --------------------------------------------------------------------------------------------------- */

/* Neither a lock nor the end of the program is a cancellation point. */
static void exits_while_cancelled(void) {
    CHECK(pthread_cancel(pthread_self()) == 0);
    use_mutex();
    exit(3);
}

static void *end_late(void *nothing) {
    usleep(100000);
    use_mutex();
    return nothing;
}

/* The process ends, with status 0, when its last thread has ended. */
static void main_thread_is_cancelled(void) {
    for (int i = 0; i < 2; i++) started(end_late, NULL);
    usleep(20000);
    pthread_cancel(pthread_self());
    pause();
}

/* Standard error is a file of the program now: nobody else writes there. */
static void standard_error_is_another_file(void) {
    char name[] = "/tmp/rare-case-XXXXXX";
    int file = mkstemp(name);
    CHECK(file >= 0 && unlink(name) == 0 && dup2(file, 2) == 2);
    fflush(stdout);
    pid_t child = fork();
    if (child == 0) {
        pthread_spinlock_t spin; /* what is left to glibc is told */
        CHECK(pthread_spin_init(&spin, PTHREAD_PROCESS_PRIVATE) == 0);
        use_mutex();
        exit(0);
    }
    CHECK(child > 0 && waitpid(child, NULL, 0) == child);
    printf("%ld bytes\n", (long)lseek(file, 0, SEEK_END));
}

/* Signal handlers ---------------------------------------------------------------------------------------- */

enum { POSTS = 40 };
static sem_t posted;
static atomic_int failed_posts;

static void post_often(int signal) {
    (void)signal;
    for (int i = 0; i < POSTS; i++) failed_posts += sem_post(&posted) != 0;
}

static void *use_until_done(void *nothing) {
    while (!is_done) use_mutex();
    return nothing;
}

/* A handler posts many times. It may interrupt a lock. */
static void handler_posts_often(void) {
    int value;
    CHECK(sem_init(&posted, 0, 0) == 0);
    handle(SIGUSR1, post_often);
    pthread_t thread = started(use_until_done, NULL);
    for (int i = 0; i < 100; i++) {
        CHECK(pthread_kill(thread, SIGUSR1) == 0);
        for (int k = 0; k < POSTS; k++) {
            struct timespec late = after(CLOCK_REALTIME, 5000);
            CHECK(sem_timedwait(&posted, &late) == 0);
        }
    }
    is_done = 1;
    join(thread);
    CHECK(sem_getvalue(&posted, &value) == 0);
    printf("left %d, failed %d\n", value, failed_posts);
}

static atomic_int forks;

static void fork_here(int signal) {
    int kept = errno, status;
    (void)signal;
    pid_t child = fork();
    if (child == 0) _exit(4);
    forks += child > 0 && waitpid(child, &status, 0) == child && WEXITSTATUS(status) == 4;
    errno = kept;
}

static void *make_until_done(void *nothing) {
    while (!is_done) {
        pthread_mutex_t own;
        CHECK(!pthread_mutex_init(&own, NULL) && !pthread_mutex_lock(&own));
        CHECK(!pthread_mutex_unlock(&own) && !pthread_mutex_destroy(&own));
    }
    return nothing;
}

/* Handlers fork, which may have interrupted a lock. */
static void handlers_fork(void) {
    enum { TIMES = 60 };
    handle(SIGUSR1, fork_here);
    pthread_t threads[2] = {started(make_until_done, NULL), started(make_until_done, NULL)};
    for (int i = 0; i < TIMES; i++) {
        CHECK(pthread_kill(threads[i % 2], SIGUSR1) == 0);
        while (forks <= i) usleep(500);
    }
    is_done = 1;
    for (int i = 0; i < 2; i++) join(threads[i]);
    printf("%d forks\n", forks);
}

static void do_nothing(int signal) { (void)signal; }

/* The recorder handles SIGUSR2 if the program doesn't. */
static void survive_sigusr2(void) {
    struct sigaction found;
    CHECK(sigaction(SIGUSR2, NULL, &found) == 0);
    if (found.sa_handler == SIG_DFL) handle(SIGUSR2, do_nothing);
}

/* A timer that sends a signal each tenth of a millisecond. */
static timer_t send_often(int signal) {
    struct sigevent event = {.sigev_notify = SIGEV_SIGNAL, .sigev_signo = signal};
    struct itimerspec often = {{0, 100000}, {0, 100000}};
    timer_t timer;
    CHECK(timer_create(CLOCK_MONOTONIC, &event, &timer) == 0 && timer_settime(timer, 0, &often, NULL) == 0);
    return timer;
}

/* A process with one thread is asked to write all the time. */
static void is_asked_to_write_often(void) {
    survive_sigusr2();
    timer_t timer = send_often(SIGUSR2);
    errno = 0;
    for (clock_t until = clock() + CLOCKS_PER_SEC / 10; clock() < until;) use_mutex();
    CHECK(errno == 0 && timer_delete(timer) == 0);
    printf("done\n");
}

/* A thread that may not be cancelled writes what is recorded, and may not be cancelled afterwards. */
static void writes_where_it_may_not_be_cancelled(void) {
    int state;
    survive_sigusr2();
    CHECK(pthread_setcancelstate(PTHREAD_CANCEL_DISABLE, &state) == 0 && raise(SIGUSR2) == 0);
    use_mutex(); /* it writes */
    CHECK(pthread_setcancelstate(PTHREAD_CANCEL_ENABLE, &state) == 0);
    printf("it %s be cancelled\n", state == PTHREAD_CANCEL_DISABLE ? "may not" : "may");
}

static atomic_bool writes_parts;

/* Stands in the place of the C library's, for the recorder too: a write may take a part, or end by a handler. */
ssize_t write(int file, const void *at, size_t size) {
    static atomic_uint calls;
    bool in_parts = writes_parts;
    if (in_parts && ++calls % 2) return errno = EINTR, -1;
    return syscall(SYS_write, file, at, in_parts && size > 50 ? 50 : size);
}

static atomic_int times_written;
static void (*as_it_ends)(void);

/* The same. The file of times is written last: something comes before that, once. */
int rename(const char *from, const char *to) {
    const char *name = strrchr(to, '/');
    if (as_it_ends && name && strcmp(name, "/times") == 0 && ++times_written == 1) as_it_ends();
    return renameat(AT_FDCWD, from, AT_FDCWD, to);
}

static atomic_bool has_asked;
static void wait_until_asked(void) {
    while (!has_asked) usleep(1000);
}

/* A process that is asked to write as it writes does so once more. */
static void is_asked_as_it_writes(void) {
    struct timespec late = after(CLOCK_REALTIME, 10000);
    survive_sigusr2();
    join(started(lock_in_time, NULL));
    as_it_ends = wait_until_asked;
    CHECK(raise(SIGUSR2) == 0);
    while (getenv("AQS_RECORD") && times_written < 1) usleep(1000);
    CHECK(raise(SIGUSR2) == 0);
    has_asked = true;
    while (getenv("AQS_RECORD") && times_written < 2 && !is_past(&late)) usleep(1000);
    printf("%s\n", times_written == 1 ? "written once" : "done");
}

static void limit_memory(rlim_t most) {
    struct rlimit limit;
    CHECK(getrlimit(RLIMIT_AS, &limit) == 0);
    limit.rlim_cur = most < limit.rlim_max ? most : limit.rlim_max;
    CHECK(setrlimit(RLIMIT_AS, &limit) == 0);
}

/* No thread can be made, nor a helper. So the next call writes. */
static void no_thread_can_be_made(void) {
    pthread_t none;
    survive_sigusr2();
    use_mutex();
    limit_memory(1);
    int error = pthread_create(&none, NULL, lock_in_time, NULL);
    limit_memory(RLIM_INFINITY);
    as_it_ends = wait_until_asked, has_asked = true;
    CHECK(raise(SIGUSR2) == 0);
    use_mutex(); /* it writes */
    printf("%s, %s\n", strerrorname_np(error), getenv("AQS_RECORD") && !times_written ? "not written" : "written");
}

static __attribute__((noinline)) void make_mutexes(int count) {
    pthread_mutex_t own;
    while (count-- > 0) {
        CHECK(!pthread_mutex_init(&own, NULL) && !pthread_mutex_lock(&own));
        CHECK(!pthread_mutex_unlock(&own) && !pthread_mutex_destroy(&own));
    }
}

static void make_three_mutexes(void) { make_mutexes(3); }

/* Mutexes go as files are written which don't count them yet, and nothing else changes: they are counted at the end. */
static void mutexes_go_as_it_writes(void) {
    sem_t semaphore;
    int value;
    CHECK(sem_init(&semaphore, 0, 0) == 0);
    survive_sigusr2();
    make_mutexes(17);
    as_it_ends = make_three_mutexes;
    CHECK(raise(SIGUSR2) == 0);
    CHECK(sem_getvalue(&semaphore, &value) == 0); /* it writes */
    printf("done\n");
}

/* What is recorded is whole, even if no write takes all that it is given. */
static void files_are_written_in_parts(void) {
    writes_parts = true;
    for (int i = 0; i < 20; i++) use_mutex();
    printf("done\n");
}

static atomic_int handled;

static void post_once(int signal) {
    (void)signal;
    handled++;
    failed_posts += sem_post(&posted) != 0;
}

/* A handler posts while a call writes files. When that call has returned, the posts are made. */
static void handler_posts_while_files_are_written(void) {
    sigset_t only;
    int value, late = 0;
    CHECK(sem_init(&posted, 0, 0) == 0 && sigemptyset(&only) == 0 && sigaddset(&only, SIGUSR1) == 0);
    survive_sigusr2();
    handle(SIGUSR1, post_once);
    timer_t timer = send_often(SIGUSR1);
    for (int i = 0; i < 40; i++) {
        CHECK(raise(SIGUSR2) == 0);
        use_mutex(); /* it writes */
        CHECK(pthread_sigmask(SIG_BLOCK, &only, NULL) == 0 && sem_getvalue(&posted, &value) == 0);
        late += value != handled;
        CHECK(pthread_sigmask(SIG_UNBLOCK, &only, NULL) == 0);
    }
    CHECK(timer_delete(timer) == 0);
    printf("late %d, failed %d\n", late, failed_posts);
}

static sem_t nothing_comes;

/* A wait, and how it ends: by the error's name, or "0". */
static void wait_so(const char *call) {
    struct timespec late = after(CLOCK_REALTIME, 30000);
    int error = 0;
    if (strcmp(call, "sem_wait") == 0) error = sem_wait(&nothing_comes) ? errno : 0;
    if (strcmp(call, "sem_timedwait") == 0) error = sem_timedwait(&nothing_comes, &late) ? errno : 0;
    if (strcmp(call, "mutex_timedlock") == 0) error = pthread_mutex_timedlock(&mutex, &late);
    printf(" %s %s;", call, strerrorname_np(error));
    if (strcmp(call, "mutex_timedlock") == 0) CHECK(pthread_mutex_unlock(&mutex) == 0);
}

static void *wait_in_thread(void *call) {
    wait_so(call);
    is_done = 1;
    return NULL;
}

static void count_it(int signal) {
    (void)signal;
    handled++;
}

/* Handlers that only count run in a thread that waits. What they don't end gets what it waits for. */
static void handle_while_it_waits(char *call, int flags) {
    struct sigaction action = {.sa_handler = count_it, .sa_flags = flags};
    CHECK(sigaction(SIGUSR1, &action, NULL) == 0 && pthread_mutex_lock(&mutex) == 0);
    is_done = handled = 0;
    pthread_t thread = started(wait_in_thread, call);
    for (int i = 1; i <= 20 && !is_done; i++) {
        usleep(10000);
        CHECK(pthread_kill(thread, SIGUSR1) == 0);
        while (handled < i && !is_done) usleep(1000);
    }
    CHECK(pthread_mutex_unlock(&mutex) == 0);
    if (!is_done) CHECK(sem_post(&nothing_comes) == 0);
    join(thread);
    while (sem_trywait(&nothing_comes) == 0) continue;
}

static void handlers_run_while_it_waits(void) {
    static char *const calls[] = {"sem_wait", "sem_timedwait", "mutex_timedlock"};
    CHECK(sem_init(&nothing_comes, 0, 0) == 0);
    for (int i = 0; i < 3; i++) handle_while_it_waits(calls[i], 0);
    printf(" and with SA_RESTART");
    for (int i = 0; i < 3; i++) handle_while_it_waits(calls[i], SA_RESTART);
    puts("");
    CHECK(sem_destroy(&nothing_comes) == 0);
}

/* What a call leaves as it was ---------------------------------------------------------------------------- */

static void tell_held_up(const char *when) {
    sigset_t held_up;
    CHECK(pthread_sigmask(SIG_SETMASK, NULL, &held_up) == 0);
    printf("%s: SIGUSR1 %d, SIGUSR2 %d\n", when, sigismember(&held_up, SIGUSR1), sigismember(&held_up, SIGUSR2));
}

static void *lock_and_tell(void *nothing) {
    tell_held_up("a new thread");
    use_mutex();
    tell_held_up("after its first call");
    return nothing;
}

/* A thread that holds a signal up makes another. Both still do, that one also after its first call. */
static void calls_keep_the_signal_mask(void) {
    sigset_t held_up;
    CHECK(sigemptyset(&held_up) == 0 && sigaddset(&held_up, SIGUSR1) == 0);
    CHECK(pthread_sigmask(SIG_SETMASK, &held_up, NULL) == 0);
    join(started(lock_and_tell, NULL));
    tell_held_up("who made it");
}

/* How a wait ended, and errno and how the thread is cancelled after it. */
static void tell(const char *call, int error) {
    int left = errno, type;
    CHECK(pthread_setcanceltype(PTHREAD_CANCEL_DEFERRED, &type) == 0);
    const char *how = type == PTHREAD_CANCEL_DEFERRED ? "deferred" : "asynchronous";
    printf("%s: %s, errno %s, cancelled %s\n", call, strerrorname_np(error), strerrorname_np(left), how);
    errno = E2BIG;
}

static void *wait_in_vain(void *lock) {
    pthread_mutex_t own = PTHREAD_MUTEX_INITIALIZER;
    struct timespec soon = after(CLOCK_REALTIME, 20);
    CHECK(pthread_mutex_lock(&own) == 0);
    errno = E2BIG;
    tell("mutex", pthread_mutex_timedlock(&mutex, &soon));
    soon = after(CLOCK_REALTIME, 20);
    tell("to read", pthread_rwlock_timedrdlock(lock, &soon));
    soon = after(CLOCK_REALTIME, 20);
    tell("to write", pthread_rwlock_timedwrlock(lock, &soon));
    soon = after(CLOCK_REALTIME, 20);
    tell("condition", pthread_cond_timedwait(&condition, &own, &soon));
    soon = after(CLOCK_REALTIME, 20);
    tell("semaphore", sem_timedwait(&nothing_comes, &soon) ? errno : 0);
    CHECK(pthread_mutex_unlock(&own) == 0);
    return NULL;
}

/* A wait for a lock or a condition leaves errno, and each wait leaves how its thread is cancelled. */
static void waits_leave_errno_and_cancellation(void) {
    pthread_rwlock_t lock = PTHREAD_RWLOCK_INITIALIZER;
    CHECK(sem_init(&nothing_comes, 0, 0) == 0);
    CHECK(pthread_mutex_lock(&mutex) == 0 && pthread_rwlock_wrlock(&lock) == 0);
    join(started(wait_in_vain, &lock));
    CHECK(pthread_rwlock_unlock(&lock) == 0 && pthread_mutex_unlock(&mutex) == 0);
}

/* More threads than an object of the core has seats come, and go with nothing. None of them keeps a seat. */
enum { MANY = 300 };

static void *find_all_held(void *lock) {
    struct timespec past = {1, 0};
    CHECK(pthread_rwlock_tryrdlock(lock) == EBUSY && pthread_rwlock_trywrlock(lock) == EBUSY);
    CHECK(pthread_rwlock_timedrdlock(lock, &past) == ETIMEDOUT);
    CHECK(pthread_rwlock_timedwrlock(lock, &past) == ETIMEDOUT);
    CHECK(pthread_mutex_trylock(&mutex) == EBUSY && pthread_mutex_timedlock(&mutex, &past) == ETIMEDOUT);
    return NULL;
}

static void *lock_all_in_time(void *lock) {
    struct timespec late = after(CLOCK_REALTIME, 5000);
    printf("to read: %s", strerrorname_np(pthread_rwlock_timedrdlock(lock, &late)));
    printf(", mutex: %s\n", strerrorname_np(pthread_mutex_timedlock(&mutex, &late)));
    CHECK(pthread_rwlock_unlock(lock) == 0 && pthread_mutex_unlock(&mutex) == 0);
    return NULL;
}

static void many_threads_find_locks_held(void) {
    pthread_rwlock_t lock = PTHREAD_RWLOCK_INITIALIZER;
    CHECK(pthread_mutex_lock(&mutex) == 0 && pthread_rwlock_wrlock(&lock) == 0);
    for (int i = 0; i < MANY; i++) join(started(find_all_held, &lock));
    CHECK(pthread_rwlock_unlock(&lock) == 0 && pthread_mutex_unlock(&mutex) == 0);
    CHECK(pthread_rwlock_rdlock(&lock) == 0);
    join(started(lock_all_in_time, &lock));
    CHECK(pthread_rwlock_unlock(&lock) == 0);
}

static void unlock_mutex(void *which) { CHECK(pthread_mutex_unlock(which) == 0); }

static void *wait_for_a_signal(void *nothing) {
    CHECK(pthread_mutex_lock(&mutex) == 0);
    pthread_cleanup_push(unlock_mutex, &mutex);
    is_done++;
    for (;;) pthread_cond_wait(&condition, &mutex);
    pthread_cleanup_pop(1);
    return nothing;
}

static void *wait_for_a_permit(void *nothing) {
    is_done++;
    sem_wait(&nothing_comes);
    return nothing;
}

static void many_waits_are_cancelled(void) {
    CHECK(sem_init(&nothing_comes, 0, 0) == 0);
    for (int i = 0; i < 2 * MANY; i++) {
        pthread_t thread = started(i % 2 ? wait_for_a_signal : wait_for_a_permit, NULL);
        while (is_done <= i) sched_yield();
        usleep(1000);
        CHECK(pthread_cancel(thread) == 0);
        join(thread);
    }
    struct timespec late = after(CLOCK_REALTIME, 5000), soon = after(CLOCK_REALTIME, 20);
    CHECK(sem_post(&nothing_comes) == 0);
    printf("permit: %s", strerrorname_np(sem_timedwait(&nothing_comes, &late) ? errno : 0));
    printf(", mutex: %s", strerrorname_np(pthread_mutex_timedlock(&mutex, &late)));
    printf(", condition: %s\n", strerrorname_np(pthread_cond_timedwait(&condition, &mutex, &soon)));
    CHECK(pthread_mutex_unlock(&mutex) == 0);
    many_ask_for_the_mutex();
}

/* Mutexes that glibc keeps ------------------------------------------------------------------------------- */

static pthread_mutex_t made(int robust, int protocol, int type) {
    pthread_mutexattr_t attributes;
    pthread_mutex_t fresh;
    CHECK(pthread_mutexattr_init(&attributes) == 0);
    CHECK(pthread_mutexattr_setrobust(&attributes, robust) == 0);
    CHECK(pthread_mutexattr_setprotocol(&attributes, protocol) == 0);
    CHECK(pthread_mutexattr_settype(&attributes, type) == 0);
    CHECK(pthread_mutex_init(&fresh, &attributes) == 0);
    return fresh;
}

static pthread_mutex_t robust;

static void *signal_and_die(void *nothing) {
    CHECK(pthread_mutex_lock(&robust) == 0 && pthread_cond_signal(&condition) == 0);
    return nothing;
}

static void *wait_with(void *given) {
    struct timespec late = after(CLOCK_REALTIME, 5000);
    CHECK(pthread_mutex_lock(given) == 0);
    is_done = 1;
    printf("%s\n", strerrorname_np(pthread_cond_timedwait(&condition, given, &late)));
    CHECK(pthread_mutex_unlock(given) == 0);
    return NULL;
}

/* A wait says that the owner of the mutex has died, and that a thread doesn't own the mutex. Then it is none: the next
   signal is for another thread. */
static void wait_returns_the_errors_of_its_mutex(void) {
    pthread_mutex_t inherits = made(PTHREAD_MUTEX_STALLED, PTHREAD_PRIO_INHERIT, PTHREAD_MUTEX_ERRORCHECK);
    struct timespec late = after(CLOCK_REALTIME, 5000), soon = after(CLOCK_REALTIME, 20);
    robust = made(PTHREAD_MUTEX_ROBUST, PTHREAD_PRIO_NONE, PTHREAD_MUTEX_NORMAL);
    CHECK(pthread_mutex_lock(&robust) == 0);
    pthread_t thread = started(signal_and_die, NULL);
    int error = pthread_cond_timedwait(&condition, &robust, &late);
    join(thread);
    printf("%s\n", strerrorname_np(error));
    CHECK(pthread_mutex_consistent(&robust) == 0 && pthread_mutex_unlock(&robust) == 0);
    printf("%s\n", strerrorname_np(pthread_cond_timedwait(&condition, &inherits, &soon)));
    thread = started(wait_with, &inherits);
    while (!is_done) usleep(1000);
    CHECK(!pthread_mutex_lock(&inherits) && !pthread_cond_signal(&condition) && !pthread_mutex_unlock(&inherits));
    join(thread);
    CHECK(pthread_mutex_lock(&inherits) == 0);
    printf("%s\n", strerrorname_np(pthread_cond_timedwait(&condition, &inherits, &soon)));
    CHECK(pthread_mutex_unlock(&inherits) == 0);
}

/* What is left to glibc is counted. */
static void has_locks_of_other_kinds(void) {
    mtx_t plain;
    CHECK(mtx_init(&plain, mtx_plain) == thrd_success && mtx_lock(&plain) == thrd_success);
    CHECK(mtx_unlock(&plain) == thrd_success);
    mtx_destroy(&plain);
    char name[40];
    snprintf(name, sizeof name, "/rare-case-%d", (int)getpid());
    sem_t *named = sem_open(name, O_CREAT | O_EXCL, 0600, 1);
    sem_t *same = sem_open(name, 0);
    CHECK(named != SEM_FAILED && same == named && sem_close(same) == 0 && sem_unlink(name) == 0);
    CHECK(sem_wait(named) == 0 && sem_post(named) == 0 && sem_close(named) == 0);
    printf("done\n");
}

/* Signals without the mutex ------------------------------------------------------------------------------ */

static int gate[2];
static atomic_int stopped;

static void stop_here(int signal) {
    char byte;
    (void)signal;
    stopped++;
    CHECK(read(gate[0], &byte, 1) == 1);
}

static void *wait_once(void *nothing) {
    struct timespec late = after(CLOCK_REALTIME, 20000);
    CHECK(pthread_mutex_lock(&mutex) == 0);
    atomic_store(&is_done, 1);
    CHECK(pthread_cond_timedwait(&condition, &mutex, &late) == 0);
    CHECK(pthread_mutex_unlock(&mutex) == 0);
    return nothing;
}

static void *signal_until_done(void *nothing) {
    while (is_done < 2) CHECK(pthread_cond_signal(&condition) == 0);
    return nothing;
}

/* A thread that waits is stopped in a handler. Meanwhile no thread has the mutex but the one that tries. */
static void trylock_beside_signals(void) {
    int busy = 0;
    CHECK(pipe(gate) == 0);
    handle(SIGUSR1, stop_here);
    pthread_t waits = started(wait_once, NULL);
    while (!is_done) usleep(1000);
    use_mutex();
    CHECK(pthread_kill(waits, SIGUSR1) == 0);
    while (!stopped) usleep(1000);
    pthread_t signals = started(signal_until_done, NULL);
    for (clock_t until = clock() + CLOCKS_PER_SEC / 4; clock() < until;) {
        if (pthread_mutex_trylock(&mutex)) busy++;
        else CHECK(pthread_mutex_unlock(&mutex) == 0);
    }
    is_done = 2;
    join(signals);
    CHECK(write(gate[1], "", 1) == 1);
    join(waits);
    printf("busy %d times\n", busy);
}

/* The owner of the mutex is stopped at an instruction of a call, at a later one in each round: the processor traps
   after each. There another thread signals without the mutex, and a third one answers. This is for x86-64, as the
   recorder is. */
enum { TRAPS = 0x100, STEP = 20 };
static pthread_cond_t answer = PTHREAD_COND_INITIALIZER;
static pthread_mutex_t *owned = &mutex;
static atomic_int asked_for, asked_before, signalled_for, answered_for, told_for;
static atomic_int *stays_until = &signalled_for;
static atomic_bool is_past_end;
static int instruction, wanted;

/* The signal may have to wait for the stopped thread. */
static void on_trap(int number, siginfo_t *info, void *context) {
    (void)number, (void)info;
    if (++instruction != wanted) return;
    ((ucontext_t *)context)->uc_mcontext.gregs[REG_EFL] &= ~(greg_t)TRAPS;
    if (is_past_end) return; /* it has been woken */
    struct timespec soon = after(CLOCK_REALTIME, 2);
    int round = ++asked_for;
    while (*stays_until < round && !is_past(&soon)) sched_yield();
}

static inline void trace(void) { __asm__ volatile("pushfq; orl $0x100, (%%rsp); popfq" ::: "cc", "memory"); }
static inline void trace_no_more(void) {
    __asm__ volatile("pushfq; andl $0xfffffeff, (%%rsp); popfq" ::: "cc", "memory");
}

/* If nobody asks for long after an answer, the owner waits and has not come to that instruction. Then it is woken. */
static void *signal_each(void *nothing) {
    for (int round = 0; !is_past_end; round = signalled_for) {
        struct timespec late = after(CLOCK_REALTIME, 600);
        bool is_late = false;
        while (asked_for == round && !is_past_end && !is_late) {
            sched_yield();
            is_late = answered_for == round && asked_before == round && is_past(&late);
        }
        if (asked_for > round) {
            CHECK(pthread_cond_signal(&condition) == 0);
            signalled_for = round + 1;
        } else if (is_late) {
            CHECK(pthread_mutex_lock(owned) == 0);
            is_past_end = true;
            CHECK(!pthread_cond_signal(&answer) && !pthread_mutex_unlock(owned));
        }
    }
    return nothing;
}

static void *answer_each(void *nothing) {
    CHECK(pthread_mutex_lock(owned) == 0);
    atomic_store(&is_done, 1);
    while (!is_past_end) {
        CHECK(pthread_cond_wait(&condition, owned) == 0);
        atomic_store(&answered_for, asked_for);
        CHECK(pthread_cond_signal(&answer) == 0);
        atomic_store(&told_for, answered_for);
    }
    CHECK(pthread_mutex_unlock(owned) == 0);
    return nothing;
}

/* Whether the answer comes, for which the owner waits on a condition, or after it has unlocked. */
static bool is_answered(bool waits) {
    struct timespec late = after(CLOCK_REALTIME, 5000);
    int error = 0;
    instruction = 0;
    asked_before = asked_for;
    trace();
    if (waits) error = pthread_cond_timedwait(&answer, owned, &late);
    else CHECK(pthread_mutex_unlock(owned) == 0);
    trace_no_more();
    while (!waits && answered_for < asked_for && !is_past_end && !is_past(&late)) sched_yield();
    CHECK(waits || pthread_mutex_lock(owned) == 0);
    while (waits && answered_for < asked_for && !is_past_end && !error)
        error = pthread_cond_timedwait(&answer, owned, &late);
    bool is_good = is_past_end || (!error && answered_for == asked_for);
    if (instruction < wanted) is_past_end = true;
    return is_good;
}

/* A signal comes as the owner begins to wait on another condition, or unlocks: it is not lost. Nor is one by the next
   owner of a mutex of glibc. */
static void a_signal_comes_as_the_owner_leaves(void) {
    struct sigaction traps = {.sa_sigaction = on_trap, .sa_flags = SA_SIGINFO};
    CHECK(sigaction(SIGTRAP, &traps, NULL) == 0);
    robust = made(PTHREAD_MUTEX_ROBUST, PTHREAD_PRIO_NONE, PTHREAD_MUTEX_NORMAL);
    for (int way = 0; way < 3; way++) {
        bool waits = way > 0;
        if (way == 2) owned = &robust, stays_until = &told_for;
        struct timespec enough = after(CLOCK_REALTIME, 10000);
        bool is_good = true;
        is_done = asked_for = signalled_for = answered_for = told_for = 0;
        is_past_end = false;
        pthread_t answers = started(answer_each, NULL), signals = started(signal_each, NULL);
        while (!is_done) usleep(1000);
        CHECK(pthread_mutex_lock(owned) == 0);
        for (wanted = 1; is_good && !is_past_end && !is_past(&enough); wanted += STEP) is_good = is_answered(waits);
        is_past_end = true;
        CHECK(!pthread_cond_signal(&condition) && !pthread_mutex_unlock(owned));
        printf("%s\n", is_good ? "answered" : "late");
        join(answers);
        join(signals);
    }
}

/* Where a thread that signals is stopped before an atomic instruction of its call, the owner unlocks. */
static atomic_int owned_for, unlocked_for;

static void on_trap_of_signal(int number, siginfo_t *info, void *context) {
    enum { LOCK_PREFIX = 0xf0 };
    greg_t *now = ((ucontext_t *)context)->uc_mcontext.gregs;
    (void)number, (void)info;
    if (*(unsigned char *)now[REG_RIP] != LOCK_PREFIX || ++instruction != wanted) return;
    now[REG_EFL] &= ~(greg_t)TRAPS;
    asked_for++;
    while (unlocked_for < asked_for) sched_yield();
}

/* It locks when the waiter sleeps again. */
static void *unlock_each(void *nothing) {
    while (!is_past_end) {
        CHECK(pthread_mutex_lock(&mutex) == 0);
        owned_for++;
        while (asked_for < owned_for && !is_past_end) sched_yield();
        CHECK(pthread_mutex_unlock(&mutex) == 0);
        unlocked_for++;
        while (answered_for < unlocked_for && !is_past_end) usleep(100);
    }
    return nothing;
}

/* A signal without the mutex, beside an owner who unlocks, is not lost. */
static void the_owner_unlocks_as_a_signal_comes(void) {
    struct sigaction traps = {.sa_sigaction = on_trap_of_signal, .sa_flags = SA_SIGINFO};
    CHECK(sigaction(SIGTRAP, &traps, NULL) == 0);
    pthread_t answers = started(answer_each, NULL);
    while (!is_done) usleep(1000);
    pthread_t unlocks = started(unlock_each, NULL);
    for (wanted = 1; !is_past_end; wanted++) {
        while (owned_for < wanted) usleep(100);
        instruction = 0;
        trace();
        CHECK(pthread_cond_signal(&condition) == 0);
        trace_no_more();
        is_past_end = instruction < wanted;
    }
    join(unlocks);
    join(answers);
    printf("all answered\n");
}

/* More threads wait than an object of the core has seats. Their owner wakes them all at once, or one by one, or a
   thread that doesn't own the mutex wakes them all. */
static int opened;

static void *wait_until_opened(void *which) {
    CHECK(pthread_mutex_lock(&mutex) == 0);
    is_done++;
    while (opened < (int)(long)which) CHECK(pthread_cond_wait(&condition, &mutex) == 0);
    CHECK(pthread_mutex_unlock(&mutex) == 0);
    return NULL;
}

static void an_owner_wakes_many(void) {
    pthread_t threads[MANY];
    for (int way = 1; way <= 3; way++) {
        is_done = 0;
        for (int i = 0; i < MANY; i++) threads[i] = started(wait_until_opened, (void *)(long)way);
        while (is_done < MANY) usleep(1000);
        CHECK(pthread_mutex_lock(&mutex) == 0);
        opened = way;
        if (way == 1) CHECK(pthread_cond_broadcast(&condition) == 0);
        for (int i = 0; way == 2 && i < MANY; i++) CHECK(pthread_cond_signal(&condition) == 0);
        CHECK(pthread_mutex_unlock(&mutex) == 0 && (way < 3 || pthread_cond_broadcast(&condition) == 0));
        for (int i = 0; i < MANY; i++) join(threads[i]);
        printf("way %d: all woken\n", way);
        fflush(stdout);
    }
}

/* Children ------------------------------------------------------------------------------------------------ */

enum { CHILDREN = 60, CALLERS = 8 };
static atomic_int callers;
static int turn;

/* All begin at the same time: the variable is new to the child. */
static void *take_turn(void *which) {
    callers++;
    while (callers < CALLERS) sched_yield();
    CHECK(pthread_mutex_lock(&mutex) == 0);
    while (turn != (int)(long)which) CHECK(pthread_cond_wait(&condition, &mutex) == 0);
    turn++;
    CHECK(pthread_cond_broadcast(&condition) == 0 && pthread_mutex_unlock(&mutex) == 0);
    return NULL;
}

static void take_turns(void) {
    pthread_t threads[CALLERS];
    for (long i = 0; i < CALLERS; i++) threads[i] = started(take_turn, (void *)i);
    for (int i = 0; i < CALLERS; i++) join(threads[i]);
    CHECK(turn == CALLERS);
    turn = callers = 0;
}

/* The threads of a child use a condition variable that its parent used before. */
static void children_wait_together(void) {
    take_turns();
    for (int i = 0; i < CHILDREN; i++) {
        int status;
        fflush(stdout);
        pid_t child = fork();
        CHECK(child >= 0);
        if (child == 0) {
            alarm(20);
            take_turns();
            _exit(5);
        }
        CHECK(waitpid(child, &status, 0) == child && WIFEXITED(status) && WEXITSTATUS(status) == 5);
    }
    printf("%d children\n", CHILDREN);
}

/* A child forks too, and its child goes on. */
static void children_fork(void) {
    int status;
    fflush(stdout);
    pid_t child = fork();
    if (child == 0) {
        alarm(20);
        use_mutex();
        pid_t grandchild = fork();
        if (grandchild == 0) {
            alarm(20);
            use_mutex();
            _exit(6);
        }
        CHECK(grandchild > 0 && waitpid(grandchild, &status, 0) == grandchild && WIFEXITED(status));
        use_mutex();
        _exit(WEXITSTATUS(status));
    }
    CHECK(child > 0 && waitpid(child, &status, 0) == child && WIFEXITED(status));
    printf("status %d\n", WEXITSTATUS(status));
}

/* A child that has the memory of its parent is ended by a signal. The parent isn't. */
static void a_child_with_our_memory_is_ended(void) {
    int status;
    use_mutex();
    pid_t child = vfork();
    if (child == 0) {
        kill(getpid(), SIGTERM);
        _exit(0);
    }
    CHECK(child > 0 && waitpid(child, &status, 0) == child);
    use_mutex();
    usleep(50000);
    printf("ended by signal %d\n", WIFSIGNALED(status) ? WTERMSIG(status) : 0);
}

/* A child that has the memory of its parent ends. The parent goes on, and what it has left to glibc is told later. */
static void a_child_with_our_memory_ends(void) {
    pthread_spinlock_t spins[2];
    int status;
    CHECK(pthread_spin_init(&spins[0], PTHREAD_PROCESS_PRIVATE) == 0);
    pid_t child = vfork();
    if (child == 0) _exit(4);
    CHECK(child > 0 && waitpid(child, &status, 0) == child && WIFEXITED(status));
    CHECK(pthread_spin_init(&spins[1], PTHREAD_PROCESS_PRIVATE) == 0);
    printf("status %d\n", WEXITSTATUS(status));
}

static pthread_mutex_t shelf[200];

static void *use_shelf(void *nothing) {
    for (int i = 0; i < 200; i++) CHECK(!pthread_mutex_lock(&shelf[i]) && !pthread_mutex_unlock(&shelf[i]));
    return nothing;
}

/* Children are made while another thread of the recorder writes what their parent did. */
static void children_are_made_meanwhile(void) {
    int status, ended = 0;
    survive_sigusr2();
    for (int i = 0; i < 5; i++) {
        join(started(use_shelf, NULL));
        CHECK(raise(SIGUSR2) == 0);
        usleep(500 + 1000 * i);
        fflush(stdout);
        pid_t child = fork();
        CHECK(child >= 0);
        if (child == 0) {
            alarm(20);
            use_mutex();
            _exit(9);
        }
        CHECK(waitpid(child, &status, 0) == child);
        ended += WIFEXITED(status) && WEXITSTATUS(status) == 9;
    }
    printf("%d of 5 have ended\n", ended);
}

/* Read-write locks --------------------------------------------------------------------------------------- */

static void *find_shared(void *lock) {
    struct timespec soon = after(CLOCK_REALTIME, 20);
    printf("another: %s", strerrorname_np(pthread_rwlock_trywrlock(lock)));
    printf(" %s\n", strerrorname_np(pthread_rwlock_timedwrlock(lock, &soon)));
    return NULL;
}

/* A reader that asks to write waits for itself. */
static void reader_asks_to_write(void) {
    pthread_rwlock_t lock = PTHREAD_RWLOCK_INITIALIZER;
    struct timespec soon = after(CLOCK_REALTIME, 20);
    CHECK(pthread_rwlock_rdlock(&lock) == 0);
    printf("reader: %s", strerrorname_np(pthread_rwlock_trywrlock(&lock)));
    printf(" %s\n", strerrorname_np(pthread_rwlock_timedwrlock(&lock, &soon)));
    join(started(find_shared, &lock));
    CHECK(pthread_rwlock_rdlock(&lock) == 0 && !pthread_rwlock_unlock(&lock) && !pthread_rwlock_unlock(&lock));
    CHECK(pthread_rwlock_trywrlock(&lock) == 0);
    printf("writer: %s", strerrorname_np(pthread_rwlock_tryrdlock(&lock)));
    printf(" %s\n", strerrorname_np(pthread_rwlock_timedrdlock(&lock, &soon)));
    CHECK(pthread_rwlock_unlock(&lock) == 0 && pthread_rwlock_destroy(&lock) == 0);
}

static void *write_once(void *lock) {
    CHECK(pthread_rwlock_wrlock(lock) == 0);
    return pthread_rwlock_unlock(lock) ? lock : NULL;
}

/* How it ends that a thread tries to read beside a reader: often, so that it finds a writer in the queue. */
static void *read_beside_a_reader(void *lock) {
    int error = 0;
    for (int i = 0; i < 20 && !error; i++) {
        struct timespec soon = after(CLOCK_REALTIME, 20);
        error = pthread_rwlock_timedrdlock(lock, &soon);
        if (!error) CHECK(usleep(10000) == 0 && pthread_rwlock_unlock(lock) == 0);
    }
    printf("%s\n", strerrorname_np(error));
    return NULL;
}

/* A reader comes before writers that wait, unless the lock prefers writers. */
static void reader_comes_while_a_writer_waits(void) {
    static const int kinds[] = {PTHREAD_RWLOCK_PREFER_READER_NP, PTHREAD_RWLOCK_PREFER_WRITER_NONRECURSIVE_NP};
    for (int i = 0; i < 2; i++) {
        pthread_rwlockattr_t attributes;
        pthread_rwlock_t lock;
        CHECK(pthread_rwlockattr_init(&attributes) == 0);
        CHECK(pthread_rwlockattr_setkind_np(&attributes, kinds[i]) == 0);
        CHECK(pthread_rwlock_init(&lock, &attributes) == 0 && pthread_rwlock_rdlock(&lock) == 0);
        pthread_t writer = started(write_once, &lock);
        join(started(read_beside_a_reader, &lock));
        CHECK(pthread_rwlock_unlock(&lock) == 0);
        join(writer);
    }
}

/* More readers than an object of the core has seats hold until all of them do. Those that have seats are stopped in a
   handler as the writer unlocks: when they go on, the others get seats too. */
enum { READERS = 6, WITH_SEATS = 3 };

static atomic_int reads;

static void *read_until_all_do(void *lock) {
    is_done++;
    CHECK(pthread_rwlock_rdlock(lock) == 0);
    for (reads++; reads < READERS;) usleep(1000);
    CHECK(pthread_rwlock_unlock(lock) == 0);
    return NULL;
}

static void more_readers_than_seats_hold_together(void) {
    pthread_rwlock_t lock = PTHREAD_RWLOCK_INITIALIZER;
    pthread_t readers[READERS];
    CHECK(pipe(gate) == 0 && pthread_rwlock_wrlock(&lock) == 0);
    handle(SIGUSR1, stop_here);
    for (int i = 0; i < READERS; i++) {
        readers[i] = started(read_until_all_do, &lock);
        if (i + 1 != WITH_SEATS && i + 1 != READERS) continue;
        while (is_done <= i) usleep(1000);
        usleep(50000);
    }
    for (int i = 0; i < WITH_SEATS; i++) CHECK(pthread_kill(readers[i], SIGUSR1) == 0);
    while (stopped < WITH_SEATS) usleep(1000);
    CHECK(pthread_rwlock_unlock(&lock) == 0);
    usleep(50000);
    CHECK(write(gate[1], "all", WITH_SEATS) == WITH_SEATS);
    for (int i = 0; i < READERS; i++) join(readers[i]);
    printf("all read\n");
}

/* A moment before 1970 is over, as any that has passed, by whichever clock. The call leaves errno, and how its thread
   is cancelled, as they were. */
static void *wait_until_1969(void *lock) {
    static const clockid_t clocks[] = {CLOCK_REALTIME, CLOCK_MONOTONIC};
    static const struct timespec long_ago = {-1, 0};
    pthread_mutex_t own = PTHREAD_MUTEX_INITIALIZER;
    CHECK(pthread_mutex_lock(&own) == 0);
    errno = E2BIG;
    tell("mutex", pthread_mutex_timedlock(&mutex, &long_ago));
    tell("to read", pthread_rwlock_timedrdlock(lock, &long_ago));
    tell("condition", pthread_cond_timedwait(&condition, &own, &long_ago));
    tell("permit", sem_timedwait(&nothing_comes, &long_ago) ? errno : 0);
    for (int i = 0; i < 2; i++) {
        tell("mutex, by a clock", pthread_mutex_clocklock(&mutex, clocks[i], &long_ago));
        tell("to read, by a clock", pthread_rwlock_clockrdlock(lock, clocks[i], &long_ago));
        tell("to write, by a clock", pthread_rwlock_clockwrlock(lock, clocks[i], &long_ago));
        tell("condition, by a clock", pthread_cond_clockwait(&condition, &own, clocks[i], &long_ago));
        tell("permit, by a clock", sem_clockwait(&nothing_comes, clocks[i], &long_ago) ? errno : 0);
    }
    CHECK(pthread_mutex_unlock(&own) == 0);
    return NULL;
}

static void waits_until_long_ago(void) {
    pthread_rwlock_t lock = PTHREAD_RWLOCK_INITIALIZER;
    CHECK(sem_init(&nothing_comes, 0, 0) == 0);
    CHECK(pthread_mutex_lock(&mutex) == 0 && pthread_rwlock_wrlock(&lock) == 0);
    join(started(wait_until_1969, &lock));
    CHECK(pthread_rwlock_unlock(&lock) == 0 && pthread_mutex_unlock(&mutex) == 0);
}

/* What is recorded --------------------------------------------------------------------------------------- */

static pthread_mutex_t second = PTHREAD_MUTEX_INITIALIZER;
static atomic_int stage;

static void wait_for_stage(int number) {
    while (stage != number) usleep(1000);
}

/* Locks both in its stage. It lives until the last stage. */
static void *lock_both(void *mine) {
    wait_for_stage((int)(long)mine);
    use_mutex();
    CHECK(!pthread_mutex_lock(&second) && !pthread_mutex_unlock(&second));
    stage++;
    wait_for_stage(2);
    return NULL;
}

static void threads_come_one_after_another(void) {
    pthread_t threads[2];
    for (long i = 0; i < 2; i++) threads[i] = started(lock_both, (void *)i);
    for (int i = 0; i < 2; i++) join(threads[i]);
    printf("%d threads\n", stage);
}

/* A thread of number 4 reads, whose seat is that of the main thread, which then reads by another, and by its own at
   another lock. It gives back what it has. */
static pthread_rwlock_t crowded = PTHREAD_RWLOCK_INITIALIZER, calm = PTHREAD_RWLOCK_INITIALIZER;

static void *read_first(void *mine) {
    wait_for_stage((int)(long)mine);
    use_mutex(); /* now it has a number */
    if (mine == (void *)4) CHECK(pthread_rwlock_rdlock(&crowded) == 0);
    stage++;
    wait_for_stage(6);
    if (mine == (void *)4) CHECK(pthread_rwlock_unlock(&crowded) == 0);
    return NULL;
}

static void a_reader_has_another_seat(void) {
    pthread_t threads[4];
    CHECK(!pthread_rwlock_rdlock(&crowded) && !pthread_rwlock_unlock(&crowded));
    stage = 1;
    for (long i = 0; i < 4; i++) threads[i] = started(read_first, (void *)(i + 1));
    wait_for_stage(5);
    CHECK(!pthread_rwlock_rdlock(&crowded) && !pthread_rwlock_rdlock(&calm));
    CHECK(!pthread_rwlock_unlock(&crowded) && !pthread_rwlock_unlock(&calm));
    stage = 6;
    for (int i = 0; i < 4; i++) join(threads[i]);
    printf("%d threads\n", stage);
}

/* Threads of the numbers 0, 5, 1 and 2 have all seats of a lock. For the next one it gets more of them. */
static void *read_in_turn(void *mine) {
    int number = (int)(long)mine;
    wait_for_stage(number);
    use_mutex(); /* now it has a number */
    stage++;
    wait_for_stage(6 + number % 5);
    CHECK(pthread_rwlock_rdlock(&crowded) == 0);
    stage++;
    wait_for_stage(number == 5 ? 11 : 12);
    CHECK(pthread_rwlock_unlock(&crowded) == 0);
    if (number == 5) stage++;
    return NULL;
}

static void a_lock_grows_while_it_is_read(void) {
    pthread_t threads[5];
    CHECK(pthread_rwlock_rdlock(&crowded) == 0);
    stage = 1;
    for (long i = 0; i < 5; i++) threads[i] = started(read_in_turn, (void *)(i + 1));
    wait_for_stage(12);
    for (int i = 0; i < 5; i++) join(threads[i]);
    CHECK(pthread_rwlock_unlock(&crowded) == 0);
    printf("%d threads\n", stage);
}

static long resident(void) {
    long pages = 0, all = 0;
    FILE *file = fopen("/proc/self/statm", "r");
    CHECK(file && fscanf(file, "%ld %ld", &all, &pages) == 2 && fclose(file) == 0);
    return pages * sysconf(_SC_PAGESIZE) / 1024;
}

static void wait_with_a_new_mutex(void) {
    struct timespec past = {1, 0};
    pthread_mutex_t own;
    CHECK(!pthread_mutex_init(&own, NULL) && !pthread_mutex_lock(&own));
    CHECK(pthread_cond_timedwait(&condition, &own, &past) == ETIMEDOUT);
    CHECK(pthread_mutex_timedlock(&own, &past) == ETIMEDOUT);
    CHECK(!pthread_mutex_unlock(&own) && !pthread_mutex_destroy(&own));
}

/* What a mutex and its conditions took is free again when it is destroyed. */
static void destroyed_mutexes_leave_no_memory(void) {
    for (int i = 0; i < 1000; i++) wait_with_a_new_mutex();
    long before = resident();
    for (int i = 0; i < 20000; i++) wait_with_a_new_mutex();
    long more = resident() - before;
    if (more < 1000) printf("no more memory\n");
    else printf("%ld kB more\n", more);
}

static int allowed, woken;

static void *wait_until_allowed(void *nothing) {
    CHECK(pthread_mutex_lock(&mutex) == 0);
    is_done++;
    while (!allowed) CHECK(pthread_cond_wait(&condition, &mutex) == 0);
    allowed--, woken++;
    CHECK(pthread_mutex_unlock(&mutex) == 0);
    return nothing;
}

static void wait_for_woken(int number) {
    for (int is_so = 0; !is_so;) {
        CHECK(pthread_mutex_lock(&mutex) == 0);
        is_so = woken == number;
        CHECK(pthread_mutex_unlock(&mutex) == 0);
        if (!is_so) usleep(1000);
    }
}

enum { VARIABLES = 20000 };
static pthread_cond_t variables[VARIABLES];
static atomic_int initialised;

/* Lets memory be had again when the main thread gets no further, or waits. Then it signals. */
static void *give_memory(void *last) {
    for (int before = 1; before == 1 || before != initialised;) before = initialised, usleep(50000);
    limit_memory(RLIM_INFINITY);
    CHECK(pthread_mutex_lock(&mutex) == 0);
    allowed = 1;
    CHECK(pthread_cond_signal(last) == 0 && pthread_mutex_unlock(&mutex) == 0);
    return NULL;
}

/* Memory lacks as condition variables are first used. Who waits on one lets its mutex go. */
static void memory_lacks_for_conditions(void) {
    pthread_cond_t *last = &variables[VARIABLES - 1];
    struct timespec late = after(CLOCK_REALTIME, 10000);
    int error = 0;
    CHECK(pthread_mutex_lock(&mutex) == 0);
    CHECK(pthread_cond_init(&variables[initialised++], NULL) == 0);
    pthread_t gives = started(give_memory, last);
    limit_memory(1);
    for (; initialised < VARIABLES; initialised++) CHECK(pthread_cond_init(&variables[initialised], NULL) == 0);
    while (!allowed && !error) error = pthread_cond_timedwait(last, &mutex, &late);
    CHECK(pthread_mutex_unlock(&mutex) == 0);
    printf("%s\n", error ? strerrorname_np(error) : "woken");
    join(gives);
}

static void allow_one(void) {
    CHECK(pthread_mutex_lock(&mutex) == 0);
    int before = woken;
    allowed = 1;
    CHECK(!pthread_cond_signal(&condition) && !pthread_mutex_unlock(&mutex));
    wait_for_woken(before + 1);
}

static void *wait_twice(void *nothing) {
    wait_until_allowed(nothing);
    while (is_done < 2) usleep(1000); /* another waits by then */
    return wait_until_allowed(nothing);
}

/* The owner wakes one of five threads, which waits again after the second. It wakes that one when the mutex has more
   seats, and then the others. Nothing of that is left. */
static void two_signals_and_a_broadcast(void) {
    enum { THREADS = 5 };
    pthread_t threads[THREADS];
    for (int i = 0; i < THREADS; i++) {
        threads[i] = started(i ? wait_until_allowed : wait_twice, NULL);
        while (is_done <= i + (i > 0)) usleep(1000);
        use_mutex(); /* it sleeps now */
        if (i == 0) allow_one();
    }
    allow_one();
    CHECK(pthread_mutex_lock(&mutex) == 0);
    allowed = THREADS - 1;
    CHECK(!pthread_cond_broadcast(&condition) && !pthread_mutex_unlock(&mutex));
    for (int i = 0; i < THREADS; i++) join(threads[i]);
    printf("%d woken\n", woken);
    many_ask_for_the_mutex();
}

/* A child wakes a thread of its own, and not the one of its parent that waited when it was made. */
static void child_wakes_its_own_thread(void) {
    int status;
    pthread_t waits = started(wait_until_allowed, NULL);
    while (is_done < 1) usleep(1000);
    use_mutex(); /* it waits now */
    fflush(stdout);
    pid_t child = fork();
    CHECK(child >= 0);
    if (child == 0) {
        alarm(20);
        pthread_t own = started(wait_until_allowed, NULL);
        while (is_done < 2) usleep(1000);
        CHECK(pthread_mutex_lock(&mutex) == 0);
        allowed = 1;
        CHECK(!pthread_cond_signal(&condition) && !pthread_mutex_unlock(&mutex));
        join(own);
        _exit(7);
    }
    CHECK(waitpid(child, &status, 0) == child);
    printf("the child: %s %d\n", WIFEXITED(status) ? "status" : "signal", status);
    CHECK(pthread_mutex_lock(&mutex) == 0);
    allowed = 1;
    CHECK(!pthread_cond_signal(&condition) && !pthread_mutex_unlock(&mutex));
    join(waits);
    printf("%d woken\n", woken);
}

/* A child is made by the owner of the mutex, which has signalled a thread that isn't back yet. The child waits for no
   such thread when it needs more seats. */
static void child_of_an_owner_that_signalled(void) {
    int status;
    pthread_t waits = started(wait_until_allowed, NULL);
    while (is_done < 1) usleep(1000);
    CHECK(pthread_mutex_lock(&mutex) == 0); /* it waits now */
    allowed = 1;
    CHECK(pthread_cond_signal(&condition) == 0);
    fflush(stdout);
    pid_t child = fork();
    CHECK(child >= 0);
    if (child == 0) {
        alarm(20);
        CHECK(pthread_mutex_unlock(&mutex) == 0);
        many_ask_for_the_mutex();
        fflush(stdout);
        _exit(7);
    }
    CHECK(waitpid(child, &status, 0) == child && pthread_mutex_unlock(&mutex) == 0);
    printf("the child: %s %d\n", WIFEXITED(status) ? "status" : "signal", status);
    join(waits);
}

static void *wait_for_the_mutex(void *nothing) {
    stage = 1;
    use_mutex();
    wait_for_stage(2);
    return nothing;
}

/* A process has waited, and 23 of its mutexes are gone, when its child is made. Some have been written by then, some
   are only counted, since they are of one place, and three are still to be written. */
static void child_of_a_process_that_did_much(void) {
    struct timespec past = {1, 0};
    int status;
    survive_sigusr2();
    CHECK(pthread_mutex_lock(&mutex) == 0);
    pthread_t thread = started(wait_for_the_mutex, NULL);
    wait_for_stage(1);
    usleep(20000);
    CHECK(pthread_cond_timedwait(&condition, &mutex, &past) == ETIMEDOUT);
    CHECK(pthread_mutex_unlock(&mutex) == 0);
    for (int i = 0; i < 20; i++) {
        pthread_mutex_t own;
        CHECK(!pthread_mutex_init(&own, NULL) && !pthread_mutex_lock(&own));
        CHECK(!pthread_mutex_unlock(&own) && !pthread_mutex_destroy(&own));
    }
    CHECK(raise(SIGUSR2) == 0);
    usleep(300000);
    for (int i = 0; i < 3; i++) wait_with_a_new_mutex();
    fflush(stdout);
    pid_t child = fork();
    CHECK(child >= 0);
    if (child == 0) {
        use_mutex();
        _exit(8);
    }
    CHECK(waitpid(child, &status, 0) == child && WIFEXITED(status) && WEXITSTATUS(status) == 8);
    stage = 2;
    join(thread);
    printf("done\n");
}

static void *wait_and_sleep(void *nothing) {
    is_done = 1;
    CHECK(pthread_mutex_lock(&mutex) == 0);
    struct timespec soon = after(CLOCK_REALTIME, 150);
    CHECK(pthread_cond_timedwait(&condition, &mutex, &soon) == ETIMEDOUT);
    CHECK(pthread_mutex_unlock(&mutex) == 0);
    return nothing;
}

/* A thread waits for the mutex for 300 ms, and then sleeps on the condition for 150 ms. */
static void waits_take_a_known_time(void) {
    CHECK(pthread_mutex_lock(&mutex) == 0);
    pthread_t thread = started(wait_and_sleep, NULL);
    while (!is_done) usleep(1000);
    usleep(300000);
    CHECK(pthread_mutex_unlock(&mutex) == 0);
    join(thread);
    printf("done\n");
}

/* How a wait until a moment ended, and whether that has come. */
static void tell_end(const char *call, int error, clockid_t clock, struct timespec moment) {
    struct timespec now;
    CHECK(clock_gettime(clock, &now) == 0);
    int is_early = now.tv_sec == moment.tv_sec ? now.tv_nsec < moment.tv_nsec : now.tv_sec < moment.tv_sec;
    printf("%s: %s, %s\n", call, strerrorname_np(error), is_early ? "early" : "in time");
}

static void wait_by_clock(pthread_rwlock_t *lock, pthread_mutex_t *own, clockid_t clock, clockid_t other) {
    pthread_condattr_t attributes;
    pthread_cond_t variable;
    CHECK(!pthread_condattr_init(&attributes) && !pthread_condattr_setclock(&attributes, clock));
    CHECK(pthread_cond_init(&variable, &attributes) == 0);
    struct timespec moment = after(clock, 30);
    tell_end("condition", pthread_cond_timedwait(&variable, own, &moment), clock, moment);
    moment = after(other, 30);
    tell_end("condition, by the other", pthread_cond_clockwait(&variable, own, other, &moment), other, moment);
    moment = after(clock, 30);
    tell_end("mutex", pthread_mutex_clocklock(&mutex, clock, &moment), clock, moment);
    moment = after(clock, 30);
    tell_end("to read", pthread_rwlock_clockrdlock(lock, clock, &moment), clock, moment);
    moment = after(clock, 30);
    tell_end("to write", pthread_rwlock_clockwrlock(lock, clock, &moment), clock, moment);
    moment = after(clock, 30);
    tell_end("semaphore", sem_clockwait(&nothing_comes, clock, &moment) ? errno : 0, clock, moment);
    CHECK(pthread_cond_destroy(&variable) == 0);
}

static void *wait_by_each_clock(void *lock) {
    pthread_mutex_t own = PTHREAD_MUTEX_INITIALIZER;
    CHECK(pthread_mutex_lock(&own) == 0);
    wait_by_clock(lock, &own, CLOCK_REALTIME, CLOCK_MONOTONIC);
    wait_by_clock(lock, &own, CLOCK_MONOTONIC, CLOCK_REALTIME);
    CHECK(pthread_mutex_unlock(&own) == 0);
    return NULL;
}

/* No wait ends before its time, by whichever clock. */
static void waits_end_by_their_clocks(void) {
    pthread_rwlock_t lock = PTHREAD_RWLOCK_INITIALIZER;
    CHECK(sem_init(&nothing_comes, 0, 0) == 0);
    CHECK(pthread_mutex_lock(&mutex) == 0 && pthread_rwlock_wrlock(&lock) == 0);
    join(started(wait_by_each_clock, &lock));
    CHECK(pthread_rwlock_unlock(&lock) == 0 && pthread_mutex_unlock(&mutex) == 0);
}

#define CASE(name) {#name, name}
static const struct {
    const char *name;
    void (*run)(void);
} cases[] = {
    CASE(exits_while_cancelled),
    CASE(main_thread_is_cancelled),
    CASE(standard_error_is_another_file),
    CASE(handler_posts_often),
    CASE(handlers_fork),
    CASE(is_asked_to_write_often),
    CASE(writes_where_it_may_not_be_cancelled),
    CASE(is_asked_as_it_writes),
    CASE(no_thread_can_be_made),
    CASE(mutexes_go_as_it_writes),
    CASE(files_are_written_in_parts),
    CASE(handler_posts_while_files_are_written),
    CASE(handlers_run_while_it_waits),
    CASE(calls_keep_the_signal_mask),
    CASE(waits_leave_errno_and_cancellation),
    CASE(many_threads_find_locks_held),
    CASE(many_waits_are_cancelled),
    CASE(wait_returns_the_errors_of_its_mutex),
    CASE(has_locks_of_other_kinds),
    CASE(trylock_beside_signals),
    CASE(a_signal_comes_as_the_owner_leaves),
    CASE(the_owner_unlocks_as_a_signal_comes),
    CASE(an_owner_wakes_many),
    CASE(children_wait_together),
    CASE(children_fork),
    CASE(children_are_made_meanwhile),
    CASE(a_child_with_our_memory_ends),
    CASE(a_child_with_our_memory_is_ended),
    CASE(reader_asks_to_write),
    CASE(reader_comes_while_a_writer_waits),
    CASE(more_readers_than_seats_hold_together),
    CASE(waits_until_long_ago),
    CASE(threads_come_one_after_another),
    CASE(a_reader_has_another_seat),
    CASE(a_lock_grows_while_it_is_read),
    CASE(destroyed_mutexes_leave_no_memory),
    CASE(memory_lacks_for_conditions),
    CASE(two_signals_and_a_broadcast),
    CASE(child_wakes_its_own_thread),
    CASE(child_of_an_owner_that_signalled),
    CASE(child_of_a_process_that_did_much),
    CASE(waits_take_a_known_time),
    CASE(waits_end_by_their_clocks),
};

int main(int argc, char **argv) {
    alarm(40);
    for (size_t i = 0; i < sizeof cases / sizeof *cases; i++) {
        if (argc > 1 && strcmp(argv[1], cases[i].name)) continue;
        if (argc == 1) {
            printf("%s\n", cases[i].name);
            continue;
        }
        use_mutex();
        cases[i].run();
    }
    return 0;
}
