/* play.h: plays calls by several threads, and compares what comes of each with what is written.

   A play is lines, with "; " between two. A line is of one of these forms:
     0 lock = OK            thread 0 makes the call, which ends with this status
     0 getvalue = 3         the call ends with AQS_OK, and gives this number
     1 timedlock 20 ..      thread 1 makes the call, and sleeps in it
     1 = OK                 the call of thread 1 ends with this status
     1 waits                thread 1 still sleeps in its call
     0 handle 1 = OK        a signal handler, which does nothing, has run in thread 1
     [8: 0 lock = OK; ..]   these lines 8 times
   A call that times out took its time at least. At the end no thread is in a call or has a pending interrupt,
   and the history is the one that is written. Threads have the numbers from 0. The main thread has none. */
#ifndef AQS_TEST_PLAY_H
#define AQS_TEST_PLAY_H

#pragma GCC diagnostic ignored "-Wunused-function" /* no test needs all of this */

#include "heap.h"

#include "check.h"

#include <errno.h>
#include <fcntl.h>
#include <pthread.h>
#include <semaphore.h>
#include <signal.h>
#include <string.h>
#include <sys/syscall.h>
#include <time.h>

#ifndef PLAYERS
#define PLAYERS 8
#endif
enum { LIMIT = 5000, WORDS = 8 };

typedef struct {
    const char *name, *object, *lines, *history; /* no history is not compared */
} play_t;

/* The object of the play. */
static aqs_lock_t *lock;
static aqs_rwlock_t *rwlock;
static aqs_sem_t *semaphore;
static aqs_latch_t *latch;
static aqs_mutex_t *mutex;
static aqs_cond_t conds[20]; /* conditions of their own, by numbers */
static aqs_object_t *object;
static char text[1 << 16];

static aqs_status_t drain(int64_t *n) {
    uint32_t permits = 77;
    aqs_status_t status = aqs_sem_drain(semaphore, &permits);
    *n = permits;
    return status;
}
static aqs_status_t get_count(int64_t *n) {
    uint32_t count = 77;
    aqs_status_t status = aqs_latch_getcount(latch, &count);
    *n = count;
    return status;
}
static aqs_status_t queue_length(int64_t *n) {
    uint32_t count = 77;
    aqs_status_t status = aqs_object_queue_length(object, &count);
    *n = count;
    return status;
}
static aqs_status_t waiters(int64_t *n) {
    uint32_t count = 77;
    aqs_status_t status = aqs_object_waiters(object, &count);
    *n = count;
    return status;
}
static aqs_status_t is_locked(int64_t *n) {
    aqs_bool_t is_so = true;
    aqs_status_t status = aqs_lock_is_locked(lock, &is_so);
    *n = is_so;
    return status;
}
static aqs_status_t is_write_locked(int64_t *n) {
    aqs_bool_t is_so = true;
    aqs_status_t status = aqs_rwlock_is_write_locked(rwlock, &is_so);
    *n = is_so;
    return status;
}
static aqs_status_t mutex_is_locked(int64_t *n) {
    aqs_bool_t is_so = true;
    aqs_status_t status = aqs_mutex_is_locked(mutex, &is_so);
    *n = is_so;
    return status;
}
static aqs_status_t trim(int64_t *n) {
    uint64_t count = 77;
    aqs_status_t status = aqs_history_trim(object, &count);
    *n = (int64_t)count;
    return status;
}
static aqs_status_t put_text(int64_t *n) {
    size_t length = 77;
    aqs_status_t status = aqs_history_text(object, text, sizeof text - 1, &length);
    text[status == AQS_OK ? length : 0] = 0;
    *n = (int64_t)length;
    return status;
}
static aqs_status_t interrupted(int64_t *n) {
    *n = aqs_thread_interrupted();
    return AQS_OK;
}
static aqs_status_t handle(uint32_t thread, void (*handler)(int), int flags);
static void do_nothing(int);
static void interrupt_self(int);
static void release_one(int);

/* Each call: on what, by which word, which of its numbers is a time, and the call. */
#define CALLS(X)                                                                     \
    X(LOCK, lock, 0, aqs_lock_lock(lock))                                            \
    X(LOCK, lock_interruptibly, 0, aqs_lock_lock_interruptibly(lock))                \
    X(LOCK, timedlock, a, aqs_lock_timedlock(lock, a))                               \
    X(LOCK, trylock, 0, aqs_lock_trylock(lock))                                      \
    X(LOCK, unlock, 0, aqs_lock_unlock(lock))                                        \
    X(LOCK, wait, 0, aqs_lock_wait(lock, (uint8_t)a))                                \
    X(LOCK, wait_interruptibly, 0, aqs_lock_wait_interruptibly(lock, (uint8_t)a))    \
    X(LOCK, timedwait, b, aqs_lock_timedwait(lock, (uint8_t)a, b))                   \
    X(LOCK, signal, 0, aqs_lock_signal(lock, (uint8_t)a))                            \
    X(LOCK, signal_all, 0, aqs_lock_signal_all(lock, (uint8_t)a))                    \
    X(RW, rdlock, 0, aqs_rwlock_rdlock(rwlock))                                      \
    X(RW, rdlock_interruptibly, 0, aqs_rwlock_rdlock_interruptibly(rwlock))          \
    X(RW, timedrdlock, a, aqs_rwlock_timedrdlock(rwlock, a))                         \
    X(RW, tryrdlock, 0, aqs_rwlock_tryrdlock(rwlock))                                \
    X(RW, rdunlock, 0, aqs_rwlock_rdunlock(rwlock))                                  \
    X(RW, wrlock, 0, aqs_rwlock_wrlock(rwlock))                                      \
    X(RW, wrlock_interruptibly, 0, aqs_rwlock_wrlock_interruptibly(rwlock))          \
    X(RW, timedwrlock, a, aqs_rwlock_timedwrlock(rwlock, a))                         \
    X(RW, trywrlock, 0, aqs_rwlock_trywrlock(rwlock))                                \
    X(RW, wrunlock, 0, aqs_rwlock_wrunlock(rwlock))                                  \
    X(RW, wait, 0, aqs_rwlock_wait(rwlock, (uint8_t)a))                              \
    X(RW, wait_interruptibly, 0, aqs_rwlock_wait_interruptibly(rwlock, (uint8_t)a))  \
    X(RW, timedwait, b, aqs_rwlock_timedwait(rwlock, (uint8_t)a, b))                 \
    X(RW, signal, 0, aqs_rwlock_signal(rwlock, (uint8_t)a))                          \
    X(RW, signal_all, 0, aqs_rwlock_signal_all(rwlock, (uint8_t)a))                  \
    X(SEM, acquire, 0, aqs_sem_acquire(semaphore, a))                                \
    X(SEM, acquire_interruptibly, 0, aqs_sem_acquire_interruptibly(semaphore, a))    \
    X(SEM, timedacquire, b, aqs_sem_timedacquire(semaphore, a, b))                   \
    X(SEM, tryacquire, 0, aqs_sem_tryacquire(semaphore, a))                          \
    X(SEM, release, 0, aqs_sem_release(semaphore, a))                                \
    X(SEM, drain, 0, drain(n))                                                       \
    X(SEM, getvalue, 0, aqs_sem_getvalue(semaphore, n))                              \
    X(LATCH, count_down, 0, aqs_latch_count_down(latch))                             \
    X(LATCH, await, 0, aqs_latch_await(latch))                                       \
    X(LATCH, await_interruptibly, 0, aqs_latch_await_interruptibly(latch))           \
    X(LATCH, timedawait, a, aqs_latch_timedawait(latch, a))                          \
    X(LATCH, getcount, 0, get_count(n))                                              \
    X(LOCK, close, 0, (aqs_lock_close(lock), AQS_OK))                                \
    X(RW, close, 0, (aqs_rwlock_close(rwlock), AQS_OK))                              \
    X(SEM, close, 0, (aqs_sem_close(semaphore), AQS_OK))                             \
    X(LATCH, close, 0, (aqs_latch_close(latch), AQS_OK))                             \
    X(MUTEX, lock, 0, aqs_mutex_lock(mutex))                                         \
    X(MUTEX, lock_interruptibly, 0, aqs_mutex_lock_interruptibly(mutex))             \
    X(MUTEX, timedlock, a, aqs_mutex_timedlock(mutex, a))                            \
    X(MUTEX, trylock, 0, aqs_mutex_trylock(mutex))                                   \
    X(MUTEX, unlock, 0, aqs_mutex_unlock(mutex))                                     \
    X(MUTEX, wait, 0, aqs_mutex_wait(mutex, (uint8_t)a))                             \
    X(MUTEX, wait_interruptibly, 0, aqs_mutex_wait_interruptibly(mutex, (uint8_t)a)) \
    X(MUTEX, timedwait, b, aqs_mutex_timedwait(mutex, (uint8_t)a, b))                \
    X(MUTEX, signal, 0, aqs_mutex_signal(mutex, (uint8_t)a))                         \
    X(MUTEX, signal_all, 0, aqs_mutex_signal_all(mutex, (uint8_t)a))                 \
    X(LOCK, holds, 0, (*n = aqs_lock_holds(lock), AQS_OK))                           \
    X(LOCK, is_mine, 0, (*n = aqs_lock_is_mine(lock), AQS_OK))                       \
    X(RW, reads, 0, (*n = aqs_rwlock_read_holds(rwlock), AQS_OK))                    \
    X(RW, writes, 0, (*n = aqs_rwlock_write_holds(rwlock), AQS_OK))                  \
    X(RW, is_mine, 0, (*n = aqs_rwlock_is_mine(rwlock), AQS_OK))                     \
    X(MUTEX, is_mine, 0, (*n = aqs_mutex_is_mine(mutex), AQS_OK))                    \
    X(LOCK, is_locked, 0, is_locked(n))                                              \
    X(RW, is_write_locked, 0, is_write_locked(n))                                    \
    X(MUTEX, is_locked, 0, mutex_is_locked(n))                                       \
    X(LOCK, await, 0, aqs_cond_wait(&conds[a], lock))                                \
    X(LOCK, await_interruptibly, 0, aqs_cond_wait_interruptibly(&conds[a], lock))    \
    X(LOCK, timedawait, b, aqs_cond_timedwait(&conds[a], lock, b))                   \
    X(LOCK, notify, 0, aqs_cond_signal(&conds[a]))                                   \
    X(LOCK, notify_all, 0, aqs_cond_signal_all(&conds[a]))                           \
    X(MUTEX, await, 0, aqs_cond_wait(&conds[a], aqs_mutex_as_lock(mutex)))           \
    X(MUTEX, timedawait, b, aqs_cond_timedwait(&conds[a], aqs_mutex_as_lock(mutex), b)) \
    X(MUTEX, notify, 0, aqs_cond_signal(&conds[a]))                                  \
    X(MUTEX, notify_all, 0, aqs_cond_signal_all(&conds[a]))                          \
    X(ANY, policy, 0, (*n = aqs_object_policy(object), AQS_OK))                      \
    X(ANY, queue_length, 0, queue_length(n))                                         \
    X(ANY, waiters, 0, waiters(n))                                                   \
    X(ANY, trim, 0, trim(n))                                                         \
    X(ANY, text, 0, put_text(n))                                                     \
    X(ANY, self, 0, (*n = aqs_thread_self(), AQS_OK))                                \
    X(ANY, interrupt, 0, aqs_thread_interrupt((aqs_thread_t)a))                      \
    X(ANY, interrupted, 0, interrupted(n))                                           \
    X(ANY, handle, 0, handle(a, do_nothing, 0))                                      \
    X(ANY, handle_restarting, 0, handle(a, do_nothing, SA_RESTART))                  \
    X(ANY, handle_interrupting, 0, handle(a, interrupt_self, 0))                     \
    X(SEM, handle_releasing, 0, handle(a, release_one, 0))

typedef enum { LOCK, RW, SEM, LATCH, MUTEX, ANY } kind_t;

#define AS_NUMBER(kind, word, time, call) kind##_##word,
enum { CALLS(AS_NUMBER) COUNT_OF_CALLS };
#define AS_NAME(kind, word, time, call) {kind, #word},
static const struct {
    kind_t kind;
    const char *word;
} names[] = {CALLS(AS_NAME)};

static aqs_status_t made(int call, uint32_t a, uint32_t b, int64_t *n) {
    switch (call) {
#define AS_CALL(kind, word, time, call) \
    case kind##_##word: return call;
        CALLS(AS_CALL)
        default: CHECK(false);
    }
}

static uint32_t time_of(int call, uint32_t a, uint32_t b) {
    (void)a, (void)b;
    switch (call) {
#define AS_TIME(kind, word, time, call) \
    case kind##_##word: return time;
        CALLS(AS_TIME)
        default: return 0;
    }
}

/* Threads ---------------------------------------------------------------------------------------------- */

static int64_t nanoseconds(clockid_t clock) {
    struct timespec now;
    CHECK(clock_gettime(clock, &now) == 0);
    return (int64_t)now.tv_sec * 1000000000 + now.tv_nsec;
}

/* A thread that makes the calls it is asked for. */
typedef struct {
    pthread_t thread;
    sem_t asked;
    atomic_int id; /* as the kernel numbers it */
    bool is_over;
    atomic_bool in_call;   /* from the moment it was asked until its call has ended */
    atomic_bool has_begun; /* in this call it only sleeps where the library sleeps */
    int call;
    uint32_t a, b;
    aqs_status_t status;
    int64_t number, took, used; /* what the call gave, how long it took, and for how long on a processor */
} player_t;

static player_t players[PLAYERS];

static void *run_player(void *given) {
    player_t *me = given;
    CHECK(aqs_thread_self() == me - players);
    atomic_store(&me->id, (int)syscall(SYS_gettid));
    for (;;) {
        while (sem_wait(&me->asked) != 0) continue;
        if (me->call < 0) return NULL;
        me->number = 0;
        atomic_store(&me->has_begun, true);
        int64_t used = nanoseconds(CLOCK_THREAD_CPUTIME_ID), begun = nanoseconds(CLOCK_MONOTONIC);
        errno = EINTR; /* of a call of the program's own */
        me->status = made(me->call, me->a, me->b, &me->number);
        me->took = nanoseconds(CLOCK_MONOTONIC) - begun;
        me->used = nanoseconds(CLOCK_THREAD_CPUTIME_ID) - used;
        atomic_store(&me->has_begun, false);
        atomic_store(&me->in_call, false);
    }
}

static void start(player_t *it) {
    CHECK(sem_init(&it->asked, 0, 0) == 0);
    atomic_store(&it->id, 0);
    it->is_over = false;
    CHECK(pthread_create(&it->thread, NULL, run_player, it) == 0);
    while (atomic_load(&it->id) == 0) usleep(50);
}

static void start_players(void) {
    for (int i = 0; i < PLAYERS; i++) start(&players[i]);
}

static void ask(player_t *it, int call, uint32_t a, uint32_t b) {
    CHECK(!atomic_load(&it->in_call));
    it->call = call, it->a = a, it->b = b;
    atomic_store(&it->in_call, call >= 0);
    CHECK(sem_post(&it->asked) == 0);
}

static void stop(player_t *it) {
    ask(it, -1, 0, 0);
    CHECK(pthread_join(it->thread, NULL) == 0);
    CHECK(sem_destroy(&it->asked) == 0);
    it->is_over = true;
}

/* Ends a test: the threads end, and no block of memory is held. */
static int good(const char *name) {
    for (int i = 0; i < PLAYERS; i++) {
        if (!players[i].is_over) stop(&players[i]);
    }
    CHECK(atomic_load(&held) == 0);
    printf("%s: good\n", name);
    return 0;
}

/* Whether the system says that the thread of a player sleeps. */
static bool is_asleep(const player_t *it) {
    char path[64], line[300] = "";
    snprintf(path, sizeof path, "/proc/self/task/%d/stat", atomic_load(&it->id));
    int file = open(path, O_RDONLY);
    CHECK(file >= 0 && read(file, line, sizeof line - 1) > 0);
    close(file);
    const char *behind_name = strrchr(line, ')');
    return behind_name && behind_name[2] == 'S';
}

/* Waits until a call has ended, or its thread sleeps in it. Returns whether it ended. */
static bool ends_or_sleeps(const player_t *it, int milliseconds) {
    for (int64_t until = nanoseconds(CLOCK_MONOTONIC) + milliseconds * INT64_C(1000000);;) {
        if (!atomic_load(&it->in_call)) return true;
        if (atomic_load(&it->has_begun) && is_asleep(it) && atomic_load(&it->has_begun)) {
            usleep(100);
            if (is_asleep(it) && atomic_load(&it->has_begun)) return false;
        }
        if (nanoseconds(CLOCK_MONOTONIC) > until) return false;
        usleep(50);
    }
}

/* Signal handlers, and how often one has run. */
static atomic_int handled;

static void do_nothing(int number) {
    (void)number;
    atomic_fetch_add(&handled, 1);
}
static void interrupt_self(int number) {
    IS(aqs_thread_interrupt(aqs_thread_self()), AQS_OK);
    do_nothing(number);
}
static void release_one(int number) {
    IS(aqs_sem_release(semaphore, 1), AQS_OK);
    do_nothing(number);
}

/* Runs a signal handler in the thread of a player, and waits until that is over. */
static aqs_status_t handle(uint32_t thread, void (*handler)(int), int flags) {
    struct sigaction action = {.sa_handler = handler, .sa_flags = flags};
    int before = atomic_load(&handled);
    CHECK(sigaction(SIGUSR1, &action, NULL) == 0);
    CHECK(pthread_kill(players[thread].thread, SIGUSR1) == 0);
    while (atomic_load(&handled) == before) usleep(20);
    return AQS_OK;
}

static bool ends(const player_t *it, int milliseconds) {
    int64_t until = nanoseconds(CLOCK_MONOTONIC) + milliseconds * INT64_C(1000000);
    while (atomic_load(&it->in_call)) {
        if (nanoseconds(CLOCK_MONOTONIC) > until) return false;
        usleep(20);
    }
    return true;
}

/* Lines ------------------------------------------------------------------------------------------------ */

static const char *play_name, *play_line;

#define FAIL(...)                                          \
    do {                                                   \
        fprintf(stderr, "%s: %s: ", play_name, play_line); \
        fprintf(stderr, __VA_ARGS__);                      \
        fputs("\n", stderr);                               \
        _Exit(1);                                          \
    } while (0)

/* Compares how a call ended with the word behind '='. */
static void compare(const player_t *it, const char *wanted) {
    const char *status = aqs_status_name(it->status);
    char *end;
    long long number = strtoll(wanted, &end, 10);
    bool is_number = *wanted && !*end;
    if (strcmp(status + 4, is_number ? "OK" : wanted)) FAIL("it is %s", status);
    if (is_number && it->number != number) FAIL("it gives %lld", (long long)it->number);
    int64_t early = time_of(it->call, it->a, it->b) * INT64_C(1000000) - it->took;
    if (it->status == AQS_TIMED_OUT && early > 0) FAIL("it came %lld ns early", (long long)early);
}

static int call_of(kind_t kind, const char *word) {
    for (int i = 0; i < COUNT_OF_CALLS; i++) {
        if ((names[i].kind == kind || names[i].kind == ANY) && strcmp(names[i].word, word) == 0) return i;
    }
    FAIL("there is no such call");
}

/* Does what the words of one line say. */
static void play_words(kind_t kind, char **words, int count) {
    player_t *it = &players[atoi(words[0])];
    const char *last = words[count - 1];
    if (count < 2) FAIL("it has no call");
    if (strcmp(words[1], "waits") == 0) {
        usleep(3000);
        if (ends_or_sleeps(it, LIMIT)) FAIL("it is %s", aqs_status_name(it->status));
        return;
    }
    if (strcmp(words[1], "=") != 0) {
        int numbers = count - (strcmp(last, "..") == 0 ? 3 : 4);
        uint32_t a = numbers > 0 ? (uint32_t)strtoul(words[2], NULL, 10) : 0;
        uint32_t b = numbers > 1 ? (uint32_t)strtoul(words[3], NULL, 10) : 0;
        ask(it, call_of(kind, words[1]), a, b);
        if (strcmp(last, "..") == 0) {
            if (ends_or_sleeps(it, 10 * LIMIT)) FAIL("it is %s", aqs_status_name(it->status));
            return;
        }
    }
    if (!ends(it, LIMIT)) FAIL("it does not end");
    compare(it, last);
}

static void play_line_of(kind_t kind, const char *from, size_t length) {
    char line[200], shown[200], *words[WORDS];
    int count = 0;
    snprintf(line, sizeof line, "%.*s", (int)length, from);
    snprintf(shown, sizeof shown, "%s", line);
    play_line = shown;
    for (char *word = strtok(line, " "); word && count < WORDS; word = strtok(NULL, " ")) {
        words[count++] = word;
    }
    if (count) play_words(kind, words, count);
    play_line = "afterwards";
}

static void play_lines(kind_t kind, const char *lines) {
    while (*lines) {
        lines += strspn(lines, " ;");
        size_t length = strcspn(lines, *lines == '[' ? "]" : ";");
        if (*lines == '[') {
            char inner[400], *begin;
            long times = strtol(lines + 1, &begin, 10);
            snprintf(inner, sizeof inner, "%.*s", (int)(lines + length - begin - 1), begin + 1);
            while (times-- > 0) play_lines(kind, inner);
            length++;
        } else {
            play_line_of(kind, lines, length);
        }
        lines += length;
    }
}

/* Plays lines in which $ is a thread. */
static void play_for(kind_t kind, int thread, const char *lines) {
    char made[400];
    size_t at = 0;
    for (; *lines && at + 4 < sizeof made; lines++) {
        if (*lines == '$') at += (size_t)snprintf(made + at, sizeof made - at, "%d", thread);
        else made[at++] = *lines;
    }
    made[at] = 0;
    play_lines(kind, made);
}

/* Objects ---------------------------------------------------------------------------------------------- */

/* Reads what an object part says, and gives its number of permits or its count. "trims" after it folds a full
   history, and with "heeds" the object heeds signal handlers. */
static aqs_options_t options_of(char *words, int64_t *number) {
    aqs_options_t options = {.policy = AQS_NONFAIR, .when_full = AQS_REFUSE};
    for (char *word = strtok(words, " "); (word = strtok(NULL, " "));) {
        if (strcmp(word, "fair") == 0) options.policy = AQS_FAIR;
        else if (strcmp(word, "strict") == 0) options.policy = AQS_STRICT;
        else if (strcmp(word, "trims") == 0) options.when_full = AQS_TRIM;
        else if (strcmp(word, "heeds") == 0) options.heeds_handlers = true;
        else if (strcmp(word, "nonfair") != 0) {
            long value = strtol(strtok(NULL, " "), NULL, 10);
            if (strcmp(word, "seats") == 0) options.threads = (uint16_t)value;
            else if (strcmp(word, "conditions") == 0) options.conditions = (uint8_t)value;
            else if (strcmp(word, "cap") == 0) options.history = (uint32_t)value;
            else *number = value;
        }
    }
    return options;
}

/* No thread remembers a seat of the object of another play: each is at an address of its own, as long as there
   are some. */
#ifndef NEW_ADDRESSES
#define NEW_ADDRESSES 4000
#endif
#if NEW_ADDRESSES == 0
#define OPENED(type, at, ...) aqs_##type##_open(&at, __VA_ARGS__)
#else
static union {
    aqs_lock_t lock;
    aqs_mutex_t mutex;
    aqs_rwlock_t rwlock;
    aqs_sem_t sem;
    aqs_latch_t latch;
} objects[NEW_ADDRESSES];
static int count_of_objects;
#define OPENED(type, at, ...)                                                           \
    (count_of_objects >= NEW_ADDRESSES                                                  \
         ? aqs_##type##_open(&at, __VA_ARGS__)                                          \
         : (at = &objects[count_of_objects++].type, aqs_##type##_init(at, __VA_ARGS__)))
#endif

/* Opens what the object part of a history says. That of a mutex begins with its name in place of a lock's. */
static kind_t open_part(const char *part) {
    char words[200];
    int64_t number = 0;
    snprintf(words, sizeof words, "%s", part);
    const aqs_options_t options = options_of(words, &number);
    switch (*part) {
        case 'l':
            if (part[1] == 'a') break;
            IS(OPENED(lock, lock, &options), AQS_OK);
            return object = aqs_lock_object(lock), LOCK;
        case 'm':
            IS(OPENED(mutex, mutex, &options), AQS_OK);
            return object = aqs_mutex_object(mutex), MUTEX;
        case 'r':
            IS(OPENED(rwlock, rwlock, &options), AQS_OK);
            return object = aqs_rwlock_object(rwlock), RW;
        case 's':
            IS(OPENED(sem, semaphore, (int32_t)number, &options), AQS_OK);
            return object = aqs_sem_object(semaphore), SEM;
    }
    IS(OPENED(latch, latch, (uint32_t)number, &options), AQS_OK);
    return object = aqs_latch_object(latch), LATCH;
}

static void close_it(kind_t kind) {
    switch (kind) {
        case LOCK: aqs_lock_close(lock); break;
        case RW: aqs_rwlock_close(rwlock); break;
        case SEM: aqs_sem_close(semaphore); break;
        case MUTEX: aqs_mutex_close(mutex); break;
        default: aqs_latch_close(latch);
    }
}

/* Writes the history text of entries that have "; " between two. */
static void write_wanted(char *to, size_t size, const char *part, const char *entries) {
    int count = 0, calls = 0;
    const char *more = strstr(part, " trims"), *name = *part == 'm' ? "lock" : "";
    if (!more) more = strstr(part, " heeds");
    part += *name ? strlen("mutex") : 0;
    int part_length = (int)(more ? (size_t)(more - part) : strlen(part));
    size_t at = (size_t)snprintf(to, size, "aqs-history 1 %s%.*s\n", name, part_length, part);
    while (*entries) {
        char word[20] = "";
        int length = (int)strcspn(entries, ";");
        sscanf(entries, "%*d %19s", word);
        at += (size_t)snprintf(to + at, size - at, "%d %.*s\n", count++, length, entries);
        calls += strcmp(word, "queued") && strcmp(word, "await") && strcmp(word, "lapse");
        entries += length + (entries[length] ? 2 : 0);
    }
    snprintf(to + at, size - at, "end %d %d\n", count, calls);
}

static void compare_history(const play_t *it) {
    static char wanted[1 << 15];
    if (!it->history) return;
    if (strncmp(it->history, "aqs-history", 11) == 0) snprintf(wanted, sizeof wanted, "%s", it->history);
    else write_wanted(wanted, sizeof wanted, it->object, it->history);
    play_lines(ANY, "0 text = OK");
    if (strcmp(text, wanted)) FAIL("the history is\n%sand should be\n%s", text, wanted);
}

static void play(const play_t *it) {
    play_name = it->name;
    play_line = it->object;
    kind_t kind = open_part(it->object);
    play_lines(kind, it->lines);
    for (int i = 0; i < PLAYERS; i++) {
        if (atomic_load(&players[i].in_call)) FAIL("thread %d is still in a call", i);
        ask(&players[i], ANY_interrupted, 0, 0);
        if (!ends(&players[i], LIMIT)) FAIL("thread %d does not end", i);
        if (players[i].number) FAIL("thread %d has a pending interrupt", i);
    }
    compare_history(it);
    close_it(kind);
}

static inline void play_all(const play_t *all, size_t count) {
    for (size_t i = 0; i < count; i++) play(&all[i]);
}
#define PLAY_ALL(all) play_all(all, sizeof all / sizeof all[0])

#endif
