/* How long threads wait and hold, and who waits for whom: times CASE. A case that hangs says so, and waits until it is
   killed. Without a word the cases are listed. */
#define _GNU_SOURCE
#include "check.h"

#include <errno.h>
#include <pthread.h>
#include <semaphore.h>
#include <stdatomic.h>
#include <stdbool.h>
#include <stdint.h>
#include <stdlib.h>
#include <string.h>
#include <sys/mman.h>
#include <sys/prctl.h>

static pthread_mutex_t first = PTHREAD_MUTEX_INITIALIZER;
static pthread_mutex_t second = PTHREAD_MUTEX_INITIALIZER;
static pthread_cond_t condition = PTHREAD_COND_INITIALIZER;
static pthread_rwlock_t lock = PTHREAD_RWLOCK_INITIALIZER;
static pthread_barrier_t both;

static pthread_t started(void *(*run)(void *), void *with) {
    pthread_t thread;
    CHECK(pthread_create(&thread, NULL, run, with) == 0);
    return thread;
}

static void join(pthread_t thread) { CHECK(pthread_join(thread, NULL) == 0); }

static void say_that_it_hangs(void) {
    printf("hangs\n");
    fflush(stdout);
}

/* Known times -------------------------------------------------------------------------------------------- */

enum { SHORT = 40000, LONG = 120000 };

static void *wait_for_first(void *nothing) {
    prctl(PR_SET_NAME, "the waiter");
    pthread_barrier_wait(&both);
    CHECK(pthread_mutex_lock(&first) == 0); /* a long wait */
    usleep(SHORT);
    CHECK(pthread_mutex_unlock(&first) == 0);
    return nothing;
}

/* One hold of 120 ms, for which a thread waits that then holds for 40 ms. */
static void a_wait_and_two_holds(void) {
    CHECK(pthread_mutex_lock(&first) == 0); /* the first call */
    pthread_t thread = started(wait_for_first, NULL);
    pthread_barrier_wait(&both);
    usleep(LONG);
    CHECK(pthread_mutex_unlock(&first) == 0);
    join(thread);
}

static void *read_for_long(void *nothing) {
    CHECK(pthread_rwlock_rdlock(&lock) == 0);
    usleep(SHORT);
    CHECK(pthread_rwlock_rdlock(&lock) == 0 && pthread_rwlock_unlock(&lock) == 0);
    CHECK(pthread_rwlock_rdlock(&lock) == 0);
    pthread_barrier_wait(&both);
    usleep(LONG);
    CHECK(pthread_rwlock_unlock(&lock) == 0 && pthread_rwlock_unlock(&lock) == 0);
    return nothing;
}

/* A reader with two holds at a time, and a writer that waits for both. */
static void a_reader_and_a_writer(void) {
    pthread_t thread = started(read_for_long, NULL);
    pthread_barrier_wait(&both);
    CHECK(pthread_rwlock_wrlock(&lock) == 0);
    usleep(SHORT);
    CHECK(pthread_rwlock_unlock(&lock) == 0);
    join(thread);
}

/* A sleep on a condition is no hold, but there is one before it and one after it. */
static void a_sleep_between_two_holds(void) {
    struct timespec moment = after(CLOCK_REALTIME, LONG / 1000);
    CHECK(pthread_mutex_lock(&first) == 0);
    usleep(SHORT);
    CHECK(pthread_cond_timedwait(&condition, &first, &moment) == ETIMEDOUT);
    usleep(SHORT);
    CHECK(pthread_mutex_unlock(&first) == 0);
}

static void *post_late(void *semaphore) {
    usleep(LONG);
    CHECK(sem_post(semaphore) == 0);
    return NULL;
}

static void a_wait_for_a_permit(void) {
    sem_t semaphore;
    CHECK(sem_init(&semaphore, 0, 0) == 0);
    pthread_t thread = started(post_late, &semaphore);
    CHECK(sem_wait(&semaphore) == 0);
    join(thread);
    CHECK(sem_destroy(&semaphore) == 0);
}

static void *lock_twelve_times(void *nothing) {
    for (int i = 0; i < 12; i++) {
        pthread_barrier_wait(&both);
        CHECK(pthread_mutex_lock(&first) == 0 && pthread_mutex_unlock(&first) == 0);
        pthread_barrier_wait(&both);
    }
    return nothing;
}

/* Twelve waits: the sixth is the longest, and the first two are the shortest. */
static void twelve_waits(void) {
    pthread_t thread = started(lock_twelve_times, NULL);
    for (int i = 0; i < 12; i++) {
        CHECK(pthread_mutex_lock(&first) == 0);
        pthread_barrier_wait(&both);
        usleep(i < 2 ? 10000 : i == 5 ? LONG : 30000);
        CHECK(pthread_mutex_unlock(&first) == 0);
        pthread_barrier_wait(&both);
    }
    join(thread);
}

static void a_call_that_is_put_in_line(void) {
    lock_in_line(&first); /* from here */
    CHECK(pthread_mutex_unlock(&first) == 0);
}

/* The first is waited for, the second is held long, and the third is called often. */
static void three_mutexes(void) {
    static pthread_mutex_t third = PTHREAD_MUTEX_INITIALIZER;
    for (int i = 0; i < 100; i++) CHECK(pthread_mutex_lock(&third) == 0 && pthread_mutex_unlock(&third) == 0);
    CHECK(pthread_mutex_lock(&second) == 0);
    a_wait_and_two_holds();
    usleep(LONG);
    CHECK(pthread_mutex_unlock(&second) == 0);
}

enum { GONE = 30 };
static pthread_barrier_t all;

static void *use_and_destroy(void *nothing) {
    pthread_mutex_t own;
    CHECK(pthread_mutex_init(&own, NULL) == 0);
    CHECK(pthread_mutex_lock(&own) == 0 && pthread_mutex_unlock(&own) == 0);
    CHECK(pthread_mutex_destroy(&own) == 0);
    pthread_barrier_wait(&all);
    return nothing;
}

/* Each has a mutex of its own, and all live until the last is destroyed. */
static void mutexes_of_many_threads_are_gone(void) {
    pthread_t threads[GONE];
    CHECK(pthread_barrier_init(&all, NULL, GONE) == 0);
    for (int i = 0; i < GONE; i++) threads[i] = started(use_and_destroy, NULL);
    for (int i = 0; i < GONE; i++) join(threads[i]);
}

enum { READERS = 5 };

static void *read_until_all_do(void *nothing) {
    CHECK(pthread_rwlock_rdlock(&lock) == 0);
    pthread_barrier_wait(&all);
    CHECK(pthread_rwlock_unlock(&lock) == 0);
    return nothing;
}

/* The last reader finds no seat: the lock gets more of them while the others hold it. */
static void more_readers_than_seats(void) {
    pthread_t threads[READERS - 1];
    CHECK(pthread_barrier_init(&all, NULL, READERS) == 0 && pthread_rwlock_rdlock(&lock) == 0);
    for (int i = 0; i < READERS - 1; i++) threads[i] = started(read_until_all_do, NULL);
    pthread_barrier_wait(&all);
    for (int i = 0; i < READERS - 1; i++) join(threads[i]);
    CHECK(pthread_rwlock_unlock(&lock) == 0);
}

/* Short holds -------------------------------------------------------------------------------------------- */

enum { BLOCKS = 200, FEW_BLOCKS = 20, HOLDS = 1000, CODE = 64 << 10 };

static uint64_t now(void) {
    struct timespec time;
    clock_gettime(CLOCK_MONOTONIC, &time);
    return (uint64_t)time.tv_sec * 1000000000 + (uint64_t)time.tv_nsec;
}

static volatile unsigned steps;
static __attribute__((noinline)) void work(unsigned amount) {
    for (unsigned i = 0; i < amount; i++) steps++;
}

/* Other code between two holds: more than a processor keeps beside the recorder's. Each piece returns at once. */
static char *code;
static void run_other_code(void) {
#ifdef __x86_64__
    for (size_t i = 0; code && i < CODE; i += 64) ((void (*)(void))(code + i))();
#endif
}

/* How long works of an amount take together by the program's own clock, which adds so much to each. */
static uint64_t time_of(unsigned amount, uint64_t added) {
    uint64_t sum = 0;
    for (int i = 0; i < HOLDS; i++) {
        run_other_code();
        now();
        uint64_t from = now();
        work(amount);
        uint64_t took = now() - from;
        sum += took > added ? took - added : 0;
    }
    return sum;
}

static uint64_t least_time_of(unsigned amount, uint64_t added) {
    uint64_t least = UINT64_MAX;
    for (int i = 0; i < 20; i++) {
        uint64_t time = time_of(amount, added);
        if (time < least) least = time;
    }
    return least / HOLDS;
}

static int is_longer(const void *a, const void *b) {
    uint64_t first = *(const uint64_t *)a, second = *(const uint64_t *)b;
    return (first > second) - (first < second);
}

/* Each mutex has a block of holds. Before each block the same work is timed without a lock. Says the median. */
static void short_holds(uint64_t nanoseconds, char *other_code) {
    static pthread_mutex_t mutexes[BLOCKS];
    static uint64_t times[BLOCKS];
    uint64_t added = least_time_of(0, 0);
    unsigned amount = 1;
    while (least_time_of(amount, added) < nanoseconds) amount += 1 + amount / 16;
    int blocks = other_code ? FEW_BLOCKS : BLOCKS;
    code = other_code;
    for (int block = 0; block < blocks; block++) {
        CHECK(pthread_mutex_init(&mutexes[block], NULL) == 0);
        times[block] = time_of(amount, added);
        for (int i = 0; i < HOLDS; i++) {
            run_other_code();
            pthread_mutex_lock(&mutexes[block]);
            work(amount);
            pthread_mutex_unlock(&mutexes[block]);
        }
    }
    qsort(times, (size_t)blocks, sizeof *times, is_longer);
    printf("%.1f\n", (double)times[blocks / 2] / HOLDS);
}

static void holds_of_60_nanoseconds(void) { short_holds(60, NULL); }
static void holds_of_a_microsecond(void) { short_holds(1000, NULL); }

static void holds_of_100_nanoseconds_between_other_code(void) {
    void *memory = mmap(NULL, CODE, PROT_READ | PROT_WRITE, MAP_PRIVATE | MAP_ANONYMOUS, -1, 0);
    CHECK(memory != MAP_FAILED);
    memset(memory, 0xc3, CODE);
    CHECK(mprotect(memory, CODE, PROT_READ | PROT_EXEC) == 0);
    short_holds(100, memory);
}

/* Circles ------------------------------------------------------------------------------------------------ */

static void *lock_second_first(void *nothing) {
    prctl(PR_SET_NAME, "second first");
    CHECK(pthread_mutex_lock(&second) == 0); /* the first call of the second */
    pthread_barrier_wait(&both);
    CHECK(pthread_mutex_lock(&first) == 0); /* waits for the first */
    return nothing;
}

static void two_mutexes_in_opposite_orders(void) {
    CHECK(pthread_mutex_lock(&first) == 0); /* the first call of the first */
    started(lock_second_first, NULL);
    pthread_barrier_wait(&both);
    say_that_it_hangs();
    CHECK(pthread_mutex_lock(&second) == 0); /* waits for the second */
}

static void a_mutex_that_its_owner_locks(void) {
    CHECK(pthread_mutex_lock(&first) == 0);
    say_that_it_hangs();
    CHECK(pthread_mutex_lock(&first) == 0);
}

static void a_reader_that_wants_to_write(void) {
    CHECK(pthread_rwlock_rdlock(&lock) == 0);
    say_that_it_hangs();
    CHECK(pthread_rwlock_wrlock(&lock) == 0);
}

static void *read_and_lock(void *nothing) {
    CHECK(pthread_rwlock_rdlock(&lock) == 0);
    pthread_barrier_wait(&both);
    CHECK(pthread_mutex_lock(&first) == 0);
    return nothing;
}

static void *only_read(void *nothing) {
    CHECK(pthread_rwlock_rdlock(&lock) == 0);
    pthread_barrier_wait(&both);
    for (;;) pause();
    return nothing;
}

static void *hold_first(void *nothing) {
    CHECK(pthread_mutex_lock(&first) == 0);
    pthread_barrier_wait(&both);
    for (;;) pause();
    return nothing;
}

/* Two read. One of them waits for the mutex of a thread that waits to write. Another waits for it too, which is looked
   at first, and is in no circle. */
static void a_circle_by_one_of_two_readers(void) {
    CHECK(pthread_mutex_lock(&first) == 0);
    started(only_read, NULL);
    pthread_barrier_wait(&both);
    started(read_and_lock, NULL);
    pthread_barrier_wait(&both);
    started(hold_first, NULL);
    say_that_it_hangs();
    CHECK(pthread_rwlock_wrlock(&lock) == 0);
}

static void *lock_second_and_first_for_a_time(void *nothing) {
    struct timespec moment = after(CLOCK_REALTIME, 60000);
    CHECK(pthread_mutex_lock(&second) == 0);
    pthread_barrier_wait(&both);
    pthread_mutex_timedlock(&first, &moment);
    return nothing;
}

/* One of the two will give up. */
static void no_circle_since_one_gives_up(void) {
    CHECK(pthread_mutex_lock(&first) == 0);
    started(lock_second_and_first_for_a_time, NULL);
    pthread_barrier_wait(&both);
    say_that_it_hangs();
    CHECK(pthread_mutex_lock(&second) == 0);
}

/* The thread that holds the mutex isn't in the child. */
static void a_child_without_the_owner(void) {
    started(hold_first, NULL);
    pthread_barrier_wait(&both);
    if (fork() != 0)
        for (;;) pause();
    say_that_it_hangs();
    CHECK(pthread_mutex_lock(&first) == 0);
}

static void *end_as_owner(void *nothing) {
    prctl(PR_SET_NAME, "it ended");
    CHECK(pthread_mutex_lock(&first) == 0);
    return nothing;
}

static void an_owner_that_has_ended(void) {
    join(started(end_as_owner, NULL));
    say_that_it_hangs();
    CHECK(pthread_mutex_lock(&first) == 0);
}

static _Atomic pid_t waiter;
static atomic_bool is_waited_for;

static void *lock_and_unlock(void *nothing) {
    waiter = gettid();
    CHECK(pthread_mutex_lock(&first) == 0 && pthread_mutex_unlock(&first) == 0);
    return nothing;
}

static bool is_asleep(pid_t thread) {
    char path[60], text[200] = "";
    snprintf(path, sizeof path, "/proc/self/task/%d/stat", (int)thread);
    FILE *file = fopen(path, "r");
    CHECK(file && fread(text, 1, sizeof text - 1, file) > 0 && fclose(file) == 0);
    return strstr(text, ") S ") != NULL;
}

static void *hold_until_one_waits(void *nothing) {
    CHECK(pthread_mutex_lock(&first) == 0);
    pthread_barrier_wait(&both);
    while (!is_waited_for) usleep(1000);
    return nothing;
}

static void *unlock_for_the_owner(void *nothing) {
    prctl(PR_SET_NAME, "innocent");
    CHECK(pthread_mutex_unlock(&first) == 0);
    return nothing;
}

/* The owner ends while one waits. The thread that unlocks comes after it, and never held the mutex. */
static void an_owner_that_ended_is_replaced(void) {
    pthread_t owner = started(hold_until_one_waits, NULL);
    pthread_barrier_wait(&both);
    pthread_t thread = started(lock_and_unlock, NULL);
    for (int in_a_row = 0; in_a_row < 20; usleep(1000)) in_a_row = waiter && is_asleep(waiter) ? in_a_row + 1 : 0;
    is_waited_for = true;
    join(owner);
    join(started(unlock_for_the_owner, NULL));
    join(thread);
}

static void *rest(void *nothing) {
    for (;;) pause();
    return nothing;
}

static void one_thread_that_rests(void) {
    CHECK(pthread_mutex_lock(&first) == 0 && pthread_mutex_unlock(&first) == 0);
    say_that_it_hangs();
    for (;;) pause();
}

static void two_threads_that_rest(void) {
    started(rest, NULL);
    one_thread_that_rests();
}

/* It ends by SIGTERM, in the midst of its calls. */
static void calls_without_end(void) {
    say_that_it_hangs();
    for (;;) CHECK(pthread_mutex_lock(&first) == 0 && pthread_mutex_unlock(&first) == 0);
}

static void *use_second(void *nothing) {
    for (;;) CHECK(pthread_mutex_lock(&second) == 0 && pthread_mutex_unlock(&second) == 0);
    return nothing;
}

static void calls_of_two_threads_without_end(void) {
    started(use_second, NULL);
    calls_without_end();
}

#define CASE(name) {#name, name}
static const struct {
    const char *name;
    void (*run)(void);
} cases[] = {
    CASE(a_wait_and_two_holds),
    CASE(a_reader_and_a_writer),
    CASE(a_sleep_between_two_holds),
    CASE(a_wait_for_a_permit),
    CASE(twelve_waits),
    CASE(more_readers_than_seats),
    CASE(two_mutexes_in_opposite_orders),
    CASE(a_mutex_that_its_owner_locks),
    CASE(a_reader_that_wants_to_write),
    CASE(a_circle_by_one_of_two_readers),
    CASE(no_circle_since_one_gives_up),
    CASE(a_child_without_the_owner),
    CASE(an_owner_that_has_ended),
    CASE(three_mutexes),
    CASE(a_call_that_is_put_in_line),
    CASE(one_thread_that_rests),
    CASE(two_threads_that_rest),
    CASE(mutexes_of_many_threads_are_gone),
    CASE(an_owner_that_ended_is_replaced),
    CASE(holds_of_60_nanoseconds),
    CASE(holds_of_a_microsecond),
    CASE(holds_of_100_nanoseconds_between_other_code),
    CASE(calls_without_end),
    CASE(calls_of_two_threads_without_end),
};

int main(int argc, char **argv) {
    alarm(60);
    CHECK(pthread_barrier_init(&both, NULL, 2) == 0);
    for (size_t i = 0; i < sizeof cases / sizeof *cases; i++) {
        if (argc == 1) printf("%s\n", cases[i].name);
        else if (strcmp(argv[1], cases[i].name) == 0) cases[i].run();
    }
    return 0;
}
