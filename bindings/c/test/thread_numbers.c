/* thread_numbers.c [PART]: whose number is whose, as threads end. Each part has a process of its own, so that
   none finds numbers that another lost. The linker puts the functions below in the place of pthread's (see
   the Makefile). */
#include "check.h"

#include <errno.h>
#include <limits.h>
#include <pthread.h>
#include <stdatomic.h>
#include <string.h>
#include <sys/mman.h>
#include <sys/wait.h>

int __real_pthread_setspecific(pthread_key_t key, const void *value);
void *__real_mmap(void *at, size_t size, int protection, int flags, int file, off_t offset);

/* Whether a key can be given a value. */
static atomic_bool lacks_values;

int __wrap_pthread_setspecific(pthread_key_t key, const void *value) {
    return atomic_load(&lacks_values) ? ENOMEM : __real_pthread_setspecific(key, value);
}

/* Whether more places can be had. */
static atomic_bool lacks_places;

void *__wrap_mmap(void *at, size_t size, int protection, int flags, int file, off_t offset) {
    if (!atomic_load(&lacks_places)) return __real_mmap(at, size, protection, flags, file, offset);
    errno = ENOMEM;
    return MAP_FAILED;
}

/* More threads, one after the other, than there are places at first. None has a greater number than that. */
enum { PLACES = 256, MANY = 300 };

static aqs_lock_t *lock;
static pthread_key_t key;

static void run(void *(*body)(void *), void *given) {
    pthread_t thread;
    CHECK(pthread_create(&thread, NULL, body, given) == 0);
    CHECK(pthread_join(thread, NULL) == 0);
}

static void *pair(void *none) {
    CHECK(aqs_thread_self() < PLACES);
    IS(aqs_lock_lock(lock), AQS_OK);
    IS(aqs_lock_unlock(lock), AQS_OK);
    return none;
}

static void open_lock(void) { IS(aqs_lock_open(&lock, &(aqs_options_t){.threads = AQS_THREADS}), AQS_OK); }

/* A key whose destructor comes after the library's: its key is older. */
static void make_key(void (*destructor)(void *)) {
    CHECK(aqs_thread_self() == 0);
    CHECK(pthread_key_create(&key, destructor) == 0);
}

/* A thread that ends as owner, and unlocks in a destructor. */

static aqs_status_t of_destructor;

static void unlock(void *none) {
    (void)none;
    of_destructor = aqs_lock_unlock(lock);
}

static void *lock_and_end(void *none) {
    CHECK(aqs_thread_self() < PLACES);
    IS(aqs_lock_lock(lock), AQS_OK);
    CHECK(pthread_setspecific(key, &key) == 0);
    return none;
}

static void *try_it(void *number) {
    *(aqs_thread_t *)number = aqs_thread_self();
    IS(aqs_lock_trylock(lock), AQS_OK);
    IS(aqs_lock_unlock(lock), AQS_OK);
    return NULL;
}

static void unlocks_in_a_destructor(void) {
    make_key(unlock);
    open_lock();
    for (int i = 0; i < MANY; i++) {
        aqs_thread_t number;
        run(lock_and_end, NULL);
        IS(of_destructor, AQS_OK);
        run(try_it, &number);
        CHECK(number == 1); /* the first thread's was given back */
    }
    aqs_lock_close(lock);
}

/* A thread that does so in the last round of destructors, when the library's has been called for the last
   time. */

static _Thread_local int rounds;

static inline void unlock_at_last(void *none) {
    if (++rounds == PTHREAD_DESTRUCTOR_ITERATIONS) unlock(NULL);
    else CHECK(__real_pthread_setspecific(key, &key) == 0);
    (void)none;
}

static inline void unlocks_in_the_last_round(void) {
    make_key(unlock_at_last);
    open_lock();
    for (int i = 0; i < MANY; i++) {
        run(lock_and_end, NULL);
        IS(of_destructor, AQS_OK);
    }
    run(pair, NULL);
    aqs_lock_close(lock);
}

/* A thread whose first call is made there. */

static inline void pair_at_last(void *none) {
    if (++rounds == PTHREAD_DESTRUCTOR_ITERATIONS) pair(NULL);
    else CHECK(__real_pthread_setspecific(key, &key) == 0);
    (void)none;
}

static inline void *only_end(void *none) {
    CHECK(pthread_setspecific(key, &key) == 0);
    return none;
}

static inline void calls_in_the_last_round(void) {
    make_key(pair_at_last);
    open_lock();
    for (int i = 0; i < MANY; i++) run(only_end, NULL);
    run(pair, NULL);
    aqs_lock_close(lock);
}

/* A thread that made calls, and makes more after its number was given back. None of them asks for the number. */

static void pair_in_a_destructor(void *none) {
    (void)none;
    IS(aqs_lock_lock(lock), AQS_OK);
    IS(aqs_lock_unlock(lock), AQS_OK);
}

static void *pair_and_end(void *none) {
    pair(none);
    CHECK(pthread_setspecific(key, &key) == 0);
    return none;
}

static void calls_in_a_destructor(void) {
    make_key(pair_in_a_destructor);
    open_lock();
    for (int i = 0; i < MANY; i++) run(pair_and_end, NULL);
    run(pair, NULL);
    aqs_lock_close(lock);
}

/* All keys are others'. They keep their values, and the numbers of threads that ended come back. */

static pthread_key_t others[PTHREAD_KEYS_MAX];

static void without_a_key(void) {
    int made = 0;
    while (made < PTHREAD_KEYS_MAX && pthread_key_create(&others[made], NULL) == 0) made++;
    for (int i = 0; i < made; i++) CHECK(pthread_setspecific(others[i], (void *)(size_t)(1000 + i)) == 0);
    open_lock();
    for (int i = 0; i < MANY; i++) run(pair, NULL);
    pair(NULL);
    for (int i = 0; i < made; i++) CHECK(pthread_getspecific(others[i]) == (void *)(size_t)(1000 + i));
    for (int i = 0; i < made; i++) CHECK(pthread_key_delete(others[i]) == 0);
    aqs_lock_close(lock);
}

/* A key's values need memory. Each number comes back, the first and the last ones too. */

static int times[PLACES]; /* that a thread had a number */

static void *pair_and_count(void *none) {
    pair(none);
    times[aqs_thread_self()]++;
    return none;
}

static void without_a_value(void) {
    open_lock();
    atomic_store(&lacks_values, true);
    for (int i = 0; i < 3 * PLACES; i++) run(pair_and_count, NULL);
    for (int i = 0; i < PLACES; i++) CHECK(times[i] > 1);
    aqs_lock_close(lock);
}

/* As many threads as there are places at first live all the time, or come and go. Each gets one of these. */

enum { COMING = 4, ROUNDS = 2000 };

static pthread_barrier_t are_there, are_over;

static void *stay(void *none) {
    pair(NULL);
    pthread_barrier_wait(&are_there);
    pthread_barrier_wait(&are_over);
    return none;
}

static void *come_and_go(void *none) {
    for (int i = 0; i < ROUNDS; i++) run(pair, NULL);
    return none;
}

static void as_many_as_there_are(void) {
    enum { STAY = PLACES - COMING };
    pthread_t staying[STAY], coming[COMING];
    open_lock();
    CHECK(pthread_barrier_init(&are_there, NULL, STAY + 1) == 0);
    CHECK(pthread_barrier_init(&are_over, NULL, STAY + 1) == 0);
    for (int i = 0; i < STAY; i++) CHECK(pthread_create(&staying[i], NULL, stay, NULL) == 0);
    pthread_barrier_wait(&are_there);
    for (int i = 0; i < COMING; i++) CHECK(pthread_create(&coming[i], NULL, come_and_go, NULL) == 0);
    for (int i = 0; i < COMING; i++) CHECK(pthread_join(coming[i], NULL) == 0);
    pthread_barrier_wait(&are_over);
    for (int i = 0; i < STAY; i++) CHECK(pthread_join(staying[i], NULL) == 0);
    aqs_lock_close(lock);
}

/* One more, where no memory for places is to be had: its calls say so, and change nothing. When there is memory
   again, it gets the next number. */
static void *come_without_memory(void *none) {
    aqs_sem_t semaphore = AQS_SEM_INIT(0);
    int64_t permits = 77;
    CHECK(aqs_thread_self() == AQS_NO_THREAD && !aqs_thread_interrupted());
    IS(aqs_lock_lock(lock), AQS_OUT_OF_MEMORY);
    IS(aqs_lock_timedlock(lock, 1), AQS_OUT_OF_MEMORY);
    IS(aqs_lock_trylock(lock), AQS_OUT_OF_MEMORY);
    IS(aqs_lock_unlock(lock), AQS_OUT_OF_MEMORY);
    IS(aqs_sem_release(&semaphore, 1), AQS_OUT_OF_MEMORY);
    IS(aqs_sem_getvalue(&semaphore, &permits), AQS_OUT_OF_MEMORY);
    CHECK(!aqs_lock_is_mine(lock) && permits == 77);
    IS(aqs_thread_interrupt(PLACES), AQS_OUT_OF_RANGE);
    atomic_store(&lacks_places, false);
    IS(aqs_lock_lock(lock), AQS_OK);
    CHECK(aqs_thread_self() == PLACES);
    IS(aqs_thread_interrupt(PLACES), AQS_OK);
    CHECK(aqs_thread_interrupted());
    IS(aqs_lock_unlock(lock), AQS_OK);
    return none;
}

static void without_memory_for_more(void) {
    pthread_t staying[PLACES];
    open_lock();
    CHECK(pthread_barrier_init(&are_there, NULL, PLACES + 1) == 0);
    CHECK(pthread_barrier_init(&are_over, NULL, PLACES + 1) == 0);
    for (int i = 0; i < PLACES; i++) CHECK(pthread_create(&staying[i], NULL, stay, NULL) == 0);
    pthread_barrier_wait(&are_there);
    atomic_store(&lacks_places, true);
    run(come_without_memory, NULL);
    pthread_barrier_wait(&are_over);
    for (int i = 0; i < PLACES; i++) CHECK(pthread_join(staying[i], NULL) == 0);
    aqs_lock_close(lock);
}

/* More than three times as many threads live at a time. Each has a number of its own, by which it is
   reached. */

enum { MORE = 3 * PLACES + 20 };

static void *stay_to_be_interrupted(void *number) {
    *(aqs_thread_t *)number = aqs_thread_self();
    pthread_barrier_wait(&are_there);
    pthread_barrier_wait(&are_over);
    CHECK(aqs_thread_interrupted() && !aqs_thread_interrupted());
    return NULL;
}

static void have_numbers_below(aqs_thread_t end, int all) {
    static pthread_t threads[MORE];
    static aqs_thread_t numbers[MORE];
    bool is_taken[MORE] = {false};
    pthread_attr_t small;
    CHECK(pthread_attr_init(&small) == 0 && pthread_attr_setstacksize(&small, 128 << 10) == 0);
    CHECK(pthread_barrier_init(&are_there, NULL, (unsigned)all + 1) == 0);
    CHECK(pthread_barrier_init(&are_over, NULL, (unsigned)all + 1) == 0);
    for (int i = 0; i < all; i++)
        CHECK(pthread_create(&threads[i], &small, stay_to_be_interrupted, &numbers[i]) == 0);
    pthread_barrier_wait(&are_there);
    for (int i = 0; i < all; i++) {
        CHECK(numbers[i] < end && !is_taken[numbers[i]]);
        is_taken[numbers[i]] = true;
        IS(aqs_thread_interrupt(numbers[i]), AQS_OK);
    }
    pthread_barrier_wait(&are_over);
    for (int i = 0; i < all; i++) CHECK(pthread_join(threads[i], NULL) == 0);
    CHECK(pthread_attr_destroy(&small) == 0);
}

static void many_more_than_there_are(void) { have_numbers_below(MORE, MORE); }

/* Without a key's value these numbers come back too. */
static void many_more_once_again(void) {
    atomic_store(&lacks_values, true);
    for (int i = 0; i < 2; i++) have_numbers_below(2 * PLACES, 2 * PLACES - 100);
}

/* A thread that ends as owner keeps its seat, however many come after it, some with its number. */

static void *own_and_end(void *none) {
    IS(aqs_lock_lock(lock), AQS_OK);
    return none;
}

static void *miss(void *none) {
    CHECK(!aqs_lock_is_mine(lock));
    IS(aqs_lock_unlock(lock), AQS_NOT_OWNER);
    IS(aqs_lock_trylock(lock), AQS_WOULD_BLOCK);
    return none;
}

static void an_owner_that_ended(void) {
    open_lock();
    atomic_store(&lacks_values, true);
    run(own_and_end, NULL);
    for (int i = 0; i < MANY; i++) run(miss, NULL);
    aqs_lock_close(lock);
}

/* A child of a process with one thread goes on with its locks: what it holds stays its own, and a thread of
   the child isn't taken for it. */
static void in_a_child(void) {
    open_lock();
    IS(aqs_lock_lock(lock), AQS_OK);
    pid_t child = fork();
    CHECK(child >= 0);
    if (child == 0) {
        for (int i = 0; i < MANY; i++) run(miss, NULL);
        IS(aqs_lock_unlock(lock), AQS_OK);
        IS(aqs_lock_unlock(lock), AQS_NOT_OWNER);
        for (int i = 0; i < MANY; i++) run(pair, NULL);
        CHECK(aqs_thread_self() == 0);
        _Exit(0);
    }
    int status;
    CHECK(waitpid(child, &status, 0) == child && WIFEXITED(status) && WEXITSTATUS(status) == 0);
    IS(aqs_lock_unlock(lock), AQS_OK);
    aqs_lock_close(lock);
}

static const struct {
    const char *name;
    void (*part)(void);
} parts[] = {
    {"unlocks in a destructor", unlocks_in_a_destructor},
    {"calls in a destructor", calls_in_a_destructor},
#ifndef __SANITIZE_THREAD__ /* what that keeps of a thread is gone in the last round */
    {"unlocks in the last round", unlocks_in_the_last_round},
    {"calls in the last round", calls_in_the_last_round},
#endif
    {"without a key", without_a_key},
    {"without a value", without_a_value},
    {"as many as there are", as_many_as_there_are},
    {"without memory for more", without_memory_for_more},
    {"many more than there are", many_more_than_there_are},
    {"many more once again", many_more_once_again},
    {"an owner that ended", an_owner_that_ended},
    {"in a child", in_a_child},
};

int main(int count, char **words) {
    int failed = 0;
    alarm(100);
    for (size_t i = 0; i < sizeof parts / sizeof parts[0]; i++) {
        if (count > 1 && strcmp(words[1], parts[i].name) != 0) continue;
        pid_t child = fork();
        CHECK(child >= 0);
        if (child == 0) {
            alarm(60);
            parts[i].part();
            exit(0);
        }
        int status;
        CHECK(waitpid(child, &status, 0) == child);
        bool is_good = WIFEXITED(status) && WEXITSTATUS(status) == 0;
        if (!is_good) fprintf(stderr, "thread numbers: %s: status %d\n", parts[i].name, status);
        failed += !is_good;
    }
    CHECK(failed == 0);
    puts("thread numbers: good");
    return 0;
}
