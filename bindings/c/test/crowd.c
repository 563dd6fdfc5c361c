/* crowd.c: 10,000 threads that live at a time. Each has a number of its own, holds one of 40 locks to read
   beside 249 others, and takes one lock that all of them take. */
#include "heap.h"

#include "check.h"

#include <errno.h>
#include <pthread.h>
#include <stdatomic.h>

enum { CROWD = 10000, LOCKS = 40, STACK = 64 << 10 };

static aqs_rwlock_t locks[LOCKS];
static aqs_lock_t lock;
static pthread_t threads[CROWD];
static aqs_thread_t numbers[CROWD];
static atomic_int came;
static int count; /* the lock guards it */

/* Doors that open one after the other, when all have come to them. */
static pthread_mutex_t door = PTHREAD_MUTEX_INITIALIZER;
static pthread_cond_t opens = PTHREAD_COND_INITIALIZER;
static int opened;

static void wait_at(int this_one) {
    atomic_fetch_add(&came, 1);
    CHECK(pthread_mutex_lock(&door) == 0);
    while (opened <= this_one) CHECK(pthread_cond_wait(&opens, &door) == 0);
    CHECK(pthread_mutex_unlock(&door) == 0);
}

static void wait_until_came(int many) {
    while (atomic_load(&came) < many) usleep(1000);
}

static void open_next(void) {
    atomic_store(&came, 0);
    CHECK(pthread_mutex_lock(&door) == 0);
    opened++;
    CHECK(pthread_cond_broadcast(&opens) == 0);
    CHECK(pthread_mutex_unlock(&door) == 0);
}

/* The lock has a seat for 256 that hold it or wait. Others wait for a seat. */
static void take_the_one(void) {
    IS(aqs_lock_lock(&lock), AQS_OK);
    CHECK(aqs_lock_holds(&lock) == 1);
    count++;
    IS(aqs_lock_unlock(&lock), AQS_OK);
}

static void *live(void *given) {
    size_t i = (size_t)given;
    numbers[i] = aqs_thread_self();
    IS(aqs_rwlock_rdlock(&locks[i % LOCKS]), AQS_OK);
    wait_at(0);
    take_the_one();
    wait_at(1);
    CHECK(aqs_rwlock_read_holds(&locks[i % LOCKS]) == 1);
    CHECK(aqs_thread_interrupted() == (i % 3 == 0));
    IS(aqs_rwlock_rdunlock(&locks[i % LOCKS]), AQS_OK);
    IS(aqs_rwlock_rdunlock(&locks[i % LOCKS]), AQS_NOT_OWNER);
    return NULL;
}

/* Starts as many as the system has room for. */
static int start_all(void) {
    pthread_attr_t small;
    int all = 0;
    CHECK(pthread_attr_init(&small) == 0 && pthread_attr_setstacksize(&small, STACK) == 0);
    for (int error = 0; all < CROWD; all++) {
        error = pthread_create(&threads[all], &small, live, (void *)(size_t)all);
        CHECK(error == 0 || error == EAGAIN);
        if (error) break;
    }
    CHECK(pthread_attr_destroy(&small) == 0);
    return all;
}

/* Each thread has another number, and they are the least that there are. */
static void are_numbers_of_their_own(int all) {
    static bool is_taken[CROWD + 1];
    for (int i = 0; i < all; i++) {
        CHECK(numbers[i] <= (aqs_thread_t)all && !is_taken[numbers[i]]);
        is_taken[numbers[i]] = true;
    }
}

int main(void) {
    alarm(100);
    CHECK(aqs_thread_self() == 0);
    IS(aqs_lock_init(&lock, NULL), AQS_OK);
    for (int i = 0; i < LOCKS; i++) IS(aqs_rwlock_init(&locks[i], NULL), AQS_OK);
    int all = start_all();
    wait_until_came(all);
    are_numbers_of_their_own(all);
    open_next();
    wait_until_came(all);
    CHECK(count == all);
    for (int i = 0; i < all; i += 3) IS(aqs_thread_interrupt(numbers[i]), AQS_OK);
    open_next();
    for (int i = 0; i < all; i++) CHECK(pthread_join(threads[i], NULL) == 0);
    for (int i = 0; i < LOCKS; i++) aqs_rwlock_close(&locks[i]);
    aqs_lock_close(&lock);
    CHECK(atomic_load(&held) == 0);
    if (all < CROWD) printf("left out: the system has no room for more than %d threads\n", all);
    printf("crowd: good, %d threads\n", all);
    return all < 300; /* a lock alone has seats for 256 */
}
