/* bounded.c [FOLDER]: the bounded buffer: two conditions, a signal for one, 3 threads that put and 3 that take, 60,000
   numbers. It is made with conditions by number and with conditions as objects. */
#include "check.h"

#include <pthread.h>

enum { ROOM = 8, THREADS = 3, EACH = 20000 };
enum { NOT_FULL, NOT_EMPTY };

static aqs_lock_t *lock;
static aqs_cond_t conditions[2] = {AQS_COND_INIT, AQS_COND_INIT};
static bool are_objects;
static uint8_t numbers[2];
static long buffer[ROOM], sum;
static int first, count, taken;

static void wait_on(int condition) {
    if (are_objects) IS(aqs_cond_wait(&conditions[condition], lock), AQS_OK);
    else IS(aqs_lock_wait(lock, numbers[condition]), AQS_OK);
}

static void signal_one(int condition) {
    if (are_objects) IS(aqs_cond_signal(&conditions[condition]), AQS_OK);
    else IS(aqs_lock_signal(lock, numbers[condition]), AQS_OK);
}

static void *put(void *begin) {
    for (long i = 0; i < EACH; i++) {
        IS(aqs_lock_lock(lock), AQS_OK);
        while (count == ROOM) wait_on(NOT_FULL);
        buffer[(first + count++) % ROOM] = (long)begin + i;
        signal_one(NOT_EMPTY);
        IS(aqs_lock_unlock(lock), AQS_OK);
    }
    return NULL;
}

static void *take(void *none) {
    for (int i = 0; i < EACH; i++) {
        IS(aqs_lock_lock(lock), AQS_OK);
        while (count == 0) wait_on(NOT_EMPTY);
        sum += buffer[first];
        first = (first + 1) % ROOM, count--, taken++;
        signal_one(NOT_FULL);
        IS(aqs_lock_unlock(lock), AQS_OK);
    }
    return none;
}

static void play(void) {
    pthread_t threads[2 * THREADS];
    long all = (long)THREADS * EACH;
    sum = taken = 0;
    for (long i = 0; i < THREADS; i++) {
        CHECK(pthread_create(&threads[i], NULL, put, (void *)(i * EACH)) == 0);
        CHECK(pthread_create(&threads[THREADS + i], NULL, take, NULL) == 0);
    }
    for (int i = 0; i < 2 * THREADS; i++) CHECK(pthread_join(threads[i], NULL) == 0);
    CHECK(taken == all && count == 0 && sum == all * (all - 1) / 2);
}

int main(int words, char **word) {
    alarm(100);
    IS(aqs_lock_open(&lock, &(aqs_options_t){.threads = 2 * THREADS}), AQS_OK);
    for (int i = 0; i < 2; i++) IS(aqs_object_take_condition(aqs_lock_object(lock), &numbers[i]), AQS_OK);
    CHECK(numbers[0] != numbers[1]);
    play();
    if (words > 1) keep_history(aqs_lock_object(lock), word[1], "bounded-c");
    are_objects = true;
    play();
    aqs_lock_close(lock);
    puts("bounded: good");
    return 0;
}
