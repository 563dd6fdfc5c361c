/* check.h: what the tests share. */
#ifndef AQS_RECORD_TEST_CHECK_H
#define AQS_RECORD_TEST_CHECK_H

#include <pthread.h>
#include <stdio.h>
#include <time.h>
#include <unistd.h>

#define CHECK(fact)                                                            \
    do {                                                                       \
        if (!(fact)) {                                                         \
            fprintf(stderr, "%s:%d: not so: %s\n", __FILE__, __LINE__, #fact); \
            _exit(1);                                                          \
        }                                                                      \
    } while (0)

/* The moment that comes this long after now. */
static inline struct timespec after(clockid_t clock, long milliseconds) {
    struct timespec time;
    clock_gettime(clock, &time);
    time.tv_sec += milliseconds / 1000, time.tv_nsec += milliseconds % 1000 * 1000000;
    if (time.tv_nsec >= 1000000000) time.tv_sec++, time.tv_nsec -= 1000000000;
    return time;
}

/* A call that is always put in line. */
static inline __attribute__((always_inline)) void lock_in_line(pthread_mutex_t *mutex) {
    CHECK(pthread_mutex_lock(mutex) == 0); /* in a header */
}

#endif
