/* growing.c: as if others had lengthened a history by half between two tries of aqs_jni.c to read it, as if that of a
   latch were the longest of all, and as if no call of the library could last longer than 20 milliseconds. */
#include "aqs.h"

#include <stdio.h>
#include <stdlib.h>
#include <string.h>

enum { MOST_TRIES = 6, LONGEST = 20 };

/* Of a text that is read now. */
static _Thread_local unsigned tries;
static _Thread_local size_t told; /* the length at the last try */

aqs_status_t __real_aqs_history_text(aqs_object_t *object, char *buffer, size_t size, size_t *length);
aqs_status_t __wrap_aqs_history_text(aqs_object_t *object, char *buffer, size_t size, size_t *length) {
    const size_t longer = told + told / 2;
    aqs_status_t status = __real_aqs_history_text(object, buffer, size < longer ? 0 : size, length);
    if (status == AQS_OK && strncmp(buffer, "aqs-history 1 latch ", 20) == 0) {
        *length = INT32_MAX;
        return size < *length ? AQS_NO_SPACE : AQS_OK;
    }
    if (status != AQS_NO_SPACE) {
        tries = 0, told = 0;
        return status;
    }
    if (++tries == MOST_TRIES) {
        fprintf(stderr, "test/growing.c:%d: not so: a history is read in %d tries\n", __LINE__, MOST_TRIES);
        _Exit(1);
    }
    if (size < longer && *length < longer) *length = longer;
    told = *length;
    return status;
}

/* The time of such a call. A longer one than an int of Java has was cut wrongly. */
static uint32_t piece(uint32_t milliseconds) {
    if (milliseconds > INT32_MAX) {
        fprintf(stderr, "test/growing.c:%d: not so: a time is an int of Java\n", __LINE__);
        _Exit(1);
    }
    return milliseconds < LONGEST ? milliseconds : LONGEST;
}

aqs_status_t __real_aqs_sem_timedacquire(aqs_sem_t *semaphore, uint32_t n, uint32_t milliseconds);
aqs_status_t __wrap_aqs_sem_timedacquire(aqs_sem_t *semaphore, uint32_t n, uint32_t milliseconds) {
    return __real_aqs_sem_timedacquire(semaphore, n, piece(milliseconds));
}

aqs_status_t __real_aqs_lock_timedwait(aqs_lock_t *lock, uint8_t condition, uint32_t milliseconds);
aqs_status_t __wrap_aqs_lock_timedwait(aqs_lock_t *lock, uint8_t condition, uint32_t milliseconds) {
    return __real_aqs_lock_timedwait(lock, condition, piece(milliseconds));
}
