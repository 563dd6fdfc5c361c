/* first.c: two threads add to one number, which a fair lock guards. It prints 42. */
#include <aqs.h>
#include <pthread.h>
#include <stdio.h>

static aqs_lock_t *lock;
static int number;

static void *add(void *more) {
    if (aqs_lock_lock(lock) != AQS_OK) return "not locked";
    number += *(int *)more;
    return aqs_lock_unlock(lock) == AQS_OK ? NULL : "not unlocked";
}

int main(void) {
    aqs_options_t fair = {.policy = AQS_FAIR};
    pthread_t threads[2];
    int more[2] = {40, 2};
    void *fault = NULL;

    if (aqs_lock_open(&lock, &fair) != AQS_OK) return 1;
    for (int i = 0; i < 2; i++)
        if (pthread_create(&threads[i], NULL, add, &more[i]) != 0) return 1;
    for (int i = 0; i < 2; i++)
        if (pthread_join(threads[i], &fault) != 0 || fault != NULL) return 1;
    printf("%d\n", number);
    aqs_lock_close(lock);
    return 0;
}
