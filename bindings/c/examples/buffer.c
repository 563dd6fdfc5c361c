/* buffer.c [FILE]: one thread puts numbers into a bounded buffer, and the other takes them out. It prints their sum,
   5050. The lock has two conditions and keeps its history, which is written to FILE. */
#include <aqs.h>
#include <pthread.h>
#include <stdio.h>

enum { ROOM = 4, NUMBERS = 100 };
enum { NOT_FULL, NOT_EMPTY, CONDITIONS };

static aqs_lock_t *lock;
static int numbers[ROOM], first, count;

static void put(int number) {
    aqs_lock_lock_or_abort(lock);
    while (count == ROOM) aqs_lock_wait_or_abort(lock, NOT_FULL);
    numbers[(first + count++) % ROOM] = number;
    aqs_lock_signal_or_abort(lock, NOT_EMPTY);
    aqs_lock_unlock_or_abort(lock);
}

static int take(void) {
    aqs_lock_lock_or_abort(lock);
    while (count == 0) aqs_lock_wait_or_abort(lock, NOT_EMPTY);
    int number = numbers[first];
    first = (first + 1) % ROOM;
    count--;
    aqs_lock_signal_or_abort(lock, NOT_FULL);
    aqs_lock_unlock_or_abort(lock);
    return number;
}

static void *put_all(void *nothing) {
    for (int number = 1; number <= NUMBERS; number++) put(number);
    return nothing;
}

static int write_history(const char *name) {
    FILE *file = fopen(name, "w");
    if (file == NULL) return 1;
    aqs_status_t status = aqs_history_write(aqs_lock_object(lock), file);
    return fclose(file) != 0 || status != AQS_OK;
}

int main(int words, char **word) {
    aqs_options_t options = {.when_full = AQS_REFUSE, .threads = 2, .conditions = CONDITIONS};
    pthread_t thread;
    int sum = 0;

    if (aqs_lock_open(&lock, &options) != AQS_OK) return 1;
    if (pthread_create(&thread, NULL, put_all, NULL) != 0) return 1;
    for (int i = 0; i < NUMBERS; i++) sum += take();
    if (pthread_join(thread, NULL) != 0) return 1;
    printf("%d\n", sum);
    if (sum != 5050) return 1;
    if (words > 1 && write_history(word[1]) != 0) return 1;
    aqs_lock_close(lock);
    return 0;
}
