/* histories.c: what the texts of histories say, and what the calls that write them return and leave. */
#include "play.h"

#include "aqs_core.h"

#include <stdatomic.h>

static const play_t plays[] = {
    {"a new lock", "lock nonfair seats 3 conditions 2 cap 77", "", ""},
    {"a new read-write lock", "rw strict seats 3 conditions 16 cap 16", "", ""},
    {"a new semaphore", "semaphore fair seats 1 permits -5 cap 4294967295", "", ""},
    {"a new latch", "latch seats 8 count 9 cap 100", "", ""},
    {"a lock after a trim", "lock fair seats 2 conditions 1 cap 64",
     "1 lock = OK; 1 wait 0 ..; 0 lock = OK; 0 lock = OK; 0 trim = 4; 0 signal 0 = OK; 0 unlock = OK; "
     "0 unlock = OK; 1 = OK; 1 unlock = OK",
     "aqs-history 2 lock fair seats 2 conditions 1 cap 64\nbase 4\nseat 0 calls 2 x 2 s 0\n"
     "seat 1 calls 1 x 0 s 0\nsleeper 0 1 1\n4 0 signal 0 1\n5 0 gave x 1\n6 0 gave x 1\n"
     "7 1 back 0 1 signalled\n8 1 gave x 1\nend 9 8\n"},
    {"a read-write lock after two trims", "rw nonfair seats 4 conditions 1 cap 64",
     "0 rdlock = OK; 1 rdlock = OK; 2 wrlock ..; 0 trim = 3; 3 rdlock ..; 0 trim = 1; 1 rdunlock = OK; "
     "0 rdunlock = OK; 2 = OK; 2 wrunlock = OK; 3 = OK; 3 rdunlock = OK",
     "aqs-history 2 rw nonfair seats 4 conditions 1 cap 64\nbase 4\nseat 0 calls 1 x 0 s 1\n"
     "seat 1 calls 1 x 0 s 1\nseat 2 calls 0 x 0 s 0\nseat 3 calls 0 x 0 s 0\nline 2 queued x 1\n"
     "line 3 queued s 1\n4 1 gave s 1\n5 0 gave s 1\n6 2 granted x 1\n7 2 gave x 1\n8 3 granted s 1\n"
     "9 3 gave s 1\nend 10 8\n"},
    {"a semaphore after a trim", "semaphore strict seats 3 permits 3 cap 64",
     "0 acquire 2 = OK; 0 release 4 = OK; 1 acquire 9 ..; 0 trim = 3; 0 release 4 = OK; 1 = OK",
     "aqs-history 2 semaphore strict seats 3 permits 3 cap 64\nbase 3 unheld 2\nseat 0 calls 2 x 0 s 0\n"
     "seat 1 calls 0 x 0 s 0\nseat 2 calls 0 x 0 s 0\nline 1 queued s 9\n3 0 gave s 4\n4 1 granted s 9\nend 5 4\n"},
    {"a latch after a trim", "latch seats 3 count 2 cap 64",
     "0 count_down = OK; 1 await ..; 0 trim = 2; 0 count_down = OK; 1 = OK",
     "aqs-history 2 latch seats 3 count 2 cap 64\nbase 2 count 1\nseat 0 calls 1 x 0 s 0\n"
     "seat 1 calls 0 x 0 s 0\nseat 2 calls 0 x 0 s 0\nline 1 queued s 1\n2 0 counted s 1\n3 1 granted s 1\nend 4 3\n"},
    {"one that was folded as it was full", "lock fair seats 1 conditions 1 cap 16 trims",
     "0 lock = OK; 0 lock = OK; 0 lock = OK; 0 lock = OK; 0 lock = OK; 0 lock = OK; 0 lock = OK; "
     "0 lock = OK; 0 lock = OK; 0 unlock = OK; 0 unlock = OK; 0 unlock = OK; 0 unlock = OK; 0 unlock = OK; "
     "0 unlock = OK; 0 unlock = OK; 0 unlock = OK; 0 unlock = OK",
     "aqs-history 2 lock fair seats 1 conditions 1 cap 16\nbase 8\nseat 0 calls 8 x 8 s 0\n8 0 got x 1\n"
     "9 0 gave x 1\n10 0 gave x 1\n11 0 gave x 1\n12 0 gave x 1\n13 0 gave x 1\n14 0 gave x 1\n"
     "15 0 gave x 1\n16 0 gave x 1\n17 0 gave x 1\nend 18 18\n"},
    {"each word of a wait", "lock strict seats 3 conditions 3 cap 64",
     "0 lock = OK; 0 lock = OK; 0 timedwait 2 0 = TIMED_OUT; 1 lock_interruptibly ..; 0 interrupt 1 = OK; "
     "1 = INTERRUPTED; 0 interrupt 0 = OK; 0 wait_interruptibly 1 = INTERRUPTED; 1 timedlock 0 = TIMED_OUT; "
     "0 unlock = OK; 0 unlock = OK",
     "0 got x 1; 0 got x 1; 0 await 2 2; 0 lapse 2 timeout; 0 back 2 2 timeout; 1 queued x 1; "
     "1 left x 1 interrupt; 0 refused x 1 Interrupted; 1 missed x 1; 0 gave x 1; 0 gave x 1"},
};

/* A buffer that is too small is as it was, and so are the bytes behind a text that fits. */
static void buffers(void) {
    static char buffer[400], before[400];
    aqs_status_t status = AQS_NO_SPACE;
    size_t length = 99;
    IS(aqs_sem_open(&semaphore, 4, NULL), AQS_OK);
    object = aqs_sem_object(semaphore);
    IS(aqs_sem_acquire(semaphore, 3), AQS_OK);
    IS(aqs_history_text(object, NULL, 0, &length), AQS_NO_SPACE);
    size_t whole = length;
    for (size_t size = 0; size < sizeof buffer; size++) {
        memset(buffer, 7, sizeof buffer);
        memset(before, 7, sizeof before);
        length = 99;
        status = aqs_history_text(object, size ? buffer : NULL, size, &length);
        CHECK(length == whole);
        CHECK(status == (size < whole ? AQS_NO_SPACE : AQS_OK));
        size_t written = status == AQS_OK ? whole : 0;
        CHECK(memcmp(buffer + written, before + written, sizeof buffer - written) == 0);
    }
    const char *wanted =
        "aqs-history 1 semaphore nonfair seats 256 permits 4 cap 1024\n0 0 got s 3\nend 1 1\n";
    CHECK(whole == strlen(wanted) && memcmp(buffer, wanted, whole) == 0);
    aqs_sem_close(semaphore);
}

/* The text in a file is the text in a buffer, however long it is. */
static void files(void) {
    const aqs_options_t options = {.when_full = AQS_REFUSE};
    IS(aqs_sem_open(&semaphore, 4, &options), AQS_OK);
    object = aqs_sem_object(semaphore);
    for (int i = 0; i < 5000; i++) {
        if (i % 500 < 20) {
            size_t length = 0, read;
            IS(aqs_history_text(object, NULL, 0, &length), AQS_NO_SPACE);
            char *in_buffer = malloc(length), *in_file = malloc(length + 1);
            FILE *file = tmpfile();
            CHECK(in_buffer && in_file && file);
            IS(aqs_history_text(object, in_buffer, length, &length), AQS_OK);
            IS(aqs_history_write(object, file), AQS_OK);
            rewind(file);
            read = fread(in_file, 1, length + 1, file);
            CHECK(read == length && memcmp(in_buffer, in_file, length) == 0);
            CHECK(fclose(file) == 0);
            free(in_buffer);
            free(in_file);
        }
        IS(i % 2 ? aqs_sem_release(semaphore, 1) : aqs_sem_tryacquire(semaphore, 1), AQS_OK);
    }
    FILE *full = fopen("/dev/full", "w"), *closed = fopen("/dev/null", "r"), *small = fmemopen(NULL, 100, "w+");
    CHECK(full && closed && small && setvbuf(full, NULL, _IONBF, 0) == 0 && setvbuf(small, NULL, _IONBF, 0) == 0);
    IS(aqs_history_write(object, full), AQS_IO_ERROR);
    IS(aqs_history_write(object, closed), AQS_IO_ERROR);
    IS(aqs_history_write(object, small), AQS_IO_ERROR);
    CHECK(ftell(small) > 0); /* a part of it was written */
    fclose(full);
    fclose(closed);
    fclose(small);
    aqs_sem_close(semaphore);
}

/* A text that three threads lengthen without pause, as if each try found it half as long again. */
enum { STORMS = 3, READS = 20, MOST_TRIES = 6, LEAST = 500 /* milliseconds */ };
static atomic_bool is_over;
static _Thread_local unsigned tries_left; /* of a thread that reads such a text */
static _Thread_local uint64_t told;       /* the length at its last try */

uint8_t __real_aqs_text_now(aqs_pass_t *pass, uint8_t *out, size_t size, uint64_t *length);
uint8_t __wrap_aqs_text_now(aqs_pass_t *pass, uint8_t *out, size_t size, uint64_t *length) {
    const uint64_t longer = told + told / 2;
    uint8_t kind = __real_aqs_text_now(pass, out, size < longer ? 1 : size, length);
    if (!tries_left || kind != AQS_IS_ENTRY) return kind;
    CHECK(--tries_left > 0);
    if (size < longer && *length < longer) *length = longer;
    told = *length;
    return kind;
}

static void *lock_without_pause(void *none) {
    while (!is_over) {
        IS(aqs_lock_lock(lock), AQS_OK);
        IS(aqs_lock_unlock(lock), AQS_OK);
    }
    return none;
}

/* How many entries it has. Its last line says as many. */
static unsigned long entries_of(const char *read) {
    unsigned long first = 0, entries = 0, end = 0, calls = 0;
    const char *base = strstr(read, "\nbase "), *last = strstr(read, "\nend ");
    int taken = 0;
    CHECK(strncmp(read, "aqs-history ", 12) == 0 && last);
    if (base) first = strtoul(base + strlen("\nbase "), NULL, 10);
    for (const char *line = read; line != last + 1; line = strchr(line, '\n') + 1) entries += *line <= '9';
    CHECK(sscanf(last, "\nend %lu %lu%n", &end, &calls, &taken) == 2 && strcmp(last + taken, "\n") == 0);
    CHECK(end == first + entries);
    return entries;
}

static unsigned long read_now(void) {
    FILE *file = tmpfile();
    CHECK(file && aqs_history_trim(object, NULL) == AQS_OK);
    tries_left = MOST_TRIES;
    IS(aqs_history_write(object, file), AQS_OK);
    tries_left = 0, told = 0;
    long length = ftell(file);
    char *read = calloc(1, (size_t)length + 1);
    rewind(file);
    CHECK(read && fread(read, 1, (size_t)length, file) == (size_t)length && fclose(file) == 0);
    unsigned long entries = entries_of(read);
    free(read);
    return entries;
}

static void growing(void) {
    const aqs_options_t options = {.when_full = AQS_REFUSE};
    pthread_t storms[STORMS];
    unsigned long entries = 0;
    IS(aqs_lock_open(&lock, &options), AQS_OK);
    object = aqs_lock_object(lock);
    for (int i = 0; i < STORMS; i++) CHECK(pthread_create(&storms[i], NULL, lock_without_pause, NULL) == 0);
    const int64_t until = nanoseconds(CLOCK_MONOTONIC) + LEAST * INT64_C(1000000);
    for (int i = 0; i < READS || !entries || nanoseconds(CLOCK_MONOTONIC) < until; i++) entries += read_now();
    is_over = true;
    for (int i = 0; i < STORMS; i++) CHECK(pthread_join(storms[i], NULL) == 0);
    aqs_lock_close(lock);
}

static void trims(void) {
    uint64_t count = 99;
    IS(aqs_latch_open(&latch, 9, NULL), AQS_OK);
    object = aqs_latch_object(latch);
    IS(aqs_history_trim(object, &count), AQS_OK);
    CHECK(count == 0);
    for (int i = 0; i < 5; i++) IS(aqs_latch_count_down(latch), AQS_OK);
    IS(aqs_history_trim(object, &count), AQS_OK);
    CHECK(count == 5);
    IS(aqs_latch_count_down(latch), AQS_OK);
    IS(aqs_history_trim(object, NULL), AQS_OK);
    IS(aqs_history_trim(object, &count), AQS_OK);
    CHECK(count == 0);
    aqs_latch_close(latch);
}

static void *look(void *none) {
    buffers();
    files();
    growing();
    trims();
    return none;
}

int main(void) {
    pthread_t thread;
    alarm(100);
    CHECK(pthread_create(&thread, NULL, look, NULL) == 0);
    CHECK(pthread_join(thread, NULL) == 0);
    start_players();
    PLAY_ALL(plays);
    return good("histories");
}
