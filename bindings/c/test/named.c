/* named.c: the names of the seats of a history, as `aqs draw --names` reads them. */
#include "check.h"

#include <fcntl.h>
#include <pthread.h>
#include <sched.h>
#include <stdatomic.h>
#include <string.h>
#include <sys/prctl.h>
#include <sys/stat.h>
#include <sys/syscall.h>

static aqs_lock_t *lock;

static void *lock_once(void *name) {
    CHECK(prctl(PR_SET_NAME, name) == 0);
    IS(aqs_lock_lock(lock), AQS_OK);
    IS(aqs_lock_unlock(lock), AQS_OK);
    return NULL;
}

static void in_thread(const char *name) {
    pthread_t thread;
    CHECK(pthread_create(&thread, NULL, lock_once, (void *)name) == 0);
    CHECK(pthread_join(thread, NULL) == 0);
}

static const char *names(void) {
    static char text[1000];
    size_t length, least = 0;
    aqs_object_t *object = aqs_lock_object(lock);
    IS(aqs_history_names(object, text, sizeof text - 1, &length), AQS_OK);
    text[length] = 0;
    if (length > 0) {
        char before = text[0];
        IS(aqs_history_names(object, text, length - 1, &least), AQS_NO_SPACE);
        CHECK(least == length && text[0] == before);
        IS(aqs_history_names(object, text, length, &least), AQS_OK);
        IS(aqs_history_names(object, NULL, 0, &least), AQS_NO_SPACE);
    }
    return text;
}

static void is(const char *found, const char *wanted) {
    if (strcmp(found, wanted) == 0) return;
    fprintf(stderr, "the names are\n%s\nand not\n%s", found, wanted);
    _Exit(1);
}

/* A thread ends while its name is read: as its file is about to be opened, or about to be read. The linker puts these
   in the place of open and read. */
enum { NOWHERE, AT_OPEN, AT_READ };
static int ends_at;
static pthread_t ending;
static char its_file[64];
static int opened = -1;
static atomic_bool has_locked, may_end;

static void end_here(int here) {
    if (ends_at != here) return;
    ends_at = NOWHERE;
    atomic_store(&may_end, true);
    CHECK(pthread_join(ending, NULL) == 0);
    while (access(its_file, F_OK) == 0) sched_yield();
}

int __real_open(const char *path, int flags, ...);
int __wrap_open(const char *path, int flags, ...) {
    bool is_its = strcmp(path, its_file) == 0;
    if (is_its) end_here(AT_OPEN);
    int file = __real_open(path, flags);
    if (is_its) opened = file;
    return file;
}

ssize_t __real_read(int file, void *to, size_t size);
ssize_t __wrap_read(int file, void *to, size_t size) {
    if (file == opened) end_here(AT_READ);
    return __real_read(file, to, size);
}

static void *lock_and_wait(void *name) {
    lock_once(name);
    snprintf(its_file, sizeof its_file, "/proc/self/task/%d/comm", (int)syscall(SYS_gettid));
    atomic_store(&has_locked, true);
    while (!atomic_load(&may_end)) sched_yield();
    return NULL;
}

/* The number that the next file gets. */
static int next_file(void) {
    int next = dup(2);
    close(next);
    return next;
}

static void ends_as_its_name_is_read(int here, const char *name, const char *wanted) {
    atomic_store(&has_locked, false), atomic_store(&may_end, false);
    CHECK(pthread_create(&ending, NULL, lock_and_wait, (void *)name) == 0);
    while (!atomic_load(&has_locked)) sched_yield();
    ends_at = here;
    int next = next_file();
    is(names(), wanted);
    CHECK(ends_at == NOWHERE && next_file() == next);
}

static void saved(const char *folder) {
    char path[1000], found[1000] = "", small[1100];
    snprintf(path, sizeof path, "%s/named.history", folder);
    snprintf(small, sizeof small, "%s.names", path);
    (void)remove(path), (void)remove(small);
    CHECK(mkdir(small, 0700) == 0);
    IS(aqs_history_save(aqs_lock_object(lock), path), AQS_IO_ERROR);
    CHECK(rmdir(small) == 0);
    IS(aqs_history_save(aqs_lock_object(lock), path), AQS_OK);
    FILE *file = fopen(path, "r");
    CHECK(file && fgets(found, sizeof found, file) && strncmp(found, "aqs-history ", 12) == 0);
    fclose(file);
    file = fopen(small, "r");
    CHECK(file && (found[fread(found, 1, sizeof found - 1, file)] = 0, true));
    fclose(file);
    is(found, names());
    snprintf(path, sizeof path, "%s/not there/named.history", folder);
    IS(aqs_history_save(aqs_lock_object(lock), path), AQS_IO_ERROR);
    IS(aqs_history_save(aqs_lock_object(lock), "/dev/full"), AQS_IO_ERROR);
}

int main(int words, char **word) {
    alarm(60);
    CHECK(prctl(PR_SET_NAME, "the main one") == 0);
    IS(aqs_lock_open(&lock, &(aqs_options_t){.threads = 4}), AQS_OK);
    CHECK(aqs_thread_self() == 0);
    in_thread("parser");
    is(names(), "0 the_main_one\n1 parser\n");
    in_thread("fifteen letters");
    is(names(), "0 the_main_one\n1 fifteen_letters\n");
    IS(aqs_lock_lock(lock), AQS_OK);
    CHECK(prctl(PR_SET_NAME, "main") == 0);
    is(names(), "0 main\n1 fifteen_letters\n");
    IS(aqs_lock_unlock(lock), AQS_OK);
    ends_as_its_name_is_read(AT_OPEN, "opened", "0 main\n1 opened\n");
    ends_as_its_name_is_read(AT_READ, "read", "0 main\n1 read\n");
    saved(words > 1 ? word[1] : "/tmp");
    aqs_lock_close(lock);
    puts("named: good");
    return 0;
}
