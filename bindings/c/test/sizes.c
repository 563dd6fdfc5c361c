/* sizes.c [LOCKS]: what a lock takes, beside what an earlier default took. For each way to open one: the bytes
   that the allocator gave for it, and how many of them are resident, when it is opened, after a pair of lock and
   unlock, and after 4,200 pairs, which fill 8,192 entries. All are means of LOCKS locks (1,000). Then the
   microseconds of an opening: the mean in new memory, and the median in that of a lock which was closed. */
#include "aqs.h"

#include <malloc.h>
#include <stdio.h>
#include <stdlib.h>
#include <time.h>
#include <unistd.h>

enum { TIMES = 2001, PAIRS = 4200 };

typedef struct {
    const char *name;
    aqs_options_t options;
} way_t;

static const way_t ways[] = {
    {"64 seats, 8,192 entries: an earlier default", {.threads = 64, .history = 8192}},
    {"256 seats, 8,192 entries", {.history = 8192}},
    {"256 seats, 1,024 entries: the default", {.threads = 0}},
    {"the same, 16 conditions: a static lock", {.conditions = 16}},
    {"16 seats, 1,024 entries", {.threads = 16}},
    {"16 seats, 64 entries", {.threads = 16, .history = 64}},
    {"1 seat, 1,024 entries", {.threads = 1}},
    {"1 seat, 64 entries", {.threads = 1, .history = 64}},
};

static void must(aqs_status_t status) {
    if (status == AQS_OK) return;
    fprintf(stderr, "sizes: %s\n", aqs_status_name(status));
    abort();
}

static void use(aqs_lock_t *lock, int pairs) {
    for (int i = 0; i < pairs; i++) {
        must(aqs_lock_lock(lock));
        must(aqs_lock_unlock(lock));
    }
}

static double microseconds(void) {
    struct timespec now;
    clock_gettime(CLOCK_MONOTONIC, &now);
    return (double)now.tv_sec * 1e6 + (double)now.tv_nsec / 1e3;
}

/* What the allocator gave, with blocks of their own pages. */
static long given(void) {
    struct mallinfo2 all = mallinfo2();
    return (long)(all.uordblks + all.hblkhd);
}

static long resident(void) {
    long all, here = 0;
    FILE *file = fopen("/proc/self/statm", "r");
    if (!file || fscanf(file, "%ld %ld", &all, &here) != 2) abort();
    fclose(file);
    return here * sysconf(_SC_PAGESIZE);
}

static int by_size(const void *one, const void *other) {
    double left = *(const double *)one, right = *(const double *)other;
    return (left > right) - (left < right);
}

/* The median of many openings, each of which finds the memory of a lock that was closed. */
static double reopening(const aqs_options_t *options) {
    static double times[TIMES];
    aqs_lock_t *lock;
    for (int i = 0; i < TIMES; i++) {
        double begin = microseconds();
        must(aqs_lock_open(&lock, options));
        times[i] = microseconds() - begin;
        use(lock, 1);
        aqs_lock_close(lock);
    }
    qsort(times, TIMES, sizeof times[0], by_size);
    return times[TIMES / 2];
}

static void measure(const way_t *way, unsigned count) {
    aqs_lock_t **locks = malloc(count * sizeof *locks), *one;
    if (!locks) abort();
    for (unsigned i = 0; i < count; i++) locks[i] = NULL;
    must(aqs_lock_open(&one, NULL)); /* the library and the thread have what they need */
    use(one, 1);
    aqs_lock_close(one);
    malloc_trim(0);
    long before = given(), shown = resident();
    double begin = microseconds();
    for (unsigned i = 0; i < count; i++) must(aqs_lock_open(&locks[i], &way->options));
    double opening = (microseconds() - begin) / count;
    long opened = given() - before, seen_opened = resident() - shown;
    for (unsigned i = 0; i < count; i++) use(locks[i], 1);
    long once = given() - before, seen_once = resident() - shown;
    for (unsigned i = 0; i < count; i++) use(locks[i], PAIRS);
    long often = given() - before, seen_often = resident() - shown;
    for (unsigned i = 0; i < count; i++) aqs_lock_close(locks[i]);
    printf("%-44s %7ld %7ld %7ld given, %7ld %7ld %7ld resident, opens in %6.1f us, again %5.1f\n", way->name,
           opened / count, once / count, often / count, seen_opened / count, seen_once / count, seen_often / count, opening,
           reopening(&way->options));
    free(locks);
}

int main(int words, char **word) {
    unsigned count = words > 1 ? (unsigned)atoi(word[1]) : 1000;
    if (count == 0) return 2;
    for (size_t i = 0; i < sizeof ways / sizeof ways[0]; i++) measure(&ways[i], count);
    return 0;
}
