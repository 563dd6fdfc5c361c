/* waits.c: how long each call waits, how late it ends, and how long it has a processor meanwhile. A machine
   that is busy makes calls late, so of several calls the best counts. No load makes one early. */
#define PLAYERS 34
#include "play.h"

enum { LATEST = 20, MOST = 60, QUIET = 60, SECOND = 1000, USED = 5 };

/* A call: what makes thread 1 and others wait in it, by whom, and what ends all waits. $ stands for the
 * thread. */
typedef struct {
    const char *object, *before, *each, *call, *event, *after;
} wait_t;

static const wait_t timed[] = {
    {"lock fair seats 6 conditions 1 cap 500", "0 lock = OK", "", "timedlock", "0 unlock = OK",
     "$ unlock = OK"},
    {"lock nonfair seats 6 conditions 2 cap 500", "", "$ lock = OK; ", "timedwait 1",
     "0 lock = OK; 0 signal 1 = OK; 0 unlock = OK", "$ unlock = OK"},
    {"rw fair seats 6 conditions 1 cap 500", "0 wrlock = OK", "", "timedrdlock", "0 wrunlock = OK",
     "$ rdunlock = OK"},
    {"rw nonfair seats 6 conditions 1 cap 500", "0 rdlock = OK", "", "timedwrlock", "0 rdunlock = OK",
     "$ wrunlock = OK"},
    {"rw strict seats 6 conditions 1 cap 500", "", "$ wrlock = OK; ", "timedwait 0",
     "0 wrlock = OK; 0 signal_all 0 = OK; 0 wrunlock = OK", "$ wrunlock = OK"},
    {"mutex fair seats 6 conditions 1 cap 500", "0 lock = OK", "", "timedlock", "0 unlock = OK",
     "$ unlock = OK"},
    {"mutex nonfair seats 6 conditions 2 cap 500", "", "$ lock = OK; ", "timedwait 1",
     "0 lock = OK; 0 signal_all 1 = OK; 0 unlock = OK", "$ unlock = OK"},
    {"semaphore fair seats 6 permits 0 cap 500", "", "", "timedacquire 1", "0 release 1 = OK", ""},
    {"latch seats 6 count 1 cap 500", "", "", "timedawait", "0 count_down = OK", ""},
};

static const wait_t untimed[] = {
    {"lock fair seats 6 conditions 1 cap 500", "0 lock = OK", "", "lock", "0 unlock = OK", "$ unlock = OK"},
    {"lock fair seats 6 conditions 1 cap 500", "0 lock = OK", "", "lock_interruptibly", "0 unlock = OK",
     "$ unlock = OK"},
    {"lock fair seats 6 conditions 1 cap 500", "", "$ lock = OK; ", "wait 0",
     "0 lock = OK; 0 signal 0 = OK; 0 unlock = OK", "$ unlock = OK"},
    {"lock fair seats 6 conditions 1 cap 500", "", "$ lock = OK; ", "wait_interruptibly 0",
     "0 lock = OK; 0 signal_all 0 = OK; 0 unlock = OK", "$ unlock = OK"},
    {"rw fair seats 6 conditions 1 cap 500", "0 wrlock = OK", "", "rdlock", "0 wrunlock = OK",
     "$ rdunlock = OK"},
    {"rw fair seats 6 conditions 1 cap 500", "0 wrlock = OK", "", "rdlock_interruptibly", "0 wrunlock = OK",
     "$ rdunlock = OK"},
    {"rw fair seats 6 conditions 1 cap 500", "0 rdlock = OK", "", "wrlock", "0 rdunlock = OK",
     "$ wrunlock = OK"},
    {"rw fair seats 6 conditions 1 cap 500", "0 rdlock = OK", "", "wrlock_interruptibly", "0 rdunlock = OK",
     "$ wrunlock = OK"},
    {"rw fair seats 6 conditions 1 cap 500", "", "$ wrlock = OK; ", "wait 0",
     "0 wrlock = OK; 0 signal 0 = OK; 0 wrunlock = OK", "$ wrunlock = OK"},
    {"rw fair seats 6 conditions 1 cap 500", "", "$ wrlock = OK; ", "wait_interruptibly 0",
     "0 wrlock = OK; 0 signal_all 0 = OK; 0 wrunlock = OK", "$ wrunlock = OK"},
    {"semaphore fair seats 6 permits 0 cap 500", "", "", "acquire 1", "0 release 1 = OK", ""},
    {"semaphore fair seats 6 permits 0 cap 500", "", "", "acquire_interruptibly 1", "0 release 1 = OK", ""},
    {"latch seats 6 count 1 cap 500", "", "", "await", "0 count_down = OK", ""},
    {"latch seats 6 count 1 cap 500", "", "", "await_interruptibly", "0 count_down = OK", ""},
};

/* Makes a thread wait in a call with a time, or without one. */
static void begin(kind_t kind, const wait_t *row, int thread, const char *time) {
    char line[200];
    snprintf(line, sizeof line, "%s$ %s%s ..", row->each, row->call, time);
    play_for(kind, thread, line);
}

/* Whether even the best of some calls was late. */
static bool is_late(int64_t best) { return best > LATEST * INT64_C(1000000); }

/* Times that are up: never early, and of each time the best at most 20 milliseconds late. */
static void ends_in_time(const wait_t *row) {
    static const struct {
        unsigned milliseconds;
        int times;
    } of[] = {{1, 40}, {2, 30}, {9, 3}, {35, 2}};
    char line[200];
    play_name = row->object;
    for (size_t i = 0; i < sizeof of / sizeof of[0]; i++) {
        int64_t best = INT64_MAX;
        kind_t kind = open_part(row->object);
        play_for(kind, 1, row->before);
        play_for(kind, 1, row->each);
        snprintf(line, sizeof line, "1 %s %u = TIMED_OUT", row->call, of[i].milliseconds);
        for (int times = 0; times < of[i].times || (is_late(best) && times < MOST); times++) {
            usleep((unsigned)(times * 377 % 1000));
            play_lines(kind, line);
            int64_t late = players[1].took - of[i].milliseconds * INT64_C(1000000);
            if (late < best) best = late;
        }
        play_line = line;
        if (is_late(best)) FAIL("it is %lld ns late", (long long)best);
        close_it(kind);
    }
}

/* Times that aren't up: threads 1 to 5 still wait after a while, however long their time is. */
static void goes_on(const wait_t *row) {
    static const char *const times[] = {" 20000", " 65539", " 16777219", " 2147483651", " 4294967295"};
    play_name = row->object;
    kind_t kind = open_part(row->object);
    play_for(kind, 0, row->before);
    for (int i = 0; i < 5; i++) begin(kind, row, i + 1, times[i]);
    usleep(QUIET * 1000);
    for (int i = 1; i <= 5; i++) {
        play_for(kind, i, "$ waits; 0 interrupt $ = OK; $ = INTERRUPTED");
        if (*row->each) play_for(kind, i, row->after);
    }
    close_it(kind);
}

/* A call ends at its event, and not before: of some the best at most 20 milliseconds after it. */
static void ends_at_event(const wait_t *row, const char *time) {
    int64_t best = INT64_MAX;
    play_name = row->object;
    for (int times = 0; times < 4 || (is_late(best) && times < MOST); times++) {
        kind_t kind = open_part(row->object);
        play_for(kind, 0, row->before);
        begin(kind, row, 1, time);
        usleep(times ? 2000 : QUIET * 1000);
        play_for(kind, 1, "$ waits");
        int64_t at = nanoseconds(CLOCK_MONOTONIC);
        play_for(kind, 1, row->event);
        play_for(kind, 1, "$ = OK");
        int64_t late = nanoseconds(CLOCK_MONOTONIC) - at;
        if (late < best) best = late;
        play_for(kind, 1, row->after);
        close_it(kind);
    }
    play_line = row->call;
    if (is_late(best)) FAIL("it ends %lld ns after its event", (long long)best);
}

/* Threads that wait for a second, all at the same time ------------------------------------------------- */

typedef struct {
    kind_t kind;
    const char *before, *call, *after;
} sleeper_t;

/* Thread 0 owns the lock and the write side. It has no permits, and the latch isn't open. */
static const sleeper_t sleepers[] = {
    {LOCK, "", "lock", "$ unlock = OK"},
    {LOCK, "", "lock_interruptibly", "$ unlock = OK"},
    {LOCK, "", "timedlock 20000", "$ unlock = OK"},
    {LOCK, "0 interrupt $ = OK", "lock", "$ interrupted = 1; $ unlock = OK"},
    {RW, "", "rdlock", "$ rdunlock = OK"},
    {RW, "", "wrlock", "$ wrunlock = OK"},
    {RW, "", "rdlock_interruptibly", "$ rdunlock = OK"},
    {RW, "", "wrlock_interruptibly", "$ wrunlock = OK"},
    {RW, "", "timedrdlock 20000", "$ rdunlock = OK"},
    {RW, "", "timedwrlock 20000", "$ wrunlock = OK"},
    {RW, "0 interrupt $ = OK", "wrlock", "$ interrupted = 1; $ wrunlock = OK"},
    {SEM, "", "acquire 1", ""},
    {SEM, "", "acquire_interruptibly 1", ""},
    {SEM, "", "timedacquire 1 20000", ""},
    {SEM, "0 interrupt $ = OK", "acquire 1", "$ interrupted = 1"},
    {LATCH, "", "await", ""},
    {LATCH, "", "await_interruptibly", ""},
    {LATCH, "", "timedawait 20000", ""},
    {LATCH, "0 interrupt $ = OK", "await", "$ interrupted = 1"},
};

/* These own the lock or the write side before they wait, and have it again afterwards. */
static const sleeper_t owners[] = {
    {LOCK, "$ lock = OK", "wait 0", "$ unlock = OK"},
    {LOCK, "$ lock = OK; $ lock = OK", "wait_interruptibly 0", "$ unlock = OK; $ unlock = OK"},
    {LOCK, "$ lock = OK", "timedwait 0 20000", "$ unlock = OK"},
    {LOCK, "$ lock = OK; 0 interrupt $ = OK", "wait 0", "$ interrupted = 1; $ unlock = OK"},
    {RW, "$ wrlock = OK", "wait 0", "$ wrunlock = OK"},
    {RW, "$ wrlock = OK", "wait_interruptibly 0", "$ wrunlock = OK"},
    {RW, "$ wrlock = OK", "timedwait 0 20000", "$ wrunlock = OK"},
};

enum { SLEEPERS = sizeof sleepers / sizeof sleepers[0], OWNERS = sizeof owners / sizeof owners[0] };

static void fall_asleep(const sleeper_t *row, int thread) {
    char line[200];
    snprintf(line, sizeof line, "%s; $ %s ..", row->before, row->call);
    play_for(row->kind, thread, line);
}

static void get_up(const sleeper_t *row, int thread) {
    play_name = row->call;
    play_for(row->kind, thread, "$ = OK");
    int64_t used = players[thread].used;
    if (players[thread].took < SECOND * INT64_C(1000000)) FAIL("it didn't wait for a second");
    if (used > USED * INT64_C(1000000)) FAIL("in a second it had a processor for %lld ns", (long long)used);
    play_for(row->kind, thread, row->after);
}

static void sleep_a_second(void) {
    const aqs_options_t options = {.policy = AQS_FAIR, .threads = PLAYERS};
    IS(aqs_lock_open(&lock, &options), AQS_OK);
    IS(aqs_rwlock_open(&rwlock, &options), AQS_OK);
    IS(aqs_sem_open(&semaphore, 0, &options), AQS_OK);
    IS(aqs_latch_open(&latch, 1, &options), AQS_OK);
    play_name = "threads that wait for a second";
    for (int i = 0; i < OWNERS; i++) fall_asleep(&owners[i], 1 + i);
    play_lines(LOCK, "0 lock = OK");
    play_lines(RW, "0 wrlock = OK");
    for (int i = 0; i < SLEEPERS; i++) fall_asleep(&sleepers[i], 1 + OWNERS + i);
    /* one whose time is a second exactly, and then all others */
    play_lines(SEM, "33 timedacquire 1 1000 = TIMED_OUT");
    if (players[33].used > USED * INT64_C(1000000))
        FAIL("it had a processor for %lld ns", (long long)players[33].used);
    play_lines(LOCK, "0 signal_all 0 = OK; 0 unlock = OK");
    play_lines(RW, "0 signal_all 0 = OK; 0 wrunlock = OK");
    play_lines(SEM, "0 release 4 = OK");
    play_lines(LATCH, "0 count_down = OK");
    for (int i = 0; i < SLEEPERS; i++) get_up(&sleepers[i], 1 + OWNERS + i);
    for (int i = 0; i < OWNERS; i++) get_up(&owners[i], 1 + i);
    for (kind_t kind = LOCK; kind <= LATCH; kind++) close_it(kind);
}

#define EACH(rows, ...) \
    for (size_t i = 0; i < sizeof rows / sizeof rows[0]; i++) __VA_ARGS__

int main(void) {
    alarm(100);
    start_players();
    EACH(timed, ends_in_time(&timed[i]));
    EACH(timed, goes_on(&timed[i]));
    EACH(timed, ends_at_event(&timed[i], " 20000"));
    EACH(untimed, ends_at_event(&untimed[i], ""));
    sleep_a_second();
    return good("waits");
}
