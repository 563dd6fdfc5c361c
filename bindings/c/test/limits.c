/* limits.c: each limit of aqs.h at its value and one past it. Those that other tests reach are named in
 * docs/EVIDENCE.md. */
#define PLAYERS 256
#include "play.h"

#include <sys/wait.h>

/* Openings: what is within the limits, and what is past one. */
static const struct {
    kind_t kind;
    aqs_options_t options;
    int64_t number; /* permits or a count */
    aqs_status_t wanted;
} openings[] = {
    {LOCK, {.threads = 1, .conditions = 16, .history = 16}, 0, AQS_OK},
    {LOCK, {.threads = 256, .conditions = 1, .history = 4294967295u}, 0, AQS_OK},
    {LOCK, {.threads = 257}, 0, AQS_OUT_OF_RANGE},
    {LOCK, {.threads = 65535}, 0, AQS_OUT_OF_RANGE},
    {LOCK, {.conditions = 17}, 0, AQS_OUT_OF_RANGE},
    {LOCK, {.conditions = 255}, 0, AQS_OUT_OF_RANGE},
    {LOCK, {.history = 15}, 0, AQS_OUT_OF_RANGE},
    {LOCK, {.history = 1}, 0, AQS_OUT_OF_RANGE},
    {LOCK, {.policy = (aqs_policy_t)3}, 0, AQS_OUT_OF_RANGE},
    {LOCK, {.when_full = (aqs_when_full_t)2}, 0, AQS_OUT_OF_RANGE},
    {RW, {.threads = 1, .conditions = 16, .history = 16, .when_full = AQS_REFUSE}, 0, AQS_OK},
    {RW, {.threads = 256, .history = 4294967295u, .policy = AQS_STRICT}, 0, AQS_OK},
    {RW, {.threads = 257}, 0, AQS_OUT_OF_RANGE},
    {RW, {.conditions = 17}, 0, AQS_OUT_OF_RANGE},
    {RW, {.history = 15}, 0, AQS_OUT_OF_RANGE},
    {RW, {.policy = (aqs_policy_t)-1}, 0, AQS_OUT_OF_RANGE},
    {SEM, {.threads = 1, .history = 16}, -2147483648LL, AQS_OK},
    {SEM, {.threads = 256, .history = 4294967295u}, 2147483647, AQS_OK},
    {SEM, {.threads = 257}, 0, AQS_OUT_OF_RANGE},
    {SEM, {.conditions = 1}, 0, AQS_OUT_OF_RANGE},
    {SEM, {.history = 15}, 0, AQS_OUT_OF_RANGE},
    {LATCH, {.threads = 1, .history = 16, .policy = AQS_FAIR}, 0, AQS_OK},
    {LATCH, {.threads = 256, .history = 4294967295u}, 2147483647, AQS_OK},
    {LATCH, {0}, 2147483648LL, AQS_OUT_OF_RANGE},
    {LATCH, {0}, 4294967295LL, AQS_OUT_OF_RANGE},
    {LATCH, {.threads = 257}, 0, AQS_OUT_OF_RANGE},
    {LATCH, {.conditions = 1}, 0, AQS_OUT_OF_RANGE},
    {LATCH, {.history = 15}, 0, AQS_OUT_OF_RANGE},
};

static aqs_status_t opened(kind_t kind, const aqs_options_t *options, int64_t number) {
    switch (kind) {
        case LOCK: return aqs_lock_open(&lock, options);
        case RW: return aqs_rwlock_open(&rwlock, options);
        case SEM: return aqs_sem_open(&semaphore, (int32_t)number, options);
        default: return aqs_latch_open(&latch, (uint32_t)number, options);
    }
}

static void open_each(void) {
    play_name = "openings", play_line = "a row";
    for (size_t i = 0; i < sizeof openings / sizeof openings[0]; i++) {
        lock = (aqs_lock_t *)&lock, rwlock = (aqs_rwlock_t *)&lock;
        semaphore = (aqs_sem_t *)&lock, latch = (aqs_latch_t *)&lock;
        kind_t kind = openings[i].kind;
        aqs_status_t status = opened(kind, &openings[i].options, openings[i].number);
        void *it = kind == LOCK  ? (void *)lock
                   : kind == RW  ? (void *)rwlock
                   : kind == SEM ? (void *)semaphore
                                 : latch;
        if (status != openings[i].wanted) FAIL("of row %zu: %s", i, aqs_status_name(status));
        if (status != AQS_OK && it) FAIL("row %zu leaves a pointer", i);
        if (status == AQS_OK) close_it(kind);
    }
}

static const play_t plays[] = {
    {"the most and the fewest permits", "semaphore nonfair seats 256 permits -2147483648 cap 4294967295",
     "0 getvalue = -2147483648; 255 release 2147483647 = OK; 0 getvalue = -1; 0 tryacquire 0 = WOULD_BLOCK; "
     "0 release 2147483647 = OK; 0 getvalue = 2147483646; 0 release 2 = TOO_MANY_PERMITS; 0 release 1 = OK; "
     "0 tryacquire 2147483647 = OK; 0 getvalue = 0",
     "255 gave s 2147483647; 0 missed s 0; 0 gave s 2147483647; 0 refused s 2 TooManyPermits; 0 gave s 1; "
     "0 trygot s 2147483647"},
    {"the greatest count", "latch seats 256 count 2147483647 cap 16",
     "0 getcount = 2147483647; 255 count_down = OK; 0 getcount = 2147483646; 0 timedawait 0 = TIMED_OUT",
     "255 counted s 1; 0 missed s 1"},
    {"a count of none", "latch seats 1 count 0 cap 16", "0 getcount = 0; 0 count_down = OK; 0 await = OK",
     "0 counted s 1; 0 got s 1"},
    {"the last seat, and none past it", "lock fair seats 3 conditions 1 cap 64",
     "254 lock = OK; 255 lock ..; 200 lock_interruptibly ..; 3 timedlock 0 = TOO_MANY_THREADS; "
     "3 trylock = TOO_MANY_THREADS; 3 interrupt 200 = OK; 200 = INTERRUPTED; 3 trylock = WOULD_BLOCK; "
     "254 unlock = OK; 255 = OK; 255 unlock = OK",
     "2 got x 1; 0 queued x 1; 1 queued x 1; 1 left x 1 interrupt; 1 missed x 1; 2 gave x 1; 0 granted x 1; "
     "0 gave x 1"},
    {"the last condition, and none past it", "rw fair seats 256 conditions 16 cap 64",
     "255 wrlock = OK; 255 wait 15 ..; 0 wrlock = OK; 0 signal 16 = NO_SUCH_CONDITION; 0 signal 14 = OK; "
     "0 signal_all 15 = OK; 0 wrunlock = OK; 255 = OK; 255 wrunlock = OK",
     "255 got x 1; 255 await 15 1; 0 got x 1; 0 signal 14 0; 0 signalall 15 1; 0 gave x 1; "
     "255 back 15 1 signalled; 255 gave x 1"},
};

static void *finds_no_seat(void *none) {
    aqs_status_t statuses[] = {aqs_lock_trylock(lock), aqs_lock_timedlock(lock, 0), aqs_lock_wait(lock, 0),
                               aqs_history_trim(object, NULL)};
    for (int i = 0; i < 4; i++) CHECK(statuses[i] == AQS_TOO_MANY_THREADS);
    return none;
}

/* One of those that have the seats may unlock, so that a thread waits for its seat. */
static void *waits_for_a_seat(void *none) {
    IS(aqs_lock_timedlock(lock, 5), AQS_TIMED_OUT);
    return none;
}

static void *waits_longer(void *none) {
    IS(aqs_lock_timedlock(lock, 400), AQS_TIMED_OUT);
    return none;
}

/* None of them may. */
static void *is_refused(void *none) {
    IS(aqs_lock_lock(lock), AQS_TOO_MANY_THREADS);
    IS(aqs_lock_lock_interruptibly(lock), AQS_TOO_MANY_THREADS);
    IS(aqs_lock_timedlock(lock, 60000), AQS_TOO_MANY_THREADS);
    return none;
}

static void in_other(void *(*body)(void *)) {
    pthread_t thread;
    CHECK(pthread_create(&thread, NULL, body, NULL) == 0);
    CHECK(pthread_join(thread, NULL) == 0);
}

/* As many threads as an object can have seats wait on the 16 conditions of a lock, 16 on each, or own it. One
   more has no seat. */
static void all_wait(void) {
    char line[100];
    play_name = "256 threads on 16 conditions";
    kind_t kind = open_part("lock fair seats 256 conditions 16 cap 4000");
    for (int i = 1; i < PLAYERS; i++) {
        snprintf(line, sizeof line, "%d lock = OK; %d wait %d ..", i, i, i % 16);
        play_lines(kind, line);
    }
    play_lines(kind, "0 lock = OK");
    in_other(finds_no_seat);
    in_other(waits_for_a_seat);
    play_lines(kind, "0 timedwait 0 3000 ..");
    in_other(finds_no_seat);
    in_other(is_refused);
    play_lines(kind, "0 = TIMED_OUT");
    in_other(waits_longer); /* it has come back from its condition */
    play_lines(kind, "0 unlock = OK; 0 lock = OK; 0 unlock = OK; 1 waits");
    for (int condition = 15; condition >= 0; condition--) {
        snprintf(line, sizeof line, "0 lock = OK; 0 signal_all %d = OK; 0 unlock = OK", condition);
        play_lines(kind, line);
        for (int i = 1; i < PLAYERS; i++) {
            bool is_meant = i % 16 == condition;
            if (!is_meant && i % 16 < condition && !atomic_load(&players[i].in_call))
                FAIL("thread %d doesn't wait", i);
            if (!is_meant) continue;
            snprintf(line, sizeof line, "%d = OK; %d unlock = OK", i, i);
            play_lines(kind, line);
        }
    }
    close_it(kind);
}

static void *asks(void *number) {
    *(int *)number = (int)aqs_thread_self();
    return NULL;
}

/* The number that another thread gets. */
static int number_of_another(void) {
    pthread_t thread;
    int number = -1;
    CHECK(pthread_create(&thread, NULL, asks, &number) == 0);
    CHECK(pthread_join(thread, NULL) == 0);
    return number;
}

/* Numbers go on behind the places that are there at first, and the least free one is taken. */
static void numbers_go_on(void) {
    for (int i = 0; i < 3; i++) CHECK(number_of_another() == PLAYERS);
    static const int ends[] = {77, 0, 255};
    for (int i = 0; i < 3; i++) {
        player_t *it = &players[ends[i]];
        stop(it);
        CHECK(number_of_another() == ends[i]);
        CHECK(number_of_another() == ends[i]);
        start(it);
        CHECK(number_of_another() == PLAYERS);
    }
}

static void ends_well(pid_t child) {
    int status = 1;
    CHECK(child > 0 && waitpid(child, &status, 0) == child);
    CHECK(WIFEXITED(status) && WEXITSTATUS(status) == 0);
}

/* The child of a process keeps the number of the thread that forked, also when the first others are taken. */
static void in_a_child(void) {
    pid_t child = fork();
    if (child == 0) {
        CHECK(aqs_thread_self() == 0);
        pid_t grandchild = fork();
        if (grandchild == 0) {
            for (int i = 1; i < PLAYERS; i++) start(&players[i]);
            for (int i = 0; i < 3; i++) CHECK(number_of_another() == PLAYERS);
            CHECK(aqs_thread_self() == 0);
            _Exit(0);
        }
        ends_well(grandchild);
        _Exit(0);
    }
    ends_well(child);
}

/* Threads that end: one that holds a lock keeps its seat and its number for good, and no other does. $ stands
 * for the thread. The objects have two seats. */
static const struct {
    const char *object, *lines;
    bool is_kept;
} endings[] = {
    {"lock fair seats 2 conditions 1 cap 64", "$ lock = OK", true},
    {"lock fair seats 2 conditions 1 cap 64", "$ lock = OK; $ unlock = OK", false},
    {"lock fair seats 2 conditions 1 cap 64", "$ lock = OK; $ lock_interruptibly = OK; $ unlock = OK",
     true},
    {"lock fair seats 2 conditions 1 cap 64", "$ trylock = OK", true},
    {"lock fair seats 2 conditions 1 cap 64", "$ timedlock 5 = OK", true},
    {"lock fair seats 2 conditions 1 cap 64", "$ lock_interruptibly = OK", true},
    {"lock fair seats 2 conditions 1 cap 64",
     "0 lock = OK; $ timedlock 2 = TIMED_OUT; $ timedlock 0 = TIMED_OUT; $ trylock = WOULD_BLOCK; "
     "$ unlock = NOT_OWNER; "
     "$ signal 0 = NOT_OWNER; 0 unlock = OK", false},
    {"lock fair seats 2 conditions 1 cap 64", "$ lock = OK; $ timedwait 0 1 = TIMED_OUT; $ signal 0 = OK",
     true},
    {"lock fair seats 2 conditions 1 cap 64",
     "$ lock = OK; $ lock = OK; $ timedwait 0 1 = TIMED_OUT; $ unlock = OK; $ unlock = OK", false},
    {"lock fair seats 2 conditions 1 cap 64", "0 lock = OK; $ lock ..; 0 unlock = OK; $ = OK", true},
    {"lock fair seats 2 conditions 1 cap 64",
     "0 lock = OK; $ lock ..; 0 unlock = OK; $ = OK; $ unlock = OK", false},
    {"lock fair seats 2 conditions 1 cap 64",
     "0 lock = OK; $ lock_interruptibly ..; 0 interrupt $ = OK; $ = INTERRUPTED; 0 unlock = OK", false},
    {"lock fair seats 2 conditions 1 cap 64",
     "$ lock = OK; 0 lock ..; $ unlock = OK; 0 = OK; 0 unlock = OK", false},
    {"rw fair seats 2 conditions 1 cap 64", "$ rdlock = OK", true},
    {"rw fair seats 2 conditions 1 cap 64", "$ rdlock_interruptibly = OK", true},
    {"rw fair seats 2 conditions 1 cap 64", "$ timedrdlock 3 = OK", true},
    {"rw fair seats 2 conditions 1 cap 64", "$ tryrdlock = OK; $ tryrdlock = OK; $ rdunlock = OK", true},
    {"rw fair seats 2 conditions 1 cap 64", "$ wrlock = OK", true},
    {"rw fair seats 2 conditions 1 cap 64", "$ wrlock_interruptibly = OK", true},
    {"rw fair seats 2 conditions 1 cap 64", "$ timedwrlock 3 = OK", true},
    {"rw fair seats 2 conditions 1 cap 64", "$ trywrlock = OK; $ rdlock = OK; $ wrunlock = OK", true},
    {"rw fair seats 2 conditions 1 cap 64",
     "$ wrlock = OK; $ rdlock = OK; $ wrunlock = OK; $ rdunlock = OK", false},
    {"rw fair seats 2 conditions 1 cap 64", "$ wrlock = OK; $ timedwait 0 1 = TIMED_OUT; $ wrunlock = OK",
     false},
    {"semaphore fair seats 2 permits 9 cap 64", "$ acquire 3 = OK; $ tryacquire 2 = OK; $ drain = 4",
     false},
    {"semaphore fair seats 2 permits 9 cap 64", "$ release 3 = OK", false},
    {"latch seats 2 count 1 cap 64", "$ count_down = OK; $ await = OK", false},
};

/* What shows how many seats there are after the end of a thread that kept its seat, or gave it back. */
static const char *const seats_left[][2] = {
    [LOCK] = {"1 lock = OK; 2 lock ..; 3 trylock = TOO_MANY_THREADS; 1 unlock = OK; 2 = OK; 2 unlock = OK",
              "1 trylock = WOULD_BLOCK; 2 timedlock 1 = TIMED_OUT; 1 lock_interruptibly ..; "
              "3 trylock = TOO_MANY_THREADS; 3 interrupt 1 = OK; 1 = INTERRUPTED; 2 unlock = NOT_OWNER"},
    [RW] = {"1 wrlock = OK; 2 rdlock ..; 3 tryrdlock = TOO_MANY_THREADS; 1 wrunlock = OK; 2 = OK; "
            "2 rdunlock = OK",
            "1 trywrlock = WOULD_BLOCK; 2 timedwrlock 1 = TIMED_OUT; 1 wrlock_interruptibly ..; "
            "3 trywrlock = TOO_MANY_THREADS; 3 interrupt 1 = OK; 1 = INTERRUPTED; 2 wrunlock = NOT_OWNER"},
    [SEM] = {"1 acquire_interruptibly 100 ..; 2 acquire_interruptibly 100 ..; 3 queue_length = 1; "
             "3 interrupt 1 = OK; 1 = INTERRUPTED; 3 interrupt 2 = OK; 2 = INTERRUPTED"},
    [LATCH] = {"1 await = OK; 2 await = OK; 1 count_down = OK"},
};

static void end_each(void) {
    for (size_t i = 0; i < sizeof endings / sizeof endings[0]; i++) {
        int thread = 100 + (int)i;
        play_name = endings[i].lines;
        kind_t kind = open_part(endings[i].object);
        play_for(kind, thread, endings[i].lines);
        stop(&players[thread]);
        play_lines(kind, seats_left[kind][endings[i].is_kept]);
        for (int times = 0; times < 2; times++)
            CHECK(number_of_another() == (endings[i].is_kept ? PLAYERS : thread));
        if (!endings[i].is_kept) start(&players[thread]);
        close_it(kind);
    }
}

int main(void) {
    alarm(100);
    in_a_child();
    open_each();
    start_players();
    PLAY_ALL(plays);
    all_wait();
    numbers_go_on();
    end_each();
    return good("limits");
}
