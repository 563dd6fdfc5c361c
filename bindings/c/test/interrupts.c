/* interrupts.c: what an interrupt does to each call: before it, while it waits, after a signal. */
#include "waiting.h"

/* What is played of each call (waiting.h). */
static const char *const heeding_lines[] = {
    /* the interrupt comes first, also before another call and beside another thread's */
    "$b; 0 interrupt 1 = OK; 1 $c = INTERRUPTED; 1 interrupted = 0; $i; $e",
    "$b; 0 interrupt 1 = OK; 0 interrupt 1 = OK; 1 self = 1; 1 $c = INTERRUPTED; 1 $c ..; $e; 1 = OK; $a",
    /* it comes while the thread waits */
    "$b; 1 $c ..; 0 interrupt 1 = OK; 1 = INTERRUPTED; 1 interrupted = 0; $i; $e",
    "$b; 1 $c ..; 0 interrupt 1 = OK; 1 = INTERRUPTED; 1 $c ..; $e; 1 = OK; $a",
    /* it comes after the wait, or to another thread, or was taken before */
    "$b; 1 $c ..; $e; 1 = OK; 0 interrupt 1 = OK; 1 interrupted = 1; 1 interrupted = 0; $a",
    "$b; 1 $c ..; 0 interrupt 2 = OK; 1 waits; $e; 1 = OK; 2 interrupted = 1; 1 interrupted = 0; $a",
    "$b; 0 interrupt 1 = OK; 1 interrupted = 1; 1 $c ..; 1 waits; $e; 1 = OK; $a",
};

static const char *const plain_lines[] = {
    "$b; 0 interrupt 1 = OK; 1 $c ..; 1 waits; $e; 1 = OK; 1 interrupted = 1; $a",
    "$b; 1 $c ..; 0 interrupt 1 = OK; 1 waits; $e; 1 = OK; 1 interrupted = 1; 1 interrupted = 0; $a",
    "$b; 0 interrupt 1 = OK; 1 $c ..; 0 interrupt 1 = OK; 1 waits; $e; 1 = OK; 1 interrupted = 1; $a",
};

static const play_t plays[] = {
    {"after a signal it stays pending", "lock fair seats 2 conditions 1 cap 64",
     "1 lock = OK; 1 wait_interruptibly 0 ..; 0 lock = OK; 0 signal 0 = OK; 0 interrupt 1 = OK; 1 waits; "
     "0 unlock = OK; 1 = OK; 1 interrupted = 1; 1 unlock = OK",
     "1 got x 1; 1 await 0 1; 0 got x 1; 0 signal 0 1; 0 gave x 1; 1 back 0 1 signalled; 1 gave x 1"},
    {"after a signal to all, in a timed wait", "lock nonfair seats 3 conditions 1 cap 64",
     "1 lock = OK; 1 timedwait 0 20000 ..; 2 lock = OK; 2 wait_interruptibly 0 ..; 0 lock = OK; "
     "0 signal_all 0 = OK; 0 interrupt 1 = OK; 0 interrupt 2 = OK; 1 waits; 2 waits; 0 unlock = OK; 1 = OK; "
     "1 interrupted = 1; 1 unlock = OK; 2 = OK; 2 interrupted = 1; 2 unlock = OK",
     "1 got x 1; 1 await 0 1; 2 got x 1; 2 await 0 1; 0 got x 1; 0 signalall 0 2; 0 gave x 1; "
     "1 back 0 1 signalled; 1 gave x 1; 2 back 0 1 signalled; 2 gave x 1"},
    {"after a signal, at a read-write lock", "rw fair seats 3 conditions 1 cap 64",
     "1 wrlock = OK; 1 wait_interruptibly 0 ..; 2 wrlock = OK; 2 timedwait 0 20000 ..; 0 wrlock = OK; "
     "0 signal 0 = OK; 0 signal 0 = OK; 0 interrupt 1 = OK; 0 interrupt 2 = OK; 1 waits; 2 waits; "
     "0 wrunlock = OK; 1 = OK; 1 interrupted = 1; 1 wrunlock = OK; 2 = OK; 2 interrupted = 1; "
     "2 wrunlock = OK",
     "1 got x 1; 1 await 0 1; 2 got x 1; 2 await 0 1; 0 got x 1; 0 signal 0 1; 0 signal 0 1; 0 gave x 1; "
     "1 back 0 1 signalled; 1 gave x 1; 2 back 0 1 signalled; 2 gave x 1"},
    {"before a signal it ends the wait, which no signal finds then", "lock fair seats 3 conditions 1 cap 64",
     "1 lock = OK; 1 lock = OK; 1 wait_interruptibly 0 ..; 2 lock = OK; 2 timedwait 0 20000 ..; 0 lock = OK; "
     "0 interrupt 1 = OK; 1 waits; 0 signal 0 = OK; 0 interrupt 2 = OK; 2 waits; 0 unlock = OK; "
     "1 = INTERRUPTED; 1 interrupted = 0; 1 unlock = OK; 1 unlock = OK; 2 = OK; 2 interrupted = 1; "
     "2 unlock = OK",
     "1 got x 1; 1 got x 1; 1 await 0 2; 2 got x 1; 2 await 0 1; 0 got x 1; 1 lapse 0 interrupt; "
     "0 signal 0 1; 0 gave x 1; 1 back 0 2 interrupt; 1 gave x 1; 1 gave x 1; 2 back 0 1 signalled; "
     "2 gave x 1"},
    {"a second one, while the first ends a wait, stays pending", "lock fair seats 2 conditions 1 cap 64",
     "1 lock = OK; 1 wait_interruptibly 0 ..; 0 lock = OK; 0 interrupt 1 = OK; 1 waits; 0 interrupt 1 = OK; "
     "1 waits; 0 unlock = OK; 1 = INTERRUPTED; 1 interrupted = 1; 1 unlock = OK",
     "1 got x 1; 1 await 0 1; 0 got x 1; 1 lapse 0 interrupt; 0 gave x 1; 1 back 0 1 interrupt; 1 gave x 1"},
    {"a free lock isn't taken", "lock fair seats 2 conditions 1 cap 64",
     "0 interrupt 0 = OK; 0 lock_interruptibly = INTERRUPTED; 0 lock_interruptibly = OK; 0 interrupt 0 = OK; "
     "0 timedlock 0 = INTERRUPTED; 0 interrupt 0 = OK; 0 timedlock 50 = INTERRUPTED; 0 timedlock 0 = OK; "
     "0 unlock = OK; 0 unlock = OK; 0 unlock = NOT_OWNER",
     "0 refused x 1 Interrupted; 0 got x 1; 0 refused x 1 Interrupted; 0 refused x 1 Interrupted; 0 got x 1; "
     "0 gave x 1; 0 gave x 1; 0 refused x 1 NotOwner"},
    {"nor a free side of a read-write lock", "rw fair seats 2 conditions 1 cap 64",
     "0 interrupt 0 = OK; 0 rdlock_interruptibly = INTERRUPTED; 0 interrupt 0 = OK; "
     "0 timedrdlock 0 = INTERRUPTED; 0 interrupt 0 = OK; 0 wrlock_interruptibly = INTERRUPTED; "
     "0 interrupt 0 = OK; 0 timedwrlock 9 = INTERRUPTED; 0 rdunlock = NOT_OWNER; 0 wrunlock = NOT_OWNER; "
     "0 timedrdlock 0 = OK; 0 rdunlock = OK",
     "0 refused s 1 Interrupted; 0 refused s 1 Interrupted; 0 refused x 1 Interrupted; "
     "0 refused x 1 Interrupted; 0 refused s 1 NotOwner; 0 refused x 1 NotOwner; 0 got s 1; 0 gave s 1"},
    {"nor permits, nor does an open latch let it pass", "semaphore fair seats 3 permits 5 cap 64",
     "0 interrupt 0 = OK; 0 acquire_interruptibly 2 = INTERRUPTED; 0 interrupt 0 = OK; "
     "0 timedacquire 3 0 = INTERRUPTED; 0 getvalue = 5; 0 acquire_interruptibly 2 = OK; "
     "0 timedacquire 3 0 = OK", "0 refused s 2 Interrupted; 0 refused s 3 Interrupted; 0 got s 2; 0 got s 3"},
    {"an open latch", "latch seats 3 count 0 cap 64",
     "0 interrupt 0 = OK; 0 await_interruptibly = INTERRUPTED; 0 interrupt 0 = OK; "
     "0 timedawait 0 = INTERRUPTED; 0 interrupt 0 = OK; 0 timedawait 10 = INTERRUPTED; 0 timedawait 0 = OK; "
     "0 await_interruptibly = OK",
     "0 refused s 1 Interrupted; 0 refused s 1 Interrupted; 0 refused s 1 Interrupted; 0 got s 1; 0 got s 1"},
    {"calls that don't wait, and plain ones, leave it pending", "lock fair seats 2 conditions 1 cap 64",
     "0 interrupt 0 = OK; 0 lock = OK; 0 lock = OK; 0 trylock = OK; 0 signal 0 = OK; 0 signal_all 0 = OK; "
     "0 unlock = OK; 0 unlock = OK; 0 unlock = OK; 0 unlock = NOT_OWNER; 0 text = OK; 0 trim = 9; "
     "0 interrupted = 1; 0 interrupted = 0", NULL},
    {"at a read-write lock", "rw nonfair seats 2 conditions 1 cap 64",
     "0 interrupt 0 = OK; 0 rdlock = OK; 0 tryrdlock = OK; 0 trywrlock = WOULD_BLOCK; 0 rdunlock = OK; "
     "0 rdunlock = OK; 0 wrlock = OK; 0 trywrlock = OK; 0 signal 0 = OK; 0 signal_all 0 = OK; "
     "0 wrunlock = OK; 0 wrunlock = OK; 0 interrupted = 1; 0 interrupted = 0", NULL},
    {"at a semaphore", "semaphore fair seats 3 permits 3 cap 64",
     "0 interrupt 0 = OK; 0 acquire 1 = OK; 0 tryacquire 1 = OK; 0 tryacquire 5 = WOULD_BLOCK; "
     "0 release 1 = OK; 0 getvalue = 2; 0 drain = 2; 0 drain = 0; 0 interrupted = 1; 0 interrupted = 0",
     NULL},
    {"at a latch", "latch seats 3 count 1 cap 64",
     "0 interrupt 0 = OK; 0 getcount = 1; 0 count_down = OK; 0 await = OK; 0 interrupted = 1; "
     "0 interrupted = 0", NULL},
    {"it comes before whatever else refuses a wait", "lock fair seats 2 conditions 1 cap 64",
     "0 interrupt 0 = OK; 0 wait_interruptibly 1 = INTERRUPTED; 0 interrupt 0 = OK; "
     "0 timedwait 0 5 = INTERRUPTED; 0 timedwait 0 5 = NOT_OWNER; "
     "0 wait_interruptibly 1 = NO_SUCH_CONDITION; 0 interrupt 9 = OK; 0 interrupt 255 = OK; "
     "0 interrupt 256 = OUT_OF_RANGE; 0 interrupt 65535 = OUT_OF_RANGE",
     "0 refused x 1 Interrupted; 0 refused x 1 Interrupted; 0 refused x 1 NotOwner"},
    {"a call that finds the history full leaves it pending", "lock fair seats 2 conditions 1 cap 16",
     "[8: 0 lock = OK; 0 unlock = OK]; 0 interrupt 1 = OK; 1 lock_interruptibly = HISTORY_FULL; "
     "1 timedlock 3 = HISTORY_FULL; "
     "1 interrupted = 1; 1 interrupted = 0", NULL},
    {"an interrupt ends a wait for a seat", "lock fair seats 1 conditions 1 cap 64",
     "0 lock = OK; 0 interrupt 1 = OK; 1 lock_interruptibly = INTERRUPTED; "
     "1 lock_interruptibly ..; 0 interrupt 1 = OK; 1 = INTERRUPTED; 0 interrupt 1 = OK; "
     "1 timedlock 60000 = INTERRUPTED; 0 interrupt 1 = OK; 1 lock ..; 0 unlock = OK; "
     "1 = OK; 1 unlock = OK; 1 interrupted = 1", NULL},
    {"a call that gets no seat leaves it pending", "lock fair seats 1 conditions 1 cap 64",
     "0 lock = OK; 0 interrupt 1 = OK; 1 timedlock 0 = TOO_MANY_THREADS; "
     "1 wait_interruptibly 0 = TOO_MANY_THREADS; 1 timedwait 0 5 = TOO_MANY_THREADS; 1 interrupted = 1; "
     "1 interrupted = 0; 0 unlock = OK", "0 got x 1; 0 gave x 1"},
    {"amounts that no semaphore has leave it pending", "semaphore fair seats 3 permits 0 cap 16",
     "0 interrupt 0 = OK; 0 acquire_interruptibly 2147483648 = BAD_AMOUNT; "
     "0 timedacquire 4294967295 3 = BAD_AMOUNT; 0 interrupted = 1", ""},
};

/* Threads that begin and end --------------------------------------------------------------------------- */

static void *begins(void *is_pending) {
    aqs_thread_t me = aqs_thread_self();
    CHECK(me == PLAYERS);
    *(bool *)is_pending = aqs_thread_interrupted();
    IS(aqs_thread_interrupt(me), AQS_OK);
    return NULL;
}

/* A thread that ends with a pending interrupt leaves none to the next one of its number. */
static void numbers_are_new(void) {
    for (int i = 0; i < 3; i++) {
        pthread_t thread;
        bool is_pending = true;
        CHECK(pthread_create(&thread, NULL, begins, &is_pending) == 0);
        CHECK(pthread_join(thread, NULL) == 0);
        CHECK(!is_pending);
    }
}

/* Races ------------------------------------------------------------------------------------------------ */

/* A release and an interrupt come at the same time: the call has what it asked for and the interrupt is
   pending, or it ends by the interrupt and has nothing. */
static void races(int rounds) {
    play_name = "a release and an interrupt at the same time", play_line = "a round";
    kind_t kind = open_part("semaphore nonfair seats 3 permits 0 cap 64 trims");
    int ended_by[2] = {0, 0};
    for (int i = 0; i < rounds; i++) {
        ask(&players[1], SEM_acquire_interruptibly, 1, 0);
        if (i % 4 == 0 && ends_or_sleeps(&players[1], LIMIT)) FAIL("it ended before");
        player_t *first = &players[i & 1 ? 0 : 2], *second = &players[i & 1 ? 2 : 0];
        ask(first, ANY_interrupt, 1, 0);
        ask(second, SEM_release, 1, 0);
        for (int j = 0; j < 3; j++)
            if (!ends(&players[j], LIMIT)) FAIL("thread %d does not end", j);
        bool has = players[1].status == AQS_OK;
        if (!has && players[1].status != AQS_INTERRUPTED)
            FAIL("it is %s", aqs_status_name(players[1].status));
        play_lines(SEM, has ? "1 interrupted = 1; 1 getvalue = 0" : "1 interrupted = 0; 1 drain = 1");
        ended_by[has]++;
    }
    CHECK(ended_by[0] + ended_by[1] == rounds);
    close_it(kind);
}

int main(void) {
    alarm(100);
    start_players();
    PLAY_EACH(heeding, "", heeding_lines);
    PLAY_EACH(of_mutexes, "", heeding_lines);
    PLAY_EACH(plain, "", plain_lines);
    PLAY_ALL(plays);
    numbers_are_new();
    races(400);
    return good("interrupts");
}
