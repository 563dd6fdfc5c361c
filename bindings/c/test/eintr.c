/* eintr.c: what a signal handler does to a call in which its thread waits. */
#include "waiting.h"

/* What is played of each call (waiting.h) at an object that heeds handlers. */
static const char *const heeded_lines[] = {
    /* one that does nothing ends the wait, which has left the queue */
    "$b; 1 $c ..; 0 handle 1 = OK; 1 = HANDLER_RAN; 1 interrupted = 0; $i; $e",
    "$b; 1 $c ..; 0 handle 1 = OK; 1 = HANDLER_RAN; 1 $c ..; $e; 1 = OK; $a",
    /* it runs before the wait, after it, or in another thread */
    "$b; 0 handle 1 = OK; 1 $c ..; 1 waits; $e; 1 = OK; 0 handle 1 = OK; 1 interrupted = 0; $a",
    "$b; 1 $c ..; 0 handle 2 = OK; 1 waits; $e; 1 = OK; $a",
    /* interrupts are interrupts */
    "$b; 1 $c ..; 0 interrupt 1 = OK; 1 = INTERRUPTED; 1 interrupted = 0; $i; $e",
    "$b; 1 $c ..; 0 handle_interrupting 1 = OK; 1 = INTERRUPTED; 1 interrupted = 0; $i; $e",
};

/* The same at an object that doesn't. */
static const char *const unheeded_lines[] = {
    "$b; 1 $c ..; 0 handle 1 = OK; 1 waits; 0 handle_restarting 1 = OK; 1 waits; $e; 1 = OK; $a",
    /* a handler that interrupts its thread ends the wait, and if it runs before it, too */
    "$b; 1 $c ..; 0 handle_interrupting 1 = OK; 1 = INTERRUPTED; 1 interrupted = 0; $i; $e",
    "$b; 0 handle_interrupting 1 = OK; 1 $c = INTERRUPTED; 1 interrupted = 0; $i; $e",
};

/* Calls that no interrupt ends, at an object that heeds handlers. */
static const char *const plain_lines[] = {
    "$b; 1 $c ..; 0 handle 1 = OK; 1 waits; 0 handle_restarting 1 = OK; 1 waits; $e; 1 = OK; $a",
    "$b; 1 $c ..; 0 handle_interrupting 1 = OK; 1 waits; $e; 1 = OK; 1 interrupted = 1; $a",
};

/* A handler that was set with SA_RESTART ends timed calls alone. */
static const char *const restarting_lines[] = {
    "$b; 1 $c ..; 0 handle_restarting 1 = OK; 1 waits; $e; 1 = OK; $a",
    "$b; 1 $c ..; 0 handle_restarting 1 = OK; 1 = HANDLER_RAN; 1 interrupted = 0; $i; $e",
};

static void restarting(const wait_t *rows, size_t count) {
    for (size_t i = 0; i < count; i++) {
        bool is_timed = strncmp(rows[i].call, "timed", 5) == 0;
        play_wait(&rows[i], " heeds", restarting_lines[is_timed]);
    }
}

static const play_t plays[] = {
    {"who is behind goes on", "lock fair seats 3 conditions 1 cap 64 heeds",
     "0 lock = OK; 1 lock_interruptibly ..; 2 lock ..; 0 handle 1 = OK; 1 = HANDLER_RAN; 0 unlock = OK; "
     "2 = OK; 2 unlock = OK; 1 lock_interruptibly = OK; 1 unlock = OK",
     "0 got x 1; 1 queued x 1; 2 queued x 1; 1 left x 1 interrupt; 0 gave x 1; 2 granted x 1; 2 gave x 1; "
     "1 got x 1; 1 gave x 1"},
    {"readers behind a writer go on", "rw nonfair seats 3 conditions 1 cap 64 heeds",
     "0 rdlock = OK; 1 timedwrlock 20000 ..; 2 rdlock ..; 0 handle 1 = OK; 1 = HANDLER_RAN; 2 = OK; "
     "0 rdunlock = OK; 2 rdunlock = OK",
     "0 got s 1; 1 queued x 1; 2 queued s 1; 1 left x 1 interrupt; 2 granted s 1; 0 gave s 1; 2 gave s 1"},
    {"a small amount behind a great one", "semaphore fair seats 4 permits 1 cap 64 heeds",
     "1 acquire_interruptibly 2 ..; 2 acquire 1 ..; 0 handle 1 = OK; 1 = HANDLER_RAN; 2 = OK; "
     "0 getvalue = 0", "1 queued s 2; 2 queued s 1; 1 left s 2 interrupt; 2 granted s 1"},
    {"a permit that the handler releases is taken", "semaphore nonfair seats 3 permits 0 cap 64 heeds",
     "[20: 1 acquire_interruptibly 1 ..; 0 handle_releasing 1 = OK; 1 = OK; 0 getvalue = 0]", NULL},
    {"in time too", "semaphore fair seats 3 permits 0 cap 64 heeds",
     "[20: 1 timedacquire 1 20000 ..; 0 handle_releasing 1 = OK; 1 = OK; 0 getvalue = 0]", NULL},
    {"too few permits", "semaphore fair seats 3 permits 0 cap 64 heeds",
     "1 acquire_interruptibly 2 ..; 0 handle_releasing 1 = OK; 1 = HANDLER_RAN; 0 getvalue = 1", NULL},

    /* Conditions. What a handler ends is no interrupt, which would be set again. */
    {"after a signal nothing is left", "lock fair seats 2 conditions 1 cap 64 heeds",
     "1 lock = OK; 1 wait_interruptibly 0 ..; 0 lock = OK; 0 signal 0 = OK; 0 handle 1 = OK; 1 waits; "
     "0 unlock = OK; 1 = OK; 1 interrupted = 0; 1 unlock = OK",
     "1 got x 1; 1 await 0 1; 0 got x 1; 0 signal 0 1; 0 gave x 1; 1 back 0 1 signalled; 1 gave x 1"},
    {"after a signal to all, in a timed wait", "rw nonfair seats 3 conditions 1 cap 64 heeds",
     "1 wrlock = OK; 1 timedwait 0 20000 ..; 0 wrlock = OK; 0 signal_all 0 = OK; 0 handle 1 = OK; 1 waits; "
     "0 handle 1 = OK; 1 waits; 0 wrunlock = OK; 1 = OK; 1 interrupted = 0; 1 wrunlock = OK",
     "1 got x 1; 1 await 0 1; 0 got x 1; 0 signalall 0 1; 0 gave x 1; 1 back 0 1 signalled; 1 gave x 1"},
    {"an interrupt after the handler stays pending", "lock fair seats 2 conditions 1 cap 64 heeds",
     "1 lock = OK; 1 wait_interruptibly 0 ..; 0 lock = OK; 0 signal 0 = OK; 0 handle 1 = OK; 1 waits; "
     "0 interrupt 1 = OK; 1 waits; 0 unlock = OK; 1 = OK; 1 interrupted = 1; 1 unlock = OK", NULL},
    {"before a signal it ends the wait, which no signal finds then",
     "lock fair seats 3 conditions 1 cap 64 heeds",
     "1 lock = OK; 1 lock = OK; 1 wait_interruptibly 0 ..; 2 lock = OK; 2 timedwait 0 20000 ..; 0 lock = OK; "
     "0 handle 1 = OK; 1 waits; 0 signal 0 = OK; 0 unlock = OK; 1 = HANDLER_RAN; 1 interrupted = 0; "
     "1 unlock = OK; 1 unlock = OK; 2 = OK; 2 unlock = OK",
     "1 got x 1; 1 got x 1; 1 await 0 2; 2 got x 1; 2 await 0 1; 0 got x 1; 1 lapse 0 interrupt; "
     "0 signal 0 1; 0 gave x 1; 1 back 0 2 interrupt; 1 gave x 1; 1 gave x 1; 2 back 0 1 signalled; "
     "2 gave x 1"},
    {"a second one, while the first ends a wait, does nothing",
     "lock fair seats 2 conditions 1 cap 64 heeds",
     "1 lock = OK; 1 wait_interruptibly 0 ..; 0 lock = OK; 0 handle 1 = OK; 1 waits; 0 handle 1 = OK; "
     "1 waits; 0 interrupt 1 = OK; 1 waits; 0 unlock = OK; 1 = HANDLER_RAN; 1 interrupted = 1; 1 unlock = OK",
     NULL},
    {"a handler after an interrupt changes nothing", "lock fair seats 2 conditions 1 cap 64 heeds",
     "1 lock = OK; 1 wait_interruptibly 0 ..; 0 lock = OK; 0 interrupt 1 = OK; 1 waits; 0 handle 1 = OK; "
     "1 waits; 0 unlock = OK; 1 = INTERRUPTED; 1 interrupted = 0; 1 unlock = OK", NULL},
    {"nor after a signal and an interrupt", "lock fair seats 2 conditions 1 cap 64 heeds",
     "1 lock = OK; 1 wait_interruptibly 0 ..; 0 lock = OK; 0 signal 0 = OK; 0 interrupt 1 = OK; 1 waits; "
     "0 handle 1 = OK; 1 waits; 0 unlock = OK; 1 = OK; 1 interrupted = 1; 1 unlock = OK", NULL},
    {"a condition as an object", "lock nonfair seats 3 conditions 1 cap 64 heeds",
     "1 lock = OK; 1 await_interruptibly 4 ..; 0 handle 1 = OK; 1 = HANDLER_RAN; 1 is_mine = 1; "
     "1 interrupted = 0; 1 timedawait 4 20000 ..; 0 notify 4 = OK; 1 = OK; 1 unlock = OK; 0 notify 4 = OK",
     "1 got x 1; 1 await 0 1; 1 lapse 0 interrupt; 1 back 0 1 interrupt; 1 await 0 1; 0 got x 1; "
     "0 signal 0 1; 0 gave x 1; 1 back 0 1 signalled; 1 gave x 1"},
    {"a mark after the handler counts, and leaves nothing", "lock fair seats 2 conditions 1 cap 64 heeds",
     "1 lock = OK; 1 await_interruptibly 4 ..; 0 lock = OK; 0 handle 1 = OK; 1 waits; 0 notify 4 = OK; "
     "0 unlock = OK; 1 = OK; 1 interrupted = 0; 1 unlock = OK", NULL},
    {"so it does after an interrupt, which stays", "lock fair seats 2 conditions 1 cap 64 heeds",
     "1 lock = OK; 1 await_interruptibly 4 ..; 0 lock = OK; 0 handle_interrupting 1 = OK; 1 waits; "
     "0 notify 4 = OK; 0 unlock = OK; 1 = OK; 1 interrupted = 1; 1 unlock = OK", NULL},

    /* A call that waits for a seat. */
    {"who waits for a seat waits on", "lock fair seats 2 conditions 1 cap 64",
     "0 lock = OK; 1 lock ..; 2 lock_interruptibly ..; [9: 0 handle 2 = OK; 2 waits]; 0 unlock = OK; 1 = OK; "
     "1 unlock = OK; 2 = OK; 2 unlock = OK", NULL},
    {"or ends, if the object heeds handlers", "lock fair seats 2 conditions 1 cap 64 heeds",
     "0 lock = OK; 1 lock ..; 2 timedlock 20000 ..; 0 handle 2 = OK; 2 = HANDLER_RAN; 0 unlock = OK; 1 = OK; "
     "1 unlock = OK", NULL},

    /* Times. */
    {"a handler makes no time longer or shorter", "semaphore fair seats 3 permits 0 cap 64",
     "1 timedacquire 1 700 ..; [5: 0 handle 1 = OK; 0 handle_restarting 1 = OK]; 1 waits; 1 = TIMED_OUT",
     "1 queued s 1; 1 left s 1 timeout"},
    {"a time that is up is no handler", "lock nonfair seats 2 conditions 1 cap 64 heeds",
     "0 lock = OK; [3: 1 timedlock 20 = TIMED_OUT; 1 interrupted = 0]; 0 timedwait 0 20 = TIMED_OUT; "
     "0 unlock = OK", NULL},
    {"a call that doesn't wait", "semaphore fair seats 3 permits 0 cap 64 heeds",
     "0 handle 0 = OK; 0 timedacquire 1 0 = TIMED_OUT; 0 release 1 = OK; 0 handle 0 = OK; "
     "0 acquire_interruptibly 1 = OK", "0 missed s 1; 0 gave s 1; 0 got s 1"},
};

/* A release and a handler at the same time: the call has what it asked for, or it ends by the handler and has
   nothing. A handler that comes before the sleep ends nothing, and no handler leaves an interrupt. */
static void races(int rounds) {
    play_name = "a release and a handler at the same time", play_line = "a round";
    kind_t kind = open_part("semaphore nonfair seats 3 permits 0 cap 64 trims heeds");
    for (int i = 0; i < rounds; i++) {
        ask(&players[1], SEM_acquire_interruptibly, 1, 0);
        if (i % 4 && ends_or_sleeps(&players[1], LIMIT)) FAIL("it ended before");
        player_t *first = &players[i & 1 ? 0 : 2], *second = &players[i & 1 ? 2 : 0];
        ask(first, ANY_handle, 1, 0);
        ask(second, SEM_release, 1, 0);
        for (int j = 0; j < 3; j++)
            if (!ends(&players[j], LIMIT)) FAIL("thread %d does not end", j);
        bool has = players[1].status == AQS_OK;
        if (!has && players[1].status != AQS_HANDLER_RAN)
            FAIL("it is %s", aqs_status_name(players[1].status));
        play_lines(SEM, has ? "1 interrupted = 0; 1 getvalue = 0" : "1 interrupted = 0; 1 drain = 1");
    }
    close_it(kind);
}

int main(void) {
    alarm(100);
    start_players();
    PLAY_EACH(heeding, " heeds", heeded_lines);
    PLAY_EACH(of_mutexes, " heeds", heeded_lines);
    PLAY_EACH(heeding, "", unheeded_lines);
    PLAY_EACH(of_mutexes, "", unheeded_lines);
    PLAY_EACH(plain, " heeds", plain_lines);
    restarting(heeding, sizeof heeding / sizeof heeding[0]);
    restarting(of_mutexes, sizeof of_mutexes / sizeof of_mutexes[0]);
    PLAY_ALL(plays);
    races(400);
    return good("eintr");
}
