/* statuses.c: each status of each call, and what is left after it: holds, permits, counts and entries. */
#include "play.h"

static const play_t plays_of_locks[] = {
    {"a lock is its owner's", "lock fair seats 3 conditions 1 cap 64",
     "1 unlock = NOT_OWNER; 0 lock = OK; 0 lock = OK; 1 unlock = NOT_OWNER; 1 trylock = WOULD_BLOCK; "
     "1 timedlock 0 = TIMED_OUT; 1 timedlock 3 = TIMED_OUT; 0 trylock = OK; 0 timedlock 0 = OK; "
     "0 timedlock 9 = OK; 0 lock_interruptibly = OK; 0 unlock = OK; 0 unlock = OK; 0 unlock = OK; "
     "0 unlock = OK; 0 unlock = OK; 1 trylock = WOULD_BLOCK; 0 unlock = OK; 0 unlock = NOT_OWNER; "
     "1 trylock = OK; 1 unlock = OK",
     "1 refused x 1 NotOwner; 0 got x 1; 0 got x 1; 1 refused x 1 NotOwner; 1 missed x 1; 1 missed x 1; "
     "1 queued x 1; 1 left x 1 timeout; 0 trygot x 1; 0 got x 1; 0 got x 1; 0 got x 1; 0 gave x 1; "
     "0 gave x 1; 0 gave x 1; 0 gave x 1; 0 gave x 1; 1 missed x 1; 0 gave x 1; 0 refused x 1 NotOwner; "
     "1 trygot x 1; 1 gave x 1"},
    {"so are its conditions", "lock fair seats 3 conditions 2 cap 64",
     "1 wait 0 = NOT_OWNER; 1 wait_interruptibly 1 = NOT_OWNER; 1 timedwait 0 0 = NOT_OWNER; "
     "1 timedwait 0 4294967295 = NOT_OWNER; 1 signal 1 = NOT_OWNER; 1 signal_all 0 = NOT_OWNER; 0 lock = OK; "
     "1 wait 0 = NOT_OWNER; 1 signal 0 = NOT_OWNER; 1 signal_all 1 = NOT_OWNER; 0 unlock = OK",
     "1 refused x 1 NotOwner; 1 refused x 1 NotOwner; 1 refused x 1 NotOwner; 1 refused x 1 NotOwner; "
     "1 refused x 1 NotOwner; 1 refused x 1 NotOwner; 0 got x 1; 1 refused x 1 NotOwner; "
     "1 refused x 1 NotOwner; 1 refused x 1 NotOwner; 0 gave x 1"},
    {"of which it has only so many", "lock fair seats 3 conditions 2 cap 64",
     "0 lock = OK; 0 wait 2 = NO_SUCH_CONDITION; 0 wait_interruptibly 255 = NO_SUCH_CONDITION; "
     "0 timedwait 16 0 = NO_SUCH_CONDITION; 0 signal 2 = NO_SUCH_CONDITION; "
     "0 signal_all 3 = NO_SUCH_CONDITION; 1 signal 2 = NO_SUCH_CONDITION; 0 unlock = OK",
     "0 got x 1; 0 gave x 1"},
    {"a timed wait ends with all holds", "lock fair seats 3 conditions 1 cap 64",
     "0 lock = OK; 0 lock = OK; 0 lock = OK; 0 timedwait 0 0 = TIMED_OUT; 0 timedwait 0 2 = TIMED_OUT; "
     "0 unlock = OK; 0 unlock = OK; 1 trylock = WOULD_BLOCK; 0 unlock = OK; 0 unlock = NOT_OWNER",
     "0 got x 1; 0 got x 1; 0 got x 1; 0 await 0 3; 0 lapse 0 timeout; 0 back 0 3 timeout; 0 await 0 3; "
     "0 lapse 0 timeout; 0 back 0 3 timeout; 0 gave x 1; 0 gave x 1; 1 missed x 1; 0 gave x 1; "
     "0 refused x 1 NotOwner"},
    {"a time that is up waits for the lock", "lock fair seats 3 conditions 1 cap 64",
     "1 lock = OK; 1 timedwait 0 300 ..; 0 lock = OK; 2 timedlock 400 = TIMED_OUT; 1 waits; 0 signal 0 = OK; "
     "0 unlock = OK; 1 = TIMED_OUT; 1 unlock = OK",
     NULL},
    {"a strict lock's try waits for its turn", "lock strict seats 3 conditions 1 cap 64",
     "0 lock = OK; 1 lock ..; 2 trylock = WOULD_BLOCK; 0 unlock = OK; 1 = OK; 2 trylock = WOULD_BLOCK; "
     "1 unlock = OK; 2 trylock = OK; 2 unlock = OK",
     "0 got x 1; 1 queued x 1; 2 missed x 1; 0 gave x 1; 1 granted x 1; 2 missed x 1; 1 gave x 1; "
     "2 trygot x 1; 2 gave x 1"},
    {"a lock is for as many threads at a time as it has seats", "lock fair seats 2 conditions 1 cap 64",
     "0 lock = OK; 1 lock ..; 2 timedlock 0 = TOO_MANY_THREADS; 2 timedlock 5 = TIMED_OUT; "
     "2 trylock = TOO_MANY_THREADS; 2 unlock = TOO_MANY_THREADS; 2 wait 0 = TOO_MANY_THREADS; "
     "2 wait_interruptibly 0 = TOO_MANY_THREADS; 2 timedwait 0 5 = TOO_MANY_THREADS; "
     "2 signal 0 = TOO_MANY_THREADS; 7 signal_all 0 = TOO_MANY_THREADS; 2 trim = TOO_MANY_THREADS; "
     "2 text = TOO_MANY_THREADS; 0 unlock = OK; 1 = OK; 7 trylock = WOULD_BLOCK; 1 unlock = OK; 1 self = 1; "
     "7 self = 7",
     "0 got x 1; 1 queued x 1; 0 gave x 1; 1 granted x 1; 0 missed x 1; 1 gave x 1"},
    {"a full history refuses new calls, and nothing of them stays", "lock fair seats 2 conditions 1 cap 16",
     "[8: 0 lock = OK; 0 unlock = OK]; 0 lock = HISTORY_FULL; 0 lock_interruptibly = HISTORY_FULL; "
     "0 timedlock 0 = HISTORY_FULL; 0 timedlock 3 = HISTORY_FULL; 0 trylock = HISTORY_FULL; "
     "0 unlock = HISTORY_FULL; 0 wait 0 = HISTORY_FULL; 0 wait_interruptibly 0 = HISTORY_FULL; "
     "0 timedwait 0 3 = HISTORY_FULL; 0 signal 0 = HISTORY_FULL; 0 signal_all 0 = HISTORY_FULL; 0 trim = 16; "
     "0 trim = 0; 0 unlock = NOT_OWNER; 1 trylock = OK; 1 unlock = OK", NULL},
    {"an owner's room is kept for its unlocks", "lock fair seats 2 conditions 1 cap 16",
     "[8: 0 lock = OK]; 0 lock = HISTORY_FULL; 0 trylock = HISTORY_FULL; 1 lock = HISTORY_FULL; "
     "0 wait 0 = HISTORY_FULL; 0 timedwait 0 1 = HISTORY_FULL; 0 signal 0 = HISTORY_FULL; "
     "[8: 0 unlock = OK]; 0 unlock = HISTORY_FULL",
     "0 got x 1; 0 got x 1; 0 got x 1; 0 got x 1; 0 got x 1; 0 got x 1; 0 got x 1; 0 got x 1; 0 gave x 1; "
     "0 gave x 1; 0 gave x 1; 0 gave x 1; 0 gave x 1; 0 gave x 1; 0 gave x 1; 0 gave x 1"},
    {"one that folds makes room", "lock fair seats 2 conditions 1 cap 16 trims",
     "[16: 0 lock = OK; 0 unlock = OK; 0 trylock = OK; 0 unlock = OK]; 0 trim = 16; 0 trim = 0", NULL},
    {"but not for more holds than fit", "lock fair seats 2 conditions 1 cap 16 trims",
     "[15: 0 lock = OK]; 0 lock = HISTORY_FULL; 0 trylock = HISTORY_FULL; "
     "0 timedlock 5 = HISTORY_FULL; 1 lock = HISTORY_FULL; 1 timedlock 5 = HISTORY_FULL; "
     "1 timedlock 0 = TIMED_OUT; 0 signal 0 = OK; [15: 0 unlock = OK]; "
     "0 unlock = NOT_OWNER; 1 lock = OK; 1 unlock = OK", NULL},
    {"a signal for which there is no room leaves the lock free", "lock fair seats 3 conditions 1 cap 16",
     "1 lock = OK; 1 await_interruptibly 0 ..; [3: 0 lock = OK; 0 unlock = OK]; 2 lock = OK; 0 notify 0 ..; "
     "2 interrupt 1 = OK; 1 waits; 2 unlock = OK; 0 = HISTORY_FULL; 1 = INTERRUPTED; 1 unlock = OK; "
     "0 is_mine = 0; 0 trim = 16; 2 trylock = OK; 2 unlock = OK", NULL},
};

static const play_t plays_of_rwlocks[] = {
    {"its sides are those of their holders", "rw fair seats 3 conditions 1 cap 64",
     "0 rdunlock = NOT_OWNER; 0 wrunlock = NOT_OWNER; 0 rdlock = OK; 1 rdlock = OK; 0 wrunlock = NOT_OWNER; "
     "2 rdunlock = NOT_OWNER; 2 trywrlock = WOULD_BLOCK; 2 timedwrlock 0 = TIMED_OUT; "
     "2 timedwrlock 3 = TIMED_OUT; 2 tryrdlock = OK; 2 timedrdlock 0 = OK; 2 timedrdlock 4 = OK; "
     "2 rdlock_interruptibly = OK; 2 rdunlock = OK; 2 rdunlock = OK; 2 rdunlock = OK; 2 rdunlock = OK; "
     "2 rdunlock = NOT_OWNER; 0 rdunlock = OK; 1 rdunlock = OK; 0 wrlock = OK; 1 tryrdlock = WOULD_BLOCK; "
     "1 timedrdlock 0 = TIMED_OUT; 1 timedrdlock 3 = TIMED_OUT; 1 trywrlock = WOULD_BLOCK; "
     "1 timedwrlock 3 = TIMED_OUT; 0 trywrlock = OK; 0 timedwrlock 0 = OK; 0 timedwrlock 4 = OK; "
     "0 wrlock_interruptibly = OK; 0 rdunlock = NOT_OWNER; 1 wrunlock = NOT_OWNER; 0 wrunlock = OK; "
     "0 wrunlock = OK; 0 wrunlock = OK; 0 wrunlock = OK; 1 tryrdlock = WOULD_BLOCK; 0 wrunlock = OK; "
     "0 wrunlock = NOT_OWNER; 1 trywrlock = OK; 1 wrunlock = OK", NULL},
    {"a writer may read on", "rw nonfair seats 3 conditions 1 cap 64",
     "0 wrlock = OK; 0 rdlock = OK; 0 tryrdlock = OK; 0 wrunlock = OK; 1 tryrdlock = OK; "
     "1 trywrlock = WOULD_BLOCK; 0 rdunlock = OK; 0 rdunlock = OK; 0 rdunlock = NOT_OWNER; 1 rdunlock = OK; "
     "1 trywrlock = OK; 1 wrunlock = OK",
     "0 got x 1; 0 got s 1; 0 trygot s 1; 0 gave x 1; 1 trygot s 1; 1 missed x 1; 0 gave s 1; 0 gave s 1; "
     "0 refused s 1 NotOwner; 1 gave s 1; 1 trygot x 1; 1 gave x 1"},
    {"who waits owns the write side, and doesn't read", "rw fair seats 3 conditions 2 cap 64",
     "0 wait 0 = NOT_OWNER; 0 wait_interruptibly 1 = NOT_OWNER; 0 timedwait 0 1 = NOT_OWNER; "
     "0 signal 0 = NOT_OWNER; 0 signal_all 1 = NOT_OWNER; 0 rdlock = OK; 0 wait 0 = NOT_OWNER; "
     "0 signal 0 = NOT_OWNER; 0 rdunlock = OK; 0 wrlock = OK; 0 rdlock = OK; 0 wait 0 = HOLDS_READ; "
     "0 wait_interruptibly 1 = HOLDS_READ; 0 timedwait 0 1 = HOLDS_READ; 0 signal 0 = OK; "
     "0 signal_all 1 = OK; 0 rdunlock = OK; 0 timedwait 1 1 = TIMED_OUT; 0 wait 2 = NO_SUCH_CONDITION; "
     "0 wait_interruptibly 9 = NO_SUCH_CONDITION; 0 timedwait 2 1 = NO_SUCH_CONDITION; "
     "0 signal 2 = NO_SUCH_CONDITION; 0 signal_all 200 = NO_SUCH_CONDITION; 0 wrunlock = OK",
     "0 refused x 1 NotOwner; 0 refused x 1 NotOwner; 0 refused x 1 NotOwner; 0 refused x 1 NotOwner; "
     "0 refused x 1 NotOwner; 0 got s 1; 0 refused x 1 NotOwner; 0 refused x 1 NotOwner; 0 gave s 1; "
     "0 got x 1; 0 got s 1; 0 refused x 1 HoldsRead; 0 refused x 1 HoldsRead; 0 refused x 1 HoldsRead; "
     "0 signal 0 0; 0 signalall 1 0; 0 gave s 1; 0 await 1 1; 0 lapse 1 timeout; 0 back 1 1 timeout; "
     "0 gave x 1"},
    {"a new reader waits behind a writer", "rw nonfair seats 4 conditions 1 cap 64",
     "0 rdlock = OK; 1 wrlock ..; 2 timedrdlock 3 = TIMED_OUT; 2 timedrdlock 0 = TIMED_OUT; "
     "2 tryrdlock = OK; 0 rdlock = OK; 0 rdunlock = OK; 2 rdlock = OK; 2 rdunlock = OK; 2 rdunlock = OK; "
     "0 rdunlock = OK; 1 = OK; 1 wrunlock = OK",
     "0 got s 1; 1 queued x 1; 2 queued s 1; 2 left s 1 timeout; 2 missed s 1; 2 trygot s 1; 0 got s 1; "
     "0 gave s 1; 2 got s 1; 2 gave s 1; 2 gave s 1; 0 gave s 1; 1 granted x 1; 1 gave x 1"},
    {"a read-write lock too", "rw fair seats 1 conditions 1 cap 64",
     "0 rdlock = OK; 1 timedrdlock 0 = TOO_MANY_THREADS; 1 timedrdlock 5 = TIMED_OUT; "
     "1 tryrdlock = TOO_MANY_THREADS; 1 rdunlock = TOO_MANY_THREADS; "
     "1 timedwrlock 0 = TOO_MANY_THREADS; 1 timedwrlock 5 = TIMED_OUT; "
     "1 trywrlock = TOO_MANY_THREADS; 1 wrunlock = TOO_MANY_THREADS; "
     "1 wait 0 = TOO_MANY_THREADS; 1 wait_interruptibly 0 = TOO_MANY_THREADS; "
     "1 timedwait 0 5 = TOO_MANY_THREADS; 1 signal 0 = TOO_MANY_THREADS; 1 signal_all 0 = TOO_MANY_THREADS; "
     "0 rdunlock = OK; 1 wrlock = OK; 0 tryrdlock = TOO_MANY_THREADS; 1 wrunlock = OK",
     "0 got s 1; 0 gave s 1; 0 got x 1; 0 gave x 1"},
    {"a full history refuses new calls", "rw fair seats 2 conditions 1 cap 16",
     "[8: 0 rdlock = OK; 0 rdunlock = OK]; "
     "0 rdlock = HISTORY_FULL; 0 rdlock_interruptibly = HISTORY_FULL; 0 timedrdlock 3 = HISTORY_FULL; "
     "0 tryrdlock = HISTORY_FULL; 0 rdunlock = HISTORY_FULL; 0 wrlock = HISTORY_FULL; "
     "0 wrlock_interruptibly = HISTORY_FULL; 0 timedwrlock 0 = HISTORY_FULL; 0 trywrlock = HISTORY_FULL; "
     "0 wrunlock = HISTORY_FULL; 0 wait 0 = HISTORY_FULL; 0 wait_interruptibly 0 = HISTORY_FULL; "
     "0 timedwait 0 3 = HISTORY_FULL; 0 signal 0 = HISTORY_FULL; 0 signal_all 0 = HISTORY_FULL; 0 trim = 16; "
     "0 trywrlock = OK; 0 wrunlock = OK", NULL},
};

static const play_t plays_of_others[] = {
    {"permits", "semaphore fair seats 3 permits 3 cap 64",
     "0 acquire 0 = OK; 0 acquire 1 = OK; 0 acquire_interruptibly 1 = OK; 0 timedacquire 1 0 = OK; "
     "0 getvalue = 0; 0 tryacquire 1 = WOULD_BLOCK; 0 tryacquire 0 = OK; 0 timedacquire 1 0 = TIMED_OUT; "
     "0 timedacquire 2 3 = TIMED_OUT; 0 timedacquire 2147483647 3 = TIMED_OUT; 0 release 4 = OK; "
     "0 getvalue = 4; 1 tryacquire 4 = OK; 1 release 0 = OK; 1 release 4 = OK; 0 tryacquire 5 = WOULD_BLOCK; "
     "0 timedacquire 4 7 = OK; 0 drain = 0; 0 release 6 = OK; 2 drain = 6; 2 getvalue = 0",
     "0 got s 0; 0 got s 1; 0 got s 1; 0 got s 1; 0 missed s 1; 0 trygot s 0; 0 missed s 1; 0 queued s 2; "
     "0 left s 2 timeout; 0 queued s 2147483647; 0 left s 2147483647 timeout; 0 gave s 4; 1 trygot s 4; "
     "1 gave s 0; 1 gave s 4; 0 missed s 5; 0 got s 4; 0 drained s 0; 0 gave s 6; 2 drained s 6"},
    {"amounts", "semaphore fair seats 3 permits 1 cap 64",
     "0 acquire 2147483648 = BAD_AMOUNT; 0 acquire_interruptibly 4294967295 = BAD_AMOUNT; "
     "0 timedacquire 2147483648 3 = BAD_AMOUNT; 0 tryacquire 4294967295 = BAD_AMOUNT; "
     "0 release 2147483648 = BAD_AMOUNT; 0 release 4294967295 = BAD_AMOUNT; 0 getvalue = 1; "
     "0 release 2147483646 = OK; 0 getvalue = 2147483647; 0 release 1 = TOO_MANY_PERMITS; "
     "0 release 2147483647 = TOO_MANY_PERMITS; 0 release 0 = OK; 0 getvalue = 2147483647; "
     "0 tryacquire 2147483647 = OK; 0 getvalue = 0; 0 release 2147483647 = OK; 1 drain = 2147483647",
     "0 gave s 2147483646; 0 refused s 1 TooManyPermits; 0 refused s 2147483647 TooManyPermits; 0 gave s 0; "
     "0 trygot s 2147483647; 0 gave s 2147483647; 1 drained s 2147483647"},
    {"permits below zero", "semaphore fair seats 3 permits -3 cap 64",
     "0 getvalue = -3; 0 drain = 0; 0 acquire_interruptibly 2147483648 = BAD_AMOUNT; "
     "0 tryacquire 0 = WOULD_BLOCK; 0 timedacquire 0 0 = TIMED_OUT; 0 release 1 = OK; 0 getvalue = -2; "
     "0 trim = 4; 0 getvalue = -2; 0 release 2 = OK; 0 tryacquire 0 = OK; 0 tryacquire 1 = WOULD_BLOCK",
     NULL},
    {"a semaphore has a seat for each that waits", "semaphore fair seats 1 permits 5 cap 64",
     "0 acquire_interruptibly 6 ..; 1 timedacquire 1 0 = TOO_MANY_THREADS; "
     "1 timedacquire 1 5 = TIMED_OUT; 1 tryacquire 1 = TOO_MANY_THREADS; "
     "1 release 1 = TOO_MANY_THREADS; 1 drain = TOO_MANY_THREADS; 1 getvalue = TOO_MANY_THREADS; "
     "1 interrupt 0 = OK; 0 = INTERRUPTED; 1 getvalue = 5; 1 acquire 2 = OK; 0 release 1 = OK; 5 drain = 4",
     "0 queued s 6; 0 left s 6 interrupt; 0 got s 2; 0 gave s 1; 0 drained s 4"},
    {"a full history refuses each call but looks", "semaphore fair seats 3 permits 5 cap 16",
     "[8: 0 tryacquire 1 = OK; 0 release 1 = OK]; 0 acquire 1 = HISTORY_FULL; "
     "0 acquire_interruptibly 1 = HISTORY_FULL; 0 timedacquire 1 3 = HISTORY_FULL; "
     "0 tryacquire 1 = HISTORY_FULL; 0 release 1 = HISTORY_FULL; 0 drain = HISTORY_FULL; 0 getvalue = 5; "
     "0 acquire 2147483648 = BAD_AMOUNT; 0 trim = 16; 0 getvalue = 5; 0 drain = 5", NULL},
    {"one that folds makes room for each", "semaphore fair seats 3 permits 5 cap 16 trims",
     "[16: 0 tryacquire 1 = OK; 0 release 1 = OK; 0 acquire 2 = OK; 0 drain = 3; 0 release 5 = OK; "
     "0 acquire_interruptibly 1 = OK; 0 release 1 = OK; 0 timedacquire 5 3 = OK; 0 release 5 = OK]; "
     "0 getvalue = 5", NULL},
    {"a latch", "latch seats 3 count 2 cap 64",
     "0 getcount = 2; 0 timedawait 0 = TIMED_OUT; 0 timedawait 3 = TIMED_OUT; 0 count_down = OK; "
     "0 getcount = 1; 0 trim = 4; 1 getcount = 1; 1 timedawait 0 = TIMED_OUT; 1 count_down = OK; "
     "1 getcount = 0; 1 count_down = OK; 0 getcount = 0; 0 await = OK; 0 await_interruptibly = OK; "
     "0 timedawait 0 = OK; 0 timedawait 8 = OK", NULL},
    {"a latch too", "latch seats 1 count 1 cap 64",
     "0 await_interruptibly ..; 1 count_down = TOO_MANY_THREADS; "
     "1 timedawait 0 = TOO_MANY_THREADS; 1 timedawait 5 = TIMED_OUT; "
     "1 getcount = TOO_MANY_THREADS; 1 interrupt 0 = OK; 0 = INTERRUPTED; "
     "1 getcount = 1; 1 count_down = OK; 0 await = OK; 5 getcount = 0",
     "0 queued s 1; 0 left s 1 interrupt; 0 counted s 1; 0 got s 1"},
    {"a full history refuses each call but a look at the count", "latch seats 3 count 1 cap 16",
     "[8: 0 count_down = OK; 0 await = OK]; 0 count_down = HISTORY_FULL; 0 await = HISTORY_FULL; "
     "0 await_interruptibly = HISTORY_FULL; 0 timedawait 0 = HISTORY_FULL; 0 timedawait 3 = HISTORY_FULL; "
     "0 getcount = 0; 0 trim = 16; 0 await = OK", NULL},
};

/* The name of each status, and of what is none. */
static void names_of_statuses(void) {
    static const char *const wanted[] = {[AQS_OK] = "AQS_OK",
                                         [AQS_TIMED_OUT] = "AQS_TIMED_OUT",
                                         [AQS_INTERRUPTED] = "AQS_INTERRUPTED",
                                         [AQS_WOULD_BLOCK] = "AQS_WOULD_BLOCK",
                                         [AQS_NOT_OWNER] = "AQS_NOT_OWNER",
                                         [AQS_TOO_MANY_HOLDS] = "AQS_TOO_MANY_HOLDS",
                                         [AQS_TOO_MANY_PERMITS] = "AQS_TOO_MANY_PERMITS",
                                         [AQS_HOLDS_READ] = "AQS_HOLDS_READ",
                                         [AQS_NO_SUCH_CONDITION] = "AQS_NO_SUCH_CONDITION",
                                         [AQS_BAD_AMOUNT] = "AQS_BAD_AMOUNT",
                                         [AQS_HISTORY_FULL] = "AQS_HISTORY_FULL",
                                         [AQS_OUT_OF_MEMORY] = "AQS_OUT_OF_MEMORY",
                                         [AQS_OUT_OF_RANGE] = "AQS_OUT_OF_RANGE",
                                         [AQS_TOO_MANY_THREADS] = "AQS_TOO_MANY_THREADS",
                                         [AQS_NO_SPACE] = "AQS_NO_SPACE",
                                         [AQS_IO_ERROR] = "AQS_IO_ERROR",
                                         [AQS_MISUSE] = "AQS_MISUSE",
                                         [AQS_HANDLER_RAN] = "AQS_HANDLER_RAN"};
    for (int i = -2; i < 300; i++) {
        bool is_one = 0 <= i && i <= AQS_HANDLER_RAN;
        CHECK(strcmp(aqs_status_name((aqs_status_t)i), is_one ? wanted[i] : "no status") == 0);
    }
}

int main(void) {
    alarm(100);
    names_of_statuses();
    start_players();
    PLAY_ALL(plays_of_locks);
    PLAY_ALL(plays_of_rwlocks);
    PLAY_ALL(plays_of_others);
    return good("statuses");
}
