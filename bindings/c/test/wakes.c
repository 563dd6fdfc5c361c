/* wakes.c: whom each call wakes: exactly one, exactly all, or nobody. */
#include "play.h"

static const play_t plays_of_locks[] = {
    {"an unlock wakes the first alone", "lock fair seats 4 conditions 1 cap 64",
     "0 lock = OK; 1 lock ..; 2 lock ..; 3 lock ..; 0 unlock = OK; 1 = OK; 2 waits; 3 waits; 1 unlock = OK; "
     "2 = OK; 3 waits; 2 unlock = OK; 3 = OK; 3 unlock = OK",
     "0 got x 1; 1 queued x 1; 2 queued x 1; 3 queued x 1; 0 gave x 1; 1 granted x 1; 1 gave x 1; "
     "2 granted x 1; 2 gave x 1; 3 granted x 1; 3 gave x 1"},
    {"in a lock that isn't fair too", "lock nonfair seats 4 conditions 1 cap 64",
     "0 lock = OK; 3 lock_interruptibly ..; 2 timedlock 20000 ..; 1 lock ..; 0 unlock = OK; 3 = OK; 2 waits; "
     "1 waits; 3 unlock = OK; 2 = OK; 1 waits; 2 unlock = OK; 1 = OK; 1 unlock = OK",
     "0 got x 1; 3 queued x 1; 2 queued x 1; 1 queued x 1; 0 gave x 1; 3 granted x 1; 3 gave x 1; "
     "2 granted x 1; 2 gave x 1; 1 granted x 1; 1 gave x 1"},
    {"only the last unlock wakes", "lock strict seats 2 conditions 1 cap 64",
     "0 lock = OK; 0 lock = OK; 0 trylock = OK; 1 lock ..; 0 unlock = OK; 1 waits; 0 unlock = OK; 1 waits; "
     "0 unlock = OK; 1 = OK; 1 unlock = OK",
     "0 got x 1; 0 got x 1; 0 trygot x 1; 1 queued x 1; 0 gave x 1; 0 gave x 1; 0 gave x 1; 1 granted x 1; "
     "1 gave x 1"},
    {"an acquire that gives up wakes nobody", "lock fair seats 4 conditions 1 cap 64",
     "0 lock = OK; 1 lock_interruptibly ..; 2 lock ..; 0 interrupt 1 = OK; 1 = INTERRUPTED; 2 waits; "
     "0 unlock = OK; 2 = OK; 2 unlock = OK",
     "0 got x 1; 1 queued x 1; 2 queued x 1; 1 left x 1 interrupt; 0 gave x 1; 2 granted x 1; 2 gave x 1"},
    {"a signal wakes who has waited longest, alone", "lock fair seats 4 conditions 1 cap 64",
     "2 lock = OK; 2 wait 0 ..; 1 lock = OK; 1 wait_interruptibly 0 ..; 3 lock = OK; 3 timedwait 0 20000 ..; "
     "0 lock = OK; 0 signal 0 = OK; 2 waits; 0 unlock = OK; 2 = OK; 1 waits; 3 waits; 2 signal 0 = OK; "
     "2 unlock = OK; 1 = OK; 3 waits; 1 signal 0 = OK; 1 signal 0 = OK; 1 unlock = OK; 3 = OK; 3 unlock = OK",
     "2 got x 1; 2 await 0 1; 1 got x 1; 1 await 0 1; 3 got x 1; 3 await 0 1; 0 got x 1; 0 signal 0 1; "
     "0 gave x 1; 2 back 0 1 signalled; 2 signal 0 1; 2 gave x 1; 1 back 0 1 signalled; 1 signal 0 1; "
     "1 signal 0 0; 1 gave x 1; 3 back 0 1 signalled; 3 gave x 1"},
    {"a signal to all wakes all, in order", "lock nonfair seats 4 conditions 2 cap 64",
     "3 lock = OK; 3 lock = OK; 3 wait 1 ..; 1 lock = OK; 1 wait 1 ..; 2 lock = OK; 2 wait 0 ..; "
     "0 lock = OK; 0 signal_all 1 = OK; 3 waits; 0 unlock = OK; 3 = OK; 1 waits; 2 waits; 3 unlock = OK; "
     "1 waits; 3 unlock = OK; 1 = OK; 2 waits; 1 signal_all 0 = OK; 1 signal_all 0 = OK; 1 unlock = OK; "
     "2 = OK; 2 unlock = OK",
     "3 got x 1; 3 got x 1; 3 await 1 2; 1 got x 1; 1 await 1 1; 2 got x 1; 2 await 0 1; 0 got x 1; "
     "0 signalall 1 2; 0 gave x 1; 3 back 1 2 signalled; 3 gave x 1; 3 gave x 1; 1 back 1 1 signalled; "
     "1 signalall 0 1; 1 signalall 0 0; 1 gave x 1; 2 back 0 1 signalled; 2 gave x 1"},
    {"a signal isn't kept", "lock fair seats 2 conditions 1 cap 64",
     "0 lock = OK; 0 signal 0 = OK; 0 signal_all 0 = OK; 0 unlock = OK; 1 lock = OK; 1 wait 0 ..; "
     "0 lock = OK; 0 unlock = OK; 1 waits; 0 lock = OK; 0 signal 0 = OK; 0 unlock = OK; 1 = OK; "
     "1 unlock = OK",
     "0 got x 1; 0 signal 0 0; 0 signalall 0 0; 0 gave x 1; 1 got x 1; 1 await 0 1; 0 got x 1; 0 gave x 1; "
     "0 got x 1; 0 signal 0 1; 0 gave x 1; 1 back 0 1 signalled; 1 gave x 1"},
    {"a wait frees the lock for the first", "lock fair seats 3 conditions 1 cap 64",
     "0 lock = OK; 1 lock ..; 2 lock ..; 0 wait 0 ..; 1 = OK; 2 waits; 1 signal 0 = OK; 1 unlock = OK; "
     "2 = OK; 0 waits; 2 unlock = OK; 0 = OK; 0 unlock = OK",
     "0 got x 1; 1 queued x 1; 2 queued x 1; 0 await 0 1; 1 granted x 1; 1 signal 0 1; 1 gave x 1; "
     "2 granted x 1; 2 gave x 1; 0 back 0 1 signalled; 0 gave x 1"},
};

static const play_t plays_of_rwlocks[] = {
    {"a writer that unlocks wakes all readers up to the next writer", "rw fair seats 5 conditions 1 cap 64",
     "0 wrlock = OK; 1 rdlock ..; 2 rdlock_interruptibly ..; 3 wrlock ..; 4 timedrdlock 20000 ..; "
     "0 wrunlock = OK; 1 = OK; 2 = OK; 3 waits; 4 waits; 1 rdunlock = OK; 3 waits; 2 rdunlock = OK; 3 = OK; "
     "4 waits; 3 wrunlock = OK; 4 = OK; 4 rdunlock = OK",
     "0 got x 1; 1 queued s 1; 2 queued s 1; 3 queued x 1; 4 queued s 1; 0 gave x 1; 1 granted s 1; "
     "2 granted s 1; 1 gave s 1; 2 gave s 1; 3 granted x 1; 3 gave x 1; 4 granted s 1; 4 gave s 1"},
    {"the last reader wakes one writer", "rw nonfair seats 4 conditions 1 cap 64",
     "0 rdlock = OK; 1 rdlock = OK; 2 wrlock_interruptibly ..; 3 timedwrlock 20000 ..; 0 rdunlock = OK; "
     "2 waits; 1 rdunlock = OK; 2 = OK; 3 waits; 2 wrunlock = OK; 3 = OK; 3 wrunlock = OK",
     "0 got s 1; 1 got s 1; 2 queued x 1; 3 queued x 1; 0 gave s 1; 1 gave s 1; 2 granted x 1; 2 gave x 1; "
     "3 granted x 1; 3 gave x 1"},
    {"a writer that gives up wakes the readers behind it", "rw fair seats 4 conditions 1 cap 64",
     "0 rdlock = OK; 1 wrlock_interruptibly ..; 2 rdlock ..; 3 rdlock ..; 0 interrupt 1 = OK; "
     "1 = INTERRUPTED; 2 = OK; 3 = OK; 0 rdunlock = OK; 2 rdunlock = OK; 3 rdunlock = OK",
     "0 got s 1; 1 queued x 1; 2 queued s 1; 3 queued s 1; 1 left x 1 interrupt; 2 granted s 1; "
     "3 granted s 1; 0 gave s 1; 2 gave s 1; 3 gave s 1"},
    {"a writer that goes on to read wakes readers", "rw nonfair seats 3 conditions 1 cap 64",
     "0 wrlock = OK; 0 rdlock = OK; 1 rdlock ..; 2 wrlock ..; 0 wrunlock = OK; 1 = OK; 2 waits; "
     "0 rdunlock = OK; 2 waits; 1 rdunlock = OK; 2 = OK; 2 wrunlock = OK",
     "0 got x 1; 0 got s 1; 1 queued s 1; 2 queued x 1; 0 gave x 1; 1 granted s 1; 0 gave s 1; 1 gave s 1; "
     "2 granted x 1; 2 gave x 1"},
    {"a signal wakes one", "rw fair seats 4 conditions 2 cap 64",
     "1 wrlock = OK; 1 wait 1 ..; 2 wrlock = OK; 2 wait 1 ..; 0 wrlock = OK; 0 signal 0 = OK; "
     "0 signal 1 = OK; 0 wrunlock = OK; 1 = OK; 2 waits; 1 signal 1 = OK; 1 wrunlock = OK; 2 = OK; "
     "2 wrunlock = OK",
     "1 got x 1; 1 await 1 1; 2 got x 1; 2 await 1 1; 0 got x 1; 0 signal 0 0; 0 signal 1 1; 0 gave x 1; "
     "1 back 1 1 signalled; 1 signal 1 1; 1 gave x 1; 2 back 1 1 signalled; 2 gave x 1"},
    {"a signal to all wakes all", "rw nonfair seats 4 conditions 1 cap 64",
     "1 wrlock = OK; 1 wrlock = OK; 1 wait_interruptibly 0 ..; 2 wrlock = OK; 2 timedwait 0 20000 ..; "
     "0 wrlock = OK; 0 signal_all 0 = OK; 0 wrunlock = OK; 1 = OK; 2 waits; 1 wrunlock = OK; 2 waits; "
     "1 wrunlock = OK; 2 = OK; 2 wrunlock = OK",
     "1 got x 1; 1 got x 1; 1 await 0 2; 2 got x 1; 2 await 0 1; 0 got x 1; 0 signalall 0 2; 0 gave x 1; "
     "1 back 0 2 signalled; 1 gave x 1; 1 gave x 1; 2 back 0 1 signalled; 2 gave x 1"},
};

static const play_t plays_of_others[] = {
    {"a release of two wakes two that want one", "semaphore fair seats 5 permits 0 cap 64",
     "1 acquire 1 ..; 2 acquire_interruptibly 1 ..; 3 timedacquire 1 20000 ..; 0 release 2 = OK; 1 = OK; "
     "2 = OK; 3 waits; 0 getvalue = 0; 0 release 1 = OK; 3 = OK",
     "1 queued s 1; 2 queued s 1; 3 queued s 1; 0 gave s 2; 1 granted s 1; 2 granted s 1; 0 gave s 1; "
     "3 granted s 1"},
    {"a release that isn't enough for the first wakes nobody", "semaphore nonfair seats 4 permits 0 cap 64",
     "1 acquire 3 ..; 2 acquire 1 ..; 0 release 2 = OK; 1 waits; 2 waits; 0 getvalue = 2; 0 release 2 = OK; "
     "1 = OK; 2 = OK; 0 getvalue = 0",
     "1 queued s 3; 2 queued s 1; 0 gave s 2; 0 gave s 2; 1 granted s 3; 2 granted s 1"},
    {"permits below zero come first", "semaphore strict seats 3 permits -2 cap 64",
     "1 acquire 1 ..; 0 release 2 = OK; 1 waits; 0 getvalue = 0; 0 release 1 = OK; 1 = OK",
     "1 queued s 1; 0 gave s 2; 0 gave s 1; 1 granted s 1"},
    {"only a fair semaphore's try passes those who wait", "semaphore fair seats 3 permits 1 cap 64",
     "1 acquire 2 ..; 2 tryacquire 1 = OK; 2 timedacquire 1 0 = TIMED_OUT; 0 release 2 = OK; 1 = OK",
     "1 queued s 2; 2 trygot s 1; 2 missed s 1; 0 gave s 2; 1 granted s 2"},
    {"and a strict semaphore's doesn't", "semaphore strict seats 3 permits 1 cap 64",
     "1 acquire 2 ..; 2 tryacquire 1 = WOULD_BLOCK; 2 timedacquire 1 0 = TIMED_OUT; 0 release 1 = OK; 1 = OK",
     "1 queued s 2; 2 missed s 1; 2 missed s 1; 0 gave s 1; 1 granted s 2"},
    {"and that of one that isn't fair does, a time too", "semaphore nonfair seats 4 permits 3 cap 64",
     "1 acquire 4 ..; 2 tryacquire 1 = OK; 2 timedacquire 1 0 = OK; 2 acquire 1 = OK; 0 release 4 = OK; "
     "1 = OK", "1 queued s 4; 2 trygot s 1; 2 got s 1; 2 got s 1; 0 gave s 4; 1 granted s 4"},
    {"the last count wakes all, and none before", "latch seats 5 count 2 cap 64",
     "1 await ..; 2 await_interruptibly ..; 3 timedawait 20000 ..; 0 count_down = OK; 1 waits; 2 waits; "
     "3 waits; 0 getcount = 1; 0 count_down = OK; 1 = OK; 2 = OK; 3 = OK; 0 await = OK; 0 count_down = OK; "
     "0 getcount = 0",
     "1 queued s 1; 2 queued s 1; 3 queued s 1; 0 counted s 1; 0 counted s 1; 1 granted s 1; 2 granted s 1; "
     "3 granted s 1; 0 got s 1; 0 counted s 1"},
};

static const play_t plays_of_mutexes[] = {
    {"a signal wakes one, and one to all the others", "mutex fair seats 4 conditions 2 cap 64",
     "1 lock = OK; 1 wait 1 ..; 2 lock = OK; 2 wait_interruptibly 1 ..; 3 lock = OK; 3 timedwait 1 20000 ..; "
     "0 lock = OK; 0 signal 1 = OK; 0 unlock = OK; 1 = OK; 2 waits; 3 waits; 1 signal_all 1 = OK; "
     "1 unlock = OK; 2 = OK; 2 unlock = OK; 3 = OK; 3 unlock = OK",
     "1 got x 1; 1 await 1 1; 2 got x 1; 2 await 1 1; 3 got x 1; 3 await 1 1; 0 got x 1; 0 signal 1 1; "
     "0 gave x 1; 1 back 1 1 signalled; 1 signalall 1 2; 1 gave x 1; 2 back 1 1 signalled; 2 gave x 1; "
     "3 back 1 1 signalled; 3 gave x 1"},
    {"its owner can't acquire it again", "mutex nonfair seats 2 conditions 1 cap 64",
     "0 lock = OK; 0 lock = TOO_MANY_HOLDS; 0 trylock = WOULD_BLOCK; 0 timedlock 5 = TOO_MANY_HOLDS; "
     "0 lock_interruptibly = TOO_MANY_HOLDS; 1 unlock = NOT_OWNER; 1 wait 0 = NOT_OWNER; "
     "1 timedwait 0 5 = NOT_OWNER; 0 interrupt 1 = OK; 1 wait_interruptibly 0 = NOT_OWNER; 1 interrupted = 1; "
     "1 timedlock 2 = TIMED_OUT; 0 timedwait 0 2 = TIMED_OUT; 0 lock = TOO_MANY_HOLDS; 0 unlock = OK; "
     "0 unlock = NOT_OWNER; 1 trylock = OK; 1 unlock = OK",
     "0 got x 1; 1 queued x 1; 1 left x 1 timeout; 0 await 0 1; 0 lapse 0 timeout; 0 back 0 1 timeout; "
     "0 gave x 1; 1 trygot x 1; 1 gave x 1"},
};

int main(void) {
    alarm(100);
    start_players();
    PLAY_ALL(plays_of_locks);
    PLAY_ALL(plays_of_rwlocks);
    PLAY_ALL(plays_of_others);
    PLAY_ALL(plays_of_mutexes);
    return good("wakes");
}
