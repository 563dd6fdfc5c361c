/* seats.c: which thread has which seat of an object, and when it gives it back. Objects without an opening,
   questions, and conditions of their own. In the histories a seat is a place: several threads have it, one
   after the other. */
#define PLAYERS 18
#include "play.h"

#include <sys/wait.h>

#define MISS(thread) thread " trylock = WOULD_BLOCK; "

static const play_t plays[] = {
    /* Seats are given back. Two threads that hold or wait leave none. */
    {"a try that fails", "lock fair seats 2 conditions 1 cap 64",
     "0 lock = OK; " MISS("1") MISS("2") MISS("3") MISS("4") "5 unlock = NOT_OWNER; 6 signal 0 = NOT_OWNER; "
     "7 wait 0 = NOT_OWNER; 1 lock ..; 2 trylock = TOO_MANY_THREADS; 0 unlock = OK; 1 = OK; 1 unlock = OK",
     "0 got x 1; 1 missed x 1; 1 missed x 1; 1 missed x 1; 1 missed x 1; 1 refused x 1 NotOwner; "
     "1 refused x 1 NotOwner; 1 refused x 1 NotOwner; 1 queued x 1; 0 gave x 1; 1 granted x 1; 1 gave x 1"},
    {"a time that is up, and an interrupt", "lock nonfair seats 2 conditions 1 cap 64",
     "0 lock = OK; 1 timedlock 1 = TIMED_OUT; 2 timedlock 0 = TIMED_OUT; 3 lock_interruptibly ..; "
     "4 trylock = TOO_MANY_THREADS; 4 interrupt 3 = OK; 3 = INTERRUPTED; " MISS("5") "0 unlock = OK; "
     "5 lock = OK; 6 trylock = WOULD_BLOCK; 5 unlock = OK; [20: 3 lock = OK; 3 unlock = OK]", NULL},
    {"the last unlock, and no unlock before it", "lock nonfair seats 2 conditions 1 cap 64",
     "0 lock = OK; 0 lock = OK; 1 lock ..; 0 unlock = OK; 2 trylock = TOO_MANY_THREADS; 0 holds = 1; "
     "0 unlock = OK; 1 = OK; " MISS("2") MISS("3") "1 unlock = OK; 2 lock = OK; " MISS("0") "2 unlock = OK",
     NULL},
    {"a wait keeps the seat", "lock nonfair seats 2 conditions 1 cap 64",
     "0 lock = OK; 0 wait 0 ..; 1 lock = OK; 2 timedlock 0 = TOO_MANY_THREADS; 1 signal 0 = OK; "
     "2 trylock = TOO_MANY_THREADS; 1 unlock = OK; 0 = OK; 1 lock ..; 0 unlock = OK; 1 = OK; 1 unlock = OK; "
     "2 lock = OK; 2 unlock = OK",
     "0 got x 1; 0 await 0 1; 1 got x 1; 1 signal 0 1; 1 gave x 1; 0 back 0 1 signalled; 1 queued x 1; "
     "0 gave x 1; 1 granted x 1; 1 gave x 1; 0 got x 1; 0 gave x 1"},
    {"each side of a read-write lock", "rw nonfair seats 2 conditions 1 cap 64",
     "0 rdlock = OK; 0 rdlock = OK; 1 rdlock = OK; 2 tryrdlock = TOO_MANY_THREADS; 0 rdunlock = OK; "
     "2 tryrdlock = TOO_MANY_THREADS; 0 rdunlock = OK; 2 tryrdlock = OK; 0 tryrdlock = TOO_MANY_THREADS; "
     "1 rdunlock = OK; 2 rdunlock = OK; 3 wrlock = OK; 3 rdlock = OK; 3 wrunlock = OK; 4 tryrdlock = OK; "
     "5 tryrdlock = TOO_MANY_THREADS; 3 rdunlock = OK; 5 tryrdlock = OK; 5 rdunlock = OK; 4 rdunlock = OK; "
     "6 wrlock = OK; 7 trywrlock = WOULD_BLOCK; 5 trywrlock = WOULD_BLOCK; 6 wrunlock = OK", NULL},
    {"permits keep none", "semaphore nonfair seats 1 permits 5 cap 64",
     "0 acquire 2 = OK; 1 tryacquire 1 = OK; 2 timedacquire 9 1 = TIMED_OUT; 3 tryacquire 9 = WOULD_BLOCK; "
     "4 release 1 = OK; 5 getvalue = 3; 6 drain = 3; 7 release 2147483647 = OK; "
     "0 release 1 = TOO_MANY_PERMITS; "
     "1 acquire 2147483648 = BAD_AMOUNT; 2 trim = 9; 3 text = OK; 4 drain = 2147483647",
     NULL},
    {"nor does a latch", "latch seats 1 count 2 cap 64",
     "0 count_down = OK; 1 timedawait 1 = TIMED_OUT; 2 getcount = 1; 3 count_down = OK; 4 await = OK; "
     "5 await_interruptibly = OK",
     "0 counted s 1; 0 queued s 1; 0 left s 1 timeout; 0 counted s 1; 0 got s 1; 0 got s 1"},
    {"nor a full history", "lock nonfair seats 2 conditions 1 cap 16",
     "0 lock = OK; 0 lock = OK; 0 lock = OK; 0 lock = OK; 0 lock = OK; 0 lock = OK; 0 lock = OK; "
     "0 lock = OK; "
     "1 lock = HISTORY_FULL; 2 trylock = HISTORY_FULL; 3 timedlock 4 = HISTORY_FULL; "
     "4 unlock = HISTORY_FULL; "
     "5 text = OK; [8: 0 unlock = OK]; 3 trim = 16; 5 lock = OK; 6 trylock = WOULD_BLOCK; "
     "5 unlock = OK", NULL},

    {"a call that gets none leaves nothing behind", "semaphore fair seats 1 permits 0 cap 64",
     "0 acquire_interruptibly 5 ..; 1 release 1 = TOO_MANY_THREADS; 1 interrupt 0 = OK; 0 = INTERRUPTED; "
     "1 release 1 = OK; 0 getvalue = 1", "0 queued s 5; 0 left s 5 interrupt; 0 gave s 1"},

    /* A thread takes the seat that it had last. */
    {"the seat of a thread", "lock nonfair seats 2 conditions 1 cap 64",
     "0 lock = OK; 2 lock ..; 0 unlock = OK; 2 = OK; 2 unlock = OK; 2 lock = OK; 2 unlock = OK; 4 lock = OK; "
     "2 trylock = WOULD_BLOCK; 4 unlock = OK; 1 lock = OK; 2 trylock = WOULD_BLOCK; 1 unlock = OK; "
     "2 lock = OK; 2 unlock = OK; 1 lock = OK; 1 unlock = OK",
     "0 got x 1; 1 queued x 1; 0 gave x 1; 1 granted x 1; 1 gave x 1; 1 got x 1; 1 gave x 1; 0 got x 1; "
     "1 missed x 1; 0 gave x 1; 1 got x 1; 0 missed x 1; 1 gave x 1; 0 got x 1; 0 gave x 1; 1 got x 1; "
     "1 gave x 1"},
    {"a holder comes back to its own", "lock nonfair seats 4 conditions 1 cap 64",
     "3 lock = OK; 3 lock = OK; 7 trylock = WOULD_BLOCK; 3 trylock = OK; 3 timedlock 5 = OK; "
     "3 signal 0 = OK; "
     "3 text = OK; 3 holds = 4; 3 unlock = OK; 3 unlock = OK; 3 unlock = OK; 7 trylock = WOULD_BLOCK; "
     "3 unlock = OK; 7 trylock = OK; 3 trylock = WOULD_BLOCK; 7 unlock = OK",
     "3 got x 1; 3 got x 1; 0 missed x 1; 3 trygot x 1; 3 got x 1; 3 signal 0 0; 3 gave x 1; 3 gave x 1; "
     "3 gave x 1; 0 missed x 1; 3 gave x 1; 0 trygot x 1; 3 missed x 1; 0 gave x 1"},

    /* Questions. */
    {"holds of a lock", "lock strict seats 3 conditions 1 cap 64",
     "0 holds = 0; 0 is_mine = 0; 0 lock = OK; 0 holds = 1; 1 holds = 0; 1 is_mine = 0; 0 is_mine = 1; "
     "0 timedlock 1 = OK; 0 trylock = OK; 0 holds = 3; 1 lock ..; 0 unlock = OK; 0 holds = 2; "
     "0 timedwait 0 1 ..; 1 = OK; 1 holds = 1; 1 unlock = OK; 0 = TIMED_OUT; 0 holds = 2; 0 unlock = OK; "
     "0 unlock = OK; 0 unlock = NOT_OWNER; 0 holds = 0; 0 is_mine = 0; 1 is_mine = 0; 5 policy = 2", NULL},
    {"holds of a read-write lock", "rw fair seats 3 conditions 1 cap 64",
     "0 rdlock = OK; 0 timedrdlock 1 = OK; 0 tryrdlock = OK; 0 reads = 3; 0 writes = 0; 0 is_mine = 0; "
     "1 reads = 0; 1 trywrlock = WOULD_BLOCK; 1 writes = 0; 0 rdunlock = OK; 0 rdunlock = OK; 0 reads = 1; "
     "0 rdunlock = OK; 0 reads = 0; 0 rdunlock = NOT_OWNER; 0 reads = 0; 1 wrlock = OK; 1 wrlock = OK; "
     "1 rdlock = OK; "
     "1 writes = 2; 1 reads = 1; 1 is_mine = 1; 0 is_mine = 0; 1 wrunlock = OK; 1 wrunlock = OK; "
     "1 writes = 0; 1 reads = 1; 1 is_mine = 0; 1 rdunlock = OK; 5 policy = 1", NULL},
    {"each call counts on its own side", "rw nonfair seats 2 conditions 1 cap 64",
     "0 rdlock_interruptibly = OK; 0 reads = 1; 0 writes = 0; 0 timedrdlock 1 = OK; 0 reads = 2; "
     "0 tryrdlock = OK; 0 rdlock = OK; 0 reads = 4; 0 writes = 0; [4: 0 rdunlock = OK]; 0 reads = 0; "
     "0 wrlock_interruptibly = OK; 0 writes = 1; 0 reads = 0; 0 timedwrlock 1 = OK; 0 trywrlock = OK; "
     "0 wrlock = OK; 0 writes = 4; 0 reads = 0; [4: 0 wrunlock = OK]; 0 writes = 0; 0 reads = 0", NULL},
    {"each call of a lock counts", "lock nonfair seats 2 conditions 1 cap 64",
     "0 lock_interruptibly = OK; 0 holds = 1; 0 timedlock 1 = OK; 0 holds = 2; 0 trylock = OK; 0 holds = 3; "
     "0 lock = OK; 0 holds = 4; [4: 0 unlock = OK]; 0 holds = 0", NULL},
    {"whose a mutex is", "mutex nonfair seats 3 conditions 1 cap 64",
     "0 is_mine = 0; 0 lock = OK; 0 is_mine = 1; 0 lock = TOO_MANY_HOLDS; 0 is_mine = 1; 1 is_mine = 0; "
     "1 trylock = WOULD_BLOCK; 0 timedwait 0 1 = TIMED_OUT; 0 is_mine = 1; 0 unlock = OK; 0 is_mine = 0; "
     "0 policy = 0", NULL},
    {"questions record nothing", "lock fair seats 2 conditions 1 cap 64",
     "[30: 0 is_mine = 0; 1 holds = 0; 0 policy = 1]; 0 lock = OK; [30: 0 is_mine = 1; 1 is_mine = 0]; "
     "[30: 0 is_locked = 1; 1 is_locked = 1; 1 queue_length = 0; 1 waiters = 0]; 0 unlock = OK",
     "0 got x 1; 0 gave x 1"},

    /* Who has an object, and who waits for it. */
    {"who has a lock, and who waits for it", "lock fair seats 8 conditions 2 cap 64",
     "0 is_locked = 0; 0 queue_length = 0; 0 waiters = 0; 1 lock = OK; 0 is_locked = 1; 1 is_locked = 1; "
     "1 wait 1 ..; 0 is_locked = 0; 0 queue_length = 0; 0 waiters = 1; 2 lock = OK; 2 wait 0 ..; 3 lock = OK; "
     "3 wait 1 ..; 0 waiters = 3; 4 lock = OK; 5 lock ..; 6 timedlock 20000 ..; 0 is_locked = 1; "
     "0 queue_length = 2; 4 waiters = 5; 4 signal_all 1 = OK; 0 queue_length = 4; 0 waiters = 5; "
     "4 unlock = OK; 5 = OK; 0 is_locked = 1; 0 queue_length = 3; 5 waiters = 4; 5 unlock = OK; 6 = OK; "
     "6 unlock = OK; 1 = OK; 1 unlock = OK; 3 = OK; 0 queue_length = 0; 0 waiters = 1; 3 signal 0 = OK; "
     "0 queue_length = 1; 3 unlock = OK; 2 = OK; 0 is_locked = 1; 2 waiters = 0; 2 unlock = OK; "
     "0 is_locked = 0; 2 waiters = 0",
     "1 got x 1; 1 await 1 1; 2 got x 1; 2 await 0 1; 3 got x 1; 3 await 1 1; 4 got x 1; 5 queued x 1; "
     "6 queued x 1; 4 signalall 1 2; 4 gave x 1; 5 granted x 1; 5 gave x 1; 6 granted x 1; 6 gave x 1; "
     "1 back 1 1 signalled; 1 gave x 1; 3 back 1 1 signalled; 3 signal 0 1; 3 gave x 1; "
     "2 back 0 1 signalled; 2 gave x 1"},
    {"who writes, and who waits to", "rw fair seats 4 conditions 1 cap 64",
     "0 is_write_locked = 0; 1 rdlock = OK; 0 is_write_locked = 0; 2 wrlock ..; 0 is_write_locked = 0; "
     "3 rdlock ..; 0 queue_length = 2; 0 waiters = 2; 1 rdunlock = OK; 2 = OK; 0 is_write_locked = 1; "
     "0 queue_length = 1; 2 wait 0 ..; 3 = OK; 0 is_write_locked = 0; 0 queue_length = 0; 3 waiters = 1; "
     "3 rdunlock = OK; 1 wrlock = OK; 1 signal 0 = OK; 1 queue_length = 1; 1 wrunlock = OK; 2 = OK; "
     "2 is_write_locked = 1; 2 wrunlock = OK; 2 waiters = 0",
     NULL},
    {"who waits for permits", "semaphore nonfair seats 4 permits 1 cap 64",
     "0 acquire 1 = OK; 0 waiters = 0; 1 acquire 2 ..; 2 timedacquire 1 20000 ..; 0 queue_length = 2; "
     "3 waiters = 2; 0 release 3 = OK; 1 = OK; 2 = OK; 0 queue_length = 0; 0 waiters = 0", NULL},
    {"who waits for a latch", "latch seats 4 count 1 cap 64",
     "0 waiters = 0; 1 await ..; 2 await_interruptibly ..; 3 queue_length = 2; 0 waiters = 2; "
     "0 count_down = OK; 1 = OK; 2 = OK; 0 queue_length = 0; 0 waiters = 0", NULL},
    {"whether a mutex is owned", "mutex nonfair seats 3 conditions 1 cap 64",
     "0 is_locked = 0; 1 lock = OK; 0 is_locked = 1; 1 is_locked = 1; 2 lock ..; 0 queue_length = 1; "
     "1 wait 0 ..; 2 = OK; 0 waiters = 1; 2 signal 0 = OK; 0 queue_length = 1; 2 unlock = OK; 1 = OK; "
     "1 unlock = OK; 0 is_locked = 0", NULL},
    {"such questions need a seat", "lock fair seats 1 conditions 1 cap 64",
     "0 lock = OK; 1 is_locked = TOO_MANY_THREADS; 1 queue_length = TOO_MANY_THREADS; "
     "1 waiters = TOO_MANY_THREADS; 0 is_locked = 1; 0 waiters = 0; 0 unlock = OK; 1 is_locked = 0", NULL},

    /* Conditions as objects. */
    {"a condition as an object", "lock fair seats 4 conditions 2 cap 64",
     "0 await 0 = NOT_OWNER; 0 await_interruptibly 0 = NOT_OWNER; 0 timedawait 0 1 = NOT_OWNER; "
     "0 notify 0 = OK; "
     "0 notify_all 0 = OK; 1 lock = OK; 1 lock = OK; 1 await 0 ..; 2 lock = OK; 2 await 1 ..; 0 lock = OK; "
     "0 holds = 1; 0 notify 2 = OK; "
     "0 notify 1 = OK; 0 unlock = OK; 2 = OK; 2 unlock = OK; 1 waits; 3 lock = OK; "
     "3 timedawait 3 2 = TIMED_OUT; "
     "3 holds = 1; 3 unlock = OK; 0 notify 0 = OK; 1 = OK; 1 holds = 2; 1 unlock = OK; 1 unlock = OK",
     "1 got x 1; 1 got x 1; 1 await 1 2; 2 got x 1; 2 await 0 1; 0 got x 1; 0 signal 0 1; 0 gave x 1; "
     "2 back 0 1 signalled; 2 gave x 1; 3 got x 1; 3 await 0 1; 3 lapse 0 timeout; 3 back 0 1 timeout; "
     "3 gave x 1; "
     "0 got x 1; 0 signal 1 1; 0 gave x 1; 1 back 1 2 signalled; 1 gave x 1; 1 gave x 1"},
    {"all who wait on it", "lock nonfair seats 8 conditions 1 cap 64",
     "1 lock = OK; 1 await 5 ..; 2 lock = OK; 2 timedawait 5 20000 ..; 3 lock = OK; "
     "3 await_interruptibly 5 ..; "
     "4 lock = OK; 4 timedawait 6 1 = TIMED_OUT; 4 unlock = OK; 0 interrupt 3 = OK; 3 = INTERRUPTED; "
     "3 unlock = OK; 0 notify_all 6 = OK; 1 waits; 0 notify_all 5 = OK; 1 = OK; 1 notify 5 = OK; "
     "1 unlock = OK; 2 = OK; "
     "2 unlock = OK; 0 notify 5 = OK; 4 lock = OK; 4 timedawait 6 1 = TIMED_OUT; 4 unlock = OK", NULL},
    {"who leaves its line: the last, one between two others, the first", "lock fair seats 6 conditions 1 cap 64",
     "1 lock = OK; 1 await_interruptibly 0 ..; 2 lock = OK; 2 await_interruptibly 0 ..; 3 lock = OK; "
     "3 await_interruptibly 0 ..; 0 interrupt 3 = OK; 3 = INTERRUPTED; 3 unlock = OK; 4 lock = OK; 4 await 0 ..; "
     "0 interrupt 2 = OK; 2 = INTERRUPTED; 2 unlock = OK; 5 lock = OK; 5 await 0 ..; 0 interrupt 1 = OK; "
     "1 = INTERRUPTED; 1 unlock = OK; 0 notify 0 = OK; 4 = OK; 4 unlock = OK; 5 waits; 0 notify 0 = OK; 5 = OK; "
     "5 unlock = OK", NULL},
    {"a signal that comes when the last has left", "lock fair seats 4 conditions 1 cap 64",
     "1 lock = OK; 1 await_interruptibly 0 ..; 0 lock = OK; 0 interrupt 1 = OK; 1 waits; 3 lock ..; "
     "2 notify 0 ..; 0 unlock = OK; 1 = INTERRUPTED; 1 unlock = OK; 3 = OK; 3 await 1 ..; 2 = OK; 3 waits; "
     "0 notify 1 = OK; 3 = OK; 3 unlock = OK", NULL},
    {"a signal by a thread that has a pending interrupt", "lock fair seats 4 conditions 1 cap 64",
     "1 lock = OK; 1 await 0 ..; 0 interrupt 0 = OK; 0 notify 0 = OK; 1 = OK; 1 unlock = OK; 0 interrupted = 1", NULL},
    {"a signal that gets no seat", "lock fair seats 1 conditions 1 cap 64",
     "1 lock = OK; 1 await_interruptibly 0 ..; 0 notify 0 = TOO_MANY_THREADS; "
     "0 notify_all 0 = TOO_MANY_THREADS; 1 waits; 0 interrupt 1 = OK; 1 = INTERRUPTED; 1 is_mine = 1; "
     "1 unlock = OK; 0 notify 0 = OK", "0 got x 1; 0 await 0 1; 0 lapse 0 interrupt; 0 back 0 1 interrupt; 0 gave x 1"},
    {"it is free once it was left", "lock nonfair seats 3 conditions 16 cap 400",
     "[20: 1 lock = OK; 1 timedawait 0 0 = TIMED_OUT; 1 timedawait 1 0 = TIMED_OUT; 1 unlock = OK]", NULL},
    {"two that share a number", "lock fair seats 6 conditions 1 cap 64",
     "1 lock = OK; 1 await 0 ..; 2 lock = OK; 2 await 1 ..; 3 lock = OK; 3 lock = OK; 3 await 0 ..; "
     "0 notify 1 = OK; 2 = OK; 2 holds = 1; 2 unlock = OK; 1 waits; 3 waits; 0 notify 1 = OK; "
     "0 notify 0 = OK; 1 = OK; 1 unlock = OK; 3 waits; 0 notify 0 = OK; 3 = OK; 3 holds = 2; 3 unlock = OK; "
     "3 unlock = OK; 0 notify 0 = OK",
     "1 got x 1; 1 await 0 1; 2 got x 1; 2 await 0 1; 3 got x 1; 3 got x 1; 3 await 0 2; 0 got x 1; "
     "0 signalall 0 3; 0 gave x 1; 1 back 0 1 signalled; 1 await 0 1; 2 back 0 1 signalled; 2 gave x 1; "
     "3 back 0 2 signalled; 3 await 0 2; 0 got x 1; 0 signal 0 1; 0 gave x 1; 1 back 0 1 signalled; "
     "1 gave x 1; 0 got x 1; 0 signal 0 1; 0 gave x 1; 3 back 0 2 signalled; 3 gave x 1; 3 gave x 1"},
    {"all of one of two that share", "lock fair seats 6 conditions 1 cap 64",
     "1 lock = OK; 1 await 0 ..; 2 lock = OK; 2 await 1 ..; 3 lock = OK; 3 await 1 ..; 0 notify_all 1 = OK; "
     "2 = OK; 2 unlock = OK; 3 = OK; 3 unlock = OK; 1 waits; 0 notify_all 0 = OK; 1 = OK; 1 unlock = OK",
     NULL},
    {"one of two on a condition that shares", "lock fair seats 6 conditions 1 cap 64",
     "1 lock = OK; 1 await 0 ..; 2 lock = OK; 2 await 1 ..; 3 lock = OK; 3 await 1 ..; 0 notify 1 = OK; "
     "2 = OK; 2 unlock = OK; 3 waits; 1 waits; 0 notify 1 = OK; 3 = OK; 3 unlock = OK; 1 waits; "
     "0 notify 0 = OK; 1 = OK; 1 unlock = OK", NULL},
    {"who is woken in place of another waits after those that came since",
     "lock fair seats 6 conditions 1 cap 64",
     "1 lock = OK; 1 await 0 ..; 2 lock = OK; 2 await 1 ..; 3 lock = OK; 4 lock ..; 3 notify 1 = OK; "
     "3 unlock = OK; 4 = OK; 4 await 0 ..; 2 = OK; 2 unlock = OK; 1 waits; 0 notify 0 = OK; 4 = OK; "
     "4 unlock = OK; 1 waits; 0 notify 0 = OK; 1 = OK; 1 unlock = OK", NULL},
    {"a time of one that shares", "lock fair seats 6 conditions 1 cap 400",
     "2 lock = OK; 2 await 1 ..; 1 lock = OK; 1 timedawait 0 1500 ..; "
     "[4: 0 notify 1 = OK; 2 = OK; 2 await 1 ..; 1 waits]; 1 = TIMED_OUT; 1 unlock = OK; "
     "0 notify_all 1 = OK; 2 = OK; 2 unlock = OK", NULL},
    {"an interrupt of one that shares", "lock fair seats 6 conditions 1 cap 64",
     "2 lock = OK; 2 await 1 ..; 1 lock = OK; 1 await_interruptibly 0 ..; 0 notify 1 = OK; 2 = OK; "
     "2 unlock = OK; 1 waits; 0 interrupt 1 = OK; 1 = INTERRUPTED; 1 unlock = OK", NULL},
    {"a signal for one that an interrupt has woken", "lock fair seats 6 conditions 1 cap 64",
     "1 lock = OK; 1 await_interruptibly 0 ..; 0 lock = OK; 0 interrupt 1 = OK; 1 waits; 0 notify 0 = OK; "
     "0 unlock = OK; 1 = OK; 1 interrupted = 1; 1 unlock = OK", NULL},
    {"a signal for one whose time is up", "lock fair seats 6 conditions 1 cap 64",
     "1 lock = OK; 1 timedawait 0 1000 ..; 0 lock = OK; [350: 1 waits]; 0 notify 0 = OK; 0 unlock = OK; "
     "1 = OK; 1 unlock = OK", NULL},
    {"of a mutex", "mutex fair seats 3 conditions 1 cap 64",
     "0 await 7 = NOT_OWNER; 0 lock = OK; 0 timedawait 7 1 = TIMED_OUT; 0 is_mine = 1; 0 await 7 ..; "
     "1 lock = OK; "
     "1 notify_all 7 = OK; 1 is_mine = 1; 1 unlock = OK; 0 = OK; 0 is_mine = 1; 0 unlock = OK",
     "0 got x 1; 0 await 0 1; 0 lapse 0 timeout; 0 back 0 1 timeout; 0 await 0 1; 1 got x 1; "
     "1 signalall 0 1; 1 gave x 1; "
     "0 back 0 1 signalled; 0 gave x 1"},
};

/* Conditions in use -------------------------------------------------------------------------------------- */

enum { CONDITIONS = 16 };

/* A lock has 16 conditions in use, each with a number of its own. The next one shares a number. */
static void all_conditions(void) {
    char line[100];
    play_name = "17 conditions in use";
    kind_t kind = open_part("lock fair seats 20 conditions 16 cap 500");
    for (int i = 0; i <= CONDITIONS; i++) {
        snprintf(line, sizeof line, "%d lock = OK; %d await %d ..; 17 waiters = %d", i, i, i, i + 1);
        play_lines(kind, line);
        for (int number = 0; number < CONDITIONS; number++) {
            int users = (i >= CONDITIONS - 1 - number) + (i >= 2 * CONDITIONS - 1 - number);
            CHECK(lock->object_.users_[number] == users);
        }
    }
    for (int i = CONDITIONS; i >= 0; i--) {
        snprintf(line, sizeof line, "%d waits; 17 notify %d = OK; %d = OK; %d unlock = OK", i, i, i, i);
        play_lines(kind, line);
    }
    close_it(kind);
    for (int i = 0; i < 20; i++) CHECK(!conds[i].lock_ && !conds[i].first_ && conds[i].waiters_ == 0);
}

/* One that others wait on with another lock. */
static void two_locks(void) {
    aqs_lock_t other = AQS_LOCK_INIT;
    play_name = "a condition with two locks";
    kind_t kind = open_part("lock fair seats 3 conditions 2 cap 64");
    IS(aqs_cond_timedwait(&conds[0], &other, 1), AQS_NOT_OWNER);
    play_lines(kind, "1 lock = OK; 1 await 0 ..");
    IS(aqs_lock_lock(&other), AQS_OK);
    IS(aqs_cond_wait(&conds[0], &other), AQS_MISUSE);
    IS(aqs_cond_timedwait(&conds[0], &other, 5), AQS_MISUSE);
    CHECK(aqs_lock_holds(&other) == 1);
    play_lines(kind, "0 await 0 = NOT_OWNER; 0 notify 0 = OK; 1 = OK; 1 unlock = OK");
    IS(aqs_cond_timedwait(&conds[0], &other, 1), AQS_TIMED_OUT);
    IS(aqs_lock_unlock(&other), AQS_OK);
    for (int number = 0; number < CONDITIONS; number++)
        CHECK(lock->object_.users_[number] == 0 && other.object_.users_[number] == 0);
    aqs_lock_close(&other);
    close_it(kind);
}

static aqs_lock_t second = AQS_LOCK_INIT;

static void *wait_with_the_second(void *condition) {
    IS(aqs_lock_lock(&second), AQS_OK);
    IS(aqs_cond_timedwait(condition, &second, 100), AQS_TIMED_OUT);
    IS(aqs_lock_unlock(&second), AQS_OK);
    return NULL;
}

/* A signal waits for the lock of a condition, whose last waiter leaves meanwhile. Then another thread waits
   on it with another lock: that thread isn't meant. */
static void at_another_lock_meanwhile(void) {
    pthread_t thread;
    play_name = "a condition that goes to another lock";
    kind_t kind = open_part("lock fair seats 4 conditions 1 cap 64");
    play_lines(kind, "1 lock = OK; 1 await_interruptibly 0 ..; 0 lock = OK; 0 interrupt 1 = OK; 1 waits; "
                     "2 notify 0 ..; 0 unlock = OK; 1 = INTERRUPTED");
    CHECK(pthread_create(&thread, NULL, wait_with_the_second, &conds[0]) == 0);
    for (uint32_t count = 0; count == 0; usleep(50)) IS(aqs_object_waiters(&second.object_, &count), AQS_OK);
    play_lines(kind, "1 unlock = OK; 2 = OK");
    CHECK(pthread_join(thread, NULL) == 0);
    aqs_lock_close(&second);
    close_it(kind);
}

/* The child of a process closes a lock on which a thread of the parent waits: it is as it was before it was opened. */
static void closed_in_a_child(void) {
    static aqs_lock_t waited_on = AQS_LOCK_INIT;
    int status;
    play_name = "a lock that a child closes", lock = &waited_on;
    play_lines(LOCK, "1 lock = OK; 1 await 0 ..");
    pid_t child = fork();
    CHECK(child >= 0);
    if (child == 0) {
        aqs_lock_close(&waited_on);
        for (int number = 0; number < CONDITIONS; number++) CHECK(waited_on.object_.users_[number] == 0);
        _Exit(0);
    }
    CHECK(waitpid(child, &status, 0) == child && status == 0);
    play_lines(LOCK, "0 notify 0 = OK; 1 = OK; 1 unlock = OK");
    aqs_lock_close(&waited_on);
}

/* Threads ------------------------------------------------------------------------------------------------ */

static void run(void *(*body)(void *), void *given) {
    pthread_t thread;
    CHECK(pthread_create(&thread, NULL, body, given) == 0);
    CHECK(pthread_join(thread, NULL) == 0);
}

static void *pair(void *none) {
    IS(aqs_lock_lock(lock), AQS_OK);
    IS(aqs_lock_unlock(lock), AQS_OK);
    return none;
}

/* Any number of threads may use a lock with one seat, one after the other. */
static void one_after_the_other(void) {
    IS(aqs_lock_open(&lock, &(aqs_options_t){.threads = 1, .history = 64}), AQS_OK);
    for (int i = 0; i < 10000; i++) run(pair, NULL);
    aqs_lock_close(lock);
}

/* 300 threads that live at a time, each with a lock of its own and in turn with one of two seats. */

enum { ALIVE = 300 };

static aqs_lock_t owns[ALIVE];
static sem_t turn, has_come;
static atomic_int numbers[ALIVE];

static void *live(void *given) {
    size_t i = (size_t)given;
    IS(aqs_lock_lock(&owns[i]), AQS_OK);
    atomic_store(&numbers[i], (int)aqs_thread_self());
    CHECK(sem_post(&has_come) == 0);
    while (sem_wait(&turn) != 0) continue;
    pair(NULL);
    CHECK(aqs_lock_holds(&owns[i]) == 1);
    IS(aqs_lock_unlock(&owns[i]), AQS_OK);
    IS(aqs_lock_unlock(&owns[i]), AQS_NOT_OWNER);
    CHECK(sem_post(&turn) == 0);
    CHECK(aqs_thread_interrupted() == (i == ALIVE - 1));
    return NULL;
}

static void many_alive(void) {
    pthread_t threads[ALIVE];
    pthread_attr_t small;
    int last = 0;
    CHECK(pthread_attr_init(&small) == 0 && pthread_attr_setstacksize(&small, 128 << 10) == 0);
    CHECK(sem_init(&turn, 0, 0) == 0 && sem_init(&has_come, 0, 0) == 0);
    IS(aqs_lock_open(&lock, &(aqs_options_t){.threads = 2, .history = 64}), AQS_OK);
    for (size_t i = 0; i < ALIVE; i++) {
        IS(aqs_lock_init(&owns[i], &(aqs_options_t){.threads = 1, .history = 64}), AQS_OK);
        CHECK(pthread_create(&threads[i], &small, live, (void *)i) == 0);
    }
    for (int i = 0; i < ALIVE; i++)
        while (sem_wait(&has_come) != 0) continue;
    for (int i = 0; i < ALIVE; i++) {
        int number = atomic_load(&numbers[i]);
        CHECK(number >= PLAYERS);
        for (int j = 0; j < i; j++) CHECK(atomic_load(&numbers[j]) != number);
        if (number > last) last = number;
    }
    CHECK(last >= ALIVE);
    IS(aqs_thread_interrupt((aqs_thread_t)atomic_load(&numbers[ALIVE - 1])), AQS_OK);
    for (int bit = 12; bit < 32; bit++) IS(aqs_thread_interrupt(UINT32_C(1) << bit), AQS_OUT_OF_RANGE);
    IS(aqs_thread_interrupt(AQS_NO_THREAD), AQS_OUT_OF_RANGE);
    CHECK(sem_post(&turn) == 0);
    for (int i = 0; i < ALIVE; i++) CHECK(pthread_join(threads[i], NULL) == 0);
    for (int i = 0; i < ALIVE; i++) aqs_lock_close(&owns[i]);
    aqs_lock_close(lock);
    CHECK(sem_destroy(&turn) == 0 && sem_destroy(&has_come) == 0 && pthread_attr_destroy(&small) == 0);
}

/* A thread that holds more locks than it remembers seats of knows its own seat in each. Others have taken the
   seat that it would take first. */

enum { LOCKS = 60 };

static void *read_all(void *given) {
    for (int i = 0; i < LOCKS; i++) IS(aqs_rwlock_rdlock(&((aqs_rwlock_t *)given)[i]), AQS_OK);
    return NULL;
}

static void *hold_many(void *given) {
    aqs_rwlock_t *locks = given;
    for (int i = 0; i < LOCKS; i++) IS(aqs_rwlock_rdlock(&locks[i]), AQS_OK);
    for (int i = 0; i < LOCKS; i++) CHECK(aqs_rwlock_read_holds(&locks[i]) == 1);
    for (int i = LOCKS; i-- > 0;) IS(aqs_rwlock_tryrdlock(&locks[i]), AQS_OK);
    for (int i = 0; i < LOCKS; i++) CHECK(aqs_rwlock_read_holds(&locks[i]) == 2);
    for (int i = 0; i < LOCKS; i += 2) IS(aqs_rwlock_rdunlock(&locks[i]), AQS_OK);
    for (int i = LOCKS; i-- > 0;) IS(aqs_rwlock_rdunlock(&locks[i]), AQS_OK);
    for (int i = 1; i < LOCKS; i += 2) IS(aqs_rwlock_rdunlock(&locks[i]), AQS_OK);
    for (int i = 0; i < LOCKS; i++) IS(aqs_rwlock_rdunlock(&locks[i]), AQS_NOT_OWNER);
    return NULL;
}

static void more_than_remembered(void) {
    static aqs_rwlock_t locks[LOCKS], others[LOCKS];
    char wanted[200];
    size_t length;
    for (int i = 0; i < LOCKS; i++) {
        IS(aqs_rwlock_init(&locks[i], &(aqs_options_t){.threads = 2}), AQS_OK);
        IS(aqs_rwlock_init(&others[i], &(aqs_options_t){.threads = 2}), AQS_OK);
    }
    run(read_all, locks); /* two threads that keep their numbers, which are one after the other */
    run(read_all, others);
    run(hold_many, locks);
    run(hold_many, others); /* here it has the other seat */
    snprintf(wanted, sizeof wanted, "aqs-history 1 rw nonfair seats 2 conditions 16 cap 1024\n"
             "0 1 got s 1\n1 0 got s 1\n2 0 trygot s 1\n3 0 gave s 1\n4 0 gave s 1\n"
             "5 0 refused s 1 NotOwner\nend 6 6\n");
    for (int i = 0; i < LOCKS; i++) {
        IS(aqs_history_text(aqs_rwlock_object(&locks[i]), text, sizeof text - 1, &length), AQS_OK);
        text[length] = 0;
        play_name = "more locks than are remembered", play_line = "a history";
        if (strcmp(text, wanted)) FAIL("it is\n%sand should be\n%s", text, wanted);
        aqs_rwlock_close(&locks[i]), aqs_rwlock_close(&others[i]);
    }
}

/* Objects at one address, one after the other: what a thread remembers of the one before does no harm. */
static void at_one_address(void) {
    static aqs_lock_t one;
    for (uint16_t i = 0; i < 40; i++) {
        IS(aqs_lock_init(&one, &(aqs_options_t){.threads = (uint16_t)(i % 2 ? 1 : 200)}), AQS_OK);
        lock = &one;
        if (i % 3 == 0) run(pair, NULL);
        pair(NULL);
        if (i % 4 == 0) IS(aqs_lock_lock(&one), AQS_OK); /* and it is closed while it is held */
        aqs_lock_close(&one);
        CHECK(!aqs_lock_is_mine(&one) && aqs_lock_holds(&one) == 0);
    }
}

/* Objects without an opening ----------------------------------------------------------------------------- */

static aqs_lock_t static_lock = AQS_LOCK_INIT, zero_lock;
static aqs_mutex_t static_mutex = AQS_MUTEX_INIT, zero_mutex;
static aqs_rwlock_t static_rwlock = AQS_RWLOCK_INIT;
static aqs_sem_t static_semaphore = AQS_SEM_INIT(-1);
static aqs_latch_t static_latch = AQS_LATCH_INIT(3);
static pthread_barrier_t together;

static void *use_all(void *none) {
    pthread_barrier_wait(&together);
    IS(aqs_lock_lock(&static_lock), AQS_OK);
    IS(aqs_mutex_lock(&static_mutex), AQS_OK);
    IS(aqs_rwlock_rdlock(&static_rwlock), AQS_OK);
    IS(aqs_latch_count_down(&static_latch), AQS_OK);
    IS(aqs_sem_release(&static_semaphore, 1), AQS_OK);
    IS(aqs_rwlock_rdunlock(&static_rwlock), AQS_OK);
    IS(aqs_mutex_unlock(&static_mutex), AQS_OK);
    IS(aqs_lock_unlock(&static_lock), AQS_OK);
    IS(aqs_latch_await(&static_latch), AQS_OK);
    return none;
}

static void is_text(aqs_object_t *of, const char *wanted) {
    size_t length;
    IS(aqs_history_text(of, text, sizeof text - 1, &length), AQS_OK);
    text[length] = 0;
    if (strncmp(text, "aqs-history 1 ", 14) || strncmp(text + 14, wanted, strlen(wanted)))
        FAIL("the history is\n%sand should be of\n%s", text, wanted);
}

/* Three threads make the first call of each at a time. A closed one opens again. */
static void without_an_opening(void) {
    play_name = "objects without an opening", play_line = "all of them";
    for (int times = 0; times < 50; times++) {
        pthread_t threads[3];
        int64_t permits;
        uint32_t left_;
        CHECK(pthread_barrier_init(&together, NULL, 3) == 0);
        for (int i = 0; i < 3; i++) CHECK(pthread_create(&threads[i], NULL, use_all, NULL) == 0);
        for (int i = 0; i < 3; i++) CHECK(pthread_join(threads[i], NULL) == 0);
        CHECK(pthread_barrier_destroy(&together) == 0);
        IS(aqs_sem_getvalue(&static_semaphore, &permits), AQS_OK);
        IS(aqs_latch_getcount(&static_latch, &left_), AQS_OK);
        CHECK(permits == 2 && left_ == 0);
        is_text(aqs_lock_object(&static_lock), "lock nonfair seats 256 conditions 16 cap 1024\n");
        is_text(aqs_mutex_object(&static_mutex), "lock nonfair seats 256 conditions 16 cap 1024\n");
        is_text(aqs_rwlock_object(&static_rwlock), "rw nonfair seats 256 conditions 16 cap 1024\n");
        is_text(aqs_sem_object(&static_semaphore), "semaphore nonfair seats 256 permits -1 cap 1024\n");
        is_text(aqs_latch_object(&static_latch), "latch seats 256 count 3 cap 1024\n");
        aqs_lock_close(&static_lock), aqs_mutex_close(&static_mutex), aqs_rwlock_close(&static_rwlock);
        aqs_sem_close(&static_semaphore), aqs_latch_close(&static_latch);
    }
    aqs_lock_close(&static_lock); /* which isn't open */
    CHECK(!aqs_lock_is_mine(&zero_lock) && !aqs_mutex_is_mine(&zero_mutex));
    IS(aqs_lock_unlock(&zero_lock), AQS_NOT_OWNER);
    IS(aqs_mutex_trylock(&zero_mutex), AQS_OK);
    IS(aqs_mutex_trylock(&zero_mutex), AQS_WOULD_BLOCK);
    aqs_lock_close(&zero_lock), aqs_mutex_close(&zero_mutex);
    static aqs_latch_t too_great = AQS_LATCH_INIT((int32_t)2147483648u);
    IS(aqs_latch_await(&too_great), AQS_OUT_OF_RANGE);
    aqs_latch_close(&too_great);
}

/* A first call that finds no memory says so, and the next one opens. */
static void without_memory(void) {
    pair((lock = &zero_lock, NULL)); /* this thread has a number */
    aqs_lock_close(&zero_lock);
    for (long enough = 0;; enough++) {
        long before = held;
        left = enough;
        aqs_status_t status = aqs_lock_lock(&zero_lock);
        left = LONG_MAX;
        if (status == AQS_OK) break;
        IS(status, AQS_OUT_OF_MEMORY);
        CHECK(held == before || enough > 5); /* an object that is open, and a call that finds no memory */
        if (held == before) CHECK(zero_lock.object_.count_ == 0);
    }
    IS(aqs_lock_unlock(&zero_lock), AQS_OK);
    aqs_lock_close(&zero_lock);
}

int main(void) {
    alarm(100);
    start_players();
    PLAY_ALL(plays);
    all_conditions();
    two_locks();
    at_another_lock_meanwhile();
    closed_in_a_child();
    one_after_the_other();
    many_alive();
    more_than_remembered();
    at_one_address();
    without_an_opening();
    without_memory();
    return good("seats");
}
