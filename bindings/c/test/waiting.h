/* waiting.h: each call that waits, as rows, and plays that are made of them. */
#ifndef AQS_TEST_WAITING_H
#define AQS_TEST_WAITING_H

#include "play.h"

/* A call that waits: what makes it wait, what then ends the wait, and what gives back what the call has
   taken, if it ended with AQS_OK and if not. */
typedef struct {
    const char *object, *before, *call, *event, *after, *after_interrupt;
} wait_t;

static const wait_t heeding[] = {
    {"lock fair seats 3 conditions 1 cap 64", "0 lock = OK", "lock_interruptibly", "0 unlock = OK",
     "1 unlock = OK", "1 unlock = NOT_OWNER"},
    {"lock nonfair seats 3 conditions 1 cap 64", "0 lock = OK", "timedlock 20000", "0 unlock = OK",
     "1 unlock = OK", "1 unlock = NOT_OWNER"},
    {"lock nonfair seats 3 conditions 2 cap 64", "1 lock = OK; 1 lock = OK", "wait_interruptibly 1",
     "0 lock = OK; 0 signal 1 = OK; 0 unlock = OK", "1 unlock = OK; 1 unlock = OK",
     "1 unlock = OK; 1 unlock = OK; 1 unlock = NOT_OWNER"},
    {"lock strict seats 3 conditions 1 cap 64", "1 lock = OK", "timedwait 0 20000",
     "0 lock = OK; 0 signal_all 0 = OK; 0 unlock = OK", "1 unlock = OK",
     "1 unlock = OK; 1 unlock = NOT_OWNER"},
    {"rw fair seats 3 conditions 1 cap 64", "0 wrlock = OK", "rdlock_interruptibly", "0 wrunlock = OK",
     "1 rdunlock = OK", "1 rdunlock = NOT_OWNER"},
    {"rw nonfair seats 3 conditions 1 cap 64", "0 wrlock = OK", "timedrdlock 20000", "0 wrunlock = OK",
     "1 rdunlock = OK", "1 rdunlock = NOT_OWNER"},
    {"rw strict seats 3 conditions 1 cap 64", "0 rdlock = OK", "wrlock_interruptibly", "0 rdunlock = OK",
     "1 wrunlock = OK", "1 wrunlock = NOT_OWNER"},
    {"rw nonfair seats 3 conditions 1 cap 64", "0 rdlock = OK", "timedwrlock 20000", "0 rdunlock = OK",
     "1 wrunlock = OK", "1 wrunlock = NOT_OWNER"},
    {"rw nonfair seats 3 conditions 1 cap 64", "1 wrlock = OK; 1 wrlock = OK", "wait_interruptibly 0",
     "0 wrlock = OK; 0 signal 0 = OK; 0 wrunlock = OK", "1 wrunlock = OK; 1 wrunlock = OK",
     "1 wrunlock = OK; 1 wrunlock = OK; 1 wrunlock = NOT_OWNER"},
    {"rw fair seats 3 conditions 3 cap 64", "1 wrlock = OK", "timedwait 2 20000",
     "0 wrlock = OK; 0 signal_all 2 = OK; 0 wrunlock = OK", "1 wrunlock = OK",
     "1 wrunlock = OK; 1 wrunlock = NOT_OWNER"},
    {"semaphore fair seats 3 permits 2 cap 64", "", "acquire_interruptibly 3", "0 release 1 = OK",
     "1 getvalue = 0", "1 getvalue = 2"},
    {"semaphore nonfair seats 3 permits 2 cap 64", "", "timedacquire 3 20000", "0 release 1 = OK",
     "1 getvalue = 0", "1 getvalue = 2"},
    {"latch seats 3 count 1 cap 64", "", "await_interruptibly", "0 count_down = OK", "1 getcount = 0",
     "1 getcount = 1"},
    {"latch seats 3 count 1 cap 64", "", "timedawait 20000", "0 count_down = OK", "1 getcount = 0",
     "1 getcount = 1"},
};

static const wait_t of_mutexes[] = {
    {"mutex fair seats 3 conditions 1 cap 64", "0 lock = OK", "lock_interruptibly", "0 unlock = OK",
     "1 unlock = OK", "1 unlock = NOT_OWNER"},
    {"mutex nonfair seats 3 conditions 1 cap 64", "0 lock = OK", "timedlock 20000", "0 unlock = OK",
     "1 unlock = OK", "1 unlock = NOT_OWNER"},
    {"mutex strict seats 3 conditions 2 cap 64", "1 lock = OK", "wait_interruptibly 1",
     "0 lock = OK; 0 signal 1 = OK; 0 unlock = OK", "1 unlock = OK", "1 unlock = OK; 1 unlock = NOT_OWNER"},
    {"mutex fair seats 3 conditions 1 cap 64", "1 lock = OK", "timedwait 0 20000",
     "0 lock = OK; 0 signal_all 0 = OK; 0 unlock = OK", "1 unlock = OK",
     "1 unlock = OK; 1 unlock = NOT_OWNER"},
};

static const wait_t plain[] = {
    {"mutex fair seats 3 conditions 1 cap 64", "0 lock = OK", "lock", "0 unlock = OK", "1 unlock = OK", ""},
    {"mutex fair seats 3 conditions 1 cap 64", "1 lock = OK", "wait 0",
     "0 lock = OK; 0 signal 0 = OK; 0 unlock = OK", "1 unlock = OK", ""},
    {"lock fair seats 3 conditions 1 cap 64", "0 lock = OK", "lock", "0 unlock = OK", "1 unlock = OK", ""},
    {"lock fair seats 3 conditions 1 cap 64", "1 lock = OK; 1 lock = OK", "wait 0",
     "0 lock = OK; 0 signal 0 = OK; 0 unlock = OK", "1 unlock = OK; 1 unlock = OK", ""},
    {"rw fair seats 3 conditions 1 cap 64", "0 wrlock = OK", "rdlock", "0 wrunlock = OK", "1 rdunlock = OK",
     ""},
    {"rw fair seats 3 conditions 1 cap 64", "0 rdlock = OK", "wrlock", "0 rdunlock = OK", "1 wrunlock = OK",
     ""},
    {"rw fair seats 3 conditions 1 cap 64", "1 wrlock = OK", "wait 0",
     "0 wrlock = OK; 0 signal_all 0 = OK; 0 wrunlock = OK", "1 wrunlock = OK", ""},
    {"semaphore fair seats 3 permits 0 cap 64", "", "acquire 2", "0 release 2 = OK", "1 getvalue = 0", ""},
    {"latch seats 3 count 1 cap 64", "", "await", "0 count_down = OK", "1 getcount = 0", ""},
};

/* Plays lines with a row: $b, $c, $e, $a and $i stand for the five texts of it. `more` is said of the object
   beside its history's header. */
static void play_wait(const wait_t *row, const char *more, const char *lines) {
    char made[1000] = "", opened[200];
    size_t at = 0;
    for (; *lines; lines++) {
        const char *part = (char[]){*lines, 0};
        if (*lines == '$') {
            switch (*++lines) {
                case 'b': part = row->before; break;
                case 'c': part = row->call; break;
                case 'e': part = row->event; break;
                case 'a': part = row->after; break;
                default: part = row->after_interrupt;
            }
        }
        at += (size_t)snprintf(made + at, sizeof made - at, "%s", part);
        CHECK(at < sizeof made);
    }
    snprintf(opened, sizeof opened, "%s%s", row->object, more);
    play(&(play_t){row->call, opened, made, NULL});
}

#define PLAY_EACH(rows, more, forms)                                                                     \
    for (size_t i = 0; i < sizeof rows / sizeof rows[0]; i++) {                                          \
        for (size_t j = 0; j < sizeof forms / sizeof forms[0]; j++) play_wait(&rows[i], more, forms[j]); \
    }

#endif
