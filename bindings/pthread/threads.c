/* threads.c: the threads that use the recorder. Here alone they park and are woken, and here a fork waits
   until none of them is in a turn. */
#include "record.h"

#include <errno.h>
#include <limits.h>
#include <linux/futex.h>
#include <signal.h>
#include <string.h>
#include <sys/prctl.h>
#include <sys/syscall.h>
#include <unistd.h>

_Thread_local thread_t *self_ __attribute__((tls_model("initial-exec")));

/* The records -------------------------------------------------------------------------------------------- */

static thread_t *_Atomic newest;
static atomic_uint made;
static _Atomic uint64_t ids;
static pthread_key_t at_end;
static bool has_key; /* else records of threads that ended aren't used again */

thread_t *all_threads(void) { return newest; }

/* How often a thread's end is put off, so that the other destructors of its keys run before it. */
enum { PUT_OFF = 3 };
static _Thread_local unsigned put_off __attribute__((tls_model("initial-exec")));

static void end_self(void *record) {
    thread_t *me = record;
    if (put_off++ < PUT_OFF) {
        pthread_setspecific(at_end, me);
        return;
    }
    prctl(PR_GET_NAME, me->name);
    self_ = NULL, put_off = 0;
    if (getpid() == gettid()) main_leaves();
    atomic_store(&me->is_live, 0);
}

/* Before the first call is recorded. */
void watch_threads(void) { has_key = pthread_key_create(&at_end, end_self) == 0; }

/* The helper has no number, so that those of the program's threads are 0, 1, .. */
static _Thread_local bool is_helper __attribute__((tls_model("initial-exec")));
enum { NO_NUMBER = 65521 };

void become_helper(void) { is_helper = true; }

static thread_t *used_record(void) {
    for (;;) {
        thread_t *found = NULL;
        for (thread_t *at = newest; at; at = at->next)
            if (!at->is_live && at->number != NO_NUMBER && (!found || at->number < found->number)) found = at;
        unsigned dead = 0;
        if (!found || atomic_compare_exchange_strong(&found->is_live, &dead, 1)) return found;
    }
}

static thread_t *new_record(void) {
    thread_t *me = heap_take_zeroed(sizeof *me + 64);
    if (!me) return NULL;
    me = (thread_t *)(((uintptr_t)me + 63) & ~(uintptr_t)63);
    me->is_live = 1;
    me->number = is_helper ? NO_NUMBER : atomic_fetch_add(&made, 1);
    me->next = newest;
    while (!atomic_compare_exchange_weak(&newest, &me->next, me)) continue;
    return me;
}

void pause_a_little(void) {
    struct timespec pause = {0, 1000000};
    syscall(SYS_nanosleep, &pause, NULL);
}

/* The calling thread's record. Its signals are held up, since a handler may come here too. */
COLD thread_t *new_self(void) {
    sigset_t all, old;
    sigfillset(&all);
    pthread_sigmask(SIG_BLOCK, &all, &old);
    thread_t *me = self_;
    while (!me) {
        me = is_helper ? NULL : used_record();
        if (!me) me = new_record();
        if (!me) pause_a_little();
    }
    if (!self_) {
        me->id = atomic_fetch_add(&ids, 1) + 1;
        me->busy = me->displaced = me->parks = me->has_posts = me->depth = 0;
        me->is_asleep = false;
        me->tid = (uint32_t)gettid();
        prctl(PR_GET_NAME, me->name);
        for (unsigned i = 0; i < NESTED; i++) me->waiting[i].since = 0;
        me->in = NULL;
        me->word = 0;
        memset(me->posts, 0, sizeof me->posts);
        self_ = me;
        if (has_key) pthread_setspecific(at_end, me);
    }
    pthread_sigmask(SIG_SETMASK, &old, NULL);
    return me;
}

static void make_posts(thread_t *me) {
    do {
        me->has_posts = 0;
        for (unsigned i = 0; i < POSTED_SEMAPHORES; i++) {
            sem_t *semaphore = me->posts[i].semaphore;
            for (unsigned left = atomic_exchange(&me->posts[i].count, 0); left > 0; left--) sem_post(semaphore);
        }
    } while (me->has_posts);
}

/* What signal handlers asked for while the thread was busy. It isn't now: so a handler that comes here asks for
   nothing, or leaves nothing when it ends. If one asks again while files are written, the next call writes. */
void run_posts(thread_t *me) {
    make_posts(me);
    if (!takes_ask()) return;
    write_all(me);
    make_posts(me);
    if (is_write_asked()) me->has_posts = 1;
}

/* Parking ------------------------------------------------------------------------------------------------ */

enum { PERMIT = 1, SLEEPS = 4, LOOKS = 100 };

static long futex(atomic_uint *word, int what, unsigned value, const struct timespec *moment) {
    return syscall(SYS_futex, word, what, value, moment, NULL, FUTEX_BITSET_MATCH_ANY);
}

void wake_word(atomic_uint *word, int most) {
    int kept = errno;
    futex(word, FUTEX_WAKE | FUTEX_PRIVATE_FLAG, (unsigned)most, NULL);
    errno = kept;
}

bool is_deadline(const struct timespec *at) { return at->tv_nsec >= 0 && at->tv_nsec < 1000000000; }

uint64_t nanoseconds(void) {
    struct timespec now;
    clock_gettime(CLOCK_MONOTONIC, &now);
    return (uint64_t)now.tv_sec * 1000000000 + (uint64_t)now.tv_nsec;
}

static uint8_t futex_wait(atomic_uint *word, unsigned read, deadline_t deadline, unsigned ends) {
    int clock = deadline.at && deadline.clock == CLOCK_REALTIME ? FUTEX_CLOCK_REALTIME : 0, type = 0;
    if (deadline.at && deadline.at->tv_sec < 0) return TIMED_OUT;
    if (ends & ENDS_BY_CANCEL) pthread_setcanceltype(PTHREAD_CANCEL_ASYNCHRONOUS, &type);
    long answer = futex(word, FUTEX_WAIT_BITSET | FUTEX_PRIVATE_FLAG | clock, read, deadline.at);
    int error = answer < 0 ? errno : 0;
    if (ends & ENDS_BY_CANCEL) pthread_setcanceltype(type, NULL);
    if (error == ETIMEDOUT) return TIMED_OUT;
    return error == EINTR && (ends & ENDS_BY_SIGNAL) ? STOPPED : WOKE;
}

uint8_t sleep_while(atomic_uint *word, unsigned read, deadline_t deadline, unsigned ends) {
    thread_t *me = self();
    int kept = errno;
    bool was_asleep = me->is_asleep;
    if (!deadline.at && !me->busy) write_before_wait(me);
    me->is_asleep = true;
    uint8_t woke = futex_wait(word, read, deadline, ends);
    me->is_asleep = was_asleep;
    errno = kept;
    return woke;
}

static bool take_permit(thread_t *me) {
    return (atomic_load(&me->word) & PERMIT) && (atomic_fetch_and(&me->word, ~PERMIT) & PERMIT);
}

static bool comes_soon(thread_t *me) {
    for (unsigned i = 0; i < LOOKS; i++) {
        if (atomic_load(&me->word) & PERMIT) return true;
        relax();
    }
    return false;
}

static uint8_t park_once(thread_t *me, deadline_t deadline, unsigned ends) {
    for (;;) {
        if (take_permit(me)) return WOKE;
        if (comes_soon(me)) continue;
        unsigned read = atomic_fetch_or(&me->word, SLEEPS) | SLEEPS;
        uint8_t woke = read & PERMIT ? WOKE : sleep_while(&me->word, read, deadline, ends);
        atomic_fetch_and(&me->word, ~SLEEPS);
        if (take_permit(me)) return WOKE;
        if (woke != WOKE) return woke;
    }
}

/* A handler that parked in a park may have taken the permit of the one below it. */
uint8_t park(thread_t *me, deadline_t deadline, unsigned ends) {
    me->parks++;
    uint8_t woke = park_once(me, deadline, ends);
    if (--me->parks) atomic_fetch_or(&me->word, PERMIT);
    return woke;
}

/* The thread was cancelled in its park. */
void forget_park(thread_t *me) {
    me->parks--;
    atomic_fetch_and(&me->word, ~SLEEPS);
}

void unpark(thread_t *thread) {
    if (atomic_load(&thread->word) & PERMIT) return;
    if (atomic_fetch_or(&thread->word, PERMIT) & SLEEPS) wake_word(&thread->word, 1);
}

/* Forks -------------------------------------------------------------------------------------------------- */

_Atomic uint64_t epoch = 2;
static _Atomic uint64_t settled_epoch = 2;
static atomic_uint fork_lock;

uint64_t epoch_of_now(void) { return settled_epoch; }

static void yield_for(unsigned looks) {
    if (looks < 1000) sched_yield();
    else pause_a_little();
}

void wait_for_fork(thread_t *me) {
    atomic_store(&me->in, NULL);
    for (unsigned looks = 0; atomic_load(&epoch) & 1; looks++) yield_for(looks);
}

/* The thread that closed the gate. */
static thread_t *_Atomic forker;

/* Until the fork is over nobody begins a turn, and nobody is in one. A handler that forks in the midst of a turn of
   its own thread can't wait for that: others may wait for its turn. The child of such a handler may call nothing
   but async-signal-safe functions, unless the process has one thread. */
static void before_fork(void) {
    if (!is_recording) return;
    thread_t *me = self();
    if (me->busy) return;
    for (unsigned looks = 0; !spin_try(&fork_lock); looks++) yield_for(looks);
    forker = me;
    atomic_store(&epoch, settled_epoch + 1);
    for (thread_t *at = newest; at; at = at->next)
        for (unsigned looks = 0; at != me && atomic_load(&at->in); looks++) yield_for(looks);
    heap_lock_for_fork();
}

static void after_fork_in_parent(void) {
    if (!forker || forker != self_) return;
    forker = NULL;
    heap_unlock_for_fork();
    atomic_store(&epoch, settled_epoch);
    spin_unlock(&fork_lock);
}

/* The child has this thread alone. Each object tells its state anew when it is next touched. */
static void after_fork_in_child(void) {
    if (!is_recording) return;
    if (forker == self()) heap_unlock_for_fork();
    forker = NULL;
    for (thread_t *at = newest; at; at = at->next) {
        if (at == self_) continue;
        at->in = NULL;
        at->is_live = 0;
        for (unsigned i = 0; i < NESTED; i++) at->waiting[i].since = 0;
    }
    if (self_) self_->tid = (uint32_t)gettid();
    settled_epoch += 2;
    forget_files();
    atomic_store(&epoch, settled_epoch);
    atomic_store(&fork_lock, 0);
}

/* Calls before a fork are made in the opposite order of their registration, and those after it in the same order.
   The gate must be closed last and opened first, since the other calls may lock. So ours are registered before the
   first of any library, whose constructor may run before the recorder's. */
typedef void call_t(void);
extern void *__dso_handle;
SHOWN int __register_atfork(call_t *before, call_t *in_parent, call_t *in_child, void *library);

static int register_calls(call_t *before, call_t *in_parent, call_t *in_child, void *library) {
    return REAL(__register_atfork, before, in_parent, in_child, library);
}

void watch_forks(void) {
    static atomic_uint is_watching;
    if (!atomic_exchange(&is_watching, 1))
        register_calls(before_fork, after_fork_in_parent, after_fork_in_child, &__dso_handle);
}

SHOWN int __register_atfork(call_t *before, call_t *in_parent, call_t *in_child, void *library) {
    watch_forks();
    return register_calls(before, in_parent, in_child, library);
}
