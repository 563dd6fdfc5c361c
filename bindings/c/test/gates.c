/* gates.c: the gate of a lock that isn't fair. A thread that finds a hot lock held looks and pauses for a
   while before its first turn, and is recorded once, as having got it. All others make their turn at once.

   A thread is traced: the processor traps after each instruction, so its pauses are seen and counted. At the
   first one the thread stays until the test has looked at the lock. This is for x86-64, as the library is. */
#include "check.h"

#include <pthread.h>
#include <sched.h>
#include <signal.h>
#include <stdatomic.h>
#include <string.h>
#include <sys/wait.h>
#include <ucontext.h>

enum { TRAPS = 0x100, FEW = 200, MANY = 2100 };

/* Pauses ------------------------------------------------------------------------------------------------- */

static _Thread_local bool is_traced, stays;
static _Thread_local int pauses;
static atomic_bool is_at_pause, goes_on;

static void on_trap(int number, siginfo_t *info, void *context) {
    greg_t *now = ((ucontext_t *)context)->uc_mcontext.gregs;
    const unsigned char *at = (const unsigned char *)now[REG_RIP];
    (void)number, (void)info;
    if (is_traced) now[REG_EFL] |= TRAPS;
    else now[REG_EFL] &= ~(greg_t)TRAPS;
    if (!is_traced || at[0] != 0xf3 || at[1] != 0x90) return;
    if (++pauses > FEW) is_traced = false; /* nothing more is to be learnt */
    if (!stays) return;
    stays = false;
    atomic_store(&is_at_pause, true);
    while (!atomic_load(&goes_on)) sched_yield();
}

/* Makes a call, and counts its pauses. */
#define TRACED(call, wanted)  \
    do {                      \
        pauses = 0;           \
        is_traced = true;     \
        raise(SIGTRAP);       \
        aqs_status_t ended_ = (call); \
        is_traced = false;    \
        raise(SIGTRAP);       \
        IS(ended_, wanted);   \
    } while (0)

/* Another thread ----------------------------------------------------------------------------------------- */

static aqs_lock_t *lock;
static aqs_thread_t other;
static int pauses_of_other;

typedef aqs_status_t call_t(void);
static call_t *call;
static aqs_status_t ends;

static aqs_status_t locks(void) { return aqs_lock_lock(lock); }
static aqs_status_t locks_interruptibly(void) { return aqs_lock_lock_interruptibly(lock); }
static aqs_status_t locks_for_no_time(void) { return aqs_lock_timedlock(lock, 0); }
static aqs_status_t locks_for_long(void) { return aqs_lock_timedlock(lock, 60000); }
static aqs_status_t tries(void) { return aqs_lock_trylock(lock); }
static aqs_status_t locks_though_interrupted(void) {
    IS(aqs_thread_interrupt(aqs_thread_self()), AQS_OK);
    return aqs_lock_lock(lock);
}
static aqs_status_t locks_interrupted(void) {
    IS(aqs_thread_interrupt(aqs_thread_self()), AQS_OK);
    return aqs_lock_lock_interruptibly(lock);
}

/* It has a seat that it remembers. Then it makes its call, and gives the lock back. */
static void *make_call(void *nothing) {
    uint32_t length;
    other = aqs_thread_self();
    IS(aqs_object_queue_length(aqs_lock_object(lock), &length), AQS_OK);
    stays = true;
    TRACED(call(), ends);
    pauses_of_other = pauses;
    if (ends == AQS_OK) IS(aqs_lock_unlock(lock), AQS_OK);
    return nothing;
}

static pthread_t begun(call_t *made, aqs_status_t wanted) {
    pthread_t thread;
    call = made, ends = wanted;
    atomic_store(&is_at_pause, false);
    atomic_store(&goes_on, false);
    CHECK(pthread_create(&thread, NULL, make_call, NULL) == 0);
    return thread;
}

static void ended(pthread_t thread) {
    atomic_store(&goes_on, true);
    CHECK(pthread_join(thread, NULL) == 0);
}

static uint32_t queued(void) {
    uint32_t length;
    IS(aqs_object_queue_length(aqs_lock_object(lock), &length), AQS_OK);
    return length;
}

static void await_pause(void) {
    while (!atomic_load(&is_at_pause)) sched_yield();
}

static void await_queued(void) {
    while (queued() == 0) sched_yield();
}

/* Locks -------------------------------------------------------------------------------------------------- */

static void open_lock(aqs_policy_t policy) {
    aqs_options_t options = {.policy = policy, .threads = 4};
    IS(aqs_lock_open(&lock, &options), AQS_OK);
}

static void lock_it(void) { IS(aqs_lock_lock(lock), AQS_OK); }
static void unlock_it(void) { IS(aqs_lock_unlock(lock), AQS_OK); }

/* Two threads meet, so that it is hot, and then the calling thread has it. */
static void meet_and_lock(void) {
    lock_it();
    pthread_t thread = begun(locks, AQS_OK);
    atomic_store(&goes_on, true);
    await_queued();
    unlock_it();
    ended(thread);
    lock_it();
}

static void open_hot_lock(aqs_policy_t policy) {
    open_lock(policy);
    meet_and_lock();
}

static bool history_has(const char *words) {
    static char text[100000];
    size_t length;
    IS(aqs_history_text(aqs_lock_object(lock), text, sizeof text - 1, &length), AQS_OK);
    text[length] = 0;
    return strstr(text, words) != NULL;
}

static void trim(void) { IS(aqs_history_trim(aqs_lock_object(lock), NULL), AQS_OK); }

static int pauses_of_lock(void) {
    TRACED(aqs_lock_lock(lock), AQS_OK);
    return pauses;
}

/* Tests -------------------------------------------------------------------------------------------------- */

/* A call at a held hot lock pauses before its turn. If it is unlocked meanwhile, the call is recorded once.
   */
static void got_after_a_pause(call_t *made) {
    open_hot_lock(AQS_NONFAIR);
    trim();
    pthread_t thread = begun(made, AQS_OK);
    await_pause();
    CHECK(queued() == 0);
    unlock_it();
    ended(thread);
    CHECK(!history_has("queued"));
    CHECK(history_has("got"));
    CHECK(pauses_of_other < FEW);
    aqs_lock_close(lock);
}

/* If it stays locked, the call makes its turn and is queued. */
static void queued_in_the_end(void) {
    open_hot_lock(AQS_NONFAIR);
    pthread_t thread = begun(locks, AQS_OK);
    await_pause();
    CHECK(queued() == 0);
    atomic_store(&goes_on, true);
    await_queued();
    unlock_it();
    ended(thread);
    aqs_lock_close(lock);
}

/* Of these locks the first pause comes after the turn. */
static void queued_at_once(aqs_policy_t policy, bool was_hot, int pairs) {
    open_lock(policy);
    if (was_hot) meet_and_lock();
    else lock_it();
    for (int i = 0; i < pairs; i++) {
        unlock_it();
        lock_it();
    }
    pthread_t thread = begun(locks, AQS_OK);
    await_pause();
    CHECK(queued() == 1);
    unlock_it();
    ended(thread);
    aqs_lock_close(lock);
}

/* A call that won't wait, or mustn't, makes its turn without a pause. */
static void ended_at_once(call_t *made, aqs_status_t wanted) {
    open_hot_lock(AQS_NONFAIR);
    ended(begun(made, wanted));
    CHECK(pauses_of_other == 0);
    unlock_it();
    aqs_lock_close(lock);
}

/* An interrupt ends the pauses. */
static void interrupted_at_the_gate(void) {
    open_hot_lock(AQS_NONFAIR);
    pthread_t thread = begun(locks_interruptibly, AQS_INTERRUPTED);
    await_pause();
    CHECK(queued() == 0);
    IS(aqs_thread_interrupt(other), AQS_OK);
    ended(thread);
    CHECK(pauses_of_other < FEW);
    CHECK(!history_has("left"));
    unlock_it();
    aqs_lock_close(lock);
}

/* The owner passes by. The gate is open after the last unlock, and only then. */
static void opened_by_the_last_unlock(void) {
    open_hot_lock(AQS_NONFAIR);
    CHECK(pauses_of_lock() == 0);
    unlock_it();
    pthread_t thread = begun(locks, AQS_OK);
    await_pause();
    CHECK(queued() == 0);
    unlock_it();
    ended(thread);
    CHECK(pauses_of_lock() == 0);
    unlock_it();
    aqs_lock_close(lock);
}

/* A wait on a condition opens it. */
static aqs_status_t locks_and_signals(void) {
    aqs_status_t status = aqs_lock_lock(lock);
    if (status == AQS_OK) status = aqs_lock_signal(lock, 0);
    return status;
}

static void opened_by_a_wait(void) {
    open_hot_lock(AQS_NONFAIR);
    pthread_t thread = begun(locks_and_signals, AQS_OK);
    await_pause();
    uint32_t length;
    IS(aqs_object_queue_length(aqs_lock_object(lock), &length), AQS_OK);
    CHECK(length == 0);
    atomic_store(&goes_on, true);
    IS(aqs_lock_wait(lock, 0), AQS_OK);
    ended(thread);
    CHECK(pauses_of_other < FEW);
    unlock_it();
    aqs_lock_close(lock);
}

/* So does a call that took it and got nothing. */
static void opened_by_who_got_nothing(void) {
    open_hot_lock(AQS_NONFAIR);
    unlock_it();
    ended(begun(locks_interrupted, AQS_INTERRUPTED));
    CHECK(pauses_of_lock() == 0);
    unlock_it();
    aqs_lock_close(lock);
}

/* A thread that is woken goes through it too, and opens it if it has to wait on. Here one that only tries has
   the lock meanwhile: so it may have to be tried again. */
static void opened_by_who_waits_on(void) {
    pthread_t thread;
    open_hot_lock(AQS_NONFAIR);
    for (bool waits_on = false; !waits_on;) {
        thread = begun(locks, AQS_OK);
        atomic_store(&goes_on, true);
        await_queued();
        unlock_it();
        bool has_it = aqs_lock_trylock(lock) == AQS_OK;
        usleep(20000);
        waits_on = has_it && queued() == 1;
        if (has_it && !waits_on) unlock_it();
        if (!waits_on) ended(thread), lock_it();
    }
    pthread_t third = begun(locks, AQS_OK);
    await_pause();
    CHECK(queued() == 2);
    unlock_it();
    ended(third);
    ended(thread);
    aqs_lock_close(lock);
}

/* In the child of a fork no gate is taken. */
static void open_in_a_child(void) {
    int status;
    open_hot_lock(AQS_NONFAIR);
    unlock_it();
    lock_it(); /* the gate is taken */
    pid_t child = fork();
    CHECK(child >= 0);
    if (child == 0) {
        pthread_t thread = begun(locks, AQS_OK);
        await_pause();
        CHECK(queued() == 1);
        unlock_it();
        ended(thread);
        _Exit(0);
    }
    CHECK(waitpid(child, &status, 0) == child && status == 0);
    pthread_t thread = begun(locks, AQS_OK);
    await_pause();
    CHECK(queued() == 0);
    unlock_it();
    ended(thread);
    aqs_lock_close(lock);
}

int main(void) {
    struct sigaction action = {.sa_sigaction = on_trap, .sa_flags = SA_SIGINFO};
    alarm(90);
    CHECK(sigaction(SIGTRAP, &action, NULL) == 0);
    got_after_a_pause(locks);
    got_after_a_pause(locks_interruptibly);
    got_after_a_pause(locks_for_long);
    got_after_a_pause(locks_though_interrupted);
    queued_in_the_end();
    queued_at_once(AQS_NONFAIR, false, 0);
    queued_at_once(AQS_NONFAIR, false, MANY);
    queued_at_once(AQS_NONFAIR, true, MANY);
    queued_at_once(AQS_FAIR, true, 0);
    queued_at_once(AQS_STRICT, true, 0);
    ended_at_once(locks_for_no_time, AQS_TIMED_OUT);
    ended_at_once(tries, AQS_WOULD_BLOCK);
    ended_at_once(locks_interrupted, AQS_INTERRUPTED);
    interrupted_at_the_gate();
    opened_by_the_last_unlock();
    opened_by_a_wait();
    opened_by_who_got_nothing();
    opened_by_who_waits_on();
    open_in_a_child();
    puts("gates: good");
    return 0;
}
