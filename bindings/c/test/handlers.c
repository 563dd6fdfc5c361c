/* handlers.c: signal handlers that release permits, count down and interrupt their own thread, whatever they
   have stopped.

   A call is traced: the processor traps after each of its instructions, and the handler of the trap is the
   signal handler. In each run it makes its release at another instruction. This is for x86-64, as the
   library is. */
#include "heap.h"

#include "check.h"

#include <errno.h>
#include <pthread.h>
#include <sched.h>
#include <signal.h>
#include <stdatomic.h>
#include <sys/syscall.h>
#include <ucontext.h>

enum { THREADS = 4, TRAPS = 0x100 };

/* Each call by which threads sleep and wake changes errno. The linker puts it in the place of syscall. */
long __real_syscall(long number, long a, long b, long c, long d, long e, long f);
long __wrap_syscall(long number, long a, long b, long c, long d, long e, long f) {
    long result = __real_syscall(number, a, b, c, d, e, f);
    if (number == SYS_futex) errno = EXDEV;
    return result;
}

static aqs_sem_t *semaphore, *other;
static aqs_latch_t *latch;
static aqs_lock_t *lock;

/* What the handler does at which instruction, and how often it did. It may do it once more at a later one. */
static void (*handler)(void);
static long instruction, wanted, once_more = -1, handled;

/* The same of a handler that interrupts another one, which is traced too. */
static void (*inner_handler)(void);
static long inner_instruction, inner_wanted, inner_handled;
static bool is_in_handler;

static void on_trap(int number, siginfo_t *info, void *context) {
    (void)number, (void)info;
    if (is_in_handler) {
        if (inner_instruction++ != inner_wanted) return;
        ((ucontext_t *)context)->uc_mcontext.gregs[REG_EFL] &= ~(greg_t)TRAPS;
        inner_handler();
        inner_handled++;
        return;
    }
    long here = instruction++;
    if (here != wanted && here != once_more) return;
    if (here >= once_more) /* it comes to no further */
        ((ucontext_t *)context)->uc_mcontext.gregs[REG_EFL] &= ~(greg_t)TRAPS;
    errno = ETXTBSY;
    handler();
    CHECK(errno == ETXTBSY);
    handled++;
}

static inline void trace(void) { __asm__ volatile("pushfq; orl $0x100, (%%rsp); popfq" ::: "cc", "memory"); }
static inline void trace_no_more(void) {
    __asm__ volatile("pushfq; andl $0xfffffeff, (%%rsp); popfq" ::: "cc", "memory");
}

static int64_t permits_of(aqs_sem_t *of) {
    int64_t permits;
    IS(aqs_sem_getvalue(of, &permits), AQS_OK);
    return permits;
}

static void release_one(void) { IS(aqs_sem_release(semaphore, 1), AQS_OK); }
static void release_two_at_another(void) { IS(aqs_sem_release(other, 2), AQS_OK); }
static void count_down(void) { IS(aqs_latch_count_down(latch), AQS_OK); }

static void take_one(void) { IS(aqs_sem_acquire(semaphore, 1), AQS_OK); }
static void take_none(void) { IS(aqs_sem_tryacquire(semaphore, 2000000), AQS_WOULD_BLOCK); }
static void take_in_time(void) { IS(aqs_sem_timedacquire(semaphore, 1, 5), AQS_OK); }
static void give_one(void) { IS(aqs_sem_release(semaphore, 1), AQS_OK); }
static void look(void) { (void)permits_of(semaphore); }
static void fold(void) { IS(aqs_history_trim(aqs_sem_object(semaphore), NULL), AQS_OK); }
static void pair(void) {
    IS(aqs_lock_lock(lock), AQS_OK);
    IS(aqs_lock_unlock(lock), AQS_OK);
}
static void time_up(void) { IS(aqs_sem_timedacquire(other, 1000000, 0), AQS_TIMED_OUT); }
static void wait_a_little(void) { IS(aqs_sem_timedacquire(other, 1000000, 1), AQS_TIMED_OUT); }
static void take_the_only_one(void) {
    int64_t before = permits_of(semaphore);
    if (before > 0) IS(aqs_sem_acquire(semaphore, (uint32_t)before), AQS_OK);
    IS(aqs_sem_release(semaphore, 1), AQS_OK);
    IS(aqs_sem_acquire(semaphore, 1), AQS_OK);
}
static void count_and_wait(void) {
    IS(aqs_latch_count_down(latch), AQS_OK);
    IS(aqs_latch_timedawait(latch, 0), AQS_TIMED_OUT);
}

/* By how much each changes the permits of `semaphore`, if that is known. */
static const struct {
    void (*call)(void);
    int change, of;
} calls[] = {
    {take_one, -1, 3}, {give_one, 1, 3}, {pair, 0, 12},    {take_none, 0, 12},      {take_in_time, -1, 12},
    {look, 0, 12},     {fold, 0, 12},    {time_up, 0, 12}, {count_and_wait, 0, 12},
    {wait_a_little, 0, 200},
};

/* Makes a call three times, each time with another handler, at one of three instructions. Returns whether it
   has so many. */
static bool interrupt_at(long at, void (*call)(void), int change) {
    static void (*const handlers[])(void) = {release_one, release_two_at_another, count_down};
    long made[3];
    uint32_t count_before, count_after;
    int64_t before = permits_of(semaphore), before_at_other = permits_of(other);
    IS(aqs_latch_getcount(latch, &count_before), AQS_OK);
    for (int i = 0; i < 3; i++) {
        handler = handlers[i], wanted = at + i;
        instruction = handled = 0;
        trace();
        call();
        trace_no_more();
        made[i] = handled;
    }
    IS(aqs_latch_getcount(latch, &count_after), AQS_OK);
    CHECK(permits_of(semaphore) == before + 3 * change + made[0]);
    CHECK(permits_of(other) == before_at_other + 2 * made[1]);
    CHECK(count_before - count_after == made[2] + (call == count_and_wait ? 3 : 0));
    return made[0] + made[1] + made[2] > 0;
}

/* At each instruction, or at three of so many. */
static void interrupt_everywhere(void (*call)(void), int change, int of) {
    long at = 1;
    while (interrupt_at(at, call, change)) at += of;
    CHECK(at > 100);
}

/* A handler that interrupts its own thread, at one of so many instructions of a call that heeds interrupts:
   either the call ends by that, or the interrupt stays. */

static void interrupt_self(void) { IS(aqs_thread_interrupt(aqs_thread_self()), AQS_OK); }

static aqs_status_t wait_in_vain(void) { return aqs_sem_timedacquire(other, 1000000, 40); }
static aqs_status_t wait_for_one(void) { return aqs_sem_acquire_interruptibly(semaphore, 1); }

static bool interrupts_itself_at(long at, aqs_status_t (*call)(void), aqs_status_t otherwise) {
    handler = interrupt_self, wanted = at;
    instruction = handled = 0;
    trace();
    aqs_status_t status = call();
    trace_no_more();
    bool is_pending = aqs_thread_interrupted();
    CHECK(status == otherwise || status == AQS_INTERRUPTED);
    CHECK(handled == is_pending + (status == AQS_INTERRUPTED));
    return handled > 0;
}

/* A call whose time is up before it sleeps has fewer instructions, so one miss says little. */
static void interrupt_itself(aqs_status_t (*call)(void), aqs_status_t otherwise, int of) {
    long at = 1;
    for (int misses = 0; misses < 3; at += of)
        misses = interrupts_itself_at(at, call, otherwise) ? 0 : misses + 1;
    CHECK(at > 100);
}

/* A handler that is interrupted by another one at one instruction of its release. Each releases its number. */

static uint32_t outer_n, inner_n;

static void release_inner(void) { IS(aqs_sem_release(semaphore, inner_n), AQS_OK); }

static void release_under_traps(void) {
    is_in_handler = true, inner_instruction = inner_handled = 0;
    trace();
    aqs_status_t status = aqs_sem_release(semaphore, outer_n);
    trace_no_more();
    is_in_handler = false;
    IS(status, AQS_OK);
}

/* A handler leaves two posts. Later another handler comes, at each instruction or at every seventh, also of those that
   make the posts. It releases a third number of permits, or as many as the first post. A third handler interrupts
   that one, and leaves a post too, which takes the place of the post that is being made. Each release is made once. */
static void release_in_turn(void) {
    if (handled > 0) {
        release_under_traps();
    } else {
        IS(aqs_sem_release(semaphore, 1), AQS_OK);
        IS(aqs_sem_release(semaphore, 2), AQS_OK);
    }
}

/* Makes the call with the two handlers, and returns how many instructions it had. Before it the history is folded, so
   that no call folds it on its way, and each has the same instructions. */
static long calls_with_two(void (*call)(void), int change, uint32_t n) {
    const int released_by[] = {0, 1 + 2, 1 + 2 + (int)n};
    inner_handled = 0;
    fold();
    int64_t before = permits_of(semaphore);
    instruction = handled = 0;
    trace();
    call();
    trace_no_more();
    CHECK(permits_of(semaphore) == before + change + released_by[handled] + inner_n * inner_handled);
    return instruction;
}

static void interrupt_twice(void (*call)(void), int change, uint32_t n, int of) {
    handler = release_in_turn, inner_handler = release_inner, inner_wanted = 60, outer_n = n, inner_n = 4;
    wanted = once_more = LONG_MAX;
    long alone = calls_with_two(call, change, n);
    wanted = 60;
    long most = calls_with_two(call, change, n);
    CHECK(handled == 1 && most > 2 * alone); /* the call made both posts */
    for (once_more = wanted + 1; once_more < most; once_more += of) {
        (void)calls_with_two(call, change, n);
        CHECK(handled == 2);
    }
    once_more = -1;
}

/* A handler is interrupted at each instruction of its release, and the other one releases another number. Each
   release is made once. The two take turns, so that a post has the number of the other from the time before. */

static void handler_in_handler(void) {
    handler = release_under_traps, inner_handler = release_inner, wanted = 60;
    for (inner_wanted = 0;; inner_wanted++) {
        int64_t before = permits_of(semaphore);
        outer_n = 1 + inner_wanted % 2, inner_n = 3 - outer_n;
        instruction = handled = 0;
        trace();
        give_one();
        trace_no_more();
        CHECK(handled == 1);
        CHECK(permits_of(semaphore) == before + 1 + outer_n + inner_n * inner_handled);
        if (inner_handled == 0) break;
    }
    CHECK(inner_wanted > 20);
}

/* A handler interrupts a thread at the instructions with which it ends: between the destructors of two keys, of which
   the library's comes between. Its release is made, and its thread's number is the next thread's. */

static pthread_key_t first_key, last_key;

static void begin_to_end(void *none) {
    (void)none;
    instruction = handled = 0;
    trace();
}

static void has_ended(void *none) {
    trace_no_more();
    (void)none;
}

static void *end(void *none) {
    CHECK(aqs_thread_self() == 1);
    CHECK(pthread_setspecific(first_key, &first_key) == 0 && pthread_setspecific(last_key, &last_key) == 0);
    return none;
}

/* As it ends it may have no number any more. */
static void interrupt_self_if_numbered(void) {
    aqs_thread_t me = aqs_thread_self();
    IS(aqs_thread_interrupt(me), me == AQS_NO_THREAD ? AQS_OUT_OF_RANGE : AQS_OK);
}

static void handlers_as_threads_end(void) {
    static void (*const handlers[])(void) = {release_one, count_down, interrupt_self_if_numbered};
    long at = 1;
    for (int misses = 0; misses < 3; at++) {
        pthread_t thread;
        uint32_t count_before, count_after;
        int64_t before = permits_of(semaphore);
        IS(aqs_latch_getcount(latch, &count_before), AQS_OK);
        handler = handlers[at % 3], wanted = at;
        CHECK(pthread_create(&thread, NULL, end, NULL) == 0);
        CHECK(pthread_join(thread, NULL) == 0);
        IS(aqs_latch_getcount(latch, &count_after), AQS_OK);
        CHECK(permits_of(semaphore) == before + (handler == release_one ? handled : 0));
        CHECK(count_before - count_after == (handler == count_down ? handled : 0));
        misses = handled > 0 ? 0 : misses + 1;
    }
    CHECK(at > 60);
}

/* A thread waits, and the handler that interrupts it releases what it waits for. */

static atomic_int in_call;

static void on_signal(int number) {
    (void)number;
    errno = ETXTBSY;
    release_one();
    CHECK(errno == ETXTBSY);
}

static void *wait_once(void *none) {
    atomic_store(&in_call, 1);
    IS(aqs_sem_acquire(semaphore, 1), AQS_OK);
    atomic_store(&in_call, 2);
    return none;
}

static void released_by_its_own_handler(void) {
    for (int i = 0; i < 200; i++) {
        pthread_t thread;
        atomic_store(&in_call, 0);
        CHECK(pthread_create(&thread, NULL, wait_once, NULL) == 0);
        while (atomic_load(&in_call) == 0) continue;
        if (i % 2) usleep(2000);
        CHECK(pthread_kill(thread, SIGUSR1) == 0);
        CHECK(pthread_join(thread, NULL) == 0);
        CHECK(permits_of(semaphore) == 0);
    }
}

/* The same at a latch, of which a handler of the thread that waits counts the last. */

static aqs_latch_t *gate;

static void on_counting(int number) {
    (void)number;
    IS(aqs_latch_count_down(gate), AQS_OK);
}

static void *pass_once(void *none) {
    atomic_store(&in_call, 1);
    IS(aqs_latch_await(gate), AQS_OK);
    return none;
}

static void opened_by_its_own_handler(void) {
    struct sigaction action = {.sa_handler = on_counting};
    CHECK(sigaction(SIGUSR1, &action, NULL) == 0);
    for (int i = 0; i < 100; i++) {
        pthread_t thread;
        atomic_store(&in_call, 0);
        IS(aqs_latch_open(&gate, 1, NULL), AQS_OK);
        CHECK(pthread_create(&thread, NULL, pass_once, NULL) == 0);
        while (atomic_load(&in_call) == 0) sched_yield();
        if (i % 2) usleep(2000);
        CHECK(pthread_kill(thread, SIGUSR1) == 0);
        CHECK(pthread_join(thread, NULL) == 0);
        aqs_latch_close(gate);
    }
}

/* The same, with a handler that interrupts the thread that waits. */

static void on_interrupting(int number) {
    (void)number;
    errno = ETXTBSY;
    interrupt_self();
    CHECK(errno == ETXTBSY);
}

static void *wait_until_interrupted(void *none) {
    CHECK(!aqs_thread_interrupted()); /* it has a number */
    atomic_store(&in_call, 1);
    IS(aqs_sem_acquire_interruptibly(semaphore, 1), AQS_INTERRUPTED);
    CHECK(!aqs_thread_interrupted());
    return none;
}

static void interrupted_by_its_own_handler(void) {
    struct sigaction action = {.sa_handler = on_interrupting};
    CHECK(sigaction(SIGUSR1, &action, NULL) == 0);
    for (int i = 0; i < 100; i++) {
        pthread_t thread;
        atomic_store(&in_call, 0);
        CHECK(pthread_create(&thread, NULL, wait_until_interrupted, NULL) == 0);
        while (atomic_load(&in_call) == 0) sched_yield();
        if (i % 2) usleep(2000);
        CHECK(pthread_kill(thread, SIGUSR1) == 0);
        CHECK(pthread_join(thread, NULL) == 0);
        CHECK(permits_of(semaphore) == 0);
    }
}

/* Threads take and give, while signals come to them. */

static atomic_bool is_over;
static atomic_long posts;

static void on_storm(int number) {
    (void)number;
    release_one();
    atomic_fetch_add(&posts, 1);
}

static void *take_and_give(void *takes) {
    long taken = 0;
    while (!atomic_load(&is_over)) {
        aqs_status_t status = aqs_sem_timedacquire(semaphore, 2, 1);
        if (status == AQS_OK) taken++, give_one();
        else IS(status, AQS_TIMED_OUT);
        pair();
    }
    atomic_fetch_add((atomic_long *)takes, taken);
    return NULL;
}

static void storm(void) {
    pthread_t threads[THREADS];
    atomic_long taken = 0;
    int64_t before = permits_of(semaphore);
    for (int i = 0; i < THREADS; i++) CHECK(pthread_create(&threads[i], NULL, take_and_give, &taken) == 0);
    for (int i = 0; i < 20000; i++) {
        CHECK(pthread_kill(threads[i % THREADS], SIGUSR2) == 0);
        if (i % 16 == 0) usleep(50);
    }
    atomic_store(&is_over, true);
    for (int i = 0; i < THREADS; i++) CHECK(pthread_join(threads[i], NULL) == 0);
    CHECK(atomic_load(&posts) > 100);
    CHECK(permits_of(semaphore) == before + atomic_load(&posts) - atomic_load(&taken));
}

/* A thread is stopped at an instruction of a call. Another may come to the object meanwhile and wait for it, while
   signals come to it. Whatever it does then, each of their handlers may release, and no release is lost. */

enum { SIGNALS = 40 };
static atomic_bool is_stopped, may_go_on, is_signalled;

static void stop_here(void) {
    atomic_store(&is_stopped, true);
    while (!atomic_load(&may_go_on)) sched_yield();
}

static void *take_and_stop(void *has_stopped) {
    instruction = handled = 0;
    trace();
    take_one();
    trace_no_more();
    *(bool *)has_stopped = handled > 0;
    atomic_store(&is_stopped, true);
    return NULL;
}

static void *take_under_signals(void *none) {
    atomic_store(&in_call, 1);
    take_one();
    while (!atomic_load(&is_signalled)) sched_yield();
    return none;
}

static bool signalled_while_stopped_at(long at) {
    pthread_t stopped, other_thread;
    bool has_stopped;
    int64_t before = permits_of(semaphore);
    handler = stop_here, wanted = at;
    atomic_store(&posts, 0), atomic_store(&in_call, 0);
    atomic_store(&is_stopped, false), atomic_store(&may_go_on, false), atomic_store(&is_signalled, false);
    CHECK(pthread_create(&stopped, NULL, take_and_stop, &has_stopped) == 0);
    while (!atomic_load(&is_stopped)) sched_yield();
    CHECK(pthread_create(&other_thread, NULL, take_under_signals, NULL) == 0);
    while (atomic_load(&in_call) == 0) sched_yield();
    for (int i = 0; i < SIGNALS; i++) {
        usleep(50);
        CHECK(pthread_kill(other_thread, SIGUSR2) == 0);
    }
    atomic_store(&may_go_on, true), atomic_store(&is_signalled, true);
    CHECK(pthread_join(stopped, NULL) == 0 && pthread_join(other_thread, NULL) == 0);
    CHECK(permits_of(semaphore) == before - 2 + atomic_load(&posts));
    return has_stopped;
}

static void signalled_while_another_is_stopped(void) {
    long at = 1;
    while (signalled_while_stopped_at(at)) at += 12;
    CHECK(at > 100);
    atomic_store(&posts, 0);
}

/* Of 20 kinds of releases in one handler four are refused, and none of the others is lost, nor is one more of each. */

enum { KINDS = 20, MOST_KINDS = 16, TIMES = 100 };

static int refused;
static int64_t released;

static void release_each_kind(void) {
    refused = 0, released = 0;
    for (uint32_t i = 0; i < 2 * KINDS; i++) {
        uint32_t n = 1 + i % KINDS;
        aqs_status_t status = aqs_sem_release(semaphore, n);
        CHECK(status == AQS_OK || status == AQS_OUT_OF_MEMORY);
        if (status == AQS_OK) released += n;
        else refused++;
    }
}

/* Equal releases of two kinds take two places, however many they are. */
static void release_often(void) {
    refused = 0, released = 3 * TIMES;
    for (int i = 0; i < TIMES; i++) {
        IS(aqs_sem_release(semaphore, 1), AQS_OK);
        IS(aqs_sem_release(semaphore, 2), AQS_OK);
    }
}

static void many_posts(void (*many)(void), int most_refused) {
    int most = 0;
    handler = many;
    for (wanted = 1;; wanted += 3) {
        int64_t before = permits_of(semaphore);
        instruction = handled = 0;
        trace();
        take_one();
        trace_no_more();
        if (handled == 0) break;
        if (refused > most) most = refused;
        CHECK(permits_of(semaphore) == before - 1 + released);
        IS(aqs_sem_drain(semaphore, NULL), AQS_OK);
        IS(aqs_sem_release(semaphore, 1000), AQS_OK);
    }
    CHECK(most == most_refused);
}

/* A handler may release where no memory is to be had, and asks for none. */
static void without_memory(void) {
    struct sigaction action = {.sa_handler = on_signal};
    CHECK(sigaction(SIGUSR1, &action, NULL) == 0);
    release_one();
    long before = asked;
    left = 0;
    for (int i = 0; i < 5000; i++) CHECK(raise(SIGUSR1) == 0);
    left = LONG_MAX;
    CHECK(asked == before);
}

int main(void) {
    struct sigaction traps = {.sa_sigaction = on_trap, .sa_flags = SA_SIGINFO | SA_NODEFER};
    struct sigaction storms = {.sa_handler = on_storm};
    const aqs_options_t options = {.threads = THREADS + 2, .history = 16};
    alarm(300);
    CHECK(sigaction(SIGTRAP, &traps, NULL) == 0 && sigaction(SIGUSR2, &storms, NULL) == 0);
    CHECK(pthread_key_create(&first_key, begin_to_end) == 0);
    IS(aqs_sem_open(&semaphore, 1000000, &options), AQS_OK);
    CHECK(pthread_key_create(&last_key, has_ended) == 0);
    IS(aqs_sem_open(&other, 0, &options), AQS_OK);
    IS(aqs_latch_open(&latch, 2000000000, &options), AQS_OK);
    IS(aqs_lock_open(&lock, &options), AQS_OK);
    pair();
    for (int i = 0; i < 2; i++) release_two_at_another(), release_one(), count_down();
    for (size_t i = 0; i < sizeof calls / sizeof calls[0]; i++)
        interrupt_everywhere(calls[i].call, calls[i].change, calls[i].of);
    interrupt_itself(wait_in_vain, AQS_TIMED_OUT, 29);
    interrupt_itself(wait_for_one, AQS_OK, 1);
    interrupt_twice(give_one, 1, 3, 1);
    interrupt_twice(give_one, 1, 1, 7);
    handler_in_handler();
    handlers_as_threads_end();
    signalled_while_another_is_stopped();
    many_posts(release_each_kind, 2 * (KINDS - MOST_KINDS));
    many_posts(release_often, 0);
    without_memory();
    take_the_only_one();
    released_by_its_own_handler();
    opened_by_its_own_handler();
    interrupted_by_its_own_handler();
    IS(aqs_sem_release(semaphore, 3), AQS_OK);
    storm();
    aqs_sem_close(semaphore), aqs_sem_close(other), aqs_latch_close(latch), aqs_lock_close(lock);
    puts("handlers: good");
    return 0;
}
