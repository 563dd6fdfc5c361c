/* aqs.c: parking, and the calls of aqs.h over the turns of aqs_core.h. No proof covers this file.

   Five parts:
   - parking: a place for each thread, with its permit and its interrupt. Here alone threads sleep and wake.
   - numbers: which thread has which number, and so which place.
   - seats: which thread has which seat of an object, and for how long.
   - turns: what a caller owes after each turn of the proved code.
   - the calls: one line each.
   aqs_core.h lists what this file owes the proved code. If it breaks one of these duties, as by giving one
   seat to two threads, nothing holds. Any other fault in this file can lose a wake, or answer a wrong status,
   so that a thread goes on without the lock. It can't make a history illegal: in the history the lock has one
   owner at most. */
#ifndef _GNU_SOURCE
#define _GNU_SOURCE
#endif
#include "aqs.h"

#include "aqs_core.h"

#include <errno.h>
#include <fcntl.h>
#include <limits.h>
#include <link.h>
#include <linux/futex.h>
#include <linux/membarrier.h>
#include <pthread.h>
#include <sched.h>
#include <stdatomic.h>
#include <stdbool.h>
#include <stdlib.h>
#include <string.h>
#include <sys/mman.h>
#include <sys/prctl.h>
#include <sys/syscall.h>
#include <time.h>
#include <unistd.h>

/* COLD functions are called seldom, and not inlined. SHORT ones are parts of the short way, and always inlined. */
#define COLD __attribute__((noinline, cold))
#define SHORT static inline __attribute__((always_inline))

/* Tools that look for races don't see into the library, or don't know what it does. They are told that a turn
   orders what its thread does before and after it. ThreadSanitizer's functions are there if the program has
   it, and helgrind's requests are made if the program runs on valgrind. */
extern void __tsan_acquire(void *) __attribute__((weak));
extern void __tsan_release(void *) __attribute__((weak));

#if defined(__has_include)
#if __has_include(<valgrind/helgrind.h>)
#include <valgrind/helgrind.h>
#define IS_ON_VALGRIND() (RUNNING_ON_VALGRIND != 0)
#endif
#endif
#ifndef IS_ON_VALGRIND
#define IS_ON_VALGRIND() false
#define ANNOTATE_HAPPENS_BEFORE(object) ((void)(object))
#define ANNOTATE_HAPPENS_AFTER(object) ((void)(object))
#endif

/* Whether such a tool is there: known before the first object is opened. */
static bool is_watched;

static COLD void tell_watchers_before(void *object) {
    if (__tsan_release) __tsan_release(object);
    ANNOTATE_HAPPENS_BEFORE(object);
}

static COLD void tell_watchers_after(void *object) {
    if (__tsan_acquire) __tsan_acquire(object);
    ANNOTATE_HAPPENS_AFTER(object);
}

SHORT void tell_before(void *object) {
    if (is_watched) tell_watchers_before(object);
}

SHORT void tell_after(void *object) {
    if (is_watched) tell_watchers_after(object);
}

/* Tells the processor that the thread only looks. */
static inline void relax(void) {
#if defined(__x86_64__) || defined(__i386__)
    __builtin_ia32_pause();
#endif
}

/* Parking ------------------------------------------------------------------------------------------------ */

/* The word of a place. Its thread shows SLEEPS before it reads the word for the last time, and sleeps only
   while the word is what it read. A sender sets its signal in one step, which shows it SLEEPS. So no wake
   is lost. */
enum { PERMIT = 1, INTERRUPT = 2, SLEEPS = 4 };

typedef struct {
    _Alignas(64) _Atomic uint32_t word;
    _Atomic uint64_t holds; /* of all objects together. Only the thread of the place counts them */
    atomic_bool has_turn;   /* whether the thread is about to make a turn, or makes one */
    pid_t process, thread;  /* whose it is, by the system's ids. thread 0: nobody's. Under `numbering` */
    char name[16];          /* of the thread that gave its number back last. Under `numbering` */
} place_t;

/* What the clock shows, rounded up to a millisecond: a time that is counted from here on is never up too
   early. */
static uint64_t moment_in_milliseconds(void) {
    struct timespec now;
    clock_gettime(CLOCK_MONOTONIC, &now);
    return (uint64_t)now.tv_sec * 1000 + ((uint64_t)now.tv_nsec + 999999) / 1000000;
}

/* The moment of a number of milliseconds. Each number has one: time_t has 64 bits. */
static struct timespec moment_of(uint64_t milliseconds) {
    return (struct timespec){(time_t)(milliseconds / 1000), (long)(milliseconds % 1000) * 1000000};
}

/* Whether the clock shows this moment or a later one, to the nanosecond. */
static bool is_reached(const struct timespec *moment) {
    struct timespec now;
    clock_gettime(CLOCK_MONOTONIC, &now);
    if (now.tv_sec != moment->tv_sec) return now.tv_sec > moment->tv_sec;
    return now.tv_nsec >= moment->tv_nsec;
}

static void wake(place_t *place) {
    syscall(SYS_futex, &place->word, FUTEX_WAKE_PRIVATE, 1, NULL, NULL, 0);
}

/* Sleeps while the word is `read`, until the moment at the longest. It may return early. Returns whether a
   signal handler ended it. */
static bool sleep_while(place_t *place, uint32_t read, const struct timespec *moment) {
    errno = 0;
    syscall(SYS_futex, &place->word, FUTEX_WAIT_BITSET_PRIVATE, read, moment, NULL, FUTEX_BITSET_MATCH_ANY);
    return errno == EINTR;
}

/* Sets a signal, and wakes the thread of the place if it sleeps. */
static void send(place_t *place, uint32_t signal) {
    if (atomic_load(&place->word) & signal) return;
    if (atomic_fetch_or(&place->word, signal) & SLEEPS) wake(place);
}

/* Whether a signal was set. It is cleared, which only the thread of the place does. */
static bool take(place_t *place, uint32_t signal) {
    return (atomic_load(&place->word) & signal) && (atomic_fetch_and(&place->word, ~signal) & signal);
}

/* How many times a thread looks for its signal before it sleeps. Two threads that look hand over in 0.1
   microseconds, and two that sleep in 5 to 6. A fair object goes from thread to thread at each release, so
   there a thread lets others run after some looks, and looks on. */
enum { LOOKS = 500, LOOKS_IF_FAIR = 100, YIELDS = 100 };

static bool comes_soon(place_t *place, uint32_t awaited, bool is_fair) {
    for (int i = 0; i < (is_fair ? LOOKS_IF_FAIR : LOOKS); i++) {
        if (atomic_load(&place->word) & awaited) return true;
        relax();
    }
    for (int i = 0; is_fair && i < YIELDS; i++) {
        sched_yield();
        if (atomic_load(&place->word) & awaited) return true;
    }
    return false;
}

/* Whether a thread slept, and whether a signal handler ended that. */
typedef enum { SLEPT_NOT, SLEPT, SLEPT_UNTIL_HANDLER } slept_t;

static slept_t sleep_at(place_t *place, uint32_t awaited, const struct timespec *moment, bool is_fair) {
    bool handler_ran = false;
    if (comes_soon(place, awaited, is_fair)) return SLEPT_NOT;
    uint32_t read = atomic_fetch_or(&place->word, SLEEPS) | SLEEPS;
    if (!(read & awaited)) handler_ran = sleep_while(place, read, moment);
    atomic_fetch_and(&place->word, ~(uint32_t)SLEEPS);
    return handler_ran ? SLEPT_UNTIL_HANDLER : SLEPT;
}

/* How a park may end beside AQS_WOKE_*: a signal handler ran. */
enum { WOKE_HANDLER = AQS_WOKE_INTERRUPT + 1 };

/* Waits as an answer says, and returns how that ended, and whether the thread slept. A signal handler ends it
   only where an interrupt may. What the handler itself sent comes first. */
static uint8_t
park(place_t *place, const aqs_answer_t *answer, bool is_fair, bool heeds_handlers, bool *has_slept) {
    uint32_t awaited = answer->interruptible ? PERMIT | INTERRUPT : PERMIT;
    bool may_handler_end = answer->interruptible && heeds_handlers;
    struct timespec moment = moment_of(answer->until);
    for (slept_t slept = SLEPT_NOT;;) {
        if (answer->interruptible && take(place, INTERRUPT)) return AQS_WOKE_INTERRUPT;
        if (take(place, PERMIT)) return AQS_WOKE_PERMIT;
        if (may_handler_end && slept == SLEPT_UNTIL_HANDLER) return WOKE_HANDLER;
        if (answer->has_until && is_reached(&moment)) return AQS_WOKE_DEADLINE;
        slept = sleep_at(place, awaited, answer->has_until ? &moment : NULL, is_fair);
        *has_slept |= slept != SLEPT_NOT;
    }
}

/* How long a thread pauses before it asks again for a lock that isn't fair, some 15 microseconds. The thread
   that released it goes on with what the lock guards in its cache, and may release it many times meanwhile:
   it wakes nobody again before the thread has asked. One that slept comes late enough. */
enum { PAUSES = 3000 };

static void let_others_go_on(void) {
    for (int i = 0; i < PAUSES; i++) relax();
}

/* What is out of range ----------------------------------------------------------------------------------- */

/* What the last such status of the thread was about. Signal handlers may get it, so that it is made by hand.
   */
static _Thread_local __attribute__((tls_model("initial-exec"))) char said[128];

const char *aqs_last_error(void) { return said; }

static char *put_text(char *at, const char *text) {
    while (*text && at < said + sizeof said - 1) *at++ = *text++;
    *at = 0;
    return at;
}

static char *put_number(char *at, int64_t number) {
    char digits[24], *first = digits + sizeof digits - 1;
    uint64_t left = number < 0 ? -(uint64_t)number : (uint64_t)number;
    *first = 0;
    do *--first = (char)('0' + left % 10);
    while ((left /= 10) > 0);
    if (number < 0) *--first = '-';
    return put_text(at, first);
}

COLD aqs_status_t aqs_out_of_range(const char *name, int64_t least, int64_t most, int64_t number) {
    char *at = put_text(put_text(said, name), " must be ");
    at = put_number(at, least);
    if (most == INT64_MAX) at = put_text(at, " or more");
    else if (most > least) at = put_number(put_text(at, " to "), most);
    (void)put_number(put_text(at, ", not "), number);
    return AQS_OUT_OF_RANGE;
}

/* Numbers ------------------------------------------------------------------------------------------------ */

/* The place of each number. The first are there from the beginning, and each later block has as many as all
   before it. None is ever freed, so a late signal finds its place. A number is given back as its thread
   ends, or, if that was not to be, before another block is made. `numbering` guards all of them, and the
   openings of static objects. */
enum { FIRST_PLACES = 256, BLOCKS = 16 };
static place_t first_places[FIRST_PLACES];
static place_t *_Atomic blocks[BLOCKS] = {first_places};
static aqs_thread_t count_of_places = FIRST_PLACES, lowest; /* no number below `lowest` is free */
static pthread_mutex_t numbering = PTHREAD_MUTEX_INITIALIZER;
static pthread_key_t at_end;
static bool has_key;
static pthread_once_t once = PTHREAD_ONCE_INIT;

/* Which seat a thread had last at an object. A tag of 0 is of none. */
typedef struct {
    uintptr_t tag;
    uint32_t seat;
} memory_t;
enum { MEMORIES = 16 };

/* Equal releases by signal handlers that interrupted a call of the library, and how many there are. */
typedef struct {
    aqs_object_t *object;
    uint32_t n;
    atomic_uint times; /* 0 if the post is free, and BEING_LEFT while a handler writes the other two */
} post_t;
enum { POSTS = 16 };
#define BEING_LEFT UINT_MAX
#define MOST_TIMES (BEING_LEFT - 1)

/* The calling thread. It lies where the system finds it without a call, also in a shared library. */
static _Thread_local __attribute__((tls_model("initial-exec"))) struct {
    uint64_t mine;  /* what a seat of its own says: it is made of its number, and never 0 */
    place_t *place; /* NULL if it has no number */
    aqs_thread_t number;
    bool forks;              /* whether it holds the turns of others back */
    atomic_bool is_inside;   /* whether it has an object or the numbers, so that a handler must not wait */
    atomic_bool has_posts;   /* whether handlers have left posts since a call began to make them */
    atomic_bool makes_posts; /* whether a call makes them now, so that a handler leaves that to it */
    memory_t memories[MEMORIES];
    post_t posts[POSTS];
} self;

static void make_posts(void);

/* Between these two no handler of the thread makes a turn. It leaves a post, which is made at the end. */
SHORT void enter(void) {
    atomic_store_explicit(&self.is_inside, true, memory_order_relaxed);
    atomic_signal_fence(memory_order_seq_cst);
}

SHORT void leave(void) {
    atomic_signal_fence(memory_order_seq_cst);
    atomic_store_explicit(&self.is_inside, false, memory_order_relaxed);
    atomic_signal_fence(memory_order_seq_cst);
    if (atomic_load_explicit(&self.has_posts, memory_order_relaxed)) make_posts();
}

/* The block of a number, and the first number there. */
static unsigned block_of(aqs_thread_t thread) {
    return thread < FIRST_PLACES ? 0 : 24 - (unsigned)__builtin_clz(thread);
}
static aqs_thread_t begin_of(unsigned block) { return block ? FIRST_PLACES / 2 << block : 0; }

/* NULL: no thread has had so great a number. */
static place_t *place_of(aqs_thread_t thread) {
    unsigned block = block_of(thread);
    place_t *places = block < BLOCKS ? atomic_load(&blocks[block]) : NULL;
    return places ? &places[thread - begin_of(block)] : NULL;
}

static void free_number(aqs_thread_t thread) {
    place_of(thread)->thread = 0;
    if (thread < lowest) lowest = thread;
}

static bool holds_nothing(const place_t *place) {
    return atomic_load_explicit(&place->holds, memory_order_relaxed) == 0;
}

/* Called as a thread ends, once for each time that the key was set. Destructors of other keys may come later,
   and unlock: so the thread keeps its number while it holds anything. */
static void give_number_back(void *number) {
    if (!holds_nothing(self.place)) {
        (void)pthread_setspecific(at_end, number);
        return;
    }
    enter();
    self.place = NULL;
    memset(self.memories, 0, sizeof self.memories);
    pthread_mutex_lock(&numbering);
    (void)prctl(PR_GET_NAME, place_of((aqs_thread_t)((uintptr_t)number - 1))->name);
    free_number((aqs_thread_t)((uintptr_t)number - 1));
    pthread_mutex_unlock(&numbering);
    leave();
}

static pid_t own_id(void) { return (pid_t)syscall(SYS_gettid); }

/* While the process forks, no number is taken and no turn is made. So in the child, where no other thread is
   left, each object is between two turns. A thread that begins a turn shows that, and then looks whether the
   process forks. The one that forks shows that, and then looks for turns. The kernel orders the two in
   between (membarrier), so that a turn need not. */
static atomic_bool is_forking;
static bool can_order;

static void back_off(unsigned *looks);

static bool has_turn(const place_t *place) {
    return place != self.place && atomic_load_explicit(&place->has_turn, memory_order_acquire);
}

static void before_fork(void) {
    pthread_mutex_lock(&numbering);
    if (!can_order) return;
    self.forks = true;
    atomic_store(&is_forking, true);
    syscall(SYS_membarrier, MEMBARRIER_CMD_PRIVATE_EXPEDITED, 0, 0);
    for (aqs_thread_t thread = 0; thread < count_of_places; thread++) {
        unsigned looks = 0;
        while (has_turn(place_of(thread))) back_off(&looks);
    }
}

/* What a taken gate says. It is another in each process, so that in the child of a fork no gate is taken. */
static unsigned this_process = 1;

static void let_turns_begin(void) {
    self.forks = false;
    atomic_store(&is_forking, false);
}

static void after_fork(void) {
    let_turns_begin();
    pthread_mutex_unlock(&numbering);
}

/* The thread that forked is the only one that is left, with another id. Others may have been about to look whether
   the process forks. */
static void after_fork_in_child(void) {
    for (aqs_thread_t thread = 0; thread < count_of_places; thread++)
        atomic_store(&place_of(thread)->has_turn, false);
    this_process++;
    let_turns_begin();
    if (self.place) {
        self.place->process = getpid();
        self.place->thread = own_id();
    }
    pthread_mutex_unlock(&numbering);
}

static void prepare(void) {
    is_watched = __tsan_acquire || IS_ON_VALGRIND();
    has_key = pthread_key_create(&at_end, give_number_back) == 0;
}

/* What a program does before a fork, such as to acquire its locks, is done before turns are held back, if the
   program says so later than this. */
static __attribute__((constructor)) void prepare_for_forks(void) {
    can_order = syscall(SYS_membarrier, MEMBARRIER_CMD_REGISTER_PRIVATE_EXPEDITED, 0, 0) == 0;
    (void)pthread_atfork(before_fork, after_fork, after_fork_in_child);
}

/* Whether the thread of a place, for which another thread asks, has ended. */
static bool has_ended(const place_t *place, pid_t process, pid_t asks) {
    if (place->process != process) return false;
    if (place->thread == asks) return true;
    return syscall(SYS_tgkill, process, place->thread, 0) != 0 && errno == ESRCH;
}

/* Threads that ended have some numbers still: those without a key, and those that made their last call after
   the key's last destructor. One that ended with holds keeps its number for good, so that no later thread is
   taken for it. */
static void take_back_from_ended(pid_t process, pid_t asks) {
    for (aqs_thread_t thread = 0; thread < count_of_places; thread++) {
        const place_t *place = place_of(thread);
        bool is_taken = place->thread != 0;
        if (is_taken && holds_nothing(place) && has_ended(place, process, asks)) free_number(thread);
    }
}

/* The least number that nobody has, or as many as there are places. */
static aqs_thread_t least_free(void) {
    while (lowest < count_of_places && place_of(lowest)->thread != 0) lowest++;
    return lowest;
}

/* Makes as many places more as there are. False: memory lacks. */
static bool make_places(void) {
    size_t size = count_of_places * sizeof(place_t);
    if (block_of(count_of_places) >= BLOCKS) return false;
    void *places = mmap(NULL, size, PROT_READ | PROT_WRITE, MAP_PRIVATE | MAP_ANONYMOUS, -1, 0);
    if (places == MAP_FAILED) return false;
    atomic_store(&blocks[block_of(count_of_places)], places);
    count_of_places *= 2;
    return true;
}

/* Gives the calling thread a number and its place. False: memory lacks. */
static COLD bool take_number(void) {
    pid_t process = getpid(), asks = own_id();
    pthread_once(&once, prepare);
    pthread_mutex_lock(&numbering);
    if (least_free() == count_of_places) take_back_from_ended(process, asks);
    aqs_thread_t thread = least_free();
    bool is_taken = thread < count_of_places || make_places();
    if (is_taken) {
        self.place = place_of(thread);
        self.place->process = process;
        self.place->thread = asks;
        atomic_store(&self.place->word, 0);
    }
    pthread_mutex_unlock(&numbering);
    if (!is_taken) return false;
    self.number = thread;
    self.mine = 2 * ((uint64_t)thread + 1);
    if (has_key) (void)pthread_setspecific(at_end, (void *)((uintptr_t)thread + 1));
    return true;
}

/* A handler that interrupts its thread as that gives its number back takes none: it can't wait for it. */
static bool has_number(void) {
    if (self.place) return true;
    if (atomic_load_explicit(&self.is_inside, memory_order_relaxed)) return false;
    enter();
    bool has_one = self.place || take_number();
    leave();
    return has_one;
}

aqs_thread_t aqs_thread_self(void) { return has_number() ? self.number : AQS_NO_THREAD; }

aqs_status_t aqs_thread_interrupt(aqs_thread_t thread) {
    place_t *place = place_of(thread);
    int before = errno; /* what a handler interrupts may be about to read it */
    if (!place) return aqs_out_of_range("thread", 0, count_of_places - 1, thread);
    send(place, INTERRUPT);
    errno = before;
    return AQS_OK;
}

bool aqs_thread_interrupted(void) { return has_number() && take(self.place, INTERRUPT); }

/* Seats -------------------------------------------------------------------------------------------------- */

/* A thread takes a seat of an object when it comes, and gives it back when it holds nothing there and waits
   for nothing. In the history a seat is a place, and not a person. A seat lies in a line of the cache of its
   own. */
typedef struct aqs_seat {
    _Alignas(64) aqs_pass_t pass;
    _Atomic uint64_t taken; /* by nobody: 0. Else the `mine` of its thread, and 1 more while that is inside */
    place_t *_Atomic place; /* of the thread that had it last */
    uint64_t stays;         /* why its thread keeps it, in the units below. Only that thread looks */
    bool waits;             /* whether a call of its thread waits in it. Only that thread looks */
    uint8_t meets;          /* how many steps are not tried at once. Only that thread looks */
    atomic_bool is_on_condition; /* whether that call waits on a condition */
} seat_t;

/* The gate of an object, in a line of the cache of its own, before its seats (see Gates). */
typedef struct {
    _Alignas(128) atomic_uint taken;  /* a value of `this_process` while a thread has it */
    _Atomic uint32_t heat;            /* how many acquires yet go through it */
} gate_t;

enum { INSIDE = 1 };
enum { MEETS = 200 };
#define ONE_EXCLUSIVE INT64_C(1)
#define ONE_SHARED (INT64_C(1) << 32)
#define ONE_WAIT (INT64_C(1) << 60)

/* Another call has the object, or a seat. A turn is short, so try again soon, after a longer pause each time.
   Let others run only if that doesn't help, and then sleep. */
static void back_off(unsigned *looks) {
    if (++*looks < 30) {
        for (int left = 1 << (*looks < 6 ? *looks : 6); left > 0; left--) relax();
    } else if (*looks < 1000) {
        sched_yield();
    } else {
        struct timespec pause = {0, 50000};
        syscall(SYS_nanosleep, &pause, NULL);
    }
}

/* An object that is opened at its first call has no seats before. */
static uint16_t count_of_seats(const aqs_object_t *object) {
    return __atomic_load_n(&object->count_, __ATOMIC_ACQUIRE);
}

SHORT uintptr_t tag_of(const aqs_object_t *object) { return (uintptr_t)object + 1; }

SHORT memory_t *memory_of(const aqs_object_t *object) {
    uintptr_t at = (uintptr_t)object;
    return &self.memories[(at >> 4 ^ at >> 7) % MEMORIES];
}

/* The process forks, and the thread makes no turn until that is over. If it is the one that forks, a program
   makes a call between: so nobody is held back any more. */
static COLD void wait_for_fork(void) {
    unsigned looks = 0;
    atomic_store_explicit(&self.place->has_turn, false, memory_order_release);
    if (self.forks) let_turns_begin();
    while (atomic_load(&is_forking)) back_off(&looks);
}

SHORT void begin_turn(void) {
    for (;;) {
        atomic_store_explicit(&self.place->has_turn, true, memory_order_relaxed);
        atomic_signal_fence(memory_order_seq_cst);
        if (!atomic_load_explicit(&is_forking, memory_order_acquire)) return;
        wait_for_fork();
    }
}

SHORT void end_turn(void) { atomic_store_explicit(&self.place->has_turn, false, memory_order_release); }

/* Takes a seat that nobody has. What its last thread did with its pass is seen then. */
SHORT bool claims(seat_t *seat) {
    uint64_t nobody = 0;
    if (!atomic_compare_exchange_strong_explicit(
            &seat->taken, &nobody, self.mine | INSIDE, memory_order_acquire, memory_order_relaxed))
        return false;
    atomic_store_explicit(&seat->place, self.place, memory_order_relaxed);
    return true;
}

/* Whether the calling thread, which is not inside, has the seat. Only the thread itself writes that. */
SHORT bool is_own(const seat_t *seat) {
    return atomic_load_explicit(&seat->taken, memory_order_relaxed) == self.mine;
}

/* Whether it is a lock or a read-write lock. Only these have owners and conditions. */
SHORT bool has_owner(uint8_t kind) { return kind == AQS_KIND_LOCK || kind == AQS_KIND_READ_WRITE; }

/* Whether a call of the thread waits in its seat, so that a handler which interrupts it takes another seat. At
   a lock it gets none: that call is a misuse. */
SHORT bool needs_another(const aqs_object_t *object, const seat_t *seat) {
    return seat->waits && !has_owner(object->kind_);
}

/* The thread comes back to its seat. */
SHORT void come_back(seat_t *seat) {
    atomic_store_explicit(&seat->taken, self.mine | INSIDE, memory_order_relaxed);
}

/* The seat of a thread that doesn't remember one here. A thread that holds nothing anywhere has none. */
static COLD seat_t *look_for_own_seat(const aqs_object_t *object) {
    bool has_some = self.place && !holds_nothing(self.place) && object;
    uint32_t count = has_some ? count_of_seats(object) : 0;
    for (uint32_t i = 0; i < count; i++) {
        if (is_own(&object->seats_[i])) return &object->seats_[i];
    }
    return NULL;
}

/* The seat that the calling thread has, or NULL. One that remembers a seat here has no other. */
SHORT seat_t *own_seat(const aqs_object_t *object) {
    const memory_t *memory = memory_of(object);
    if (memory->tag != tag_of(object)) return look_for_own_seat(object);
    if (memory->seat >= count_of_seats(object)) return NULL;
    seat_t *seat = &object->seats_[memory->seat];
    return is_own(seat) ? seat : NULL;
}

/* The last seat of a semaphore or a latch is for calls that don't wait: those that wait need another that
   releases. */
static bool is_kept_back(const aqs_object_t *object, uint32_t seat) {
    return seat > 0 && seat + 1 == count_of_seats(object) && !has_owner(object->kind_);
}

/* A seat that nobody had: the one of the thread's number, if that is free. Threads that are inside may leave
   soon. NULL: each seat is kept. */
static seat_t *free_seat(const aqs_object_t *object, bool may_wait) {
    uint32_t count = count_of_seats(object), first = self.number % count;
    for (unsigned looks = 0;;) {
        bool is_kept = true;
        for (uint32_t i = 0; i < count; i++) {
            uint32_t number = (first + i) % count;
            if (may_wait && is_kept_back(object, number)) continue;
            seat_t *seat = &object->seats_[number];
            uint64_t taken = atomic_load_explicit(&seat->taken, memory_order_relaxed);
            if (taken == 0 && claims(seat)) return seat;
            if (taken == 0 || taken & INSIDE) is_kept = false;
        }
        if (is_kept) return NULL;
        back_off(&looks);
    }
}

static aqs_status_t open_at_first_call(aqs_object_t *object);

/* Whether an object may be used: it is open, or opens at its first call. */
static bool is_usable(const aqs_object_t *object) {
    uint32_t mark = object ? __atomic_load_n(&object->mark_, __ATOMIC_RELAXED) : AQS_IS_CLOSED_;
    if (mark == AQS_IS_NEW_) return object->kind_ <= AQS_KIND_LATCH;
    return mark == AQS_IS_OPEN_ || mark == AQS_OPENED_AT_FIRST_CALL_;
}

/* Whether the threads of all seats wait on conditions. */
static bool all_are_on_conditions(const aqs_object_t *object) {
    for (uint32_t i = 0; i < count_of_seats(object); i++)
        if (!atomic_load_explicit(&object->seats_[i].is_on_condition, memory_order_relaxed)) return false;
    return true;
}

/* A wait for a seat, outside. A thread that gives one back wakes one that seeks. That may be missed, as
   nothing orders the two, so each sleep has an end. A thread that was signalled may be on its way from its
   condition: so all wait there only if several looks in a row say so. */
enum { SHORTEST_SLEEP = 1, LONGEST_SLEEP = 16, LOOKS_AT_CONDITIONS = 10 };
typedef struct {
    uint32_t freed;
    unsigned milliseconds;
    int on_conditions;
} search_t;

/* Sleeps until a seat is given back, or a while. Returns whether a signal handler ended that. */
static bool sleep_until_freed(aqs_object_t *object, uint32_t freed, uint64_t milliseconds) {
    struct timespec time = moment_of(milliseconds);
    long ended = syscall(SYS_futex, &object->freed_, FUTEX_WAIT_PRIVATE, freed, &time, NULL, 0);
    return ended != 0 && errno == EINTR;
}

/* Waits a while for a seat, outside. Returns AQS_OK if the thread is to look again. */
static aqs_status_t wait_for_seat(aqs_object_t *object, const aqs_call_t *call, search_t *search) {
    uint64_t now = moment_in_milliseconds(), end = call->moment + call->time;
    search->on_conditions = all_are_on_conditions(object) ? search->on_conditions + 1 : 0;
    if (search->on_conditions > LOOKS_AT_CONDITIONS) return AQS_TOO_MANY_THREADS;
    if (call->how != AQS_HOW_PLAIN && take(self.place, INTERRUPT)) return AQS_INTERRUPTED;
    if (call->how == AQS_HOW_TIMED && now > end) return AQS_TIMED_OUT;
    uint64_t time = search->milliseconds;
    if (call->how == AQS_HOW_TIMED && time > end - now + 1) time = end - now + 1;
    if (search->milliseconds < LONGEST_SLEEP) search->milliseconds *= 2;
    leave();
    bool handler_ran = sleep_until_freed(object, search->freed, time);
    enter();
    return handler_ran && call->how != AQS_HOW_PLAIN && object->heeds_handlers_ ? AQS_HANDLER_RAN : AQS_OK;
}

/* Tells those who seek a seat that the thread is about to give one back. */
static COLD void tell_seekers(aqs_object_t *object) {
    __atomic_fetch_add(&object->freed_, 1, __ATOMIC_SEQ_CST);
}

/* The seat of the thread, or one that is free. It has begun a turn then. */
static seat_t *look_for_seat(aqs_object_t *object, bool may_wait) {
    begin_turn();
    seat_t *seat = own_seat(object);
    if (seat && !needs_another(object, seat)) come_back(seat);
    else seat = free_seat(object, may_wait);
    if (!seat) end_turn();
    return seat;
}

/* The address alone is used: the object may be closed by now. */
static COLD void wake_seeker(const uint32_t *freed) {
    int was = errno;
    syscall(SYS_futex, freed, FUTEX_WAKE_PRIVATE, 1, NULL, NULL, 0);
    errno = was;
}

/* Looks for a seat until there is one, or the call ends without. */
static COLD seat_t *seek_seat(aqs_object_t *object, const aqs_call_t *call, aqs_status_t *status) {
    search_t search = {.milliseconds = SHORTEST_SLEEP};
    seat_t *seat = NULL;
    __atomic_fetch_add(&object->seekers_, 1, __ATOMIC_SEQ_CST);
    do {
        search.freed = __atomic_load_n(&object->freed_, __ATOMIC_SEQ_CST);
        if ((seat = look_for_seat(object, true))) break;
    } while ((*status = wait_for_seat(object, call, &search)) == AQS_OK);
    __atomic_fetch_sub(&object->seekers_, 1, __ATOMIC_SEQ_CST);
    return seat;
}

/* The thread doesn't remember a seat here, or another thread has it. */
static COLD seat_t *come_slowly(aqs_object_t *object, const aqs_call_t *call, aqs_status_t *status) {
    bool may_wait = call && !(call->how == AQS_HOW_TIMED && call->time == 0);
    *status = is_usable(object) ? AQS_OUT_OF_MEMORY : AQS_MISUSE;
    if (*status == AQS_MISUSE || (!self.place && !take_number())) return NULL;
    if (count_of_seats(object) == 0 && (*status = open_at_first_call(object)) != AQS_OK) return NULL;
    seat_t *seat = look_for_seat(object, may_wait);
    *status = AQS_TOO_MANY_THREADS;
    if (!seat && may_wait) seat = seek_seat(object, call, status);
    if (!seat) return NULL;
    *status = AQS_OK;
    atomic_store_explicit(&seat->place, self.place, memory_order_relaxed);
    *memory_of(object) = (memory_t){tag_of(object), (uint32_t)(seat - object->seats_)};
    return seat;
}

/* The seat of the calling thread, which is inside until it departs: the one that it has, or one that was
   free. NULL: the status says why it has none. A call that may wait, which isn't NULL then, waits for a seat.
   If `is_ownerless`, it is one of a semaphore or a latch.

   All that a thread does with an object lies between this and `depart`. A turn puts its pass back after it
   has freed the object, when others may own it already and close it. So a close waits until nobody is
   inside, and a thread that has left touches nothing of the object until its next turn. Whoever sees what the
   turn did also sees that the thread is inside, since a turn is made by an exchange. */
SHORT seat_t *
come(aqs_object_t *object, const aqs_call_t *call, bool is_ownerless, aqs_status_t *status) {
    const memory_t *memory = memory_of(object);
    seat_t *seat = NULL;
    enter();
    if (memory->tag == tag_of(object) && memory->seat < count_of_seats(object)
        && !(is_ownerless && is_kept_back(object, memory->seat))) {
        seat = &object->seats_[memory->seat];
        begin_turn();
        if (is_own(seat) && !needs_another(object, seat)) come_back(seat);
        else if (!claims(seat)) seat = NULL;
    }
    if (!seat) seat = come_slowly(object, call, status);
    if (seat) tell_before(object);
    else leave();
    return seat;
}

/* Leaves, and gives the seat back unless something keeps it. */
SHORT void depart(aqs_object_t *object, seat_t *seat) {
    uint64_t taken = seat->stays ? self.mine : 0;
    bool wakes_seeker = !taken && __atomic_load_n(&object->seekers_, __ATOMIC_RELAXED) != 0;
    tell_after(object);
    if (wakes_seeker) tell_seekers(object);
    atomic_store_explicit(&seat->taken, taken, memory_order_release);
    if (wakes_seeker) wake_seeker(&object->freed_);
    end_turn();
    leave();
}

/* Adds to what keeps the seat, or takes away from it if `more` is negative. */
SHORT void keep(seat_t *seat, int64_t more) {
    if (more == 0) return;
    uint64_t holds = atomic_load_explicit(&self.place->holds, memory_order_relaxed);
    seat->stays += (uint64_t)more;
    atomic_store_explicit(&self.place->holds, holds + (uint64_t)more, memory_order_relaxed);
}

/* Gates -------------------------------------------------------------------------------------------------- */

/* A thread that finds a lock held is recorded as queued, and then waits for its wake. That takes far longer
   than what most programs do under a lock. So before its first turn at a lock that isn't fair a thread tries
   to get the lock's gate, for some 15 microseconds at the longest: who has the gate goes first, and opens it
   as it unlocks. The gate decides nothing. A thread that doesn't get it makes its turn all the same, and
   whoever unlocks opens it, whether he took it or not. A lock at which nobody met anybody for a while is
   cold: there nobody takes the gate. */
enum { HOT = 2000, GATE_PAUSES = 3000, MOST_PAUSES = 64 };

SHORT gate_t *gate_of(const aqs_object_t *object) { return (gate_t *)object->seats_ - 1; }

static bool has_gate(const aqs_object_t *object) {
    return object->kind_ == AQS_KIND_LOCK && object->policy_ == AQS_NONFAIR;
}

SHORT bool is_hot(const aqs_object_t *object) {
    return atomic_load_explicit(&gate_of(object)->heat, memory_order_relaxed) != 0;
}

static void heat(const aqs_object_t *object) {
    if (has_gate(object)) atomic_store_explicit(&gate_of(object)->heat, HOT, memory_order_relaxed);
}

static bool takes_gate(gate_t *gate) {
    unsigned taken = atomic_load_explicit(&gate->taken, memory_order_relaxed);
    return taken != this_process
           && atomic_compare_exchange_strong_explicit(
               &gate->taken, &taken, this_process, memory_order_acquire, memory_order_relaxed);
}

SHORT void open_gate(const aqs_object_t *object) {
    gate_t *gate = gate_of(object);
    if (atomic_load_explicit(&gate->taken, memory_order_relaxed) == 0) return;
    atomic_store_explicit(&gate->taken, 0, memory_order_release);
}

/* Whether an interrupt ends the call at its next turn. A thread without a place has none. */
static bool is_interrupted(const aqs_call_t *call) {
    return call->how != AQS_HOW_PLAIN && self.place && atomic_load(&self.place->word) & INTERRUPT;
}

/* Returns whether the thread has the gate of a hot object. It looks for it after a longer pause each time. */
static COLD bool goes_through_gate(const aqs_object_t *object, const aqs_call_t *call) {
    gate_t *gate = gate_of(object);
    uint32_t warm = atomic_load_explicit(&gate->heat, memory_order_relaxed);
    if (takes_gate(gate)) {
        if (warm > 0) atomic_store_explicit(&gate->heat, warm - 1, memory_order_relaxed);
        return true;
    }
    if (warm < HOT / 2) heat(object);
    for (int left = GATE_PAUSES, pauses = 1; left > 0 && !is_interrupted(call); left -= pauses) {
        for (int i = 0; i < pauses; i++) relax();
        if (takes_gate(gate)) return true;
        if (pauses < MOST_PAUSES) pauses *= 2;
    }
    return false;
}

/* Counts the holds that a step or a call gave or took. With its last one a thread opens the gate. */
SHORT void keep_all(const aqs_object_t *object, seat_t *seat, int64_t owned) {
    keep(seat, owned);
    if (owned < 0 && (uint32_t)seat->stays == 0) open_gate(object);
}

/* Whether a call joins the queue of the object if it can't have what it asks for. */
SHORT bool joins_queue(const aqs_call_t *call) {
    return call->kind == AQS_CALL_ACQUIRE && !(call->how == AQS_HOW_TIMED && call->time == 0);
}

/* Whether a call is to go through the gate before its first turn: a thread that remembers a seat of a hot
   object, and doesn't own it, if the call may wait. */
SHORT bool meets_gate(const aqs_object_t *object, const aqs_call_t *call) {
    const memory_t *memory = memory_of(object);
    if (!joins_queue(call)) return false;
    if (memory->tag != tag_of(object) || memory->seat >= count_of_seats(object)) return false;
    return is_hot(object) && !is_own(&object->seats_[memory->seat]);
}

/* Turns -------------------------------------------------------------------------------------------------- */

static uint8_t trim(seat_t *seat, uint64_t *count) {
    uint8_t kind;
    unsigned looks = 0;
    while ((kind = aqs_trim_now(&seat->pass, count)) == AQS_IS_BUSY) back_off(&looks);
    return kind;
}

/* Whether the history was full, and was folded. A fold that finds nothing may have come right after another
   thread's. `empty` counts such folds, since the room of an object may also be too small for its threads:
   then they all find nothing. */
static bool makes_room(const aqs_object_t *object, seat_t *seat, uint8_t fault, unsigned *empty) {
    uint64_t count = 0;
    if (fault != AQS_FAULT_HISTORY_FULL || object->keeps_) return false;
    if (trim(seat, &count) != AQS_IS_ENTRY) return false;
    return count > 0 || ++*empty < 100;
}

/* Looks and folds that found nothing, of one call. */
typedef struct {
    unsigned looks, empty;
} tries_t;

/* Whether a first turn changed nothing and is to be made again: others had the object, or it has room now. */
static bool
is_made_again(const aqs_object_t *object, seat_t *seat, const aqs_answer_t *answer, tries_t *tries) {
    if (answer->kind == AQS_IS_BUSY) {
        back_off(&tries->looks);
        return true;
    }
    return answer->kind == AQS_IS_FAULT && makes_room(object, seat, answer->fault, &tries->empty);
}

/* The proved library gets no byte that is neither true nor false. It writes the other fields before it reads
   them. */
SHORT void blank(aqs_answer_t *answer) {
    answer->has_wakes = answer->again = answer->parks = answer->has_until = answer->interruptible = false;
}

/* Where the thread of a seat parks. */
static place_t *place_of_seat(const aqs_object_t *object, uint32_t seat) {
    return atomic_load_explicit(&object->seats_[seat].place, memory_order_relaxed);
}

/* Whom a turn names to be woken, or NULL. It is known while the thread is inside: others may close the object
   afterwards. */
static place_t *woken_by(const aqs_object_t *object, const aqs_answer_t *answer) {
    if (!answer->has_wakes) return NULL;
    return place_of_seat(object, answer->wakes);
}

/* What a caller owes after each turn. */
static void settle(place_t *woken, const aqs_answer_t *answer) {
    if (woken) send(woken, PERMIT);
    if (answer->again) send(self.place, INTERRUPT);
}

/* A call on its way: whether it took the gate, and whether a signal handler ended its wait. */
typedef struct {
    bool took_gate, handler_ran;
} way_t;

/* The thread has got nothing, or has given the lock up to wait. */
static void let_others_through(const aqs_object_t *object, way_t *way) {
    if (way->took_gate) open_gate(object);
    way->took_gate = false;
}

/* A wait of a call, until its next turn. Returns how it ended. One that was woken goes through the gate. */
static uint8_t
wait_for_turn(const aqs_object_t *object, const aqs_call_t *call, const aqs_answer_t *answer, way_t *way) {
    bool is_fair = object->policy_ != AQS_NONFAIR, has_slept = false;
    if (!answer->parks) return AQS_WOKE_PERMIT;
    uint8_t woke = park(self.place, answer, is_fair, object->heeds_handlers_, &has_slept);
    if (is_fair || woke != AQS_WOKE_PERMIT) return woke;
    if (has_gate(object)) way->took_gate = goes_through_gate(object, call);
    else if (has_owner(object->kind_) && call->kind == AQS_CALL_ACQUIRE && !has_slept) let_others_go_on();
    return woke;
}

/* The call waits: its park, and its next turn. The thread is inside, before and after. The proved library is
   told of a signal handler as of an interrupt. But no interrupt was taken then, so none is set again. */
static void next_turn(
    aqs_object_t *object, seat_t *seat, const aqs_call_t *call, aqs_answer_t *answer, way_t *way) {
    place_t *woken = woken_by(object, answer);
    keep(seat, ONE_WAIT);
    seat->waits = true;
    atomic_store_explicit(&seat->is_on_condition, call->kind == AQS_CALL_AWAIT, memory_order_relaxed);
    depart(object, seat);
    settle(woken, answer);
    uint8_t woke = wait_for_turn(object, call, answer, way);
    unsigned looks = 0;
    if (woke == WOKE_HANDLER) way->handler_ran = true, woke = AQS_WOKE_INTERRUPT;
    enter();
    begin_turn();
    come_back(seat);
    tell_before(object);
    seat->waits = false;
    atomic_store_explicit(&seat->is_on_condition, false, memory_order_relaxed);
    keep(seat, -ONE_WAIT);
    for (;; back_off(&looks)) {
        aqs_go_on(&seat->pass, woke, answer);
        if (answer->kind != AQS_IS_BUSY) break;
    }
    if (way->handler_ran) answer->again = false;
    if (answer->kind == AQS_IS_WAITING) let_others_through(object, way);
}

/* Answers as statuses ------------------------------------------------------------------------------------ */

static aqs_status_t status_of_fault(uint8_t fault) {
    switch (fault) {
        case AQS_FAULT_NOT_OWNER: return AQS_NOT_OWNER;
        case AQS_FAULT_TOO_MANY_HOLDS: return AQS_TOO_MANY_HOLDS;
        case AQS_FAULT_TOO_MANY_PERMITS: return AQS_TOO_MANY_PERMITS;
        case AQS_FAULT_INTERRUPTED: return AQS_INTERRUPTED;
        case AQS_FAULT_HOLDS_READ: return AQS_HOLDS_READ;
        case AQS_FAULT_NO_SUCH_CONDITION: return AQS_NO_SUCH_CONDITION;
        case AQS_FAULT_BAD_AMOUNT: return AQS_BAD_AMOUNT;
        case AQS_FAULT_HISTORY_FULL: return AQS_HISTORY_FULL;
        case AQS_FAULT_OUT_OF_MEMORY: return AQS_OUT_OF_MEMORY;
        case AQS_FAULT_TRIM_FULL: return AQS_HISTORY_FULL;
        default: return AQS_MISUSE;
    }
}

static aqs_status_t status_of_end(uint8_t end) {
    switch (end) {
        case AQS_END_TIMEOUT: return AQS_TIMED_OUT;
        case AQS_END_INTERRUPT: return AQS_INTERRUPTED;
        default: return AQS_OK;
    }
}

static aqs_status_t status_of(const aqs_answer_t *answer) {
    if (answer->kind == AQS_IS_FAULT) return status_of_fault(answer->fault);
    if (answer->kind != AQS_IS_ENTRY) return AQS_MISUSE;
    switch (answer->word) {
        case AQS_WORD_MISSED: return AQS_WOULD_BLOCK;
        case AQS_WORD_REFUSED: return status_of_fault(answer->fault);
        default: return status_of_end(answer->end);
    }
}

const char *aqs_status_name(aqs_status_t status) {
    static const char *const names[] = {
        "AQS_OK", "AQS_TIMED_OUT", "AQS_INTERRUPTED", "AQS_WOULD_BLOCK", "AQS_NOT_OWNER",
        "AQS_TOO_MANY_HOLDS", "AQS_TOO_MANY_PERMITS", "AQS_HOLDS_READ", "AQS_NO_SUCH_CONDITION",
        "AQS_BAD_AMOUNT", "AQS_HISTORY_FULL", "AQS_OUT_OF_MEMORY", "AQS_OUT_OF_RANGE",
        "AQS_TOO_MANY_THREADS", "AQS_NO_SPACE", "AQS_IO_ERROR", "AQS_MISUSE", "AQS_HANDLER_RAN",
    };
    size_t number = (size_t)status;
    return number < sizeof names / sizeof names[0] ? names[number] : "no status";
}

/* One step of the calling thread, or one call. `owned` says by how many holds of the object it changes the
   thread's. Most end in their first turn, and nothing is left to do: that way is short, and the other is
   elsewhere. */

/* Whether a first turn gave what was asked for, and leaves nothing to do. Its entry ends no wait, and asks
   for no interrupt to be set again. */
SHORT bool is_plain_end(const aqs_answer_t *answer) {
    return answer->kind == AQS_IS_ENTRY && answer->word != AQS_WORD_MISSED && answer->word != AQS_WORD_REFUSED
           && !answer->has_wakes;
}

/* Makes a step by the turn that makes it at once or not at all, which is the shortest. Returns whether it was
   made: then the thread has left. Where the thread has just met others, the turn would often be one too many. */
SHORT bool is_done_at_once(aqs_object_t *object, seat_t *seat, aqs_step_t step, int64_t owned) {
    if (seat->meets > 0) return seat->meets--, false;
    uint32_t done = aqs_step_at_once(&seat->pass, step);
    if (done == AQS_NOT_DONE) return false;
    place_t *woken = done == AQS_DONE ? NULL : place_of_seat(object, done - AQS_DONE_WAKES);
    keep_all(object, seat, owned);
    depart(object, seat);
    if (done != AQS_DONE) send(woken, PERMIT);
    return true;
}

/* The end of a step or a call, by its last answer. The thread is inside, and leaves. */
static aqs_status_t
end_turns(aqs_object_t *object, seat_t *seat, const aqs_answer_t *answer, int64_t owned) {
    place_t *woken = woken_by(object, answer);
    aqs_status_t status = status_of(answer);
    if (status == AQS_OK) keep_all(object, seat, owned);
    depart(object, seat);
    settle(woken, answer);
    return status;
}

/* The rest of a step, from its first answer on. */
static COLD aqs_status_t
end_step(aqs_object_t *object, seat_t *seat, aqs_step_t step, aqs_answer_t *answer, int64_t owned) {
    tries_t tries = {0, 0};
    while (is_made_again(object, seat, answer, &tries)) aqs_step_now(&seat->pass, step, answer);
    return end_turns(object, seat, answer, owned);
}

/* The rest of a call, from its first answer on. */
static COLD aqs_status_t end_call(aqs_object_t *object, seat_t *seat, const aqs_call_t *call,
                                  aqs_answer_t *answer, int64_t owned, bool took_gate) {
    tries_t tries = {0, 0};
    way_t way = {.took_gate = took_gate || call->kind == AQS_CALL_AWAIT};
    bool met_another = answer->kind == AQS_IS_BUSY || answer->kind == AQS_IS_WAITING;
    if (call->kind == AQS_CALL_ACQUIRE && met_another) heat(object);
    if (answer->kind == AQS_IS_WAITING && !has_gate(object)) seat->meets = MEETS;
    while (is_made_again(object, seat, answer, &tries)) aqs_begin(&seat->pass, call, answer);
    if (answer->kind == AQS_IS_WAITING) let_others_through(object, &way);
    while (answer->kind == AQS_IS_WAITING) next_turn(object, seat, call, answer, &way);
    if (call->kind == AQS_CALL_ACQUIRE && status_of(answer) != AQS_OK) let_others_through(object, &way);
    aqs_status_t status = end_turns(object, seat, answer, owned);
    if (status == AQS_INTERRUPTED && way.handler_ran) return AQS_HANDLER_RAN;
    return status == AQS_WOULD_BLOCK ? AQS_TIMED_OUT : status;
}

/* Whether a step releases holds or permits. A latch is counted down otherwise. */
SHORT bool is_release(const aqs_object_t *object, aqs_step_t step, int64_t owned) {
    return step.code == AQS_STEP_GIVE && (owned < 0 || object->kind_ == AQS_KIND_SEMAPHORE);
}

SHORT aqs_status_t do_step(aqs_object_t *object, aqs_step_t step, int64_t owned, uint32_t *n) {
    aqs_status_t status = AQS_OK;
    seat_t *seat = come(object, NULL, false, &status);
    if (!seat) return status;
    if (is_release(object, step, owned) && is_done_at_once(object, seat, step, owned)) return AQS_OK;
    aqs_answer_t answer;
    blank(&answer);
    aqs_step_now(&seat->pass, step, &answer);
    if (is_plain_end(&answer)) {
        keep_all(object, seat, owned);
        depart(object, seat);
    } else {
        status = end_step(object, seat, step, &answer, owned);
    }
    if (n && status == AQS_OK) *n = answer.n;
    return status;
}

SHORT aqs_status_t do_call(aqs_object_t *object, aqs_call_t call, int64_t owned) {
    aqs_status_t status = AQS_OK;
    call.moment = call.how == AQS_HOW_TIMED ? moment_in_milliseconds() : 0;
    bool took_gate = meets_gate(object, &call) && goes_through_gate(object, &call);
    bool waits = call.kind == AQS_CALL_ACQUIRE;
    seat_t *seat = come(object, waits ? &call : NULL, waits && owned == 0, &status);
    if (!seat) return status;
    call.interrupted = call.how != AQS_HOW_PLAIN && take(self.place, INTERRUPT);
    aqs_step_t step = {.n = call.n, .code = AQS_STEP_ACQUIRE, .mode = call.mode};
    bool may_join = joins_queue(&call) && !call.interrupted;
    if (may_join && is_done_at_once(object, seat, step, owned)) return AQS_OK;
    aqs_answer_t answer;
    blank(&answer);
    aqs_begin(&seat->pass, &call, &answer);
    if (!is_plain_end(&answer)) return end_call(object, seat, &call, &answer, owned, took_gate);
    keep(seat, owned);
    depart(object, seat);
    return AQS_OK;
}

/* A call with a time that the proved library doesn't take. One that is too long is waited for in pieces. */
static COLD aqs_status_t do_long_call(aqs_object_t *object, aqs_call_t call, int64_t time, int64_t owned) {
    if (time < 0) return aqs_out_of_range("milliseconds", 0, INT64_MAX, time);
    for (;;) {
        call.time = time < UINT32_MAX ? (uint32_t)time : UINT32_MAX;
        aqs_status_t status = do_call(object, call, owned);
        time -= call.time;
        if (status != AQS_TIMED_OUT || time == 0) return status;
    }
}

SHORT aqs_status_t do_timed_call(aqs_object_t *object, aqs_call_t call, int64_t time, int64_t owned) {
    bool is_long = call.how == AQS_HOW_TIMED && (uint64_t)time > UINT32_MAX;
    if (is_long) return do_long_call(object, call, time, owned);
    call.time = (uint32_t)time;
    return do_call(object, call, owned);
}

SHORT aqs_status_t acquire(
    aqs_object_t *object, uint8_t mode, uint32_t n, uint8_t how, int64_t time, int64_t owned) {
    aqs_call_t call = {.kind = AQS_CALL_ACQUIRE, .mode = mode, .n = n, .how = how};
    return do_timed_call(object, call, time, owned);
}

SHORT aqs_status_t await(aqs_object_t *object, uint8_t condition, uint8_t how, int64_t time) {
    aqs_call_t call = {.kind = AQS_CALL_AWAIT, .mode = condition, .how = how};
    return do_timed_call(object, call, time, 0);
}

SHORT aqs_status_t step(aqs_object_t *object, uint8_t code, uint8_t mode, uint32_t n, int64_t owned) {
    return do_step(object, (aqs_step_t){.n = n, .code = code, .mode = mode}, owned, NULL);
}

/* Counts a release at a post of its equals, if there is one with room. Nobody frees a post meanwhile: the call that
   makes them is interrupted. */
static bool joins_post(const aqs_object_t *object, uint32_t n) {
    for (post_t *post = self.posts; post < self.posts + POSTS; post++) {
        unsigned times = atomic_load(&post->times);
        while (times > 0 && times < MOST_TIMES && post->object == object && post->n == n)
            if (atomic_compare_exchange_strong(&post->times, &times, times + 1)) return true;
    }
    return false;
}

static bool takes_free_post(aqs_object_t *object, uint32_t n) {
    for (post_t *post = self.posts; post < self.posts + POSTS; post++) {
        unsigned none = 0;
        if (!atomic_compare_exchange_strong(&post->times, &none, BEING_LEFT)) continue;
        post->object = object, post->n = n;
        atomic_store(&post->times, 1);
        return true;
    }
    return false;
}

/* A release of permits, or of a count, which any thread may make, and a signal handler too. One that has
   interrupted its thread inside an object can't wait for that thread: it leaves a post. */
static COLD aqs_status_t leave_post(aqs_object_t *object, uint32_t n) {
    if (!joins_post(object, n) && !takes_free_post(object, n)) return AQS_OUT_OF_MEMORY;
    atomic_store(&self.has_posts, true);
    return AQS_OK;
}

SHORT aqs_status_t give(aqs_object_t *object, uint32_t n) {
    if (atomic_load_explicit(&self.is_inside, memory_order_relaxed)) return leave_post(object, n);
    int kept = errno; /* what a handler interrupts may be about to read it */
    aqs_status_t status = step(object, AQS_STEP_GIVE, AQS_MODE_SHARED, n, 0);
    errno = kept;
    return status;
}

/* Makes the releases of a post. A handler may add one at any instruction. */
static void make_post(post_t *post) {
    unsigned times;
    while ((times = atomic_load(&post->times)) > 0) {
        aqs_object_t *object = post->object;
        uint32_t n = post->n;
        if (!atomic_compare_exchange_strong(&post->times, &times, times - 1)) continue;
        aqs_or_abort(give(object, n), "a release by a signal handler");
    }
}

/* Makes what handlers have left, and what others leave meanwhile. */
static COLD void make_posts(void) {
    while (!atomic_load(&self.makes_posts) && atomic_load(&self.has_posts)) {
        atomic_store(&self.makes_posts, true);
        atomic_store(&self.has_posts, false);
        for (post_t *post = self.posts; post < self.posts + POSTS; post++) make_post(post);
        atomic_store(&self.makes_posts, false);
    }
}

/* Opening and closing ------------------------------------------------------------------------------------ */

enum { THREADS = AQS_THREADS, ENTRIES = 1024, LEAST_ENTRIES = 16 };

static const uint8_t core_policies[] = {AQS_CORE_NONFAIR, AQS_CORE_FAIR, AQS_CORE_STRICT};

/* The header of an object with these options, or a kind that no object has. */
static aqs_header_t header_of(uint8_t kind, int32_t number, const aqs_options_t *options) {
    bool refuses = options->when_full == AQS_REFUSE;
    bool is_known = (unsigned)options->policy <= AQS_STRICT && (unsigned)options->when_full <= AQS_REFUSE;
    return (aqs_header_t){
        .kind = is_known ? kind : UINT8_MAX,
        .number = number,
        .policy = is_known ? core_policies[options->policy] : UINT8_MAX,
        .seats = options->threads ? options->threads : THREADS,
        .conditions = options->conditions ? options->conditions : has_owner(kind) ? AQS_CONDITIONS : 0,
        .cap = options->history ? options->history : refuses ? UINT32_MAX : ENTRIES,
    };
}

/* A gate, and then the seats. */
static size_t memory_of_seats(size_t count) {
    size_t size = sizeof(gate_t) + count * sizeof(seat_t);
    return (size + _Alignof(gate_t) - 1) / _Alignof(gate_t) * _Alignof(gate_t);
}

static aqs_status_t open_seats(aqs_object_t *object, aqs_header_t header) {
    aqs_pass_t *passes = calloc(header.seats, sizeof(aqs_pass_t));
    gate_t *gate = aligned_alloc(_Alignof(gate_t), memory_of_seats(header.seats));
    seat_t *seats = (seat_t *)(gate + 1);
    uint8_t answer = AQS_FAULT_OUT_OF_MEMORY;
    if (passes && gate) answer = aqs_open(header, passes, header.seats);
    if (answer == 0) memset(gate, 0, memory_of_seats(header.seats));
    for (size_t i = 0; answer == 0 && i < header.seats; i++) seats[i].pass = passes[i];
    free(passes);
    if (answer != 0) {
        free(gate);
        return answer == AQS_FAULT_OUT_OF_MEMORY ? AQS_OUT_OF_MEMORY : AQS_OUT_OF_RANGE;
    }
    object->conditions_ = header.conditions;
    object->seats_ = seats;
    __atomic_store_n(&object->count_, header.seats, __ATOMIC_RELEASE);
    return AQS_OK;
}

/* Says which number of an opening is out of range. The proved library has said that one is. */
static COLD aqs_status_t unopened(uint8_t kind, const aqs_options_t *options) {
    int64_t policy = options->policy, when_full = options->when_full;
    if (policy < 0 || policy > AQS_STRICT) return aqs_out_of_range("policy", 0, AQS_STRICT, policy);
    if (when_full < 0 || when_full > AQS_REFUSE)
        return aqs_out_of_range("when_full", 0, AQS_REFUSE, when_full);
    if (options->threads > THREADS) return aqs_out_of_range("threads", 1, THREADS, options->threads);
    if (options->history && options->history < LEAST_ENTRIES)
        return aqs_out_of_range("history", LEAST_ENTRIES, UINT32_MAX, options->history);
    if (has_owner(kind)) return aqs_out_of_range("conditions", 1, AQS_CONDITIONS, options->conditions);
    return aqs_out_of_range("conditions", 0, 0, options->conditions);
}

/* Opens an object in memory that nobody uses. */
static aqs_status_t init_object(
    aqs_object_t *object, uint8_t kind, int32_t number, const aqs_options_t *options) {
    static const aqs_options_t defaults;
    pthread_once(&once, prepare);
    if (!object) return AQS_MISUSE;
    if (!options) options = &defaults;
    *object = (aqs_object_t){.number_ = number, .kind_ = kind, .policy_ = (uint8_t)options->policy};
    object->keeps_ = options->when_full == AQS_REFUSE;
    object->heeds_handlers_ = options->heeds_handlers;
    aqs_status_t status = open_seats(object, header_of(kind, number, options));
    object->mark_ = status == AQS_OK ? AQS_IS_OPEN_ : AQS_IS_CLOSED_;
    return status == AQS_OUT_OF_RANGE ? unopened(kind, options) : status;
}

/* Opens a static object, unless another thread just did. */
static aqs_status_t open_at_first_call(aqs_object_t *object) {
    static const aqs_options_t defaults;
    aqs_status_t status = AQS_OK;
    pthread_mutex_lock(&numbering);
    if (count_of_seats(object) == 0)
        status = open_seats(object, header_of(object->kind_, object->number_, &defaults));
    if (status == AQS_OK) __atomic_store_n(&object->mark_, AQS_OPENED_AT_FIRST_CALL_, __ATOMIC_RELAXED);
    pthread_mutex_unlock(&numbering);
    return status;
}

/* Afterwards the object is as it was before it was opened, if it opened at its first call. Else it stays
   closed. */
static void close_object(aqs_object_t *object) {
    for (size_t i = 0; i < object->count_; i++) {
        unsigned looks = 0;
        seat_t *seat = &object->seats_[i];
        while (atomic_load_explicit(&seat->taken, memory_order_acquire) & INSIDE) back_off(&looks);
        aqs_drop(&seat->pass);
    }
    tell_after(object);
    if (object->seats_) free(gate_of(object));
    object->seats_ = NULL;
    object->count_ = 0;
    memset(object->users_, 0, sizeof object->users_);
    object->mark_ = object->mark_ == AQS_IS_OPEN_ ? AQS_IS_CLOSED_ : AQS_IS_NEW_;
}

/* Opens an object of a type in memory of its own, and closes one. */
#define OPEN(place, kind, number, options)                                                          \
    do {                                                                                            \
        if (!(place)) return AQS_MISUSE;                                                            \
        if (!(*(place) = malloc(sizeof **(place)))) return AQS_OUT_OF_MEMORY;                       \
        aqs_status_t status_ = init_object(&(*(place))->object_, (kind), (number), (options));      \
        if (status_ != AQS_OK) {                                                                    \
            free(*(place));                                                                         \
            *(place) = NULL;                                                                        \
        } else {                                                                                    \
            (*(place))->object_.is_ours_ = true;                                                    \
        }                                                                                           \
        return status_;                                                                             \
    } while (0)
#define CLOSE(it)                               \
    do {                                        \
        if (!(it) || !is_usable(&(it)->object_)) return; \
        bool is_ours_ = (it)->object_.is_ours_; \
        close_object(&(it)->object_);           \
        if (is_ours_) free(it);                 \
    } while (0)

/* The object of one of the types, or NULL of NULL: it is the first and only field. */
#define OF(it) ((aqs_object_t *)(it))

/* The calls of aqs.h ------------------------------------------------------------------------------------- */

enum { X = AQS_MODE_EXCLUSIVE, S = AQS_MODE_SHARED };
enum { PLAIN = AQS_HOW_PLAIN, INTERRUPTIBLE = AQS_HOW_INTERRUPTIBLE, TIMED = AQS_HOW_TIMED };

aqs_status_t aqs_lock_open(aqs_lock_t **lock, const aqs_options_t *options) {
    OPEN(lock, AQS_KIND_LOCK, 0, options);
}
aqs_status_t aqs_lock_init(aqs_lock_t *lock, const aqs_options_t *options) {
    return init_object(OF(lock), AQS_KIND_LOCK, 0, options);
}
void aqs_lock_close(aqs_lock_t *lock) { CLOSE(lock); }
aqs_status_t aqs_lock_lock(aqs_lock_t *lock) { return acquire(OF(lock), X, 1, PLAIN, 0, 1); }
aqs_status_t aqs_lock_lock_interruptibly(aqs_lock_t *lock) {
    return acquire(OF(lock), X, 1, INTERRUPTIBLE, 0, 1);
}
aqs_status_t aqs_lock_timedlock(aqs_lock_t *lock, int64_t ms) {
    return acquire(OF(lock), X, 1, TIMED, ms, 1);
}
aqs_status_t aqs_lock_trylock(aqs_lock_t *lock) { return step(OF(lock), AQS_STEP_TRY, X, 1, 1); }
aqs_status_t aqs_lock_unlock(aqs_lock_t *lock) { return step(OF(lock), AQS_STEP_GIVE, X, 1, -1); }
aqs_status_t aqs_lock_wait(aqs_lock_t *lock, uint8_t condition) {
    return await(OF(lock), condition, PLAIN, 0);
}
aqs_status_t aqs_lock_wait_interruptibly(aqs_lock_t *lock, uint8_t condition) {
    return await(OF(lock), condition, INTERRUPTIBLE, 0);
}
aqs_status_t aqs_lock_timedwait(aqs_lock_t *lock, uint8_t condition, int64_t ms) {
    return await(OF(lock), condition, TIMED, ms);
}
aqs_status_t aqs_lock_signal(aqs_lock_t *lock, uint8_t condition) {
    return step(OF(lock), AQS_STEP_SIGNAL, condition, 0, 0);
}
aqs_status_t aqs_lock_signal_all(aqs_lock_t *lock, uint8_t condition) {
    return step(OF(lock), AQS_STEP_SIGNAL_ALL, condition, 0, 0);
}

aqs_status_t aqs_rwlock_open(aqs_rwlock_t **lock, const aqs_options_t *options) {
    OPEN(lock, AQS_KIND_READ_WRITE, 0, options);
}
aqs_status_t aqs_rwlock_init(aqs_rwlock_t *lock, const aqs_options_t *options) {
    return init_object(OF(lock), AQS_KIND_READ_WRITE, 0, options);
}
void aqs_rwlock_close(aqs_rwlock_t *lock) { CLOSE(lock); }
aqs_status_t aqs_rwlock_rdlock(aqs_rwlock_t *lock) {
    return acquire(OF(lock), S, 1, PLAIN, 0, ONE_SHARED);
}
aqs_status_t aqs_rwlock_rdlock_interruptibly(aqs_rwlock_t *lock) {
    return acquire(OF(lock), S, 1, INTERRUPTIBLE, 0, ONE_SHARED);
}
aqs_status_t aqs_rwlock_timedrdlock(aqs_rwlock_t *lock, int64_t ms) {
    return acquire(OF(lock), S, 1, TIMED, ms, ONE_SHARED);
}
aqs_status_t aqs_rwlock_tryrdlock(aqs_rwlock_t *lock) {
    return step(OF(lock), AQS_STEP_TRY, S, 1, ONE_SHARED);
}
aqs_status_t aqs_rwlock_rdunlock(aqs_rwlock_t *lock) {
    return step(OF(lock), AQS_STEP_GIVE, S, 1, -ONE_SHARED);
}
aqs_status_t aqs_rwlock_wrlock(aqs_rwlock_t *lock) { return acquire(OF(lock), X, 1, PLAIN, 0, 1); }
aqs_status_t aqs_rwlock_wrlock_interruptibly(aqs_rwlock_t *lock) {
    return acquire(OF(lock), X, 1, INTERRUPTIBLE, 0, 1);
}
aqs_status_t aqs_rwlock_timedwrlock(aqs_rwlock_t *lock, int64_t ms) {
    return acquire(OF(lock), X, 1, TIMED, ms, 1);
}
aqs_status_t aqs_rwlock_trywrlock(aqs_rwlock_t *lock) { return step(OF(lock), AQS_STEP_TRY, X, 1, 1); }
aqs_status_t aqs_rwlock_wrunlock(aqs_rwlock_t *lock) { return step(OF(lock), AQS_STEP_GIVE, X, 1, -1); }
aqs_status_t aqs_rwlock_wait(aqs_rwlock_t *lock, uint8_t condition) {
    return await(OF(lock), condition, PLAIN, 0);
}
aqs_status_t aqs_rwlock_wait_interruptibly(aqs_rwlock_t *lock, uint8_t condition) {
    return await(OF(lock), condition, INTERRUPTIBLE, 0);
}
aqs_status_t aqs_rwlock_timedwait(aqs_rwlock_t *lock, uint8_t condition, int64_t ms) {
    return await(OF(lock), condition, TIMED, ms);
}
aqs_status_t aqs_rwlock_signal(aqs_rwlock_t *lock, uint8_t condition) {
    return step(OF(lock), AQS_STEP_SIGNAL, condition, 0, 0);
}
aqs_status_t aqs_rwlock_signal_all(aqs_rwlock_t *lock, uint8_t condition) {
    return step(OF(lock), AQS_STEP_SIGNAL_ALL, condition, 0, 0);
}

aqs_status_t aqs_sem_open(aqs_sem_t **semaphore, int32_t permits, const aqs_options_t *options) {
    OPEN(semaphore, AQS_KIND_SEMAPHORE, permits, options);
}
aqs_status_t aqs_sem_init(aqs_sem_t *semaphore, int32_t permits, const aqs_options_t *options) {
    return init_object(OF(semaphore), AQS_KIND_SEMAPHORE, permits, options);
}
void aqs_sem_close(aqs_sem_t *semaphore) { CLOSE(semaphore); }
aqs_status_t aqs_sem_acquire(aqs_sem_t *semaphore, uint32_t n) {
    return acquire(OF(semaphore), S, n, PLAIN, 0, 0);
}
aqs_status_t aqs_sem_acquire_interruptibly(aqs_sem_t *semaphore, uint32_t n) {
    return acquire(OF(semaphore), S, n, INTERRUPTIBLE, 0, 0);
}
aqs_status_t aqs_sem_timedacquire(aqs_sem_t *semaphore, uint32_t n, int64_t ms) {
    return acquire(OF(semaphore), S, n, TIMED, ms, 0);
}
aqs_status_t aqs_sem_tryacquire(aqs_sem_t *semaphore, uint32_t n) {
    return step(OF(semaphore), AQS_STEP_TRY, S, n, 0);
}
aqs_status_t aqs_sem_release(aqs_sem_t *semaphore, uint32_t n) {
    return give(OF(semaphore), n);
}
aqs_status_t aqs_sem_drain(aqs_sem_t *semaphore, uint32_t *n) {
    return do_step(OF(semaphore), (aqs_step_t){.code = AQS_STEP_DRAIN}, 0, n);
}

/* Whether a latch may have this count. */
static bool is_count(uint32_t count) {
    return count <= INT32_MAX || aqs_out_of_range("count", 0, INT32_MAX, count) == AQS_OK;
}

aqs_status_t aqs_latch_open(aqs_latch_t **latch, uint32_t count, const aqs_options_t *options) {
    if (latch) *latch = NULL;
    if (!is_count(count)) return AQS_OUT_OF_RANGE;
    OPEN(latch, AQS_KIND_LATCH, (int32_t)count, options);
}
aqs_status_t aqs_latch_init(aqs_latch_t *latch, uint32_t count, const aqs_options_t *options) {
    if (latch) OF(latch)->mark_ = AQS_IS_CLOSED_;
    if (!is_count(count)) return AQS_OUT_OF_RANGE;
    return init_object(OF(latch), AQS_KIND_LATCH, (int32_t)count, options);
}
void aqs_latch_close(aqs_latch_t *latch) { CLOSE(latch); }
aqs_status_t aqs_latch_count_down(aqs_latch_t *latch) { return give(OF(latch), 1); }
aqs_status_t aqs_latch_await(aqs_latch_t *latch) { return acquire(OF(latch), S, 1, PLAIN, 0, 0); }
aqs_status_t aqs_latch_await_interruptibly(aqs_latch_t *latch) {
    return acquire(OF(latch), S, 1, INTERRUPTIBLE, 0, 0);
}
aqs_status_t aqs_latch_timedawait(aqs_latch_t *latch, int64_t ms) {
    return acquire(OF(latch), S, 1, TIMED, ms, 0);
}

/* Without statuses --------------------------------------------------------------------------------------- */

COLD void aqs_or_abort(aqs_status_t status, const char *call) {
    if (status == AQS_OK) return;
    fprintf(stderr, "%s: %s\n", call, aqs_status_name(status));
    abort();
}

/* A call, with what it takes, and with what it is given. */
#define OR_ABORT(call, takes, given)                     \
    void call##_or_abort takes {                         \
        aqs_status_t status_ = call given;               \
        if (status_ != AQS_OK) aqs_or_abort(status_, #call); \
    }

OR_ABORT(aqs_lock_lock, (aqs_lock_t *lock), (lock))
OR_ABORT(aqs_lock_unlock, (aqs_lock_t *lock), (lock))
OR_ABORT(aqs_lock_wait, (aqs_lock_t *lock, uint8_t condition), (lock, condition))
OR_ABORT(aqs_lock_signal, (aqs_lock_t *lock, uint8_t condition), (lock, condition))
OR_ABORT(aqs_lock_signal_all, (aqs_lock_t *lock, uint8_t condition), (lock, condition))
OR_ABORT(aqs_rwlock_rdlock, (aqs_rwlock_t *lock), (lock))
OR_ABORT(aqs_rwlock_rdunlock, (aqs_rwlock_t *lock), (lock))
OR_ABORT(aqs_rwlock_wrlock, (aqs_rwlock_t *lock), (lock))
OR_ABORT(aqs_rwlock_wrunlock, (aqs_rwlock_t *lock), (lock))
OR_ABORT(aqs_rwlock_wait, (aqs_rwlock_t *lock, uint8_t condition), (lock, condition))
OR_ABORT(aqs_rwlock_signal, (aqs_rwlock_t *lock, uint8_t condition), (lock, condition))
OR_ABORT(aqs_rwlock_signal_all, (aqs_rwlock_t *lock, uint8_t condition), (lock, condition))
OR_ABORT(aqs_sem_acquire, (aqs_sem_t *semaphore, uint32_t n), (semaphore, n))
OR_ABORT(aqs_sem_release, (aqs_sem_t *semaphore, uint32_t n), (semaphore, n))
OR_ABORT(aqs_latch_count_down, (aqs_latch_t *latch), (latch))
OR_ABORT(aqs_latch_await, (aqs_latch_t *latch), (latch))

/* Looks -------------------------------------------------------------------------------------------------- */

static aqs_status_t status_of_kind(uint8_t kind) {
    switch (kind) {
        case AQS_IS_ENTRY: return AQS_OK;
        case AQS_IS_FAULT: return AQS_OUT_OF_MEMORY;
        default: return AQS_MISUSE;
    }
}

aqs_status_t aqs_sem_getvalue(aqs_sem_t *semaphore, int64_t *permits) {
    aqs_object_t *object = OF(semaphore);
    aqs_status_t status = AQS_OK;
    seat_t *seat = come(object, NULL, false, &status);
    if (!seat) return status;
    uint8_t kind;
    unsigned looks = 0;
    while ((kind = aqs_available_now(&seat->pass, permits)) == AQS_IS_BUSY) back_off(&looks);
    depart(object, seat);
    return status_of_kind(kind);
}

aqs_status_t aqs_latch_getcount(aqs_latch_t *latch, uint32_t *count) {
    aqs_object_t *object = OF(latch);
    aqs_status_t status = AQS_OK;
    seat_t *seat = come(object, NULL, false, &status);
    if (!seat) return status;
    uint8_t kind;
    unsigned looks = 0;
    while ((kind = aqs_count_now(&seat->pass, count)) == AQS_IS_BUSY) back_off(&looks);
    depart(object, seat);
    return status_of_kind(kind);
}

/* Who has the object, and how many wait for it. */
static aqs_status_t look_at(aqs_object_t *object, aqs_contention_t *contention) {
    aqs_status_t status = AQS_OK;
    seat_t *seat = come(object, NULL, false, &status);
    if (!seat) return status;
    uint8_t kind;
    unsigned looks = 0;
    while ((kind = aqs_contention_now(&seat->pass, contention)) == AQS_IS_BUSY) back_off(&looks);
    depart(object, seat);
    return status_of_kind(kind);
}

static aqs_status_t is_held(aqs_object_t *object, aqs_bool_t *held) {
    aqs_contention_t contention = {.is_held = false};
    aqs_status_t status = look_at(object, &contention);
    if (status == AQS_OK) *held = contention.is_held;
    return status;
}

aqs_status_t aqs_lock_is_locked(aqs_lock_t *lock, aqs_bool_t *is_locked) {
    return is_held(OF(lock), is_locked);
}
aqs_status_t aqs_rwlock_is_write_locked(aqs_rwlock_t *lock, aqs_bool_t *is_locked) {
    return is_held(OF(lock), is_locked);
}

aqs_status_t aqs_object_queue_length(aqs_object_t *object, uint32_t *count) {
    aqs_contention_t contention = {.is_held = false};
    aqs_status_t status = look_at(object, &contention);
    if (status == AQS_OK) *count = contention.queue_length;
    return status;
}

aqs_status_t aqs_object_waiters(aqs_object_t *object, uint32_t *count) {
    aqs_contention_t contention = {.is_held = false};
    aqs_status_t status = look_at(object, &contention);
    if (status == AQS_OK) *count = (uint32_t)contention.waiting; /* at most one for each seat */
    return status;
}

/* Why the calling thread keeps its seat: its holds. They are counted here, by the answers of the proved
   library. */
static uint64_t stays_of_self(const aqs_object_t *object) {
    const seat_t *seat = own_seat(object);
    return seat ? seat->stays : 0;
}

uint32_t aqs_lock_holds(aqs_lock_t *lock) { return (uint32_t)stays_of_self(OF(lock)); }
aqs_bool_t aqs_lock_is_mine(aqs_lock_t *lock) { return aqs_lock_holds(lock) > 0; }
uint32_t aqs_rwlock_write_holds(aqs_rwlock_t *lock) { return (uint32_t)stays_of_self(OF(lock)); }
uint32_t aqs_rwlock_read_holds(aqs_rwlock_t *lock) {
    return (uint32_t)(stays_of_self(OF(lock)) % ONE_WAIT / ONE_SHARED);
}
aqs_bool_t aqs_rwlock_is_mine(aqs_rwlock_t *lock) { return aqs_rwlock_write_holds(lock) > 0; }

aqs_policy_t aqs_object_policy(const aqs_object_t *object) {
    return object ? (aqs_policy_t)object->policy_ : AQS_NONFAIR;
}

/* Numbers of conditions: `users_` says how many conditions as objects have each, or that the number was
   taken. */
enum { IS_TAKEN = UINT16_MAX };

aqs_status_t aqs_object_take_condition(aqs_object_t *object, uint8_t *number) {
    if (!is_usable(object)) return AQS_MISUSE;
    if (!has_owner(object->kind_)) return AQS_NO_SUCH_CONDITION;
    uint8_t count = count_of_seats(object) ? object->conditions_ : AQS_CONDITIONS;
    for (uint8_t i = 0; i < count; i++) {
        uint16_t nobody = 0;
        if (__atomic_compare_exchange_n(
                &object->users_[i], &nobody, IS_TAKEN, false, __ATOMIC_ACQUIRE, __ATOMIC_RELAXED)) {
            *number = i;
            return AQS_OK;
        }
    }
    return AQS_NO_SUCH_CONDITION;
}

void aqs_object_give_condition(aqs_object_t *object, uint8_t number) {
    uint16_t taken = IS_TAKEN;
    if (!is_usable(object) || number >= AQS_CONDITIONS) return;
    (void)__atomic_compare_exchange_n(
        &object->users_[number], &taken, 0, false, __ATOMIC_RELEASE, __ATOMIC_RELAXED);
}

/* Whether an address lies in a module that is loaded. */
static int is_in_module(struct dl_phdr_info *module, size_t size, void *given) {
    uintptr_t at = *(const uintptr_t *)given;
    (void)size;
    for (int i = 0; i < module->dlpi_phnum; i++) {
        const ElfW(Phdr) *part = &module->dlpi_phdr[i];
        uintptr_t begin = module->dlpi_addr + part->p_vaddr;
        if (part->p_type == PT_LOAD && at - begin < part->p_memsz) return 1;
    }
    return 0;
}

aqs_bool_t aqs_is_static(const void *it) {
    uintptr_t at = (uintptr_t)it;
    return dl_iterate_phdr(is_in_module, &at) != 0;
}

/* Histories ---------------------------------------------------------------------------------------------- */

aqs_object_t *aqs_lock_object(aqs_lock_t *lock) { return OF(lock); }
aqs_object_t *aqs_rwlock_object(aqs_rwlock_t *lock) { return OF(lock); }
aqs_object_t *aqs_sem_object(aqs_sem_t *semaphore) { return OF(semaphore); }
aqs_object_t *aqs_latch_object(aqs_latch_t *latch) { return OF(latch); }

aqs_status_t aqs_history_text(aqs_object_t *object, char *buffer, size_t size, size_t *length) {
    aqs_status_t status = AQS_OK;
    seat_t *seat = come(object, NULL, false, &status);
    if (!seat) return status;
    uint8_t nothing[1] = {0}, kind;
    uint8_t *out = size ? (uint8_t *)buffer : nothing;
    uint64_t long_ = 0;
    unsigned looks = 0;
    while ((kind = aqs_text_now(&seat->pass, out, size, &long_)) == AQS_IS_BUSY) back_off(&looks);
    depart(object, seat);
    status = status_of_kind(kind);
    if (status != AQS_OK) return status;
    *length = (size_t)long_;
    return long_ > size ? AQS_NO_SPACE : AQS_OK;
}

/* Other threads may lengthen the text between two tries. So each try has twice the spare room, until the room is
   twice the text. */
aqs_status_t aqs_history_write(aqs_object_t *object, FILE *file) {
    size_t size = 4096, length = 0;
    for (size_t share = 8;; share = share > 1 ? share / 2 : 1) {
        char *text = malloc(size);
        if (!text) return AQS_OUT_OF_MEMORY;
        aqs_status_t status = aqs_history_text(object, text, size, &length);
        if (status == AQS_OK && fwrite(text, 1, length, file) != length) status = AQS_IO_ERROR;
        free(text);
        if (status != AQS_NO_SPACE) return status;
        size = length + length / share;
    }
}

/* The name that the system has of a thread. Returns whether it has one: the thread may have ended. */
static bool reads_name(pid_t thread, char name[16]) {
    char path[64];
    snprintf(path, sizeof path, "/proc/self/task/%d/comm", (int)thread);
    int file = open(path, O_RDONLY | O_CLOEXEC);
    ssize_t length = file < 0 ? 0 : read(file, name, 15);
    if (file >= 0) (void)close(file);
    name[length > 0 ? length : 0] = 0;
    name[strcspn(name, "\n")] = 0;
    return length > 0;
}

/* The name of the thread of a place, or of the last one that ended. "" if nobody had it. A thread that ends as its
   name is read has left it at the place. */
static void put_name(const place_t *place, char name[16]) {
    for (pid_t thread = 0, before;;) {
        before = thread;
        pthread_mutex_lock(&numbering);
        memcpy(name, place->name, 16);
        thread = place->thread;
        pthread_mutex_unlock(&numbering);
        if (thread == 0 || reads_name(thread, name) || thread == before) return;
    }
}

/* A line of a seat: its number and a name, in which there is nothing but letters, digits and signs. */
static size_t put_line(char line[32], uint32_t seat, const place_t *place) {
    char name[16];
    put_name(place, name);
    if (!name[0]) return 0;
    for (char *at = name; *at; at++)
        if (*at <= ' ' || *at > '~') *at = '_';
    return (size_t)snprintf(line, 32, "%u %s\n", seat, name);
}

aqs_status_t aqs_history_names(aqs_object_t *object, char *buffer, size_t size, size_t *length) {
    char lines[THREADS][32];
    size_t lengths[THREADS], all = 0, count = 0;
    aqs_status_t status = AQS_OK;
    seat_t *seat = come(object, NULL, false, &status);
    if (!seat) return status;
    for (; count < count_of_seats(object); count++) {
        const place_t *place = atomic_load_explicit(&object->seats_[count].place, memory_order_relaxed);
        lengths[count] = place ? put_line(lines[count], (uint32_t)count, place) : 0;
        all += lengths[count];
    }
    depart(object, seat);
    *length = all;
    if (all > size) return AQS_NO_SPACE;
    for (size_t i = 0; i < count; i++) buffer = mempcpy(buffer, lines[i], lengths[i]);
    return AQS_OK;
}

static aqs_status_t write_names(aqs_object_t *object, FILE *file) {
    char text[THREADS * 32];
    size_t length;
    aqs_status_t status = aqs_history_names(object, text, sizeof text, &length);
    return status == AQS_OK && fwrite(text, 1, length, file) != length ? AQS_IO_ERROR : status;
}

static aqs_status_t
save(aqs_object_t *object, const char *path, aqs_status_t (*writes)(aqs_object_t *, FILE *)) {
    FILE *file = fopen(path, "w");
    if (!file) return AQS_IO_ERROR;
    aqs_status_t status = writes(object, file);
    return fclose(file) != 0 && status == AQS_OK ? AQS_IO_ERROR : status;
}

aqs_status_t aqs_history_save(aqs_object_t *object, const char *path) {
    if (!is_usable(object) || !path) return AQS_MISUSE;
    size_t size = strlen(path) + sizeof ".names";
    char *names = malloc(size);
    if (!names) return AQS_OUT_OF_MEMORY;
    snprintf(names, size, "%s.names", path);
    aqs_status_t status = save(object, path, aqs_history_write);
    if (status == AQS_OK) status = save(object, names, write_names);
    free(names);
    return status;
}

aqs_status_t aqs_history_trim(aqs_object_t *object, uint64_t *count) {
    aqs_status_t status = AQS_OK;
    seat_t *seat = come(object, NULL, false, &status);
    if (!seat) return status;
    uint64_t folded = 0;
    uint8_t kind = trim(seat, &folded);
    depart(object, seat);
    if (count && kind == AQS_IS_ENTRY) *count = folded;
    return kind == AQS_IS_FAULT ? AQS_HISTORY_FULL : status_of_kind(kind);
}
