/* record.h: what the files of the recorder share. See docs/RECORD.md for what it is for.

   heap.c      memory of its own
   threads.c   the threads that use it: parking, forks, posts from signal handlers
   objects.c   objects over the proved core: seats, turns, growth, and the table of addresses
   times.c     how long threads waited and held, and who waits now
   text.c      the history of an object as one text
   write.c     files, the index, the helper thread
   report.c    the file of times: objects, the longest waits, who waits for whom
   calls.c     mutexes, read-write locks and semaphores under their pthread names
   conditions.c  condition variables under theirs */
#ifndef AQS_RECORD_H
#define AQS_RECORD_H

#ifndef _GNU_SOURCE
#define _GNU_SOURCE
#endif
#include "../c/aqs_core.h"

#include <pthread.h>
#include <sched.h>
#include <semaphore.h>
#include <stdatomic.h>
#include <stdbool.h>
#include <stdint.h>
#include <time.h>

#if !defined(__LP64__) || !defined(__GLIBC__)
#error "the recorder is for 64-bit GNU/Linux"
#endif

#define COLD __attribute__((noinline, cold))
#define SHOWN __attribute__((visibility("default")))
#define likely(fact) __builtin_expect(!!(fact), 1)
#define unlikely(fact) __builtin_expect(!!(fact), 0)

#pragma GCC visibility push(hidden)

static inline void relax(void) {
#if defined(__x86_64__)
    __builtin_ia32_pause();
#endif
}

/* Between two looks at something that is over soon, unless another thread needs this processor for it. */
static inline void look_again(unsigned looks) {
    if (looks < 100) relax();
    else sched_yield();
}

/* A lock for a few instructions. Its holder is in a turn or elsewhere in the recorder (`enter`). */
static inline void spin_lock(atomic_uint *lock) {
    for (unsigned looks = 0; atomic_exchange(lock, 1); looks++) look_again(looks);
}
static inline bool spin_try(atomic_uint *lock) { return !atomic_exchange(lock, 1); }
static inline void spin_unlock(atomic_uint *lock) { atomic_store(lock, 0); }

/* Memory ------------------------------------------------------------------------------------------------- */

void *heap_take(size_t size);
void *heap_take_zeroed(size_t size);
void *heap_resize(void *at, size_t size);
void heap_give(void *at);
size_t heap_in_use(void);
void heap_lock_for_fork(void);
void heap_unlock_for_fork(void);

/* Threads ------------------------------------------------------------------------------------------------ */

typedef struct object object_t;

enum { POSTED_SEMAPHORES = 16 };

/* Posts of signal handlers that found their thread busy. The thread makes them when it isn't busy any more. */
typedef struct {
    sem_t *volatile semaphore; /* means something if the count isn't 0 */
    atomic_uint count;
} posts_t;

/* What a thread waits for. `since` is 0 if it doesn't, and while the rest changes. */
typedef struct {
    _Atomic uint64_t since;
    uint32_t serial; /* of the object */
    uint8_t what;
    bool is_timed;
    void *place;
    struct thread *holder; /* who held the object then, if that is known, and its id */
    uint64_t holder_id;
} waiting_t;

enum { NAME_SIZE = 16, NESTED = 2 };

/* A thread that has made a call. Records are used again, and never freed: a late wake finds one.
   `in`: the object that the thread may be touching, or ELSEWHERE in the recorder, or NULL. */
typedef struct thread {
    _Alignas(64) _Atomic(object_t *) in;
    volatile uint32_t busy; /* above 0 while the thread is in the recorder, but doesn't park */
    uint32_t number;        /* from 0: the seat that it prefers */
    uint64_t id;            /* never used again */
    uint32_t displaced;     /* how many seats of read-write locks it has which it doesn't prefer */
    uint32_t parks;         /* how deep: a signal handler may park in a park */
    volatile uint32_t has_posts;
    volatile bool is_asleep; /* in a system call of the recorder's own */
    uint8_t locks;           /* how many it has made, the last bits, if holds are timed */
    volatile uint32_t depth; /* of waits: a signal handler may wait in a wait */
    uint32_t added;          /* to each of its holds now, in sixteenths of a nanosecond */
    uint32_t tid;            /* as the system counts */
    char name[NAME_SIZE];    /* as the system had it when it was last asked */
    waiting_t waiting[NESTED];
    posts_t posts[POSTED_SEMAPHORES];
    _Alignas(64) atomic_uint word; /* PERMIT and SLEEPS */
    atomic_uint is_live;
    struct thread *next;
} thread_t;

#define ELSEWHERE ((object_t *)1)

extern _Thread_local thread_t *self_ __attribute__((tls_model("initial-exec")));
thread_t *new_self(void);

static inline thread_t *self(void) {
    thread_t *me = self_;
    return likely(me != NULL) ? me : new_self();
}

/* The list of all records, newest first. */
thread_t *all_threads(void);

/* An object may be touched while its epoch is this. A fork that waits makes it odd, and each fork's child has
   another. */
extern _Atomic uint64_t epoch;
uint64_t epoch_of_now(void); /* the epoch that no fork disturbs */

void pause_a_little(void); /* at most a millisecond. It's no cancellation point */
void watch_threads(void);
void watch_forks(void);
void wait_for_fork(thread_t *me);
void forget_park(thread_t *me);
void run_posts(thread_t *me);

/* Marks the thread as being in the recorder, but in no object's turn. */
static inline void enter_elsewhere(thread_t *me) {
    me->busy++;
    for (;;) {
        atomic_exchange(&me->in, ELSEWHERE);
        if (likely(!(atomic_load(&epoch) & 1))) return;
        wait_for_fork(me);
    }
}

static inline void leave(thread_t *me) {
    atomic_store_explicit(&me->in, NULL, memory_order_release);
    if (likely(--me->busy == 0) && unlikely(me->has_posts)) run_posts(me);
}

/* When a wait ends by itself. `at` NULL: never. */
typedef struct {
    const struct timespec *at;
    clockid_t clock;
} deadline_t;

#define FOREVER ((deadline_t){NULL, CLOCK_MONOTONIC})

/* Whether a wait may have a deadline by this clock. */
static inline bool is_clock(clockid_t clock) { return clock == CLOCK_REALTIME || clock == CLOCK_MONOTONIC; }

/* A call that may wait: what for, until when, what else ends it, and where the program made it. */
typedef struct {
    uint8_t mode;
    bool waits; /* it had to */
    deadline_t deadline;
    unsigned ends;
    void *place;
    uint64_t since; /* when its first turn was over, if that didn't do */
} request_t;

enum { NO_END, ENDS_BY_SIGNAL = 1, ENDS_BY_CANCEL = 2 };
enum { WOKE = AQS_WOKE_PERMIT, TIMED_OUT = AQS_WOKE_DEADLINE, STOPPED = AQS_WOKE_INTERRUPT };

/* Parks the thread until its permit, the deadline, or a signal handler if `ends` says so. */
uint8_t park(thread_t *me, deadline_t deadline, unsigned ends);
/* Parks as an answer says: once a wait has lapsed, it ends by the lock alone. */
static inline uint8_t
park_as(thread_t *me, const aqs_answer_t *answer, deadline_t deadline, unsigned ends) {
    if (!answer->has_until) deadline.at = NULL;
    return park(me, deadline, answer->interruptible ? ends : 0);
}
/* Sleeps while the word is `read`: WOKE, also for nothing, or TIMED_OUT or STOPPED. */
uint8_t sleep_while(atomic_uint *word, unsigned read, deadline_t deadline, unsigned ends);
void wake_word(atomic_uint *word, int most);
void unpark(thread_t *thread);
bool is_deadline(const struct timespec *at);
uint64_t nanoseconds(void);

/* Objects ------------------------------------------------------------------------------------------------ */

typedef struct place place_t;
typedef struct condition condition_t;

enum { MUTEX, RWLOCK, SEMAPHORE, KINDS };
enum { NORMAL, RECURSIVE, ERRORCHECK, PREFERS_WRITERS };
enum { IDLE, QUEUED, SLEEPING };
enum { MOST_CONDITIONS = 16, ALL = 1 << 30 };

/* A seat of an object, and the thread that has it: as long as it holds, or waits. */
typedef struct {
    aqs_pass_t pass;
    _Atomic uint64_t user; /* the id of its thread, or 0 */
    thread_t *thread;
    uint64_t order; /* of sleepers: who came first */
    uint64_t since; /* when its hold began, in ticks, if holds are timed */
    uint32_t holds, reads;
    uint8_t state, condition, how;
} seat_t;

enum { BUCKETS = 40 };

/* How long waits or holds were. Bucket N has those of 2^N nanoseconds and more, but less than twice as long. */
typedef struct {
    _Atomic uint64_t sum, longest;
    _Atomic uint64_t buckets[BUCKETS];
} times_t;

/* An object of the proved core. The last seat is the recorder's own. */
typedef struct {
    uint16_t count;
    uint8_t level;
    uint32_t entries, enough, most;  /* about how many it has, how many are enough, and too many */
    uint32_t replayed, replayed_ends; /* entries at its beginning that tell the state of the core before it */
    seat_t seats[];
} core_t;

typedef struct {
    char *at;
    size_t size, room;
} bytes_t;

/* A history, its lines without their numbers. */
typedef struct {
    bool is_there, has_permits;
    char object[40];
    uint32_t seats, conditions, base_seats;
    int64_t permits;
    uint64_t cap, first, count, ends;
    uint64_t all; /* its entries, and those that were left out when a base came */
    bytes_t base, lines;
} history_t;

struct object {
    _Alignas(64) _Atomic uint64_t epoch; /* that of now, if it may be touched */
    core_t *core;
    _Atomic uint64_t owner; /* the id of the thread that owns the mutex, or writes */
    uint16_t owner_seat;
    uint8_t kind, type;
    bool is_dead;
    atomic_uint pending; /* conditions with signals that the next unlock makes */
    atomic_uint kicks;   /* odd: the recorder's own seat holds the mutex, or tries to */
    atomic_uint outside; /* threads that wait for a seat */
    atomic_uint seat_event;
    atomic_uint lock; /* of what follows. A thread in the object tries it, and never waits for it */
    uint8_t wanted; /* the level that it should grow to */
    uint32_t serial, moved, sleepers; /* moved: signalled, and not back yet */
    core_t *before; /* what `core` replaced, with its entries */
    history_t archive; /* still older entries */
    uint64_t born; /* the epoch of its history */
    uint64_t order, dropped; /* dropped: entries that were folded and forgotten */
    int64_t permits; /* with which the core of a semaphore is opened */
    _Atomic uint64_t calls;   /* that got it, if they are counted */
    _Atomic uint64_t threads; /* that got it, a bit for each number. The last is for all others */
    _Atomic uint64_t waits, sleeps, slept;
    times_t *_Atomic wait_times, *_Atomic hold_times;
    uint64_t entries, kept; /* all, and how many of them the last text has */
    uint64_t written_entries;
    uint32_t seen_entries;
    void *address;
    place_t *place;
    object_t *next; /* in the table, or among the dead */
    atomic_uint *signals; /* one for each condition, from level 0 on */
    condition_t **conditions;
};

/* What a pthread object of ours begins with, in bytes that glibc's would use. */
typedef struct {
    void *_Atomic object;
    _Atomic uint64_t mark;
} tag_t;

#define MARK UINT64_C(0x6171732d72656364)
static inline uint64_t mark_of(const void *address) { return MARK ^ (uint64_t)(uintptr_t)address; }

/* The recorder's object of a pthread object, or NULL if it has none yet. */
static inline void *tagged(tag_t *tag, const void *address) {
    if (unlikely(atomic_load_explicit(&tag->mark, memory_order_acquire) != mark_of(address))) return NULL;
    return atomic_load_explicit(&tag->object, memory_order_relaxed);
}

extern bool is_recording;
extern uint32_t keep; /* AQS_KEEP */

object_t *open_object(
    tag_t *tag, void *address, uint8_t kind, uint8_t type, int64_t permits, void *place, bool is_new);
bool close_object(thread_t *me, tag_t *tag, object_t *object);
void enter_slowly(thread_t *me, object_t *object);

/* Begins a piece of turns on an object: until `leave` it can't be freed, grow or be forked. */
static inline void enter(thread_t *me, object_t *object) {
    me->busy++;
    atomic_exchange(&me->in, object);
    if (unlikely(atomic_load(&object->epoch) != atomic_load(&epoch))) enter_slowly(me, object);
}

seat_t *claim_other(object_t *object, thread_t *me);
void wake_outside(object_t *object, bool many);

static inline uint16_t usable(const core_t *core) { return core->count - 1; }

/* A seat that nobody has, if possible the one of the thread's number. NULL: there is none. */
static inline seat_t *claim(object_t *object, thread_t *me) {
    core_t *core = object->core;
    uint32_t want = me->number < usable(core) ? me->number : me->number % usable(core);
    seat_t *seat = &core->seats[want];
    uint64_t nobody = 0;
    if (unlikely(object->wanted)) return claim_other(object, me);
    bool is_free = atomic_compare_exchange_strong(&seat->user, &nobody, me->id);
    if (unlikely(!is_free)) return claim_other(object, me);
    seat->thread = me;
    return seat;
}

/* Gives a seat back. The thread is in the object. */
static inline void unclaim(object_t *object, seat_t *seat) {
    atomic_exchange(&seat->user, 0);
    if (unlikely(atomic_load(&object->outside))) wake_outside(object, false);
}

seat_t *claim_own(object_t *object, thread_t *me); /* the recorder's own seat */
seat_t *claim_or_wait(object_t *object, thread_t *me, request_t *request, uint8_t *woke);

/* Turns. Each is made in an object. */
void end_step(object_t *object, uint16_t seat, aqs_step_t step, aqs_answer_t *answer);
void end_begin(object_t *object, uint16_t seat, const aqs_call_t *call, aqs_answer_t *answer);
void next_turn(object_t *object, uint16_t seat, uint8_t woke, aqs_answer_t *answer);
void settle(object_t *object, const aqs_answer_t *answer);
bool grow(object_t *object, thread_t *me, uint8_t level);
void fold_if_full(object_t *object, thread_t *me);
bool begin_alone(object_t *object, thread_t *me);
void wait_to_be_alone(object_t *object, thread_t *me);
void end_alone(object_t *object);
uint8_t conditions_at(const object_t *object);
uint64_t entries_of(const object_t *object); /* about how many it has made */

/* After a turn: does what the object needs now and then. */
static inline void tend(object_t *object, thread_t *me) {
    if (unlikely(object->core->entries >= object->core->enough || object->wanted)) fold_if_full(object, me);
}

/* Whether a turn did what it was asked for. */
static inline bool is_success(const aqs_answer_t *answer) {
    return answer->kind == AQS_IS_ENTRY && answer->word != AQS_WORD_MISSED && answer->word != AQS_WORD_REFUSED;
}

/* Whether it did, and leaves nothing else to do. */
static inline bool is_done(const aqs_answer_t *answer) { return is_success(answer) && !answer->has_wakes; }

static inline uint16_t index_of(const object_t *object, const seat_t *seat) {
    return (uint16_t)(seat - object->core->seats);
}

/* Times -------------------------------------------------------------------------------------------------- */

extern bool is_timed; /* AQS_TIMES: holds are timed too, and calls are counted */

extern bool has_ticks; /* if holds are timed */
extern uint64_t tick; /* in 2^-32 nanoseconds */
extern uint32_t added_to_hold; /* in nanoseconds, by the clock and the recorder: the least at the start */

enum { SLEEP = 2 }; /* what a thread waits for, beside AQS_MODE_EXCLUSIVE and AQS_MODE_SHARED */
enum { LONGEST = 10 };

/* A thread as it is told. */
typedef struct {
    uint32_t number, tid;
    char name[NAME_SIZE];
} person_t;

/* A wait that is over, or one that isn't yet. */
typedef struct {
    uint64_t took, since, id;
    uint32_t serial;
    uint8_t what;
    bool is_timed, has_holder;
    void *place;
    person_t thread, holder;
} wait_of_t;

/* A thread that holds an object for which one waits. */
typedef struct {
    uint64_t id;
    uint32_t serial;
    uint8_t mode;
    bool is_gone; /* it has ended, or was left behind by a fork */
    person_t thread;
} holder_t;

/* How many, how long together, and the longest. */
typedef struct {
    uint64_t count, sum, longest;
} sum_t;

/* What the index and the times say of an object. */
typedef struct {
    uint64_t entries, kept, calls, threads, sleeps, slept;
    sum_t waits, holds;
    void *address, *place;
    uint64_t gone; /* above 0: so many objects of this place that are gone */
    uint32_t serial;
    uint8_t kind;
} line_t;

/* The thread is in the object. */
void begin_wait(thread_t *me, object_t *object, request_t *request);
void end_wait(thread_t *me, object_t *object);
void end_sleep(thread_t *me, object_t *object);
COLD void count_one_call(object_t *object, const thread_t *me);
COLD void end_hold(object_t *object, seat_t *seat, uint64_t end);
uint64_t two_holds_of_nothing(void);
COLD void time_nothing(thread_t *me);
void begin_timing(void);
void forget_times(object_t *object);
void forget_waits(void);
bool waits_now(bytes_t *waits);
void add_times(const object_t *object, const bytes_t *waits, line_t *line, bytes_t *buckets);
void add_holders(const object_t *object, const bytes_t *waits, bytes_t *holders);
bool still_waits(const wait_of_t *wait);
void copy_longest(wait_of_t *longest);
void name_threads(void);
person_t person_of(const thread_t *thread);

/* Before a call that begins a hold. */
static inline void look_at_clock(thread_t *me) {
    if (unlikely(is_timed) && unlikely(me->locks++ % 128 == 0)) time_nothing(me);
}

/* Counts a call that got the object, and begins a hold, if that is asked for. */
static inline void count_call(object_t *object, const thread_t *me) {
    if (unlikely(is_timed)) count_one_call(object, me);
}

/* What holds are timed by: the processor's own clock, if the system trusts it. No memory is read for it. */
static inline uint64_t ticks(void) {
#ifdef __x86_64__
    if (likely(has_ticks)) {
        __builtin_ia32_lfence();
        return __builtin_ia32_rdtsc();
    }
#endif
    return nanoseconds();
}
static inline uint64_t in_nanoseconds(uint64_t count) { return (uint64_t)((unsigned __int128)count * tick >> 32); }

/* The time, if holds are timed. Whoever unlocks reads it first of all: before it looks at the object, of which another
   processor may have the memory. */
static inline uint64_t time_of_end(void) { return likely(has_ticks) || is_timed ? ticks() : 0; }

static inline void begin_hold(seat_t *seat) {
    if (likely(has_ticks) || is_timed) seat->since = ticks();
}

/* Conditions --------------------------------------------------------------------------------------------- */

void flush(object_t *object, uint16_t seat);
void kick(object_t *object, thread_t *me);
void unbind_all(object_t *object);

/* Mutexes, for conditions.c */
object_t *object_of_mutex(pthread_mutex_t *mutex, void *place);
void lock_again(object_t *object, uint32_t holds, void *place);
uint32_t unlock_whole(object_t *object, thread_t *me);

/* Texts and files ---------------------------------------------------------------------------------------- */

bool append(bytes_t *bytes, const char *text, size_t size);
bool core_text(core_t *core, seat_t *seat, bytes_t *text);
bool add_text(history_t *history, const bytes_t *text, uint32_t replayed, uint32_t replayed_ends);
void forget_history(history_t *history);
void free_history(history_t *history);
bool compose(object_t *object, thread_t *me, bytes_t *text);
bool add_to_archive(object_t *object, const bytes_t *text, uint32_t replayed, uint32_t replayed_ends);

typedef struct {
    uint64_t objects;
    line_t gone; /* those that have no file */
    uint32_t saved;
} sums_t;

/* What is written of one look at all objects. */
typedef struct {
    bytes_t lines;   /* of the index, each a line_t */
    bytes_t waits;   /* that aren't over, each a wait_of_t */
    bytes_t holders; /* of what is waited for, each a holder_t */
    bytes_t buckets; /* text */
    bool is_changed;
    bytes_t text, names; /* of the object that was looked at last, if it changed */
    line_t line;
} writing_t;

struct place {
    void *address;
    uint8_t kind;
    sums_t sums; /* of objects that are gone and have no file */
    place_t *next;
};

extern object_t *dead_objects; /* closed, and not written yet. Under the table's lock */
extern atomic_uint only_counted; /* objects that are gone and have no file */
void for_each_place(void (*visit)(place_t *, void *), void *with);
void for_each_object(
    thread_t *me, bool (*look)(thread_t *, object_t *, void *), void (*then)(void *), void *with);
void lock_table(thread_t *me);
void unlock_table(thread_t *me);
void free_object(object_t *object);
void forget_files(void);
void forget_objects(void);
void write_times(writing_t *writing);
void sort_lines(line_t *lines, size_t count, bool (*comes_before)(const line_t *, const line_t *));
bool names_of(object_t *object, bytes_t *names);
bool say(bytes_t *out, const char *form, ...);
bool write_file(const char *name, const bytes_t *text);
void name_file(const line_t *line, char *name, size_t room);
void name_place(void *place, char *module, char *function, size_t room);
extern const char *const kind_names[KINDS];
enum { NAME_ROOM = 600 };
bool is_write_asked(void);
bool takes_ask(void);
void become_helper(void);
void main_leaves(void);
void write_all(thread_t *me);
void write_before_wait(thread_t *me);

/* What stays glibc's, and how many of which. */
enum {
    LEFT_ROBUST, LEFT_SHARED, LEFT_PRIORITY, LEFT_NAMED, LEFT_BARRIER, LEFT_SPIN, LEFT_C11, LEFT_KINDS
};
extern atomic_uint left_out[LEFT_KINDS];

/* Calls glibc's function of a name that the recorder has too. */
void *real_function(const char *name);
#define REAL(name, ...)                                                   \
    ({                                                                    \
        static __typeof__(&name) real_;                                   \
        if (!real_) real_ = (__typeof__(&name))real_function(#name);      \
        real_(__VA_ARGS__);                                               \
    })

/* Where the program called. */
#define HERE __builtin_return_address(0)

#pragma GCC visibility pop
#endif
