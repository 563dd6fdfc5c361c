/* aqs.h: the synchronisers of java.util.concurrent for C and C++.

   A reentrant lock with conditions, a read-write lock, a semaphore and a latch. Who gets what, in which
   order, and what each call returns is decided by proved code (aqs_core.h). Parking and the clock are C, and
   not proved (aqs.c).

   Every call. Any thread may call any object, at the same time as others. A function returns AQS_OK, or a
   status that its comment names. Besides those, each may return
   - AQS_TOO_MANY_THREADS: all seats of the object are taken (see below);
   - AQS_MISUSE: the object is NULL, or closed, as long as its memory is there;
   - AQS_OUT_OF_MEMORY, or AQS_HISTORY_FULL if the history is full (see below). An unlock never returns
     either: its room is set aside when the lock is acquired.
   After a status other than AQS_OK nothing has changed, unless the comment says otherwise. So a thread that
   looks at no status may go on without the lock. GCC and Clang warn of that. Those who want no status use the
   calls that end in _or_abort. errno means nothing after a call, and may have changed.

   Memory. As with pthread: what a thread wrote before it unlocks, releases or counts down is seen by those
   that later acquire, or pass the latch.

   Threads. A thread needs no preparation, and a process may have any number of them. An object has a number
   of seats, AQS_THREADS by default. A thread has a seat of it during each call, and from its first hold of a
   lock to its last unlock. So as many threads as there are seats can hold the object or wait for it at a
   time. One more that asks to acquire waits for a seat first, and isn't in the history yet. It gets
   AQS_TOO_MANY_THREADS only if the threads of all seats wait on conditions. A call that never waits gets that
   at once: so open a lock for more threads than hold it to read or wait. The last seat of a semaphore or a
   latch that has two or more is kept for calls that don't wait, such as a release. A thread takes the seat
   that it had last, if that is free. In a history the number of a line is that of a seat: another thread may
   have it later. Destructors of thread-specific keys may make calls. A thread that ends while it owns a lock
   keeps its seat and its number for good, so that no later thread is taken for the owner. The lock stays
   owned, and has one seat less.

   What the caller owes, since nothing checks it:
   - A pointer to an object is NULL, or one that its open call gave, or points to an object that was
     initialised (see below), and stays where it is. No thread calls an object that is closed, or waits in a
     call of it. A call whose effect another thread has seen may still be on its way out: a close waits for
     that. So a thread may close a lock as soon as it was the last to unlock it, a latch as soon as it has
     passed it, and a semaphore as soon as it has the last permit.
   - No call is made from a signal handler, but for four (see below).
   - No thread is cancelled or killed in a call: the object would be busy for good.

   Times are in milliseconds from the call on, by CLOCK_MONOTONIC. A call may return later than that, but not
   earlier, not even by a part of a millisecond. With 0 it doesn't wait. A time below 0 is AQS_OUT_OF_RANGE.
   There is no number for "without end": use the call without a time.

   Forks. While a process forks, no thread changes an object. In the child the thread that forked is alone:
   what others held stays held, and those that waited stay in line. So there it may use what it held at the
   fork, which pthread_atfork serves for, and what nobody held, unless that is fair and somebody waited.

   Signals. A handler may call aqs_sem_release and aqs_latch_count_down, as sem_post: if the object was
   opened with AQS_TRIM and has had its first call, and the thread has called the library before. Then they
   ask for no memory, and errno is as it was. If the handler has interrupted a call of the library, its
   release may be made at the end of that call's turn: AQS_OK says only that it will be, and if it is refused
   then, the program ends. A thread can owe 2^32 - 2 equal releases (of one object, by one number), and releases of
   16 kinds. One more is AQS_OUT_OF_MEMORY. A handler may also call aqs_thread_self and aqs_thread_interrupt, if the
   thread has called the library before.

   Signals end no wait, unless an object is opened with heeds_handlers. Then a handler that runs while a
   thread sleeps in an interruptible or timed call ends the call: AQS_HANDLER_RAN, unless the thread has got
   what it asked for. It has left the queue, and owns the lock of a condition again. As with EINTR of sem_wait
   on Linux, a handler that was set with SA_RESTART ends timed calls alone, and one that runs just before the
   thread sleeps ends nothing. A handler that is to end the wait whenever it runs interrupts its own thread by
   aqs_thread_interrupt(aqs_thread_self()): AQS_INTERRUPTED, at any object.

   Tools. ThreadSanitizer sees the order that calls make, whatever the library was compiled with. So does
   helgrind, if its header was there when the library was built: its messages about the library itself are
   left out by the file helgrind.supp that is installed with it.

   History. Each object records its calls. The history is a text that the program `aqs` checks and draws
   (`aqs audit`, `aqs draw`). An object that is opened with AQS_TRIM forgets its entries when the history is
   full, and runs on until 1000000000000000 were forgotten. One that is opened with AQS_REFUSE keeps them. If no
   more may be forgotten or kept, new calls get AQS_HISTORY_FULL; calls that wait, and unlocks, still have room. */
#ifndef AQS_H
#define AQS_H

#include <stddef.h>
#include <stdint.h>
#include <stdio.h>

#ifdef __cplusplus
extern "C" {
#endif

/* Whether something is so. C programs may have names such as bool for themselves. */
#ifdef __cplusplus
typedef bool aqs_bool_t;
#else
typedef _Bool aqs_bool_t;
#endif

/* The most seats of an object: the most threads that can hold it, or wait for it, at a time. */
#define AQS_THREADS 256
/* The most conditions of a lock. */
#define AQS_CONDITIONS 16

/* What returns a status that has to be looked at. */
#if defined(__GNUC__)
#define AQS_CHECKED __attribute__((warn_unused_result))
#else
#define AQS_CHECKED
#endif

typedef enum {
    AQS_OK,
    AQS_TIMED_OUT,         /* the time was up */
    AQS_INTERRUPTED,       /* the thread was interrupted, before the call or while it waited */
    AQS_WOULD_BLOCK,       /* a try would have had to wait */
    AQS_NOT_OWNER,         /* the thread doesn't hold what it unlocks, or doesn't own the lock */
    AQS_TOO_MANY_HOLDS,    /* the thread, or all readers together, hold the lock as often as they may:
                              2147483647 times, or 65535 times on either side of a read-write lock */
    AQS_TOO_MANY_PERMITS,  /* a semaphore would have more than 2147483647 free permits */
    AQS_HOLDS_READ,        /* the thread waits on a condition while it holds the lock to read */
    AQS_NO_SUCH_CONDITION, /* the object was opened with fewer conditions */
    AQS_BAD_AMOUNT,        /* more than 2147483647 permits in one call */
    AQS_HISTORY_FULL,      /* the history is full and kept, or too small for all holds and waiters: each of
                              them keeps room for the entry that ends it */
    AQS_OUT_OF_MEMORY,
    AQS_OUT_OF_RANGE,      /* a number that the object can't be opened with, a time below 0, or a number that
                              no thread has had. aqs_last_error says which it was */
    AQS_TOO_MANY_THREADS,  /* as many threads as the object has seats hold it or wait for it */
    AQS_NO_SPACE,          /* the buffer is too small */
    AQS_IO_ERROR,          /* the file couldn't be written */
    AQS_MISUSE,            /* the object is NULL or closed, the thread is already in a call of it, a condition
                              is used with two locks, or memory was damaged */
    AQS_HANDLER_RAN        /* a signal handler ran while the thread waited. Each call that may return
                              AQS_INTERRUPTED may return this, if its object heeds handlers */
} aqs_status_t;

/* Returns the name of a status, as "AQS_OK", or "no status". It is never NULL and lasts for good. */
const char *aqs_status_name(aqs_status_t status);

/* Says of the last AQS_OUT_OF_RANGE of the calling thread which number it was, as "threads must be 1 to 256,
   not 257". It is "" if there was none, never NULL, and changes with the thread's next such status. */
const char *aqs_last_error(void);

/* Returns AQS_OUT_OF_RANGE, and has aqs_last_error say "NAME must be LEAST to MOST, not NUMBER". For a
   synchroniser of your own. */
AQS_CHECKED aqs_status_t aqs_out_of_range(const char *name, int64_t least, int64_t most, int64_t number);

/* Which new calls queue up while others wait. A call by the owner never does.
   - AQS_NONFAIR: none; a new call may take what is free before the waiters do. The fastest.
   - AQS_FAIR: all but `try` calls, which barge.
   - AQS_STRICT: all. A `try` returns AQS_WOULD_BLOCK if others wait. */
typedef enum { AQS_NONFAIR, AQS_FAIR, AQS_STRICT } aqs_policy_t;

/* What an object does when its history is full: forget its entries, or refuse new calls. */
typedef enum { AQS_TRIM, AQS_REFUSE } aqs_when_full_t;

/* How an object is opened. All bytes 0, or NULL in place of a pointer to it, are the defaults. */
typedef struct {
    aqs_policy_t policy;       /* default AQS_NONFAIR. A latch ignores it */
    aqs_when_full_t when_full; /* default AQS_TRIM */
    uint32_t history;          /* the most entries that are kept, at least 16. Default 1024 with AQS_TRIM, and
                                  4294967295 with AQS_REFUSE. Memory is taken as entries come, for 1,024 at a
                                  time: 8 bytes each. Each hold of a lock and each waiter keeps room for the
                                  entries that end it */
    uint16_t threads;          /* its seats: how many threads can hold it or wait for it at a time, 1 to
                                  AQS_THREADS. Default AQS_THREADS. Each takes memory */
    uint8_t conditions;        /* of a lock or a read-write lock, 1 to AQS_CONDITIONS. Default AQS_CONDITIONS.
                                  Else 0 */
    aqs_bool_t heeds_handlers; /* whether a signal handler ends waits (see above). By default it doesn't */
} aqs_options_t;

/* What an object is made of is its own, and may change with a version. It is written here so that an object
   may be static, or a part of another. */
typedef struct aqs_object {
    struct aqs_seat *seats_;
    int32_t number_;
    uint16_t count_;
    uint8_t kind_, conditions_, policy_;
    aqs_bool_t keeps_, heeds_handlers_, is_ours_;
    uint16_t users_[AQS_CONDITIONS];
    uint32_t mark_, seekers_, freed_;
} aqs_object_t;

/* What an object is, by its mark: bytes 0 before it is opened, if it opens at its first call. */
#define AQS_IS_NEW_ 0u
#define AQS_IS_OPEN_ 0x6e65706fu
#define AQS_OPENED_AT_FIRST_CALL_ 0x74617473u
#define AQS_IS_CLOSED_ 0x736f6c63u

typedef struct aqs_lock {
    aqs_object_t object_;
} aqs_lock_t;
typedef struct aqs_rwlock {
    aqs_object_t object_;
} aqs_rwlock_t;
typedef struct aqs_sem {
    aqs_object_t object_;
} aqs_sem_t;
typedef struct aqs_latch {
    aqs_object_t object_;
} aqs_latch_t;
typedef struct aqs_mutex {
    aqs_lock_t lock_;
} aqs_mutex_t;
typedef struct aqs_cond {
    aqs_lock_t *lock_;
    struct aqs_ticket *first_, *last_;
    uint32_t waiters_;
    uint8_t number_;
} aqs_cond_t;
typedef struct aqs_barrier aqs_barrier_t;

/* Static objects: aqs_lock_t lock = AQS_LOCK_INIT; Each opens at its first call, which returns
   AQS_OUT_OF_MEMORY if it can't, and the next call tries again. It has the default options. A lock and a
   mutex may also be set to bytes 0. A close frees what the object took, and it opens again at the next call.
   */
#define AQS_OBJECT_INIT_(kind, number) {NULL, number, 0, kind, 0, 0, 0, 0, 0, {0}, AQS_IS_NEW_, 0, 0}
#define AQS_LOCK_INIT {AQS_OBJECT_INIT_(0, 0)}
#define AQS_RWLOCK_INIT {AQS_OBJECT_INIT_(1, 0)}
#define AQS_SEM_INIT(permits) {AQS_OBJECT_INIT_(2, permits)}
#define AQS_LATCH_INIT(count) {AQS_OBJECT_INIT_(3, count)}
#define AQS_MUTEX_INIT {AQS_LOCK_INIT}
#define AQS_COND_INIT {NULL, NULL, NULL, 0, 0}

/* Threads ------------------------------------------------------------------------------------------------ */

/* The number of a thread, from 0, by which others interrupt it. It is used again after its thread has ended,
   unless that ended with holds. */
typedef uint32_t aqs_thread_t;
#define AQS_NO_THREAD UINT32_MAX

/* Returns the calling thread's number, or AQS_NO_THREAD if memory lacks, or in a signal handler that runs as its
   thread ends. */
aqs_thread_t aqs_thread_self(void);

/* Interrupts a thread. If it waits in an interruptible or timed call, or if not, in its next such call, it
   gets AQS_INTERRUPTED. Other calls are not disturbed, and leave the interrupt pending. The caller sees to
   it that the thread hasn't ended: its number may be another thread's by then. AQS_OUT_OF_RANGE: no thread
   has had so great a number. */
AQS_CHECKED aqs_status_t aqs_thread_interrupt(aqs_thread_t thread);

/* Returns whether the calling thread had a pending interrupt, and clears it. */
aqs_bool_t aqs_thread_interrupted(void);

/* A reentrant lock with conditions ----------------------------------------------------------------------- */

/* Opens a lock, and puts a pointer to it into *lock. NULL options are the defaults. After another status
   *lock is NULL. AQS_OUT_OF_RANGE: an option is out of its range. */
AQS_CHECKED aqs_status_t aqs_lock_open(aqs_lock_t **lock, const aqs_options_t *options);
/* Opens a lock in memory of the caller, which must not be moved. After another status it isn't open, and need
   not be closed. AQS_OUT_OF_RANGE. */
AQS_CHECKED aqs_status_t aqs_lock_init(aqs_lock_t *lock, const aqs_options_t *options);
/* Closes a lock and frees its memory, but for memory of the caller. Nobody should own it: a thread that does
   keeps its number for good. NULL does nothing, nor does a lock that is closed, as long as its memory is
   there. */
void aqs_lock_close(aqs_lock_t *lock);

/* Acquires the lock, and waits while another thread owns it. The owner acquires it once more at once, and has
   to unlock it as often. AQS_TOO_MANY_HOLDS. */
AQS_CHECKED aqs_status_t aqs_lock_lock(aqs_lock_t *lock);
/* The same, but an interrupt ends the wait. AQS_INTERRUPTED, AQS_TOO_MANY_HOLDS. */
AQS_CHECKED aqs_status_t aqs_lock_lock_interruptibly(aqs_lock_t *lock);
/* The same, for at most this time. With 0 it doesn't wait, but minds the queue of a fair lock, as trylock
   doesn't. AQS_TIMED_OUT, AQS_INTERRUPTED, AQS_TOO_MANY_HOLDS. */
AQS_CHECKED aqs_status_t aqs_lock_timedlock(aqs_lock_t *lock, int64_t milliseconds);
/* Acquires the lock if no other thread owns it, before those who wait, unless the policy is AQS_STRICT.
   AQS_WOULD_BLOCK, AQS_TOO_MANY_HOLDS. */
AQS_CHECKED aqs_status_t aqs_lock_trylock(aqs_lock_t *lock);
/* Gives one hold back. With the last one the lock is free, and the first waiter is woken. AQS_NOT_OWNER. */
AQS_CHECKED aqs_status_t aqs_lock_unlock(aqs_lock_t *lock);
/* Returns how often the calling thread holds the lock, and whether it owns it. They record nothing. */
uint32_t aqs_lock_holds(aqs_lock_t *lock);
aqs_bool_t aqs_lock_is_mine(aqs_lock_t *lock);
/* Puts into *is_locked whether any thread owns the lock. Another thread may change that before the caller
   reads it. It records nothing. */
AQS_CHECKED aqs_status_t aqs_lock_is_locked(aqs_lock_t *lock, aqs_bool_t *is_locked);

/* Conditions have numbers from 0. Their calls are for the owner, also signal, which pthread allows anyone.

   Gives up all holds, waits until another thread signals the condition, and returns with the same holds. It
   never returns without a signal. But what the caller waits for may have changed again by then, so the caller
   waits in a loop. AQS_NOT_OWNER, AQS_NO_SUCH_CONDITION. */
AQS_CHECKED aqs_status_t aqs_lock_wait(aqs_lock_t *lock, uint8_t condition);
/* The same, but an interrupt ends the wait. After any status the thread owns the lock as before.
   AQS_INTERRUPTED, AQS_NOT_OWNER, AQS_NO_SUCH_CONDITION. */
AQS_CHECKED aqs_status_t aqs_lock_wait_interruptibly(aqs_lock_t *lock, uint8_t condition);
/* The same, for at most this time, to which the wait to have the lock again is added. After any status the
   thread owns the lock as before. AQS_TIMED_OUT, AQS_INTERRUPTED, AQS_NOT_OWNER, AQS_NO_SUCH_CONDITION. */
AQS_CHECKED aqs_status_t aqs_lock_timedwait(aqs_lock_t *lock, uint8_t condition, int64_t milliseconds);
/* Moves the thread that has waited longest on the condition to the queue for the lock. If nobody waits there,
   nothing happens, and the signal isn't kept. AQS_NOT_OWNER, AQS_NO_SUCH_CONDITION. */
AQS_CHECKED aqs_status_t aqs_lock_signal(aqs_lock_t *lock, uint8_t condition);
/* Moves all of them, in order: pthread's broadcast. AQS_NOT_OWNER, AQS_NO_SUCH_CONDITION. */
AQS_CHECKED aqs_status_t aqs_lock_signal_all(aqs_lock_t *lock, uint8_t condition);

/* A read-write lock -------------------------------------------------------------------------------------- */

/* Many threads may read at a time, or one may write. Both sides are reentrant. A thread that writes may also
   read, and go on to read after it unlocks the write side. The caller owes that no thread that only reads
   asks to write: it would wait for itself.

   Opening and closing are those of a lock. */
AQS_CHECKED aqs_status_t aqs_rwlock_open(aqs_rwlock_t **lock, const aqs_options_t *options);
AQS_CHECKED aqs_status_t aqs_rwlock_init(aqs_rwlock_t *lock, const aqs_options_t *options);
void aqs_rwlock_close(aqs_rwlock_t *lock);

/* The read side: each call does and returns what that of a lock does. Even if the policy is AQS_NONFAIR, a
   new reader waits if the first waiter wants to write, unless it reads already or only tries. */
AQS_CHECKED aqs_status_t aqs_rwlock_rdlock(aqs_rwlock_t *lock);
AQS_CHECKED aqs_status_t aqs_rwlock_rdlock_interruptibly(aqs_rwlock_t *lock);
AQS_CHECKED aqs_status_t aqs_rwlock_timedrdlock(aqs_rwlock_t *lock, int64_t milliseconds);
AQS_CHECKED aqs_status_t aqs_rwlock_tryrdlock(aqs_rwlock_t *lock);
/* Gives one read hold of the calling thread back. AQS_NOT_OWNER. There is no call that unlocks either side.
   */
AQS_CHECKED aqs_status_t aqs_rwlock_rdunlock(aqs_rwlock_t *lock);

/* The write side: each call does and returns what that of a lock does. */
AQS_CHECKED aqs_status_t aqs_rwlock_wrlock(aqs_rwlock_t *lock);
AQS_CHECKED aqs_status_t aqs_rwlock_wrlock_interruptibly(aqs_rwlock_t *lock);
AQS_CHECKED aqs_status_t aqs_rwlock_timedwrlock(aqs_rwlock_t *lock, int64_t milliseconds);
AQS_CHECKED aqs_status_t aqs_rwlock_trywrlock(aqs_rwlock_t *lock);
AQS_CHECKED aqs_status_t aqs_rwlock_wrunlock(aqs_rwlock_t *lock);
/* Return how often the calling thread holds each side, and whether it has the write side. They record
   nothing. */
uint32_t aqs_rwlock_read_holds(aqs_rwlock_t *lock);
uint32_t aqs_rwlock_write_holds(aqs_rwlock_t *lock);
aqs_bool_t aqs_rwlock_is_mine(aqs_rwlock_t *lock);
/* Puts into *is_locked whether any thread has the write side, as aqs_lock_is_locked does of a lock. */
AQS_CHECKED aqs_status_t aqs_rwlock_is_write_locked(aqs_rwlock_t *lock, aqs_bool_t *is_locked);

/* Conditions of the write side, as those of a lock. A wait also returns AQS_HOLDS_READ, if the thread that
   writes also reads. */
AQS_CHECKED aqs_status_t aqs_rwlock_wait(aqs_rwlock_t *lock, uint8_t condition);
AQS_CHECKED aqs_status_t aqs_rwlock_wait_interruptibly(aqs_rwlock_t *lock, uint8_t condition);
AQS_CHECKED aqs_status_t aqs_rwlock_timedwait(aqs_rwlock_t *lock, uint8_t condition, int64_t milliseconds);
AQS_CHECKED aqs_status_t aqs_rwlock_signal(aqs_rwlock_t *lock, uint8_t condition);
AQS_CHECKED aqs_status_t aqs_rwlock_signal_all(aqs_rwlock_t *lock, uint8_t condition);

/* A semaphore -------------------------------------------------------------------------------------------- */

/* Opens a semaphore with this number of permits. It may be below 0: then as many releases come first. After
   another status *semaphore is NULL. AQS_OUT_OF_RANGE. */
AQS_CHECKED aqs_status_t aqs_sem_open(aqs_sem_t **semaphore, int32_t permits, const aqs_options_t *options);
/* Opens a semaphore in memory of the caller, as aqs_lock_init does. */
AQS_CHECKED aqs_status_t aqs_sem_init(aqs_sem_t *semaphore, int32_t permits, const aqs_options_t *options);
/* Closes a semaphore and frees its memory, but for memory of the caller. NULL does nothing. */
void aqs_sem_close(aqs_sem_t *semaphore);

/* Takes n permits at once, and waits until so many are free. AQS_BAD_AMOUNT. */
AQS_CHECKED aqs_status_t aqs_sem_acquire(aqs_sem_t *semaphore, uint32_t n);
/* The same, but an interrupt ends the wait. AQS_INTERRUPTED, AQS_BAD_AMOUNT. */
AQS_CHECKED aqs_status_t aqs_sem_acquire_interruptibly(aqs_sem_t *semaphore, uint32_t n);
/* The same, for at most this time. AQS_TIMED_OUT, AQS_INTERRUPTED, AQS_BAD_AMOUNT. */
AQS_CHECKED aqs_status_t aqs_sem_timedacquire(aqs_sem_t *semaphore, uint32_t n, int64_t milliseconds);
/* Takes n permits if so many are free. AQS_WOULD_BLOCK, AQS_BAD_AMOUNT. */
AQS_CHECKED aqs_status_t aqs_sem_tryacquire(aqs_sem_t *semaphore, uint32_t n);
/* Adds n permits. Any thread may release, whether it acquired or not. A release needs room in the history
   like any call. AQS_TOO_MANY_PERMITS, AQS_BAD_AMOUNT. */
AQS_CHECKED aqs_status_t aqs_sem_release(aqs_sem_t *semaphore, uint32_t n);
/* Takes all free permits, and puts their number into *n unless that is NULL. */
AQS_CHECKED aqs_status_t aqs_sem_drain(aqs_sem_t *semaphore, uint32_t *n);
/* Puts the number of free permits into *permits, below 0 if as many releases have to come first. Another
   thread may change it before the caller reads it. */
AQS_CHECKED aqs_status_t aqs_sem_getvalue(aqs_sem_t *semaphore, int64_t *permits);

/* A latch ------------------------------------------------------------------------------------------------ */

/* Opens a latch with a count. Threads wait until it is 0, and it never rises again. After another status
   *latch is NULL. AQS_OUT_OF_RANGE: an option, or a count above 2147483647. */
AQS_CHECKED aqs_status_t aqs_latch_open(aqs_latch_t **latch, uint32_t count, const aqs_options_t *options);
/* Opens a latch in memory of the caller, as aqs_lock_init does. */
AQS_CHECKED aqs_status_t aqs_latch_init(aqs_latch_t *latch, uint32_t count, const aqs_options_t *options);
/* Closes a latch and frees its memory, but for memory of the caller. NULL does nothing. */
void aqs_latch_close(aqs_latch_t *latch);

/* Lowers the count by one, and wakes all who wait if it is 0 then. At 0 it does nothing. */
AQS_CHECKED aqs_status_t aqs_latch_count_down(aqs_latch_t *latch);
/* Waits until the count is 0. */
AQS_CHECKED aqs_status_t aqs_latch_await(aqs_latch_t *latch);
/* The same, but an interrupt ends the wait. AQS_INTERRUPTED. */
AQS_CHECKED aqs_status_t aqs_latch_await_interruptibly(aqs_latch_t *latch);
/* The same, for at most this time. With 0 it only looks. AQS_TIMED_OUT, AQS_INTERRUPTED. */
AQS_CHECKED aqs_status_t aqs_latch_timedawait(aqs_latch_t *latch, int64_t milliseconds);
/* Puts the count into *count. Another thread may lower it before the caller reads it; 0 stays. */
AQS_CHECKED aqs_status_t aqs_latch_getcount(aqs_latch_t *latch, uint32_t *count);

/* A mutex ------------------------------------------------------------------------------------------------ */

/* A lock that isn't reentrant, made of one. Opening and closing are those of a lock. Each call does and
   returns what that of a lock does, but the owner can't lock it once more: then a try returns AQS_WOULD_BLOCK
   and the others AQS_TOO_MANY_HOLDS, and nothing is recorded. */
AQS_CHECKED aqs_status_t aqs_mutex_open(aqs_mutex_t **mutex, const aqs_options_t *options);
AQS_CHECKED aqs_status_t aqs_mutex_init(aqs_mutex_t *mutex, const aqs_options_t *options);
void aqs_mutex_close(aqs_mutex_t *mutex);
AQS_CHECKED aqs_status_t aqs_mutex_lock(aqs_mutex_t *mutex);
AQS_CHECKED aqs_status_t aqs_mutex_lock_interruptibly(aqs_mutex_t *mutex);
AQS_CHECKED aqs_status_t aqs_mutex_timedlock(aqs_mutex_t *mutex, int64_t milliseconds);
AQS_CHECKED aqs_status_t aqs_mutex_trylock(aqs_mutex_t *mutex);
AQS_CHECKED aqs_status_t aqs_mutex_unlock(aqs_mutex_t *mutex);
AQS_CHECKED aqs_status_t aqs_mutex_wait(aqs_mutex_t *mutex, uint8_t condition);
AQS_CHECKED aqs_status_t aqs_mutex_wait_interruptibly(aqs_mutex_t *mutex, uint8_t condition);
AQS_CHECKED aqs_status_t aqs_mutex_timedwait(aqs_mutex_t *mutex, uint8_t condition, int64_t milliseconds);
AQS_CHECKED aqs_status_t aqs_mutex_signal(aqs_mutex_t *mutex, uint8_t condition);
AQS_CHECKED aqs_status_t aqs_mutex_signal_all(aqs_mutex_t *mutex, uint8_t condition);
/* Return whether the calling thread owns the mutex, and whether any thread does. They record nothing. */
aqs_bool_t aqs_mutex_is_mine(aqs_mutex_t *mutex);
AQS_CHECKED aqs_status_t aqs_mutex_is_locked(aqs_mutex_t *mutex, aqs_bool_t *is_locked);

/* Returns the lock that the mutex is made of, for the calls of a condition. */
aqs_lock_t *aqs_mutex_as_lock(aqs_mutex_t *mutex);

/* A condition as an object ------------------------------------------------------------------------------- */

/* A condition that belongs to no lock until a thread waits: aqs_cond_t ready = AQS_COND_INIT; It needs no
   opening and no closing. While threads wait it has a number of their lock, and afterwards it may be used
   with another lock. Any number of them may be in use at a time. If those of a lock are more than the
   conditions that it was opened with, some share a number: a signal of one of these wakes all who wait by
   the number, and those for whom it wasn't wait again, after the others. They take the numbers of the lock
   from the highest down: use numbers of the same lock only below those.

   The caller owes that all who wait at a time wait with one lock, and that this lock lasts as long as calls
   of the condition.

   The waits do and return what those of the lock do. Besides, AQS_MISUSE: others wait with another lock. If a
   signal is for a thread whose time is up, or that is interrupted, and that doesn't own the lock again yet,
   its wait returns AQS_OK, and the interrupt stays pending. So it does after a signal handler, of which
   nothing stays. */
AQS_CHECKED aqs_status_t aqs_cond_wait(aqs_cond_t *condition, aqs_lock_t *lock);
AQS_CHECKED aqs_status_t aqs_cond_wait_interruptibly(aqs_cond_t *condition, aqs_lock_t *lock);
AQS_CHECKED aqs_status_t aqs_cond_timedwait(aqs_cond_t *condition, aqs_lock_t *lock, int64_t milliseconds);
/* Signal the condition, as those of a lock do. If nobody waits there, nothing happens, and nothing is
   recorded. Any thread may signal: one that doesn't own the lock acquires it for the signal. */
AQS_CHECKED aqs_status_t aqs_cond_signal(aqs_cond_t *condition);
AQS_CHECKED aqs_status_t aqs_cond_signal_all(aqs_cond_t *condition);

/* A barrier ---------------------------------------------------------------------------------------------- */

/* Opens a barrier for a number of threads, made of a lock with these options. After another status *barrier
   is NULL. AQS_OUT_OF_RANGE: an option, or fewer parties than 1 or more than the object has threads. */
AQS_CHECKED aqs_status_t
aqs_barrier_open(aqs_barrier_t **barrier, uint32_t parties, const aqs_options_t *options);
/* Closes a barrier and frees its memory. Threads that have passed it may still be on their way out. NULL does
   nothing. */
void aqs_barrier_close(aqs_barrier_t *barrier);

/* Waits until as many threads as the barrier has parties have come. All of them go on then, and the barrier
   is as new. Puts into *is_last, unless that is NULL, whether the thread was the last that came: one of them
   was. No interrupt ends it. */
AQS_CHECKED aqs_status_t aqs_barrier_wait(aqs_barrier_t *barrier, aqs_bool_t *is_last);

/* Any object --------------------------------------------------------------------------------------------- */

/* Return any object as such, for the calls below. It lasts as long as the object. */
aqs_object_t *aqs_lock_object(aqs_lock_t *lock);
aqs_object_t *aqs_rwlock_object(aqs_rwlock_t *lock);
aqs_object_t *aqs_sem_object(aqs_sem_t *semaphore);
aqs_object_t *aqs_latch_object(aqs_latch_t *latch);
aqs_object_t *aqs_mutex_object(aqs_mutex_t *mutex);
aqs_object_t *aqs_barrier_object(aqs_barrier_t *barrier);

/* Returns the policy that the object was opened with. */
aqs_policy_t aqs_object_policy(const aqs_object_t *object);

/* Puts the least number of a condition that nobody has taken into *number, and takes it.
   AQS_NO_SUCH_CONDITION: all are taken, or conditions as objects have them. Who gives his conditions their
   numbers himself doesn't use it with the same object. It records nothing. */
AQS_CHECKED aqs_status_t aqs_object_take_condition(aqs_object_t *object, uint8_t *number);
/* Gives a number back that was taken. Nobody waits on that condition any more. */
void aqs_object_give_condition(aqs_object_t *object, uint8_t number);

/* Returns whether something lies in static memory of the program or of a library that is loaded. */
aqs_bool_t aqs_is_static(const void *it);

/* Put into *count how many threads are in the object's queue: those that wait for the lock, for permits or for
   the latch; and how many wait in all: those in the queue, and those that wait on conditions. Others may come
   or leave before the caller reads it. They record nothing. */
AQS_CHECKED aqs_status_t aqs_object_queue_length(aqs_object_t *object, uint32_t *count);
AQS_CHECKED aqs_status_t aqs_object_waiters(aqs_object_t *object, uint32_t *count);

/* Histories ---------------------------------------------------------------------------------------------- */

/* Puts the text of the history since the last trim into a buffer of `size` bytes, with no 0 at its end, and
   its length into *length. AQS_NO_SPACE: it has *length bytes, and the buffer is as it was. By the next call
   it may be longer. `buffer` may be NULL if `size` is 0. */
AQS_CHECKED aqs_status_t aqs_history_text(aqs_object_t *object, char *buffer, size_t size, size_t *length);
/* Writes that text to a file, which the caller opened and closes. AQS_IO_ERROR: some of it may be written. */
AQS_CHECKED aqs_status_t aqs_history_write(aqs_object_t *object, FILE *file);
/* Puts the names of the seats into a buffer, as aqs_history_text does: for each seat a line with its number
   and the name that the system has of the thread which had it last, or of one that has got the number of that
   thread since. `aqs draw --names` reads them. A seat that no thread had is left out. */
AQS_CHECKED aqs_status_t aqs_history_names(aqs_object_t *object, char *buffer, size_t size, size_t *length);
/* Writes the history to a file of this path, and the names of its seats to a file PATH.names. AQS_IO_ERROR.
   */
AQS_CHECKED aqs_status_t aqs_history_save(aqs_object_t *object, const char *path);
/* Forgets the entries, and puts their number into *count unless that is NULL. Nothing else changes: who owns
   and who waits stays recorded as the state from which the history goes on. */
AQS_CHECKED aqs_status_t aqs_history_trim(aqs_object_t *object, uint64_t *count);

/* Without statuses --------------------------------------------------------------------------------------- */

/* Ends the program by abort, and says which call it was and what it returned, unless that is AQS_OK. */
void aqs_or_abort(aqs_status_t status, const char *call);

/* The calls without a time, for those who look at no status: each ends the program unless it returns AQS_OK.
   */
void aqs_lock_lock_or_abort(aqs_lock_t *lock);
void aqs_lock_unlock_or_abort(aqs_lock_t *lock);
void aqs_lock_wait_or_abort(aqs_lock_t *lock, uint8_t condition);
void aqs_lock_signal_or_abort(aqs_lock_t *lock, uint8_t condition);
void aqs_lock_signal_all_or_abort(aqs_lock_t *lock, uint8_t condition);
void aqs_rwlock_rdlock_or_abort(aqs_rwlock_t *lock);
void aqs_rwlock_rdunlock_or_abort(aqs_rwlock_t *lock);
void aqs_rwlock_wrlock_or_abort(aqs_rwlock_t *lock);
void aqs_rwlock_wrunlock_or_abort(aqs_rwlock_t *lock);
void aqs_rwlock_wait_or_abort(aqs_rwlock_t *lock, uint8_t condition);
void aqs_rwlock_signal_or_abort(aqs_rwlock_t *lock, uint8_t condition);
void aqs_rwlock_signal_all_or_abort(aqs_rwlock_t *lock, uint8_t condition);
void aqs_sem_acquire_or_abort(aqs_sem_t *semaphore, uint32_t n);
void aqs_sem_release_or_abort(aqs_sem_t *semaphore, uint32_t n);
void aqs_latch_count_down_or_abort(aqs_latch_t *latch);
void aqs_latch_await_or_abort(aqs_latch_t *latch);

#ifdef __cplusplus
}
#endif
#endif
