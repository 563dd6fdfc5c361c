/* aqs_over.c: a mutex, conditions and a barrier over the lock of aqs.h, by its calls alone. No proof covers
   this file. */
#include "aqs.h"

#include <sched.h>
#include <stdatomic.h>
#include <stdbool.h>
#include <stdlib.h>
#include <time.h>

/* A mutex ------------------------------------------------------------------------------------------------ */

/* A mutex is a lock, and asks that first whether the thread owns it already. */

/* Both begin at one address, and are freed by the lock's close. */
_Static_assert(sizeof(aqs_mutex_t) == sizeof(aqs_lock_t), "a mutex is a lock");

static aqs_lock_t *as_lock(aqs_mutex_t *mutex) { return (aqs_lock_t *)mutex; }

/* Why a thread that doesn't own a lock can't use it. */
static aqs_status_t not_owned(const aqs_lock_t *lock) {
    return lock && lock->object_.mark_ != AQS_IS_CLOSED_ ? AQS_NOT_OWNER : AQS_MISUSE;
}

aqs_status_t aqs_mutex_open(aqs_mutex_t **mutex, const aqs_options_t *options) {
    aqs_lock_t *lock;
    if (!mutex) return AQS_MISUSE;
    aqs_status_t status = aqs_lock_open(&lock, options);
    *mutex = (aqs_mutex_t *)lock;
    return status;
}

aqs_status_t aqs_mutex_init(aqs_mutex_t *mutex, const aqs_options_t *options) {
    return aqs_lock_init(as_lock(mutex), options);
}

void aqs_mutex_close(aqs_mutex_t *mutex) { aqs_lock_close((aqs_lock_t *)mutex); }

aqs_object_t *aqs_mutex_object(aqs_mutex_t *mutex) { return aqs_lock_object(as_lock(mutex)); }

aqs_bool_t aqs_mutex_is_mine(aqs_mutex_t *mutex) { return aqs_lock_is_mine(as_lock(mutex)); }

aqs_status_t aqs_mutex_is_locked(aqs_mutex_t *mutex, aqs_bool_t *is_locked) {
    return aqs_lock_is_locked(as_lock(mutex), is_locked);
}

aqs_status_t aqs_mutex_lock(aqs_mutex_t *mutex) {
    return aqs_mutex_is_mine(mutex) ? AQS_TOO_MANY_HOLDS : aqs_lock_lock(as_lock(mutex));
}

aqs_status_t aqs_mutex_lock_interruptibly(aqs_mutex_t *mutex) {
    if (aqs_mutex_is_mine(mutex)) return AQS_TOO_MANY_HOLDS;
    return aqs_lock_lock_interruptibly(as_lock(mutex));
}

aqs_status_t aqs_mutex_timedlock(aqs_mutex_t *mutex, int64_t milliseconds) {
    if (aqs_mutex_is_mine(mutex)) return AQS_TOO_MANY_HOLDS;
    return aqs_lock_timedlock(as_lock(mutex), milliseconds);
}

aqs_status_t aqs_mutex_trylock(aqs_mutex_t *mutex) {
    return aqs_mutex_is_mine(mutex) ? AQS_WOULD_BLOCK : aqs_lock_trylock(as_lock(mutex));
}

aqs_status_t aqs_mutex_unlock(aqs_mutex_t *mutex) {
    return aqs_mutex_is_mine(mutex) ? aqs_lock_unlock(as_lock(mutex)) : not_owned(as_lock(mutex));
}

aqs_status_t aqs_mutex_wait(aqs_mutex_t *mutex, uint8_t condition) {
    return aqs_mutex_is_mine(mutex) ? aqs_lock_wait(as_lock(mutex), condition) : not_owned(as_lock(mutex));
}

aqs_status_t aqs_mutex_wait_interruptibly(aqs_mutex_t *mutex, uint8_t condition) {
    if (!aqs_mutex_is_mine(mutex)) return not_owned(as_lock(mutex));
    return aqs_lock_wait_interruptibly(as_lock(mutex), condition);
}

aqs_status_t aqs_mutex_timedwait(aqs_mutex_t *mutex, uint8_t condition, int64_t milliseconds) {
    if (!aqs_mutex_is_mine(mutex)) return not_owned(as_lock(mutex));
    return aqs_lock_timedwait(as_lock(mutex), condition, milliseconds);
}

aqs_status_t aqs_mutex_signal(aqs_mutex_t *mutex, uint8_t condition) {
    return aqs_lock_signal(as_lock(mutex), condition);
}

aqs_status_t aqs_mutex_signal_all(aqs_mutex_t *mutex, uint8_t condition) {
    return aqs_lock_signal_all(as_lock(mutex), condition);
}

aqs_lock_t *aqs_mutex_as_lock(aqs_mutex_t *mutex) { return as_lock(mutex); }

/* A condition as an object ------------------------------------------------------------------------------- */

/* `lock_` is the lock with which threads wait, or NULL. The rest of a condition, and `users_` of the lock,
   which says how many conditions have each of its numbers, are read and changed by the owner of that lock.

   Each wait has a ticket, and a signal marks the tickets that it is for. The tickets that no signal is for
   have the order of the lock's own queue of the number. If a number has several conditions, a signal wakes
   all who wait by it. Those whose tickets have no mark wait again, after the others. */
typedef struct aqs_ticket {
    struct aqs_ticket *next;
    bool is_marked;
} ticket_t;

static aqs_lock_t *lock_of(const aqs_cond_t *condition) {
    return __atomic_load_n(&condition->lock_, __ATOMIC_RELAXED);
}

static void append(aqs_cond_t *condition, ticket_t *ticket) {
    *ticket = (ticket_t){NULL, false};
    if (condition->last_) condition->last_->next = ticket;
    else condition->first_ = ticket;
    condition->last_ = ticket;
}

static void take_out(aqs_cond_t *condition, const ticket_t *ticket) {
    ticket_t *before = NULL, *it = condition->first_;
    for (; it != ticket; it = it->next) before = it;
    if (before) before->next = it->next;
    else condition->first_ = it->next;
    if (condition->last_ == it) condition->last_ = before;
}

static void move_to_the_end(aqs_cond_t *condition, ticket_t *ticket) {
    take_out(condition, ticket);
    append(condition, ticket);
}

static uint16_t users_of(const aqs_object_t *object, uint8_t number) {
    return __atomic_load_n(&object->users_[number], __ATOMIC_RELAXED);
}

/* Takes the number that the fewest conditions have, the highest of those, for one more. False: all were taken
   for good. Another thread may take a number meanwhile that nobody has. */
static bool takes_number(aqs_object_t *object, uint8_t *number) {
    for (;;) {
        uint8_t best = (uint8_t)(object->conditions_ - 1);
        for (uint8_t other = best; other-- > 0;) {
            if (users_of(object, other) < users_of(object, best)) best = other;
        }
        uint16_t users = users_of(object, best);
        if (users >= UINT16_MAX - 1) return false;
        *number = best;
        if (__atomic_compare_exchange_n(
                &object->users_[best], &users, users + 1, false, __ATOMIC_RELAXED, __ATOMIC_RELAXED))
            return true;
    }
}

/* The owner of the lock is about to wait. */
static aqs_status_t bind_to(aqs_cond_t *condition, aqs_lock_t *lock) {
    aqs_lock_t *other = NULL;
    if (lock_of(condition) == lock) return AQS_OK;
    if (!__atomic_compare_exchange_n(
            &condition->lock_, &other, lock, false, __ATOMIC_ACQUIRE, __ATOMIC_RELAXED))
        return AQS_MISUSE;
    if (takes_number(&lock->object_, &condition->number_)) return AQS_OK;
    __atomic_store_n(&condition->lock_, NULL, __ATOMIC_RELEASE);
    return AQS_NO_SUCH_CONDITION;
}

/* The owner of the lock was the last that waited. */
static void unbind(aqs_cond_t *condition, aqs_lock_t *lock) {
    __atomic_fetch_sub(&lock->object_.users_[condition->number_], 1, __ATOMIC_RELAXED);
    __atomic_store_n(&condition->lock_, NULL, __ATOMIC_RELEASE);
}

/* How a thread waits, and with a time also until when. */
typedef struct {
    enum { PLAIN, INTERRUPTIBLE, TIMED } how;
    struct timespec until;
} limits_t;

static limits_t limits_of_time(int64_t milliseconds) {
    limits_t limits = {.how = TIMED};
    clock_gettime(CLOCK_MONOTONIC, &limits.until);
    limits.until.tv_sec += (time_t)(milliseconds / 1000);
    limits.until.tv_nsec += (long)(milliseconds % 1000) * 1000000;
    if (limits.until.tv_nsec >= 1000000000) limits.until.tv_sec++, limits.until.tv_nsec -= 1000000000;
    return limits;
}

/* What is left of a time, rounded up. */
static int64_t milliseconds_until(const struct timespec *until) {
    struct timespec now;
    clock_gettime(CLOCK_MONOTONIC, &now);
    int64_t seconds = (int64_t)(until->tv_sec - now.tv_sec), nanoseconds = until->tv_nsec - now.tv_nsec;
    if (seconds > INT64_MAX / 1000 - 2) return INT64_MAX;
    int64_t left = seconds * 1000 + (nanoseconds + 999999 + 1000000000) / 1000000 - 1000;
    return left <= 0 ? 0 : left;
}

static aqs_status_t wait_by_number(aqs_lock_t *lock, uint8_t number, const limits_t *limits) {
    switch (limits->how) {
        case PLAIN: return aqs_lock_wait(lock, number);
        case INTERRUPTIBLE: return aqs_lock_wait_interruptibly(lock, number);
        default: return aqs_lock_timedwait(lock, number, milliseconds_until(&limits->until));
    }
}

/* Waits until the ticket has a mark, or the wait ends otherwise. However that was, the thread owns the lock
   again. A mark counts, whatever the time was and who interrupted: then the interrupt stays pending. */
static aqs_status_t wait_for_mark(aqs_cond_t *condition, aqs_lock_t *lock, const limits_t *limits) {
    ticket_t ticket;
    aqs_status_t status;
    append(condition, &ticket);
    while ((status = wait_by_number(lock, condition->number_, limits)) == AQS_OK && !ticket.is_marked)
        move_to_the_end(condition, &ticket);
    if (!ticket.is_marked) {
        take_out(condition, &ticket);
        return status;
    }
    if (status == AQS_INTERRUPTED) aqs_or_abort(aqs_thread_interrupt(aqs_thread_self()), "aqs_cond_wait");
    return AQS_OK;
}

static aqs_status_t wait_on(aqs_cond_t *condition, aqs_lock_t *lock, limits_t limits) {
    if (!condition) return AQS_MISUSE;
    if (!aqs_lock_is_mine(lock)) return not_owned(lock);
    aqs_status_t status = bind_to(condition, lock);
    if (status != AQS_OK) return status;
    condition->waiters_++;
    status = wait_for_mark(condition, lock, &limits);
    if (--condition->waiters_ == 0) unbind(condition, lock);
    return status;
}

aqs_status_t aqs_cond_wait(aqs_cond_t *condition, aqs_lock_t *lock) {
    return wait_on(condition, lock, (limits_t){.how = PLAIN});
}

aqs_status_t aqs_cond_wait_interruptibly(aqs_cond_t *condition, aqs_lock_t *lock) {
    return wait_on(condition, lock, (limits_t){.how = INTERRUPTIBLE});
}

aqs_status_t aqs_cond_timedwait(aqs_cond_t *condition, aqs_lock_t *lock, int64_t milliseconds) {
    if (milliseconds < 0) return aqs_out_of_range("milliseconds", 0, INT64_MAX, milliseconds);
    return wait_on(condition, lock, limits_of_time(milliseconds));
}

/* Marks the first ticket, or all, and wakes the threads that have them. The calling thread owns the lock. */
static aqs_status_t signal_marked(aqs_cond_t *condition, aqs_lock_t *lock, bool is_for_all) {
    bool is_shared = lock->object_.users_[condition->number_] > 1;
    if (!condition->first_) return AQS_OK;
    aqs_status_t status = is_for_all || is_shared ? aqs_lock_signal_all(lock, condition->number_)
                                                  : aqs_lock_signal(lock, condition->number_);
    if (status != AQS_OK) return status;
    do {
        condition->first_->is_marked = true;
        take_out(condition, condition->first_);
    } while (is_for_all && condition->first_);
    return AQS_OK;
}

/* The thread owns the lock, or acquires it. Until it has it, the last waiter may have left. */
static aqs_status_t signal_by(aqs_cond_t *condition, bool is_for_all) {
    if (!condition) return AQS_MISUSE;
    aqs_lock_t *lock = lock_of(condition);
    if (!lock) return AQS_OK;
    if (aqs_lock_is_mine(lock)) return signal_marked(condition, lock, is_for_all);
    aqs_status_t status = aqs_lock_lock(lock);
    if (status != AQS_OK) return status;
    if (lock_of(condition) == lock) status = signal_marked(condition, lock, is_for_all);
    aqs_or_abort(aqs_lock_unlock(lock), "aqs_cond_signal");
    return status;
}

aqs_status_t aqs_cond_signal(aqs_cond_t *condition) { return signal_by(condition, false); }

aqs_status_t aqs_cond_signal_all(aqs_cond_t *condition) { return signal_by(condition, true); }

/* A barrier ---------------------------------------------------------------------------------------------- */

/* The lock guards how many came since the barrier opened the last time, and how often it did. `inside` are
   the threads in a call, for which a close waits. */
struct aqs_barrier {
    aqs_lock_t *lock;
    uint32_t parties, came;
    uint64_t openings;
    atomic_uint inside;
};

aqs_status_t aqs_barrier_open(aqs_barrier_t **barrier, uint32_t parties, const aqs_options_t *options) {
    if (!barrier) return AQS_MISUSE;
    *barrier = NULL;
    uint32_t most = options && options->threads ? options->threads : AQS_THREADS;
    if (parties == 0 || parties > most) return aqs_out_of_range("parties", 1, most, parties);
    aqs_barrier_t *made = calloc(1, sizeof *made);
    if (!made) return AQS_OUT_OF_MEMORY;
    made->parties = parties;
    aqs_status_t status = aqs_lock_open(&made->lock, options);
    if (status == AQS_OK) *barrier = made;
    else free(made);
    return status;
}

void aqs_barrier_close(aqs_barrier_t *barrier) {
    if (!barrier) return;
    while (atomic_load_explicit(&barrier->inside, memory_order_acquire) > 0) sched_yield();
    aqs_lock_close(barrier->lock);
    free(barrier);
}

aqs_object_t *aqs_barrier_object(aqs_barrier_t *barrier) {
    return barrier ? aqs_lock_object(barrier->lock) : NULL;
}

/* The owner of the lock comes. If that can't be recorded, it didn't. */
static aqs_status_t come(aqs_barrier_t *barrier, bool *is_last) {
    uint64_t opening = barrier->openings;
    aqs_status_t status = AQS_OK;
    *is_last = ++barrier->came == barrier->parties;
    if (*is_last) {
        status = aqs_lock_signal_all(barrier->lock, 0);
        if (status == AQS_OK) {
            barrier->came = 0;
            barrier->openings++;
        }
    } else {
        while (status == AQS_OK && barrier->openings == opening) status = aqs_lock_wait(barrier->lock, 0);
    }
    if (status != AQS_OK) barrier->came--;
    return status;
}

aqs_status_t aqs_barrier_wait(aqs_barrier_t *barrier, aqs_bool_t *is_last) {
    bool was_last = false;
    if (!barrier) return AQS_MISUSE;
    atomic_fetch_add_explicit(&barrier->inside, 1, memory_order_relaxed);
    aqs_status_t status = aqs_lock_lock(barrier->lock);
    if (status == AQS_OK) {
        status = come(barrier, &was_last);
        aqs_or_abort(aqs_lock_unlock(barrier->lock), "aqs_barrier_wait");
    }
    atomic_fetch_sub_explicit(&barrier->inside, 1, memory_order_release);
    if (is_last && status == AQS_OK) *is_last = was_last;
    return status;
}
