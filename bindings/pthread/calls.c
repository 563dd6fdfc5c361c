/* calls.c: mutexes, read-write locks and unnamed semaphores under their pthread names. What isn't recorded
   goes to glibc. */
#include "record.h"

#include <dlfcn.h>
#include <errno.h>
#include <fcntl.h>
#include <limits.h>
#include <stdarg.h>
#include <string.h>
#include <threads.h>

/* glibc's own functions. Those of conditions have an older version too, which no program means. */
void *real_function(const char *name) {
    void *at = NULL;
#ifdef __x86_64__
    if (strncmp(name, "pthread_cond_", 13) == 0) at = dlvsym(RTLD_NEXT, name, "GLIBC_2.3.2");
#endif
    return at ? at : dlsym(RTLD_NEXT, name);
}

static int error_number(int error) {
    errno = error;
    return -1;
}

/* Waits -------------------------------------------------------------------------------------------------- */

/* The rest of a call that waits, from the answer of its first turn on. */
static COLD void
wait_turns(object_t *object, thread_t *me, uint16_t seat, request_t *request, aqs_answer_t *answer) {
    if (!request->waits) begin_wait(me, object, request);
    object->core->seats[seat].state = QUEUED;
    while (answer->kind == AQS_IS_WAITING) {
        uint8_t woke = WOKE;
        if (answer->parks) {
            leave(me);
            woke = park_as(me, answer, request->deadline, request->ends);
            enter(me, object);
        }
        next_turn(object, seat, woke, answer);
    }
    object->core->seats[seat].state = IDLE;
}

/* 0, or why a call that may wait failed. */
static int error_of(const aqs_answer_t *answer) {
    if (answer->kind == AQS_IS_ENTRY && answer->word != AQS_WORD_REFUSED) {
        if (answer->word == AQS_WORD_MISSED) return EBUSY;
        if (answer->word != AQS_WORD_LEFT) return 0;
        return answer->end == AQS_END_TIMEOUT ? ETIMEDOUT : EINTR;
    }
    switch (answer->fault) {
        case AQS_FAULT_TOO_MANY_HOLDS: return EAGAIN;
        case AQS_FAULT_TOO_MANY_PERMITS: return EOVERFLOW;
        case AQS_FAULT_NOT_OWNER: return EPERM;
        default: return EINVAL;
    }
}

/* Acquires by a seat, whose index it keeps. */
static inline int acquire(object_t *object, thread_t *me, seat_t *seat, request_t *request) {
    aqs_call_t call = {.n = 1, .time = 1, .kind = AQS_CALL_ACQUIRE, .mode = request->mode};
    call.how = request->deadline.at ? AQS_HOW_TIMED : request->ends ? AQS_HOW_INTERRUPTIBLE : AQS_HOW_PLAIN;
    aqs_answer_t answer;
    uint16_t index = index_of(object, seat);
    aqs_begin(&seat->pass, &call, &answer);
    if (likely(is_done(&answer))) {
        object->core->entries++;
        return 0;
    }
    request->since = nanoseconds();
    end_begin(object, index, &call, &answer);
    if (answer.kind == AQS_IS_WAITING) wait_turns(object, me, index, request, &answer);
    return error_of(&answer);
}

static inline int one_step(object_t *object, seat_t *seat, uint8_t code, uint8_t mode) {
    aqs_step_t step = {.n = 1, .code = code, .mode = mode};
    aqs_answer_t answer;
    uint16_t index = index_of(object, seat);
    aqs_step_now(&seat->pass, step, &answer);
    if (likely(is_done(&answer))) {
        object->core->entries++;
        return 0;
    }
    end_step(object, index, step, &answer);
    return error_of(&answer);
}

static inline seat_t *seat_at(object_t *object, uint16_t index) { return &object->core->seats[index]; }

/* A hold of the seat was over then, if it was timed. */
static inline void stop_timing(object_t *object, seat_t *seat, uint64_t end) {
    if (unlikely(seat->since)) end_hold(object, seat, end);
}

/* Mutexes ------------------------------------------------------------------------------------------------ */

enum { ROBUST_BIT = 16, INHERIT_BIT = 32, PROTECT_BIT = 64, SHARED_BIT = 128 };
enum { LEFT_BITS = ROBUST_BIT | INHERIT_BIT | PROTECT_BIT | SHARED_BIT };

/* The list of robust mutexes lies here, which those that are recorded are not in. */
static inline tag_t *tag_of_mutex(pthread_mutex_t *mutex) { return (tag_t *)&mutex->__data.__list; }

static uint8_t type_of(const pthread_mutex_t *mutex) {
    switch (mutex->__data.__kind & 3) {
        case PTHREAD_MUTEX_RECURSIVE: return RECURSIVE;
        case PTHREAD_MUTEX_ERRORCHECK: return ERRORCHECK;
        default: return NORMAL;
    }
}

static COLD object_t *open_mutex(pthread_mutex_t *mutex, void *place) {
    int kind = mutex->__data.__kind;
    if (!is_recording || kind < 0 || kind & LEFT_BITS) return NULL;
    return open_object(tag_of_mutex(mutex), mutex, MUTEX, type_of(mutex), 0, place, false);
}

static inline object_t *find_mutex(pthread_mutex_t *mutex, void *place) {
    object_t *object = tagged(tag_of_mutex(mutex), mutex);
    return likely(object != NULL) ? object : open_mutex(mutex, place);
}

object_t *object_of_mutex(pthread_mutex_t *mutex, void *place) { return find_mutex(mutex, place); }

static void count_mutex(int kind) {
    if (kind < 0) return;
    if (kind & ROBUST_BIT) left_out[LEFT_ROBUST]++;
    else if (kind & SHARED_BIT) left_out[LEFT_SHARED]++;
    else if (kind & (INHERIT_BIT | PROTECT_BIT)) left_out[LEFT_PRIORITY]++;
}

SHOWN int pthread_mutex_init(pthread_mutex_t *mutex, const pthread_mutexattr_t *attributes) {
    int error = REAL(pthread_mutex_init, mutex, attributes);
    if (error || !is_recording) return error;
    if (mutex->__data.__kind & LEFT_BITS) count_mutex(mutex->__data.__kind);
    else open_object(tag_of_mutex(mutex), mutex, MUTEX, type_of(mutex), 0, HERE, true);
    return 0;
}

SHOWN int pthread_mutex_destroy(pthread_mutex_t *mutex) {
    object_t *object = tagged(tag_of_mutex(mutex), mutex);
    if (object && !close_object(self(), tag_of_mutex(mutex), object)) return EBUSY;
    return REAL(pthread_mutex_destroy, mutex);
}

static inline int got_mutex(object_t *object, thread_t *me, uint16_t seat) {
    seat_at(object, seat)->holds = 1;
    count_call(object, me);
    object->owner_seat = seat;
    atomic_store_explicit(&object->owner, me->id, memory_order_relaxed);
    begin_hold(seat_at(object, seat));
    leave(me);
    return 0;
}

/* The owner locks once more. */
static COLD int lock_owned(object_t *object, thread_t *me) {
    int error = EDEADLK;
    if (object->type == RECURSIVE) {
        uint16_t seat = object->owner_seat;
        request_t request = {.mode = AQS_MODE_EXCLUSIVE};
        error = acquire(object, me, seat_at(object, seat), &request);
        if (!error) seat_at(object, seat)->holds++, count_call(object, me);
    }
    leave(me);
    return error;
}

/* The owner of a normal mutex waits like any other thread, by a second seat, until another thread unlocks. */
static inline int lock_mutex(object_t *object, deadline_t deadline, void *place) {
    thread_t *me = self();
    uint8_t woke;
    request_t request = {.mode = AQS_MODE_EXCLUSIVE, .deadline = deadline, .place = place};
    look_at_clock(me);
    enter(me, object);
    if (unlikely(object->type != NORMAL && object->owner == me->id)) return lock_owned(object, me);
    seat_t *seat = claim(object, me);
    if (unlikely(!seat) && !(seat = claim_or_wait(object, me, &request, &woke))) {
        end_wait(me, object);
        leave(me);
        return ETIMEDOUT;
    }
    uint16_t index = index_of(object, seat);
    int error = acquire(object, me, seat, &request);
    if (unlikely(request.waits)) end_wait(me, object);
    if (likely(!error)) return got_mutex(object, me, index);
    unclaim(object, seat_at(object, index));
    tend(object, me);
    leave(me);
    return error;
}

/* Tries. A hold of the recorder's own seat, which makes a signal, is waited for: it's none of the program's. */
static int try_by(object_t *object, thread_t *me, uint16_t seat) {
    for (;;) {
        unsigned kicks = atomic_load(&object->kicks);
        int error = one_step(object, seat_at(object, seat), AQS_STEP_TRY, AQS_MODE_EXCLUSIVE);
        if (error != EBUSY || (!(kicks & 1) && atomic_load(&object->kicks) == kicks)) return error;
        leave(me);
        sched_yield();
        enter(me, object);
    }
}

static int try_mutex(object_t *object) {
    thread_t *me = self();
    look_at_clock(me);
    enter(me, object);
    bool is_mine = object->type == RECURSIVE && object->owner == me->id;
    seat_t *seat = is_mine ? seat_at(object, object->owner_seat) : claim(object, me);
    int error = EBUSY;
    if (seat) {
        uint16_t index = index_of(object, seat);
        error = try_by(object, me, index);
        if (!error && !is_mine) return got_mutex(object, me, index);
        if (!error) seat_at(object, index)->holds++, count_call(object, me);
        else if (!is_mine) unclaim(object, seat_at(object, index));
        tend(object, me);
    }
    leave(me);
    return error;
}

/* Gives the owner's last hold back. The caller has taken the ownership from object->owner. */
static inline void give_mutex(object_t *object, thread_t *me, uint16_t seat, uint64_t end) {
    stop_timing(object, seat_at(object, seat), end);
    seat_at(object, seat)->holds = 0;
    one_step(object, seat_at(object, seat), AQS_STEP_GIVE, AQS_MODE_EXCLUSIVE);
    unclaim(object, seat_at(object, seat));
    if (unlikely(atomic_load(&object->pending))) kick(object, me);
    tend(object, me);
}

/* A normal mutex may be unlocked by any thread, as glibc does it. Nobody else is in a turn meanwhile. */
static COLD int unlock_for_owner(object_t *object, thread_t *me) {
    if (object->type != NORMAL) return EPERM;
    enter(me, object);
    wait_to_be_alone(object, me);
    uint16_t seat = object->owner_seat;
    bool is_held = atomic_exchange(&object->owner, 0) != 0;
    aqs_answer_t answer = {0};
    if (is_held) {
        stop_timing(object, seat_at(object, seat), time_of_end());
        seat_at(object, seat)->holds = 0;
        aqs_step_t give = {1, AQS_STEP_GIVE, AQS_MODE_EXCLUSIVE};
        aqs_step_now(&seat_at(object, seat)->pass, give, &answer);
        settle(object, &answer);
        atomic_store(&seat_at(object, seat)->user, 0);
    }
    end_alone(object);
    if (atomic_load(&object->outside)) wake_outside(object, false);
    if (atomic_load(&object->pending)) kick(object, me);
    leave(me);
    return 0;
}

static inline int unlock_mutex(object_t *object, uint64_t end) {
    thread_t *me = self();
    if (unlikely(atomic_load_explicit(&object->owner, memory_order_relaxed) != me->id))
        return unlock_for_owner(object, me);
    enter(me, object);
    uint16_t seat = object->owner_seat;
    if (unlikely(seat_at(object, seat)->holds > 1)) {
        one_step(object, seat_at(object, seat), AQS_STEP_GIVE, AQS_MODE_EXCLUSIVE);
        seat_at(object, seat)->holds--;
    } else {
        if (unlikely(atomic_load(&object->pending))) flush(object, seat);
        /* Another thread may have unlocked it in this moment. */
        uint64_t owner = me->id;
        if (likely(atomic_compare_exchange_strong(&object->owner, &owner, 0))) give_mutex(object, me, seat, end);
    }
    leave(me);
    return 0;
}

/* Waits on conditions that have no number unlock and lock like this. */
uint32_t unlock_whole(object_t *object, thread_t *me) {
    enter(me, object);
    uint16_t seat = object->owner_seat;
    uint32_t holds = seat_at(object, seat)->holds;
    leave(me);
    for (uint32_t i = 0; i < holds; i++) unlock_mutex(object, time_of_end());
    return holds;
}

void lock_again(object_t *object, uint32_t holds, void *place) {
    for (uint32_t i = 0; i < holds; i++) lock_mutex(object, FOREVER, place);
}

SHOWN int pthread_mutex_lock(pthread_mutex_t *mutex) {
    object_t *object = find_mutex(mutex, HERE);
    if (unlikely(!object)) return REAL(pthread_mutex_lock, mutex);
    return lock_mutex(object, FOREVER, HERE);
}

SHOWN int pthread_mutex_unlock(pthread_mutex_t *mutex) {
    uint64_t end = time_of_end();
    object_t *object = find_mutex(mutex, HERE);
    if (unlikely(!object)) return REAL(pthread_mutex_unlock, mutex);
    return unlock_mutex(object, end);
}

SHOWN int pthread_mutex_trylock(pthread_mutex_t *mutex) {
    object_t *object = find_mutex(mutex, HERE);
    if (unlikely(!object)) return REAL(pthread_mutex_trylock, mutex);
    return try_mutex(object);
}

/* How long two holds of nothing are together by the clock, in nanoseconds. The thread hasn't run the code of the first
   since its last hold. Their object is in no table. Those of a read-write lock would be the same. 0: there is no
   memory, or another thread asks, which a fork may have left in the parent. */
uint64_t two_holds_of_nothing(void) {
    static pthread_mutex_t mutex = PTHREAD_MUTEX_INITIALIZER;
    static atomic_uint is_used;
    static object_t *object;
    uint64_t took = 0;
    if (atomic_exchange(&is_used, 1)) return 0;
    if (!object && (object = heap_take_zeroed(sizeof *object))) {
        object->born = epoch_of_now();
        *tag_of_mutex(&mutex) = (tag_t){object, mark_of(&mutex)};
    }
    for (int i = 0; object && i < 2; i++) {
        pthread_mutex_lock(&mutex);
        pthread_mutex_unlock(&mutex);
    }
    if (object && object->hold_times) took = atomic_exchange(&object->hold_times->sum, 0);
    is_used = 0;
    return took;
}

/* A time that is none is a fault only where the call would wait. */
static int lock_until(object_t *object, const struct timespec *moment, clockid_t clock, void *place) {
    if (is_deadline(moment)) return lock_mutex(object, (deadline_t){moment, clock}, place);
    if (object->type == ERRORCHECK && object->owner == self()->id) return EDEADLK;
    return try_mutex(object) ? EINVAL : 0;
}

SHOWN int pthread_mutex_timedlock(pthread_mutex_t *mutex, const struct timespec *moment) {
    object_t *object = find_mutex(mutex, HERE);
    if (unlikely(!object)) return REAL(pthread_mutex_timedlock, mutex, moment);
    return lock_until(object, moment, CLOCK_REALTIME, HERE);
}

SHOWN int pthread_mutex_clocklock(pthread_mutex_t *mutex, clockid_t clock, const struct timespec *moment) {
    object_t *object = find_mutex(mutex, HERE);
    if (unlikely(!object)) return REAL(pthread_mutex_clocklock, mutex, clock, moment);
    return is_clock(clock) ? lock_until(object, moment, clock, HERE) : EINVAL;
}

/* Read-write locks --------------------------------------------------------------------------------------- */

static inline tag_t *tag_of_rwlock(pthread_rwlock_t *lock) { return (tag_t *)lock; }

static uint8_t type_of_rwlock(const pthread_rwlock_t *lock) {
    return lock->__data.__flags == PTHREAD_RWLOCK_PREFER_WRITER_NONRECURSIVE_NP ? PREFERS_WRITERS : NORMAL;
}

static COLD object_t *open_rwlock(pthread_rwlock_t *lock, void *place) {
    if (!is_recording || lock->__data.__shared) return NULL;
    return open_object(tag_of_rwlock(lock), lock, RWLOCK, type_of_rwlock(lock), 0, place, false);
}

static inline object_t *object_of_rwlock(pthread_rwlock_t *lock, void *place) {
    object_t *object = tagged(tag_of_rwlock(lock), lock);
    return likely(object != NULL) ? object : open_rwlock(lock, place);
}

SHOWN int pthread_rwlock_init(pthread_rwlock_t *lock, const pthread_rwlockattr_t *attributes) {
    int error = REAL(pthread_rwlock_init, lock, attributes);
    if (error || !is_recording) return error;
    if (lock->__data.__shared) left_out[LEFT_SHARED]++;
    else open_object(tag_of_rwlock(lock), lock, RWLOCK, type_of_rwlock(lock), 0, HERE, true);
    return 0;
}

SHOWN int pthread_rwlock_destroy(pthread_rwlock_t *lock) {
    object_t *object = tagged(tag_of_rwlock(lock), lock);
    if (!object) return REAL(pthread_rwlock_destroy, lock);
    close_object(self(), tag_of_rwlock(lock), object);
    return 0;
}

/* The seat of this thread, if it holds the lock. The thread is in the object. */
static seat_t *own_seat(object_t *object, thread_t *me) {
    core_t *core = object->core;
    seat_t *seat = seat_at(object, (uint16_t)(me->number % usable(core)));
    if (seat->user == me->id) return seat;
    if (!me->displaced) return NULL;
    for (uint16_t i = 0; i < usable(core); i++)
        if (seat_at(object, i)->user == me->id) return seat_at(object, i);
    return NULL;
}

/* How many seats this thread has that `own_seat` must look for. A lock that grows may move its first
   choice. */
static void note_seat(thread_t *me, uint16_t seat) {
    me->displaced += me->number != seat;
}

static void leave_seat(object_t *object, thread_t *me, seat_t *seat) {
    uint16_t index = index_of(object, seat);
    if (me->displaced) me->displaced -= me->number != index;
    unclaim(object, seat);
}

/* A reader comes before waiting writers, as in glibc, unless the lock prefers writers. */
static int read_by(object_t *object, thread_t *me, seat_t *seat, request_t *request) {
    bool barges = object->type != PREFERS_WRITERS && !object->owner;
    uint16_t index = index_of(object, seat);
    if (barges && one_step(object, seat, AQS_STEP_TRY, AQS_MODE_SHARED) == 0) return 0;
    return acquire(object, me, seat_at(object, index), request);
}

static void got_rwlock(object_t *object, thread_t *me, uint16_t seat, uint8_t mode) {
    count_call(object, me);
    if (mode == AQS_MODE_SHARED) {
        if (!seat_at(object, seat)->reads++) begin_hold(seat_at(object, seat));
        return;
    }
    seat_at(object, seat)->holds = 1;
    object->owner_seat = seat;
    atomic_store(&object->owner, me->id);
    begin_hold(seat_at(object, seat));
}

static int acquire_by(object_t *object, thread_t *me, seat_t *seat, bool tries, request_t *request) {
    if (seat->holds) return tries ? EBUSY : EDEADLK;
    if (tries) return one_step(object, seat, AQS_STEP_TRY, request->mode);
    if (request->mode == AQS_MODE_SHARED) return read_by(object, me, seat, request);
    return acquire(object, me, seat, request);
}

static int lock_rwlock(object_t *object, uint8_t mode, bool tries, deadline_t deadline, void *place) {
    thread_t *me = self();
    uint8_t woke = WOKE;
    request_t request = {.mode = mode, .deadline = deadline, .place = place};
    look_at_clock(me);
    enter(me, object);
    seat_t *own = own_seat(object, me), *seat = own ? own : claim(object, me);
    if (!seat && !tries) seat = claim_or_wait(object, me, &request, &woke);
    if (!seat) {
        if (request.waits) end_wait(me, object);
        leave(me);
        return tries ? EBUSY : ETIMEDOUT;
    }
    uint16_t index = index_of(object, seat);
    if (!own) note_seat(me, index);
    int error = acquire_by(object, me, seat, tries, &request);
    if (request.waits) end_wait(me, object);
    if (!error) got_rwlock(object, me, index, mode);
    else if (!own) leave_seat(object, me, seat_at(object, index));
    if (error || request.waits) tend(object, me); /* it may have been the last in the queue */
    leave(me);
    return error;
}

/* The thread reads by no seat of its own: it unlocks for a reader. Nobody else is in a turn meanwhile. */
static COLD void unlock_for_reader(object_t *object, thread_t *me) {
    aqs_answer_t answer = {0};
    wait_to_be_alone(object, me);
    for (uint16_t i = 0; i < usable(object->core); i++) {
        seat_t *seat = seat_at(object, i);
        if (!seat->user || seat->reads + seat->holds == 0 || seat->state != IDLE) continue;
        uint8_t mode = seat->holds ? AQS_MODE_EXCLUSIVE : AQS_MODE_SHARED;
        aqs_step_now(&seat->pass, (aqs_step_t){1, AQS_STEP_GIVE, mode}, &answer);
        settle(object, &answer);
        if (mode == AQS_MODE_EXCLUSIVE) seat->holds = 0, object->owner = 0;
        else seat->reads--;
        if (seat->reads + seat->holds == 0) {
            stop_timing(object, seat, time_of_end());
            atomic_store(&seat->user, 0);
        }
        break;
    }
    end_alone(object);
    if (atomic_load(&object->outside)) wake_outside(object, false);
}

static int unlock_rwlock(object_t *object, uint64_t end) {
    thread_t *me = self();
    enter(me, object);
    seat_t *seat = own_seat(object, me);
    if (!seat || seat->reads + seat->holds == 0) {
        unlock_for_reader(object, me);
        leave(me);
        return 0;
    }
    uint16_t index = index_of(object, seat);
    uint8_t mode = seat->holds ? AQS_MODE_EXCLUSIVE : AQS_MODE_SHARED;
    if (mode == AQS_MODE_EXCLUSIVE) {
        seat->holds = 0;
        atomic_store(&object->owner, 0);
    } else {
        seat->reads--;
    }
    if (seat->reads + seat->holds == 0) stop_timing(object, seat, end);
    one_step(object, seat, AQS_STEP_GIVE, mode);
    seat = seat_at(object, index);
    if (seat->reads + seat->holds == 0) leave_seat(object, me, seat);
    tend(object, me);
    leave(me);
    return 0;
}

static int lock_rwlock_until(
    object_t *object, uint8_t mode, const struct timespec *moment, clockid_t clock, void *place) {
    if (!is_clock(clock) || !is_deadline(moment)) return EINVAL;
    return lock_rwlock(object, mode, false, (deadline_t){moment, clock}, place);
}

SHOWN int pthread_rwlock_unlock(pthread_rwlock_t *lock) {
    uint64_t end = time_of_end();
    object_t *object = object_of_rwlock(lock, HERE);
    return likely(object != NULL) ? unlock_rwlock(object, end) : REAL(pthread_rwlock_unlock, lock);
}

#define RWLOCK_CALL(name, parameters, arguments, by_us)                 \
    SHOWN int name parameters {                                         \
        object_t *object = object_of_rwlock(lock, HERE);                \
        if (unlikely(!object)) return REAL(name, arguments);            \
        return by_us;                                                   \
    }
#define AND ,

RWLOCK_CALL(
    pthread_rwlock_rdlock, (pthread_rwlock_t * lock), lock,
    lock_rwlock(object, AQS_MODE_SHARED, false, FOREVER, HERE))
RWLOCK_CALL(
    pthread_rwlock_tryrdlock, (pthread_rwlock_t * lock), lock,
    lock_rwlock(object, AQS_MODE_SHARED, true, FOREVER, HERE))
RWLOCK_CALL(
    pthread_rwlock_wrlock, (pthread_rwlock_t * lock), lock,
    lock_rwlock(object, AQS_MODE_EXCLUSIVE, false, FOREVER, HERE))
RWLOCK_CALL(
    pthread_rwlock_trywrlock, (pthread_rwlock_t * lock), lock,
    lock_rwlock(object, AQS_MODE_EXCLUSIVE, true, FOREVER, HERE))
RWLOCK_CALL(
    pthread_rwlock_timedrdlock, (pthread_rwlock_t * lock, const struct timespec *at), lock AND at,
    lock_rwlock_until(object, AQS_MODE_SHARED, at, CLOCK_REALTIME, HERE))
RWLOCK_CALL(
    pthread_rwlock_timedwrlock, (pthread_rwlock_t * lock, const struct timespec *at), lock AND at,
    lock_rwlock_until(object, AQS_MODE_EXCLUSIVE, at, CLOCK_REALTIME, HERE))
RWLOCK_CALL(
    pthread_rwlock_clockrdlock, (pthread_rwlock_t * lock, clockid_t clock, const struct timespec *at),
    lock AND clock AND at, lock_rwlock_until(object, AQS_MODE_SHARED, at, clock, HERE))
RWLOCK_CALL(
    pthread_rwlock_clockwrlock, (pthread_rwlock_t * lock, clockid_t clock, const struct timespec *at),
    lock AND clock AND at, lock_rwlock_until(object, AQS_MODE_EXCLUSIVE, at, clock, HERE))

/* Semaphores --------------------------------------------------------------------------------------------- */

static inline tag_t *tag_of_semaphore(sem_t *semaphore) { return (tag_t *)semaphore; }

static inline object_t *object_of_semaphore(sem_t *semaphore) {
    return tagged(tag_of_semaphore(semaphore), semaphore);
}

SHOWN int sem_init(sem_t *semaphore, int shared, unsigned value) {
    if (!is_recording || shared || value > SEM_VALUE_MAX) {
        if (is_recording && shared) left_out[LEFT_SHARED]++;
        return REAL(sem_init, semaphore, shared, value);
    }
    memset(semaphore, 0, sizeof *semaphore);
    open_object(tag_of_semaphore(semaphore), semaphore, SEMAPHORE, NORMAL, value, HERE, true);
    return 0;
}

SHOWN int sem_destroy(sem_t *semaphore) {
    object_t *object = object_of_semaphore(semaphore);
    if (!object) return REAL(sem_destroy, semaphore);
    close_object(self(), tag_of_semaphore(semaphore), object);
    return 0;
}

enum { IS_BEING_SET = UINT32_MAX };

/* Adds one to the posts of a semaphore. False: these are of another, or of one that a handler just sets which
   this one interrupted. */
static bool add_post(posts_t *posts, sem_t *semaphore) {
    uint32_t count = 0;
    if (atomic_compare_exchange_strong(&posts->count, &count, IS_BEING_SET)) {
        posts->semaphore = semaphore;
        atomic_store(&posts->count, 1);
        return true;
    }
    if (count == IS_BEING_SET || posts->semaphore != semaphore) return false;
    atomic_fetch_add(&posts->count, 1);
    return true;
}

/* A post by a signal handler that interrupted its thread in a turn. It is made when the turn is over. */
static COLD int post_later(thread_t *me, sem_t *semaphore) {
    for (unsigned i = 0; i < POSTED_SEMAPHORES; i++)
        if (add_post(&me->posts[i], semaphore)) {
            me->has_posts = 1;
            return 0;
        }
    return EOVERFLOW;
}

/* For a turn that ends at once: any free seat, or the recorder's own. */
static seat_t *seat_for_a_moment(object_t *object, thread_t *me) {
    core_t *core = object->core;
    seat_t *seat = seat_at(object, (uint16_t)(me->number % usable(core)));
    uint64_t nobody = 0;
    if (!atomic_compare_exchange_strong(&seat->user, &nobody, me->id)) return claim_own(object, me);
    seat->thread = me;
    return seat;
}

static int step_for_a_moment(object_t *object, thread_t *me, uint8_t code) {
    enter(me, object);
    seat_t *seat = seat_for_a_moment(object, me);
    uint16_t index = index_of(object, seat);
    int error = one_step(object, seat, code, AQS_MODE_SHARED);
    unclaim(object, seat_at(object, index));
    if (code == AQS_STEP_TRY && !error) count_call(object, me);
    tend(object, me);
    leave(me);
    return error;
}

SHOWN int sem_post(sem_t *semaphore) {
    object_t *object = object_of_semaphore(semaphore);
    if (unlikely(!object)) return REAL(sem_post, semaphore);
    int kept = errno;
    thread_t *me = self();
    int error = me->busy ? post_later(me, semaphore) : step_for_a_moment(object, me, AQS_STEP_GIVE);
    errno = kept;
    return error ? error_number(error) : 0;
}

SHOWN int sem_trywait(sem_t *semaphore) {
    object_t *object = object_of_semaphore(semaphore);
    if (unlikely(!object)) return REAL(sem_trywait, semaphore);
    int error = step_for_a_moment(object, self(), AQS_STEP_TRY);
    return error ? error_number(error == EBUSY ? EAGAIN : error) : 0;
}

SHOWN int sem_getvalue(sem_t *semaphore, int *value) {
    object_t *object = object_of_semaphore(semaphore);
    if (unlikely(!object)) return REAL(sem_getvalue, semaphore, value);
    thread_t *me = self();
    int64_t permits = 0;
    enter(me, object);
    seat_t *seat = claim_own(object, me);
    while (aqs_available_now(&seat->pass, &permits) == AQS_IS_BUSY) sched_yield();
    unclaim(object, seat);
    leave(me);
    *value = (int)permits;
    return 0;
}

/* A wait for a permit, for the handler that ends it when the thread is cancelled. */
typedef struct {
    object_t *object;
    thread_t *me;
    request_t request;
    uint16_t seat;
    bool has_seat;
} permit_wait_t;

/* The thread was cancelled in its park: the wait ends without a permit, also if one came in the same moment. */
static void stop_waiting_for_permit(void *with) {
    permit_wait_t *wait = with;
    object_t *object = wait->object;
    thread_t *me = wait->me;
    enter(me, object);
    if (!wait->has_seat) {
        atomic_fetch_sub(&object->outside, 1);
        wake_outside(object, false);
    } else {
        aqs_answer_t answer;
        forget_park(me);
        next_turn(object, wait->seat, STOPPED, &answer);
        seat_at(object, wait->seat)->state = IDLE;
        unclaim(object, seat_at(object, wait->seat));
    }
    if (wait->request.waits) end_wait(me, object);
    leave(me);
}

static int wait_for_permit(permit_wait_t *wait) {
    int error = 0;
    uint8_t woke = WOKE;
    pthread_cleanup_push(stop_waiting_for_permit, wait);
    seat_t *seat = claim(wait->object, wait->me);
    if (!seat) seat = claim_or_wait(wait->object, wait->me, &wait->request, &woke);
    if (seat) {
        wait->seat = index_of(wait->object, seat), wait->has_seat = true;
        error = acquire(wait->object, wait->me, seat, &wait->request);
        unclaim(wait->object, seat_at(wait->object, wait->seat));
    } else {
        error = woke == STOPPED ? EINTR : ETIMEDOUT;
    }
    pthread_cleanup_pop(0);
    return error;
}

static int take_permit(object_t *object, deadline_t deadline, void *place) {
    pthread_testcancel();
    permit_wait_t wait = {.object = object, .me = self()};
    wait.request = (request_t){AQS_MODE_SHARED, false, deadline, ENDS_BY_SIGNAL | ENDS_BY_CANCEL, place, 0};
    enter(wait.me, object);
    int error = wait_for_permit(&wait);
    if (wait.request.waits) end_wait(wait.me, object);
    if (!error) count_call(object, wait.me);
    tend(object, wait.me);
    leave(wait.me);
    return error ? error_number(error) : 0;
}

SHOWN int sem_wait(sem_t *semaphore) {
    object_t *object = object_of_semaphore(semaphore);
    if (unlikely(!object)) return REAL(sem_wait, semaphore);
    return take_permit(object, FOREVER, HERE);
}

SHOWN int sem_timedwait(sem_t *semaphore, const struct timespec *moment) {
    object_t *object = object_of_semaphore(semaphore);
    if (unlikely(!object)) return REAL(sem_timedwait, semaphore, moment);
    if (!is_deadline(moment)) return error_number(EINVAL);
    return take_permit(object, (deadline_t){moment, CLOCK_REALTIME}, HERE);
}

SHOWN int sem_clockwait(sem_t *semaphore, clockid_t clock, const struct timespec *moment) {
    object_t *object = object_of_semaphore(semaphore);
    if (unlikely(!object)) return REAL(sem_clockwait, semaphore, clock, moment);
    if (!is_clock(clock) || !is_deadline(moment)) return error_number(EINVAL);
    return take_permit(object, (deadline_t){moment, clock}, HERE);
}

/* What is only counted ----------------------------------------------------------------------------------- */

atomic_uint left_out[LEFT_KINDS];

SHOWN int mtx_init(mtx_t *mutex, int type) {
    left_out[LEFT_C11]++;
    return REAL(mtx_init, mutex, type);
}

SHOWN sem_t *sem_open(const char *name, int flags, ...) {
    left_out[LEFT_NAMED]++;
    if (!(flags & O_CREAT)) return REAL(sem_open, name, flags);
    va_list more;
    va_start(more, flags);
    mode_t mode = va_arg(more, mode_t);
    unsigned value = va_arg(more, unsigned);
    va_end(more);
    return REAL(sem_open, name, flags, mode, value);
}

SHOWN int
pthread_barrier_init(pthread_barrier_t *barrier, const pthread_barrierattr_t *attributes, unsigned count) {
    left_out[LEFT_BARRIER]++;
    return REAL(pthread_barrier_init, barrier, attributes, count);
}

SHOWN int pthread_spin_init(pthread_spinlock_t *lock, int shared) {
    left_out[LEFT_SPIN]++;
    return REAL(pthread_spin_init, lock, shared);
}
