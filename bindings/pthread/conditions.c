/* conditions.c: condition variables under their pthread names.

   A condition variable has one of the 16 condition numbers of the mutex with which it was last waited on. If
   there is none to have, or too few seats are left, its waits are of another kind: the history shows an
   unlock and a lock, and who waits stands in a list of the variable.

   In the proved core only the owner of the mutex signals. A signal by another thread is made at once if the
   mutex is free, by a lock and an unlock around it. Otherwise it is noted, and the owner makes it at its
   unlock. Either way it wakes a thread that waited when the signal was noted: one that begins its wait later
   locks the mutex first, and the signal is made before that. */
#include "record.h"

#include <errno.h>

enum { NO_NUMBER = -1 };

/* A thread in the list of a variable. It leaves the list by itself, or a signal takes it out. */
typedef struct waiter {
    struct waiter *next;
    bool is_listed;
    atomic_uint word; /* 1: signalled */
} waiter_t;

struct condition {
    atomic_uint lock;
    atomic_uint users; /* those that wait, and the variable itself */
    _Atomic uint64_t born; /* the epoch in which it was first used */
    object_t *bound;
    int number; /* of `bound`. Both change under `bind_lock` */
    clockid_t clock;
    waiter_t *first, *last;
};

/* Of the numbers of all mutexes. */
static atomic_uint bind_lock;

/* The clock that pthread_cond_init chose lies beside the flag that says whether processes share it. */
enum { SHARED_FLAG = 1, MONOTONIC_FLAG = 2 };

static inline tag_t *tag_of(pthread_cond_t *variable) { return (tag_t *)variable; }

static condition_t *new_condition(pthread_cond_t *variable, unsigned flags) {
    condition_t *condition = heap_take_zeroed(sizeof *condition);
    if (!condition) return NULL;
    condition->users = 1;
    condition->number = NO_NUMBER;
    condition->born = epoch_of_now();
    condition->clock = flags & MONOTONIC_FLAG ? CLOCK_MONOTONIC : CLOCK_REALTIME;
    tag_of(variable)->object = condition;
    atomic_store_explicit(&tag_of(variable)->mark, mark_of(variable), memory_order_release);
    return condition;
}

/* Where memory lacks it waits for it, and leaves the table to others meanwhile. */
static COLD condition_t *open_condition(pthread_cond_t *variable) {
    unsigned flags = variable->__data.__wrefs;
    condition_t *condition;
    if (!is_recording || flags & SHARED_FLAG) return NULL;
    thread_t *me = self();
    lock_table(me);
    while (!(condition = tagged(tag_of(variable), variable)) && !(condition = new_condition(variable, flags))) {
        unlock_table(me);
        pause_a_little();
        lock_table(me);
    }
    unlock_table(me);
    return condition;
}

/* In the child of a fork nobody waits: those that did are gone. Several threads may find that at once. */
static COLD void adopt_condition(condition_t *condition) {
    thread_t *me = self();
    lock_table(me);
    if (condition->born != epoch_of_now()) {
        condition->users = 1;
        condition->lock = 0;
        condition->first = condition->last = NULL;
        atomic_store(&condition->born, epoch_of_now());
    }
    unlock_table(me);
}

static condition_t *condition_of(pthread_cond_t *variable) {
    condition_t *condition = tagged(tag_of(variable), variable);
    if (!condition && !(condition = open_condition(variable))) return NULL;
    if (condition->born != epoch_of_now()) adopt_condition(condition);
    return condition;
}

SHOWN int pthread_cond_init(pthread_cond_t *variable, const pthread_condattr_t *attributes) {
    int error = REAL(pthread_cond_init, variable, attributes);
    if (error || !is_recording) return error;
    if (variable->__data.__wrefs & SHARED_FLAG) left_out[LEFT_SHARED]++;
    else open_condition(variable);
    return 0;
}

/* Numbers ------------------------------------------------------------------------------------------------ */

static void unbind(condition_t *condition) {
    if (condition->bound) condition->bound->conditions[condition->number] = NULL;
    condition->bound = NULL, condition->number = NO_NUMBER;
}

void unbind_all(object_t *object) {
    if (!object->conditions) return;
    spin_lock(&bind_lock);
    for (unsigned i = 0; i < MOST_CONDITIONS; i++)
        if (object->conditions[i]) unbind(object->conditions[i]);
    spin_unlock(&bind_lock);
}

static void free_condition(condition_t *condition) {
    spin_lock(&bind_lock);
    unbind(condition);
    spin_unlock(&bind_lock);
    heap_give(condition);
}

/* The last one that uses the variable frees it. The thread is in the recorder. */
static void end_use(condition_t *condition) {
    if (atomic_fetch_sub(&condition->users, 1) == 1) free_condition(condition);
}

static void let_go(thread_t *me, condition_t *condition) {
    enter_elsewhere(me);
    end_use(condition);
    leave(me);
}

SHOWN int pthread_cond_destroy(pthread_cond_t *variable) {
    condition_t *condition = tagged(tag_of(variable), variable);
    if (!condition) return REAL(pthread_cond_destroy, variable);
    thread_t *me = self();
    condition = condition_of(variable);
    lock_table(me);
    tag_of(variable)->mark = 0;
    tag_of(variable)->object = NULL;
    unlock_table(me);
    let_go(me, condition);
    return 0;
}

static bool has_room_for_numbers(object_t *object) {
    if (object->conditions) return true;
    condition_t **conditions = heap_take_zeroed(MOST_CONDITIONS * sizeof *conditions);
    atomic_uint *signals = heap_take_zeroed(MOST_CONDITIONS * sizeof *signals);
    if (!conditions || !signals) {
        heap_give(conditions), heap_give(signals);
        return false;
    }
    object->signals = signals, object->conditions = conditions;
    return true;
}

/* A number that nobody has, or whose variable has no waiters. */
static int free_number(object_t *object) {
    for (int i = 0; i < conditions_at(object); i++)
        if (!object->conditions[i]) return i;
    for (int i = 0; i < conditions_at(object); i++)
        if (object->conditions[i]->users == 1) return i;
    return NO_NUMBER;
}

static void bind(object_t *object, condition_t *condition) {
    if (condition->bound == object || condition->users > 1 || !has_room_for_numbers(object)) return;
    spin_lock(&bind_lock);
    int number = free_number(object);
    if (number != NO_NUMBER) {
        if (object->conditions[number]) unbind(object->conditions[number]);
        unbind(condition);
        object->conditions[number] = condition;
        condition->bound = object, condition->number = number;
    }
    spin_unlock(&bind_lock);
}

/* Whether the variable has a number of the mutex, and the mutex a seat to spare. The owner is in the
   object. */
static bool has_number(object_t *object, thread_t *me, condition_t *condition) {
    uint8_t level = object->core->level;
    bind(object, condition);
    bool lacks_number = condition->bound != object && conditions_at(object) < MOST_CONDITIONS;
    bool lacks_seats = object->sleepers + 2 + usable(object->core) / 8 > usable(object->core);
    if ((lacks_number || lacks_seats) && level < 3 && grow(object, me, level + 1)) {
        bind(object, condition);
        lacks_seats = object->sleepers + 2 + usable(object->core) / 8 > usable(object->core);
    }
    return condition->bound == object && !lacks_seats;
}

/* Signals ------------------------------------------------------------------------------------------------ */

/* Takes the first out of the list, or all who are in it, and wakes them. Whether there was one. A waiter
   leaves its wait by the lock of the variable: until then it is there. */
static bool signal_listed(thread_t *me, condition_t *condition, bool all) {
    bool is_found = false;
    enter_elsewhere(me);
    spin_lock(&condition->lock);
    for (waiter_t *first; (first = condition->first) && (all || !is_found); is_found = true) {
        condition->first = first->next;
        first->is_listed = false;
        atomic_store(&first->word, 1);
        wake_word(&first->word, 1);
    }
    if (!condition->first) condition->last = NULL;
    spin_unlock(&condition->lock);
    leave(me);
    return is_found;
}

/* How many waiters a signal by the owner moved. The thread is in the object. */
static uint32_t signal_numbered(object_t *object, uint16_t seat, int number, bool all) {
    aqs_step_t step = {.n = 1, .code = all ? AQS_STEP_SIGNAL_ALL : AQS_STEP_SIGNAL, .mode = (uint8_t)number};
    aqs_answer_t answer;
    aqs_step_now(&object->core->seats[seat].pass, step, &answer);
    end_step(object, seat, step, &answer);
    uint32_t moved = is_success(&answer) ? answer.n : 0;
    object->moved += moved;
    return moved;
}

/* The owner makes the signals that others noted. It is in the object. */
void flush(object_t *object, uint16_t seat) {
    unsigned which = atomic_exchange(&object->pending, 0);
    for (int number = 0; which >> number; number++) {
        if (!(which >> number & 1)) continue;
        unsigned signals = atomic_exchange(&object->signals[number], 0);
        if (signals >= ALL) signal_numbered(object, seat, number, true);
        else
            while (signals-- && signal_numbered(object, seat, number, false)) continue;
    }
}

/* A step of the recorder's own seat in `kick`. Whether it did what it should. */
static bool step_of_kick(object_t *object, uint16_t seat, uint8_t code) {
    aqs_step_t step = {.n = 1, .code = code, .mode = AQS_MODE_EXCLUSIVE};
    aqs_answer_t answer;
    aqs_step_now(&object->core->seats[seat].pass, step, &answer);
    end_step(object, seat, step, &answer);
    return is_success(&answer);
}

/* Signals are noted: they are made now if nobody owns the mutex, or else by its owner. The thread is in
   it. */
COLD void kick(object_t *object, thread_t *me) {
    while (atomic_load(&object->pending) && !atomic_load(&object->owner)) {
        seat_t *seat = claim_own(object, me);
        uint16_t index = index_of(object, seat);
        atomic_fetch_add(&object->kicks, 1);
        bool is_mine = step_of_kick(object, index, AQS_STEP_TRY);
        if (is_mine) {
            flush(object, index);
            step_of_kick(object, index, AQS_STEP_GIVE);
        }
        atomic_fetch_add(&object->kicks, 1);
        atomic_exchange(&object->core->seats[index].user, 0);
        if (!is_mine) return;
    }
}

/* Enters the mutex of which the variable has a number. NULL: there is none, and the thread is in no object. A mutex
   that is destroyed gives its numbers up first, and then waits until all have left it. */
static object_t *enter_bound(thread_t *me, condition_t *condition, int *number) {
    enter_elsewhere(me);
    spin_lock(&bind_lock);
    object_t *object = condition->bound;
    *number = condition->number;
    if (object) atomic_exchange(&me->in, object);
    spin_unlock(&bind_lock);
    if (!object) leave(me);
    else if (atomic_load(&object->epoch) != atomic_load(&epoch)) enter_slowly(me, object);
    return object;
}

static void note_signal(object_t *object, thread_t *me, int number, bool all) {
    if (all) atomic_fetch_or(&object->signals[number], ALL);
    else atomic_fetch_add(&object->signals[number], 1);
    atomic_fetch_or(&object->pending, 1u << number);
    kick(object, me);
}

/* Signals the waiters that the mutex has, if there are some. Whether one of them was moved: a thread that doesn't
   own the mutex can't tell. */
static bool signal_bound(thread_t *me, condition_t *condition, bool all) {
    int number;
    bool is_moved = false;
    object_t *object = enter_bound(me, condition, &number);
    if (!object) return false;
    if (object->owner == me->id) is_moved = signal_numbered(object, object->owner_seat, number, all) > 0;
    else note_signal(object, me, number, all);
    leave(me);
    return is_moved;
}

static bool owns_bound(const thread_t *me, const condition_t *condition) {
    const object_t *object = condition->bound;
    return object && object->owner == me->id;
}

/* The owner knows whether its signal found a waiter of the mutex, and else takes one of the list. Other threads
   take one of the list first. */
static int signal_condition(condition_t *condition, bool all) {
    thread_t *me = self();
    if (condition->users == 1) return 0;
    if (owns_bound(me, condition)) {
        if (!signal_bound(me, condition, all) || all) signal_listed(me, condition, all);
    } else if (!signal_listed(me, condition, all) || all) {
        signal_bound(me, condition, all);
    }
    return 0;
}

SHOWN int pthread_cond_signal(pthread_cond_t *variable) {
    condition_t *condition = condition_of(variable);
    return condition ? signal_condition(condition, false) : REAL(pthread_cond_signal, variable);
}

SHOWN int pthread_cond_broadcast(pthread_cond_t *variable) {
    condition_t *condition = condition_of(variable);
    return condition ? signal_condition(condition, true) : REAL(pthread_cond_broadcast, variable);
}

/* Waits by a number -------------------------------------------------------------------------------------- */

typedef struct {
    condition_t *condition;
    object_t *object; /* NULL: the mutex is glibc's */
    pthread_mutex_t *mutex;
    thread_t *me;
    deadline_t deadline;
    void *place;
    uint64_t end; /* of its hold */
    uint16_t seat;
    uint32_t holds;
    waiter_t waiter;
} wait_t;

static void begin_sleep(wait_t *wait) {
    request_t request = {.mode = SLEEP, .deadline = wait->deadline, .place = wait->place};
    begin_wait(wait->me, wait->object, &request);
}

static void sleep_on(wait_t *wait, aqs_answer_t *answer) {
    object_t *object = wait->object;
    seat_t *seat = &object->core->seats[wait->seat];
    aqs_call_t call = {.time = 1, .kind = AQS_CALL_AWAIT, .mode = (uint8_t)wait->condition->number};
    call.how = wait->deadline.at ? AQS_HOW_TIMED : AQS_HOW_INTERRUPTIBLE;
    seat->how = call.how, seat->condition = call.mode, seat->order = ++object->order;
    object->sleepers++;
    if (seat->since) end_hold(object, seat, wait->end);
    atomic_exchange(&object->owner, 0);
    seat->state = SLEEPING;
    aqs_begin(&seat->pass, &call, answer);
    if (answer->kind != AQS_IS_WAITING || answer->has_wakes) {
        seat->state = IDLE;
        end_begin(object, wait->seat, &call, answer);
        seat = &object->core->seats[wait->seat];
        seat->state = SLEEPING;
    } else {
        object->core->entries++;
    }
    if (atomic_load(&object->pending)) kick(object, wait->me);
    if (object->wanted) fold_if_full(object, wait->me);
}

static void wake_up(wait_t *wait, const aqs_answer_t *answer) {
    object_t *object = wait->object;
    seat_t *seat = &object->core->seats[wait->seat];
    seat->state = IDLE;
    object->sleepers--;
    object->moved -= answer->end == AQS_END_SIGNALLED;
    object->owner_seat = wait->seat;
    atomic_store(&object->owner, wait->me->id);
    end_sleep(wait->me, object);
}

static void turns_of_wait(wait_t *wait, aqs_answer_t *answer, unsigned ends) {
    object_t *object = wait->object;
    while (answer->kind == AQS_IS_WAITING) {
        uint8_t woke = WOKE;
        if (answer->parks) {
            leave(wait->me);
            woke = park_as(wait->me, answer, wait->deadline, ends);
            enter(wait->me, object);
        }
        if (woke != WOKE) object->core->seats[wait->seat].state = QUEUED;
        next_turn(object, wait->seat, woke, answer);
    }
}

/* The thread was cancelled: it takes the mutex back, and hands on a signal that came in the same moment. */
static void stop_sleeping(void *with) {
    wait_t *wait = with;
    aqs_answer_t answer;
    enter(wait->me, wait->object);
    forget_park(wait->me);
    wait->object->core->seats[wait->seat].state = QUEUED;
    next_turn(wait->object, wait->seat, STOPPED, &answer);
    wait->deadline.at = NULL;
    turns_of_wait(wait, &answer, NO_END);
    wake_up(wait, &answer);
    begin_hold(&wait->object->core->seats[wait->seat]);
    bool is_lost = answer.end == AQS_END_SIGNALLED
                   && !signal_numbered(wait->object, wait->seat, wait->condition->number, false);
    leave(wait->me);
    if (is_lost) signal_listed(wait->me, wait->condition, false);
    let_go(wait->me, wait->condition);
}

static int wait_numbered(wait_t *wait) {
    aqs_answer_t answer;
    begin_sleep(wait);
    sleep_on(wait, &answer);
    pthread_cleanup_push(stop_sleeping, wait);
    turns_of_wait(wait, &answer, ENDS_BY_CANCEL);
    pthread_cleanup_pop(0);
    wake_up(wait, &answer);
    end_use(wait->condition);
    begin_hold(&wait->object->core->seats[wait->seat]);
    leave(wait->me);
    return answer.end == AQS_END_TIMEOUT ? ETIMEDOUT : 0;
}

/* Waits in the list -------------------------------------------------------------------------------------- */

static void enlist(wait_t *wait) {
    condition_t *condition = wait->condition;
    waiter_t *waiter = &wait->waiter;
    enter_elsewhere(wait->me);
    spin_lock(&condition->lock);
    waiter->is_listed = true;
    if (condition->last) condition->last->next = waiter;
    else condition->first = waiter;
    condition->last = waiter;
    spin_unlock(&condition->lock);
    leave(wait->me);
}

/* Leaves the list. False: a signal had taken the waiter out. */
static bool leaves_list(wait_t *wait) {
    condition_t *condition = wait->condition;
    enter_elsewhere(wait->me);
    spin_lock(&condition->lock);
    bool was_listed = wait->waiter.is_listed;
    waiter_t *before = NULL;
    for (waiter_t *at = condition->first; was_listed && at; before = at, at = at->next) {
        if (at != &wait->waiter) continue;
        if (before) before->next = at->next;
        else condition->first = at->next;
        if (condition->last == at) condition->last = before;
        break;
    }
    wait->waiter.is_listed = false;
    spin_unlock(&condition->lock);
    leave(wait->me);
    return was_listed;
}

/* A mutex of glibc may refuse to be unlocked, or tell that its owner has died. */
static int unlock_for_wait(wait_t *wait) {
    if (!wait->object) return REAL(pthread_mutex_unlock, wait->mutex);
    begin_sleep(wait);
    wait->holds = unlock_whole(wait->object, wait->me);
    return 0;
}

static int lock_after_wait(wait_t *wait) {
    if (!wait->object) return REAL(pthread_mutex_lock, wait->mutex);
    lock_again(wait->object, wait->holds, wait->place);
    enter(wait->me, wait->object);
    end_sleep(wait->me, wait->object);
    leave(wait->me);
    return 0;
}

static void stop_waiting_in_list(void *with) {
    wait_t *wait = with;
    if (!leaves_list(wait)) signal_condition(wait->condition, false);
    lock_after_wait(wait);
    let_go(wait->me, wait->condition);
}

static int wait_listed(wait_t *wait) {
    enlist(wait);
    int error = unlock_for_wait(wait);
    if (error) {
        if (!leaves_list(wait)) signal_condition(wait->condition, false);
        return error;
    }
    pthread_cleanup_push(stop_waiting_in_list, wait);
    while (!atomic_load(&wait->waiter.word))
        if (sleep_while(&wait->waiter.word, 0, wait->deadline, ENDS_BY_CANCEL) == TIMED_OUT) break;
    pthread_cleanup_pop(0);
    bool is_late = leaves_list(wait);
    error = lock_after_wait(wait);
    return error ? error : is_late ? ETIMEDOUT : 0;
}

/* `end` is that of its hold. */
static int
wait_on(condition_t *condition, pthread_mutex_t *mutex, void *place, deadline_t deadline, uint64_t end) {
    if (deadline.at && !is_deadline(deadline.at)) return EINVAL;
    pthread_testcancel();
    wait_t wait = {.condition = condition, .mutex = mutex, .deadline = deadline, .place = place, .end = end};
    wait.me = self();
    wait.object = object_of_mutex(mutex, place);
    if (wait.object && wait.object->owner != wait.me->id) return EPERM;
    bool is_numbered = false;
    if (wait.object) {
        enter(wait.me, wait.object);
        if (atomic_load(&wait.object->pending)) flush(wait.object, wait.object->owner_seat);
        is_numbered = has_number(wait.object, wait.me, condition);
        wait.seat = wait.object->owner_seat;
        if (!is_numbered) leave(wait.me);
    }
    atomic_fetch_add(&condition->users, 1);
    if (is_numbered) return wait_numbered(&wait);
    int error = wait_listed(&wait);
    let_go(wait.me, condition);
    return error;
}

SHOWN int pthread_cond_wait(pthread_cond_t *variable, pthread_mutex_t *mutex) {
    uint64_t end = time_of_end();
    condition_t *condition = condition_of(variable);
    if (!condition) return REAL(pthread_cond_wait, variable, mutex);
    return wait_on(condition, mutex, HERE, FOREVER, end);
}

SHOWN int
pthread_cond_timedwait(pthread_cond_t *variable, pthread_mutex_t *mutex, const struct timespec *moment) {
    uint64_t end = time_of_end();
    condition_t *condition = condition_of(variable);
    if (!condition) return REAL(pthread_cond_timedwait, variable, mutex, moment);
    return wait_on(condition, mutex, HERE, (deadline_t){moment, condition->clock}, end);
}

SHOWN int pthread_cond_clockwait(
    pthread_cond_t *variable, pthread_mutex_t *mutex, clockid_t clock, const struct timespec *moment) {
    uint64_t end = time_of_end();
    condition_t *condition = condition_of(variable);
    if (!condition) return REAL(pthread_cond_clockwait, variable, mutex, clock, moment);
    if (!is_clock(clock)) return EINVAL;
    return wait_on(condition, mutex, HERE, (deadline_t){moment, clock}, end);
}
