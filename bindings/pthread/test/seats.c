/* What comes between two steps of the recorder, as to who waits for a seat of an object that has none to give. Objects
   are made here, and none is recorded: what comes between two steps comes always. A wake that is lost is seen by the
   alarm. And what a write leaves in the recorder's memory, and what is added to a hold of a slower processor. */
#include <stdatomic.h>

/* What another thread does after a look at an address, or after a value was taken from there. */
static const volatile void *looked_at;
static void (*after_it)(void);
static inline void come_between(const volatile void *at) {
    if (at != looked_at) return;
    looked_at = 0;
    after_it();
}
#define THEN_OTHERS(at, value)      \
    ({                              \
        __auto_type value_ = value; \
        come_between(at);           \
        value_;                     \
    })
#undef atomic_load
#define atomic_load(at) THEN_OTHERS(at, atomic_load_explicit(at, memory_order_seq_cst))
#undef atomic_exchange
#define atomic_exchange(at, value) THEN_OTHERS(at, atomic_exchange_explicit(at, value, memory_order_seq_cst))
#include "../record.h"
#include "check.h"

/* What another thread does after a look for a seat that found none. */
static void (*after_a_look)(object_t *object);
static seat_t *look_for_seat(object_t *object, thread_t *me) {
    seat_t *seat = claim(object, me);
    void (*then)(object_t *) = after_a_look;
    after_a_look = NULL;
    if (!seat && then) then(object);
    return seat;
}
/* Another thread is in a turn for as long. */
static atomic_uint busy_milliseconds;
static void begin_if_free(aqs_pass_t *pass, const aqs_call_t *call, aqs_answer_t *answer) {
    if (!busy_milliseconds) {
        aqs_begin(pass, call, answer);
        return;
    }
    busy_milliseconds--;
    usleep(1000);
    *answer = (aqs_answer_t){.kind = AQS_IS_BUSY};
}
#define aqs_begin begin_if_free
#define claim look_for_seat
#include "../objects.c"
#undef claim
#include "../calls.c"
#include "../conditions.c"

enum { OTHERS = 1000000, FREED = 7 };

/* A semaphore with one permit, all seats of which others have. */
static object_t *full_object(sem_t *semaphore, uint8_t level) {
    object_t *object = heap_take_zeroed(sizeof *object);
    thread_t *me = self();
    object->kind = SEMAPHORE, object->permits = 1, object->wanted = level, object->born = epoch_of_now();
    *tag_of_semaphore(semaphore) = (tag_t){object, mark_of(semaphore)};
    enter(me, object);
    for (uint16_t i = 0; i < usable(object->core); i++) object->core->seats[i].user = OTHERS + i;
    leave(me);
    return object;
}

static void give_seat(object_t *object) { unclaim(object, &object->core->seats[FREED]); }

/* Its wake is not lost, though the thread doesn't sleep yet. */
static void a_seat_comes_free_after_the_look(void) {
    static sem_t semaphore;
    object_t *object = full_object(&semaphore, LEVELS - 1);
    thread_t *me = self();
    request_t request = {.mode = AQS_MODE_SHARED};
    uint8_t woke;
    after_a_look = give_seat;
    enter(me, object);
    seat_t *seat = claim_or_wait(object, me, &request, &woke);
    CHECK(seat == &object->core->seats[FREED]);
    end_wait(me, object);
    leave(me);
}

static atomic_bool has_taken;

static void *take(void *semaphore) {
    CHECK(sem_wait(semaphore) == 0);
    atomic_store(&has_taken, true);
    return NULL;
}

static void wait_for_sleepers(unsigned wanted) {
    for (unsigned found = 0; found < wanted && !has_taken; usleep(1000)) {
        found = 0;
        for (thread_t *at = all_threads(); at; at = at->next) found += at->waiting[0].since && at->is_asleep;
    }
}

/* Two wait for a seat. The wake for one went to the first, which is cancelled: so the second has it. */
static void a_cancelled_wait_hands_its_wake_on(void) {
    static sem_t semaphore;
    object_t *object = full_object(&semaphore, LEVELS - 1);
    pthread_t threads[2];
    void *end;
    for (unsigned i = 0; i < 2; i++) {
        CHECK(pthread_create(&threads[i], NULL, take, &semaphore) == 0);
        wait_for_sleepers(i + 1);
    }
    object->core->seats[FREED].user = 0;
    CHECK(pthread_cancel(threads[0]) == 0);
    CHECK(pthread_join(threads[0], &end) == 0 && end == PTHREAD_CANCELED);
    CHECK(pthread_join(threads[1], &end) == 0 && end == NULL);
    CHECK(object->outside == 0);
}

/* A thread gives its seat back, and finds that nobody is outside. Then one comes: it has the seat, or its wake. */
static sem_t asked_for;
static pthread_t comes;

static void come(void) {
    CHECK(pthread_create(&comes, NULL, take, &asked_for) == 0);
    wait_for_sleepers(1);
}

static void one_comes_as_a_seat_is_given_back(void) {
    object_t *object = full_object(&asked_for, LEVELS - 1);
    thread_t *me = self();
    has_taken = false;
    after_it = come, looked_at = &object->outside;
    enter(me, object);
    give_seat(object);
    leave(me);
    CHECK(pthread_join(comes, NULL) == 0);
}

static atomic_bool has_tried;
static void note_the_try(void) { has_tried = true; }

static void *end_a_turn(void *object) {
    thread_t *me = self();
    enter(me, object);
    tend(object, me);
    leave(me);
    return NULL;
}

/* One waits outside until the queue is empty. The last that was in it lets the object grow, also if another looks at
   it just then. */
static void the_object_grows_after_a_look(void) {
    object_t *object = full_object(&asked_for, 0);
    pthread_t last;
    has_taken = false;
    object->core->seats[0].state = QUEUED;
    come();
    object->core->seats[0].state = IDLE;
    CHECK(spin_try(&object->lock));
    after_it = note_the_try, looked_at = &object->lock;
    CHECK(pthread_create(&last, NULL, end_a_turn, object) == 0);
    while (!has_tried) usleep(1000);
    spin_unlock(&object->lock);
    CHECK(pthread_join(last, NULL) == 0 && pthread_join(comes, NULL) == 0);
}

static pthread_mutex_t mutex = PTHREAD_MUTEX_INITIALIZER;
static pthread_cond_t variable = PTHREAD_COND_INITIALIZER;
static atomic_int begun;

static void *sleep_once(void *none) {
    CHECK(pthread_mutex_lock(&mutex) == 0);
    begun++;
    CHECK(pthread_cond_wait(&variable, &mutex) == 0 && pthread_mutex_unlock(&mutex) == 0);
    return none;
}

static void *signal_once(void *none) {
    CHECK(pthread_cond_signal(&variable) == 0);
    return none;
}

static void signal_by_another(void) {
    pthread_t signals;
    CHECK(pthread_create(&signals, NULL, signal_once, NULL) == 0 && pthread_join(signals, NULL) == 0);
}

/* Two sleep. One signal was noted, and as the owner makes it another is. */
static void a_signal_is_noted_as_one_is_made(void) {
    pthread_t sleepers[2];
    object_t *object = open_object(tag_of_mutex(&mutex), &mutex, MUTEX, NORMAL, 0, NULL, true);
    is_recording = true;
    CHECK(open_condition(&variable));
    is_recording = false;
    for (int i = 0; i < 2; i++) CHECK(pthread_create(&sleepers[i], NULL, sleep_once, NULL) == 0);
    while (begun < 2) usleep(1000);
    CHECK(pthread_mutex_lock(&mutex) == 0);
    signal_by_another();
    after_it = signal_by_another, looked_at = &object->signals[condition_of(&variable)->number];
    CHECK(pthread_mutex_unlock(&mutex) == 0);
    for (int i = 0; i < 2; i++) CHECK(pthread_join(sleepers[i], NULL) == 0);
}

static void *lock_once(void *none) {
    CHECK(pthread_mutex_lock(&mutex) == 0 && pthread_mutex_unlock(&mutex) == 0);
    return none;
}

/* A write has told who waits, who holds, and how long, and gives its memory back. */
static void a_write_leaves_no_memory(void) {
    pthread_t waits;
    size_t before = 0;
    is_timed = true, has_taken = false;
    CHECK(pthread_mutex_lock(&mutex) == 0);
    CHECK(pthread_create(&waits, NULL, lock_once, NULL) == 0);
    wait_for_sleepers(1);
    for (int i = 0; i < 3; i++) {
        before = heap_in_use();
        write_all(self());
    }
    CHECK(heap_in_use() == before);
    CHECK(pthread_mutex_unlock(&mutex) == 0 && pthread_join(waits, NULL) == 0);
}

/* Who finds the object busy, and then waits, has waited since it was busy. */
static void a_wait_begins_as_the_object_is_busy(void) {
    pthread_t waits;
    object_t *object = open_object(tag_of_mutex(&mutex), &mutex, MUTEX, NORMAL, 0, NULL, true);
    is_timed = has_taken = false;
    CHECK(pthread_mutex_lock(&mutex) == 0);
    busy_milliseconds = 200;
    CHECK(pthread_create(&waits, NULL, lock_once, NULL) == 0);
    wait_for_sleepers(1);
    CHECK(pthread_mutex_unlock(&mutex) == 0 && pthread_join(waits, NULL) == 0);
    CHECK(busy_milliseconds == 0 && object->wait_times->longest > 190000000);
}

/* By what was found at the start the processor is half as fast now. Most holds of nothing are still told as less than
   4 nanoseconds. The machine may be disturbed in one try. */
static void holds_on_a_slower_processor(void) {
    enum { MANY = 20000 };
    static pthread_mutex_t held;
    uint64_t short_ones = 0;
    is_timed = true;
    begin_timing();
    added_to_hold /= 2, self()->added = 0;
    for (int i = 0; i < 20 && short_ones <= MANY / 2; i++) {
        object_t *object = open_object(tag_of_mutex(&held), &held, MUTEX, NORMAL, 0, NULL, true);
        for (int j = 0; j < MANY; j++) CHECK(pthread_mutex_lock(&held) == 0 && pthread_mutex_unlock(&held) == 0);
        short_ones = object->hold_times->buckets[0] + object->hold_times->buckets[1];
    }
    CHECK(short_ones > MANY / 2);
}

int main(void) {
    alarm(20);
    a_seat_comes_free_after_the_look();
    a_cancelled_wait_hands_its_wake_on();
    one_comes_as_a_seat_is_given_back();
    the_object_grows_after_a_look();
    a_signal_is_noted_as_one_is_made();
    a_write_leaves_no_memory();
    a_wait_begins_as_the_object_is_busy();
    holds_on_a_slower_processor();
    return 0;
}
