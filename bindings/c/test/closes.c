/* closes.c: an object may be closed as soon as what others did with it was seen. The linker puts the
   functions below in the place of the turns of the proved library (see the Makefile): a turn of a slow thread
   is still under way for a while after others can see what it did. */
#include "check.h"

#include "aqs_core.h"

#include <pthread.h>
#include <signal.h>
#include <stdatomic.h>

void __real_aqs_step_now(aqs_pass_t *pass, aqs_step_t step, aqs_answer_t *answer);
uint32_t __real_aqs_step_at_once(aqs_pass_t *pass, aqs_step_t step);
void __real_aqs_begin(aqs_pass_t *pass, const aqs_call_t *call, aqs_answer_t *answer);
void __real_aqs_go_on(aqs_pass_t *pass, uint8_t woke, aqs_answer_t *answer);

static _Thread_local bool is_slow;
static atomic_bool is_under_way;

/* A turn ends by a write to its pass. */
static void end_slowly(aqs_pass_t *pass) {
    if (!is_slow) return;
    usleep(10000);
    ((volatile aqs_pass_t *)pass)->live = pass->live;
    atomic_store(&is_under_way, false);
}

static void begin_slowly(void) {
    if (is_slow) atomic_store(&is_under_way, true);
}

/* A thread whose next turn a signal interrupts. The handler leaves a post, which is made as the call leaves its
   object: some while later, in which another thread closes that object. */
static _Thread_local enum { NO_POST, IS_INTERRUPTED, MAKES_A_POST } post;

static void begin_step(void) {
    begin_slowly();
    if (post == MAKES_A_POST) usleep(20000);
}

static void end_step(aqs_pass_t *pass) {
    if (post == IS_INTERRUPTED) {
        CHECK(raise(SIGUSR1) == 0);
        post = MAKES_A_POST;
    }
    end_slowly(pass);
}

void __wrap_aqs_step_now(aqs_pass_t *pass, aqs_step_t step, aqs_answer_t *answer) {
    begin_step();
    __real_aqs_step_now(pass, step, answer);
    end_step(pass);
}

uint32_t __wrap_aqs_step_at_once(aqs_pass_t *pass, aqs_step_t step) {
    begin_step();
    uint32_t done = __real_aqs_step_at_once(pass, step);
    end_step(pass);
    return done;
}

void __wrap_aqs_begin(aqs_pass_t *pass, const aqs_call_t *call, aqs_answer_t *answer) {
    begin_slowly();
    __real_aqs_begin(pass, call, answer);
    end_slowly(pass);
}

void __wrap_aqs_go_on(aqs_pass_t *pass, uint8_t woke, aqs_answer_t *answer) {
    begin_slowly();
    __real_aqs_go_on(pass, woke, answer);
    end_slowly(pass);
}

aqs_status_t __real_aqs_lock_unlock(aqs_lock_t *lock);

/* A slow thread is slow before it unlocks, too. */
aqs_status_t __wrap_aqs_lock_unlock(aqs_lock_t *lock) {
    begin_slowly();
    if (is_slow) usleep(10000);
    return __real_aqs_lock_unlock(lock);
}

static aqs_options_t options = {.policy = AQS_NONFAIR, .threads = 8};
static bool is_slow_round;
static bool is_done;
static void *object;

/* The last thing that a thread does with an object is slow in a slow round. */
static void becomes_slow(void) { is_slow = is_slow_round; }

static void *count_down(void *none) {
    becomes_slow();
    IS(aqs_latch_count_down(object), AQS_OK);
    return none;
}

/* One that has passed a latch may close it. */
static void one_latch(bool looks_first) {
    aqs_latch_t *latch;
    pthread_t thread;
    uint32_t count = looks_first;
    IS(aqs_latch_open(&latch, 1, &options), AQS_OK);
    object = latch;
    CHECK(pthread_create(&thread, NULL, count_down, NULL) == 0);
    for (; count > 0; usleep(10)) IS(aqs_latch_getcount(latch, &count), AQS_OK);
    IS(aqs_latch_await(latch), AQS_OK);
    aqs_latch_close(latch);
    CHECK(!atomic_load(&is_under_way));
    CHECK(pthread_join(thread, NULL) == 0);
}

/* A database waits for its background thread under its mutex, and is gone with it. */

static void *work_in_background(void *none) {
    IS(aqs_lock_lock(object), AQS_OK);
    is_done = true;
    IS(aqs_lock_signal_all(object, 0), AQS_OK);
    becomes_slow();
    IS(aqs_lock_unlock(object), AQS_OK);
    return none;
}

static void one_lock(void) {
    aqs_lock_t *lock;
    pthread_t thread;
    IS(aqs_lock_open(&lock, &options), AQS_OK);
    object = lock;
    is_done = false;
    CHECK(pthread_create(&thread, NULL, work_in_background, NULL) == 0);
    IS(aqs_lock_lock(lock), AQS_OK);
    while (!is_done) IS(aqs_lock_wait(lock, 0), AQS_OK);
    IS(aqs_lock_unlock(lock), AQS_OK);
    aqs_lock_close(lock);
    CHECK(!atomic_load(&is_under_way));
    CHECK(pthread_join(thread, NULL) == 0);
}

static void *write_once(void *none) {
    IS(aqs_rwlock_wrlock(object), AQS_OK);
    is_done = true;
    becomes_slow();
    IS(aqs_rwlock_wrunlock(object), AQS_OK);
    return none;
}

static void one_rwlock(void) {
    aqs_rwlock_t *lock;
    pthread_t thread;
    IS(aqs_rwlock_open(&lock, &options), AQS_OK);
    object = lock;
    is_done = false;
    CHECK(pthread_create(&thread, NULL, write_once, NULL) == 0);
    for (bool is_seen = false; !is_seen; usleep(10)) {
        IS(aqs_rwlock_rdlock(lock), AQS_OK);
        is_seen = is_done;
        IS(aqs_rwlock_rdunlock(lock), AQS_OK);
    }
    aqs_rwlock_close(lock);
    CHECK(!atomic_load(&is_under_way));
    CHECK(pthread_join(thread, NULL) == 0);
}

static void *take_a_permit(void *none) {
    becomes_slow();
    IS(aqs_sem_acquire(object, 1), AQS_OK);
    return none;
}

/* One that sees that the permit was taken may close the semaphore. */
static void one_semaphore(void) {
    aqs_sem_t *semaphore;
    pthread_t thread;
    int64_t permits = 1;
    IS(aqs_sem_open(&semaphore, 1, &options), AQS_OK);
    object = semaphore;
    CHECK(pthread_create(&thread, NULL, take_a_permit, NULL) == 0);
    for (; permits > 0; usleep(10)) IS(aqs_sem_getvalue(semaphore, &permits), AQS_OK);
    aqs_sem_close(semaphore);
    CHECK(!atomic_load(&is_under_way));
    CHECK(pthread_join(thread, NULL) == 0);
}

static void *wait_for_a_permit(void *none) {
    becomes_slow();
    IS(aqs_sem_acquire(object, 1), AQS_OK);
    return none;
}

/* The same, where the permit is taken by a thread that waited for it. */
static void one_waiter(void) {
    aqs_sem_t *semaphore;
    pthread_t thread;
    int64_t permits = 1;
    IS(aqs_sem_open(&semaphore, 0, &options), AQS_OK);
    object = semaphore;
    CHECK(pthread_create(&thread, NULL, wait_for_a_permit, NULL) == 0);
    usleep(is_slow_round ? 20000 : 50);
    IS(aqs_sem_release(semaphore, 1), AQS_OK);
    for (; permits > 0; usleep(10)) IS(aqs_sem_getvalue(semaphore, &permits), AQS_OK);
    aqs_sem_close(semaphore);
    CHECK(!atomic_load(&is_under_way));
    CHECK(pthread_join(thread, NULL) == 0);
}

static void *meet(void *none) {
    becomes_slow();
    IS(aqs_barrier_wait(object, NULL), AQS_OK);
    return none;
}

/* One that has met another may close the barrier, though the other has not unlocked yet. */
static void one_barrier(void) {
    aqs_barrier_t *barrier;
    pthread_t thread;
    uint32_t count = 0;
    IS(aqs_barrier_open(&barrier, 2, &options), AQS_OK);
    object = barrier;
    CHECK(pthread_create(&thread, NULL, meet, NULL) == 0);
    for (; count == 0; usleep(10)) IS(aqs_object_waiters(aqs_barrier_object(barrier), &count), AQS_OK);
    IS(aqs_barrier_wait(barrier, NULL), AQS_OK);
    aqs_barrier_close(barrier);
    CHECK(!atomic_load(&is_under_way));
    CHECK(pthread_join(thread, NULL) == 0);
}

/* A thread opens a latch for one that waits there, or gives it a permit, and leaves. Before it wakes that one, its time
   is up, it passes, and closes the object. */

static aqs_sem_t *of_handler;

static void on_signal(int number) {
    (void)number;
    IS(aqs_sem_release(of_handler, 1), AQS_OK);
}

static void *open_for_one(void *is_latch) {
    aqs_object_t *of = is_latch ? aqs_latch_object(object) : aqs_sem_object(object);
    for (uint32_t count = 0; count == 0; usleep(10)) IS(aqs_object_queue_length(of, &count), AQS_OK);
    post = IS_INTERRUPTED;
    IS(is_latch ? aqs_latch_count_down(object) : aqs_sem_release(object, 1), AQS_OK);
    CHECK(post == MAKES_A_POST);
    return NULL;
}

static void before_it_is_woken(bool is_latch) {
    struct sigaction action = {.sa_handler = on_signal};
    aqs_latch_t *latch;
    aqs_sem_t *semaphore;
    pthread_t thread;
    aqs_status_t status;
    CHECK(sigaction(SIGUSR1, &action, NULL) == 0);
    IS(aqs_sem_open(&of_handler, 0, &options), AQS_OK);
    if (is_latch) IS(aqs_latch_open(&latch, 1, &options), AQS_OK);
    else IS(aqs_sem_open(&semaphore, 0, &options), AQS_OK);
    object = is_latch ? (void *)latch : semaphore;
    CHECK(pthread_create(&thread, NULL, open_for_one, is_latch ? object : NULL) == 0);
    do status = is_latch ? aqs_latch_timedawait(latch, 5) : aqs_sem_timedacquire(semaphore, 1, 5);
    while (status == AQS_TIMED_OUT);
    IS(status, AQS_OK);
    if (is_latch) aqs_latch_close(latch);
    else aqs_sem_close(semaphore);
    CHECK(pthread_join(thread, NULL) == 0);
    IS(aqs_sem_tryacquire(of_handler, 1), AQS_OK);
    aqs_sem_close(of_handler);
}

static void round_of_all(void) {
    one_latch(false);
    one_latch(true);
    one_lock();
    one_rwlock();
    one_semaphore();
    one_waiter();
    one_barrier();
}

int main(void) {
    alarm(100);
    is_slow_round = true;
    for (int i = 0; i < 5; i++) round_of_all();
    for (int i = 0; i < 10; i++) before_it_is_woken(i % 2);
    is_slow_round = false;
    for (int i = 0; i < 300; i++) round_of_all();
    puts("closes: good");
    return 0;
}
