/* answers.c: which step or call of aqs_core.h each call of aqs.h makes, and what it makes of each answer. The
   functions below stand in the place of the proved library: they note what they are asked, and answer what a
   row says. */
#include "play.h"

#include "aqs_core.h"

#include <linux/futex.h>
#include <linux/membarrier.h>
#include <sys/wait.h>

enum { SEATS = 4, MANY = 5000 };
enum { X = AQS_MODE_EXCLUSIVE, S = AQS_MODE_SHARED };

#define ENTRY(made) \
    { .kind = AQS_IS_ENTRY, .word = AQS_WORD_##made }
#define ENDED(made, ended_by) \
    { .kind = AQS_IS_ENTRY, .word = AQS_WORD_##made, .end = AQS_END_##ended_by }
#define REFUSED(by) \
    { .kind = AQS_IS_ENTRY, .word = AQS_WORD_REFUSED, .fault = AQS_FAULT_##by }
#define FAULT(by) \
    { .kind = AQS_IS_FAULT, .fault = AQS_FAULT_##by }
#define KIND(of) \
    { .kind = AQS_IS_##of }

static const aqs_answer_t got = ENTRY(GOT), busy = KIND(BUSY);

/* What the library below was asked. Only one thread asks at a time. */
static aqs_header_t header;
static size_t count_of_passes;
static aqs_call_t call;
static aqs_step_t step;
static char woke[40]; /* a digit for each aqs_go_on */
static aqs_step_t step_at_once;
static uint32_t of_step_at_once;
static int begins, steps, steps_at_once, looks, trims, drops, busy_looks;
static uint32_t times[4]; /* of the last calls, the first at 0 */
static atomic_int slow_turn; /* which of the next turns takes long, or 0 */
static atomic_bool is_under_way, forks;
static bool forks_itself;
static size_t size_of_text;
static uint8_t of_open, of_look, of_trim;
static uint64_t folded;

/* What the clock shows to players, in nanoseconds, or 0 for what it really shows. By so much it goes on with
   each call. */
static atomic_long clock_shows;
static long clock_step;

/* The answers to each seat: a list, whose last is given for good. Before the last the object is so often
 * busy. */
static struct {
    const aqs_answer_t *answers;
    atomic_int busy, at, count;
} to[SEATS];

static void answer_with(int seat, int busy_answers, const aqs_answer_t *answers, int count) {
    to[seat].answers = answers;
    atomic_store(&to[seat].busy, busy_answers);
    atomic_store(&to[seat].at, 0);
    atomic_store(&to[seat].count, count);
}

static void answer(const aqs_pass_t *pass, aqs_answer_t *answer) {
    size_t seat = pass->live - 1;
    CHECK(seat < SEATS);
    int at = atomic_load(&to[seat].at);
    bool is_last = at + 1 == atomic_load(&to[seat].count);
    if (is_last && atomic_load(&to[seat].busy) > 0) {
        atomic_fetch_sub(&to[seat].busy, 1);
        *answer = busy;
        return;
    }
    *answer = to[seat].answers[at];
    if (!is_last) atomic_store(&to[seat].at, at + 1);
}

/* A turn that takes long ends some while after the process began to fork, or its own thread forks in it, as a signal
   handler may. */
static void take_long(void) {
    if (atomic_load(&slow_turn) == 0 || atomic_fetch_sub(&slow_turn, 1) > 1) return;
    if (forks_itself) {
        int status;
        pid_t child = fork();
        CHECK(child >= 0);
        if (child == 0) _Exit(0);
        CHECK(waitpid(child, &status, 0) == child && status == 0);
        return;
    }
    atomic_store(&is_under_way, true);
    while (!atomic_load(&forks)) usleep(20);
    usleep(10000);
    atomic_store(&is_under_way, false);
}

uint8_t aqs_open(aqs_header_t given, aqs_pass_t *places, size_t count) {
    header = given;
    count_of_passes = count;
    for (size_t i = 0; i < count && of_open == 0; i++) places[i].live = i + 1;
    return of_open;
}
void aqs_step_now(aqs_pass_t *pass, aqs_step_t made, aqs_answer_t *to_answer) {
    step = made;
    steps++;
    take_long();
    answer(pass, to_answer);
}
uint32_t aqs_step_at_once(aqs_pass_t *pass, aqs_step_t made) {
    CHECK(pass->live);
    step_at_once = made;
    steps_at_once++;
    if (of_step_at_once != AQS_NOT_DONE) take_long();
    return of_step_at_once;
}
void aqs_begin(aqs_pass_t *pass, const aqs_call_t *made, aqs_answer_t *to_answer) {
    call = *made;
    if (begins < 4) times[begins] = made->time;
    begins++;
    if (clock_step) atomic_fetch_add(&clock_shows, clock_step);
    take_long();
    answer(pass, to_answer);
}
void aqs_go_on(aqs_pass_t *pass, uint8_t how, aqs_answer_t *to_answer) {
    take_long();
    answer(pass, to_answer);
    size_t length = strlen(woke);
    if (to_answer->kind != AQS_IS_BUSY && length + 1 < sizeof woke) woke[length] = (char)('0' + how);
}
void aqs_entry_now(aqs_pass_t *pass, uint64_t number, aqs_answer_t *to_answer) {
    (void)pass, (void)number, (void)to_answer;
    CHECK(false);
}
static uint8_t look(void) {
    looks++;
    take_long();
    return busy_looks > 0 ? busy_looks--, AQS_IS_BUSY : of_look;
}
uint8_t aqs_text_now(aqs_pass_t *pass, uint8_t *out, size_t size, uint64_t *length) {
    CHECK(pass->live && out);
    size_of_text = size;
    uint8_t kind = look();
    if (kind != AQS_IS_ENTRY) return kind;
    *length = 5;
    if (size >= 5) memcpy(out, "hello", 5);
    return kind;
}
uint8_t aqs_trim_now(aqs_pass_t *pass, uint64_t *count) {
    CHECK(pass->live);
    trims++;
    take_long();
    if (busy_looks > 0) return busy_looks--, AQS_IS_BUSY;
    if (of_trim == AQS_IS_ENTRY) *count = folded;
    return of_trim;
}
uint8_t aqs_available_now(aqs_pass_t *pass, int64_t *permits) {
    CHECK(pass->live);
    uint8_t kind = look();
    if (kind == AQS_IS_ENTRY) *permits = -7;
    return kind;
}
uint8_t aqs_count_now(aqs_pass_t *pass, uint32_t *count) {
    CHECK(pass->live);
    uint8_t kind = look();
    if (kind == AQS_IS_ENTRY) *count = 2147483647;
    return kind;
}
uint8_t aqs_contention_now(aqs_pass_t *pass, aqs_contention_t *contention) {
    CHECK(pass->live);
    uint8_t kind = look();
    if (kind == AQS_IS_ENTRY) *contention = (aqs_contention_t){256, 255, true};
    return kind;
}
void aqs_drop(aqs_pass_t *pass) {
    CHECK(pass->live == (uint64_t)drops + 1);
    drops++;
    *pass = (aqs_pass_t)AQS_NO_PASS;
}

/* Counts the calls of aqs.c that let threads sleep and wake, and those that order what other threads do. Notes
   where a thread slept last. */
static atomic_int futex_calls, orders;
static void (*after_order)(void);
static atomic_long slept_at;

/* How often a thread slept that waits for a seat. If the test says so, it stays there until it may look again. */
static atomic_int naps;
static atomic_bool stays;
static sem_t may_look;
long __real_syscall(long number, long a, long b, long c, long d, long e, long f);
long __wrap_syscall(long number, long a, long b, long c, long d, long e, long f) {
    if (number == SYS_futex) atomic_fetch_add(&futex_calls, 1);
    if (number == SYS_futex && b == FUTEX_WAIT_BITSET_PRIVATE) atomic_store(&slept_at, a);
    if (number == SYS_futex && b == FUTEX_WAIT_PRIVATE && atomic_load(&stays)) {
        atomic_fetch_add(&naps, 1);
        while (sem_wait(&may_look) != 0) continue;
        return 0;
    }
    long result = __real_syscall(number, a, b, c, d, e, f);
    bool orders_turns = number == SYS_membarrier && a == MEMBARRIER_CMD_PRIVATE_EXPEDITED && result == 0;
    if (orders_turns) atomic_fetch_add(&orders, 1);
    if (orders_turns && after_order) after_order();
    return result;
}

/* No other clock is asked. */
static _Thread_local bool is_main;
int __real_clock_gettime(clockid_t clock, struct timespec *now);
int __wrap_clock_gettime(clockid_t clock, struct timespec *now) {
    CHECK(clock == CLOCK_MONOTONIC || clock == CLOCK_THREAD_CPUTIME_ID);
    long shown = is_main || clock != CLOCK_MONOTONIC ? 0 : atomic_load(&clock_shows);
    if (shown == 0) return __real_clock_gettime(clock, now);
    *now = (struct timespec){shown / 1000000000, shown % 1000000000};
    return 0;
}

/* Opens the four objects. */
static void open_all(const aqs_options_t *options) {
    IS(aqs_lock_open(&lock, options), AQS_OK);
    IS(aqs_rwlock_open(&rwlock, options), AQS_OK);
    IS(aqs_sem_open(&semaphore, 0, options), AQS_OK);
    IS(aqs_latch_open(&latch, 0, options), AQS_OK);
    object = aqs_lock_object(lock);
}

static void close_all(void) {
    for (kind_t kind = LOCK; kind <= LATCH; kind++) {
        drops = 0;
        close_it(kind);
        CHECK(drops == SEATS);
    }
}

/* Which step or call a call makes ---------------------------------------------------------------------- */

static const struct {
    kind_t kind;
    const char *name;
    aqs_call_t wanted; /* of n and time is written what the call itself fixes */
} waiting_calls[] = {
    {LOCK, "lock", {.kind = AQS_CALL_ACQUIRE, .mode = X, .n = 1, .how = AQS_HOW_PLAIN}},
    {LOCK, "lock_interruptibly", {.kind = AQS_CALL_ACQUIRE, .mode = X, .n = 1, .how = AQS_HOW_INTERRUPTIBLE}},
    {LOCK, "timedlock", {.kind = AQS_CALL_ACQUIRE, .mode = X, .n = 1, .how = AQS_HOW_TIMED}},
    {LOCK, "wait", {.kind = AQS_CALL_AWAIT, .how = AQS_HOW_PLAIN}},
    {LOCK, "wait_interruptibly", {.kind = AQS_CALL_AWAIT, .how = AQS_HOW_INTERRUPTIBLE}},
    {LOCK, "timedwait", {.kind = AQS_CALL_AWAIT, .how = AQS_HOW_TIMED}},
    {RW, "rdlock", {.kind = AQS_CALL_ACQUIRE, .mode = S, .n = 1, .how = AQS_HOW_PLAIN}},
    {RW, "rdlock_interruptibly", {.kind = AQS_CALL_ACQUIRE, .mode = S, .n = 1, .how = AQS_HOW_INTERRUPTIBLE}},
    {RW, "timedrdlock", {.kind = AQS_CALL_ACQUIRE, .mode = S, .n = 1, .how = AQS_HOW_TIMED}},
    {RW, "wrlock", {.kind = AQS_CALL_ACQUIRE, .mode = X, .n = 1, .how = AQS_HOW_PLAIN}},
    {RW, "wrlock_interruptibly", {.kind = AQS_CALL_ACQUIRE, .mode = X, .n = 1, .how = AQS_HOW_INTERRUPTIBLE}},
    {RW, "timedwrlock", {.kind = AQS_CALL_ACQUIRE, .mode = X, .n = 1, .how = AQS_HOW_TIMED}},
    {RW, "wait", {.kind = AQS_CALL_AWAIT, .how = AQS_HOW_PLAIN}},
    {RW, "wait_interruptibly", {.kind = AQS_CALL_AWAIT, .how = AQS_HOW_INTERRUPTIBLE}},
    {RW, "timedwait", {.kind = AQS_CALL_AWAIT, .how = AQS_HOW_TIMED}},
    {SEM, "acquire", {.kind = AQS_CALL_ACQUIRE, .mode = S, .how = AQS_HOW_PLAIN}},
    {SEM, "acquire_interruptibly", {.kind = AQS_CALL_ACQUIRE, .mode = S, .how = AQS_HOW_INTERRUPTIBLE}},
    {SEM, "timedacquire", {.kind = AQS_CALL_ACQUIRE, .mode = S, .how = AQS_HOW_TIMED}},
    {LATCH, "await", {.kind = AQS_CALL_ACQUIRE, .mode = S, .n = 1, .how = AQS_HOW_PLAIN}},
    {LATCH, "await_interruptibly",
     {.kind = AQS_CALL_ACQUIRE, .mode = S, .n = 1, .how = AQS_HOW_INTERRUPTIBLE}},
    {LATCH, "timedawait", {.kind = AQS_CALL_ACQUIRE, .mode = S, .n = 1, .how = AQS_HOW_TIMED}},
};

static const struct {
    kind_t kind;
    const char *name;
    aqs_step_t wanted;
} step_calls[] = {
    {LOCK, "trylock", {.code = AQS_STEP_TRY, .mode = X, .n = 1}},
    {LOCK, "unlock", {.code = AQS_STEP_GIVE, .mode = X, .n = 1}},
    {LOCK, "signal", {.code = AQS_STEP_SIGNAL}},
    {LOCK, "signal_all", {.code = AQS_STEP_SIGNAL_ALL}},
    {RW, "tryrdlock", {.code = AQS_STEP_TRY, .mode = S, .n = 1}},
    {RW, "rdunlock", {.code = AQS_STEP_GIVE, .mode = S, .n = 1}},
    {RW, "trywrlock", {.code = AQS_STEP_TRY, .mode = X, .n = 1}},
    {RW, "wrunlock", {.code = AQS_STEP_GIVE, .mode = X, .n = 1}},
    {RW, "signal", {.code = AQS_STEP_SIGNAL}},
    {RW, "signal_all", {.code = AQS_STEP_SIGNAL_ALL}},
    {SEM, "tryacquire", {.code = AQS_STEP_TRY, .mode = S}},
    {SEM, "release", {.code = AQS_STEP_GIVE, .mode = S}},
    {SEM, "drain", {.code = AQS_STEP_DRAIN}},
    {LATCH, "count_down", {.code = AQS_STEP_GIVE, .mode = S, .n = 1}},
};

static const uint32_t numbers[] = {0,        1,          2,           15,          16,
                                   255,      256,        65535,       65536,       65537,
                                   16777216, 2147483647, 2147483648u, 4294967294u, 4294967295u};

/* Makes a call by player 0 with these numbers. */
static void make(kind_t kind, const char *name, uint32_t a, uint32_t b) {
    play_name = play_line = name;
    ask(&players[0], call_of(kind, name), a, b);
    CHECK(ends(&players[0], LIMIT));
}

/* Whether the library was first asked to make this step at once, if it was to be. */
static bool asked_at_once(bool wanted, uint8_t code, uint8_t mode, uint32_t n) {
    bool is_good = steps_at_once == wanted;
    if (wanted) is_good &= step_at_once.code == code && step_at_once.mode == mode && step_at_once.n == n;
    steps_at_once = 0;
    return is_good;
}

static void make_waiting_call(size_t row, uint32_t a, uint32_t b) {
    const char *name = waiting_calls[row].name;
    aqs_call_t wanted = waiting_calls[row].wanted;
    int64_t before = nanoseconds(CLOCK_MONOTONIC);
    make(waiting_calls[row].kind, name, a, b);
    int64_t after = nanoseconds(CLOCK_MONOTONIC), moment = (int64_t)call.moment * 1000000;
    wanted.time = wanted.how == AQS_HOW_TIMED ? time_of(players[0].call, a, b) : 0;
    if (waiting_calls[row].kind == SEM) wanted.n = a;
    if (wanted.kind == AQS_CALL_AWAIT) wanted.mode = (uint8_t)a;
    bool is_good = call.kind == wanted.kind && call.n == wanted.n && call.how == wanted.how
                   && call.time == wanted.time && call.mode == wanted.mode
                   && call.interrupted == wanted.interrupted && begins == 1 && steps == 0;
    if (!is_good)
        FAIL("with %u %u it begins kind %u mode %u n %u how %u time %u", a, b, call.kind, call.mode, call.n,
             call.how, call.time);
    bool may_wait = wanted.kind == AQS_CALL_ACQUIRE && (wanted.how != AQS_HOW_TIMED || wanted.time > 0);
    if (!asked_at_once(may_wait, AQS_STEP_ACQUIRE, wanted.mode, wanted.n)) FAIL("with %u %u it asks otherwise", a, b);
    if (call.how == AQS_HOW_TIMED && (moment < before || moment >= after + 1000000))
        FAIL("its moment isn't now");
    if (players[0].status != AQS_OK) FAIL("it is %s", aqs_status_name(players[0].status));
    begins = 0;
}

static void make_step_call(size_t row, uint32_t a) {
    aqs_step_t wanted = step_calls[row].wanted;
    make(step_calls[row].kind, step_calls[row].name, a, 0);
    if (step_calls[row].kind == SEM && wanted.code != AQS_STEP_DRAIN) wanted.n = a;
    if (wanted.code == AQS_STEP_SIGNAL || wanted.code == AQS_STEP_SIGNAL_ALL) wanted.mode = (uint8_t)a;
    bool is_good = step.code == wanted.code && step.mode == wanted.mode && step.n == wanted.n && steps == 1
                   && begins == 0;
    if (!is_good) FAIL("with %u it steps code %u mode %u n %u", a, step.code, step.mode, step.n);
    bool is_release = wanted.code == AQS_STEP_GIVE && step_calls[row].kind != LATCH;
    if (!asked_at_once(is_release, AQS_STEP_GIVE, wanted.mode, wanted.n)) FAIL("with %u it asks otherwise", a);
    if (players[0].status != AQS_OK) FAIL("it is %s", aqs_status_name(players[0].status));
    steps = 0;
}

static void questions(void) {
    open_all(&(aqs_options_t){.threads = SEATS});
    answer_with(0, 0, &got, 1);
    for (size_t i = 0; i < sizeof numbers / sizeof numbers[0]; i++) {
        for (size_t j = 0; j < sizeof numbers / sizeof numbers[0]; j++) {
            for (size_t row = 0; row < sizeof waiting_calls / sizeof waiting_calls[0]; row++) {
                make_waiting_call(row, numbers[i], numbers[j]);
            }
        }
        for (size_t row = 0; row < sizeof step_calls / sizeof step_calls[0]; row++)
            make_step_call(row, numbers[i]);
    }
    close_all();
}

/* Openings --------------------------------------------------------------------------------------------- */

static const struct {
    aqs_options_t options;
    aqs_header_t wanted; /* of a lock */
} headers[] = {
    {{0}, {.cap = 1024, .seats = AQS_THREADS, .conditions = 16, .policy = AQS_CORE_NONFAIR}},
    {{.policy = AQS_FAIR}, {.cap = 1024, .seats = AQS_THREADS, .conditions = 16, .policy = AQS_CORE_FAIR}},
    {{.policy = AQS_STRICT}, {.cap = 1024, .seats = AQS_THREADS, .conditions = 16, .policy = AQS_CORE_STRICT}},
    {{.when_full = AQS_REFUSE},
     {.cap = UINT32_MAX, .seats = AQS_THREADS, .conditions = 16, .policy = AQS_CORE_NONFAIR}},
    {{.history = 15}, {.cap = 15, .seats = AQS_THREADS, .conditions = 16, .policy = AQS_CORE_NONFAIR}},
    {{.history = 16}, {.cap = 16, .seats = AQS_THREADS, .conditions = 16, .policy = AQS_CORE_NONFAIR}},
    {{.history = UINT32_MAX},
     {.cap = UINT32_MAX, .seats = AQS_THREADS, .conditions = 16, .policy = AQS_CORE_NONFAIR}},
    {{.when_full = AQS_REFUSE, .history = 70000},
     {.cap = 70000, .seats = AQS_THREADS, .conditions = 16, .policy = AQS_CORE_NONFAIR}},
    {{.threads = 1}, {.cap = 1024, .seats = 1, .conditions = 16, .policy = AQS_CORE_NONFAIR}},
    {{.threads = 256}, {.cap = 1024, .seats = 256, .conditions = 16, .policy = AQS_CORE_NONFAIR}},
    {{.threads = 257}, {.cap = 1024, .seats = 257, .conditions = 16, .policy = AQS_CORE_NONFAIR}},
    {{.conditions = 16}, {.cap = 1024, .seats = AQS_THREADS, .conditions = 16, .policy = AQS_CORE_NONFAIR}},
    {{.conditions = 17}, {.cap = 1024, .seats = AQS_THREADS, .conditions = 17, .policy = AQS_CORE_NONFAIR}},
    {{.policy = 3},
     {.cap = 1024, .seats = AQS_THREADS, .conditions = 16, .policy = UINT8_MAX, .kind = UINT8_MAX}},
};

static void is_header(size_t row, uint8_t kind, int32_t number) {
    aqs_header_t wanted = headers[row].wanted;
    if (kind != AQS_KIND_LOCK && kind != AQS_KIND_READ_WRITE)
        wanted.conditions = headers[row].options.conditions;
    if (wanted.kind != UINT8_MAX) wanted.kind = kind;
    bool is_good = header.number == number && header.cap == wanted.cap && header.seats == wanted.seats
                   && header.conditions == wanted.conditions && header.policy == wanted.policy
                   && header.kind == wanted.kind && count_of_passes == wanted.seats;
    if (!is_good)
        FAIL("row %zu: kind %u number %d cap %u seats %u conditions %u policy %u, %zu passes", row,
             header.kind, header.number, header.cap, header.seats, header.conditions, header.policy,
             count_of_passes);
}

static void openings(void) {
    play_name = "openings", play_line = "an open call";
    for (size_t row = 0; row < sizeof headers / sizeof headers[0]; row++) {
        const aqs_options_t *options = row == 0 ? NULL : &headers[row].options;
        IS(aqs_lock_open(&lock, options), AQS_OK);
        is_header(row, AQS_KIND_LOCK, 0);
        IS(aqs_rwlock_open(&rwlock, options), AQS_OK);
        is_header(row, AQS_KIND_READ_WRITE, 0);
        IS(aqs_sem_open(&semaphore, INT32_MIN, options), AQS_OK);
        is_header(row, AQS_KIND_SEMAPHORE, INT32_MIN);
        IS(aqs_latch_open(&latch, 2147483647, options), AQS_OK);
        is_header(row, AQS_KIND_LATCH, 2147483647);
        for (kind_t kind = LOCK; kind <= LATCH; kind++) drops = 0, close_it(kind);
    }
    IS(aqs_latch_open(&latch, 2147483648u, NULL), AQS_OUT_OF_RANGE);
    static const struct {
        uint8_t answer;
        aqs_status_t status;
    } faults[] = {{AQS_FAULT_OUT_OF_MEMORY, AQS_OUT_OF_MEMORY},
                  {AQS_CORE_NOT_EMPTY, AQS_OUT_OF_RANGE},
                  {AQS_CORE_OUT_OF_RANGE, AQS_OUT_OF_RANGE}};
    for (size_t i = 0; i < sizeof faults / sizeof faults[0]; i++) {
        of_open = faults[i].answer;
        IS(aqs_lock_open(&lock, NULL), faults[i].status);
        IS(aqs_rwlock_open(&rwlock, NULL), faults[i].status);
        IS(aqs_sem_open(&semaphore, 3, NULL), faults[i].status);
        IS(aqs_latch_open(&latch, 3, NULL), faults[i].status);
        CHECK(!lock && !rwlock && !semaphore && !latch);
    }
    of_open = 0;
}

/* Answers as statuses ---------------------------------------------------------------------------------- */

static const struct {
    const char *name;
    aqs_answer_t answer;
    aqs_status_t of_step, of_call;
} answers[] = {
    {"got", ENTRY(GOT), AQS_OK, AQS_OK},
    {"try got", ENTRY(TRY_GOT), AQS_OK, AQS_OK},
    {"granted", ENTRY(GRANTED), AQS_OK, AQS_OK},
    {"missed", ENTRY(MISSED), AQS_WOULD_BLOCK, AQS_TIMED_OUT},
    {"left at its time", ENDED(LEFT, TIMEOUT), AQS_OK, AQS_TIMED_OUT},
    {"left by an interrupt", ENDED(LEFT, INTERRUPT), AQS_OK, AQS_INTERRUPTED},
    {"back by a signal", ENDED(BACK, SIGNALLED), AQS_OK, AQS_OK},
    {"back at its time", ENDED(BACK, TIMEOUT), AQS_OK, AQS_TIMED_OUT},
    {"back by an interrupt", ENDED(BACK, INTERRUPT), AQS_OK, AQS_INTERRUPTED},
    {"gave", ENTRY(GAVE), AQS_OK, AQS_OK},
    {"signal", ENTRY(SIGNAL), AQS_OK, AQS_OK},
    {"signal all", ENTRY(SIGNAL_ALL), AQS_OK, AQS_OK},
    {"counted", ENTRY(COUNTED), AQS_OK, AQS_OK},
    {"drained", ENTRY(DRAINED), AQS_OK, AQS_OK},
    {"not owner", REFUSED(NOT_OWNER), AQS_NOT_OWNER, AQS_NOT_OWNER},
    {"too many holds", REFUSED(TOO_MANY_HOLDS), AQS_TOO_MANY_HOLDS, AQS_TOO_MANY_HOLDS},
    {"too many permits", REFUSED(TOO_MANY_PERMITS), AQS_TOO_MANY_PERMITS, AQS_TOO_MANY_PERMITS},
    {"interrupted", REFUSED(INTERRUPTED), AQS_INTERRUPTED, AQS_INTERRUPTED},
    {"holds read", REFUSED(HOLDS_READ), AQS_HOLDS_READ, AQS_HOLDS_READ},
    {"out of phase", FAULT(OUT_OF_PHASE), AQS_MISUSE, AQS_MISUSE},
    {"no such condition", FAULT(NO_SUCH_CONDITION), AQS_NO_SUCH_CONDITION, AQS_NO_SUCH_CONDITION},
    {"bad amount", FAULT(BAD_AMOUNT), AQS_BAD_AMOUNT, AQS_BAD_AMOUNT},
    {"wrong mode", FAULT(WRONG_MODE), AQS_MISUSE, AQS_MISUSE},
    {"history full", FAULT(HISTORY_FULL), AQS_HISTORY_FULL, AQS_HISTORY_FULL},
    {"out of memory", FAULT(OUT_OF_MEMORY), AQS_OUT_OF_MEMORY, AQS_OUT_OF_MEMORY},
    {"trim full", FAULT(TRIM_FULL), AQS_HISTORY_FULL, AQS_HISTORY_FULL},
    {"no fault that is known", {.kind = AQS_IS_FAULT, .fault = 99}, AQS_MISUSE, AQS_MISUSE},
    {"sleep", KIND(SLEEP), AQS_MISUSE, AQS_MISUSE},
    {"no code", KIND(NO_CODE), AQS_MISUSE, AQS_MISUSE},
    {"no pass", KIND(NO_PASS), AQS_MISUSE, AQS_MISUSE},
    {"no entry", KIND(NO_ENTRY), AQS_MISUSE, AQS_MISUSE},
    {"in a call", KIND(IN_CALL), AQS_MISUSE, AQS_MISUSE},
    {"in no call", KIND(IN_NO_CALL), AQS_MISUSE, AQS_MISUSE},
};

static void is_status(kind_t kind, const char *name, aqs_status_t wanted, const char *answer_name) {
    make(kind, name, 0, 0);
    if (players[0].status == wanted) return;
    FAIL("of \"%s\" it makes %s", answer_name, aqs_status_name(players[0].status));
}

/* What each call makes of each answer: at once, and after a turn in which it waited without a park. */
static void statuses(void) {
    open_all(&(aqs_options_t){.threads = SEATS, .when_full = AQS_REFUSE});
    for (size_t i = 0; i < sizeof answers / sizeof answers[0]; i++) {
        const aqs_answer_t later[2] = {KIND(WAITING), answers[i].answer};
        for (size_t row = 0; row < sizeof waiting_calls / sizeof waiting_calls[0]; row++) {
            answer_with(0, 0, later, 2);
            is_status(waiting_calls[row].kind, waiting_calls[row].name, answers[i].of_call, answers[i].name);
            if (answers[i].answer.end != AQS_END_NONE) continue; /* no first turn ends a wait */
            answer_with(0, 0, &answers[i].answer, 1);
            is_status(waiting_calls[row].kind, waiting_calls[row].name, answers[i].of_call, answers[i].name);
        }
        answer_with(0, 0, &answers[i].answer, 1);
        if (answers[i].answer.end != AQS_END_NONE) continue;
        for (size_t row = 0; row < sizeof step_calls / sizeof step_calls[0]; row++) {
            is_status(step_calls[row].kind, step_calls[row].name, answers[i].of_step, answers[i].name);
            bool is_refused_drain = step_calls[row].wanted.code == AQS_STEP_DRAIN && answers[i].of_step != AQS_OK;
            CHECK(!is_refused_drain || players[0].number == 77); /* it writes no number */
        }
    }
    CHECK(trims == 0); /* nobody asked for a trim */
    close_all();
}

/* Busy objects and full histories ---------------------------------------------------------------------- */

/* A call that finds the object busy is made again until it isn't, and sleeps in between. */
static void busy_objects(void) {
    open_all(&(aqs_options_t){.threads = SEATS});
    static const int times[] = {1, 2, 29, 30, 31, 999, 1000, 1001};
    for (size_t i = 0; i < sizeof times / sizeof times[0]; i++) {
        begins = steps = looks = trims = 0;
        answer_with(0, times[i], &got, 1);
        is_status(LOCK, "lock", AQS_OK, "busy");
        CHECK(begins == times[i] + 1);
        answer_with(0, times[i], &got, 1);
        is_status(LATCH, "count_down", AQS_OK, "busy");
        CHECK(steps == times[i] + 1);
        static const struct {
            kind_t kind;
            const char *name;
            int64_t gives;
        } look_calls[] = {{SEM, "getvalue", -7}, {LATCH, "getcount", 2147483647}, {ANY, "text", 5},
                        {LOCK, "is_locked", 1}, {RW, "is_write_locked", 1}, {ANY, "queue_length", 255},
                        {ANY, "waiters", 256}};
        for (size_t row = 0; row < sizeof look_calls / sizeof look_calls[0]; row++) {
            looks = 0, busy_looks = times[i];
            is_status(look_calls[row].kind, look_calls[row].name, AQS_OK, "busy");
            CHECK(looks == times[i] + 1 && players[0].number == look_calls[row].gives);
        }
        folded = 77, busy_looks = times[i];
        is_status(ANY, "trim", AQS_OK, "busy");
        CHECK(trims == times[i] + 1 && players[0].number == 77);
    }
    static const aqs_answer_t later[] = {KIND(WAITING), ENTRY(GRANTED)};
    static const struct {
        const char *name;
        const aqs_answer_t *answers;
        int count;
    } long_ones[] = {{"lock", &got, 1}, {"lock", later, 2}, {"trylock", &got, 1}};
    for (size_t i = 0; i < sizeof long_ones / sizeof long_ones[0]; i++) {
        answer_with(0, MANY, long_ones[i].answers, long_ones[i].count);
        is_status(LOCK, long_ones[i].name, AQS_OK, "busy");
        CHECK(players[0].took >= (MANY - 1000) * INT64_C(50000));
        CHECK(players[0].used < players[0].took / 2);
    }
    close_all();
}

/* What a call does that finds the history full, and with what it ends. */
static const struct {
    const char *name;
    aqs_when_full_t when_full;
    uint8_t of_trim;
    uint64_t folded;
    aqs_answer_t answers[2];
    int least_trims, most_trims;
    aqs_status_t wanted;
} full_rows[] = {
    {"it is folded once", AQS_TRIM, AQS_IS_ENTRY, 9, {FAULT(HISTORY_FULL), ENTRY(GOT)}, 1, 1, AQS_OK},
    {"it is kept", AQS_REFUSE, AQS_IS_ENTRY, 9, {FAULT(HISTORY_FULL), ENTRY(GOT)}, 0, 0, AQS_HISTORY_FULL},
    {"another thread has folded it", AQS_TRIM, AQS_IS_ENTRY, 0, {FAULT(HISTORY_FULL), ENTRY(GOT)},
     1,
     1,
     AQS_OK},
    {"it has no room for all", AQS_TRIM, AQS_IS_ENTRY, 0, {FAULT(HISTORY_FULL), FAULT(HISTORY_FULL)},
     20,
     1000,
     AQS_HISTORY_FULL},
    {"no more can be folded", AQS_TRIM, AQS_IS_FAULT, 0, {FAULT(HISTORY_FULL), ENTRY(GOT)},
     1,
     1,
     AQS_HISTORY_FULL},
    {"another fault is none of its", AQS_TRIM, AQS_IS_ENTRY, 9, {FAULT(OUT_OF_MEMORY), ENTRY(GOT)},
     0,
     0,
     AQS_OUT_OF_MEMORY},
};

static void full_histories(void) {
    for (size_t i = 0; i < sizeof full_rows / sizeof full_rows[0]; i++) {
        open_all(&(aqs_options_t){.threads = SEATS, .when_full = full_rows[i].when_full});
        of_trim = full_rows[i].of_trim, folded = full_rows[i].folded;
        for (int is_step = 0; is_step <= 1; is_step++) {
            trims = 0;
            answer_with(0, 0, full_rows[i].answers, 2);
            is_status(is_step ? SEM : RW, is_step ? "release" : "rdlock", full_rows[i].wanted,
                      full_rows[i].name);
            if (trims < full_rows[i].least_trims || trims > full_rows[i].most_trims)
                FAIL("it trims %d times", trims);
        }
        of_trim = AQS_IS_ENTRY;
        close_all();
    }
}

/* Texts and trims -------------------------------------------------------------------------------------- */

/* A look gives a number, or leaves what was there. */
static void gives(kind_t kind, const char *name, aqs_status_t wanted, int64_t number, int64_t was) {
    is_status(kind, name, wanted, "a look");
    CHECK(players[0].number == (wanted == AQS_OK ? number : was));
}

static void looks_at_histories(void) {
    open_all(&(aqs_options_t){.threads = SEATS});
    aqs_object_t *objects[] = {aqs_lock_object(lock), aqs_rwlock_object(rwlock), aqs_sem_object(semaphore),
                               aqs_latch_object(latch)};
    for (size_t i = 0; i < sizeof objects / sizeof objects[0]; i++) {
        object = objects[i];
        for (of_look = AQS_IS_ENTRY; of_look <= AQS_IS_IN_NO_CALL; of_look++) {
            bool is_fault = of_look == AQS_IS_FAULT;
            if (of_look == AQS_IS_BUSY) continue;
            aqs_status_t wanted = of_look == AQS_IS_ENTRY ? AQS_OK
                                  : is_fault              ? AQS_OUT_OF_MEMORY
                                                          : AQS_MISUSE;
            is_status(ANY, "text", wanted, "a look");
            CHECK(of_look != AQS_IS_ENTRY || (size_of_text == sizeof text - 1 && strcmp(text, "hello") == 0));
            CHECK(players[0].number == (of_look == AQS_IS_ENTRY ? 5 : 77));
            gives(SEM, "getvalue", wanted, -7, 0);
            gives(LATCH, "getcount", wanted, 2147483647, 77);
            gives(LOCK, "is_locked", wanted, true, true);
            gives(RW, "is_write_locked", wanted, true, true);
            gives(ANY, "queue_length", wanted, 255, 77);
            gives(ANY, "waiters", wanted, 256, 77);
            of_trim = of_look;
            is_status(ANY, "trim", is_fault ? AQS_HISTORY_FULL : wanted, "a trim");
            CHECK(players[0].number == (of_look == AQS_IS_ENTRY ? (int64_t)folded : 77));
        }
        of_look = of_trim = AQS_IS_ENTRY;
    }
    close_all();
}

/* Parking ---------------------------------------------------------------------------------------------- */

#define PARKS .kind = AQS_IS_WAITING, .parks = true

/* Player 1 is in a call that waits with these answers, and player 0 makes what is written. */
static const struct {
    const char *name;
    aqs_answer_t answers[5];
    int count;
    aqs_answer_t others; /* to player 0 */
    const char *lines, *woke;
} parks[] = {
    {"a permit", {{PARKS}, ENTRY(GOT)},
     2,
     {.kind = AQS_IS_ENTRY, .word = AQS_WORD_GAVE, .has_wakes = true, .wakes = 1},
     "1 lock ..; 0 unlock = OK; 1 = OK",
     "0"},
    {"a permit of a refusal", {{PARKS}, ENTRY(GOT)},
     2,
     {.kind = AQS_IS_ENTRY,
      .word = AQS_WORD_REFUSED,
      .fault = AQS_FAULT_NOT_OWNER,
      .has_wakes = true,
      .wakes = 1},
     "1 lock_interruptibly ..; 0 unlock = NOT_OWNER; 1 = OK",
     "0"},
    {"no permit", {{PARKS}, ENTRY(GOT)},
     2,
     {.kind = AQS_IS_ENTRY, .word = AQS_WORD_GAVE, .wakes = 1},
     "1 lock ..; 0 unlock = OK; 0 lock = OK; 1 waits; 0 interrupt 1 = OK; 1 waits; 0 permit = OK; 1 = OK; "
     "1 interrupted = 1",
     "0"},
    {"an interrupt", {{PARKS, .interruptible = true}, ENDED(LEFT, INTERRUPT)},
     2,
     ENTRY(GOT),
     "1 timedlock 5 ..; 0 interrupt 0 = OK; 0 interrupt 2 = OK; 1 waits; 0 interrupt 1 = OK; "
     "1 = INTERRUPTED; "
     "1 interrupted = 0; 0 interrupted = 1; 2 interrupted = 1",
     "2"},
    {"a moment that has passed", {{PARKS, .has_until = true, .until = 5}, ENDED(LEFT, TIMEOUT)},
     2,
     ENTRY(GOT),
     "1 timedlock 0 = TIMED_OUT",
     "1"},
    {"one that is far away", {{PARKS, .has_until = true, .until = UINT64_MAX}, ENTRY(GOT)},
     2,
     ENTRY(GOT),
     "1 lock ..; 1 waits; 0 permit = OK; 1 = OK",
     "0"},
    {"a moment that isn't meant", {{PARKS, .until = 5}, ENTRY(GOT)},
     2,
     ENTRY(GOT),
     "1 lock ..; 1 waits; 0 permit = OK; 1 = OK",
     "0"},
    {"first the interrupt, then the permit, then the moment",
     {{PARKS, .interruptible = true, .has_until = true, .until = 5},
     {PARKS, .interruptible = true, .has_until = true, .until = 5},
     {PARKS, .interruptible = true, .has_until = true, .until = 5}, ENTRY(GOT)}, 4, ENTRY(GOT),
     "0 permit = OK; 0 interrupt 1 = OK; 1 lock = OK", "201"},
    {"a permit isn't counted", {{PARKS}, {PARKS, .has_until = true, .until = 5}, ENTRY(GOT)},
     3,
     ENTRY(GOT),
     "0 permit = OK; 0 permit = OK; 1 lock = OK",
     "01"},
    {"a park whose next turn finds the object busy",
     {{PARKS, .has_until = true, .until = 5}, KIND(BUSY), KIND(BUSY), ENDED(LEFT, TIMEOUT)}, 4, ENTRY(GOT),
     "1 timedlock 0 = TIMED_OUT", "1"},
    {"no park", {KIND(WAITING), KIND(WAITING), ENTRY(GOT)},
     3,
     ENTRY(GOT),
     "0 interrupt 1 = OK; 1 lock = OK; "
     "1 interrupted = 1",
     "00"},
    {"its own interrupt again", {KIND(WAITING), {.kind = AQS_IS_ENTRY, .word = AQS_WORD_BACK, .again = true}},
     2,
     ENTRY(GOT),
     "1 wait_interruptibly 0 = OK; 1 interrupted = 1; 1 interrupted = 0",
     "0"},
    {"again, of a fault", {{.kind = AQS_IS_FAULT, .fault = AQS_FAULT_OUT_OF_MEMORY, .again = true}},
     1,
     ENTRY(GOT),
     "0 interrupt 1 = OK; 1 lock_interruptibly = OUT_OF_MEMORY; 1 interrupted = 1; 1 interrupted = 0",
     ""},
    {"again, before it parks",
     {{PARKS, .interruptible = true, .again = true}, {PARKS, .again = true}, ENTRY(GOT)}, 3, ENTRY(GOT),
     "1 lock ..; 1 waits; 0 permit = OK; 1 = OK; 1 interrupted = 1", "20"},
    {"again, after a park", {{PARKS, .interruptible = true},
      {.kind = AQS_IS_ENTRY, .word = AQS_WORD_BACK, .end = AQS_END_SIGNALLED, .again = true}},
     2,
     ENTRY(GOT),
     "1 wait_interruptibly 0 ..; 0 interrupt 1 = OK; 1 = OK; 1 interrupted = 1",
     "2"},
    {"again, and who is woken",
     {KIND(WAITING), {.kind = AQS_IS_ENTRY, .word = AQS_WORD_BACK, .again = true, .has_wakes = true, .wakes = 1},
      {PARKS}, ENTRY(GOT)}, 4, ENTRY(GOT), "1 wait_interruptibly 0 = OK; 1 interrupted = 1; 1 lock = OK", "00"},
    {"who is woken by one that waits", {{PARKS, .has_wakes = true, .wakes = 1}, ENTRY(GOT)},
     2,
     ENTRY(GOT),
     "1 lock = OK",
     "0"},
    {"who is woken by one that goes on", {KIND(WAITING), {PARKS, .has_wakes = true, .wakes = 1},
     {.kind = AQS_IS_ENTRY, .word = AQS_WORD_GRANTED, .has_wakes = true, .wakes = 1}, {PARKS}, ENTRY(GOT)}, 5,
     ENTRY(GOT), "1 lock = OK; 1 lock = OK", "000"},
};

/* Sends player 1 a permit: "0 permit" is an unlock whose entry names its seat. */
static void play_park(size_t row) {
    static const aqs_answer_t names_1 = {
        .kind = AQS_IS_ENTRY, .word = AQS_WORD_GAVE, .has_wakes = true, .wakes = 1};
    char lines[400], *from = lines, *permit;
    play_name = parks[row].name;
    snprintf(lines, sizeof lines, "%s", parks[row].lines);
    memset(woke, 0, sizeof woke);
    answer_with(1, 0, parks[row].answers, parks[row].count);
    answer_with(0, 0, &parks[row].others, 1);
    while ((permit = strstr(from, "0 permit = OK"))) {
        *permit = 0;
        play_lines(LOCK, from);
        answer_with(0, 0, &names_1, 1);
        play_lines(LOCK, "0 unlock = OK");
        answer_with(0, 0, &parks[row].others, 1);
        from = permit + strlen("0 permit = OK");
    }
    play_lines(LOCK, from);
    if (strcmp(woke, parks[row].woke)) FAIL("its parks end by \"%s\"", woke);
    for (int i = 0; i < SEATS; i++) {
        ask(&players[i], ANY_interrupted, 0, 0);
        CHECK(ends(&players[i], LIMIT));
        if (players[i].number) FAIL("thread %d has a pending interrupt", i);
    }
}

/* The moment from which the time of a call counts is the least millisecond that is not before now. A park
   until a moment ends when the clock shows it, and not a nanosecond before. */
static const struct {
    long shows;
    uint64_t moment, until;
    bool is_reached;
} clocks[] = {
    {7000000000, 7000, 7000, true},  {7000000001, 7001, 7001, false}, {7000999999, 7001, 7001, false},
    {7001000000, 7001, 7001, true},  {7001000001, 7002, 7002, false}, {7999000000, 7999, 8000, false},
    {7999000001, 8000, 8000, false}, {7999999999, 8000, 7999, true},  {8000000000, 8000, 7999, true},
    {6999999999, 7000, 8999, false}, {7500000000, 7500, 8250, false}, {8250000000, 8250, 7500, true},
    {8249999999, 8250, 8250, false}, {8249999999, 8250, 8249, true},  {1000000, 1, 2, false},
};

static void moments(void) {
    play_name = "moments", play_line = "a row";
    for (size_t i = 0; i < sizeof clocks / sizeof clocks[0]; i++) {
        const aqs_answer_t until = {PARKS, .has_until = true, .until = clocks[i].until};
        const aqs_answer_t parked[] = {until, ENDED(LEFT, TIMEOUT)};
        atomic_store(&clock_shows, clocks[i].shows);
        answer_with(0, 0, &got, 1);
        make(LOCK, "timedlock", 9, 0);
        if (call.moment != clocks[i].moment) FAIL("of row %zu: %llu", i, (unsigned long long)call.moment);
        answer_with(1, 0, parked, 2);
        ask(&players[1], LOCK_timedlock, 9, 0);
        bool is_over = ends(&players[1], clocks[i].is_reached ? LIMIT : 3);
        if (is_over != clocks[i].is_reached) FAIL("of row %zu it %s", i, is_over ? "ends" : "doesn't end");
        atomic_store(&clock_shows, (long)(clocks[i].until + 1) * 1000000);
        CHECK(ends(&players[1], LIMIT));
    }
    atomic_store(&clock_shows, 0);
}

/* A signal to a thread that doesn't sleep makes no system call, whether it has slept before or not. */
static void signals_are_cheap(void) {
    static const aqs_answer_t names_1 = {
        .kind = AQS_IS_ENTRY, .word = AQS_WORD_GAVE, .has_wakes = true, .wakes = 1};
    static const aqs_answer_t parked[] = {{PARKS}, ENTRY(GOT)};
    play_name = "signals to a thread that doesn't sleep";
    for (int times = 0; times < 3; times++) {
        answer_with(1, 0, parked, 2);
        answer_with(0, 0, &names_1, 1);
        play_lines(LOCK, "1 lock ..; 0 unlock = OK; 1 = OK");
        int before = atomic_load(&futex_calls);
        play_lines(LOCK, "0 unlock = OK; 0 unlock = OK; 0 interrupt 1 = OK; 1 interrupted = 1");
        if (atomic_load(&futex_calls) != before) FAIL("they made a system call");
        answer_with(1, 0, parked, 2);
        play_lines(LOCK, "1 lock = OK");
    }
}

/* A thread that is woken without a signal waits on, whatever an earlier call left in errno. */
static void stray_wakes(void) {
    static const aqs_answer_t parked[] = {{PARKS, .interruptible = true}, ENTRY(GOT)};
    play_name = "wakes without a signal";
    open_all(&(aqs_options_t){.threads = SEATS, .heeds_handlers = true});
    answer_with(1, 0, parked, 2);
    play_lines(LOCK, "1 lock_interruptibly ..");
    for (int i = 0; i < 3; i++) {
        CHECK(__real_syscall(SYS_futex, atomic_load(&slept_at), FUTEX_WAKE_PRIVATE, 1, 0, 0, 0) == 1);
        play_lines(LOCK, "1 waits");
    }
    play_lines(LOCK, "0 interrupt 1 = OK; 1 = OK");
    close_all();
}

/* A call that is done at once asks no more of its object, and wakes whom the number names. */
static void done_at_once(void) {
    static const aqs_answer_t parked[] = {{PARKS}, ENTRY(GOT)};
    play_name = "calls that are done at once";
    open_all(&(aqs_options_t){.threads = SEATS});
    begins = steps = 0;
    of_step_at_once = AQS_DONE;
    play_lines(LOCK, "0 lock = OK; 0 timedlock 9 = OK; 0 unlock = OK; 0 unlock = OK");
    play_lines(RW, "0 rdlock = OK; 0 rdunlock = OK; 0 wrlock_interruptibly = OK; 0 wrunlock = OK");
    play_lines(SEM, "0 acquire 3 = OK; 0 release 3 = OK");
    play_lines(LATCH, "0 await = OK");
    CHECK(begins == 0 && steps == 0);
    for (uint32_t seat = 1; seat < SEATS; seat++) {
        char line[40];
        of_step_at_once = AQS_NOT_DONE;
        answer_with((int)seat, 0, parked, 2);
        snprintf(line, sizeof line, "%u lock ..", seat);
        play_lines(LOCK, line);
        of_step_at_once = AQS_DONE_WAKES + seat;
        snprintf(line, sizeof line, "0 unlock = OK; %u = OK", seat);
        play_lines(LOCK, line);
    }
    of_step_at_once = AQS_NOT_DONE;
    close_all();
}

/* For how long a condition of its own asks its lock, which wakes the thread twice for others. The clock goes on
   by so many nanoseconds with each call. */
static const struct {
    uint32_t time;
    long shows, step;
    uint32_t asked[3];
} waits_of_conditions[] = {
    {0, 7000000000, 0, {0, 0, 0}},
    {1, 7000000001, 0, {1, 1, 1}},
    {999, 7001000000, 0, {999, 999, 999}},
    {999, 7000999999, 0, {999, 999, 999}},
    {1, 7999999999, 0, {1, 1, 1}},
    {1000, 7999000001, 0, {1000, 1000, 1000}},
    {1001, 7999000000, 0, {1001, 1001, 1001}},
    {1500, 7500000000, 0, {1500, 1500, 1500}},
    {4294967295u, 7999999999, 0, {4294967295u, 4294967295u, 4294967295u}},
    {10, 7995000000, 4000000, {10, 6, 2}},
    {10, 7000000000, 4000001, {10, 6, 2}},
    {10, 7991000000, 3999999, {10, 7, 3}},
    {10, 7000000000, 10000000, {10, 0, 0}},
    {10, 7999000000, 25000000, {10, 0, 0}},
    {4294967295u, 7000000000, 2000000000, {4294967295u, 4294965295u, 4294963295u}},
};

static void times_of_conditions(void) {
    static const aqs_answer_t woken[] = {ENTRY(GOT), ENTRY(GOT), ENTRY(MISSED)};
    play_name = "times of conditions", play_line = "a row";
    open_all(&(aqs_options_t){.threads = SEATS});
    answer_with(0, 0, &got, 1);
    make(LOCK, "lock", 0, 0);
    for (size_t i = 0; i < sizeof waits_of_conditions / sizeof waits_of_conditions[0]; i++) {
        answer_with(0, 0, woken, 3);
        clock_step = waits_of_conditions[i].step, begins = 0;
        atomic_store(&clock_shows, waits_of_conditions[i].shows);
        make(LOCK, "timedawait", 3, waits_of_conditions[i].time);
        bool is_good = begins == 3 && memcmp(times, waits_of_conditions[i].asked, 3 * sizeof times[0]) == 0;
        if (!is_good) FAIL("%zu: it asks %d times: %u %u %u", i, begins, times[0], times[1], times[2]);
        if (players[0].status != AQS_TIMED_OUT) FAIL("%zu: %s", i, aqs_status_name(players[0].status));
    }
    clock_step = 0;
    atomic_store(&clock_shows, 0);
    close_all();
}

/* A time that is longer than one call of the library below takes is asked for in pieces, until one ends otherwise. */
static void *make_long_calls(void *none) {
    static const aqs_answer_t missed[] = {ENTRY(MISSED), ENTRY(GOT)};
    const int64_t piece = UINT32_MAX;
    for (int seat = 0; seat < SEATS; seat++) answer_with(seat, 0, missed, 1);
    begins = 0;
    IS(aqs_lock_timedlock(lock, 2 * piece + 5), AQS_TIMED_OUT);
    CHECK(begins == 3 && times[0] == piece && times[1] == piece && times[2] == 5);
    begins = 0;
    IS(aqs_lock_timedwait(lock, 0, 2 * piece), AQS_TIMED_OUT);
    CHECK(begins == 2 && times[0] == piece && times[1] == piece);
    begins = 0;
    IS(aqs_sem_timedacquire(semaphore, 1, piece), AQS_TIMED_OUT);
    CHECK(begins == 1 && times[0] == piece);
    for (int seat = 0; seat < SEATS; seat++) answer_with(seat, 0, missed, 2);
    begins = 0;
    IS(aqs_latch_timedawait(latch, 3 * piece), AQS_OK);
    CHECK(begins == 2);
    return none;
}

static void long_times(void) {
    pthread_t thread;
    open_all(&(aqs_options_t){.threads = SEATS});
    CHECK(pthread_create(&thread, NULL, make_long_calls, NULL) == 0);
    CHECK(pthread_join(thread, NULL) == 0);
    close_all();
}

/* Whether a pending interrupt is handed over, and taken, at each call, though the object is busy at first. */
static void interrupts_at_entry(void) {
    for (size_t row = 0; row < sizeof waiting_calls / sizeof waiting_calls[0]; row++) {
        bool is_plain = waiting_calls[row].wanted.how == AQS_HOW_PLAIN;
        play_lines(ANY, "1 interrupt 0 = OK");
        answer_with(0, (int)row % 3, &got, 1);
        make(waiting_calls[row].kind, waiting_calls[row].name, 0, 0);
        if (call.interrupted != !is_plain) FAIL("it hands over %d", call.interrupted);
        play_lines(ANY, is_plain ? "0 interrupted = 1" : "0 interrupted = 0");
        begins = 0;
    }
}

/* Waits for a seat ------------------------------------------------------------------------------------- */

/* Player 2 seeks a seat of the lock. */
static void seek(const char *name, uint32_t time) {
    atomic_store(&naps, 0);
    ask(&players[2], call_of(LOCK, name), time, 0);
    while (atomic_load(&naps) == 0) usleep(20);
}

/* Lets it look once more. Returns whether it seeks on. */
static bool seeks_on(void) {
    int before = atomic_load(&naps);
    CHECK(sem_post(&may_look) == 0);
    while (atomic_load(&naps) == before && atomic_load(&players[2].in_call)) usleep(20);
    return atomic_load(&players[2].in_call);
}

/* A lock of which these seats are taken by as many players. */
static void open_taken(uint16_t seats) {
    atomic_store(&stays, true);
    IS(aqs_lock_open(&lock, &(aqs_options_t){.threads = seats}), AQS_OK);
    for (int i = 0; i < seats; i++) {
        answer_with(i, 0, &got, 1);
        ask(&players[i], LOCK_lock, 0, 0);
        CHECK(ends(&players[i], LIMIT));
    }
}

static void close_taken(uint16_t seats) {
    static const aqs_answer_t gave = ENTRY(GAVE);
    for (int i = 0; i < seats; i++) {
        answer_with(i, 0, &gave, 1);
        ask(&players[i], LOCK_unlock, 0, 0);
        CHECK(ends(&players[i], LIMIT));
    }
    drops = 0;
    aqs_lock_close(lock);
    CHECK(drops == seats);
    atomic_store(&stays, false);
}

/* A timed call that gets none: when it begins, after how many nanoseconds it still seeks, and after how many it
   ends. It is never too early. */
static const struct {
    uint32_t time;
    long begins, seeks_on, ends;
} seeks[] = {
    {9, 7001000000, 8000001, 9000001},  {9, 7000000001, 8999999, 10000000},
    {1, 7999000000, 1, 1000001},        {5, 7000999999, 5000000, 5000002},
    {0xffffffff, 7001000000, 4294967294000001, 4294967295000001},
};

static void times_without_a_seat(void) {
    play_name = "a call that gets no seat", play_line = "a row";
    open_taken(1);
    for (size_t i = 0; i < sizeof seeks / sizeof seeks[0]; i++) {
        atomic_store(&clock_shows, seeks[i].begins);
        seek("timedlock", seeks[i].time);
        atomic_store(&clock_shows, seeks[i].begins + seeks[i].seeks_on);
        if (!seeks_on()) FAIL("%zu: it ends too early", i);
        atomic_store(&clock_shows, seeks[i].begins + seeks[i].ends);
        if (seeks_on()) FAIL("%zu: it doesn't end", i);
        if (players[2].status != AQS_TIMED_OUT) FAIL("%zu: %s", i, aqs_status_name(players[2].status));
    }
    atomic_store(&clock_shows, 0);
    close_taken(1);
}

/* A call that gets none ends if the threads of all seats wait on conditions at several looks in a row. If one comes
   back between two looks, it seeks on. */
static void looks_in_a_row(void) {
    static const aqs_answer_t waits[] = {{PARKS, .interruptible = true}, ENDED(BACK, INTERRUPT)};
    play_name = "a call that finds all on conditions", play_line = "a look";
    open_taken(2);
    answer_with(0, 0, waits, 2);
    play_lines(LOCK, "0 wait_interruptibly 0 ..");
    seek("lock", 0);
    for (int i = 0; i < 10; i++) {
        answer_with(1, 0, waits, 2);
        play_lines(LOCK, "1 wait_interruptibly 0 ..");
        for (int look = 0; look < 5; look++) {
            if (!seeks_on()) FAIL("%d %d: it ends", i, look);
        }
        play_lines(LOCK, "3 interrupt 1 = OK; 1 = INTERRUPTED");
        if (!seeks_on()) FAIL("%d: it ends though one is back", i);
    }
    answer_with(1, 0, waits, 2);
    play_lines(LOCK, "1 wait_interruptibly 0 ..");
    for (int look = 0; seeks_on(); look++) CHECK(look < 100);
    play_lines(LOCK, "2 = TOO_MANY_THREADS; 3 interrupt 0 = OK; 3 interrupt 1 = OK; 0 = INTERRUPTED; 1 = INTERRUPTED");
    close_taken(2);
}

/* Forks ------------------------------------------------------------------------------------------------ */

/* As many threads as there are places, at first and after the first growth. */
enum { PLACES = 256, ALL_PLACES = 512 };
static pthread_t owners[ALL_PLACES];
static sem_t may_turn[ALL_PLACES], has_number;

/* The thread of a number makes a turn when it is asked to. */
static void *turn_once(void *given) {
    size_t number = (size_t)given;
    CHECK(aqs_thread_self() == number);
    CHECK(sem_post(&has_number) == 0);
    while (sem_wait(&may_turn[number]) != 0) continue;
    IS(aqs_sem_release(semaphore, 1), AQS_OK);
    return NULL;
}

static void start_owners(size_t from, size_t to) {
    pthread_attr_t small;
    CHECK(pthread_attr_init(&small) == 0 && pthread_attr_setstacksize(&small, 128 << 10) == 0);
    for (size_t i = from; i < to; i++) {
        CHECK(sem_init(&may_turn[i], 0, 0) == 0);
        CHECK(pthread_create(&owners[i], &small, turn_once, (void *)i) == 0);
        while (sem_wait(&has_number) != 0) continue;
    }
    CHECK(pthread_attr_destroy(&small) == 0);
}

/* A fork while a turn is under way: the child, where that thread is gone, begins after the turn. */
static void fork_in_a_turn(void) {
    int status, before = atomic_load(&orders);
    while (!atomic_load(&is_under_way)) usleep(20);
    atomic_store(&forks, true);
    pid_t child = fork();
    CHECK(child >= 0);
    if (child == 0) _Exit(atomic_load(&is_under_way));
    atomic_store(&forks, false);
    CHECK(waitpid(child, &status, 0) == child);
    if (!WIFEXITED(status) || WEXITSTATUS(status) != 0) FAIL("the process forks in a turn");
    if (atomic_load(&orders) != before + 1) FAIL("nothing orders the turns before the fork");
}

static void fork_in_the_turn_of(size_t number) {
    char line[40];
    snprintf(line, sizeof line, "of thread %zu", number);
    play_line = line;
    atomic_store(&slow_turn, 1);
    CHECK(sem_post(&may_turn[number]) == 0);
    fork_in_a_turn();
    CHECK(pthread_join(owners[number], NULL) == 0);
}

/* A turn that begins after that order waits until the process has forked. */
static void begin_now(void) {
    ask(&players[0], SEM_release, 1, 0);
    if (ends(&players[0], 10)) FAIL("it doesn't wait");
}

static void fork_beside_one_that_begins(void) {
    int status;
    play_line = "that begins while the process forks";
    after_order = begin_now;
    pid_t child = fork();
    CHECK(child >= 0);
    if (child == 0) _Exit(0);
    CHECK(waitpid(child, &status, 0) == child && status == 0);
    after_order = NULL;
    CHECK(ends(&players[0], LIMIT));
}

/* Each kind of turn: the first and the next ones of a call, a step, a look and a trim. */
static const struct {
    kind_t kind;
    const char *name;
    int turn;
} turns[] = {{LOCK, "lock", 1},      {LOCK, "lock", 2},     {LOCK, "timedwait", 3}, {SEM, "release", 1},
             {SEM, "getvalue", 1},   {LATCH, "getcount", 1}, {ANY, "text", 1},       {ANY, "queue_length", 1},
             {ANY, "trim", 1}};

static void fork_in_each_turn(void) {
    static const aqs_answer_t later[] = {KIND(WAITING), KIND(WAITING), ENTRY(GOT)};
    for (size_t i = 0; i < sizeof turns / sizeof turns[0]; i++) {
        play_line = turns[i].name;
        answer_with(0, 0, turns[i].turn > 1 ? later : &got, turns[i].turn > 1 ? 3 : 1);
        atomic_store(&slow_turn, turns[i].turn);
        ask(&players[0], call_of(turns[i].kind, turns[i].name), 1, 0);
        fork_in_a_turn();
        CHECK(ends(&players[0], LIMIT));
    }
    fork_beside_one_that_begins();
    play_line = "by the thread that makes it";
    forks_itself = true;
    atomic_store(&slow_turn, 1);
    ask(&players[0], SEM_release, 1, 0);
    if (!ends(&players[0], LIMIT)) FAIL("the fork waits for its own thread");
    forks_itself = false;
    answer_with(0, 0, &got, 1);
}

static void forks_in_turns(void) {
    play_name = "a fork in a turn";
    open_all(&(aqs_options_t){.threads = SEATS});
    for (int seat = 0; seat < SEATS; seat++) answer_with(seat, 0, &got, 1);
    CHECK(sem_init(&has_number, 0, 0) == 0);
    fork_in_each_turn();
    start_owners(PLAYERS, PLACES);
    fork_in_the_turn_of(PLACES - 1);
    start_owners(PLACES - 1, ALL_PLACES);
    static const size_t numbers_of_some[] = {PLAYERS, PLACES - 1, PLACES, ALL_PLACES - 1};
    for (int i = 0; i < 4; i++) fork_in_the_turn_of(numbers_of_some[i]);
    for (size_t i = PLAYERS + 1; i < ALL_PLACES - 1; i++) {
        if (i == PLACES - 1 || i == PLACES) continue;
        CHECK(sem_post(&may_turn[i]) == 0 && pthread_join(owners[i], NULL) == 0);
    }
    close_all();
}

int main(void) {
    alarm(100);
    is_main = true;
    start_players();
    questions();
    openings();
    statuses();
    busy_objects();
    full_histories();
    looks_at_histories();
    open_all(&(aqs_options_t){.threads = SEATS});
    for (size_t row = 0; row < sizeof parks / sizeof parks[0]; row++) play_park(row);
    moments();
    signals_are_cheap();
    interrupts_at_entry();
    close_all();
    stray_wakes();
    done_at_once();
    times_of_conditions();
    long_times();
    CHECK(sem_init(&may_look, 0, 0) == 0);
    times_without_a_seat();
    looks_in_a_row();
    forks_in_turns();
    return good("answers");
}
