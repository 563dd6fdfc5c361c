/* times.c: how long threads waited and held, and who waits now. Waits are always timed: who waits has the time. If
   AQS_TIMES asks for it, holds are timed and calls are counted. */
#include "record.h"

#include <fcntl.h>
#include <limits.h>
#include <stdio.h>
#include <string.h>
#include <sys/prctl.h>
#include <unistd.h>

bool is_timed, has_ticks;
uint64_t tick = UINT64_C(1) << 32;
uint32_t added_to_hold;

/* The beginning of a small file of the system's. */
static ssize_t read_small(const char *path, char *text, size_t room) {
    int file = open(path, O_RDONLY | O_CLOEXEC);
    ssize_t size = file < 0 ? 0 : read(file, text, room);
    if (file >= 0) close(file);
    return size;
}

/* What both clocks show at a time: the nearest of some looks, since the thread may be stopped in one. */
static void read_clocks(uint64_t *at, uint64_t *count) {
    uint64_t least = UINT64_MAX;
    for (int i = 0; i < 10; i++) {
        uint64_t before = ticks(), now = nanoseconds(), took = ticks() - before;
        if (took < least) least = took, *at = now, *count = before;
    }
}

static uint64_t least_hold(void) {
    uint64_t least = UINT64_MAX;
    for (int i = 0; i < 1000; i++) {
        uint64_t took = two_holds_of_nothing();
        if (took < least) least = took;
    }
    return least / 2;
}

/* Finds out what a tick is, and what is added to a hold. Until then a tick counts as a nanosecond. */
void begin_timing(void) {
    uint64_t from, from_tick, to, to_tick;
    char clock[4];
    has_ticks = read_small("/sys/devices/system/clocksource/clocksource0/current_clocksource", clock, 4) == 4
        && memcmp(clock, "tsc\n", 4) == 0;
    read_clocks(&from, &from_tick);
    uint64_t least = least_hold();
    read_clocks(&to, &to_tick);
    tick = ((to - from) << 32) / (to_tick - from_tick);
    added_to_hold = (uint32_t)in_nanoseconds(least);
}

static unsigned bucket_of(uint64_t took) {
    unsigned bucket = took ? 63 - (unsigned)__builtin_clzll(took) : 0;
    return bucket < BUCKETS ? bucket : BUCKETS - 1;
}

static void add_time(times_t *_Atomic *at, uint64_t took) {
    times_t *times = *at, *none = NULL;
    if (!times && (times = heap_take_zeroed(sizeof *times)) && !atomic_compare_exchange_strong(at, &none, times)) {
        heap_give(times);
        times = none;
    }
    if (!times) return;
    atomic_fetch_add_explicit(&times->buckets[bucket_of(took)], 1, memory_order_relaxed);
    atomic_fetch_add_explicit(&times->sum, took, memory_order_relaxed);
    uint64_t longest = times->longest;
    while (took > longest && !atomic_compare_exchange_weak(&times->longest, &longest, took)) continue;
}

/* A processor is slower at times: it runs at another frequency, or serves another thread too. Then more is added to a
   hold. What took four times as long as the least was disturbed. */
COLD void time_nothing(thread_t *me) {
    uint32_t before = me->added ? me->added : 16 * added_to_hold;
    me->added = 0;
    uint64_t two = two_holds_of_nothing();
    bool is_good = two && two <= 8 * added_to_hold;
    me->added = is_good ? (7 * before + 8 * (uint32_t)two) / 8 : before;
}

COLD void count_one_call(object_t *object, const thread_t *me) {
    uint64_t bit = UINT64_C(1) << (me->number < 63 ? me->number : 63);
    atomic_fetch_add_explicit(&object->calls, 1, memory_order_relaxed);
    if (!(object->threads & bit)) atomic_fetch_or(&object->threads, bit);
}

COLD void end_hold(object_t *object, seat_t *seat, uint64_t end) {
    uint64_t took = end > seat->since ? in_nanoseconds(16 * (end - seat->since)) : 0, added = seat->thread->added;
    add_time(&object->hold_times, took > added ? (took - added + 8) / 16 : 0);
    seat->since = 0;
}

/* In the child of a fork. */
void forget_times(object_t *object) {
    object->calls = object->threads = object->waits = object->sleeps = object->slept = 0;
    if (object->wait_times) memset(object->wait_times, 0, sizeof *object->wait_times);
    if (object->hold_times) memset(object->hold_times, 0, sizeof *object->hold_times);
}

/* The longest waits -------------------------------------------------------------------------------------- */

static atomic_uint longest_lock;
static wait_of_t longest[LONGEST]; /* in any order */
static _Atomic uint64_t least; /* of them */

person_t person_of(const thread_t *thread) {
    person_t person = {.number = thread->number, .tid = thread->tid};
    memcpy(person.name, thread->name, NAME_SIZE);
    return person;
}

void copy_longest(wait_of_t *to) {
    spin_lock(&longest_lock);
    memcpy(to, longest, sizeof longest);
    spin_unlock(&longest_lock);
}

static void keep_if_long(const wait_of_t *wait) {
    spin_lock(&longest_lock);
    wait_of_t *shortest = longest;
    for (int i = 1; i < LONGEST; i++)
        if (longest[i].took < shortest->took) shortest = &longest[i];
    if (wait->took > shortest->took) *shortest = *wait;
    uint64_t now_least = UINT64_MAX;
    for (int i = 0; i < LONGEST; i++)
        if (longest[i].took < now_least) now_least = longest[i].took;
    least = now_least;
    spin_unlock(&longest_lock);
}

/* In the child of a fork. */
void forget_waits(void) {
    longest_lock = 0;
    least = 0;
    memset(longest, 0, sizeof longest);
}

/* Waits -------------------------------------------------------------------------------------------------- */

enum { FEW_SEATS = 17 };

/* Who holds the object, if that is soon found. */
static const seat_t *holder_in(const object_t *object) {
    const core_t *core = object->core;
    if (object->owner && object->owner_seat < core->count) return &core->seats[object->owner_seat];
    for (uint16_t i = 0; object->kind == RWLOCK && core->count <= FEW_SEATS && i < usable(core); i++)
        if (core->seats[i].user && core->seats[i].reads) return &core->seats[i];
    return NULL;
}

void begin_wait(thread_t *me, object_t *object, request_t *request) {
    uint32_t depth = me->depth++;
    request->waits = true;
    if (depth >= NESTED) return;
    waiting_t *waiting = &me->waiting[depth];
    const seat_t *held = request->mode == SLEEP ? NULL : holder_in(object);
    waiting->serial = object->serial;
    waiting->what = request->mode;
    waiting->is_timed = request->deadline.at != NULL;
    waiting->place = request->place;
    waiting->holder = held ? held->thread : NULL;
    waiting->holder_id = held ? held->user : 0;
    atomic_store(&waiting->since, request->since ? request->since : nanoseconds());
}

/* What the wait was, as a whole. */
static wait_of_t wait_of(thread_t *thread, const waiting_t *waiting, uint64_t since) {
    wait_of_t wait = {
        .took = nanoseconds() - since, .since = since, .id = thread->id, .serial = waiting->serial,
        .what = waiting->what, .is_timed = waiting->is_timed, .place = waiting->place,
        .thread = person_of(thread),
    };
    thread_t *holder = waiting->holder;
    wait.has_holder = holder && holder->id == waiting->holder_id;
    if (wait.has_holder) wait.holder = person_of(holder);
    return wait;
}

/* Ends the wait of the thread, and returns how long it was. */
static uint64_t stop_waiting(thread_t *me) {
    uint32_t depth = --me->depth;
    if (depth >= NESTED) return 0;
    waiting_t *waiting = &me->waiting[depth];
    uint64_t since = atomic_exchange(&waiting->since, 0), took = nanoseconds() - since;
    if (waiting->what != SLEEP && took > least) {
        prctl(PR_GET_NAME, me->name);
        wait_of_t wait = wait_of(me, waiting, since);
        keep_if_long(&wait);
    }
    return took;
}

void end_wait(thread_t *me, object_t *object) {
    add_time(&object->wait_times, stop_waiting(me));
    object->waits++;
}

void end_sleep(thread_t *me, object_t *object) {
    object->slept += stop_waiting(me);
    object->sleeps++;
}

/* Adds all waits that aren't over. False: there is no memory. */
bool waits_now(bytes_t *waits) {
    for (thread_t *at = all_threads(); at; at = at->next)
        for (unsigned i = 0; i < NESTED && at->is_live; i++) {
            uint64_t since = at->waiting[i].since;
            if (!since) continue;
            wait_of_t wait = wait_of(at, &at->waiting[i], since);
            if (!still_waits(&wait)) continue;
            if (!append(waits, (const char *)&wait, sizeof wait)) return false;
        }
    return true;
}

/* Whether the wait isn't over yet. */
bool still_waits(const wait_of_t *wait) {
    for (thread_t *at = all_threads(); at; at = at->next)
        for (unsigned i = 0; i < NESTED; i++)
            if (at->id == wait->id && at->waiting[i].since == wait->since) return true;
    return false;
}

/* What is told of an object --------------------------------------------------------------------------------- */

static sum_t sum_of(const times_t *times, uint64_t buckets[BUCKETS]) {
    sum_t sum = {0, 0, 0};
    if (!times) return sum;
    sum.sum = times->sum, sum.longest = times->longest;
    for (int i = 0; i < BUCKETS; i++) sum.count += buckets[i] = times->buckets[i];
    return sum;
}

static void add_one(sum_t *sum, uint64_t buckets[BUCKETS], uint64_t took) {
    sum->count++, sum->sum += took, buckets[bucket_of(took)]++;
    if (took > sum->longest) sum->longest = took;
}

static void say_buckets(const char *what, uint32_t serial, const uint64_t buckets[BUCKETS], bytes_t *out) {
    bool is_some = false;
    for (int i = 0; i < BUCKETS; i++) {
        if (!buckets[i]) continue;
        if (!is_some) say(out, "%s\t%u\t", what, serial);
        say(out, "%s%d:%llu", is_some ? " " : "", i, (unsigned long long)buckets[i]);
        is_some = true;
    }
    if (is_some) say(out, "\n");
}

/* Times of waits and holds, with those that aren't over. The thread is in the object. */
void add_times(const object_t *object, const bytes_t *waits, line_t *line, bytes_t *out) {
    uint64_t waited[BUCKETS] = {0}, held[BUCKETS] = {0}, now = ticks();
    const wait_of_t *wait = (const wait_of_t *)waits->at, *end = wait + waits->size / sizeof *wait;
    line->waits = sum_of(object->wait_times, waited);
    line->holds = sum_of(object->hold_times, held);
    for (; wait < end; wait++) {
        if (wait->serial != object->serial) continue;
        if (wait->what == SLEEP) line->sleeps++, line->slept += wait->took;
        else add_one(&line->waits, waited, wait->took);
    }
    for (uint16_t i = 0; object->core && i < usable(object->core); i++) {
        const seat_t *seat = &object->core->seats[i];
        uint64_t since = seat->since;
        if (seat->user && since && since < now) add_one(&line->holds, held, in_nanoseconds(now - since));
    }
    say_buckets("waits", object->serial, waited, out);
    say_buckets("holds", object->serial, held, out);
}

static bool is_waited_for(const object_t *object, const bytes_t *waits) {
    const wait_of_t *wait = (const wait_of_t *)waits->at, *end = wait + waits->size / sizeof *wait;
    for (; wait < end; wait++)
        if (wait->serial == object->serial && wait->what != SLEEP) return true;
    return false;
}

/* Who holds an object for which one waits. The thread is in the object. */
void add_holders(const object_t *object, const bytes_t *waits, bytes_t *holders) {
    if (!object->core || !is_waited_for(object, waits)) return;
    for (uint16_t i = 0; i < usable(object->core); i++) {
        const seat_t *seat = &object->core->seats[i];
        if (!seat->user || seat->holds + seat->reads == 0) continue;
        const thread_t *thread = seat->thread;
        holder_t holder = {
            .id = seat->user, .serial = object->serial,
            .mode = seat->holds ? AQS_MODE_EXCLUSIVE : AQS_MODE_SHARED,
            .is_gone = thread->id != seat->user || !thread->is_live, .thread = person_of(thread),
        };
        append(holders, (const char *)&holder, sizeof holder);
    }
}

/* Names -------------------------------------------------------------------------------------------------- */

/* Asks the system for the names of all threads that live. */
void name_threads(void) {
    for (thread_t *at = all_threads(); at; at = at->next) {
        char path[60], name[NAME_SIZE + 1] = "";
        if (!at->is_live) continue;
        snprintf(path, sizeof path, "/proc/self/task/%u/comm", at->tid);
        ssize_t size = read_small(path, name, NAME_SIZE);
        if (size < 2) continue;
        name[size - 1] = 0;
        memcpy(at->name, name, NAME_SIZE);
    }
}

/* A name as `aqs draw --names` reads it. */
static void say_name(uint16_t seat, const char *name, bytes_t *out) {
    char shown[NAME_SIZE];
    size_t size = 0;
    for (; size + 1 < NAME_SIZE && name[size]; size++)
        shown[size] = name[size] > ' ' && name[size] <= '~' ? name[size] : '_';
    shown[size] = 0;
    if (size) say(out, "%u %s\n", seat, shown);
}

/* The last thread that had a seat, or the one that prefers it. */
static const thread_t *thread_of(const seat_t *seat, uint16_t number) {
    if (seat->thread) return seat->thread;
    for (thread_t *at = all_threads(); at; at = at->next)
        if (at->number == number) return at;
    return NULL;
}

/* Names of the threads that had the seats. The object's core isn't replaced meanwhile. */
bool names_of(object_t *object, bytes_t *names) {
    names->size = 0;
    for (uint16_t i = 0; object->core && i < usable(object->core); i++) {
        const thread_t *thread = thread_of(&object->core->seats[i], i);
        if (thread) say_name(i, thread->name, names);
    }
    return names->size > 0;
}
