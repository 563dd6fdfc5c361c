/* objects.c: the objects of the proved core, one for each pthread object that was used.

   - seats: a thread has one from its call on, as long as it holds or waits.
   - turns: what a caller owes after each turn.
   - a core is replaced by a bigger one when its seats don't do, and by an empty one when its history is full.
     The new core is led to the state of the old one. Both histories, one after the other without the steps
     that led there, are one legal history.
   - the table, from the address of a pthread object to its object. */
#include "record.h"

#include <errno.h>
#include <limits.h>
#include <string.h>

bool is_recording;
uint32_t keep = 16384;

/* Cores -------------------------------------------------------------------------------------------------- */

enum { LEVELS = 4 };
static const uint16_t seats_of[LEVELS] = {5, 17, 65, 256};
static const uint8_t conditions_of[LEVELS] = {1, 4, 16, 16};
static const uint8_t core_kind[KINDS] = {AQS_KIND_LOCK, AQS_KIND_READ_WRITE, AQS_KIND_SEMAPHORE};

/* Above this, idle objects give up their cores. */
enum { MOST_MEMORY = 14 << 20 };

static uint32_t cap_of(uint8_t level) {
    uint32_t least = 64 + 4 * seats_of[level], half = keep / 2;
    return half > least ? half : least;
}

static aqs_header_t header_of(const object_t *object, uint8_t level) {
    return (aqs_header_t){
        .number = object->kind == SEMAPHORE ? (int32_t)object->permits : 0,
        .cap = UINT32_MAX, /* entries are folded before, but each hold keeps room for its end */
        .seats = seats_of[level],
        .conditions = object->kind == MUTEX ? conditions_of[level] : 0,
        .kind = core_kind[object->kind],
        .policy = AQS_CORE_NONFAIR,
    };
}

uint8_t conditions_at(const object_t *object) {
    return object->kind == MUTEX && object->core ? conditions_of[object->core->level] : 0;
}

/* `holds`: those with which its history begins. Each takes an entry. */
static core_t *open_core(const object_t *object, uint8_t level, uint32_t holds) {
    uint16_t count = seats_of[level];
    core_t *core = heap_take_zeroed(sizeof *core + count * sizeof(seat_t));
    aqs_pass_t *passes = heap_take_zeroed(count * sizeof(aqs_pass_t));
    uint8_t answer = AQS_FAULT_OUT_OF_MEMORY;
    if (core && passes) answer = aqs_open(header_of(object, level), passes, count);
    for (uint16_t i = 0; answer == 0 && i < count; i++) core->seats[i].pass = passes[i];
    heap_give(passes);
    if (answer != 0) {
        heap_give(core);
        return NULL;
    }
    core->count = count, core->level = level;
    core->enough = cap_of(level) / 8 * 7 + holds, core->most = cap_of(level) + holds;
    return core;
}

static void close_core(core_t *core) {
    if (!core) return;
    for (uint16_t i = 0; i < core->count; i++) aqs_drop(&core->seats[i].pass);
    heap_give(core);
}

/* Nobody else is in the core: each of these turns ends at once. */
static bool replay_call(core_t *core, seat_t *seat, uint8_t kind, uint8_t mode, uint8_t how) {
    aqs_call_t call = {.n = 1, .time = 1, .kind = kind, .mode = mode, .how = how};
    aqs_answer_t answer;
    aqs_begin(&seat->pass, &call, &answer);
    bool is_got = answer.kind == AQS_IS_ENTRY && answer.word == AQS_WORD_GOT;
    core->replayed += is_got || answer.kind == AQS_IS_WAITING;
    core->replayed_ends += is_got;
    return kind == AQS_CALL_AWAIT ? answer.kind == AQS_IS_WAITING : is_got;
}

static bool replay_holds(core_t *core, seat_t *seat) {
    bool is_good = true;
    for (uint32_t i = 0; i < seat->reads; i++)
        is_good &= replay_call(core, seat, AQS_CALL_ACQUIRE, AQS_MODE_SHARED, AQS_HOW_PLAIN);
    for (uint32_t i = 0; i < seat->holds; i++)
        is_good &= replay_call(core, seat, AQS_CALL_ACQUIRE, AQS_MODE_EXCLUSIVE, AQS_HOW_PLAIN);
    return is_good;
}

static seat_t *next_sleeper(core_t *core, uint64_t after) {
    seat_t *found = NULL;
    for (uint16_t i = 0; i < core->count; i++) {
        seat_t *seat = &core->seats[i];
        if (!seat->user || seat->state != SLEEPING || seat->order <= after) continue;
        if (!found || seat->order < found->order) found = seat;
    }
    return found;
}

static uint32_t holds_in(const core_t *core) {
    uint32_t holds = 0;
    for (uint16_t i = 0; i < core->count; i++) holds += core->seats[i].holds + core->seats[i].reads;
    return holds;
}

/* Leads a new core, whose seats say who holds and who sleeps, to that state. */
static bool replay(core_t *core) {
    bool is_good = true;
    uint64_t after = 0;
    for (seat_t *seat; (seat = next_sleeper(core, after)); after = seat->order) {
        is_good &= replay_holds(core, seat);
        is_good &= replay_call(core, seat, AQS_CALL_AWAIT, seat->condition, seat->how);
    }
    for (uint16_t i = 0; i < core->count; i++) {
        seat_t *seat = &core->seats[i];
        if (seat->user && seat->state == IDLE) is_good &= replay_holds(core, seat);
    }
    return is_good;
}

/* Takes over who sits where. `me` 0: all of them; else the child of a fork has this thread alone, and those
   that held keep their holds for good. */
static void take_over_seats(core_t *core, const core_t *old, uint64_t me) {
    for (uint16_t i = 0; i + 1 < old->count; i++) {
        const seat_t *from = &old->seats[i];
        bool is_gone = me && from->user != me && (from->state != IDLE || from->holds + from->reads == 0);
        if (!from->user || is_gone) continue;
        aqs_pass_t pass = core->seats[i].pass;
        memcpy(&core->seats[i], from, sizeof *from);
        core->seats[i].pass = pass;
    }
}

static int64_t permits_of(core_t *core) {
    int64_t permits = 0;
    while (aqs_available_now(&core->seats[core->count - 1].pass, &permits) == AQS_IS_BUSY) sched_yield();
    return permits;
}

/* Being alone in an object ------------------------------------------------------------------------------- */

static void wait_for_others(const thread_t *me, const object_t *object) {
    for (thread_t *at = all_threads(); at; at = at->next)
        for (unsigned looks = 0; at != me && atomic_load(&at->in) == object; looks++) look_again(looks);
}

/* Waits until no other thread is in a turn of the object, and lets none begin. The thread is in it. False:
   another is alone, or looks. */
bool begin_alone(object_t *object, thread_t *me) {
    if (!spin_try(&object->lock)) return false;
    atomic_store(&object->epoch, 0);
    wait_for_others(me, object);
    return true;
}

/* Leaves the object while another is alone in it, or looks. */
void wait_to_be_alone(object_t *object, thread_t *me) {
    while (!begin_alone(object, me)) {
        leave(me);
        sched_yield();
        enter(me, object);
    }
}

void end_alone(object_t *object) {
    atomic_store(&object->epoch, epoch_of_now());
    spin_unlock(&object->lock);
}

/* Whether nobody is in the queue. */
static bool is_quiet(const object_t *object) {
    if (object->moved) return false;
    for (uint16_t i = 0; i < object->core->count; i++)
        if (object->core->seats[i].user && object->core->seats[i].state == QUEUED) return false;
    return true;
}

enum { FEW_ENTRIES = 1024 };

/* Puts the entries of a replaced core where the text of the object will find them. */
static void keep_core(object_t *object, core_t *old) {
    bytes_t text = {NULL, 0, 0};
    bool is_kept = false;
    if (!object->before && old->entries < FEW_ENTRIES && core_text(old, &old->seats[old->count - 1], &text))
        is_kept = add_to_archive(object, &text, old->replayed, old->replayed_ends);
    heap_give(text.at);
    if (is_kept) {
        close_core(old);
        return;
    }
    if (object->before) {
        object->dropped += object->archive.all + object->before->entries;
        forget_history(&object->archive);
        close_core(object->before);
    }
    object->before = old;
}

static bool replace_core(object_t *object, uint8_t level) {
    core_t *old = object->core;
    if (object->kind == SEMAPHORE) object->permits = permits_of(old);
    core_t *core = open_core(object, level, holds_in(old));
    if (!core) return false;
    take_over_seats(core, old, 0);
    if (!replay(core)) {
        close_core(core);
        return false;
    }
    object->core = core;
    keep_core(object, old);
    if (object->wanted <= level) object->wanted = 0;
    return true;
}

static void back_off(unsigned *looks) {
    if (++*looks < 30) {
        for (int left = 1 << (*looks < 6 ? *looks : 6); left > 0; left--) relax();
    } else if (*looks < 1000) {
        sched_yield();
    } else {
        pause_a_little();
    }
}

/* Replaces the core if nobody is in the queue, and nobody else is just doing that. */
COLD bool grow(object_t *object, thread_t *me, uint8_t level) {
    if (level >= LEVELS || !begin_alone(object, me)) return false;
    bool is_good = is_quiet(object) && replace_core(object, level);
    end_alone(object);
    if (is_good && atomic_load(&object->outside)) wake_outside(object, true);
    return is_good;
}

/* Lets the object grow to the level that it wants, if its queue is empty. One that is alone in it, or looks,
   is waited for. */
static bool grows(object_t *object, thread_t *me) {
    wait_to_be_alone(object, me);
    bool is_smaller = object->wanted > object->core->level;
    bool is_good = !is_smaller || (is_quiet(object) && replace_core(object, object->wanted));
    if (!is_smaller) object->wanted = 0;
    end_alone(object);
    if (is_smaller && is_good && atomic_load(&object->outside)) wake_outside(object, true);
    return is_good;
}

/* Where somebody is in the queue, the entries are folded in the same core. Who finds its own seat taken leaves that to
   another turn. */
static void fold_if_busy(object_t *object, thread_t *me) {
    core_t *core = object->core;
    seat_t *own = &core->seats[core->count - 1];
    uint64_t nobody = 0, count = core->replayed;
    unsigned looks = 0;
    if (core->entries < core->most || !atomic_compare_exchange_strong(&own->user, &nobody, me->id)) return;
    own->thread = me;
    while (aqs_trim_now(&own->pass, &count) == AQS_IS_BUSY) back_off(&looks);
    object->dropped += count - core->replayed;
    core->entries = core->replayed = core->replayed_ends = 0;
    atomic_store(&own->user, 0);
}

COLD void fold_if_full(object_t *object, thread_t *me) {
    core_t *core = object->core;
    bool is_smaller = object->wanted > core->level;
    if (is_smaller && is_quiet(object)) grows(object, me); /* else the last of the queue comes here */
    else if (!is_smaller && core->entries >= core->enough && !grow(object, me, core->level)) fold_if_busy(object, me);
}

/* First touches ------------------------------------------------------------------------------------------ */

static uint8_t first_level(void) {
    unsigned live = 0;
    for (thread_t *at = all_threads(); at; at = at->next) live += at->is_live;
    return live > 4;
}

static void open_first(object_t *object) {
    uint8_t level = object->wanted > first_level() ? object->wanted : first_level();
    while (!(object->core = open_core(object, level, 0))) pause_a_little();
    object->wanted = 0;
}

/* In the child of a fork: a new history begins, from the state that the fork left. */
static void adopt(object_t *object, const thread_t *me) {
    core_t *old = object->core;
    forget_history(&object->archive);
    close_core(object->before);
    object->before = NULL;
    object->entries = object->kept = object->dropped = 0;
    object->seen_entries = 0;
    object->written_entries = 0;
    forget_times(object);
    object->moved = object->sleepers = 0;

    object->pending = 0;
    object->kicks = 0;
    object->outside = 0;
    if (object->signals) memset(object->signals, 0, MOST_CONDITIONS * sizeof *object->signals);
    if (!old) return;
    if (object->kind == SEMAPHORE) object->permits = permits_of(old);
    while (!(object->core = open_core(object, old->level, holds_in(old)))) pause_a_little();
    take_over_seats(object->core, old, me->id);
    replay(object->core);
    object->core->replayed = object->core->replayed_ends = 0;
    close_core(old);
}

static void give_up_idle_cores(thread_t *me, size_t most);

/* The object's lock is held. */
static void revive(object_t *object, thread_t *me) {
    uint64_t now = epoch_of_now();
    if (object->born != now) adopt(object, me);
    object->born = now;
    if (!object->core) {
        if (heap_in_use() > MOST_MEMORY) give_up_idle_cores(me, 4);
        open_first(object);
    }
    atomic_store(&object->epoch, now);
}

/* The object has no core yet, or one from before a fork; or another thread is alone in it; or a fork
   waits. */
COLD void enter_slowly(thread_t *me, object_t *object) {
    for (unsigned looks = 0;; looks++) {
        /* Whoever is alone in the object doesn't wait for this thread, but a fork does. */
        atomic_exchange(&me->in, ELSEWHERE);
        if (atomic_load(&epoch) & 1) {
            wait_for_fork(me);
        } else if (spin_try(&object->lock)) {
            if (object->epoch != epoch_of_now()) revive(object, me);
            spin_unlock(&object->lock);
        } else if (looks > 10) {
            sched_yield();
        }
        atomic_exchange(&me->in, object);
        if (atomic_load(&object->epoch) == atomic_load(&epoch)) return;
    }
}

/* Seats -------------------------------------------------------------------------------------------------- */

static seat_t *any_free(object_t *object, thread_t *me) {
    core_t *core = object->core;
    for (uint16_t i = 0; i < usable(core); i++) {
        seat_t *seat = &core->seats[(me->number + i) % usable(core)];
        uint64_t nobody = 0;
        if (seat->user || !atomic_compare_exchange_strong(&seat->user, &nobody, me->id)) continue;
        seat->thread = me;
        return seat;
    }
    return NULL;
}

/* While the object should grow, nobody new comes in: those in the queue leave it, and then it does. */
COLD seat_t *claim_other(object_t *object, thread_t *me) {
    if (object->wanted && !grows(object, me)) return NULL;
    seat_t *seat = any_free(object, me);
    if (seat || object->core->level + 1 == LEVELS) return seat;
    object->wanted = object->core->level + 1;
    return grows(object, me) ? any_free(object, me) : NULL;
}

/* One seat is free, or many. While the object should grow, whoever finds its queue empty makes it grow. */
COLD void wake_outside(object_t *object, bool many) {
    atomic_fetch_add(&object->seat_event, 1);
    wake_word(&object->seat_event, many || object->wanted ? INT_MAX : 1);
}

/* The thread is in the object, before and after. NULL: `woke` says why not. */
COLD seat_t *claim_or_wait(object_t *object, thread_t *me, request_t *request, uint8_t *woke) {
    seat_t *seat;
    begin_wait(me, object, request);
    atomic_fetch_add(&object->outside, 1);
    for (*woke = WOKE;;) {
        unsigned event = atomic_load(&object->seat_event);
        if ((seat = claim(object, me)) || *woke != WOKE) break;
        leave(me);
        *woke = sleep_while(&object->seat_event, event, request->deadline, request->ends);
        enter(me, object);
    }
    atomic_fetch_sub(&object->outside, 1);
    return seat;
}

/* The recorder's own seat, for turns that end at once. */
COLD seat_t *claim_own(object_t *object, thread_t *me) {
    for (unsigned looks = 0;; looks++) {
        seat_t *seat = &object->core->seats[object->core->count - 1];
        uint64_t nobody = 0;
        if (atomic_compare_exchange_strong(&seat->user, &nobody, me->id)) {
            seat->thread = me;
            return seat;
        }
        look_again(looks);
    }
}

/* Turns -------------------------------------------------------------------------------------------------- */

/* Whether a first turn changed nothing, and is to be made again. No history is full: its entries are folded long
   before. */
static bool is_made_again(const aqs_answer_t *answer, unsigned *looks) {
    bool lacks_memory = answer->kind == AQS_IS_FAULT && answer->fault == AQS_FAULT_OUT_OF_MEMORY;
    if (answer->kind != AQS_IS_BUSY && !lacks_memory) return false;
    if (lacks_memory) pause_a_little();
    back_off(looks);
    return true;
}

void settle(object_t *object, const aqs_answer_t *answer) {
    object->core->entries++;
    if (answer->has_wakes) unpark(object->core->seats[answer->wakes].thread);
}

/* The rest of a step, from its first answer on. */
COLD void end_step(object_t *object, uint16_t seat, aqs_step_t step, aqs_answer_t *answer) {
    unsigned looks = 0;
    while (is_made_again(answer, &looks))
        aqs_step_now(&object->core->seats[seat].pass, step, answer);
    settle(object, answer);
}

/* The rest of the first turn of a call. */
COLD void end_begin(object_t *object, uint16_t seat, const aqs_call_t *call, aqs_answer_t *answer) {
    unsigned looks = 0;
    while (is_made_again(answer, &looks))
        aqs_begin(&object->core->seats[seat].pass, call, answer);
    settle(object, answer);
}

void next_turn(object_t *object, uint16_t seat, uint8_t woke, aqs_answer_t *answer) {
    unsigned looks = 0;
    for (;; back_off(&looks)) {
        aqs_go_on(&object->core->seats[seat].pass, woke, answer);
        if (answer->kind != AQS_IS_BUSY) break;
    }
    settle(object, answer);
}

/* The table ---------------------------------------------------------------------------------------------- */

static atomic_uint table_lock;
static object_t **buckets;
static size_t bucket_count, object_count;
static uint32_t serials;
static place_t *places[256];
object_t *dead_objects;
atomic_uint only_counted;

void lock_table(thread_t *me) {
    enter_elsewhere(me);
    spin_lock(&table_lock);
}

void unlock_table(thread_t *me) {
    spin_unlock(&table_lock);
    leave(me);
}

static size_t hash(const void *address) {
    return (size_t)(((uintptr_t)address >> 3) * UINT64_C(0x9e3779b97f4a7c15) >> 20);
}

static object_t **bucket_of(const void *address) { return &buckets[hash(address) & (bucket_count - 1)]; }

static void insert(object_t *object) {
    object_t **bucket = bucket_of(object->address);
    object->next = *bucket;
    *bucket = object;
}

static void widen_table(void) {
    size_t old_count = bucket_count;
    object_t **old = buckets, **fresh = heap_take_zeroed((old_count ? 2 * old_count : 256) * sizeof *fresh);
    if (!fresh) return;
    buckets = fresh, bucket_count = old_count ? 2 * old_count : 256;
    for (size_t i = 0; i < old_count; i++)
        for (object_t *at = old[i], *next; at; at = next) next = at->next, insert(at);
    heap_give(old);
}

static object_t *take_out(const void *address) {
    if (!bucket_count) return NULL;
    for (object_t **at = bucket_of(address); *at; at = &(*at)->next)
        if ((*at)->address == address) {
            object_t *found = *at;
            *at = found->next;
            object_count--;
            return found;
        }
    return NULL;
}

static place_t *place_at(void *address, uint8_t kind) {
    place_t **bucket = &places[(hash(address) + kind) % 256];
    for (place_t *at = *bucket; at; at = at->next)
        if (at->address == address && at->kind == kind) return at;
    place_t *place = heap_take_zeroed(sizeof *place);
    if (!place) return NULL;
    place->address = address, place->kind = kind, place->next = *bucket;
    place->sums.gone.place = address, place->sums.gone.kind = kind;
    return *bucket = place;
}

void for_each_place(void (*visit)(place_t *, void *), void *with) {
    for (size_t i = 0; i < 256; i++)
        for (place_t *at = places[i]; at; at = at->next) visit(at, with);
}

static object_t *new_object(void *address, uint8_t kind, uint8_t type, int64_t permits, void *place) {
    object_t *object = heap_take_zeroed(sizeof *object);
    if (!object) return NULL;
    object->address = address, object->kind = kind, object->type = type, object->permits = permits;
    object->place = place_at(place, kind);
    object->serial = ++serials;
    object->born = epoch_of_now();
    if (object->place) object->place->sums.objects++;
    if (object_count >= bucket_count) widen_table();
    if (!bucket_count || !object->place) {
        heap_give(object);
        return NULL;
    }
    insert(object);
    object_count++;
    return object;
}

/* Files of objects that are gone are written for this many of each place, and for those that have one
   already. */
enum { FILES_OF_PLACE = 16 };

static void add_sum(sum_t *to, const sum_t *more) {
    to->count += more->count, to->sum += more->sum;
    if (more->longest > to->longest) to->longest = more->longest;
}

static void add_to_gone(line_t *gone, const object_t *object, uint64_t entries) {
    bytes_t none = {NULL, 0, 0}, buckets = none;
    line_t line = {0};
    add_times(object, &none, &line, &buckets);
    heap_give(buckets.at);
    add_sum(&gone->waits, &line.waits);
    add_sum(&gone->holds, &line.holds);
    gone->gone++, gone->entries += entries;
    gone->calls += object->calls, gone->threads |= object->threads;
    gone->sleeps += object->sleeps, gone->slept += object->slept;
}

uint64_t entries_of(const object_t *object) {
    const core_t *core = object->core, *before = object->before;
    uint64_t entries = object->dropped + object->archive.all + (before ? before->entries : 0);
    return core ? entries + core->entries : entries;
}

/* An object that is gone: it will be written, or only counted. Nobody is in it, and the table is locked. */
static void bury(object_t *object) {
    sums_t *sums = &object->place->sums;
    uint64_t entries = entries_of(object);
    bool has_file = object->written_entries != 0, may_have = has_file || sums->saved < FILES_OF_PLACE;
    if (entries && object->born == epoch_of_now() && may_have) {
        sums->saved += !has_file;
        object->is_dead = true;
        object->next = dead_objects;
        dead_objects = object;
        return;
    }
    only_counted++;
    add_to_gone(&sums->gone, object, entries);
    free_object(object);
}

void free_object(object_t *object) {
    close_core(object->core);
    close_core(object->before);
    free_history(&object->archive);
    heap_give(object->signals);
    heap_give(object->conditions);
    heap_give(object->wait_times);
    heap_give(object->hold_times);
    heap_give(object);
}

/* Whether a thread of the program holds the object, or waits in it. */
static bool has_users(const object_t *object) {
    for (uint16_t i = 0; object->core && i < usable(object->core); i++)
        if (object->core->seats[i].user) return true;
    return false;
}

/* An object whose memory the program used again. If threads still wait in it, it stays, and is never
   freed. */
static void retire(thread_t *me, object_t *object) {
    spin_unlock(&table_lock);
    unbind_all(object);
    wait_for_others(me, object);
    spin_lock(&table_lock);
    if (!has_users(object)) bury(object);
}

object_t *open_object(
    tag_t *tag, void *address, uint8_t kind, uint8_t type, int64_t permits, void *place, bool is_new) {
    thread_t *me = self();
    lock_table(me);
    object_t *object = is_new ? NULL : tagged(tag, address);
    if (!object) {
        object_t *old = take_out(address);
        if (old) retire(me, old);
        if (is_new || !(object = tagged(tag, address))) {
            while (!(object = new_object(address, kind, type, permits, place))) pause_a_little();
            atomic_store_explicit(&tag->object, object, memory_order_relaxed);
            atomic_store_explicit(&tag->mark, mark_of(address), memory_order_release);
        }
    }
    unlock_table(me);
    return object;
}

/* Whether nobody held the object or waited in it, so that it's gone now. */
bool close_object(thread_t *me, tag_t *tag, object_t *object) {
    enter_elsewhere(me);
    wait_for_others(me, object);
    bool is_free = object->kind != MUTEX || object->born != epoch_of_now() || !has_users(object);
    if (is_free) {
        spin_lock(&table_lock);
        take_out(object->address);
        tag->mark = 0;
        tag->object = NULL;
        retire(me, object);
        spin_unlock(&table_lock);
    }
    leave(me);
    return is_free;
}

/* Looks at each object that is in the table. The thread is in the object, and has left it at `then`. A look that
   returns false is made again, after others have been let go on; but not for ever. */
void for_each_object(
    thread_t *me, bool (*look)(thread_t *, object_t *, void *), void (*then)(void *), void *with) {
    enum { MOST_TRIES = 2000 };
    unsigned tries = 0;
    for (size_t bucket = 0, nth = 0;;) {
        lock_table(me);
        object_t *object = bucket < bucket_count ? buckets[bucket] : NULL;
        bool is_over = bucket >= bucket_count;
        for (size_t i = 0; object && i < nth; i++) object = object->next;
        if (object) atomic_exchange(&me->in, object);
        spin_unlock(&table_lock);
        bool is_seen = !object || look(me, object, with);
        leave(me);
        if (is_over) return;
        if (object) then(with);
        if (!is_seen && ++tries < MOST_TRIES) {
            sched_yield();
            continue;
        }
        tries = 0;
        if (object) nth++;
        else bucket++, nth = 0;
    }
}

static void forget_sums(place_t *place, void *nothing) {
    (void)nothing;
    place->sums = (sums_t){.gone = {.place = place->address, .kind = place->kind}};
}

/* In the child of a fork: what was gone before isn't its own. */
void forget_objects(void) {
    dead_objects = NULL;
    for_each_place(forget_sums, NULL);
}

/* Idle objects ------------------------------------------------------------------------------------------- */

/* Gives up the core of an object that nobody used since the last look at it. The table is locked. */
static bool gives_up_core(thread_t *me, object_t *object) {
    if (!object->core || object->epoch != epoch_of_now() || object->core->entries != object->seen_entries) {
        object->seen_entries = object->core ? object->core->entries : 0;
        return false;
    }
    if (!begin_alone(object, me)) return false;
    core_t *core = object->core;
    bytes_t text = {NULL, 0, 0};
    bool is_good = !has_users(object);
    if (is_good && object->kind == SEMAPHORE) object->permits = permits_of(core);
    is_good = is_good && !object->before && core_text(core, &core->seats[core->count - 1], &text)
              && add_to_archive(object, &text, core->replayed, core->replayed_ends);
    heap_give(text.at);
    if (is_good) {
        object->core = NULL;
        object->seen_entries = 0;
        close_core(core);
        spin_unlock(&object->lock);
    } else {
        end_alone(object);
    }
    return is_good;
}

/* Gives up the cores of idle objects, at most this many. */
static void give_up_idle_cores(thread_t *me, size_t most) {
    static size_t hand;
    size_t given_up = 0;
    spin_lock(&table_lock);
    for (size_t looks = 0; bucket_count && looks < 256 && given_up < most; looks++) {
        hand = (hand + 1) & (bucket_count - 1);
        for (object_t *at = buckets[hand]; at; at = at->next) given_up += gives_up_core(me, at);
    }
    spin_unlock(&table_lock);
}
