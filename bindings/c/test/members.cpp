// members.cpp: which call of aqs.h each member of aqs.hpp makes, with what, and what it makes of each status.
// The functions of aqs.h are here, in the place of the library's: they note the call and return what the test
// wants.
#include "aqs.hpp"

#include "check.h"

#include <functional>
#include <shared_mutex>
#include <vector>

using namespace std::chrono_literals;

static std::string made;             // the calls, with their numbers
static std::vector<const void *> of; // the object of each
static aqs_status_t answer = AQS_OK; // to each call
static aqs_options_t opened_with;

// A clock on which it is soon after a call.
struct call_clock {
    typedef std::chrono::milliseconds duration;
    typedef duration::rep rep;
    typedef duration::period period;
    typedef std::chrono::time_point<call_clock> time_point;
    static constexpr bool is_steady = true;
    static inline time_point shown;
    static time_point now() { return shown; }
};
static const auto soon = call_clock::time_point(9ms);

static void note(const char *name, const void *object, std::vector<long> numbers) {
    call_clock::shown = soon;
    made += made.empty() ? name : std::string("; ") + name;
    for (long it : numbers) made += " " + std::to_string(it);
    of.push_back(object);
}

// A function of aqs.h that returns a status, and one that has none.
#define CALL(name, takes, object, ...)       \
    extern "C" aqs_status_t name takes {     \
        note(#name, object, {__VA_ARGS__});  \
        return answer;                       \
    }
#define QUIET(result, name, takes, object, value) \
    extern "C" result name takes {                \
        note(#name, object, {});                  \
        return value;                             \
    }

// The calls of a lock of a type, and those of one that has conditions.
#define OBJECT(kind)                                                                                     \
    extern "C" void aqs_##kind##_close(aqs_##kind##_t *it) { note("aqs_" #kind "_close", it, {}); }       \
    extern "C" aqs_object_t *aqs_##kind##_object(aqs_##kind##_t *it) { return (aqs_object_t *)it; }
#define OPENED(kind)                                                                                     \
    extern "C" aqs_status_t aqs_##kind##_init(aqs_##kind##_t *it, const aqs_options_t *options) {        \
        opened_with = *options;                                                                          \
        note("aqs_" #kind "_init", it, {});                                                              \
        return answer;                                                                                   \
    }
#define CONDITIONS(kind)                                                                                     \
    CALL(aqs_##kind##_wait, (aqs_##kind##_t * it, uint8_t number), it, number)                               \
    CALL(aqs_##kind##_wait_interruptibly, (aqs_##kind##_t * it, uint8_t number), it, number)                 \
    CALL(aqs_##kind##_timedwait, (aqs_##kind##_t * it, uint8_t number, int64_t ms), it, number, (long)ms)   \
    CALL(aqs_##kind##_signal, (aqs_##kind##_t * it, uint8_t number), it, number)                             \
    CALL(aqs_##kind##_signal_all, (aqs_##kind##_t * it, uint8_t number), it, number)
#define EXCLUSIVE(kind, lock, unlock)                                                             \
    CALL(aqs_##kind##_##lock, (aqs_##kind##_t * it), it)                                          \
    CALL(aqs_##kind##_##lock##_interruptibly, (aqs_##kind##_t * it), it)                          \
    CALL(aqs_##kind##_timed##lock, (aqs_##kind##_t * it, int64_t ms), it, (long)ms)              \
    CALL(aqs_##kind##_try##lock, (aqs_##kind##_t * it), it)                                       \
    CALL(aqs_##kind##_##unlock, (aqs_##kind##_t * it), it)

OBJECT(lock)
OBJECT(mutex)
OBJECT(rwlock)
OBJECT(sem)
OBJECT(latch)
OPENED(lock)
OPENED(mutex)
OPENED(rwlock)
CONDITIONS(lock)
CONDITIONS(mutex)
CONDITIONS(rwlock)
EXCLUSIVE(lock, lock, unlock)
EXCLUSIVE(mutex, lock, unlock)
EXCLUSIVE(rwlock, wrlock, wrunlock)
EXCLUSIVE(rwlock, rdlock, rdunlock)
CALL(aqs_sem_acquire, (aqs_sem_t * it, uint32_t n), it, (long)n)
CALL(aqs_sem_acquire_interruptibly, (aqs_sem_t * it, uint32_t n), it, (long)n)
CALL(aqs_sem_timedacquire, (aqs_sem_t * it, uint32_t n, int64_t ms), it, (long)n, (long)ms)
CALL(aqs_sem_tryacquire, (aqs_sem_t * it, uint32_t n), it, (long)n)
CALL(aqs_sem_release, (aqs_sem_t * it, uint32_t n), it, (long)n)
CALL(aqs_latch_count_down, (aqs_latch_t * it), it)
CALL(aqs_latch_await, (aqs_latch_t * it), it)
CALL(aqs_latch_await_interruptibly, (aqs_latch_t * it), it)
CALL(aqs_latch_timedawait, (aqs_latch_t * it, int64_t ms), it, (long)ms)
CALL(aqs_cond_wait, (aqs_cond_t * it, aqs_lock_t *), it)
CALL(aqs_cond_wait_interruptibly, (aqs_cond_t * it, aqs_lock_t *), it)
CALL(aqs_cond_timedwait, (aqs_cond_t * it, aqs_lock_t *, int64_t ms), it, (long)ms)
CALL(aqs_cond_signal, (aqs_cond_t * it), it)
CALL(aqs_cond_signal_all, (aqs_cond_t * it), it)
QUIET(uint32_t, aqs_lock_holds, (aqs_lock_t * it), it, 3)
QUIET(bool, aqs_lock_is_mine, (aqs_lock_t * it), it, true)
QUIET(bool, aqs_mutex_is_mine, (aqs_mutex_t * it), it, true)
QUIET(bool, aqs_rwlock_is_mine, (aqs_rwlock_t * it), it, true)
QUIET(uint32_t, aqs_rwlock_write_holds, (aqs_rwlock_t * it), it, 4)
QUIET(uint32_t, aqs_rwlock_read_holds, (aqs_rwlock_t * it), it, 5)
QUIET(aqs_policy_t, aqs_object_policy, (const aqs_object_t *it), it, AQS_STRICT)

// A call that puts a number into its place.
#define PUTS(name, type, number, value)                        \
    extern "C" aqs_status_t name(type *it, number *place) {    \
        note(#name, it, {});                                   \
        *place = value;                                        \
        return answer;                                         \
    }
PUTS(aqs_lock_is_locked, aqs_lock_t, aqs_bool_t, true)
PUTS(aqs_mutex_is_locked, aqs_mutex_t, aqs_bool_t, true)
PUTS(aqs_rwlock_is_write_locked, aqs_rwlock_t, aqs_bool_t, true)
PUTS(aqs_object_queue_length, aqs_object_t, uint32_t, 6)
PUTS(aqs_object_waiters, aqs_object_t, uint32_t, 7)
PUTS(aqs_history_trim, aqs_object_t, uint64_t, 8)
PUTS(aqs_sem_drain, aqs_sem_t, uint32_t, 9)
PUTS(aqs_sem_getvalue, aqs_sem_t, int64_t, -10)
PUTS(aqs_latch_getcount, aqs_latch_t, uint32_t, 11)
PUTS(aqs_barrier_wait, aqs_barrier_t, aqs_bool_t, true)

// A text for which more room is asked than it takes, and which others lengthen by half after each try.
static std::string the_text = "a text of 20 letters";
static int tries_left;
static aqs_status_t put_text(const char *name, aqs_object_t *it, char *buffer, size_t size, size_t *length) {
    note(name, it, {});
    *length = the_text.size();
    if (answer != AQS_OK) return answer;
    if (size < the_text.size()) {
        CHECK(--tries_left > 0);
        the_text += the_text.substr(the_text.size() / 2);
        return AQS_NO_SPACE;
    }
    the_text.copy(buffer, the_text.size());
    return AQS_OK;
}
extern "C" aqs_status_t aqs_history_text(aqs_object_t *it, char *buffer, size_t size, size_t *length) {
    return put_text("aqs_history_text", it, buffer, size, length);
}
extern "C" aqs_status_t aqs_history_names(aqs_object_t *it, char *buffer, size_t size, size_t *length) {
    return put_text("aqs_history_names", it, buffer, size, length);
}
extern "C" aqs_status_t aqs_sem_init(aqs_sem_t *it, int32_t permits, const aqs_options_t *options) {
    opened_with = *options;
    note("aqs_sem_init", it, {permits});
    return answer;
}
extern "C" aqs_status_t aqs_latch_init(aqs_latch_t *it, uint32_t count, const aqs_options_t *options) {
    opened_with = *options;
    note("aqs_latch_init", it, {(long)count});
    return answer;
}
static int a_barrier;
static aqs_barrier_t *const the_barrier = (aqs_barrier_t *)&a_barrier;
extern "C" aqs_status_t aqs_barrier_open(aqs_barrier_t **it, uint32_t parties, const aqs_options_t *options) {
    opened_with = *options;
    *it = the_barrier;
    note("aqs_barrier_open", the_barrier, {(long)parties});
    return answer;
}
extern "C" void aqs_barrier_close(aqs_barrier_t *it) { note("aqs_barrier_close", it, {}); }
extern "C" aqs_object_t *aqs_barrier_object(aqs_barrier_t *it) { return (aqs_object_t *)it; }
extern "C" aqs_lock_t *aqs_mutex_as_lock(aqs_mutex_t *it) { return (aqs_lock_t *)it; }
extern "C" const char *aqs_status_name(aqs_status_t) { return "a status"; }

// Numbers of conditions, which are given back, and which objects are static.
static int taken, given;
static const void *taken_of;
static bool has_none_left, is_static;
extern "C" aqs_status_t aqs_object_take_condition(aqs_object_t *it, uint8_t *number) {
    if (has_none_left) return AQS_NO_SUCH_CONDITION;
    taken++, taken_of = it;
    *number = 7;
    return AQS_OK;
}
extern "C" void aqs_object_give_condition(aqs_object_t *it, uint8_t number) {
    CHECK(it == taken_of && number == 7);
    given++;
}
extern "C" bool aqs_is_static(const void *) { return is_static; }
extern "C" aqs_status_t aqs_history_save(aqs_object_t *it, const char *path) {
    note("aqs_history_save", it, {path[0]});
    return answer;
}

// What a member returned: a number, or the status that it threw, below 0.
static long told(const std::function<long()> &member) {
    try {
        return member();
    } catch (const aqs::error &error) {
        return -1000 - error.status();
    }
}

// A member makes this call of this object, and none beside, whatever it answers. `wanted` says what the member
// makes of that.
static void makes(const std::string &call, const void *object, const std::function<long()> &member,
                  long (*wanted)(int), long value) {
    for (int status = AQS_OK; status <= AQS_HANDLER_RAN; status++) {
        made.clear(), of.clear(), call_clock::shown = {};
        answer = (aqs_status_t)status;
        long found = told(member);
        answer = AQS_OK;
        long expected = status == AQS_OK ? value : wanted(status);
        if (made == call && of[0] == object && found == expected) continue;
        fprintf(stderr, "%s for status %d: made %s, and returned %ld\n", call.c_str(), status, made.c_str(), found);
        _Exit(1);
    }
}

// What can't be done throws.
static long thrown(int status) { return -1000 - status; }

// Ends without what was asked for are false, and the rest throws.
static long false_or_thrown(int status) {
    bool is_end = status == AQS_TIMED_OUT || status == AQS_INTERRUPTED || status == AQS_WOULD_BLOCK;
    return is_end || status == AQS_HANDLER_RAN ? 0 : thrown(status);
}

static void does(const std::string &call, const void *object, const std::function<void()> &member) {
    makes(call, object, [&] { member(); return 1; }, thrown, 1);
}
static void tries(const std::string &call, const void *object, const std::function<bool()> &member) {
    makes(call, object, [&] { return member(); }, false_or_thrown, 1);
}
static void tells(const std::string &call, const void *object, long value, const std::function<long()> &member) {
    makes(call, object, member, thrown, value);
}
// A call that has no status.
static void says(const std::string &call, const void *object, long value, const std::function<long()> &member) {
    made.clear(), of.clear();
    CHECK(member() == value && made == call && of[0] == object);
}

// One that is given a guard which doesn't own its lock makes no call.
static void refuses(const std::function<void()> &member) {
    made.clear();
    CHECK(told([&] { member(); return 1; }) == thrown(AQS_NOT_OWNER) && made.empty());
}

static const auto past = std::chrono::steady_clock::now();

// A wait with a predicate makes its call again until the predicate holds, and none if it holds at once. `call` is that
// of a wait, and `timed` that of one with a time, without the time.
template <class Condition, class Guard>
static void
waits_for_predicates(Condition &condition, Guard &guard, const std::string &call, const std::string &timed) {
    int looks = 0;
    auto third = [&] { return ++looks == 3; };
    auto makes_two = [&](const std::string &one, const std::function<bool()> &member) {
        looks = 0, made.clear();
        CHECK(member() && looks == 3 && made == one + "; " + one);
        looks = 2, made.clear();
        CHECK(member() && looks == 3 && made.empty());
    };
    makes_two(call, [&] { condition.wait(guard, third); return true; });
    const auto longest = std::chrono::hours::max();
    makes_two(timed + " 9223372036854775000", [&] { return condition.wait_for(guard, longest, third); });
    makes_two(timed + " 0", [&] { return condition.wait_until(guard, past, third); });
}

// None of the waits is made by a guard that doesn't own the lock of the condition.
template <class Condition, class Guard>
static void refuses_all(Condition &condition, Guard &guard) {
    auto no = [] { return false; };
    refuses([&] { condition.wait(guard); });
    refuses([&] { condition.wait(guard, no); });
    refuses([&] { condition.wait_interruptibly(guard); });
    refuses([&] { condition.wait_for(guard, 5ms); });
    refuses([&] { condition.wait_for(guard, 5ms, no); });
    refuses([&] { condition.wait_until(guard, past); });
    refuses([&] { condition.wait_until(guard, past, no); });
}

// The members that each lock has to lock it, or one side of it.
template <class Lock>
static void locks(Lock &lock, const std::string &kind, const std::string &side) {
    const void *it = lock.native_handle();
    const std::string call = "aqs_" + kind + "_", unlock = side.substr(0, side.size() - 4) + "unlock";
    does(call + side, it, [&] { lock.lock(); });
    tries(call + side + "_interruptibly", it, [&] { return lock.lock_interruptibly(); });
    tries(call + "try" + side, it, [&] { return lock.try_lock(); });
    tries(call + "timed" + side + " 5", it, [&] { return lock.try_lock_for(5ms); });
    tries(call + "timed" + side + " 9", it, [&] { return lock.try_lock_until(soon); });
    does(call + unlock, it, [&] { lock.unlock(); });
}

// A condition without a number takes one, and gives it back once, at its end or when another is put in its
// place.
template <class Lock>
static void conditions_of_their_own(Lock &lock, const std::string &call) {
    const void *it = lock.native_handle();
    taken = given = 0;
    does(call + "signal 7", it, [&] { lock.condition().notify_one(); });
    CHECK(taken == 18 && given == 18 && taken_of == it);
    {
        auto one = lock.condition(), another = std::move(one);
        CHECK(taken == 19 && given == 18);
        one = lock.condition();
        one = std::move(another);
        CHECK(taken == 20 && given == 19);
        auto by_number = lock.condition(2);
        by_number = std::move(one);
        CHECK(given == 19);
        has_none_left = true;
        CHECK(told([&] { lock.condition(); return 1; }) == thrown(AQS_NO_SUCH_CONDITION));
        has_none_left = false;
    }
    CHECK(taken == 20 && given == 20);
}

// How a wait with a time ended, as std::cv_status too.
template <class Condition, class Guard>
static void results(Condition &condition, Guard &guard) {
    for (int status : {AQS_OK, AQS_TIMED_OUT, AQS_INTERRUPTED, AQS_HANDLER_RAN}) {
        answer = (aqs_status_t)status;
        auto result = condition.wait_for(guard, 5ms);
        CHECK(result.status() == status && static_cast<bool>(result) == (status == AQS_OK));
        CHECK((result == std::cv_status::timeout) == (status == AQS_TIMED_OUT));
        CHECK((std::cv_status::no_timeout != result) == (status == AQS_TIMED_OUT));
        std::cv_status as_status = condition.wait_until(guard, soon);
        CHECK((as_status == aqs::cv_status::timeout) == (status == AQS_TIMED_OUT));
    }
    answer = AQS_OK;
}

// Those of a condition of a number. The guard's own calls succeed, and aren't noted.
template <class Lock>
static void conditions(Lock &lock, const std::string &kind) {
    const void *it = lock.native_handle();
    const std::string call = "aqs_" + kind + "_";
    auto condition = lock.condition(2);
    std::unique_lock<Lock> guard(lock);
    auto no = [] { return false; };
    does(call + "wait 2", it, [&] { condition.wait(guard); });
    tries(call + "wait_interruptibly 2", it, [&] { return condition.wait_interruptibly(guard); });
    tries(call + "timedwait 2 5", it, [&] { return condition.wait_for(guard, 5ms); });
    tries(call + "timedwait 2 9", it, [&] { return condition.wait_until(guard, soon); });
    does(call + "signal 2", it, [&] { condition.notify_one(); });
    does(call + "signal_all 2", it, [&] { condition.notify_all(); });
    answer = AQS_TIMED_OUT;
    made.clear();
    CHECK(!condition.wait_for(guard, 0ms, no) && made == call + "timedwait 2 0");
    answer = AQS_OK;
    does(call + "signal 0", it, [&] { lock.condition(0).notify_one(); });
    conditions_of_their_own(lock, call);
    waits_for_predicates(condition, guard, call + "wait 2", call + "timedwait 2");
    results(condition, guard);
    Lock another;
    std::unique_lock<Lock> without(lock, std::defer_lock), none, of_another(another);
    refuses_all(condition, without);
    refuses_all(condition, none);
    refuses_all(condition, of_another);
}

// Those of each object.
template <class Object>
static void histories(Object &object) {
    const void *it = object.native_handle();
    tells("aqs_history_trim", it, 8, [&] { return (long)object.trim(); });
    does("aqs_history_save 112", it, [&] { object.save_history("path"); });
    made.clear();
    the_text = "a text of 20 letters";
    tries_left = 6;
    CHECK(object.history() == the_text && made.find("aqs_history_text; aqs_history_text") == 0 && of.back() == it);
    made.clear();
    the_text = "0 main";
    tries_left = 6;
    CHECK(object.history_names() == the_text && of.back() == it);
    CHECK(made.find("aqs_history_names; aqs_history_names") == 0);
    answer = AQS_TOO_MANY_THREADS;
    CHECK(told([&] { return (long)object.history().size(); }) == thrown(answer));
    answer = AQS_OK;
}
template <class Object>
static void questions(Object &object) {
    const void *it = object.native_handle();
    tells("aqs_object_queue_length", it, 6, [&] { return (long)object.queue_length(); });
    tells("aqs_object_waiters", it, 7, [&] { return (long)object.waiters(); });
    says("aqs_object_policy", it, AQS_STRICT, [&] { return (long)object.policy(); });
}

static void mutexes() {
    aqs::mutex mutex;
    const void *it = mutex.native_handle();
    locks(mutex, "lock", "lock");
    conditions(mutex, "lock");
    histories(mutex);
    questions(mutex);
    tells("aqs_lock_is_locked", it, 1, [&] { return mutex.is_locked(); });
    says("aqs_lock_is_mine", it, 1, [&] { return mutex.is_mine(); });
    says("aqs_lock_holds", it, 3, [&] { return mutex.holds(); });
    aqs::plain_mutex plain;
    it = plain.native_handle();
    locks(plain, "mutex", "lock");
    conditions(plain, "mutex");
    histories(plain);
    questions(plain);
    tells("aqs_mutex_is_locked", it, 1, [&] { return plain.is_locked(); });
    says("aqs_mutex_is_mine", it, 1, [&] { return plain.is_mine(); });
}

static void read_write_locks() {
    aqs::shared_mutex mutex;
    const void *it = mutex.native_handle();
    locks(mutex, "rwlock", "wrlock");
    conditions(mutex, "rwlock");
    histories(mutex);
    questions(mutex);
    does("aqs_rwlock_rdlock", it, [&] { mutex.lock_shared(); });
    tries("aqs_rwlock_rdlock_interruptibly", it, [&] { return mutex.lock_shared_interruptibly(); });
    tries("aqs_rwlock_tryrdlock", it, [&] { return mutex.try_lock_shared(); });
    tries("aqs_rwlock_timedrdlock 5", it, [&] { return mutex.try_lock_shared_for(5ms); });
    tries("aqs_rwlock_timedrdlock 9", it, [&] { return mutex.try_lock_shared_until(soon); });
    does("aqs_rwlock_rdunlock", it, [&] { mutex.unlock_shared(); });
    tells("aqs_rwlock_is_write_locked", it, 1, [&] { return mutex.is_write_locked(); });
    says("aqs_rwlock_is_mine", it, 1, [&] { return mutex.is_mine(); });
    says("aqs_rwlock_write_holds", it, 4, [&] { return mutex.write_holds(); });
    says("aqs_rwlock_read_holds", it, 5, [&] { return mutex.read_holds(); });
}

template <class Lock>
static void condition_objects() {
    aqs::condition_variable condition;
    const void *it = condition.native_handle();
    Lock lock;
    std::unique_lock<Lock> guard(lock);
    does("aqs_cond_wait", it, [&] { condition.wait(guard); });
    tries("aqs_cond_wait_interruptibly", it, [&] { return condition.wait_interruptibly(guard); });
    tries("aqs_cond_timedwait 5", it, [&] { return condition.wait_for(guard, 5ms); });
    tries("aqs_cond_timedwait 9", it, [&] { return condition.wait_until(guard, soon); });
    does("aqs_cond_signal", it, [&] { condition.notify_one(); });
    does("aqs_cond_signal_all", it, [&] { condition.notify_all(); });
    waits_for_predicates(condition, guard, "aqs_cond_wait", "aqs_cond_timedwait");
    std::unique_lock<Lock> without(lock, std::defer_lock), none;
    refuses_all(condition, without);
    refuses_all(condition, none);
}

static void semaphores() {
    aqs::semaphore permits(3);
    const void *it = permits.native_handle();
    does("aqs_sem_acquire 1", it, [&] { permits.acquire(); });
    does("aqs_sem_acquire 5", it, [&] { permits.acquire(5); });
    tries("aqs_sem_acquire_interruptibly 1", it, [&] { return permits.acquire_interruptibly(); });
    tries("aqs_sem_acquire_interruptibly 5", it, [&] { return permits.acquire_interruptibly(5); });
    tries("aqs_sem_tryacquire 1", it, [&] { return permits.try_acquire(); });
    tries("aqs_sem_tryacquire 5", it, [&] { return permits.try_acquire(5); });
    tries("aqs_sem_timedacquire 1 7", it, [&] { return permits.try_acquire_for(7ms); });
    tries("aqs_sem_timedacquire 5 7", it, [&] { return permits.try_acquire_for(7ms, 5); });
    tries("aqs_sem_timedacquire 1 9", it, [&] { return permits.try_acquire_until(soon); });
    tries("aqs_sem_timedacquire 5 9", it, [&] { return permits.try_acquire_until(soon, 5); });
    does("aqs_sem_release 1", it, [&] { permits.release(); });
    does("aqs_sem_release 5", it, [&] { permits.release(5); });
    tells("aqs_sem_drain", it, 9, [&] { return permits.drain(); });
    tells("aqs_sem_getvalue", it, -10, [&] { return permits.available(); });
    questions(permits);
    histories(permits);
}

static void latches() {
    aqs::latch latch(3);
    const void *it = latch.native_handle();
    does("aqs_latch_count_down", it, [&] { latch.count_down(); });
    does("aqs_latch_await", it, [&] { latch.wait(); });
    tries("aqs_latch_await_interruptibly", it, [&] { return latch.wait_interruptibly(); });
    tries("aqs_latch_timedawait 5", it, [&] { return latch.wait_for(5ms); });
    tries("aqs_latch_timedawait 9", it, [&] { return latch.wait_until(soon); });
    tells("aqs_latch_getcount", it, 11, [&] { return latch.count(); });
    tells("aqs_latch_getcount", it, 0, [&] { return latch.try_wait(); });
    questions(latch);
    histories(latch);
    made.clear();
    latch.arrive_and_wait(2);
    CHECK(made == "aqs_latch_count_down; aqs_latch_count_down; aqs_latch_await");
    made.clear();
    latch.arrive_and_wait();
    CHECK(made == "aqs_latch_count_down; aqs_latch_await");
}

static void barriers() {
    CHECK(aqs::barrier::max() == 256 && aqs::latch::max() == 2147483647 && aqs::semaphore::max() == 2147483647);
    aqs::barrier barrier(4);
    tells("aqs_barrier_wait", the_barrier, 1, [&] { return barrier.arrive_and_wait(); });
    histories(barrier);
}

// An opening has its options, and throws its status. What was opened is closed.
static void
opens(const std::string &kind, const std::string &call, const std::function<void(const aqs::options &)> &open) {
    aqs::options how = aqs::options().strict().keep_history().most_entries(17).threads(5).conditions(6);
    made.clear(), opened_with = {};
    open(how.handlers_end_waits());
    CHECK(made == "aqs_" + kind + call + "; aqs_" + kind + "_close");
    CHECK(opened_with.policy == AQS_STRICT && opened_with.when_full == AQS_REFUSE && opened_with.history == 17);
    CHECK(opened_with.threads == 5 && opened_with.conditions == 6 && opened_with.heeds_handlers);
    open(aqs::options().fair());
    CHECK(opened_with.policy == AQS_FAIR && opened_with.when_full == AQS_TRIM && opened_with.history == 0);
    CHECK(opened_with.threads == 0 && opened_with.conditions == 0 && !opened_with.heeds_handlers);
    answer = AQS_OUT_OF_RANGE;
    CHECK(told([&] { open(how); return 0; }) == thrown(AQS_OUT_OF_RANGE));
    answer = AQS_OK;
}

static void openings() {
    opens("lock", "_init", [](const aqs::options &how) { aqs::mutex it(how); });
    opens("mutex", "_init", [](const aqs::options &how) { aqs::plain_mutex it(how); });
    opens("rwlock", "_init", [](const aqs::options &how) { aqs::shared_mutex it(how); });
    opens("sem", "_init -3", [](const aqs::options &how) { aqs::semaphore it(-3, how); });
    opens("latch", "_init 3", [](const aqs::options &how) { aqs::latch it(3, how); });
    opens("barrier", "_open 3", [](const aqs::options &how) { aqs::barrier it(3, how); });
}

int main() {
    alarm(60);
    mutexes();
    read_write_locks();
    condition_objects<aqs::mutex>();
    condition_objects<aqs::plain_mutex>();
    semaphores();
    latches();
    barriers();
    openings();
    std::puts("members: good");
}
