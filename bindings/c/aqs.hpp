// aqs.hpp: the synchronisers of aqs.h for C++11 and later. A header alone; link with aqs.
//
//   aqs::recursive_mutex mutex;              // reentrant, as is aqs::mutex, which is the same
//   aqs::condition not_empty = mutex.condition(), not_full = mutex.condition();  // two conditions of it
//   { std::unique_lock guard(mutex); not_empty.wait(guard, [&] { return !queue.empty(); }); }
//
//   aqs::plain_mutex plain;                  // not reentrant, as std::mutex; std::lock_guard takes each
//   aqs::shared_mutex table_mutex;           // std::shared_lock too
//   aqs::semaphore permits(3);               // and aqs::counting_semaphore<3>, aqs::binary_semaphore
//   aqs::latch ready(4);
//   aqs::barrier all_came(4);
//   aqs::condition_variable changed;         // of any lock of these, bound to it while threads wait
//   aqs::condition_variable_any any;         // of any lock at all, with stop tokens in C++20
//
// Locks, semaphores and latches without options may be static: they open at their first call, by constant
// initialisation. One in use can't be moved, and so has no move. One that is static isn't closed as the
// program exits, so threads that still run may go on with it.
//
// What can't be done throws aqs::error, which has the status. Timeouts, interrupts and tries return false. So
// do waits that a signal handler ended, of an object that was opened with handlers_end_waits().
// With AQS_NO_EXCEPTIONS, or if the compiler makes no exceptions, what can't be done ends the program.
//
// A time may be of any length.
#ifndef AQS_HPP
#define AQS_HPP

#include "aqs.h"

#include <chrono>
#include <cmath>
#include <condition_variable>
#include <cstddef>
#include <cstdint>
#include <memory>
#include <mutex>
#include <ratio>
#include <string>
#include <system_error>
#include <utility>
#if __cplusplus >= 202002L && defined(__has_include)
#if __has_include(<stop_token>)
#include <stop_token>
#endif
#endif

#if !defined(AQS_NO_EXCEPTIONS) && defined(__GNUC__) && !defined(__EXCEPTIONS)
#define AQS_NO_EXCEPTIONS
#endif

namespace aqs {

class condition_variable;

namespace detail {

class status_category : public std::error_category {
public:
    const char *name() const noexcept override { return "aqs"; }
    std::string message(int status) const override {
        return aqs_status_name(static_cast<aqs_status_t>(status));
    }

    std::error_condition default_error_condition(int status) const noexcept override {
        switch (status) {
            case AQS_TIMED_OUT: return std::errc::timed_out;
            case AQS_INTERRUPTED: return std::errc::interrupted;
            case AQS_WOULD_BLOCK: return std::errc::resource_unavailable_try_again;
            case AQS_NOT_OWNER: return std::errc::operation_not_permitted;
            case AQS_TOO_MANY_HOLDS: return std::errc::resource_unavailable_try_again;
            case AQS_TOO_MANY_PERMITS: return std::errc::value_too_large;
            case AQS_HOLDS_READ: return std::errc::resource_deadlock_would_occur;
            case AQS_NO_SUCH_CONDITION: return std::errc::invalid_argument;
            case AQS_BAD_AMOUNT: return std::errc::invalid_argument;
            case AQS_OUT_OF_MEMORY: return std::errc::not_enough_memory;
            case AQS_OUT_OF_RANGE: return std::errc::invalid_argument;
            case AQS_TOO_MANY_THREADS: return std::errc::resource_unavailable_try_again;
            case AQS_IO_ERROR: return std::errc::io_error;
            case AQS_HANDLER_RAN: return std::errc::interrupted;
            default: return std::error_condition(status, *this);
        }
    }

    // A second lock by the owner of a mutex that isn't reentrant is this one too.
    bool equivalent(int status, const std::error_condition &condition) const noexcept override {
        return default_error_condition(status) == condition
               || (status == AQS_TOO_MANY_HOLDS && condition == std::errc::resource_deadlock_would_occur);
    }
};

}  // namespace detail

// The statuses as codes of errors. They compare with those of std::errc that mean the same.
inline const std::error_category &category() noexcept {
    static const detail::status_category the_category;
    return the_category;
}

// A call that couldn't be made. The object is as it was.
class error : public std::system_error {
public:
    explicit error(aqs_status_t status) : std::system_error(std::error_code(status, category())) {}
    aqs_status_t status() const noexcept { return static_cast<aqs_status_t>(code().value()); }
};

// How an object is opened. What isn't set has its default (aqs.h).
struct options : aqs_options_t {
    options() : aqs_options_t{} {}
    options &fair() { policy = AQS_FAIR; return *this; }
    options &strict() { policy = AQS_STRICT; return *this; }
    options &keep_history() { when_full = AQS_REFUSE; return *this; }
    options &most_entries(std::uint32_t entries) { history = entries; return *this; }
    options &threads(std::uint16_t number) { aqs_options_t::threads = number; return *this; }
    options &conditions(std::uint8_t number) { aqs_options_t::conditions = number; return *this; }
    options &handlers_end_waits() { heeds_handlers = true; return *this; }
};

using std::cv_status;

// How a wait with a time ended: true if it has what it waited for. It is a cv_status too, which is timeout
// only if the time was up.
class wait_result {
public:
    constexpr explicit wait_result(aqs_status_t status) noexcept : status_(status) {}
    constexpr operator bool() const noexcept { return status_ == AQS_OK; }
    constexpr operator cv_status() const noexcept {
        return status_ == AQS_TIMED_OUT ? cv_status::timeout : cv_status::no_timeout;
    }
    // AQS_OK, AQS_TIMED_OUT, AQS_INTERRUPTED or AQS_HANDLER_RAN.
    constexpr aqs_status_t status() const noexcept { return status_; }

private:
    aqs_status_t status_;
};

constexpr bool operator==(wait_result result, cv_status status) noexcept {
    return static_cast<cv_status>(result) == status;
}
constexpr bool operator!=(wait_result result, cv_status status) noexcept { return !(result == status); }
constexpr bool operator==(cv_status status, wait_result result) noexcept { return result == status; }
constexpr bool operator!=(cv_status status, wait_result result) noexcept { return !(result == status); }

namespace detail {

inline void check(aqs_status_t status) {
#ifdef AQS_NO_EXCEPTIONS
    aqs_or_abort(status, "aqs.hpp");
#else
    if (status != AQS_OK) throw error(status);
#endif
}

// Whether it has what it asked for; false where it may end without.
inline bool check_taken(aqs_status_t status) {
    if (status == AQS_TIMED_OUT || status == AQS_INTERRUPTED || status == AQS_WOULD_BLOCK) return false;
    if (status == AQS_HANDLER_RAN) return false;
    check(status);
    return true;
}

// How a wait ended that may end without.
inline wait_result result_of(aqs_status_t status) {
    (void)check_taken(status);
    return wait_result(status);
}

// Closes an object, unless it is static: other threads may go on with it while the program exits.
template <class Object>
void close_unless_static(void (*close)(Object *), Object *object) {
    if (!aqs_is_static(object)) close(object);
}

// Times in milliseconds. No duration is too long for this type.
typedef std::chrono::duration<long double, std::milli> milliseconds;

// A time for a call of aqs.h: rounded up, from 0 to some 292 million years.
inline std::int64_t whole(milliseconds time) {
    constexpr std::int64_t longest = INT64_MAX - 807;
    if (!(time.count() > 0)) return 0;
    return time.count() < longest ? static_cast<std::int64_t>(std::ceil(time.count())) : longest;
}

// Makes a call with a time.
template <class Call>
aqs_status_t for_time(milliseconds time, Call call) {
    return call(whole(time));
}

// Makes a call with the time that a moment is away, and again until the clock shows the moment.
template <class Clock, class Duration, class Call>
aqs_status_t until_moment(const std::chrono::time_point<Clock, Duration> &moment, Call call) {
    // The unit of the clock may overflow, and this type can't. It is exact if a long double has 64 bits of mantissa.
    const milliseconds awaited = moment.time_since_epoch();
    for (;;) {
        const milliseconds shown = Clock::now().time_since_epoch();
        const aqs_status_t status = call(whole(awaited - shown));
        const milliseconds reached = Clock::now().time_since_epoch();
        if (status != AQS_TIMED_OUT || !(reached < awaited)) return status;
    }
}

// A text of an object. Other threads may lengthen it between two tries. So each try has twice the spare room,
// until the room is twice the text.
inline std::string text_by(
    aqs_status_t (*puts)(aqs_object_t *, char *, std::size_t, std::size_t *), aqs_object_t *object) {
    std::string text;
    std::size_t length = 0, share = 8;
    aqs_status_t status;
    while ((status = puts(object, &text[0], text.size(), &length)) == AQS_NO_SPACE) {
        text.resize(length + length / share);
        if (share > 1) share /= 2;
    }
    check(status);
    text.resize(length);
    return text;
}

// The text of an object's history since its last trim, and the names of its seats.
inline std::string history(aqs_object_t *object) { return text_by(aqs_history_text, object); }
inline std::string history_names(aqs_object_t *object) { return text_by(aqs_history_names, object); }

// How many threads are in the object's queue, and how many wait in all: those there, and those on conditions.
// Others may come or leave before the caller reads it. They record nothing.
inline std::uint32_t queue_length(aqs_object_t *object) {
    std::uint32_t count = 0;
    check(aqs_object_queue_length(object, &count));
    return count;
}

inline std::uint32_t waiters(aqs_object_t *object) {
    std::uint32_t count = 0;
    check(aqs_object_waiters(object, &count));
    return count;
}

inline std::uint64_t trim(aqs_object_t *object) {
    std::uint64_t count = 0;
    check(aqs_history_trim(object, &count));
    return count;
}

}  // namespace detail

// A condition of a lock or of the write side of a read-write lock. It ends before that. One that was made
// without a number has one of its own, which it gives back at its end: nobody waits then.
template <class Lock>
class basic_condition {
public:
    // Throws AQS_NO_SUCH_CONDITION if the lock has none left.
    explicit basic_condition(Lock &lock) : lock_(&lock), is_own_(true) {
        detail::check(aqs_object_take_condition(lock.as_object(), &number_));
    }
    // The condition of a number, for who gives each its number himself. Don't mix the two ways at one lock.
    basic_condition(Lock &lock, std::uint8_t number) : lock_(&lock), number_(number), is_own_(false) {}
    ~basic_condition() { give_back(); }
    basic_condition(const basic_condition &) = delete;
    basic_condition &operator=(const basic_condition &) = delete;
    basic_condition(basic_condition &&other) noexcept
        : lock_(other.lock_), number_(other.number_), is_own_(taken(other.is_own_)) {}
    basic_condition &operator=(basic_condition &&other) noexcept {
        if (this != &other) {
            give_back();
            lock_ = other.lock_, number_ = other.number_, is_own_ = taken(other.is_own_);
        }
        return *this;
    }

    // Sleeps until it is signalled. The caller owns the lock, as `guard` says.
    void wait(std::unique_lock<Lock> &guard) { owned(guard).wait(number_); }

    template <class Predicate>
    void wait(std::unique_lock<Lock> &guard, Predicate holds) {
        while (!holds()) wait(guard);
    }

    // False if the time was up, or the thread was interrupted. It owns the lock again.
    template <class Rep, class Period>
    wait_result wait_for(std::unique_lock<Lock> &guard, const std::chrono::duration<Rep, Period> &time) {
        return owned(guard).timed_wait(number_, time);
    }

    template <class Clock, class Duration>
    wait_result
    wait_until(std::unique_lock<Lock> &guard, const std::chrono::time_point<Clock, Duration> &moment) {
        return owned(guard).timed_wait_until(number_, moment);
    }

    // What the predicate says, at the end of the time at the latest.
    template <class Rep, class Period, class Predicate>
    bool wait_for(
        std::unique_lock<Lock> &guard, const std::chrono::duration<Rep, Period> &time, Predicate holds) {
        const auto begin = std::chrono::steady_clock::now();
        while (!holds()) {
            const detail::milliseconds past = std::chrono::steady_clock::now() - begin;
            if (!owned(guard).timed_wait(number_, detail::milliseconds(time) - past)) return holds();
        }
        return true;
    }

    template <class Clock, class Duration, class Predicate>
    bool wait_until(std::unique_lock<Lock> &guard, const std::chrono::time_point<Clock, Duration> &moment,
                    Predicate holds) {
        while (!holds()) {
            if (!wait_until(guard, moment)) return holds();
        }
        return true;
    }

    // False if the thread was interrupted.
    bool wait_interruptibly(std::unique_lock<Lock> &guard) {
        return owned(guard).wait_interruptibly(number_);
    }

    void notify_one() { lock_->signal(number_); }
    void notify_all() { lock_->signal_all(number_); }

private:
    Lock &owned(std::unique_lock<Lock> &guard) {
        if (!guard.owns_lock() || guard.mutex() != lock_) detail::check(AQS_NOT_OWNER);
        return *lock_;
    }

    void give_back() noexcept {
        if (is_own_) aqs_object_give_condition(lock_->as_object(), number_);
    }

    static bool taken(bool &is_own) noexcept {
        const bool was_own = is_own;
        is_own = false;
        return was_own;
    }

    Lock *lock_;
    std::uint8_t number_ = 0;
    bool is_own_;
};

// A reentrant lock, which std::lock_guard, std::unique_lock and std::scoped_lock take.
class mutex {
public:
    typedef aqs_lock_t *native_handle_type;

    constexpr mutex() noexcept : lock_ AQS_LOCK_INIT {}
    explicit mutex(const options &how) : lock_ AQS_LOCK_INIT {
        detail::check(aqs_lock_init(&lock_, &how));
    }
    ~mutex() { detail::close_unless_static(aqs_lock_close, &lock_); }
    mutex(const mutex &) = delete;
    mutex &operator=(const mutex &) = delete;

    void lock() { detail::check(aqs_lock_lock(&lock_)); }
    bool lock_interruptibly() { return detail::check_taken(aqs_lock_lock_interruptibly(&lock_)); }
    bool try_lock() { return detail::check_taken(aqs_lock_trylock(&lock_)); }
    void unlock() { detail::check(aqs_lock_unlock(&lock_)); }

    template <class Rep, class Period>
    bool try_lock_for(const std::chrono::duration<Rep, Period> &time) {
        return detail::check_taken(detail::for_time(time, timed_lock{&lock_}));
    }

    template <class Clock, class Duration>
    bool try_lock_until(const std::chrono::time_point<Clock, Duration> &moment) {
        return detail::check_taken(detail::until_moment(moment, timed_lock{&lock_}));
    }

    // A condition that nobody else has. With a number it is that of this number, for who gives the numbers
    // himself.
    basic_condition<mutex> condition() { return basic_condition<mutex>(*this); }
    basic_condition<mutex> condition(std::uint8_t number) { return basic_condition<mutex>(*this, number); }
    std::string history() const { return detail::history(aqs_lock_object(&lock_)); }
    // Writes the history to a file of this path, and the names of its threads to PATH.names.
    void save_history(const std::string &path) const {
        detail::check(aqs_history_save(aqs_lock_object(&lock_), path.c_str()));
    }
    std::string history_names() const { return detail::history_names(aqs_lock_object(&lock_)); }
    std::uint64_t trim() { return detail::trim(aqs_lock_object(&lock_)); }
    // Whether the calling thread owns it, and how often. They record nothing.
    bool is_mine() const noexcept { return aqs_lock_is_mine(&lock_); }
    std::uint32_t holds() const noexcept { return aqs_lock_holds(&lock_); }
    // Whether any thread owns it, how many are in its queue, and how many wait in all. They record nothing.
    bool is_locked() const {
        bool is_locked = false;
        detail::check(aqs_lock_is_locked(&lock_, &is_locked));
        return is_locked;
    }
    std::uint32_t queue_length() const { return detail::queue_length(aqs_lock_object(&lock_)); }
    std::uint32_t waiters() const { return detail::waiters(aqs_lock_object(&lock_)); }
    aqs_policy_t policy() const noexcept { return aqs_object_policy(aqs_lock_object(&lock_)); }
    native_handle_type native_handle() noexcept { return &lock_; }

private:
    friend class basic_condition<mutex>;
    friend class condition_variable;
    aqs_lock_t *as_lock() noexcept { return &lock_; }
    aqs_object_t *as_object() noexcept { return aqs_lock_object(&lock_); }

    struct timed_lock {
        aqs_lock_t *lock;
        aqs_status_t operator()(std::int64_t time) { return aqs_lock_timedlock(lock, time); }
    };
    struct timed_await {
        aqs_lock_t *lock;
        std::uint8_t condition;
        aqs_status_t operator()(std::int64_t time) { return aqs_lock_timedwait(lock, condition, time); }
    };

    void wait(std::uint8_t number) { detail::check(aqs_lock_wait(&lock_, number)); }
    bool wait_interruptibly(std::uint8_t number) {
        return detail::check_taken(aqs_lock_wait_interruptibly(&lock_, number));
    }
    wait_result timed_wait(std::uint8_t number, detail::milliseconds time) {
        return detail::result_of(detail::for_time(time, timed_await{&lock_, number}));
    }
    template <class Moment>
    wait_result timed_wait_until(std::uint8_t number, const Moment &moment) {
        return detail::result_of(detail::until_moment(moment, timed_await{&lock_, number}));
    }
    void signal(std::uint8_t number) { detail::check(aqs_lock_signal(&lock_, number)); }
    void signal_all(std::uint8_t number) { detail::check(aqs_lock_signal_all(&lock_, number)); }

    mutable aqs_lock_t lock_;
};

// A lock that isn't reentrant. A second lock by its owner throws, and a second try returns false.
class plain_mutex {
public:
    typedef aqs_mutex_t *native_handle_type;

    constexpr plain_mutex() noexcept : mutex_ AQS_MUTEX_INIT {}
    explicit plain_mutex(const options &how) : mutex_ AQS_MUTEX_INIT {
        detail::check(aqs_mutex_init(&mutex_, &how));
    }
    ~plain_mutex() { detail::close_unless_static(aqs_mutex_close, &mutex_); }
    plain_mutex(const plain_mutex &) = delete;
    plain_mutex &operator=(const plain_mutex &) = delete;

    void lock() { detail::check(aqs_mutex_lock(&mutex_)); }
    bool lock_interruptibly() { return detail::check_taken(aqs_mutex_lock_interruptibly(&mutex_)); }
    bool try_lock() { return detail::check_taken(aqs_mutex_trylock(&mutex_)); }
    void unlock() { detail::check(aqs_mutex_unlock(&mutex_)); }

    template <class Rep, class Period>
    bool try_lock_for(const std::chrono::duration<Rep, Period> &time) {
        return detail::check_taken(detail::for_time(time, timed_lock{&mutex_}));
    }

    template <class Clock, class Duration>
    bool try_lock_until(const std::chrono::time_point<Clock, Duration> &moment) {
        return detail::check_taken(detail::until_moment(moment, timed_lock{&mutex_}));
    }

    // A condition that nobody else has. With a number it is that of this number, for who gives the numbers
    // himself.
    basic_condition<plain_mutex> condition() { return basic_condition<plain_mutex>(*this); }
    basic_condition<plain_mutex> condition(std::uint8_t number) {
        return basic_condition<plain_mutex>(*this, number);
    }
    std::string history() const { return detail::history(aqs_mutex_object(&mutex_)); }
    // Writes the history to a file of this path, and the names of its threads to PATH.names.
    void save_history(const std::string &path) const {
        detail::check(aqs_history_save(aqs_mutex_object(&mutex_), path.c_str()));
    }
    std::string history_names() const { return detail::history_names(aqs_mutex_object(&mutex_)); }
    std::uint64_t trim() { return detail::trim(aqs_mutex_object(&mutex_)); }
    // Whether the calling thread owns it. It records nothing.
    bool is_mine() const noexcept { return aqs_mutex_is_mine(&mutex_); }
    // Whether any thread owns it, how many are in its queue, and how many wait in all. They record nothing.
    bool is_locked() const {
        bool is_locked = false;
        detail::check(aqs_mutex_is_locked(&mutex_, &is_locked));
        return is_locked;
    }
    std::uint32_t queue_length() const { return detail::queue_length(aqs_mutex_object(&mutex_)); }
    std::uint32_t waiters() const { return detail::waiters(aqs_mutex_object(&mutex_)); }
    aqs_policy_t policy() const noexcept { return aqs_object_policy(aqs_mutex_object(&mutex_)); }
    native_handle_type native_handle() noexcept { return &mutex_; }

private:
    friend class basic_condition<plain_mutex>;
    friend class condition_variable;
    aqs_lock_t *as_lock() noexcept { return aqs_mutex_as_lock(&mutex_); }
    aqs_object_t *as_object() noexcept { return aqs_mutex_object(&mutex_); }

    struct timed_lock {
        aqs_mutex_t *lock;
        aqs_status_t operator()(std::int64_t time) { return aqs_mutex_timedlock(lock, time); }
    };
    struct timed_await {
        aqs_mutex_t *lock;
        std::uint8_t condition;
        aqs_status_t operator()(std::int64_t time) { return aqs_mutex_timedwait(lock, condition, time); }
    };

    void wait(std::uint8_t number) { detail::check(aqs_mutex_wait(&mutex_, number)); }
    bool wait_interruptibly(std::uint8_t number) {
        return detail::check_taken(aqs_mutex_wait_interruptibly(&mutex_, number));
    }
    wait_result timed_wait(std::uint8_t number, detail::milliseconds time) {
        return detail::result_of(detail::for_time(time, timed_await{&mutex_, number}));
    }
    template <class Moment>
    wait_result timed_wait_until(std::uint8_t number, const Moment &moment) {
        return detail::result_of(detail::until_moment(moment, timed_await{&mutex_, number}));
    }
    void signal(std::uint8_t number) { detail::check(aqs_mutex_signal(&mutex_, number)); }
    void signal_all(std::uint8_t number) { detail::check(aqs_mutex_signal_all(&mutex_, number)); }

    mutable aqs_mutex_t mutex_;
};

// A read-write lock, which std::shared_lock takes too. Both sides are reentrant.
class shared_mutex {
public:
    typedef aqs_rwlock_t *native_handle_type;

    constexpr shared_mutex() noexcept : lock_ AQS_RWLOCK_INIT {}
    explicit shared_mutex(const options &how) : lock_ AQS_RWLOCK_INIT {
        detail::check(aqs_rwlock_init(&lock_, &how));
    }
    ~shared_mutex() { detail::close_unless_static(aqs_rwlock_close, &lock_); }
    shared_mutex(const shared_mutex &) = delete;
    shared_mutex &operator=(const shared_mutex &) = delete;

    void lock() { detail::check(aqs_rwlock_wrlock(&lock_)); }
    bool lock_interruptibly() { return detail::check_taken(aqs_rwlock_wrlock_interruptibly(&lock_)); }
    bool try_lock() { return detail::check_taken(aqs_rwlock_trywrlock(&lock_)); }
    void unlock() { detail::check(aqs_rwlock_wrunlock(&lock_)); }

    template <class Rep, class Period>
    bool try_lock_for(const std::chrono::duration<Rep, Period> &time) {
        return detail::check_taken(detail::for_time(time, timed_write{&lock_}));
    }

    template <class Clock, class Duration>
    bool try_lock_until(const std::chrono::time_point<Clock, Duration> &moment) {
        return detail::check_taken(detail::until_moment(moment, timed_write{&lock_}));
    }

    void lock_shared() { detail::check(aqs_rwlock_rdlock(&lock_)); }
    bool lock_shared_interruptibly() { return detail::check_taken(aqs_rwlock_rdlock_interruptibly(&lock_)); }
    bool try_lock_shared() { return detail::check_taken(aqs_rwlock_tryrdlock(&lock_)); }
    void unlock_shared() { detail::check(aqs_rwlock_rdunlock(&lock_)); }

    template <class Rep, class Period>
    bool try_lock_shared_for(const std::chrono::duration<Rep, Period> &time) {
        return detail::check_taken(detail::for_time(time, timed_read{&lock_}));
    }

    template <class Clock, class Duration>
    bool try_lock_shared_until(const std::chrono::time_point<Clock, Duration> &moment) {
        return detail::check_taken(detail::until_moment(moment, timed_read{&lock_}));
    }

    // A condition that nobody else has. With a number it is that of this number, for who gives the numbers
    // himself.
    basic_condition<shared_mutex> condition() { return basic_condition<shared_mutex>(*this); }
    basic_condition<shared_mutex> condition(std::uint8_t number) {
        return basic_condition<shared_mutex>(*this, number);
    }
    std::string history() const { return detail::history(aqs_rwlock_object(&lock_)); }
    // Writes the history to a file of this path, and the names of its threads to PATH.names.
    void save_history(const std::string &path) const {
        detail::check(aqs_history_save(aqs_rwlock_object(&lock_), path.c_str()));
    }
    std::string history_names() const { return detail::history_names(aqs_rwlock_object(&lock_)); }
    std::uint64_t trim() { return detail::trim(aqs_rwlock_object(&lock_)); }
    // Whether the calling thread has the write side, and how often it has each side. They record nothing.
    bool is_mine() const noexcept { return aqs_rwlock_is_mine(&lock_); }
    std::uint32_t write_holds() const noexcept { return aqs_rwlock_write_holds(&lock_); }
    std::uint32_t read_holds() const noexcept { return aqs_rwlock_read_holds(&lock_); }
    // Whether any thread has the write side, how many are in the queue, and how many wait in all. They record
    // nothing.
    bool is_write_locked() const {
        bool is_locked = false;
        detail::check(aqs_rwlock_is_write_locked(&lock_, &is_locked));
        return is_locked;
    }
    std::uint32_t queue_length() const { return detail::queue_length(aqs_rwlock_object(&lock_)); }
    std::uint32_t waiters() const { return detail::waiters(aqs_rwlock_object(&lock_)); }
    aqs_policy_t policy() const noexcept { return aqs_object_policy(aqs_rwlock_object(&lock_)); }
    native_handle_type native_handle() noexcept { return &lock_; }

private:
    friend class basic_condition<shared_mutex>;
    aqs_object_t *as_object() noexcept { return aqs_rwlock_object(&lock_); }

    struct timed_write {
        aqs_rwlock_t *lock;
        aqs_status_t operator()(std::int64_t time) { return aqs_rwlock_timedwrlock(lock, time); }
    };
    struct timed_read {
        aqs_rwlock_t *lock;
        aqs_status_t operator()(std::int64_t time) { return aqs_rwlock_timedrdlock(lock, time); }
    };
    struct timed_await {
        aqs_rwlock_t *lock;
        std::uint8_t condition;
        aqs_status_t operator()(std::int64_t time) { return aqs_rwlock_timedwait(lock, condition, time); }
    };

    void wait(std::uint8_t number) { detail::check(aqs_rwlock_wait(&lock_, number)); }
    bool wait_interruptibly(std::uint8_t number) {
        return detail::check_taken(aqs_rwlock_wait_interruptibly(&lock_, number));
    }
    wait_result timed_wait(std::uint8_t number, detail::milliseconds time) {
        return detail::result_of(detail::for_time(time, timed_await{&lock_, number}));
    }
    template <class Moment>
    wait_result timed_wait_until(std::uint8_t number, const Moment &moment) {
        return detail::result_of(detail::until_moment(moment, timed_await{&lock_, number}));
    }
    void signal(std::uint8_t number) { detail::check(aqs_rwlock_signal(&lock_, number)); }
    void signal_all(std::uint8_t number) { detail::check(aqs_rwlock_signal_all(&lock_, number)); }

    mutable aqs_rwlock_t lock_;
};

// A condition as an object: std::condition_variable for mutex and plain_mutex. It belongs to no lock until a
// thread waits, and those who wait at a time wait with one lock (aqs_cond_t in aqs.h). Nobody wakes without a
// notice. Any thread may notify: one that doesn't own the lock acquires it for that.
class condition_variable {
public:
    typedef aqs_cond_t *native_handle_type;

    constexpr condition_variable() noexcept : condition_ AQS_COND_INIT {}
    condition_variable(const condition_variable &) = delete;
    condition_variable &operator=(const condition_variable &) = delete;

    template <class Lock>
    void wait(std::unique_lock<Lock> &guard) {
        detail::check(aqs_cond_wait(&condition_, owned(guard)));
    }

    template <class Lock, class Predicate>
    void wait(std::unique_lock<Lock> &guard, Predicate holds) {
        while (!holds()) wait(guard);
    }

    // False if the time was up, or the thread was interrupted. It owns the lock again.
    template <class Lock, class Rep, class Period>
    wait_result wait_for(std::unique_lock<Lock> &guard, const std::chrono::duration<Rep, Period> &time) {
        return detail::result_of(detail::for_time(time, timed_wait{&condition_, owned(guard)}));
    }

    template <class Lock, class Clock, class Duration>
    wait_result wait_until(
        std::unique_lock<Lock> &guard, const std::chrono::time_point<Clock, Duration> &moment) {
        return detail::result_of(detail::until_moment(moment, timed_wait{&condition_, owned(guard)}));
    }

    // What the predicate says, at the end of the time at the latest.
    template <class Lock, class Rep, class Period, class Predicate>
    bool wait_for(
        std::unique_lock<Lock> &guard, const std::chrono::duration<Rep, Period> &time, Predicate holds) {
        const auto begin = std::chrono::steady_clock::now();
        while (!holds()) {
            const detail::milliseconds past = std::chrono::steady_clock::now() - begin;
            if (!wait_for(guard, detail::milliseconds(time) - past)) return holds();
        }
        return true;
    }

    template <class Lock, class Clock, class Duration, class Predicate>
    bool wait_until(std::unique_lock<Lock> &guard, const std::chrono::time_point<Clock, Duration> &moment,
                    Predicate holds) {
        while (!holds()) {
            if (!wait_until(guard, moment)) return holds();
        }
        return true;
    }

    // False if the thread was interrupted.
    template <class Lock>
    bool wait_interruptibly(std::unique_lock<Lock> &guard) {
        return detail::check_taken(aqs_cond_wait_interruptibly(&condition_, owned(guard)));
    }

    void notify_one() { detail::check(aqs_cond_signal(&condition_)); }
    void notify_all() { detail::check(aqs_cond_signal_all(&condition_)); }
    native_handle_type native_handle() noexcept { return &condition_; }

private:
    struct timed_wait {
        aqs_cond_t *condition;
        aqs_lock_t *lock;
        aqs_status_t operator()(std::int64_t time) { return aqs_cond_timedwait(condition, lock, time); }
    };

    template <class Lock>
    static aqs_lock_t *owned(std::unique_lock<Lock> &guard) {
        if (!guard.owns_lock()) detail::check(AQS_NOT_OWNER);
        return guard.mutex()->as_lock();
    }

    aqs_cond_t condition_;
};

// A condition of any lock that has lock() and unlock(), as std::condition_variable_any. It has a mutex of its
// own, which guards who waits, and lasts as long as a thread is in a wait.
class condition_variable_any {
public:
    condition_variable_any() : own_(std::make_shared<plain_mutex>()) {}
    condition_variable_any(const condition_variable_any &) = delete;
    condition_variable_any &operator=(const condition_variable_any &) = delete;

    template <class Lock>
    void wait(Lock &lock) {
        away<Lock> left(own_, lock);
        changed_.wait(left.guard());
    }

    template <class Lock, class Predicate>
    void wait(Lock &lock, Predicate holds) {
        while (!holds()) wait(lock);
    }

    // False if the time was up, or the thread was interrupted. It has the lock again.
    template <class Lock, class Rep, class Period>
    wait_result wait_for(Lock &lock, const std::chrono::duration<Rep, Period> &time) {
        away<Lock> left(own_, lock);
        return changed_.wait_for(left.guard(), time);
    }

    template <class Lock, class Clock, class Duration>
    wait_result wait_until(Lock &lock, const std::chrono::time_point<Clock, Duration> &moment) {
        away<Lock> left(own_, lock);
        return changed_.wait_until(left.guard(), moment);
    }

    // What the predicate says, at the end of the time at the latest.
    template <class Lock, class Rep, class Period, class Predicate>
    bool wait_for(Lock &lock, const std::chrono::duration<Rep, Period> &time, Predicate holds) {
        const auto begin = std::chrono::steady_clock::now();
        while (!holds()) {
            const detail::milliseconds past = std::chrono::steady_clock::now() - begin;
            if (!wait_for(lock, detail::milliseconds(time) - past)) return holds();
        }
        return true;
    }

    template <class Lock, class Clock, class Duration, class Predicate>
    bool wait_until(
        Lock &lock, const std::chrono::time_point<Clock, Duration> &moment, Predicate holds) {
        while (!holds()) {
            if (!wait_until(lock, moment)) return holds();
        }
        return true;
    }

#ifdef __cpp_lib_jthread
    // What the predicate says, as soon as it holds or a stop is requested.
    template <class Lock, class Predicate>
    bool wait(Lock &lock, std::stop_token stop, Predicate holds) {
        std::stop_callback notifies(stop, [this] { notify_all(); });
        while (!holds()) {
            away<Lock> left(own_, lock);
            if (stop.stop_requested()) return left.come_back(), holds();
            changed_.wait(left.guard());
        }
        return true;
    }

    template <class Lock, class Rep, class Period, class Predicate>
    bool wait_for(
        Lock &lock, std::stop_token stop, const std::chrono::duration<Rep, Period> &time, Predicate holds) {
        const auto begin = std::chrono::steady_clock::now();
        std::stop_callback notifies(stop, [this] { notify_all(); });
        while (!holds()) {
            const detail::milliseconds past = std::chrono::steady_clock::now() - begin;
            away<Lock> left(own_, lock);
            if (stop.stop_requested() || !changed_.wait_for(left.guard(), detail::milliseconds(time) - past))
                return left.come_back(), holds();
        }
        return true;
    }

    template <class Lock, class Clock, class Duration, class Predicate>
    bool wait_until(Lock &lock, std::stop_token stop,
                    const std::chrono::time_point<Clock, Duration> &moment, Predicate holds) {
        std::stop_callback notifies(stop, [this] { notify_all(); });
        while (!holds()) {
            away<Lock> left(own_, lock);
            if (stop.stop_requested() || !changed_.wait_until(left.guard(), moment))
                return left.come_back(), holds();
        }
        return true;
    }
#endif

    void notify_one() {
        std::lock_guard<plain_mutex> guard(*own_);
        changed_.notify_one();
    }
    void notify_all() {
        std::lock_guard<plain_mutex> guard(*own_);
        changed_.notify_all();
    }

private:
    // A thread that has given the caller's lock up, and has the condition's own mutex. At the end it has the
    // lock again, which it asks for without the mutex. The mutex may outlive the condition.
    template <class Lock>
    class away {
    public:
        away(std::shared_ptr<plain_mutex> own, Lock &lock)
            : own_(std::move(own)), guard_(*own_), lock_(lock) {
            lock_.unlock();
        }
        // Without the lock nothing may go on, so that it ends the program if it can't be had.
        ~away() noexcept { come_back(); }
        away(const away &) = delete;
        away &operator=(const away &) = delete;
        std::unique_lock<plain_mutex> &guard() noexcept { return guard_; }
        void come_back() {
            if (is_back_) return;
            is_back_ = true;
            if (guard_.owns_lock()) guard_.unlock();
            lock_.lock();
        }

    private:
        std::shared_ptr<plain_mutex> own_;
        std::unique_lock<plain_mutex> guard_;
        Lock &lock_;
        bool is_back_ = false;
    };

    std::shared_ptr<plain_mutex> own_;
    condition_variable changed_;
};

class semaphore {
public:
    typedef aqs_sem_t *native_handle_type;

    constexpr explicit semaphore(std::int32_t permits) : semaphore_ AQS_SEM_INIT(permits) {}
    semaphore(std::int32_t permits, const options &how) : semaphore_ AQS_SEM_INIT(permits) {
        detail::check(aqs_sem_init(&semaphore_, permits, &how));
    }
    ~semaphore() { detail::close_unless_static(aqs_sem_close, &semaphore_); }
    semaphore(const semaphore &) = delete;
    semaphore &operator=(const semaphore &) = delete;

    // The most permits that can be free.
    static constexpr std::ptrdiff_t max() noexcept { return INT32_MAX; }

    void acquire(std::uint32_t n = 1) { detail::check(aqs_sem_acquire(&semaphore_, n)); }
    bool acquire_interruptibly(std::uint32_t n = 1) {
        return detail::check_taken(aqs_sem_acquire_interruptibly(&semaphore_, n));
    }
    bool try_acquire(std::uint32_t n = 1) { return detail::check_taken(aqs_sem_tryacquire(&semaphore_, n)); }

    template <class Rep, class Period>
    bool try_acquire_for(const std::chrono::duration<Rep, Period> &time, std::uint32_t n = 1) {
        return detail::check_taken(detail::for_time(time, timed_acquire{&semaphore_, n}));
    }

    template <class Clock, class Duration>
    bool try_acquire_until(const std::chrono::time_point<Clock, Duration> &moment, std::uint32_t n = 1) {
        return detail::check_taken(detail::until_moment(moment, timed_acquire{&semaphore_, n}));
    }

    void release(std::uint32_t n = 1) { detail::check(aqs_sem_release(&semaphore_, n)); }

    std::uint32_t drain() {
        std::uint32_t n = 0;
        detail::check(aqs_sem_drain(&semaphore_, &n));
        return n;
    }

    // The free permits, which may be below 0.
    std::int64_t available() {
        std::int64_t permits = 0;
        detail::check(aqs_sem_getvalue(&semaphore_, &permits));
        return permits;
    }

    std::string history() const { return detail::history(aqs_sem_object(&semaphore_)); }
    // Writes the history to a file of this path, and the names of its threads to PATH.names.
    void save_history(const std::string &path) const {
        detail::check(aqs_history_save(aqs_sem_object(&semaphore_), path.c_str()));
    }
    std::string history_names() const { return detail::history_names(aqs_sem_object(&semaphore_)); }
    std::uint64_t trim() { return detail::trim(aqs_sem_object(&semaphore_)); }
    // How many threads wait for permits: all of them are in the queue. It records nothing.
    std::uint32_t queue_length() const { return detail::queue_length(aqs_sem_object(&semaphore_)); }
    std::uint32_t waiters() const { return detail::waiters(aqs_sem_object(&semaphore_)); }
    aqs_policy_t policy() const noexcept { return aqs_object_policy(aqs_sem_object(&semaphore_)); }
    native_handle_type native_handle() noexcept { return &semaphore_; }

private:
    struct timed_acquire {
        aqs_sem_t *semaphore;
        std::uint32_t n;
        aqs_status_t operator()(std::int64_t time) { return aqs_sem_timedacquire(semaphore, n, time); }
    };

    mutable aqs_sem_t semaphore_;
};

// A semaphore that says how many permits it has at the most, as std::counting_semaphore.
template <std::ptrdiff_t Most = INT32_MAX>
class counting_semaphore : public semaphore {
    static_assert(0 <= Most && Most <= INT32_MAX, "a semaphore has at most 2147483647 permits");

public:
    using semaphore::semaphore;
    static constexpr std::ptrdiff_t max() noexcept { return Most; }
};

using binary_semaphore = counting_semaphore<1>;

class latch {
public:
    typedef aqs_latch_t *native_handle_type;

    constexpr explicit latch(std::uint32_t count) : latch_ AQS_LATCH_INIT(number_of(count)) {}
    latch(std::uint32_t count, const options &how) : latch_ AQS_LATCH_INIT(number_of(count)) {
        detail::check(aqs_latch_init(&latch_, count, &how));
    }
    ~latch() { detail::close_unless_static(aqs_latch_close, &latch_); }
    latch(const latch &) = delete;
    latch &operator=(const latch &) = delete;

    // The highest count.
    static constexpr std::ptrdiff_t max() noexcept { return INT32_MAX; }

    // Counts down by one, as often as n says. Others may count between.
    void count_down(std::uint32_t n = 1) {
        for (; n > 0; n--) detail::check(aqs_latch_count_down(&latch_));
    }
    void wait() { detail::check(aqs_latch_await(&latch_)); }
    bool wait_interruptibly() { return detail::check_taken(aqs_latch_await_interruptibly(&latch_)); }
    // Whether the count is 0. It records nothing.
    bool try_wait() { return count() == 0; }
    void arrive_and_wait(std::uint32_t n = 1) {
        count_down(n);
        wait();
    }

    template <class Rep, class Period>
    bool wait_for(const std::chrono::duration<Rep, Period> &time) {
        return detail::check_taken(detail::for_time(time, timed_await{&latch_}));
    }

    template <class Clock, class Duration>
    bool wait_until(const std::chrono::time_point<Clock, Duration> &moment) {
        return detail::check_taken(detail::until_moment(moment, timed_await{&latch_}));
    }

    std::uint32_t count() {
        std::uint32_t count = 0;
        detail::check(aqs_latch_getcount(&latch_, &count));
        return count;
    }

    std::string history() const { return detail::history(aqs_latch_object(&latch_)); }
    // Writes the history to a file of this path, and the names of its threads to PATH.names.
    void save_history(const std::string &path) const {
        detail::check(aqs_history_save(aqs_latch_object(&latch_), path.c_str()));
    }
    std::string history_names() const { return detail::history_names(aqs_latch_object(&latch_)); }
    std::uint64_t trim() { return detail::trim(aqs_latch_object(&latch_)); }
    // How many threads wait until the count is 0: all of them are in the queue. It records nothing.
    std::uint32_t queue_length() const { return detail::queue_length(aqs_latch_object(&latch_)); }
    std::uint32_t waiters() const { return detail::waiters(aqs_latch_object(&latch_)); }
    // What it was opened with. A latch ignores it.
    aqs_policy_t policy() const noexcept { return aqs_object_policy(aqs_latch_object(&latch_)); }
    native_handle_type native_handle() noexcept { return &latch_; }

private:
    static constexpr std::int32_t number_of(std::uint32_t count) {
        return count <= INT32_MAX ? static_cast<std::int32_t>(count) : (detail::check(AQS_OUT_OF_RANGE), 0);
    }

    struct timed_await {
        aqs_latch_t *latch;
        aqs_status_t operator()(std::int64_t time) { return aqs_latch_timedawait(latch, time); }
    };

    mutable aqs_latch_t latch_;
};

// Lets a number of threads go on when all of them have come, again and again.
class barrier {
public:
    typedef aqs_barrier_t *native_handle_type;

    explicit barrier(std::uint32_t parties, const options &how = options()) {
        detail::check(aqs_barrier_open(&barrier_, parties, &how));
    }
    ~barrier() { aqs_barrier_close(barrier_); }
    barrier(const barrier &) = delete;
    barrier &operator=(const barrier &) = delete;

    // The most threads.
    static constexpr std::ptrdiff_t max() noexcept { return AQS_THREADS; }

    // Returns whether this thread was the last that came.
    bool arrive_and_wait() {
        bool is_last = false;
        detail::check(aqs_barrier_wait(barrier_, &is_last));
        return is_last;
    }

    std::string history() const { return detail::history(aqs_barrier_object(barrier_)); }
    // Writes the history to a file of this path, and the names of its threads to PATH.names.
    void save_history(const std::string &path) const {
        detail::check(aqs_history_save(aqs_barrier_object(barrier_), path.c_str()));
    }
    std::string history_names() const { return detail::history_names(aqs_barrier_object(barrier_)); }
    std::uint64_t trim() { return detail::trim(aqs_barrier_object(barrier_)); }
    native_handle_type native_handle() noexcept { return barrier_; }

private:
    aqs_barrier_t *barrier_ = nullptr;
};

using recursive_mutex = mutex;
using condition = basic_condition<mutex>;

}  // namespace aqs

#endif
