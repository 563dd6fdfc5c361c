// durations.cpp: times of any length and moments of any clock: none is over too early, and none too long is
// over at once.
#include "aqs.hpp"

#include "check.h"

#include <atomic>
#include <limits>
#include <shared_mutex>
#include <thread>
#include <vector>

using namespace std::chrono_literals;
using std::chrono::steady_clock;
using std::chrono::system_clock;

// Whether a call waits for what comes after a while, and gets it: `give` gives what `take` asks for.
template <class Take, class Give>
static void waits(Take take, Give give) {
    std::atomic<bool> is_given{false};
    std::thread giver([&] {
        std::this_thread::sleep_for(20ms);
        is_given = true;
        give();
    });
    bool has_it = take();
    CHECK(is_given);
    CHECK(has_it);
    giver.join();
}

template <class Duration>
static void waits_so_long(Duration time) {
    aqs::semaphore permits(0);
    waits([&] { return permits.try_acquire_for(time); }, [&] { permits.release(); });
    aqs::latch latch(1);
    waits([&] { return latch.wait_for(time); }, [&] { latch.count_down(); });
    // The main thread owns what the other one asks for.
    aqs::mutex mutex;
    aqs::shared_mutex shared;
    aqs::latch is_owned(1), is_freed(1);
    std::thread owner([&] {
        std::unique_lock guard(mutex);
        std::unique_lock writer(shared);
        is_owned.count_down();
        std::this_thread::sleep_for(20ms);
    });
    is_owned.wait();
    CHECK(mutex.try_lock_for(time));
    mutex.unlock();
    CHECK(shared.try_lock_shared_for(time));
    shared.unlock_shared();
    CHECK(shared.try_lock_for(time));
    shared.unlock();
    owner.join();
    aqs::condition comes = mutex.condition();
    bool is_set = false;
    auto set = [&] {
        std::unique_lock guard(mutex);
        is_set = true;
        comes.notify_one();
    };
    std::unique_lock guard(mutex);
    waits([&] { return comes.wait_for(guard, time); }, set);
    is_set = false;
    waits([&] { return comes.wait_for(guard, time, [&] { return is_set; }); }, set);
}

static void waits_long() {
    waits_so_long(std::chrono::hours::max());
    waits_so_long(std::chrono::seconds::max());
    waits_so_long(std::chrono::milliseconds::max());
    waits_so_long(std::chrono::nanoseconds::max());
    waits_so_long(std::chrono::duration<double>(std::numeric_limits<double>::infinity()));
    waits_so_long(std::chrono::duration<float, std::ratio<86400>>(1e30f));
    waits_so_long(std::chrono::hours(24 * 60));
    aqs::semaphore permits(0);
    auto release = [&] { permits.release(); };
    waits([&] { return permits.try_acquire_until(steady_clock::time_point::max()); }, release);
    waits([&] { return permits.try_acquire_until(system_clock::time_point::max()); }, release);
    // In the clock's own unit these are more than its numbers have.
    std::chrono::time_point<steady_clock, std::chrono::hours> never(std::chrono::hours::max());
    waits([&] { return permits.try_acquire_until(never); }, release);
    aqs::latch latch(1);
    waits([&] { return latch.wait_until(steady_clock::time_point::max()); }, [&] { latch.count_down(); });
}

static void over_at_once() {
    aqs::semaphore permits(0);
    auto begin = steady_clock::now();
    CHECK(!permits.try_acquire_for(0s));
    CHECK(!permits.try_acquire_for(-1s));
    CHECK(!permits.try_acquire_for(std::chrono::hours::min()));
    CHECK(!permits.try_acquire_for(std::chrono::duration<double>(std::numeric_limits<double>::quiet_NaN())));
    CHECK(!permits.try_acquire_until(steady_clock::time_point::min()));
    CHECK(!permits.try_acquire_until(system_clock::time_point::min()));
    CHECK(!permits.try_acquire_until(system_clock::now() - 1h));
    // In nanoseconds this would be 146 years ahead.
    std::chrono::time_point<steady_clock, std::chrono::hours> long_ago(-3843072h);
    CHECK(!permits.try_acquire_until(long_ago));
    CHECK(steady_clock::now() - begin < 5s);
    permits.release(6);
    CHECK(permits.try_acquire_for(0s));
    CHECK(permits.try_acquire_for(-1s));
    CHECK(permits.try_acquire_until(steady_clock::time_point::min()));
}

// A time is asked for in milliseconds, rounded up, and as long as there may be.
static void pieces() {
    std::vector<std::int64_t> asked;
    auto never = [&](std::int64_t time) {
        asked.push_back(time);
        return asked.size() < 9 ? AQS_TIMED_OUT : AQS_MISUSE;
    };
    CHECK(aqs::detail::for_time(std::chrono::hours(24 * 100), never) == AQS_TIMED_OUT);
    CHECK(aqs::detail::for_time(1500us, never) == AQS_TIMED_OUT);
    CHECK(aqs::detail::for_time(1ns, never) == AQS_TIMED_OUT);
    CHECK(aqs::detail::for_time(0ns, never) == AQS_TIMED_OUT);
    CHECK(aqs::detail::for_time(-1ns, never) == AQS_TIMED_OUT);
    CHECK(aqs::detail::for_time(std::chrono::hours::max(), never) == AQS_TIMED_OUT);
    CHECK((asked == std::vector<std::int64_t>{8640000000, 2, 1, 0, 0, 9223372036854775000}));
}

// A clock that goes on as the test says.
struct set_clock {
    typedef std::chrono::milliseconds duration;
    typedef duration::rep rep;
    typedef duration::period period;
    typedef std::chrono::time_point<set_clock> time_point;
    static constexpr bool is_steady = true;
    static inline time_point shown;
    static time_point now() { return shown; }
};

// A call that ends at the moment, or after it, is the last. One that ends before is made again with what is left.
static void moments() {
    std::vector<std::int64_t> asked;
    auto all = [&](std::int64_t time) {
        asked.push_back(time);
        set_clock::shown += std::chrono::milliseconds(time);
        return AQS_TIMED_OUT;
    };
    CHECK(aqs::detail::until_moment(set_clock::now() + 20ms, all) == AQS_TIMED_OUT);
    CHECK(aqs::detail::until_moment(set_clock::now() - 1ms, all) == AQS_TIMED_OUT);
    CHECK((asked == std::vector<std::int64_t>{20, 0}));
    asked.clear();
    auto half = [&](std::int64_t time) {
        asked.push_back(time);
        set_clock::shown += std::chrono::milliseconds((time + 1) / 2);
        return AQS_TIMED_OUT;
    };
    CHECK(aqs::detail::until_moment(set_clock::now() + 20ms, half) == AQS_TIMED_OUT);
    CHECK((asked == std::vector<std::int64_t>{20, 10, 5, 2, 1}));
}

template <class Clock, class Call>
static int early(Call call) {
    int found = 0;
    for (int i = 0; i < 30; i++) {
        auto moment = Clock::now() + 1ms + i * 50us;
        CHECK(!call(moment));
        found += Clock::now() < moment;
    }
    return found;
}

// A clock that shows half of the time that passes.
struct slow_clock {
    typedef steady_clock::duration duration;
    typedef duration::rep rep;
    typedef duration::period period;
    typedef std::chrono::time_point<slow_clock> time_point;
    static constexpr bool is_steady = true;
    static time_point now() { return time_point(steady_clock::now().time_since_epoch() / 2); }
};

static void never_early() {
    aqs::semaphore permits(0);
    aqs::mutex mutex, own;
    aqs::shared_mutex shared;
    aqs::latch latch(1);
    aqs::condition never_comes = own.condition();
    mutex.lock();
    shared.lock();
    int found = 0;
    std::thread([&] {
        std::unique_lock guard(own);
        typedef steady_clock::time_point moment_t;
        found += early<steady_clock>([&](moment_t moment) { return mutex.try_lock_until(moment); });
        found += early<steady_clock>([&](moment_t moment) { return shared.try_lock_until(moment); });
        found += early<steady_clock>([&](moment_t moment) { return shared.try_lock_shared_until(moment); });
        found += early<steady_clock>([&](moment_t moment) { return permits.try_acquire_until(moment); });
        found += early<steady_clock>([&](moment_t moment) { return latch.wait_until(moment); });
        found += early<steady_clock>([&](moment_t moment) { return never_comes.wait_until(guard, moment); });
        found += early<steady_clock>([&](moment_t moment) {
            return never_comes.wait_for(guard, moment - steady_clock::now(), [] { return false; });
        });
        typedef system_clock::time_point date_t;
        found += early<system_clock>([&](date_t moment) { return mutex.try_lock_until(moment); });
        typedef slow_clock::time_point late_t;
        found += early<slow_clock>([&](late_t moment) { return permits.try_acquire_until(moment); });
    }).join();
    mutex.unlock();
    shared.unlock();
    if (found) std::fprintf(stderr, "%d of 270 calls were early\n", found);
    CHECK(found == 0);
}

int main() {
    alarm(60);
    pieces();
    moments();
    over_at_once();
    never_early();
    waits_long();
    std::puts("durations: good");
}
