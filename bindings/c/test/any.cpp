// any.cpp: a condition of any lock, waits with a stop token, and names of the standard library. For C++20.
#include "aqs.hpp"
#include "check.h"

#include <atomic>
#include <chrono>
#include <mutex>
#include <shared_mutex>
#include <stop_token>
#include <thread>
#include <type_traits>

using namespace std::chrono_literals;

namespace {

static_assert(std::is_same_v<aqs::recursive_mutex, aqs::mutex>);
static_assert(aqs::counting_semaphore<3>::max() == 3 && aqs::binary_semaphore::max() == 1);
static_assert(aqs::counting_semaphore<>::max() == INT32_MAX);

constinit aqs::counting_semaphore<3> three(3);

// A lock of one's own, which says whether it is had.
struct own_lock {
    std::mutex inner;
    std::atomic<int> locks{0}, unlocks{0};
    void lock() { inner.lock(), locks++; }
    void unlock() { unlocks++, inner.unlock(); }
};

// One waits, another notifies, and the waiter has its lock again.
template <class Lock, class Wait>
void notified(Lock &lock, Wait waits) {
    aqs::condition_variable_any changed;
    std::atomic<bool> is_inside{false}, is_over{false};
    bool is_set = false;
    std::thread waiter([&] {
        lock.lock();
        is_inside = true;
        waits(changed, lock, [&] { return is_set; });
        CHECK(is_set);
        is_over = true;
        lock.unlock();
    });
    while (!is_inside) std::this_thread::yield();
    std::this_thread::sleep_for(5ms);
    CHECK(!is_over);
    changed.notify_all(); /* for nothing: it waits on */
    std::this_thread::sleep_for(5ms);
    CHECK(!is_over);
    lock.lock();
    is_set = true;
    changed.notify_one();
    std::this_thread::sleep_for(2ms);
    changed.notify_one(); /* the one that was woken waits for the lock, and keeps nobody from this */
    lock.unlock();
    waiter.join();
}

template <class Lock>
void each_wait() {
    Lock lock;
    notified(lock, [](auto &changed, auto &it, auto holds) { changed.wait(it, holds); });
    notified(lock, [](auto &changed, auto &it, auto holds) { CHECK(changed.wait_for(it, 1h, holds)); });
    notified(lock, [](auto &changed, auto &it, auto holds) {
        CHECK(changed.wait_until(it, std::chrono::system_clock::now() + 1h, holds));
    });
    notified(lock, [](auto &changed, auto &it, auto holds) { CHECK(changed.wait(it, std::stop_token(), holds)); });
    notified(lock, [](auto &changed, auto &it, auto holds) {
        CHECK(changed.wait_for(it, std::stop_source().get_token(), 1h, holds));
    });
    notified(lock, [](auto &changed, auto &it, auto holds) {
        CHECK(changed.wait_until(it, std::stop_token(), std::chrono::steady_clock::now() + 1h, holds));
    });
    lock.lock();
    aqs::condition_variable_any changed;
    CHECK(changed.wait_for(lock, 2ms) == std::cv_status::timeout);
    CHECK(changed.wait_until(lock, std::chrono::steady_clock::now()) == aqs::cv_status::timeout);
    CHECK(!changed.wait_for(lock, 2ms, [] { return false; }));
    CHECK(!changed.wait_for(lock, std::stop_token(), 2ms, [] { return false; }));
    lock.unlock();
}

// A stop ends a wait before it, in it and again. Many at a time, so that some meet the wait.
void stopped() {
    aqs::plain_mutex lock;
    aqs::condition_variable_any changed;
    for (int i = 0; i < 300; i++) {
        std::stop_source source;
        std::atomic<bool> is_inside{false};
        std::thread waiter([&] {
            std::unique_lock guard(lock);
            is_inside = true;
            const auto never = [] { return false; };
            if (i % 3 == 0) CHECK(!changed.wait(guard, source.get_token(), never));
            if (i % 3 == 1) CHECK(!changed.wait_for(guard, source.get_token(), 1h, never));
            if (i % 3 == 2)
                CHECK(!changed.wait_until(guard, source.get_token(), std::chrono::steady_clock::now() + 1h, never));
            CHECK(guard.owns_lock() && lock.is_mine());
        });
        while (!is_inside) std::this_thread::yield();
        if (i % 10 == 0) std::this_thread::sleep_for(1ms);
        source.request_stop();
        waiter.join();
    }
    std::stop_source over;
    over.request_stop();
    std::unique_lock guard(lock);
    CHECK(!changed.wait(guard, over.get_token(), [] { return false; }));
    CHECK(changed.wait(guard, over.get_token(), [] { return true; }));
}

// A lock is given up for the wait, once, and taken again, once.
void counted() {
    own_lock lock;
    aqs::condition_variable_any changed;
    lock.lock();
    for (int i = 1; i < 4; i++) {
        CHECK(!changed.wait_for(lock, 1ms));
        CHECK(lock.locks == i + 1 && lock.unlocks == i);
    }
    lock.unlock();
}

// A condition may end while the threads that it has woken are on their way out.
void ends_early() {
    for (int i = 0; i < 200; i++) {
        std::mutex lock;
        auto *changed = new aqs::condition_variable_any;
        std::atomic<bool> is_inside{false};
        std::thread waiter([&] {
            std::unique_lock guard(lock);
            is_inside = true;
            changed->wait(guard);
        });
        while (!is_inside) std::this_thread::yield();
        {
            std::unique_lock guard(lock);
            changed->notify_all();
        }
        // It was woken, and may be anywhere between its wake and its lock: the mutex inside outlives the
        // condition.
        if (i % 2) std::this_thread::sleep_for(100us);
        waiter.join();
        delete changed;
    }
}

void a_second_lock() {
    aqs::plain_mutex plain;
    plain.lock();
    try {
        plain.lock();
        CHECK(false);
    } catch (const std::system_error &error) {
        CHECK(error.code() == std::errc::resource_deadlock_would_occur);
        CHECK(error.code() != std::errc::operation_not_permitted);
    }
    plain.unlock();
}

}  // namespace

int main() {
    alarm(80);
    CHECK(three.try_acquire(3) && !three.try_acquire());
    three.release(3);
    each_wait<aqs::mutex>();
    each_wait<aqs::plain_mutex>();
    each_wait<std::mutex>();
    each_wait<std::shared_mutex>();
    each_wait<own_lock>();
    stopped();
    counted();
    ends_early();
    a_second_lock();
    puts("any: good");
    return 0;
}
