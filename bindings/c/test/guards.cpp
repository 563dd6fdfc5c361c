// guards.cpp FOLDER: the standard's guards over aqs.hpp, conditions, timeouts, errors, histories.
#include "aqs.hpp"

#include "check.h"

#include <atomic>
#include <csignal>
#include <fstream>
#include <queue>
#include <shared_mutex>
#include <thread>
#include <vector>

using namespace std::chrono_literals;

static std::string folder;

static void keep(const std::string &name, const std::string &text) {
    std::ofstream(folder + "/" + name + ".history", std::ios::binary) << text;
}

static aqs_status_t status_of(void (*call)()) {
    try {
        call();
        return AQS_OK;
    } catch (const aqs::error &error) {
        CHECK(std::string(error.what()) == aqs_status_name(error.status()));
        return error.status();
    }
}

static void guards() {
    aqs::mutex mutex(aqs::options().fair().keep_history());
    long count = 0;
    std::vector<std::thread> threads;
    for (int t = 0; t < 4; t++) {
        threads.emplace_back([&] {
            for (int i = 0; i < 1000; i++) {
                std::lock_guard outer(mutex);
                std::lock_guard inner(mutex);
                count++;
            }
        });
    }
    for (auto &thread : threads) thread.join();
    CHECK(count == 4000);
    std::unique_lock guard(mutex, std::defer_lock);
    CHECK(guard.try_lock());
    std::thread([&] {
        CHECK(!mutex.try_lock());
        CHECK(!mutex.try_lock_for(10ms));
        CHECK(!mutex.try_lock_until(std::chrono::steady_clock::now()));
        std::unique_lock other(mutex, 5ms);
        CHECK(!other.owns_lock());
    }).join();
    keep("guards-mutex", mutex.history());
    CHECK(mutex.trim() > 0);
}

// What the predicate says when the time is up counts, though nobody notified.
template <class Condition, class Guard>
static void looks_at_the_end(Condition &condition, Guard &guard) {
    int looks = 0;
    CHECK(condition.wait_for(guard, 2ms, [&] { return ++looks == 2; }));
    looks = 0;
    CHECK(condition.wait_until(guard, std::chrono::steady_clock::now() + 2ms, [&] { return ++looks == 2; }));
}

// A wait with a predicate ends at its time, however often it is notified meanwhile.
template <class Lock, class Condition>
static void is_notified_often(Lock &mutex, Condition condition) {
    const auto begin = std::chrono::steady_clock::now();
    std::atomic<bool> over{false};
    std::thread notifier([&] {
        while (!over && std::chrono::steady_clock::now() < begin + 6s) {
            mutex.lock();
            condition.notify_all();
            mutex.unlock();
            std::this_thread::sleep_for(1ms);
        }
    });
    {
        std::unique_lock<Lock> guard(mutex);
        CHECK(!condition.wait_for(guard, 300ms, [] { return false; }));
        CHECK(!condition.wait_until(guard, std::chrono::steady_clock::now() + 300ms, [] { return false; }));
    }
    over = true;
    CHECK(std::chrono::steady_clock::now() < begin + 4s);
    notifier.join();
}

static void queues() {
    aqs::mutex mutex(aqs::options().keep_history().conditions(2));
    aqs::condition not_empty = mutex.condition(0), not_full = mutex.condition(1);
    std::queue<int> queue;
    long sum = 0;
    std::thread consumer([&] {
        for (int i = 0; i < 2000; i++) {
            std::unique_lock guard(mutex);
            not_empty.wait(guard, [&] { return !queue.empty(); });
            sum += queue.front();
            queue.pop();
            not_full.notify_one();
        }
    });
    for (int i = 0; i < 2000; i++) {
        std::unique_lock guard(mutex);
        not_full.wait(guard, [&] { return queue.size() < 4; });
        queue.push(i);
        not_empty.notify_all();
    }
    consumer.join();
    CHECK(sum == 2000L * 1999 / 2);
    std::unique_lock guard(mutex);
    CHECK(!not_empty.wait_for(guard, 10ms));
    CHECK(!not_empty.wait_for(guard, 10ms, [] { return false; }));
    CHECK(not_empty.wait_for(guard, 10ms, [] { return true; }));
    looks_at_the_end(not_empty, guard);
    CHECK(guard.owns_lock());
    keep("guards-queue", mutex.history());
}

static void often_notified() {
    aqs::mutex mutex;
    aqs::condition_variable changed;
    is_notified_often(mutex, mutex.condition());
    is_notified_often<aqs::mutex, aqs::condition_variable &>(mutex, changed);
}

static void readers() {
    aqs::shared_mutex mutex(aqs::options().keep_history());
    long value = 0;
    std::atomic<bool> over{false};
    std::vector<std::thread> threads;
    for (int t = 0; t < 3; t++) {
        threads.emplace_back([&] {
            long seen = 0;
            while (!over) {
                std::shared_lock guard(mutex);
                CHECK(value >= seen);
                seen = value;
                std::this_thread::yield();
            }
        });
    }
    for (int i = 0; i < 500; i++) {
        std::unique_lock guard(mutex);
        value++;
    }
    over = true;
    for (auto &thread : threads) thread.join();
    std::shared_lock one(mutex), two(mutex);
    std::thread([&] {
        CHECK(!mutex.try_lock() && !mutex.try_lock_for(5ms));
        CHECK(mutex.try_lock_shared_for(5ms));
        mutex.unlock_shared();
        CHECK(mutex.try_lock_shared_until(std::chrono::steady_clock::now() + 5ms));
        CHECK(mutex.read_holds() == 1);
        mutex.unlock_shared();
    }).join();
    keep("guards-shared", mutex.history());
}

static void others() {
    aqs::semaphore permits(2, aqs::options().strict().keep_history());
    permits.acquire(2);
    CHECK(!permits.try_acquire());
    CHECK(!permits.try_acquire_for(5ms));
    permits.release(5);
    CHECK(permits.available() == 5);
    CHECK(permits.drain() == 5);
    CHECK(!permits.try_acquire_until(std::chrono::steady_clock::now() + 5ms));
    permits.release(7);
    CHECK(permits.try_acquire(2) && permits.available() == 5);
    CHECK(permits.try_acquire_for(5ms, 2) && permits.available() == 3);
    CHECK(permits.try_acquire_until(std::chrono::steady_clock::now(), 3) && permits.available() == 0);
    CHECK(aqs::semaphore::max() == 2147483647);
    keep("guards-semaphore", permits.history());
    aqs::latch latch(2, aqs::options().keep_history());
    std::thread waiter([&] { latch.wait(); });
    CHECK(!latch.wait_for(5ms));
    latch.count_down(0);
    CHECK(latch.count() == 2);
    latch.count_down();
    CHECK(latch.count() == 1);
    latch.count_down();
    waiter.join();
    CHECK(latch.wait_for(1h));
    CHECK(latch.wait_until(std::chrono::steady_clock::now()));
    keep("guards-latch", latch.history());
    aqs::latch meets(3);
    CHECK(!meets.try_wait());
    std::thread other([&] { meets.arrive_and_wait(); });
    meets.arrive_and_wait(2);
    CHECK(meets.try_wait() && meets.count() == 0);
    other.join();
}

static void over_a_lock() {
    aqs::plain_mutex mutex(aqs::options().keep_history());
    auto comes = mutex.condition();
    bool is_set = false;
    std::thread setter([&] {
        std::lock_guard guard(mutex);
        is_set = true;
        comes.notify_one();
    });
    std::unique_lock guard(mutex);
    comes.wait(guard, [&] { return is_set; });
    CHECK(mutex.is_mine() && !mutex.try_lock() && !comes.wait_for(guard, 1ms));
    guard.unlock();
    CHECK(!mutex.is_mine() && mutex.try_lock_for(1ms));
    mutex.unlock();
    setter.join();
    keep("guards-plain-mutex", mutex.history());
    CHECK(status_of([] { aqs::plain_mutex once; once.lock(); once.lock(); }) == AQS_TOO_MANY_HOLDS);
    aqs::barrier barrier(3, aqs::options().keep_history());
    std::atomic<int> came{0}, lasts{0};
    auto come = [&] {
        came++;
        lasts += barrier.arrive_and_wait();
        CHECK(came == 3);
    };
    std::thread one(come), two(come);
    come();
    one.join();
    two.join();
    CHECK(lasts == 1);
    keep("guards-barrier", barrier.history());
}

// Objects without options are there before any constructor runs.
static aqs::mutex static_mutex;
static aqs::plain_mutex static_plain;
static aqs::shared_mutex static_shared;
static aqs::semaphore static_permits(2);
static aqs::latch static_latch(1);
static aqs::condition_variable static_changed;

static void static_objects() {
    std::vector<std::thread> threads;
    int count = 0;
    for (int t = 0; t < 3; t++) {
        threads.emplace_back([&] {
            std::scoped_lock guard(static_mutex, static_plain);
            static_shared.lock();
            count++;
            static_shared.unlock();
            static_permits.release();
        });
    }
    for (auto &thread : threads) thread.join();
    CHECK(count == 3 && static_permits.available() == 5);
    CHECK(!static_latch.try_wait());
    static_latch.arrive_and_wait();
    keep("guards-static", static_mutex.history());
}

static void questions() {
    aqs::mutex mutex(aqs::options().strict());
    aqs::plain_mutex plain;
    aqs::shared_mutex shared(aqs::options().fair());
    CHECK(mutex.policy() == AQS_STRICT && plain.policy() == AQS_NONFAIR && shared.policy() == AQS_FAIR);
    aqs::semaphore any(1), fair(1, aqs::options().fair());
    CHECK(any.policy() == AQS_NONFAIR && fair.policy() == AQS_FAIR && aqs::latch(1).policy() == AQS_NONFAIR);
    CHECK(!mutex.is_mine() && mutex.holds() == 0 && !plain.is_mine() && !shared.is_mine());
    CHECK(!mutex.is_locked() && !plain.is_locked() && !shared.is_write_locked());
    {
        std::lock_guard one(mutex), two(mutex);
        std::lock_guard write(shared);
        std::shared_lock read(shared);
        CHECK(mutex.is_mine() && mutex.holds() == 2);
        CHECK(shared.is_mine() && shared.write_holds() == 1 && shared.read_holds() == 1);
        std::thread([&] {
            CHECK(!mutex.is_mine() && mutex.holds() == 0 && shared.read_holds() == 0);
            CHECK(mutex.is_locked() && shared.is_write_locked() && !plain.is_locked());
        }).join();
    }
    CHECK(!mutex.is_mine() && mutex.holds() == 0 && shared.write_holds() == 0 && shared.read_holds() == 0);
}

// How many wait, while the main thread has what they wait for.
static void waiters() {
    aqs::mutex mutex;
    aqs::plain_mutex plain;
    aqs::shared_mutex shared;
    aqs::semaphore permits(0);
    aqs::latch latch(1);
    std::unique_lock<aqs::mutex> one(mutex);
    std::unique_lock<aqs::plain_mutex> two(plain);
    std::unique_lock<aqs::shared_mutex> three(shared);
    aqs::condition comes = mutex.condition();
    bool has_come = false;
    CHECK(mutex.waiters() + plain.waiters() + shared.waiters() + permits.waiters() + latch.waiters() == 0);
    std::thread threads[] = {
        std::thread([&] {
            std::unique_lock<aqs::mutex> guard(mutex);
            comes.wait(guard, [&] { return has_come; });
        }),
        std::thread([&] { std::lock_guard<aqs::plain_mutex> guard(plain); }),
        std::thread([&] { std::shared_lock<aqs::shared_mutex> guard(shared); }),
        std::thread([&] { permits.acquire(); }),
        std::thread([&] { latch.wait(); }),
    };
    while (mutex.queue_length() != 1 || plain.queue_length() != 1 || shared.queue_length() != 1)
        std::this_thread::yield();
    while (permits.waiters() != 1 || latch.waiters() != 1) std::this_thread::yield();
    CHECK(permits.queue_length() == 1 && latch.queue_length() == 1);
    CHECK(mutex.waiters() == 1 && plain.waiters() == 1 && shared.waiters() == 1);
    one.unlock();
    while (mutex.queue_length() != 0 || mutex.is_locked()) std::this_thread::yield();
    CHECK(mutex.waiters() == 1);
    one.lock();
    has_come = true;
    comes.notify_one();
    CHECK(mutex.queue_length() == 1 && mutex.is_locked());
    one.unlock(), two.unlock(), three.unlock();
    permits.release();
    latch.count_down();
    for (auto &thread : threads) thread.join();
    CHECK(mutex.waiters() + plain.waiters() + shared.waiters() + permits.waiters() + latch.waiters() == 0);
}

template <class Lock>
static void condition_objects(const std::string &name) {
    Lock mutex(aqs::options().keep_history().conditions(2));
    aqs::condition_variable not_empty, not_full;
    std::queue<int> queue;
    long sum = 0;
    std::thread consumer([&] {
        for (int i = 0; i < 1000; i++) {
            {
                std::unique_lock<Lock> guard(mutex);
                not_empty.wait(guard, [&] { return !queue.empty(); });
                sum += queue.front();
                queue.pop();
            }
            not_full.notify_one();
        }
    });
    for (int i = 0; i < 1000; i++) {
        std::unique_lock<Lock> guard(mutex);
        not_full.wait(guard, [&] { return queue.size() < 4; });
        queue.push(i);
        not_empty.notify_all();
    }
    consumer.join();
    CHECK(sum == 1000L * 999 / 2);
    std::unique_lock<Lock> guard(mutex);
    CHECK(!not_empty.wait_for(guard, 5ms));
    CHECK(!not_empty.wait_until(guard, std::chrono::steady_clock::now() + 5ms));
    CHECK(!not_empty.wait_for(guard, 5ms, [] { return false; }));
    CHECK(!not_empty.wait_until(guard, std::chrono::steady_clock::now(), [] { return false; }));
    CHECK(not_empty.wait_for(guard, 5ms, [] { return true; }));
    IS(aqs_thread_interrupt(aqs_thread_self()), AQS_OK);
    CHECK(!not_empty.wait_interruptibly(guard));
    looks_at_the_end(not_empty, guard);
    CHECK(guard.owns_lock() && mutex.is_mine());
    keep(name, mutex.history());
}

// Waits that a signal handler ends, which return false. Signals are sent until the waits have ended: one that
// comes before the sleep ends nothing.
static std::atomic<bool> is_over;

static void handle_until_over(std::thread &thread) {
    while (!is_over) {
        CHECK(pthread_kill(thread.native_handle(), SIGUSR1) == 0);
        std::this_thread::sleep_for(1ms);
    }
    thread.join();
}

static void handlers() {
    struct sigaction action = {};
    action.sa_handler = [](int) {};
    CHECK(sigaction(SIGUSR1, &action, nullptr) == 0);
    const aqs::options how = aqs::options().handlers_end_waits();
    aqs::semaphore permits(0, how);
    aqs::latch latch(1, how);
    aqs::mutex mutex(how);
    aqs::condition_variable never;
    is_over = false;
    std::thread thread([&] {
        CHECK(!permits.acquire_interruptibly());
        CHECK(!permits.try_acquire_for(1h));
        CHECK(!latch.wait_for(1h));
        std::unique_lock guard(mutex);
        CHECK(!never.wait_interruptibly(guard));
        CHECK(!never.wait_for(guard, 1h, [] { return false; }));
        CHECK(!mutex.condition().wait_interruptibly(guard));
        CHECK(mutex.is_mine() && !aqs_thread_interrupted());
        is_over = true;
    });
    handle_until_over(thread);
    permits.release();
    CHECK(permits.available() == 1);
}

// What std::errc calls the same.
static void codes() {
    const struct {
        aqs_status_t status;
        std::errc code;
    } of[] = {
        {AQS_TIMED_OUT, std::errc::timed_out},
        {AQS_INTERRUPTED, std::errc::interrupted},
        {AQS_WOULD_BLOCK, std::errc::resource_unavailable_try_again},
        {AQS_NOT_OWNER, std::errc::operation_not_permitted},
        {AQS_TOO_MANY_HOLDS, std::errc::resource_unavailable_try_again},
        {AQS_TOO_MANY_HOLDS, std::errc::resource_deadlock_would_occur},
        {AQS_TOO_MANY_PERMITS, std::errc::value_too_large},
        {AQS_HOLDS_READ, std::errc::resource_deadlock_would_occur},
        {AQS_NO_SUCH_CONDITION, std::errc::invalid_argument},
        {AQS_BAD_AMOUNT, std::errc::invalid_argument},
        {AQS_OUT_OF_MEMORY, std::errc::not_enough_memory},
        {AQS_OUT_OF_RANGE, std::errc::invalid_argument},
        {AQS_TOO_MANY_THREADS, std::errc::resource_unavailable_try_again},
        {AQS_IO_ERROR, std::errc::io_error},
        {AQS_HANDLER_RAN, std::errc::interrupted},
    };
    for (const auto &it : of) CHECK(aqs::error(it.status).code() == it.code);
    // The others mean nothing that std::errc has.
    for (aqs_status_t it : {AQS_HISTORY_FULL, AQS_NO_SPACE, AQS_MISUSE}) {
        CHECK(aqs::error(it).code().default_error_condition() == std::error_condition(it, aqs::category()));
    }
}

static void errors() {
    CHECK(status_of([] { aqs::mutex mutex; mutex.unlock(); }) == AQS_NOT_OWNER);
    CHECK(status_of([] { aqs::mutex mutex; mutex.condition().notify_one(); }) == AQS_NOT_OWNER);
    CHECK(status_of([] { aqs::mutex mutex(aqs::options().threads(999)); }) == AQS_OUT_OF_RANGE);
    CHECK(status_of([] {
              aqs::mutex mutex;
              std::unique_lock guard(mutex, std::defer_lock);
              mutex.condition().wait(guard);
          })
          == AQS_NOT_OWNER);
    CHECK(status_of([] {
              aqs::mutex mutex;
              std::unique_lock guard(mutex, std::defer_lock);
              static_changed.wait(guard);
          })
          == AQS_NOT_OWNER);
    CHECK(status_of([] {
              aqs::mutex mutex, other;
              std::unique_lock guard(mutex), of_other(other);
              mutex.condition().wait_for(of_other, 1ms);
          })
          == AQS_NOT_OWNER);
    CHECK(status_of([] {
              aqs::plain_mutex one;
              aqs::mutex other(aqs::options().conditions(1));
              std::unique_lock guard(other);
              other.condition(1).notify_one();
          })
          == AQS_NO_SUCH_CONDITION);
    CHECK(status_of([] { aqs::latch latch(2147483648u); }) == AQS_OUT_OF_RANGE);
    CHECK(status_of([] { aqs::latch latch(4294967295u, aqs::options()); }) == AQS_OUT_OF_RANGE);
    CHECK(aqs::latch(2147483647u).count() == 2147483647u);
    CHECK(aqs::latch(2147483647u, aqs::options()).count() == 2147483647u);
    CHECK(status_of([] { aqs::semaphore permits(1); permits.acquire(3000000000u); }) == AQS_BAD_AMOUNT);
    // The standard's locks throw such errors too, and their users look at the code.
    try {
        aqs::mutex mutex;
        mutex.unlock();
        CHECK(false);
    } catch (const std::system_error &error) {
        CHECK(error.code() == std::errc::operation_not_permitted);
        CHECK(error.code() != std::errc::timed_out);
        CHECK(error.code().category() == aqs::category());
        CHECK(std::string(error.code().category().name()) == "aqs");
    }
}

int main(int count, char **words) {
    CHECK(count == 2);
    folder = words[1];
    alarm(60);
    guards();
    queues();
    often_notified();
    readers();
    others();
    over_a_lock();
    static_objects();
    questions();
    waiters();
    condition_objects<aqs::mutex>("guards-conditions");
    condition_objects<aqs::plain_mutex>("guards-plain-conditions");
    errors();
    codes();
    handlers();
    std::puts("guards: good");
}
