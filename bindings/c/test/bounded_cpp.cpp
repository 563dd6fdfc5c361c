// bounded_cpp.cpp [FOLDER]: the bounded buffer in C++: two conditions, notify_one, 3 threads that put and 3
// that take, 60,000 numbers. With each kind of lock, and with each kind of condition.
#include "aqs.hpp"
#include "check.h"

#include <deque>
#include <memory>
#include <mutex>
#include <string>
#include <thread>
#include <vector>

namespace {

constexpr std::size_t room = 8;
constexpr int threads = 3, each = 20000;

template <class Lock, class Condition>
class buffer {
public:
    template <class Make>
    buffer(Lock &lock, Make make) : lock_(lock), not_full_(make()), not_empty_(make()) {}

    void put(long number) {
        std::unique_lock<Lock> guard(lock_);
        not_full_.wait(guard, [&] { return numbers_.size() < room; });
        numbers_.push_back(number);
        not_empty_.notify_one();
    }

    long take() {
        std::unique_lock<Lock> guard(lock_);
        not_empty_.wait(guard, [&] { return !numbers_.empty(); });
        const long number = numbers_.front();
        numbers_.pop_front();
        not_full_.notify_one();
        return number;
    }

private:
    Lock &lock_;
    Condition not_full_, not_empty_;
    std::deque<long> numbers_;
};

template <class Buffer>
void play(Buffer &numbers) {
    std::vector<std::thread> all;
    std::vector<long> sums(threads);
    for (int i = 0; i < threads; i++) {
        all.emplace_back([&numbers, i] { for (long n = 0; n < each; n++) numbers.put(i * each + n); });
        all.emplace_back([&numbers, &sums, i] { for (int n = 0; n < each; n++) sums[i] += numbers.take(); });
    }
    for (auto &it : all) it.join();
    const long count = long(threads) * each;
    CHECK(sums[0] + sums[1] + sums[2] == count * (count - 1) / 2);
}

// Conditions of the lock, made without a number.
template <class Lock>
void play_with_conditions() {
    Lock lock(aqs::options().threads(2 * threads));
    buffer<Lock, aqs::basic_condition<Lock>> numbers(lock, [&] { return lock.condition(); });
    play(numbers);
}

// Conditions as objects, which can't be moved.
template <class Condition>
struct made {
    template <class Guard, class Predicate>
    void wait(Guard &guard, Predicate holds) { it->wait(guard, holds); }
    void notify_one() { it->notify_one(); }
    std::unique_ptr<Condition> it{new Condition};
};

template <class Lock, class Condition>
void play_with_objects() {
    Lock lock;
    buffer<Lock, made<Condition>> numbers(lock, [] { return made<Condition>(); });
    play(numbers);
}

aqs::recursive_mutex at_first_call;
aqs::condition one = at_first_call.condition(), another = at_first_call.condition();

// Sixteen of them, with options and without, and not one more.
void none_is_left() {
    aqs::mutex with(aqs::options().fair());
    aqs::plain_mutex without;
    std::vector<aqs::condition> all;
    std::vector<aqs::basic_condition<aqs::plain_mutex>> others;
    for (int i = 0; i < AQS_CONDITIONS; i++) all.push_back(with.condition()), others.push_back(without.condition());
    for (int i = 0; i < 2; i++) {
        try {
            auto more = with.condition();
            CHECK(i == 1);
            std::unique_lock<aqs::mutex> guard(with);
            CHECK(!more.wait_for(guard, std::chrono::milliseconds(1)));
        } catch (const aqs::error &error) {
            CHECK(i == 0 && error.status() == AQS_NO_SUCH_CONDITION);
        }
        all.pop_back();
    }
    try {
        without.condition();
        CHECK(false);
    } catch (const aqs::error &error) {
        CHECK(error.status() == AQS_NO_SUCH_CONDITION);
    }
}

}  // namespace

int main(int words, char **word) {
    alarm(100);
    play_with_conditions<aqs::mutex>();
    play_with_conditions<aqs::plain_mutex>();
    play_with_conditions<aqs::shared_mutex>();
    play_with_objects<aqs::mutex, aqs::condition_variable>();
    play_with_objects<aqs::plain_mutex, aqs::condition_variable_any>();
    play_with_objects<std::mutex, aqs::condition_variable_any>();
    buffer<aqs::mutex, made<aqs::condition_variable>> of_a_static(
        at_first_call, [] { return made<aqs::condition_variable>(); });
    play(of_a_static);
    none_is_left();
    if (words > 1) at_first_call.save_history(std::string(word[1]) + "/bounded-cpp.history");
    puts("bounded_cpp: good");
    return 0;
}
