// lru_cache.cpp [FILE]: a cache that forgets what was used longest ago, for many threads.
//
// A value that is missing is loaded by one thread, outside the lock, and the others that ask for it wait
// for that. The lock is an aqs::mutex, the rest is ordinary C++. The history of the lock is written to
// FILE, for `aqs audit` and `aqs draw`.
#include "aqs.hpp"

#include <fstream>
#include <functional>
#include <iostream>
#include <list>
#include <optional>
#include <string>
#include <thread>
#include <unordered_map>
#include <vector>

template <class Key, class Value>
class lru_cache {
public:
    lru_cache(std::size_t most, std::function<Value(const Key &)> load)
        : most_(most), load_(std::move(load)),
          mutex_(aqs::options().fair().keep_history().threads(4)) {}

    // The value of a key, from the cache, or loaded by this thread or by another.
    Value get(const Key &key) {
        std::unique_lock guard(mutex_);
        for (;;) {
            auto found = entries_.find(key);
            if (found == entries_.end()) return load(key, guard);
            if (found->second.value) {
                order_.splice(order_.begin(), order_, found->second.place);
                hits_++;
                return *found->second.value;
            }
            loaded_.wait(guard);
        }
    }

    std::size_t size() {
        std::lock_guard guard(mutex_);
        return order_.size();
    }

    std::size_t hits() {
        std::lock_guard guard(mutex_);
        return hits_;
    }

    std::string history() { return mutex_.history(); }

private:
    struct entry {
        std::optional<Value> value; // none while a thread loads it
        typename std::list<Key>::iterator place;
    };

    Value load(const Key &key, std::unique_lock<aqs::mutex> &guard) {
        entries_.emplace(key, entry{});
        guard.unlock();
        Value value;
        try {
            value = load_(key);
        } catch (...) {
            guard.lock();
            entries_.erase(key);
            loaded_.notify_all();
            throw;
        }
        guard.lock();
        order_.push_front(key);
        entries_[key] = entry{value, order_.begin()};
        if (order_.size() > most_) {
            entries_.erase(order_.back());
            order_.pop_back();
        }
        loaded_.notify_all();
        return value;
    }

    std::size_t most_;
    std::function<Value(const Key &)> load_;
    std::unordered_map<Key, entry> entries_;
    std::list<Key> order_; // the one used last comes first
    std::size_t hits_ = 0;
    aqs::mutex mutex_;
    aqs::condition loaded_ = mutex_.condition();
};

int main(int count, char **words) {
    lru_cache<int, std::string> squares(4, [](const int &number) {
        std::this_thread::sleep_for(std::chrono::milliseconds(2));
        return std::to_string(number * number);
    });
    std::vector<std::thread> threads;
    for (int first = 0; first < 3; first++) {
        threads.emplace_back([&squares, first] {
            for (int i = 0; i < 5; i++) {
                int number = (first + i * i) % 6;
                if (squares.get(number) != std::to_string(number * number)) std::abort();
            }
        });
    }
    for (auto &thread : threads) thread.join();
    if (squares.size() > 4) std::abort();
    std::cout << "15 values, " << squares.size() << " kept\n";
    if (count < 2) return 0;
    std::ofstream file(words[1], std::ios::binary);
    file << squares.history();
    file.close();
    return file ? 0 : 1;
}
