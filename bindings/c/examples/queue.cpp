#include <aqs.hpp>

#include <deque>
#include <functional>
#include <iostream>
#include <thread>

class job_queue {
public:
    void put(std::function<void()> job) {
        std::unique_lock<aqs::plain_mutex> guard(mutex_);
        not_full_.wait(guard, [&] { return jobs_.size() < 8; });
        jobs_.push_back(std::move(job));
        not_empty_.notify_one();
    }

    std::function<void()> take() {
        std::unique_lock<aqs::plain_mutex> guard(mutex_);
        not_empty_.wait(guard, [&] { return !jobs_.empty(); });
        std::function<void()> job = std::move(jobs_.front());
        jobs_.pop_front();
        not_full_.notify_one();
        return job;
    }

private:
    aqs::plain_mutex mutex_; // aqs::mutex is reentrant
    aqs::basic_condition<aqs::plain_mutex> not_full_ = mutex_.condition(), not_empty_ = mutex_.condition();
    std::deque<std::function<void()>> jobs_;
};

int main() {
    job_queue queue;
    int sum = 0;
    std::thread worker([&] {
        while (std::function<void()> job = queue.take()) job();
    });
    for (int number = 1; number <= 100; number++) queue.put([&sum, number] { sum += number; });
    queue.put(nullptr); // no more
    worker.join();
    std::cout << sum << '\n';
}
