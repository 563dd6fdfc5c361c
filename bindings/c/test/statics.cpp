// statics.cpp: static objects as a program exits, while other threads still use them. Each exit is one of a
// process of its own, which must end with status 0.
#include "aqs.hpp"
#include "check.h"

#include <atomic>
#include <chrono>
#include <functional>
#include <sys/wait.h>
#include <thread>

namespace {

aqs::mutex at_first_call;
aqs::mutex with_options(aqs::options().threads(8));
aqs::plain_mutex plain;
aqs::shared_mutex table;
aqs::semaphore permits(1);
aqs::latch never(1);
aqs::condition_variable changed;
std::atomic<bool> has_begun, is_at_exit;

// It is made first, so that its destructor comes last: the threads go on for a while after the others.
struct last {
    ~last() {
        is_at_exit = true;
        std::this_thread::sleep_for(std::chrono::milliseconds(20));
    }
};

template <class Lock>
void use(Lock &lock) {
    for (;;) {
        lock.lock();
        has_begun = true;
        std::this_thread::sleep_for(std::chrono::microseconds(300));
        lock.unlock();
    }
}

void hold_until_exit() {
    at_first_call.lock();
    at_first_call.lock();
    has_begun = true;
    while (!is_at_exit) std::this_thread::yield();
    at_first_call.unlock();
    at_first_call.unlock();
    use(at_first_call);
}

void read_on() {
    for (;;) {
        table.lock_shared();
        has_begun = true;
        table.unlock_shared();
    }
}

void acquire_on() {
    for (;;) {
        permits.acquire();
        has_begun = true;
        permits.release();
    }
}

void wait_for_ever() {
    has_begun = true;
    never.wait();
}

void wait_for_a_change() {
    std::unique_lock<aqs::plain_mutex> guard(plain);
    has_begun = true;
    changed.wait(guard);
}

void use_a_static_of_a_function() {
    static aqs::mutex mutex;
    use(mutex);
}

void ends_well(const std::function<void()> &body) {
    for (int i = 0; i < 5; i++) {
        int status = 0;
        const pid_t child = fork();
        CHECK(child >= 0);
        if (child == 0) {
            static last the_last;
            std::thread(body).detach();
            while (!has_begun) std::this_thread::yield();
            std::exit(0);
        }
        CHECK(waitpid(child, &status, 0) == child);
        if (status != 0) fprintf(stderr, "the process ended with status %#x\n", status);
        CHECK(status == 0);
    }
}

}  // namespace

int main() {
    alarm(60);
    ends_well([] { use(at_first_call); });
    ends_well([] { use(with_options); });
    ends_well([] { use(plain); });
    ends_well([] { use(table); });
    ends_well(hold_until_exit);
    ends_well(read_on);
    ends_well(acquire_on);
    ends_well(wait_for_ever);
    ends_well(wait_for_a_change);
    ends_well(use_a_static_of_a_function);
    puts("statics: good");
    return 0;
}
