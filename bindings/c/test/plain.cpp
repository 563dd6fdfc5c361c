// plain.cpp: aqs.hpp in C++11 and without exceptions, as in programs that are built so.
#include "aqs.hpp"

#include "check.h"

#include <signal.h>
#include <string.h>
#include <sys/wait.h>
#include <thread>

#ifndef AQS_NO_EXCEPTIONS
#error it is compiled with exceptions
#endif

static void all_types() {
    aqs::mutex mutex(aqs::options().fair().conditions(2));
    aqs::condition comes = mutex.condition(1);
    aqs::shared_mutex shared;
    aqs::semaphore permits(0);
    aqs::latch latch(2);
    bool is_set = false;
    std::thread other([&] {
        std::unique_lock<aqs::mutex> guard(mutex);
        comes.wait(guard, [&] { return is_set; });
        permits.release(2);
        shared.lock_shared();
        shared.unlock_shared();
        latch.arrive_and_wait();
    });
    {
        std::lock_guard<aqs::mutex> guard(mutex);
        is_set = true;
        comes.notify_all();
    }
    permits.acquire(2);
    CHECK(!latch.try_wait());
    latch.arrive_and_wait();
    CHECK(latch.try_wait());
    other.join();
    CHECK(aqs::semaphore::max() == 2147483647);
    aqs::mutex::native_handle_type handle = mutex.native_handle();
    IS(aqs_lock_unlock(handle), AQS_NOT_OWNER);
}

// What can't be done ends the program, and says why.
static void aborts() {
    int ends[2], status;
    char said[100] = "";
    CHECK(pipe(ends) == 0);
    pid_t child = fork();
    CHECK(child >= 0);
    if (child == 0) {
        CHECK(dup2(ends[1], 2) == 2);
        signal(SIGABRT, SIG_DFL);
        aqs::mutex().unlock();
        _Exit(0);
    }
    close(ends[1]);
    CHECK(read(ends[0], said, sizeof said - 1) > 0);
    close(ends[0]);
    CHECK(waitpid(child, &status, 0) == child && WIFSIGNALED(status) && WTERMSIG(status) == SIGABRT);
    CHECK(strcmp(said, "aqs.hpp: AQS_NOT_OWNER\n") == 0);
}

int main() {
    alarm(60);
    all_types();
    aborts();
    std::puts("plain: good");
}
