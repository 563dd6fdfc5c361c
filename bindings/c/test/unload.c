/* unload.c LIBRARY: a thread that made a call ends after the library was closed. */
#include "check.h"

#include <dlfcn.h>
#include <pthread.h>

static void *library;
static pthread_barrier_t is_called, is_closed;

static void *call_and_end(void *none) {
    aqs_thread_t (*thread_self)(void) = (aqs_thread_t(*)(void))dlsym(library, "aqs_thread_self");
    CHECK(thread_self && thread_self() == 0);
    pthread_barrier_wait(&is_called);
    pthread_barrier_wait(&is_closed);
    return none;
}

int main(int count, char **words) {
    pthread_t thread;
    CHECK(count == 2);
    alarm(60);
    library = dlopen(words[1], RTLD_NOW | RTLD_LOCAL);
    CHECK(library);
    CHECK(pthread_barrier_init(&is_called, NULL, 2) == 0 && pthread_barrier_init(&is_closed, NULL, 2) == 0);
    CHECK(pthread_create(&thread, NULL, call_and_end, NULL) == 0);
    pthread_barrier_wait(&is_called);
    CHECK(dlclose(library) == 0);
    pthread_barrier_wait(&is_closed);
    CHECK(pthread_join(thread, NULL) == 0);
    puts("unload: good");
    return 0;
}
