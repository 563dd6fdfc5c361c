/* A library whose constructor asks for calls before and after forks, as allocators do. A program that is linked with
   it has it before the recorder. */
#include "library_that_forks.h"

#include <pthread.h>

static pthread_mutex_t lock = PTHREAD_MUTEX_INITIALIZER;

static int generation;

int use_library(void) {
    pthread_mutex_lock(&lock);
    int found = generation;
    pthread_mutex_unlock(&lock);
    return found;
}

static void before(void) { pthread_mutex_lock(&lock); }
static void after_in_parent(void) { pthread_mutex_unlock(&lock); }

static void after_in_child(void) {
    generation++;
    pthread_mutex_unlock(&lock);
}

__attribute__((constructor)) static void begin(void) {
    pthread_atfork(before, after_in_parent, after_in_child);
}
