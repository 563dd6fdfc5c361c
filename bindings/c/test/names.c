/* names.c: a program may have names for itself that the library has inside, or that other headers define. */
#include "aqs.h"

#include <stdio.h>
#include <stdlib.h>

/* Another library of the kit has these too. */
void *rattle_alloc(void) { abort(); }
void *rattle_realloc(void) { abort(); }
void *rattle_dealloc(void) { abort(); }

struct parser {
    int bool, true, false;
};

static void must(aqs_status_t status) {
    if (status == AQS_OK) return;
    fprintf(stderr, "names: %s\n", aqs_status_name(status));
    exit(1);
}

int main(void) {
    struct parser parser = {.bool = 1, .true = 2, .false = 3};
    aqs_lock_t *lock;
    must(aqs_lock_open(&lock, &(aqs_options_t){.history = 16, .threads = 2}));
    for (int i = 0; i < 100; i++) {
        must(aqs_lock_lock(lock));
        must(aqs_lock_unlock(lock));
    }
    aqs_lock_close(lock);
    if (parser.bool + parser.true + parser.false != 6 || aqs_thread_interrupted()) return 1;
    puts("names: good");
    return 0;
}
