/* check.h: what the tests share. A test that hangs ends by its alarm, and so fails. */
#ifndef AQS_TEST_CHECK_H
#define AQS_TEST_CHECK_H

#include "aqs.h"

#include <stdbool.h>
#include <stdio.h>
#include <stdlib.h>
#include <unistd.h>

#define CHECK(fact)                                                      \
    do {                                                                 \
        if (!(fact)) {                                                   \
            fprintf(stderr, "%s:%d: not so: %s\n", __FILE__, __LINE__, #fact); \
            _Exit(1);                                                    \
        }                                                                \
    } while (0)

#define IS(call, wanted)                                                                                \
    do {                                                                                                \
        aqs_status_t status_ = (call);                                                                  \
        if (status_ != (wanted)) {                                                                      \
            fprintf(stderr, "%s:%d: %s is %s\n", __FILE__, __LINE__, #call, aqs_status_name(status_));   \
            _Exit(1);                                                                                   \
        }                                                                                               \
    } while (0)

/* Writes an object's history to a file in a folder, for `aqs audit`. */
static inline void keep_history(aqs_object_t *object, const char *folder, const char *name) {
    char path[1000];
    snprintf(path, sizeof path, "%s/%s.history", folder, name);
    FILE *file = fopen(path, "w");
    CHECK(file);
    IS(aqs_history_write(object, file), AQS_OK);
    CHECK(fclose(file) == 0);
}

#endif
