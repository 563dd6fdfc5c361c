/* Forks beside a library whose calls before a fork lock a mutex: forks [THREADS], which use the library meanwhile. */
#include "check.h"
#include "library_that_forks.h"

#include <pthread.h>
#include <stdatomic.h>
#include <stdlib.h>
#include <sys/wait.h>

enum { FORKS = 10, MOST = 8 };

static atomic_int is_done;

static void *use_it(void *nothing) {
    while (!is_done) use_library();
    return nothing;
}

static int status_of_child(void) {
    int status;
    pid_t child = fork();
    if (child == 0) {
        alarm(60);
        exit(7 + use_library());
    }
    CHECK(child > 0 && waitpid(child, &status, 0) == child && WIFEXITED(status));
    return WEXITSTATUS(status);
}

int main(int count, char **words) {
    pthread_t threads[MOST];
    int uses = count > 1 ? atoi(words[1]) : 0;
    alarm(110);
    CHECK(use_library() == 0);
    for (int i = 0; i < uses; i++) CHECK(pthread_create(&threads[i], NULL, use_it, NULL) == 0);
    for (int i = 0; i < FORKS; i++) CHECK(status_of_child() == 8);
    is_done = 1;
    for (int i = 0; i < uses; i++) CHECK(pthread_join(threads[i], NULL) == 0);
    printf("%d forks\n", FORKS);
    return 0;
}
