/* stops.c: one thread is stopped at each instruction of a call in turn, another makes its calls meanwhile,
   and then the first goes on. So each order of two calls is tried in which one thread is stopped once: no
   wake, interrupt or permit is lost, and memory that a close has freed is used by nobody.

   One run of the call is traced: the processor traps after each instruction. In each later run one
   instruction that it had is replaced by a breakpoint. What the test waits for is an event: a call has ended, or its
   thread is stopped, or it sleeps. This is for x86-64, as the library is. */
#include "heap.h"

#define NEW_ADDRESSES 0 /* who uses an object after its close uses freed memory */
#include "play.h"

#include <limits.h>
#include <linux/futex.h>
#include <signal.h>
#include <sys/mman.h>
#include <sys/wait.h>
#include <ucontext.h>

enum { PLACES = 20000, OTHERS = 5, CORE = 40, BEGINNING = 150 };
enum { TRAPS = 0x100, BREAKPOINT = 0xcc };

/* The library lets others run before it sleeps. Here it sleeps the sooner, however busy the machine is: the linker puts
   this in the place of sched_yield. */
int __wrap_sched_yield(void) { return 0; }

/* Traps ------------------------------------------------------------------------------------------------ */

extern char __executable_start, etext;

static uint8_t *places[PLACES], *set_at, was;
static int count_of_places;
static atomic_bool is_set, traces, is_stopped;
static atomic_int goes_on, who_stopped;
static greg_t return_to, stack_at;
static _Thread_local bool is_traced, is_main;

static void note_place(uint8_t *at) {
    if (at < (uint8_t *)&__executable_start || at >= (uint8_t *)&etext) return;
    for (int i = 0; i < count_of_places; i++) {
        if (places[i] == at) return;
    }
    if (count_of_places < PLACES) places[count_of_places++] = at;
}

/* The kernel's number of the calling thread, without a function that the library calls too: one may be to stop there. */
static int own_id(void) {
    int id;
    __asm__ volatile("syscall" : "=a"(id) : "a"(SYS_gettid) : "rcx", "r11", "memory");
    return id;
}

static void stay(void) {
    atomic_store(&who_stopped, own_id());
    atomic_store(&is_stopped, true);
    while (!atomic_load(&goes_on)) syscall(SYS_futex, &goes_on, FUTEX_WAIT_PRIVATE, 0, NULL, NULL, 0);
}

static void on_trap(int number, siginfo_t *info, void *context) {
    greg_t *now = ((ucontext_t *)context)->uc_mcontext.gregs;
    (void)number, (void)info;
    if (is_traced) {
        is_traced = now[REG_RIP] != return_to || now[REG_RSP] <= stack_at;
        if (is_traced) note_place((uint8_t *)now[REG_RIP]);
        else now[REG_EFL] &= ~(greg_t)TRAPS;
        return;
    }
    now[REG_RIP]--;
    if (!atomic_exchange(&is_set, false)) return; /* two came to it at a time */
    *set_at = was;
    if (!atomic_load(&traces)) {
        if (!is_main) stay(); /* a function of the C library that both call is no place for a stop */
        return;
    }
    return_to = *(greg_t *)now[REG_RSP], stack_at = now[REG_RSP];
    is_traced = true;
    now[REG_EFL] |= TRAPS;
    note_place(set_at);
}

static void set(uint8_t *at, bool is_trace) {
    set_at = at, was = *at;
    atomic_store(&traces, is_trace);
    atomic_store(&is_stopped, false);
    atomic_store(&goes_on, 0);
    atomic_store(&is_set, true);
    *(volatile uint8_t *)at = BREAKPOINT;
}

static void unset(void) {
    if (atomic_exchange(&is_set, false)) *set_at = was;
    atomic_store(&goes_on, 1);
    syscall(SYS_futex, &goes_on, FUTEX_WAKE_PRIVATE, INT_MAX, NULL, NULL, 0);
}

static void prepare(void) {
    is_main = true;
    char *begin = (char *)((uintptr_t)&__executable_start & ~(uintptr_t)4095);
    struct sigaction action = {.sa_sigaction = on_trap, .sa_flags = SA_SIGINFO};
    CHECK(mprotect(begin, (size_t)(&etext - begin), PROT_READ | PROT_WRITE | PROT_EXEC) == 0);
    CHECK(sigaction(SIGTRAP, &action, NULL) == 0);
}

/* Calls of two threads --------------------------------------------------------------------------------- */

/* What holds at the end, where that depends on who came first. SEEKS: thread 1 comes first, and seeks a seat. */
enum { NOTHING_MORE, INTERRUPT_OR_OK, PERMIT_OR_TIME, SEEKS };

typedef struct {
    const char *object, *before, *stopped; /* a call of thread 0 */
    void *entry;                           /* the function */
    const char *others[OTHERS];            /* calls of thread 1 */
    aqs_status_t ends; /* how the call of thread 0 ends, or that of thread 1 if that is not AQS_OK */
    aqs_status_t other_ends;
    int also;
    const char *after;
} stop_t;

static const stop_t rows[] = {
    {"semaphore nonfair seats 2 permits 0 cap 64", "", "release 1", (void *)aqs_sem_release, {"acquire 1"},
     AQS_OK, AQS_OK, 0, "0 getvalue = 0"},
    {"semaphore nonfair seats 1 permits 0 cap 64", "", "release 1", (void *)aqs_sem_release, {"release 1"},
     AQS_OK, AQS_OK, 0, "1 getvalue = 2"},
    {"semaphore fair seats 2 permits 0 cap 64", "", "acquire 1", (void *)aqs_sem_acquire, {"release 1"},
     AQS_OK, AQS_OK, 0, "0 getvalue = 0"},
    {"semaphore fair seats 2 permits 0 cap 64", "", "acquire_interruptibly 1",
     (void *)aqs_sem_acquire_interruptibly, {"interrupt 0"}, AQS_INTERRUPTED, AQS_OK, 0, "0 getvalue = 0"},
    {"semaphore fair seats 2 permits 0 cap 64", "", "interrupt 1", (void *)aqs_thread_interrupt,
     {"acquire_interruptibly 1"}, AQS_OK, AQS_INTERRUPTED, 0, "0 getvalue = 0"},
    {"semaphore fair seats 2 permits 0 cap 64", "", "acquire_interruptibly 1",
     (void *)aqs_sem_acquire_interruptibly, {"interrupt 0", "release 1"}, AQS_OK, AQS_OK, INTERRUPT_OR_OK,
     ""},
    {"semaphore fair seats 2 permits 0 cap 64", "", "acquire_interruptibly 1",
     (void *)aqs_sem_acquire_interruptibly, {"release 1", "interrupt 0"}, AQS_OK, AQS_OK, INTERRUPT_OR_OK,
     ""},
    {"semaphore fair seats 2 permits 0 cap 64", "", "timedacquire 1 1", (void *)aqs_sem_timedacquire,
     {"release 1"}, AQS_OK, AQS_OK, PERMIT_OR_TIME, ""},
    {"lock fair seats 2 conditions 1 cap 64", "0 lock = OK", "unlock", (void *)aqs_lock_unlock, {"lock"},
     AQS_OK, AQS_OK, 0, "0 trylock = WOULD_BLOCK; 1 unlock = OK"},
    {"lock fair seats 2 conditions 1 cap 64", "0 lock = OK", "wait 0", (void *)aqs_lock_wait,
     {"lock", "signal 0", "unlock"}, AQS_OK, AQS_OK, 0, "0 unlock = OK"},
    {"lock fair seats 2 conditions 1 cap 64", "0 lock = OK", "wait_interruptibly 0",
     (void *)aqs_lock_wait_interruptibly, {"lock", "interrupt 0", "signal 0", "unlock"}, AQS_OK, AQS_OK,
     INTERRUPT_OR_OK, "0 unlock = OK"},
    {"rw fair seats 2 conditions 1 cap 64", "0 wrlock = OK", "wrunlock", (void *)aqs_rwlock_wrunlock,
     {"rdlock"}, AQS_OK, AQS_OK, 0, "0 trywrlock = WOULD_BLOCK; 1 rdunlock = OK"},
    {"latch seats 2 count 1 cap 64", "", "count_down", (void *)aqs_latch_count_down, {"await", "close"},
     AQS_OK, AQS_OK, 0, NULL},
    {"lock nonfair seats 2 conditions 1 cap 64", "0 lock = OK", "unlock", (void *)aqs_lock_unlock,
     {"lock", "unlock", "close"}, AQS_OK, AQS_OK, 0, NULL},
    {"semaphore nonfair seats 2 permits 0 cap 64", "", "release 1", (void *)aqs_sem_release,
     {"acquire 1", "close"}, AQS_OK, AQS_OK, 0, NULL},
    {"rw nonfair seats 2 conditions 1 cap 64", "0 rdlock = OK", "rdunlock", (void *)aqs_rwlock_rdunlock,
     {"wrlock", "wrunlock", "close"}, AQS_OK, AQS_OK, 0, NULL},
    {"lock nonfair seats 1 conditions 1 cap 64", "0 lock = OK", "unlock", (void *)aqs_lock_unlock,
     {"lock", "unlock", "close"}, AQS_OK, AQS_OK, SEEKS, NULL},
};

static void ask_line(kind_t kind, player_t *it, const char *line) {
    char word[40] = "";
    unsigned a = 0, b = 0;
    sscanf(line, "%39s %u %u", word, &a, &b);
    ask(it, call_of(kind, word), a, b);
}

/* Whether a thread sleeps: two looks say so. */
static bool sleeps(const player_t *it) {
    if (!is_asleep(it)) return false;
    usleep(10);
    return is_asleep(it);
}

/* Waits until a call has ended, or its thread sleeps, or stops. Returns whether it ended. */
static bool ends_soon(const player_t *it, const atomic_bool *stops) {
    for (;; usleep(10)) {
        if (!atomic_load(&it->in_call)) return true;
        if (stops && atomic_load(stops)) return false;
        if (atomic_load(&it->has_begun) && sleeps(it)) return !atomic_load(&it->in_call);
    }
}

/* How often a thread fell asleep. */
static long naps_of(const player_t *it) {
    static const char before[] = "\nvoluntary_ctxt_switches:";
    char path[64], status[4096] = "";
    snprintf(path, sizeof path, "/proc/self/task/%d/status", atomic_load(&it->id));
    int file = open(path, O_RDONLY);
    CHECK(file >= 0 && read(file, status, sizeof status - 1) > 0);
    close(file);
    const char *found = strstr(status, before);
    CHECK(found);
    return strtol(found + strlen(before), NULL, 10);
}

/* A thread that seeks a seat, or waits for a fork, sleeps for a while at a time. Waits until its call has ended, or it
   has looked in vain, or is the one that stopped. Returns whether it ended. */
static bool ends_before_naps(const player_t *it) {
    for (long before = naps_of(it); naps_of(it) < before + 3; usleep(100)) {
        if (!atomic_load(&it->in_call)) return true;
        if (atomic_load(&who_stopped) == atomic_load(&it->id)) return false;
    }
    return !atomic_load(&it->in_call);
}

/* Makes the calls of thread 1, until one doesn't end soon, or in the end for good. Returns how many were
 * begun. */
static int make_others(kind_t kind, const stop_t *row, int begun, bool is_for_good) {
    player_t *other = &players[1];
    for (;; begun++) {
        if (begun > 0) {
            bool seeks = row->also == SEEKS && atomic_load(&is_stopped);
            if (is_for_good ? !ends(other, LIMIT) : seeks ? !ends_before_naps(other) : !ends_soon(other, NULL)) {
                if (is_for_good) FAIL("%s doesn't end", row->others[begun - 1]);
                return begun;
            }
            if (other->status != row->other_ends)
                FAIL("%s is %s", row->others[begun - 1], aqs_status_name(other->status));
        }
        if (begun == OTHERS || !row->others[begun]) return begun;
        ask_line(kind, other, row->others[begun]);
    }
}

static void check_end(kind_t kind, const stop_t *row) {
    player_t *it = &players[0];
    if (!ends(it, LIMIT)) FAIL("it doesn't end");
    bool is_ok = it->status == AQS_OK;
    if (row->also == INTERRUPT_OR_OK) {
        if (!is_ok && it->status != AQS_INTERRUPTED) FAIL("it is %s", aqs_status_name(it->status));
        play_lines(kind, is_ok ? "0 interrupted = 1" : "0 interrupted = 0");
        if (kind == SEM) play_lines(kind, is_ok ? "0 getvalue = 0" : "0 getvalue = 1");
    } else if (row->also == PERMIT_OR_TIME) {
        if (!is_ok && it->status != AQS_TIMED_OUT) FAIL("it is %s", aqs_status_name(it->status));
        play_lines(kind, is_ok ? "0 getvalue = 0" : "0 getvalue = 1");
    } else if (it->status != row->ends) {
        FAIL("it is %s", aqs_status_name(it->status));
    }
}

/* When thread 1 begins: as thread 0 is stopped, before thread 0 begins, or while it waits, to be stopped only
 * then. */
enum { AT_THE_STOP, FIRST, WHILE_IT_WAITS };

static void run(const stop_t *row, uint8_t *at, bool is_trace, int when) {
    char shown[100];
    kind_t kind = open_part(row->object);
    play_name = row->object;
    atomic_store(&is_stopped, false);
    play_lines(kind, row->before);
    snprintf(shown, sizeof shown, "%s, stopped at %p", row->stopped, (void *)at);
    play_line = shown;
    int begun = when == FIRST ? make_others(kind, row, 0, false) : 0;
    if (when != WHILE_IT_WAITS) set(at, is_trace);
    ask_line(kind, &players[0], row->stopped);
    ends_soon(&players[0], when != WHILE_IT_WAITS && !is_trace ? &is_stopped : NULL);
    if (when == WHILE_IT_WAITS) {
        set(at, false);
        ask_line(kind, &players[1], row->others[begun++]);
        ends_soon(&players[1], NULL);
        ends_soon(&players[0], &is_stopped);
    }
    begun = make_others(kind, row, begun, false);
    unset();
    make_others(kind, row, begun, true);
    check_end(kind, row);
    if (!row->after) return;
    play_lines(kind, row->after);
    close_it(kind);
}

/* Whether a place is in aqs.c, whose last function this is. Behind it the linker puts the proved library. */
static bool is_own(const uint8_t *at) { return at < (uint8_t *)aqs_history_trim + 256; }

/* Each place of aqs.c, and some of the proved library's. */
static void stop_everywhere(const stop_t *row) {
    count_of_places = 0;
    run(row, row->entry, true, AT_THE_STOP);
    run(row, row->entry, true, FIRST);
    CHECK(count_of_places > 5);
    for (int i = 0; i < count_of_places; i++) {
        if (is_own(places[i]) || i % CORE == 0) run(row, places[i], false, AT_THE_STOP);
        if (is_own(places[i]) && (i % 8 == 0 || row->also == SEEKS)) run(row, places[i], false, FIRST);
        if (is_own(places[i]) && row->also == INTERRUPT_OR_OK) run(row, places[i], false, WHILE_IT_WAITS);
    }
}

/* Numbers of threads ----------------------------------------------------------------------------------- */

static atomic_int alive, numbers[2];
static player_t takers[2]; /* of these the id alone is used */

static void *take_number(void *given) {
    player_t *me = given;
    atomic_store(&me->id, own_id());
    atomic_store(&numbers[me - takers], aqs_thread_self());
    while (atomic_load(&alive)) usleep(20);
    return NULL;
}

static pthread_t begin_to_take(int i) {
    pthread_t thread;
    atomic_store(&alive, 1), atomic_store(&numbers[i], -1), atomic_store(&takers[i].id, 0);
    CHECK(pthread_create(&thread, NULL, take_number, &takers[i]) == 0);
    while (atomic_load(&takers[i].id) == 0) usleep(10);
    return thread;
}

static bool has_taken(int i) { return atomic_load(&numbers[i]) >= 0; }

/* Two threads get two numbers, one of them stopped at this place of its first call. */
static void take_two(uint8_t *at, bool is_trace) {
    pthread_t threads[2];
    set(at, is_trace);
    threads[0] = begin_to_take(0);
    while (!has_taken(0) && !atomic_load(&is_stopped)) usleep(10);
    threads[1] = begin_to_take(1);
    while (!has_taken(1) && !sleeps(&takers[1])) usleep(10);
    unset();
    while (!has_taken(0) || !has_taken(1)) usleep(10);
    int one = atomic_load(&numbers[0]), two = atomic_load(&numbers[1]);
    if (one == two || one < PLAYERS || two < PLAYERS) FAIL("two threads have numbers %d and %d", one, two);
    atomic_store(&alive, 0);
    for (int i = 0; i < 2; i++) CHECK(pthread_join(threads[i], NULL) == 0);
}

static void numbers_everywhere(void) {
    play_name = "aqs_thread_self", play_line = "at each place";
    count_of_places = 0;
    take_two((uint8_t *)aqs_thread_self, true);
    for (int i = 0; i < count_of_places; i++) take_two(places[i], false);
}

/* Seats ------------------------------------------------------------------------------------------------ */

/* No thread remembers a seat of any of these: each is used once. */
enum { LOCKS = 4000 };
static aqs_rwlock_t locks[LOCKS];
static int count_of_locks;

/* Two threads come for one seat, one of them stopped at this place of its call. Each gets a seat of its own.
   */
static void claim_two(uint8_t *at, bool is_trace) {
    CHECK(count_of_locks < LOCKS);
    rwlock = &locks[count_of_locks++];
    object = aqs_rwlock_object(rwlock);
    IS(aqs_rwlock_init(rwlock, &(aqs_options_t){.threads = 2, .history = 64}), AQS_OK);
    set(at, is_trace);
    ask(&players[0], RW_rdlock, 0, 0);
    ends_soon(&players[0], is_trace ? NULL : &is_stopped);
    ask(&players[2], RW_rdlock, 0, 0);
    ends_soon(&players[2], NULL);
    unset();
    for (int i = 0; i < 3; i += 2) {
        if (!ends(&players[i], LIMIT)) FAIL("thread %d doesn't end", i);
        if (players[i].status != AQS_OK) FAIL("thread %d gets %s", i, aqs_status_name(players[i].status));
    }
    play_lines(RW, "0 text = OK; 0 rdunlock = OK; 2 rdunlock = OK; 0 rdunlock = NOT_OWNER");
    if (!strstr(text, "\n0 0 got s 1\n1 1 got s 1\nend") && !strstr(text, "\n0 1 got s 1\n1 0 got s 1\nend"))
        FAIL("two threads have one seat:\n%s", text);
    aqs_rwlock_close(rwlock);
}

static void seats_everywhere(void) {
    play_name = "aqs_rwlock_rdlock", play_line = "at each place";
    count_of_places = 0;
    claim_two((uint8_t *)aqs_rwlock_rdlock, true);
    for (int i = 0; i < count_of_places; i++) {
        if (is_own(places[i])) claim_two(places[i], false);
    }
}

/* Forks ------------------------------------------------------------------------------------------------ */

/* Whether the child is there. Until then the stopped thread stays where it is. */
static atomic_bool has_forked;
static player_t forker; /* of which the id alone is used */
static atomic_bool is_looked_at; /* then it doesn't end */

/* Where a release is stopped that begins when the fork waits no more, or NULL. Or whether it is traced from there. */
static uint8_t *begins_at;
static bool begins_traced;

/* Whether a release that is stopped before its turn goes on when another fork waits no more. It makes no turn then. */
static bool goes_on_in_a_fork;

static void note_fork(void) { atomic_store(&has_forked, true); }

static void begin_now(void) {
    if (goes_on_in_a_fork && !atomic_load(&goes_on) && atomic_load(&players[0].in_call)) {
        atomic_store(&who_stopped, 0), unset();
        if (ends_before_naps(&players[0])) FAIL("a turn is made in a fork");
    }
    if (!begins_at) return;
    set(begins_at, begins_traced);
    ask(&players[0], SEM_release, 1, 0);
    ends_soon(&players[0], &is_stopped);
}
static __attribute__((constructor(101))) void before_the_library(void) {
    CHECK(pthread_atfork(begin_now, note_fork, NULL) == 0);
}

/* In the child, which has this thread alone, the semaphore is between two turns: a look ends, and a close finds
   nobody inside. Nor does a fork of the child wait for anybody. */
static void *fork_and_close(void *none) {
    int64_t permits;
    int status;
    atomic_store(&forker.id, own_id());
    pid_t child = fork();
    CHECK(child >= 0);
    if (child == 0) {
        alarm(10);
        begins_at = NULL;
        atomic_store(&is_set, true), unset(); /* also where a thread that isn't here was about to */
        IS(aqs_sem_getvalue(semaphore, &permits), AQS_OK);
        aqs_sem_close(semaphore);
        child = fork();
        if (child == 0) _Exit(0);
        CHECK(child > 0 && waitpid(child, &status, 0) == child && status == 0);
        _Exit(permits != 0 && permits != 1);
    }
    CHECK(waitpid(child, &status, 0) == child);
    if (!WIFEXITED(status) || WEXITSTATUS(status) != 0) FAIL("a child ends with status %d", status);
    while (atomic_load(&is_looked_at)) usleep(10);
    return none;
}

/* A semaphore of which a thread remembers its seat, or one that is new to it. */
static void open_semaphore(bool is_new) {
    static aqs_sem_t remembered, others[PLACES];
    static int count_of_others;
    semaphore = is_new ? &others[count_of_others++] : &remembered;
    IS(aqs_sem_init(semaphore, 0, &(aqs_options_t){.threads = 3, .history = 64}), AQS_OK);
}

static void close_semaphore(const char *last) {
    if (!ends(&players[0], LIMIT)) FAIL("it doesn't end");
    play_lines(SEM, last);
    aqs_sem_close(semaphore);
}

/* A thread is stopped, and another forks: it waits for a turn or for the numbers, or it need not. */
static void fork_beside(void) {
    pthread_t thread;
    atomic_store(&forker.id, 0), atomic_store(&has_forked, false), atomic_store(&is_looked_at, true);
    CHECK(pthread_create(&thread, NULL, fork_and_close, NULL) == 0);
    while (!atomic_load(&has_forked) && (atomic_load(&forker.id) == 0 || !sleeps(&forker))) usleep(10);
    atomic_store(&is_looked_at, false);
    unset();
    CHECK(pthread_join(thread, NULL) == 0);
}

static void fork_at(uint8_t *at, bool is_new) {
    open_semaphore(is_new);
    set(at, false);
    ask(&players[0], SEM_release, 1, 0);
    ends_soon(&players[0], &is_stopped);
    fork_beside();
    close_semaphore("0 getvalue = 1");
}

/* The same beside a thread that is stopped at this place as it comes out of its wait. */
static void fork_at_wake(uint8_t *at, bool is_trace) {
    open_semaphore(false);
    if (is_trace) set(at, true);
    ask(&players[0], SEM_acquire, 1, 0);
    ends_soon(&players[0], NULL);
    if (!is_trace) set(at, false);
    ask(&players[1], SEM_release, 1, 0); /* which may be stopped in its place */
    for (int i = 1; i >= 0; i--) ends_soon(&players[i], is_trace ? NULL : &is_stopped);
    if (!is_trace) fork_beside();
    unset();
    if (!ends(&players[1], LIMIT)) FAIL("the release doesn't end");
    close_semaphore("0 getvalue = 0");
}

/* The same beside a thread that is stopped at this place while it takes its number. */
static void fork_beside_number(uint8_t *at) {
    open_semaphore(false);
    play_lines(SEM, "0 release 1 = OK");
    set(at, false);
    pthread_t thread = begin_to_take(0);
    while (!has_taken(0) && !atomic_load(&is_stopped)) usleep(10);
    fork_beside();
    while (!has_taken(0)) usleep(10);
    atomic_store(&alive, 0);
    CHECK(pthread_join(thread, NULL) == 0);
    close_semaphore("0 getvalue = 1");
}

/* A process forks, and a release that another thread begins then is stopped at this place. */
static void begin_in_a_fork(uint8_t *at, bool is_new, bool is_again) {
    pthread_t thread;
    open_semaphore(is_new);
    begins_at = at;
    CHECK(pthread_create(&thread, NULL, fork_and_close, NULL) == 0);
    CHECK(pthread_join(thread, NULL) == 0);
    begins_at = NULL;
    while (is_again && atomic_load(&players[0].in_call) && !atomic_load(&is_stopped)) usleep(10);
    goes_on_in_a_fork = is_again;
    if (is_again) fork_beside();
    goes_on_in_a_fork = false;
    unset();
    close_semaphore("0 getvalue = 1");
}

static void trace_release(bool is_new) {
    open_semaphore(is_new);
    set((uint8_t *)aqs_sem_release, true);
    ask(&players[0], SEM_release, 1, 0);
    CHECK(ends(&players[0], LIMIT));
    unset();
    close_semaphore("0 getvalue = 1");
}

static void forks_everywhere(void) {
    char shown[60];
    play_name = "a fork beside a release", play_line = shown;
    count_of_places = 0;
    trace_release(true);
    int first_of_remembered = count_of_places;
    trace_release(false), trace_release(false);
    for (int i = 0; i < count_of_places; i++) {
        bool is_new = i < first_of_remembered;
        if (!is_own(places[i])) continue;
        snprintf(shown, sizeof shown, "stopped at %p", (void *)places[i]);
        play_line = shown;
        fork_at(places[i], is_new);
        play_line = shown;
        if (!is_new || i < BEGINNING) begin_in_a_fork(places[i], is_new, false);
    }
    play_name = "a fork beside a thread that wakes", play_line = shown;
    count_of_places = 0;
    fork_at_wake((uint8_t *)aqs_sem_acquire, true);
    for (int i = 0; i < count_of_places; i++) {
        if (!is_own(places[i])) continue;
        snprintf(shown, sizeof shown, "stopped at %p", (void *)places[i]);
        play_line = shown;
        fork_at_wake(places[i], false);
    }
    play_name = "a fork beside a number", play_line = "at each place";
    count_of_places = 0;
    take_two((uint8_t *)aqs_thread_self, true);
    for (int i = 0; i < count_of_places; i++) {
        if (is_own(places[i])) fork_beside_number(places[i]);
    }
}

static void two_forks_everywhere(void) {
    char shown[60];
    play_name = "a release beside two forks", play_line = shown;
    count_of_places = 0;
    begins_traced = true, begin_in_a_fork((uint8_t *)aqs_sem_release, false, false), begins_traced = false;
    for (int i = 0; i < count_of_places && is_own(places[i]); i++) { /* until the proved library makes its turn */
        snprintf(shown, sizeof shown, "stopped at %p", (void *)places[i]);
        play_line = shown;
        begin_in_a_fork(places[i], false, true);
    }
}

/* Openings --------------------------------------------------------------------------------------------- */

/* A thread that opens a static object is stopped at this place, and another makes its first call of it. */
static void open_by_two(uint8_t *at, bool is_trace) {
    static aqs_sem_t statics[PLACES];
    static int count_of_statics;
    CHECK(count_of_statics < PLACES);
    semaphore = &statics[count_of_statics++];
    *semaphore = (aqs_sem_t)AQS_SEM_INIT(0);
    set(at, is_trace);
    ask(&players[0], SEM_release, 1, 0);
    ends_soon(&players[0], is_trace ? NULL : &is_stopped);
    ask(&players[1], SEM_release, 1, 0);
    ends_soon(&players[1], NULL);
    unset();
    play_lines(SEM, "0 = OK; 1 = OK; 0 getvalue = 2");
    aqs_sem_close(semaphore);
}

static void openings_everywhere(void) {
    char shown[60];
    play_name = "the first call of a static semaphore";
    count_of_places = 0;
    trace_release(true);
    int count_of_others = count_of_places;
    open_by_two((uint8_t *)aqs_sem_release, true);
    CHECK(count_of_places > count_of_others + 50);
    for (int i = count_of_others; i < count_of_places; i++) {
        if (!is_own(places[i])) continue;
        snprintf(shown, sizeof shown, "stopped at %p", (void *)places[i]);
        play_line = shown;
        open_by_two(places[i], false);
    }
}

/* Conditions ------------------------------------------------------------------------------------------- */

/* Whether a place is in aqs_over.c, which the linker puts behind aqs.c. */
static bool is_over(const uint8_t *at) {
    return at >= (uint8_t *)aqs_history_trim && at < (uint8_t *)aqs_barrier_wait;
}

static aqs_lock_t many, one; /* many conditions, and one */

/* A wait on a condition is stopped at this place, and another thread waits on it with another lock, of which it
   gets another number. Afterwards no number of either is in use. */
static void wait_with_two(uint8_t *at, bool is_trace) {
    lock = &many;
    play_lines(LOCK, "0 lock = OK");
    set(at, is_trace);
    ask(&players[0], LOCK_timedawait, 0, 0);
    ends_soon(&players[0], is_trace ? NULL : &is_stopped);
    lock = &one;
    play_lines(LOCK, "1 lock = OK");
    ask(&players[1], LOCK_timedawait, 0, 0);
    if (atomic_load(&is_stopped)) CHECK(ends(&players[1], LIMIT));
    unset();
    for (int i = 0; i < 2; i++) {
        if (!ends(&players[i], LIMIT)) FAIL("thread %d doesn't end", i);
        if (players[i].status != AQS_TIMED_OUT && players[i].status != AQS_MISUSE)
            FAIL("thread %d gets %s", i, aqs_status_name(players[i].status));
    }
    play_lines(LOCK, "1 unlock = OK");
    lock = &many;
    play_lines(LOCK, "0 unlock = OK");
    CHECK(!conds[0].lock_ && !conds[0].first_ && conds[0].waiters_ == 0 && one.object_.users_[0] == 0);
    for (int number = 0; number < AQS_CONDITIONS; number++) CHECK(many.object_.users_[number] == 0);
}

/* A wait on a condition is stopped at this place before it sleeps, and another thread takes the only number of its
   lock. One of them has it. */
static void wait_beside_a_taker(uint8_t *at) {
    uint8_t number;
    lock = &one;
    play_lines(LOCK, "0 lock = OK");
    set(at, false);
    ask(&players[0], LOCK_timedawait, 0, 1000 * LIMIT);
    ends_soon(&players[0], &is_stopped);
    aqs_status_t taken = aqs_object_take_condition(aqs_lock_object(&one), &number);
    unset();
    if (taken != AQS_OK) IS(aqs_cond_signal(&conds[0]), AQS_OK);
    if (!ends(&players[0], LIMIT)) FAIL("it doesn't end");
    IS(players[0].status, taken == AQS_OK ? AQS_NO_SUCH_CONDITION : AQS_OK);
    if (taken == AQS_OK) aqs_object_give_condition(aqs_lock_object(&one), number);
    play_lines(LOCK, "0 unlock = OK");
}

static void conditions_everywhere(void) {
    play_name = "aqs_cond_timedwait";
    count_of_places = 0;
    int count = 0;
    IS(aqs_lock_init(&many, &(aqs_options_t){.threads = 4, .conditions = AQS_CONDITIONS}), AQS_OK);
    IS(aqs_lock_init(&one, &(aqs_options_t){.threads = 4, .conditions = 1}), AQS_OK);
    wait_with_two((uint8_t *)aqs_cond_timedwait, true);
    for (int i = 0; i < count_of_places; i++) {
        if (!is_over(places[i])) continue;
        wait_with_two(places[i], false), wait_beside_a_taker(places[i]), count++;
    }
    CHECK(count > 100);
    aqs_lock_close(&many), aqs_lock_close(&one);
}

int main(void) {
    alarm(590);
    has_own_pages = true;
    start_players();
    prepare();
    numbers_everywhere();
    seats_everywhere();
    forks_everywhere();
    two_forks_everywhere();
    openings_everywhere();
    conditions_everywhere();
    for (size_t i = 0; i < sizeof rows / sizeof rows[0]; i++) stop_everywhere(&rows[i]);
    return good("stops");
}
