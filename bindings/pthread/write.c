/* write.c: the files of a recorded process: a history for each object, and an index, the busiest first. They
   are written when it exits, on SIGUSR2, and now and then by a helper thread, so that a process that is
   killed leaves what was written last. A file is written beside its place and then renamed. */
#include "record.h"

#include <dlfcn.h>
#include <errno.h>
#include <fcntl.h>
#include <limits.h>
#include <signal.h>
#include <stdarg.h>
#include <stdio.h>
#include <stdlib.h>
#include <string.h>
#include <sys/stat.h>
#include <unistd.h>

static char top[PATH_MAX], folder[PATH_MAX + 64], program[PATH_MAX];
static pid_t process;
static atomic_uint write_lock, asked, must_write, has_helper, has_complained, main_has_left;
static uint32_t every = 1;
static struct stat errors_at_start;
static bytes_t gone, gone_buckets; /* the lines of objects that are gone */

const char *const kind_names[KINDS] = {"mutex", "rwlock", "semaphore"};

/* The folder --------------------------------------------------------------------------------------------- */

/* Whether standard error is still what it was at the start, and not another file of the program. */
static bool has_errors(void) {
    struct stat now;
    return fstat(2, &now) == 0 && now.st_dev == errors_at_start.st_dev && now.st_ino == errors_at_start.st_ino;
}

static void complain(const char *what, const char *path) {
    int error = errno;
    if (!has_errors() || atomic_exchange(&has_complained, 1)) return;
    errno = error;
    dprintf(2, "aqs: %s %s: %m\n", what, path);
}

static bool make_folders(char *path) {
    for (char *at = strchr(path + 1, '/'); at; at = strchr(at + 1, '/')) {
        *at = 0;
        mkdir(path, 0777);
        *at = '/';
    }
    return mkdir(path, 0777) == 0 || errno == EEXIST;
}

/* A folder for this process: NAME.PID, or NAME.PID.2 if a program before it had the same number. */
static bool has_folder(void) {
    if (folder[0]) return true;
    if (!make_folders(top)) {
        complain("can't make", top);
        return false;
    }
    for (unsigned nth = 1; nth < 10000; nth++) {
        const char *name = program_invocation_short_name;
        int size = snprintf(folder, sizeof folder, "%s/%.40s.%d", top, name, (int)process);
        if (nth > 1) snprintf(folder + size, sizeof folder - (size_t)size, ".%u", nth);
        if (mkdir(folder, 0777) == 0) return true;
        if (errno != EEXIST) break;
    }
    complain("can't make", folder);
    folder[0] = 0;
    return false;
}

static bool write_bytes(int file, const char *at, size_t size) {
    while (size) {
        ssize_t written = write(file, at, size);
        if (written < 0 && errno == EINTR) continue;
        if (written <= 0) return false;
        at += written, size -= (size_t)written;
    }
    return true;
}

bool write_file(const char *name, const bytes_t *text) {
    char path[PATH_MAX + 400], beside[PATH_MAX + 400];
    snprintf(path, sizeof path, "%s/%s", folder, name);
    snprintf(beside, sizeof beside, "%s/.new", folder);
    int file = open(beside, O_WRONLY | O_CREAT | O_TRUNC | O_CLOEXEC, 0666);
    bool is_good = file >= 0 && write_bytes(file, text->at, text->size);
    if (file >= 0) close(file);
    if (!is_good || rename(beside, path) != 0) {
        complain("can't write", path);
        return false;
    }
    return true;
}

/* Places ------------------------------------------------------------------------------------------------- */

/* The call before a return address: the module and the offset in it, and the function if it has a name. */
void name_place(void *place, char *module, char *function, size_t room) {
    Dl_info info;
    char *at = (char *)place - 1;
    function[0] = 0;
    snprintf(module, room, "%p", place);
    if (!place || !dladdr(at, &info) || !info.dli_fname) return;
    const char *file = info.dli_fname[0] == '/' || !program[0] ? info.dli_fname : program;
    snprintf(module, room, "%.500s+0x%zx", file, (size_t)(at - (char *)info.dli_fbase));
    if (info.dli_sname)
        snprintf(function, room, "%s+0x%zx", info.dli_sname, (size_t)(at - (char *)info.dli_saddr));
}

/* 12-mutex-worker_start+0x34.history: what is no letter or digit becomes a line. */
void name_file(const line_t *line, char *name, size_t room) {
    char module[NAME_ROOM], function[NAME_ROOM];
    name_place(line->place, module, function, sizeof module);
    const char *slash = strrchr(module, '/'), *shown = function[0] ? function : slash ? slash + 1 : module;
    size_t size = (size_t)snprintf(name, room, "%u-%s-%.80s", line->serial, kind_names[line->kind], shown);
    for (size_t i = 0; i < size; i++) {
        int letter = name[i] | 32;
        bool is_plain = (name[i] >= '0' && name[i] <= '9') || (letter >= 'a' && letter <= 'z');
        if (!is_plain && !strchr("+._-", name[i])) name[i] = '_';
    }
    snprintf(name + size, room - size, ".history");
}

/* The index ---------------------------------------------------------------------------------------------- */

bool say(bytes_t *out, const char *form, ...) {
    char text[2 * NAME_ROOM + 400];
    va_list list;
    va_start(list, form);
    int size = vsnprintf(text, sizeof text, form, list);
    va_end(list);
    return append(out, text, size < (int)sizeof text ? (size_t)size : sizeof text - 1);
}

static bool comes_before(const line_t *a, const line_t *b) {
    return a->entries != b->entries ? a->entries > b->entries : a->serial < b->serial;
}

typedef bool order_t(const line_t *, const line_t *);

/* Puts the line of a heap where it belongs. */
static void sift(line_t *lines, size_t at, size_t count, order_t *is_before) {
    for (size_t child; (child = 2 * at + 1) < count; at = child) {
        if (child + 1 < count && is_before(&lines[child], &lines[child + 1])) child++;
        if (!is_before(&lines[at], &lines[child])) return;
        line_t kept = lines[at];
        lines[at] = lines[child], lines[child] = kept;
    }
}

/* qsort may call malloc. */
void sort_lines(line_t *lines, size_t count, order_t *is_before) {
    for (size_t i = count / 2; i-- > 0;) sift(lines, i, count, is_before);
    for (size_t left = count; left-- > 1;) {
        line_t kept = lines[0];
        lines[0] = lines[left], lines[left] = kept;
        sift(lines, 0, left, is_before);
    }
}

static double milliseconds(uint64_t time) { return (double)time / 1e6; }

static void say_line(bytes_t *out, const line_t *line) {
    char name[NAME_ROOM], module[NAME_ROOM], function[NAME_ROOM];
    name_file(line, name, sizeof name);
    name_place(line->place, module, function, sizeof module);
    say(out, "%10llu %10llu %8llu %11.3f %8llu %11.3f  %-9s %p  %s  %s%s%s\n",
        (unsigned long long)line->entries, (unsigned long long)line->kept, (unsigned long long)line->waits.count,
        milliseconds(line->waits.sum), (unsigned long long)line->sleeps, milliseconds(line->slept),
        kind_names[line->kind], line->address, name, module, function[0] ? " " : "", function);
}

static void say_place(place_t *place, void *out) {
    char module[NAME_ROOM], function[NAME_ROOM];
    const line_t *sums = &place->sums.gone;
    if (!sums->gone) return;
    name_place(place->address, module, function, sizeof module);
    say(out,
        "%10llu %10s %8llu %11.3f %8llu %11.3f  %-9s and %llu more of this place, which are gone  %s%s%s\n",
        (unsigned long long)sums->entries, "-", (unsigned long long)sums->waits.count, milliseconds(sums->waits.sum),
        (unsigned long long)sums->sleeps, milliseconds(sums->slept), kind_names[place->kind],
        (unsigned long long)sums->gone, module, function[0] ? " " : "", function);
}

static void write_index(bytes_t *lines) {
    bytes_t out = {NULL, 0, 0};
    size_t count = lines->size / sizeof(line_t);
    sort_lines((line_t *)lines->at, count, comes_before);
    say(&out, "program %s, process %d: %zu objects\n", program_invocation_name, (int)process, count);
    say(&out, "%10s %10s %8s %11s %8s %11s  %-9s %s\n", "entries", "kept", "waits", "waited ms",
        "sleeps", "slept ms", "kind", "address, file, place of the first call");
    for (size_t i = 0; i < count; i++) say_line(&out, (line_t *)lines->at + i);
    for_each_place(say_place, &out);
    write_file("index", &out);
    heap_give(out.at);
}

/* Objects ------------------------------------------------------------------------------------------------ */

static line_t line_of(const object_t *object, writing_t *writing) {
    line_t line = {
        .entries = object->entries, .kept = object->kept, .calls = object->calls,
        .threads = object->threads, .sleeps = object->sleeps, .slept = object->slept,
        .address = object->address, .place = object->place->address, .serial = object->serial,
        .kind = object->kind,
    };
    add_times(object, &writing->waits, &line, &writing->buckets);
    add_holders(object, &writing->waits, &writing->holders);
    return line;
}

/* Takes the text of an object that changed. False: another thread is alone in it. */
static bool take_text(thread_t *me, object_t *object, writing_t *writing) {
    uint64_t entries = entries_of(object);
    if (!compose(object, me, &writing->text)) return false;
    object->written_entries = entries;
    if (writing->text.size) names_of(object, &writing->names);
    return true;
}

/* Writes the text that was taken, and names beside it. The thread is in no object: files and the dynamic linker's lock
   may take long. */
static void write_text(void *with) {
    writing_t *writing = with;
    if (writing->text.size) {
        char name[NAME_ROOM];
        name_file(&writing->line, name, sizeof name);
        if (has_folder() && write_file(name, &writing->text)) writing->is_changed = true;
        strcpy(strrchr(name, '.'), ".names");
        if (writing->names.size && folder[0]) write_file(name, &writing->names);
    }
    heap_give(writing->text.at);
    writing->text = (bytes_t){NULL, 0, 0};
    writing->names.size = 0;
}

static bool look(thread_t *me, object_t *object, void *with) {
    writing_t *writing = with;
    if (object->born != epoch_of_now()) return true;
    if (entries_of(object) != object->written_entries && !take_text(me, object, writing)) return false;
    if (!object->entries) return true;
    writing->line = line_of(object, writing);
    append(&writing->lines, (const char *)&writing->line, sizeof writing->line);
    return true;
}

static void write_dead(thread_t *me, writing_t *writing) {
    for (;;) {
        lock_table(me);
        object_t *object = dead_objects;
        if (object) dead_objects = object->next;
        unlock_table(me);
        if (!object) return;
        enter_elsewhere(me);
        take_text(me, object, writing);
        writing->line = line_of(object, writing);
        append(&gone, (const char *)&writing->line, sizeof writing->line);
        if (writing->buckets.size) append(&gone_buckets, writing->buckets.at, writing->buckets.size);
        writing->buckets.size = 0;
        writing->is_changed = true;
        free_object(object);
        leave(me);
        write_text(writing);
    }
}

/* What is gone, and who waits, before all objects are looked at. */
static void begin_writing(thread_t *me, writing_t *writing) {
    write_dead(me, writing);
    name_threads();
    enter_elsewhere(me);
    if (gone.size) append(&writing->lines, gone.at, gone.size);
    if (gone_buckets.size) append(&writing->buckets, gone_buckets.at, gone_buckets.size);
    waits_now(&writing->waits);
    leave(me);
}

static void end_writing(writing_t *writing) {
    heap_give(writing->lines.at);
    heap_give(writing->waits.at);
    heap_give(writing->holders.at);
    heap_give(writing->buckets.at);
    heap_give(writing->names.at);
}

static void write_changes(thread_t *me) {
    static unsigned counted;
    writing_t writing = {0};
    while (!spin_try(&write_lock)) sched_yield();
    unsigned now = only_counted; /* more may go meanwhile */
    begin_writing(me, &writing);
    for_each_object(me, look, write_text, &writing);
    bool is_due = atomic_exchange(&must_write, 0) || counted != now || is_timed || writing.waits.size;
    if (writing.is_changed || (folder[0] && is_due)) {
        write_index(&writing.lines);
        write_times(&writing);
    }
    counted = now;
    end_writing(&writing);
    spin_unlock(&write_lock);
}

/* The signal that ends the process once all is written. */
static atomic_int end_signal;

static void end_by_signal(int number) {
    sigset_t ours;
    sigemptyset(&ours);
    sigaddset(&ours, number);
    signal(number, SIG_DFL);
    pthread_sigmask(SIG_UNBLOCK, &ours, NULL);
    kill(getpid(), number);
}

/* Writes what changed since the last time. Meanwhile the thread isn't cancelled, and what its signal handlers ask for
   waits. */
void write_all(thread_t *me) {
    int state, kept = errno;
    me->busy++;
    pthread_setcancelstate(PTHREAD_CANCEL_DISABLE, &state);
    write_changes(me);
    if (end_signal) end_by_signal(end_signal);
    pthread_setcancelstate(state, NULL);
    me->busy--;
    errno = kept;
}

/* The helper --------------------------------------------------------------------------------------------- */

/* Whether the main thread has ended. It is listed as a thread until the process ends. */
static bool main_has_ended(void) {
    char text[400];
    int file = open("/proc/self/stat", O_RDONLY | O_CLOEXEC);
    ssize_t size = file < 0 ? -1 : read(file, text, sizeof text - 1);
    if (file >= 0) close(file);
    text[size > 0 ? size : 0] = 0;
    const char *name_end = strrchr(text, ')');
    return name_end && strncmp(name_end, ") Z", 3) == 0;
}

/* Whether the main thread has left, and the helper alone runs: then the process is over. */
static bool is_last(void) {
    struct stat tasks;
    bool has_two = main_has_left && stat("/proc/self/task", &tasks) == 0 && tasks.st_nlink == 2 + 2;
    return has_two && main_has_ended();
}

enum { SECOND = 1000000000, SHORT_TIME = 20000000, FIRST_LOOK = 100000000 };

static struct timespec moment_of(uint64_t time) {
    return (struct timespec){(time_t)(time / SECOND), (long)(time % SECOND)};
}

/* Whether a thread waits for a lock or a permit. Threads that sleep on conditions often do so all the time. */
static bool waits_for_lock(thread_t *me) {
    bytes_t waits = {NULL, 0, 0};
    bool is_found = false;
    enter_elsewhere(me);
    waits_now(&waits);
    for (size_t i = 0; i < waits.size / sizeof(wait_of_t); i++)
        is_found |= ((const wait_of_t *)waits.at)[i].what != SLEEP;
    heap_give(waits.at);
    leave(me);
    return is_found;
}

/* The first look is soon, for a program that hangs at its beginning. */
static void *help(void *nothing) {
    become_helper();
    thread_t *me = self();
    uint64_t start = nanoseconds(), next = start + (every ? FIRST_LOOK : 0);
    bool is_first = every > 0;
    while (!is_last()) {
        struct timespec moment = moment_of(main_has_left ? nanoseconds() + SHORT_TIME : next);
        bool is_endless = !every && !main_has_left;
        sleep_while(&asked, 0, (deadline_t){is_endless ? NULL : &moment, CLOCK_MONOTONIC}, NO_END);
        bool is_time = every && nanoseconds() >= next, is_asked = atomic_exchange(&asked, 0);
        if (!is_asked && !is_time) continue;
        uint64_t from = nanoseconds();
        if (is_asked || !is_first || waits_for_lock(me)) write_all(me);
        next = is_first ? start + every * (uint64_t)SECOND : 0;
        is_first = is_first && is_asked;
        if (!is_first && nanoseconds() >= next)
            next = nanoseconds() + every * (uint64_t)SECOND + 9 * (nanoseconds() - from);
    }
    exit(0);
    return nothing;
}

/* A thread is about to wait, perhaps for good, and there is no helper that would write meanwhile. */
void write_before_wait(thread_t *me) {
    static _Atomic uint64_t next;
    uint64_t now;
    if (has_helper || !every || !is_recording || (now = nanoseconds()) < next) return;
    next = now + every * (uint64_t)SECOND;
    write_all(me);
}

/* The main thread ends before others. When they have ended, the helper ends the process. */
void main_leaves(void) {
    atomic_store(&main_has_left, 1);
    atomic_store(&asked, 1);
    wake_word(&asked, 1);
}

/* Called where the program itself makes a thread: then memory may be taken and no lock of its allocator is
   held. */
static void start_helper(void) {
    sigset_t all, old;
    pthread_attr_t attributes;
    pthread_t helper;
    if (!spin_try(&has_helper)) return;
    sigfillset(&all);
    pthread_sigmask(SIG_BLOCK, &all, &old);
    pthread_attr_init(&attributes);
    pthread_attr_setdetachstate(&attributes, PTHREAD_CREATE_DETACHED);
    pthread_attr_setstacksize(&attributes, 256 * 1024);
    if (REAL(pthread_create, &helper, &attributes, help, NULL) != 0) atomic_store(&has_helper, 0);
    pthread_attr_destroy(&attributes);
    pthread_sigmask(SIG_SETMASK, &old, NULL);
}

SHOWN int
pthread_create(pthread_t *thread, const pthread_attr_t *attributes, void *(*run)(void *), void *argument) {
    if (is_recording) {
        self();
        start_helper();
    }
    return REAL(pthread_create, thread, attributes, run, argument);
}

/* Without a helper the next call of the thread writes. */
bool is_write_asked(void) { return !has_helper && atomic_load(&asked); }
bool takes_ask(void) { return is_write_asked() && atomic_exchange(&asked, 0); }

/* A thread that sleeps in the recorder can write at once. */
static void ask(int number) {
    thread_t *me = self_;
    (void)number;
    atomic_store(&must_write, 1);
    atomic_store(&asked, 1);
    wake_word(&asked, 1);
    if (!me) return;
    me->has_posts = 1;
    if (me->is_asleep && !me->busy) run_posts(me);
}

/* SIGTERM, for which the program has no handler. The helper writes, or this thread does as soon as it isn't busy. A child
   of vfork ends alone: our memory is its parent's. */
static void write_and_end(int number) {
    if (getpid() != process) {
        end_by_signal(number);
        return;
    }
    end_signal = number;
    ask(number);
    if (!has_helper && !self()->busy) write_all(self());
}

/* In the child of a fork: it has no helper, and a folder of its own. */
void forget_files(void) {
    folder[0] = 0;
    process = getpid();
    gone.size = gone_buckets.size = 0;
    forget_waits();
    atomic_store(&write_lock, 0);
    atomic_store(&has_helper, 0);
    atomic_store(&main_has_left, 0);
    atomic_store(&asked, 0);
    end_signal = 0;
    forget_objects();
}

/* Begin and end ------------------------------------------------------------------------------------------ */

static uint32_t number_of(const char *name, uint32_t least, uint32_t otherwise) {
    const char *text = getenv(name);
    unsigned long long number = text ? strtoull(text, NULL, 10) : 0;
    if (!text || !*text) return otherwise;
    return number < least ? least : number > UINT32_MAX / 2 ? UINT32_MAX / 2 : (uint32_t)number;
}

static void find_top(const char *where) {
    size_t size = 0;
    if (where[0] != '/' && getcwd(top, sizeof top - 1)) size = strlen(top);
    snprintf(top + size, sizeof top - size, "%s%s", size ? "/" : "", where);
    for (size = strlen(top); size > 1 && top[size - 1] == '/'; size--) top[size - 1] = 0;
}

static void watch_signal(int number, void (*handler)(int)) {
    struct sigaction old, ours = {.sa_handler = handler, .sa_flags = SA_RESTART};
    if (sigaction(number, NULL, &old) == 0 && old.sa_handler == SIG_DFL) sigaction(number, &ours, NULL);
}

__attribute__((constructor(101))) static void begin_recording(void) {
    const char *where = getenv("AQS_RECORD");
    if (!where || !*where) return;
    find_top(where);
    keep = number_of("AQS_KEEP", 64, keep);
    every = number_of("AQS_EVERY", 0, every);
    is_timed = number_of("AQS_TIMES", 0, 0);
    process = getpid();
    if (readlink("/proc/self/exe", program, sizeof program - 1) < 0) program[0] = 0;
    fstat(2, &errors_at_start);
    watch_threads();
    if (is_timed) begin_timing();
    watch_forks();
    watch_signal(SIGUSR2, ask);
    watch_signal(SIGTERM, write_and_end);
    is_recording = true;
}

static const char *const left_names[LEFT_KINDS] = {
    "robust mutexes", "objects shared among processes", "mutexes with priority protocols", "named semaphores",
    "barriers", "spinlocks", "locks of C11",
};

static void tell_left_out(void) {
    char line[500];
    size_t size = (size_t)snprintf(line, sizeof line, "aqs: not recorded, left to glibc:");
    bool is_some = false;
    for (unsigned i = 0; i < LEFT_KINDS; i++) {
        if (!left_out[i]) continue;
        size += (size_t)snprintf(
            line + size, sizeof line - size, "%s %u %s", is_some ? "," : "", left_out[i], left_names[i]);
        is_some = true;
    }
    if (is_some && has_errors()) dprintf(2, "%s\n", line);
}

static void finish(void) {
    static atomic_uint is_finished;
    int state;
    if (!is_recording || getpid() != process || self()->busy) return;
    pthread_setcancelstate(PTHREAD_CANCEL_DISABLE, &state);
    write_all(self());
    if (!atomic_exchange(&is_finished, 1)) tell_left_out();
    pthread_setcancelstate(state, NULL);
}

__attribute__((destructor(101))) static void end_recording(void) { finish(); }

SHOWN __attribute__((noreturn)) void _exit(int status) {
    finish();
    REAL(_exit, status);
    __builtin_unreachable();
}

SHOWN __attribute__((noreturn)) void _Exit(int status) { _exit(status); }
