/* Counts what a program asks of the system: LD_PRELOAD=counted.so COUNTED=FILE PROGRAM. At its end the file has a line:
 * the blocks of memory that the program took, those that it gave back, its reads, its writes, and its requests for
 * memory, to grow a block among them. What the C library takes for itself isn't counted: it keeps the memory of a
 * thread for the next one. With REFUSED=N the request for memory of that number, from 0 on, is refused; with READ=N or
 * WRITE=N that read or write fails. */
#define _GNU_SOURCE
#include <dlfcn.h>
#include <errno.h>
#include <fcntl.h>
#include <link.h>
#include <stdatomic.h>
#include <stdint.h>
#include <stdio.h>
#include <stdlib.h>
#include <sys/syscall.h>
#include <unistd.h>

extern void *__libc_malloc(size_t), *__libc_calloc(size_t, size_t), *__libc_realloc(void *, size_t);
extern void *__libc_memalign(size_t, size_t);
extern void __libc_free(void *);

static atomic_long taken, given, reads, writes, requests;
static long refused = -1, bad_read = -1, bad_write = -1; /* the numbers of those that fail */
static uintptr_t from, to; /* where the code of the program lies */

static int find_program(struct dl_phdr_info *info, size_t size, void *unused) {
    (void)size, (void)unused;
    for (int i = 0; i < info->dlpi_phnum; i++) {
        if (info->dlpi_phdr[i].p_type != PT_LOAD || !(info->dlpi_phdr[i].p_flags & PF_X)) continue;
        from = info->dlpi_addr + info->dlpi_phdr[i].p_vaddr;
        to = from + info->dlpi_phdr[i].p_memsz;
    }
    return 1; /* the first one is the program */
}

static void read_number(const char *name, long *number) {
    if (getenv(name) != NULL) *number = atol(getenv(name));
}

__attribute__((constructor)) static void begin(void) {
    dl_iterate_phdr(find_program, NULL);
    read_number("REFUSED", &refused);
    read_number("READ", &bad_read);
    read_number("WRITE", &bad_write);
}

#define BY_PROGRAM() ((uintptr_t)__builtin_return_address(0) - from < to - from)
#define IS_REFUSED() (BY_PROGRAM() && atomic_fetch_add(&requests, 1) == refused)
#define TAKEN(made) (made != NULL && BY_PROGRAM() ? (void)atomic_fetch_add(&taken, 1) : (void)0)

void *malloc(size_t size) {
    void *made = IS_REFUSED() ? NULL : __libc_malloc(size);
    TAKEN(made);
    return made;
}

void *calloc(size_t count, size_t size) {
    void *made = IS_REFUSED() ? NULL : __libc_calloc(count, size);
    TAKEN(made);
    return made;
}

void *realloc(void *old, size_t size) {
    void *made = IS_REFUSED() ? NULL : __libc_realloc(old, size);
    if (old == NULL) TAKEN(made);
    return made;
}

void *aligned_alloc(size_t align, size_t size) {
    void *made = IS_REFUSED() ? NULL : __libc_memalign(align, size);
    TAKEN(made);
    return made;
}

int posix_memalign(void **made, size_t align, size_t size) {
    void *block = IS_REFUSED() ? NULL : __libc_memalign(align, size);
    TAKEN(block);
    if (block == NULL) return ENOMEM;
    *made = block;
    return 0;
}

void free(void *block) {
    if (block != NULL && BY_PROGRAM()) atomic_fetch_add(&given, 1);
    __libc_free(block);
}

static ssize_t fail(void) {
    errno = EIO;
    return -1;
}

ssize_t read(int file, void *into, size_t size) {
    if (atomic_fetch_add(&reads, 1) == bad_read) return fail();
    return syscall(SYS_read, file, into, size);
}

ssize_t write(int file, const void *text, size_t size) {
    if (atomic_fetch_add(&writes, 1) == bad_write) return fail();
    return syscall(SYS_write, file, text, size);
}

static void tell(void) {
    const char *name = getenv("COUNTED");
    int file = name == NULL ? -1 : open(name, O_WRONLY | O_CREAT | O_TRUNC, 0600);
    char line[128];
    int size = snprintf(line, sizeof line, "%ld %ld %ld %ld %ld\n", taken, given, reads, writes, requests);
    if (file < 0 || syscall(SYS_write, file, line, size) != size) abort();
    close(file);
}

/* The program ends by this call. */
void _exit(int status) {
    tell();
    for (;;) syscall(SYS_exit_group, status);
}
