/* heap.h: counts the blocks that the library and a test hold, and ends each test that holds any at its end
   with a failure. The linker puts these functions in the place of malloc and the like (see the Makefile). */
#ifndef AQS_TEST_HEAP_H
#define AQS_TEST_HEAP_H

#ifndef _GNU_SOURCE
#define _GNU_SOURCE
#endif

#include <limits.h>
#include <stdatomic.h>
#include <stddef.h>
#include <stdio.h>
#include <string.h>
#include <sys/mman.h>
#include <unistd.h>

#define REAL __attribute__((weak))
REAL void *__real_malloc(size_t size);
REAL void *__real_calloc(size_t count, size_t size);
REAL void *__real_realloc(void *old, size_t size);
REAL void *__real_aligned_alloc(size_t alignment, size_t size);
REAL void __real_free(void *block);

/* How many allocations still succeed, how many were asked for, and how many blocks are held. */
static atomic_long left = LONG_MAX, asked, held;

static _Bool fails(void) {
    atomic_fetch_add(&asked, 1);
    long now = atomic_load(&left);
    if (now == 0) return 1;
    if (now < LONG_MAX) atomic_fetch_sub(&left, 1);
    return 0;
}

static void *counted(void *block) {
    if (block) atomic_fetch_add(&held, 1);
    return block;
}

/* Blocks in pages of their own, which are gone as soon as a block is freed: who still uses it is ended by
   SIGSEGV. The page before a block says how long it is. */
static _Bool has_own_pages;

static void *in_own_pages(size_t size) {
    size_t all = 4096 + (size + 4095) / 4096 * 4096;
    char *pages = mmap(NULL, all, PROT_READ | PROT_WRITE, MAP_PRIVATE | MAP_ANONYMOUS, -1, 0);
    if (pages == MAP_FAILED) return NULL;
    *(size_t *)pages = all;
    return pages + 4096;
}

static void *real_malloc(size_t size) { return has_own_pages ? in_own_pages(size) : __real_malloc(size); }
static void *real_calloc(size_t count, size_t size) {
    return has_own_pages ? in_own_pages(count * size) : __real_calloc(count, size);
}
static void *real_aligned_alloc(size_t alignment, size_t size) {
    return has_own_pages ? in_own_pages(size) : __real_aligned_alloc(alignment, size);
}

static void real_free(void *block) {
    if (!has_own_pages) __real_free(block);
    else if (block) munmap((char *)block - 4096, *(size_t *)((char *)block - 4096));
}

static void *real_realloc(void *old, size_t size) {
    if (!has_own_pages) return __real_realloc(old, size);
    size_t was = *(size_t *)((char *)old - 4096) - 4096;
    void *block = in_own_pages(size);
    if (block) memcpy(block, old, was < size ? was : size), real_free(old);
    return block;
}

void *__wrap_malloc(size_t size) { return fails() ? NULL : counted(real_malloc(size)); }
void *__wrap_calloc(size_t count, size_t size) { return fails() ? NULL : counted(real_calloc(count, size)); }
void *__wrap_aligned_alloc(size_t alignment, size_t size) {
    return fails() ? NULL : counted(real_aligned_alloc(alignment, size));
}
void *__wrap_realloc(void *old, size_t size) {
    if (fails()) return NULL;
    return old ? real_realloc(old, size) : counted(real_malloc(size));
}
void __wrap_free(void *block) {
    if (block) atomic_fetch_sub(&held, 1);
    real_free(block);
}

__attribute__((destructor)) static void nothing_is_held(void) {
    long blocks = atomic_load(&held);
    if (blocks == 0) return;
    fprintf(stderr, "at its end %ld blocks of memory are held\n", blocks);
    _exit(1);
}

#endif
