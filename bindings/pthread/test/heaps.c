/* heap.c alone. The system gives memory while it is asked for no more than `left` pieces. */
#include "check.h"

#include <stdbool.h>
#include <stdint.h>
#include <sys/mman.h>

static int left = 1000000, mapped;
static void *map_some(void *at, size_t size, int prot, int flags, int file, off_t from) {
    if (left == 0) return MAP_FAILED;
    left--, mapped++;
    return mmap(at, size, prot, flags, file, from);
}
static int unmap(void *at, size_t size) {
    mapped--;
    return munmap(at, size);
}
#define mmap map_some
#define munmap unmap
#include "../heap.c"

enum { SIZES = 1100, LARGEST = 70000 };
static unsigned char *blocks[SIZES];

static size_t size_of(int nth) { return nth < 1000 ? (size_t)nth + 1 : (size_t)nth * 61 + 7; }

static bool is_filled(const unsigned char *at, size_t size, int with) {
    for (size_t i = 0; i < size; i++)
        if (at[i] != (unsigned char)with) return false;
    return true;
}

/* Each block has its size, aligned, and none touches another. All are counted. */
static void take_all(void) {
    for (int i = 0; i < SIZES; i++) {
        blocks[i] = i % 2 ? heap_take(size_of(i)) : heap_take_zeroed(size_of(i));
        CHECK(blocks[i] && (uintptr_t)blocks[i] % 16 == 0);
        CHECK(i % 2 || is_filled(blocks[i], size_of(i), 0));
        memset(blocks[i], i, size_of(i));
    }
    size_t all = 0;
    for (int i = 0; i < SIZES; i++) all += size_of(i);
    CHECK(heap_in_use() >= all + SIZES * HEAD && heap_in_use() < all + all / 3 + SIZES * 2 * HEAD);
    for (int i = 0; i < SIZES; i++) CHECK(is_filled(blocks[i], size_of(i), i));
}

static void give_all(void) {
    for (int i = 0; i < SIZES; i++) heap_give(blocks[i]);
    CHECK(heap_in_use() == 0);
}

/* What was given is taken again, and large blocks go back to the system. */
static void blocks_are_used_again(void) {
    take_all();
    give_all();
    int before = mapped;
    for (int i = 0; i < 3; i++) {
        take_all();
        give_all();
    }
    CHECK(mapped == before);
}

/* A block that grows keeps what it has. One that needn't stays where it is. */
static void blocks_grow(void) {
    unsigned char *at = heap_take(1), *small = at;
    CHECK(heap_resize(at, 16) == at);
    memset(at, 5, 16);
    for (size_t size = 16; size < LARGEST; size = size * 2 + 1) {
        at = heap_resize(at, size);
        CHECK(at && is_filled(at, 16, 5));
    }
    CHECK(at != small && heap_take(16) == small);
    heap_give(at), heap_give(small), heap_give(NULL);
    CHECK(heap_in_use() == 0);
}

/* If the system gives no more, what is there is given still, and no block is lost. */
static void memory_lacks(void) {
    unsigned char *at = heap_take(100);
    memset(at, 6, 100);
    left = 0;
    while (heap_take(LARGE)) continue;
    size_t before = heap_in_use();
    CHECK(!heap_take(LARGE) && !heap_take(LARGEST) && !heap_take_zeroed(LARGEST) && !heap_resize(at, LARGEST));
    taken_t lacks = rattle_alloc(LARGEST, 1), same = rattle_realloc(at, 100, LARGEST, 1);
    CHECK(!lacks.is_there && lacks.at && !same.is_there && is_filled(at, 100, 6));
    CHECK(heap_in_use() == before);
    rattle_dealloc(at);
    CHECK(rattle_alloc(0, 100).at == at && rattle_realloc(at, 100, 0, 112).at == at);
}

int main(void) {
    blocks_are_used_again();
    blocks_grow();
    memory_lacks();
    puts("heaps: good");
    return 0;
}
