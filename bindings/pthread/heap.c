/* heap.c: the recorder's own memory. The proved code and the recorder take theirs from here, and never from
   malloc: so a lock call neither calls nor waits for the program's allocator, which may itself lock a
   mutex. */
#include "record.h"

#include <string.h>
#include <sys/mman.h>

enum { CLASSES = 40, CHUNK = 1 << 20, LARGE = 1 << 15, HEAD = 16 };

/* Before each block: its class, or CLASSES and its size if it is mapped for itself. */
typedef struct block {
    size_t class;
    size_t size;
    struct block *next;
} block_t;

static atomic_uint heap_lock;
static block_t *free_blocks[CLASSES];
static char *chunk;
static size_t chunk_left;
static _Atomic size_t heap_used;

/* Sizes rise by a quarter or less: 16, 32, 48, 64, 80, 96, 112, 128, 160, 192, .. */
static size_t size_of_class(size_t class) {
    if (class < 4) return 16 * (class + 1);
    return (size_t)(4 + class % 4 + 1) << (class / 4 + 3);
}

static size_t class_of(size_t size) {
    size_t class = 0;
    while (size_of_class(class) < size) class++;
    return class;
}

static void *map(size_t size) {
    void *at = mmap(NULL, size, PROT_READ | PROT_WRITE, MAP_PRIVATE | MAP_ANONYMOUS, -1, 0);
    return at == MAP_FAILED ? NULL : at;
}

static block_t *new_block(size_t size) {
    if (chunk_left < size + HEAD) {
        char *fresh = map(CHUNK);
        if (!fresh) return NULL;
        chunk = fresh, chunk_left = CHUNK;
    }
    block_t *block = (block_t *)chunk;
    chunk += size + HEAD, chunk_left -= size + HEAD;
    return block;
}

static block_t *take_block(size_t class) {
    spin_lock(&heap_lock);
    block_t *block = free_blocks[class];
    if (block) free_blocks[class] = block->next;
    else block = new_block(size_of_class(class));
    spin_unlock(&heap_lock);
    return block;
}

static block_t *map_block(size_t size) {
    block_t *block = map(size + HEAD);
    if (block) block->size = size;
    return block;
}

void *heap_take(size_t size) {
    size_t class = size <= LARGE ? class_of(size) : CLASSES;
    block_t *block = class < CLASSES ? take_block(class) : map_block(size);
    if (!block) return NULL;
    block->class = class;
    if (class < CLASSES) block->size = size_of_class(class);
    heap_used += block->size + HEAD;
    return (char *)block + HEAD;
}

void *heap_take_zeroed(size_t size) {
    void *at = heap_take(size);
    return at ? memset(at, 0, size) : NULL;
}

void heap_give(void *at) {
    if (!at) return;
    block_t *block = (block_t *)((char *)at - HEAD);
    heap_used -= block->size + HEAD;
    if (block->class == CLASSES) {
        munmap(block, block->size + HEAD);
        return;
    }
    spin_lock(&heap_lock);
    block->next = free_blocks[block->class];
    free_blocks[block->class] = block;
    spin_unlock(&heap_lock);
}

void *heap_resize(void *at, size_t size) {
    block_t *block = (block_t *)((char *)at - HEAD);
    if (size <= block->size) return at;
    void *fresh = heap_take(size);
    if (!fresh) return NULL;
    memcpy(fresh, at, block->size);
    heap_give(at);
    return fresh;
}

size_t heap_in_use(void) { return heap_used; }
void heap_lock_for_fork(void) { spin_lock(&heap_lock); }
void heap_unlock_for_fork(void) { spin_unlock(&heap_lock); }

/* What the proved code calls. An answer says whether there was memory, and where. A size of 0 takes
   `least`. */
typedef struct {
    uint64_t is_there;
    void *at;
} taken_t;

static taken_t taken(void *at) {
    static char nothing;
    return at ? (taken_t){1, at} : (taken_t){0, &nothing};
}

taken_t rattle_alloc(size_t size, size_t least);
taken_t rattle_realloc(void *at, size_t old, size_t size, size_t least);
void rattle_dealloc(void *at);

taken_t rattle_alloc(size_t size, size_t least) { return taken(heap_take(size ? size : least)); }
taken_t rattle_realloc(void *at, size_t old, size_t size, size_t least) {
    (void)old;
    return taken(heap_resize(at, size ? size : least));
}
void rattle_dealloc(void *at) { heap_give(at); }
