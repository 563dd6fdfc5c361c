/* What text.c makes of texts, without a program that is recorded. */
#include "../text.c"
#include "check.h"

/* It calls these elsewhere. One request for memory fails, that of the number `fails`. */
enum { ENTRIES = 700 };
uint32_t keep = 2 * ENTRIES;
static int requests, fails = -1, blocks;
static bool is_granted(void) { return requests++ != fails; }
void *heap_take(size_t size) { return is_granted() ? (blocks++, malloc(size)) : NULL; }
void *heap_resize(void *at, size_t size) { return is_granted() ? realloc(at, size) : NULL; }
void heap_give(void *at) {
    blocks -= at != NULL;
    free(at);
}
uint64_t epoch_of_now(void) { return 0; }
seat_t *claim_own(object_t *object, thread_t *me) { return (void)me, &object->core->seats[0]; }

/* What the core has to tell, or NULL. Before that others use it. */
static const char *of_core;
static int busy;
uint8_t aqs_text_now(aqs_pass_t *pass, uint8_t *out, size_t size, uint64_t *length) {
    (void)pass;
    if (busy > 0) return busy--, AQS_IS_BUSY;
    if (!of_core) return AQS_IS_FAULT;
    *length = strlen(of_core);
    if (*length <= size) memcpy(out, of_core, *length);
    return AQS_IS_ENTRY;
}

static bytes_t bytes_of(char *text) { return (bytes_t){text, strlen(text), 0}; }

static void is_text(const bytes_t *text, const char *wanted) {
    CHECK(text->size == strlen(wanted) && memcmp(text->at, wanted, text->size) == 0);
}

/* In some minutes a program makes more entries of an object than 32 bits count. Its history is written as it was. */
static void more_entries_than_32_bits_count(void) {
    static char whole[400] =
        "aqs-history 2 lock nonfair seats 1 conditions 1 cap 72\nbase 4294967294\nseat 0 calls 4294967294 x 0 s 0\n"
        "4294967294 0 got x 1\n4294967295 0 gave x 1\n4294967296 0 got x 1\n4294967297 0 gave x 1\n"
        "end 4294967298 4294967298\n";
    bytes_t text = bytes_of(whole), out = {0};
    history_t history = {0};
    CHECK(add_text(&history, &text, 0, 0) && write_history(&history, &out));
    is_text(&out, whole);
}

/* An archive of two entries on a base, and a core with more seats, conditions and entries, of which the first is told
   again. Its text is longer than was thought, and others use the core meanwhile. */
#define WIDE(version) "aqs-history " version " lock nonfair seats 3 conditions 4 cap 9000\n"
static char first[] =
    "aqs-history 2 lock nonfair seats 1 conditions 1 cap 72\nbase 5\nseat 0 calls 5 x 0 s 0\n"
    "5 0 got x 1\n6 0 gave x 1\nend 7 6\n";
static char second[20000], both[20000];
static object_t object;

static void write_texts(void) {
    int size = sprintf(second, WIDE("1"));
    int all = sprintf(
        both, WIDE("2") "base 5\nseat 0 calls 5 x 0 s 0\nseat 1 calls 0 x 0 s 0\nseat 2 calls 0 x 0 s 0\n"
                        "5 0 got x 1\n6 0 gave x 1\n");
    for (int i = 0; i < ENTRIES; i++) {
        size += sprintf(second + size, "%d 2 got x 1\n", i);
        if (i) all += sprintf(both + all, "%d 2 got x 1\n", i + 6);
    }
    sprintf(second + size, "end %d %d\n", ENTRIES, ENTRIES);
    sprintf(both + all, "end %d %d\n", ENTRIES + 6, ENTRIES + 5);
}

static bool is_composed(bytes_t *out) {
    *out = (bytes_t){0};
    requests = 0, busy = 3;
    CHECK(compose(&object, NULL, out) && object.core->seats[0].user == 0);
    return out->size > 0;
}

/* It is whole, or nothing if a request for memory fails. Nothing else is left. */
static void texts_that_follow_each_other(void) {
    bytes_t text = bytes_of(first), out;
    write_texts();
    of_core = second;
    object.core = calloc(1, sizeof(core_t) + 2 * sizeof(seat_t));
    object.core->count = 2, object.core->replayed = 1, object.core->replayed_ends = 1;
    CHECK(add_to_archive(&object, &text, 0, 0) && is_composed(&out));
    is_text(&out, both);
    CHECK(object.entries == ENTRIES + 1 && object.kept == ENTRIES + 1); /* who folds counts what is folded */
    heap_give(out.at);
    int all = requests, before = blocks;
    for (fails = 0; fails < all; fails++) {
        CHECK(!is_composed(&out));
        heap_give(out.at);
        CHECK(blocks == before);
    }
    of_core = NULL, fails = -1;
    CHECK(!is_composed(&out) && blocks == before);
}

/* A later core may be smaller. */
static void headers(void) {
    bytes_t wide = bytes_of(second);
    static char narrow[] = "aqs-history 1 lock nonfair seats 1 conditions 1 cap 72\n0 0 got x 1\nend 1 1\n";
    bytes_t text = bytes_of(narrow);
    history_t history = {0};
    CHECK(add_text(&history, &wide, 0, 0) && add_text(&history, &text, 0, 0));
    CHECK(history.seats == 3 && history.conditions == 4 && history.cap == 9000);
    free_history(&history);
}

/* An archive that is longer than half of what is kept begins anew, and one for which memory lacks is empty. */
static void archives(void) {
    bytes_t text = bytes_of(second);
    free_history(&object.archive);
    for (unsigned i = 1; i <= 2; i++)
        CHECK(add_to_archive(&object, &text, 0, 0) && object.archive.count == i * ENTRIES && object.dropped == 0);
    CHECK(add_to_archive(&object, &text, 0, 0) && object.archive.count == ENTRIES && object.dropped == 2 * ENTRIES);
    free_history(&object.archive);
    requests = 0, fails = 1;
    CHECK(!add_to_archive(&object, &text, 0, 0));
    CHECK(!object.archive.is_there && object.archive.count == 0 && object.archive.lines.size == 0);
}

int main(void) {
    more_entries_than_32_bits_count();
    texts_that_follow_each_other();
    headers();
    archives();
    puts("texts: good");
    return 0;
}
