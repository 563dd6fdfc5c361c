/* report.c: the file `times` beside the index, for `aqs-record --report`: what the waits and holds of each object came
   to, the longest waits, who waits for whom now, and the circles of those who do. One fact is one line, whose words
   are parted by tabs. What is not known is a `-`. */
#include "record.h"

#include <errno.h>
#include <stdio.h>
#include <string.h>
#include <unistd.h>

typedef unsigned long long number_t;

/* Objects ------------------------------------------------------------------------------------------------ */

static void say_place(bytes_t *out, void *place) {
    char module[NAME_ROOM], function[NAME_ROOM];
    name_place(place, module, function, sizeof module);
    say(out, "\t%s\t%s\n", module, function[0] ? function : "-");
}

static void say_sums(bytes_t *out, const sum_t *waits, const sum_t *holds, uint64_t threads) {
    say(out, "\t%llu\t%llu\t%llu\t%llu\t%llu\t%llu\t%d", (number_t)waits->count, (number_t)waits->sum,
        (number_t)waits->longest, (number_t)holds->count, (number_t)holds->sum, (number_t)holds->longest,
        __builtin_popcountll(threads));
}

static void say_object(bytes_t *out, const line_t *line) {
    char file[NAME_ROOM] = "-", address[40] = "-";
    if (!line->gone) {
        name_file(line, file, sizeof file);
        snprintf(address, sizeof address, "%p", line->address);
    }
    say(out, "%s\t%llu\t%s\t%s\t%llu", line->gone ? "gone" : "object",
        (number_t)(line->gone ? line->gone : line->serial), kind_names[line->kind], address,
        (number_t)line->calls);
    say_sums(out, &line->waits, &line->holds, line->threads);
    say(out, "\t%llu\t%llu\t%llu\t%s", (number_t)line->sleeps, (number_t)line->slept, (number_t)line->entries, file);
    say_place(out, line->place);
}

static void add_gone(place_t *place, void *lines) {
    const line_t *gone = &place->sums.gone;
    if (gone->gone) append(lines, (const char *)gone, sizeof *gone);
}

/* The most waited for first, and of those for which nobody waited the longest held. */
static bool is_hotter(const line_t *a, const line_t *b) {
    if (a->waits.sum != b->waits.sum) return a->waits.sum > b->waits.sum;
    if (a->holds.sum != b->holds.sum) return a->holds.sum > b->holds.sum;
    if (a->calls != b->calls) return a->calls > b->calls;
    return a->serial < b->serial;
}

static void say_objects(bytes_t *out, bytes_t *lines) {
    for_each_place(add_gone, lines);
    line_t *line = (line_t *)lines->at, *end = line + lines->size / sizeof *line;
    sort_lines(line, lines->size / sizeof *line, is_hotter);
    for (; line < end; line++) say_object(out, line);
}

/* Waits -------------------------------------------------------------------------------------------------- */

static const char *what_of(uint8_t what) {
    return what == SLEEP ? "sleep" : what == AQS_MODE_SHARED ? "share" : "hold";
}

/* Number, number of the system, and name. */
static void say_person(bytes_t *out, const person_t *person) {
    char name[NAME_SIZE];
    memcpy(name, person->name, NAME_SIZE);
    name[NAME_SIZE - 1] = 0;
    for (char *at = name; *at; at++)
        if ((unsigned char)*at < ' ') *at = '_';
    say(out, "\t%u\t%u\t%s", person->number, person->tid, name[0] ? name : "-");
}

static void say_wait(bytes_t *out, const char *word, const wait_of_t *wait) {
    say(out, "%s\t%llu\t%u\t%s\t%s", word, (number_t)wait->took, wait->serial, what_of(wait->what),
        wait->is_timed ? "timed" : "-");
    say_person(out, &wait->thread);
    if (wait->has_holder) say_person(out, &wait->holder);
    else say(out, "\t-\t-\t-");
    say_place(out, wait->place);
}

/* Puts a wait among the longest, if it is one of them. They are in order, the longest first. */
static void insert_wait(wait_of_t *longest, const wait_of_t *wait) {
    int at = LONGEST;
    for (; at > 0 && longest[at - 1].took < wait->took; at--)
        if (at < LONGEST) longest[at] = longest[at - 1];
    if (at < LONGEST) longest[at] = *wait;
}

static void say_longest(bytes_t *out, const wait_of_t *waits, size_t count) {
    wait_of_t over[LONGEST], longest[LONGEST] = {0};
    copy_longest(over);
    for (int i = 0; i < LONGEST; i++) insert_wait(longest, &over[i]);
    for (size_t i = 0; i < count; i++)
        if (waits[i].what != SLEEP) insert_wait(longest, &waits[i]);
    for (int i = 0; i < LONGEST && longest[i].took; i++) say_wait(out, "longest", &longest[i]);
}

static void say_holder(bytes_t *out, const holder_t *holder) {
    say(out, "holder\t%u\t%s\t%s", holder->serial, what_of(holder->mode), holder->is_gone ? "gone" : "-");
    say_person(out, &holder->thread);
    say(out, "\n");
}

/* Circles ------------------------------------------------------------------------------------------------ */

/* Who waits, and who holds what is waited for. */
typedef struct {
    const wait_of_t *waits;
    const holder_t *holders;
    size_t wait_count, holder_count;
    uint8_t *is_seen; /* of each wait */
    size_t *path;
    size_t length;
} graph_t;

/* Whether a wait has no end but by another thread's unlock. */
static bool is_endless(const wait_of_t *wait) { return wait->what != SLEEP && !wait->is_timed; }

static bool reaches(graph_t *graph, size_t from, uint64_t target);

/* Whether a holder is the target, or waits for one that leads to it. */
static bool leads_to(graph_t *graph, const holder_t *holder, uint64_t target) {
    if (holder->id == target) return true;
    for (size_t i = 0; i < graph->wait_count; i++)
        if (graph->waits[i].id == holder->id && !graph->is_seen[i] && reaches(graph, i, target)) return true;
    return false;
}

/* Whether what a wait waits for is held by a thread that, in the end, waits for the target. The path is the way. */
static bool reaches(graph_t *graph, size_t from, uint64_t target) {
    const wait_of_t *wait = &graph->waits[from];
    graph->is_seen[from] = 1;
    if (!is_endless(wait) || graph->length == graph->wait_count) return false;
    graph->path[graph->length++] = from;
    for (size_t i = 0; i < graph->holder_count; i++)
        if (graph->holders[i].serial == wait->serial && leads_to(graph, &graph->holders[i], target)) return true;
    graph->length--;
    return false;
}

/* Says a circle: each thread, and the object for which it waits, which the next one holds. All of them waited before
   the holders were looked at, and must wait still: so it was a circle. */
static void say_circle(bytes_t *out, const graph_t *graph) {
    for (size_t i = 0; i < graph->length; i++)
        if (!still_waits(&graph->waits[graph->path[i]])) return;
    say(out, "circle");
    for (size_t i = 0; i < graph->length; i++) {
        const wait_of_t *wait = &graph->waits[graph->path[i]];
        say(out, "\t%u\t%u", wait->thread.number, wait->serial);
    }
    say(out, "\n");
}

static void say_circles(bytes_t *out, graph_t *graph) {
    uint8_t *is_told = heap_take_zeroed(graph->wait_count + 1);
    graph->is_seen = heap_take(graph->wait_count + 1);
    graph->path = heap_take((graph->wait_count + 1) * sizeof *graph->path);
    for (size_t i = 0; is_told && graph->is_seen && graph->path && i < graph->wait_count; i++) {
        if (is_told[i]) continue;
        memset(graph->is_seen, 0, graph->wait_count);
        graph->length = 0;
        if (!reaches(graph, i, graph->waits[i].id)) continue;
        for (size_t k = 0; k < graph->length; k++) is_told[graph->path[k]] = 1;
        say_circle(out, graph);
    }
    heap_give(is_told), heap_give(graph->is_seen), heap_give(graph->path);
}

/* The file ----------------------------------------------------------------------------------------------- */

void write_times(writing_t *writing) {
    bytes_t out = {NULL, 0, 0};
    graph_t graph = {
        .waits = (const wait_of_t *)writing->waits.at, .wait_count = writing->waits.size / sizeof(wait_of_t),
        .holders = (const holder_t *)writing->holders.at,
        .holder_count = writing->holders.size / sizeof(holder_t),
    };
    say(&out, "aqs-times\t1\t%d\t%s\t%s\n", (int)getpid(), is_timed ? "holds" : "-", program_invocation_name);
    say(&out, "added\t%llu\n", (number_t)added_to_hold);
    say_objects(&out, &writing->lines);
    if (writing->buckets.size) append(&out, writing->buckets.at, writing->buckets.size);
    say_longest(&out, graph.waits, graph.wait_count);
    for (size_t i = 0; i < graph.wait_count; i++) say_wait(&out, "now", &graph.waits[i]);
    for (size_t i = 0; i < graph.holder_count; i++) say_holder(&out, &graph.holders[i]);
    say_circles(&out, &graph);
    say(&out, "end\n");
    write_file("times", &out);
    heap_give(out.at);
}
