/* text.c: the history of an object as one text. Its entries lie in up to three parts: the archive, the core
   that was replaced last, and the core in use. Each later core begins with entries that lead to the state
   that the core before it had left: they are left out, and the entries are numbered on. A core whose entries
   were folded has that state as its base. Then what came before is left out. */
#include "record.h"

#include <stdio.h>
#include <stdlib.h>
#include <string.h>

bool append(bytes_t *bytes, const char *text, size_t size) {
    if (bytes->size + size > bytes->room) {
        size_t room = bytes->size + size + (bytes->size + size) / 4 + 64;
        char *at = bytes->at ? heap_resize(bytes->at, room) : heap_take(room);
        if (!at) return false;
        bytes->at = at, bytes->room = room;
    }
    memcpy(bytes->at + bytes->size, text, size);
    bytes->size += size;
    return true;
}

/* The text of a core, by a seat that is in no call. */
bool core_text(core_t *core, seat_t *seat, bytes_t *text) {
    uint64_t length = 4096 + (uint64_t)core->entries * 24;
    for (;;) {
        if (length > text->room) {
            heap_give(text->at);
            text->room = 0;
            if (!(text->at = heap_take(length + 4096))) return false;
            text->room = length + 4096;
        }
        uint8_t kind;
        unsigned looks = 0;
        while ((kind = aqs_text_now(&seat->pass, (uint8_t *)text->at, text->room, &length)) == AQS_IS_BUSY) {
            if (looks++ > 100000) return false;
            sched_yield();
        }
        if (kind != AQS_IS_ENTRY) return false;
        if (length <= text->room) break;
    }
    text->size = length;
    return true;
}

/* Reading a core's text ---------------------------------------------------------------------------------- */

typedef struct {
    const char *at, *end;
} lines_t;

static bool next_line(lines_t *lines, const char **line, size_t *size) {
    const char *feed = memchr(lines->at, '\n', (size_t)(lines->end - lines->at));
    if (!feed) return false;
    *line = lines->at, *size = (size_t)(feed - lines->at) + 1;
    lines->at = feed + 1;
    return true;
}

static uint64_t number_after(const char *line, size_t size, const char *word) {
    const char *at = memmem(line, size, word, strlen(word));
    return at ? strtoull(at + strlen(word), NULL, 10) : 0;
}

/* "aqs-history 1 lock nonfair seats 5 conditions 1 cap 64" */
static void read_header(history_t *history, const char *line, size_t size) {
    const char *object = line + strlen("aqs-history 1 "), *seats = memmem(line, size, " seats ", 7);
    const char *permits = memmem(line, size, " permits ", 9);
    size_t length = seats ? (size_t)(seats - object) : 0;
    if (length >= sizeof history->object) length = sizeof history->object - 1;
    memcpy(history->object, object, length);
    history->object[length] = 0;
    history->seats = (uint32_t)number_after(line, size, " seats ");
    history->conditions = (uint32_t)number_after(line, size, " conditions ");
    history->cap = number_after(line, size, " cap ");
    history->has_permits = permits != NULL;
    history->permits = permits ? strtoll(permits + 9, NULL, 10) : 0;
}

static void widen_header(history_t *history, const history_t *other) {
    if (other->seats > history->seats) history->seats = other->seats;
    if (other->conditions > history->conditions) history->conditions = other->conditions;
    if (other->cap > history->cap) history->cap = other->cap;
}

void forget_history(history_t *history) {
    history->base.size = history->lines.size = 0;
    history->count = history->all = history->ends = history->first = history->base_seats = 0;
    history->is_there = false;
}

void free_history(history_t *history) {
    heap_give(history->base.at);
    heap_give(history->lines.at);
    memset(history, 0, sizeof *history);
}

/* An entry's line, without its number. */
static bool add_entry(history_t *history, const char *line, size_t size) {
    const char *rest = memchr(line, ' ', size);
    if (!rest) return false;
    history->count++, history->all++;
    return append(&history->lines, rest, size - (size_t)(rest - line));
}

static bool begins(const char *line, size_t size, const char *word) {
    return size > strlen(word) && memcmp(line, word, strlen(word)) == 0;
}

/* Begins the history at this text. */
static void start(history_t *history, const history_t *header) {
    bytes_t base = history->base, lines = history->lines;
    uint64_t all = history->all;
    *history = *header;
    base.size = lines.size = 0;
    history->base = base, history->lines = lines, history->all = all;
    history->is_there = true;
}

/* Adds the text of a core. It begins the history if there is none before it, or it has a base. */
bool add_text(history_t *history, const bytes_t *text, uint32_t replayed, uint32_t replayed_ends) {
    lines_t lines = {text->at, text->at + text->size};
    const char *line;
    size_t size;
    history_t header = {0};
    if (!next_line(&lines, &line, &size)) return false;
    read_header(&header, line, size);
    bool has_base = line[strlen("aqs-history ")] == '2', is_first = has_base || !history->is_there;
    if (is_first) start(history, &header), replayed = replayed_ends = 0;
    else widen_header(history, &header);
    while (next_line(&lines, &line, &size)) {
        bool is_good = true;
        if (begins(line, size, "end ")) {
            history->ends += number_after(strchr(line + 4, ' '), 20, " ") - replayed_ends;
        } else if (line[0] < '0' || line[0] > '9') {
            if (begins(line, size, "base ")) history->first = number_after(line, size, "base ");
            if (begins(line, size, "seat ")) history->base_seats++;
            is_good = append(&history->base, line, size);
        } else if (replayed) {
            replayed--;
        } else {
            is_good = add_entry(history, line, size);
        }
        if (!is_good) return false;
    }
    return true;
}

/* Writing one -------------------------------------------------------------------------------------------- */

static bool append_number(bytes_t *out, uint64_t number) {
    char digits[24];
    return append(out, digits, (size_t)snprintf(digits, sizeof digits, "%llu", (unsigned long long)number));
}

static bool write_header(const history_t *history, bytes_t *out) {
    char line[200];
    uint64_t room = history->count + 4 * history->seats + 64, cap = history->cap > room ? history->cap : room;
    long long number = history->has_permits ? history->permits : history->conditions;
    int size = snprintf(
        line, sizeof line, "aqs-history %d %s seats %u %s %lld cap %llu\n", history->base.size ? 2 : 1,
        history->object, history->seats, history->has_permits ? "permits" : "conditions", number,
        (unsigned long long)cap);
    return append(out, line, (size_t)size);
}

/* Seats that came after the base: they have done nothing in it. */
static bool write_idle_seats(const history_t *history, bytes_t *out) {
    for (uint32_t seat = history->base_seats; seat < history->seats; seat++) {
        char idle[60];
        size_t size = (size_t)snprintf(idle, sizeof idle, "seat %u calls 0 x 0 s 0\n", seat);
        if (!append(out, idle, size)) return false;
    }
    return true;
}

/* The base lists each seat. */
static bool write_base(const history_t *history, bytes_t *out) {
    lines_t lines = {history->base.at, history->base.at + history->base.size};
    const char *line;
    size_t size;
    uint32_t seats = 0;
    while (next_line(&lines, &line, &size)) {
        if (!append(out, line, size)) return false;
        if (!begins(line, size, "seat ")) continue;
        if (++seats == history->base_seats && !write_idle_seats(history, out)) return false;
    }
    return true;
}

static bool write_history(const history_t *history, bytes_t *out) {
    lines_t lines = {history->lines.at, history->lines.at + history->lines.size};
    const char *line;
    size_t size;
    if (!write_header(history, out) || !write_base(history, out)) return false;
    for (uint64_t number = history->first; next_line(&lines, &line, &size); number++)
        if (!append_number(out, number) || !append(out, line, size)) return false;
    char end[60];
    uint64_t entries = history->first + history->count;
    size = (size_t)snprintf(
        end, sizeof end, "end %llu %llu\n", (unsigned long long)entries, (unsigned long long)history->ends);
    return append(out, end, size);
}

/* Puts a text after the archive. If that's too long, it begins with this text. */
bool add_to_archive(object_t *object, const bytes_t *text, uint32_t replayed, uint32_t replayed_ends) {
    history_t *archive = &object->archive;
    if (archive->count > keep / 2) {
        object->dropped += archive->all;
        forget_history(archive);
    }
    if (add_text(archive, text, replayed, replayed_ends)) return true;
    forget_history(archive);
    return false;
}

static bool copy_history(history_t *to, const history_t *from) {
    *to = *from;
    to->base = to->lines = (bytes_t){NULL, 0, 0};
    return (!from->base.size || append(&to->base, from->base.at, from->base.size))
           && (!from->lines.size || append(&to->lines, from->lines.at, from->lines.size));
}

static bool add_core(history_t *history, core_t *core, seat_t *seat) {
    bytes_t text = {NULL, 0, 0};
    bool is_good = core_text(core, seat, &text)
                   && add_text(history, &text, core->replayed, core->replayed_ends);
    heap_give(text.at);
    return is_good;
}

/* The object's lock is held, so that no core is replaced. */
static bool gather(object_t *object, seat_t *seat, history_t *history) {
    core_t *before = object->before;
    return copy_history(history, &object->archive)
           && (!before || add_core(history, before, &before->seats[before->count - 1]))
           && (!object->core || add_core(history, object->core, seat));
}

/* The object's history as one text, which is empty if there is no memory or nothing to tell. The thread is in
   the object, if it isn't dead. False: another thread is alone in it, which may wait until this one has
   left. */
bool compose(object_t *object, thread_t *me, bytes_t *text) {
    history_t history = {0};
    if (!spin_try(&object->lock)) return false;
    bool is_foreign = object->born != epoch_of_now();
    seat_t *seat = !object->core || object->is_dead || is_foreign ? NULL : claim_own(object, me);
    if (object->core && !seat) seat = &object->core->seats[object->core->count - 1];
    text->size = 0;
    bool is_good = !is_foreign && gather(object, seat, &history) && history.is_there;
    object->entries = object->dropped + history.all;
    object->kept = history.count;
    if (object->core && !object->is_dead && !is_foreign) atomic_exchange(&seat->user, 0);
    spin_unlock(&object->lock);
    if (!is_good || !write_history(&history, text)) text->size = 0;
    free_history(&history);
    return true;
}
