/* aqs_core.h: what the proved static library exports (crates/aqs_c). Programs call aqs.h, which stands over
   it.

   A pass is the right of one seat. What C owes, since nothing checks it:
   - A pass is all bytes 0 (AQS_NO_PASS), or was written by a call of this library. C neither reads nor
     changes what is in it, and makes no copy: to move a pass, copy it and set the old one to AQS_NO_PASS.
   - Each pass is used by one call at a time. It may go to another thread: a lock, a thread's start or join,
     or an atomic that one thread releases and the other acquires then orders its calls.
   - Pointers are aligned and not null, and what they point to is nobody else's during the call.
   - The memory of an answer or of a contention has 0 or 1 in each field of type bool, also before the call.
   - No call is made from a signal handler that has interrupted a call of this library, nor from the forked
     child of a process that had a thread in one.
   - malloc, realloc and free come from one allocator, whose blocks are aligned to 16 bytes.
   Everything else is tested: a number out of range has an answer, and changes nothing. */
#ifndef AQS_CORE_H
#define AQS_CORE_H

#include <stdbool.h>
#include <stddef.h>
#include <stdint.h>

#ifdef __cplusplus
extern "C" {
#endif

typedef struct {
    void *at;
    uint64_t live;
} aqs_pass_t;

#define AQS_NO_PASS {NULL, 0}

/* kind: AQS_KIND_*. policy: AQS_CORE_*. number: a semaphore's permits, or a latch's count. */
typedef struct {
    int32_t number;
    uint32_t cap;
    uint16_t seats;
    uint8_t conditions, kind, policy;
} aqs_header_t;

enum { AQS_KIND_LOCK, AQS_KIND_READ_WRITE, AQS_KIND_SEMAPHORE, AQS_KIND_LATCH };
enum { AQS_CORE_FAIR, AQS_CORE_NONFAIR, AQS_CORE_STRICT };
enum { AQS_CORE_NOT_EMPTY = 254, AQS_CORE_OUT_OF_RANGE = 255 };

/* mode: AQS_MODE_*, or the number of a condition. */
typedef struct {
    uint32_t n;
    uint8_t code, mode;
} aqs_step_t;

enum { AQS_MODE_EXCLUSIVE, AQS_MODE_SHARED };
enum {
    AQS_STEP_ACQUIRE, AQS_STEP_TRY, AQS_STEP_TRY_FAIR, AQS_STEP_ENTRY_INTERRUPT, AQS_STEP_GIVE, AQS_STEP_LOOK,
    AQS_STEP_EXPIRE, AQS_STEP_INTERRUPT, AQS_STEP_AWAIT, AQS_STEP_SIGNAL, AQS_STEP_SIGNAL_ALL, AQS_STEP_DRAIN
};

/* A call that may wait. moment: what the clock shows, in milliseconds, from which `time` counts.
   interrupted: 1 if the call isn't plain and an interrupt was pending, which was taken. */
typedef struct {
    uint64_t moment;
    uint32_t n, time;
    uint8_t kind, mode, how, interrupted;
} aqs_call_t;

enum { AQS_CALL_ACQUIRE, AQS_CALL_AWAIT };
enum { AQS_HOW_PLAIN, AQS_HOW_INTERRUPTIBLE, AQS_HOW_TIMED };
enum { AQS_WOKE_PERMIT, AQS_WOKE_DEADLINE, AQS_WOKE_INTERRUPT };

/* What a turn comes to. `kind` says which of the other fields mean something:
   - AQS_IS_ENTRY: it ended with this entry: n, seat, word, mode, at, end, and fault if the word is
     AQS_WORD_REFUSED.
   - AQS_IS_FAULT: it ended with this fault, and nothing was recorded.
   - AQS_IS_WAITING: the call waits. If `parks`, the seat parks before the next turn: until it is unparked, or
     until the clock shows `until` if has_until, or until its interrupt if interruptible.
   - AQS_IS_SLEEP: the seat of the step waits on.
   - AQS_IS_BUSY: another call had the object, and nothing has changed. Try again.
   - AQS_IS_NO_CODE, AQS_IS_NO_PASS, AQS_IS_NO_ENTRY, AQS_IS_IN_CALL, AQS_IS_IN_NO_CALL: nothing has changed.
   After an entry, a fault or AQS_IS_WAITING the caller owes, in this order: to unpark the seat `wakes` if
   has_wakes; to set its own interrupt if `again`; to park and go on if the call waits. After any other kind
   has_wakes, again and parks are false. parks, has_until, until and interruptible mean nothing unless the
   kind is AQS_IS_WAITING, nor has_until, until and interruptible unless it parks. `wakes` means nothing
   unless has_wakes. */
typedef struct {
    uint64_t until;
    uint32_t n;
    uint16_t seat, wakes;
    uint8_t kind, word, mode, at, end, fault;
    bool has_wakes, again, parks, has_until, interruptible;
} aqs_answer_t;

enum {
    AQS_IS_ENTRY, AQS_IS_SLEEP, AQS_IS_FAULT, AQS_IS_BUSY, AQS_IS_NO_CODE, AQS_IS_NO_PASS, AQS_IS_NO_ENTRY,
    AQS_IS_WAITING, AQS_IS_IN_CALL, AQS_IS_IN_NO_CALL
};
enum {
    AQS_WORD_GOT, AQS_WORD_TRY_GOT, AQS_WORD_QUEUED, AQS_WORD_GRANTED, AQS_WORD_MISSED, AQS_WORD_LEFT,
    AQS_WORD_GAVE, AQS_WORD_REFUSED, AQS_WORD_AWAIT, AQS_WORD_LAPSE, AQS_WORD_SIGNAL, AQS_WORD_SIGNAL_ALL,
    AQS_WORD_BACK, AQS_WORD_COUNTED, AQS_WORD_DRAINED
};
enum { AQS_END_NONE, AQS_END_TIMEOUT, AQS_END_INTERRUPT, AQS_END_SIGNALLED };
enum {
    AQS_FAULT_NOT_OWNER = 1, AQS_FAULT_TOO_MANY_HOLDS, AQS_FAULT_TOO_MANY_PERMITS, AQS_FAULT_INTERRUPTED,
    AQS_FAULT_HOLDS_READ, AQS_FAULT_OUT_OF_PHASE, AQS_FAULT_NO_SUCH_CONDITION, AQS_FAULT_BAD_AMOUNT,
    AQS_FAULT_WRONG_MODE, AQS_FAULT_HISTORY_FULL, AQS_FAULT_OUT_OF_MEMORY, AQS_FAULT_TRIM_FULL
};

/* Opens an object, and writes the pass of each seat into its place: 0. Else no place has changed, and it
   returns AQS_FAULT_OUT_OF_MEMORY, AQS_CORE_NOT_EMPTY if a place has a pass, or AQS_CORE_OUT_OF_RANGE if a
   number of the header is out of range or `count` isn't the number of seats. */
uint8_t aqs_open(aqs_header_t header, aqs_pass_t *places, size_t count);

/* Makes one step, and writes what it came to. AQS_IS_IN_CALL: the seat is in a call that waits.
   AQS_IS_NO_CODE: these are the numbers of no step. */
void aqs_step_now(aqs_pass_t *pass, aqs_step_t step, aqs_answer_t *answer);

/* Makes an acquire that succeeds at once, or a release. Returns AQS_DONE, or AQS_DONE_WAKES and the number of
   the seat that the caller is to unpark, added up. Else it returns AQS_NOT_DONE, and nothing was recorded: make
   the step by another call then. A latch isn't counted down so. */
uint32_t aqs_step_at_once(aqs_pass_t *pass, aqs_step_t step);

enum { AQS_NOT_DONE, AQS_DONE, AQS_DONE_WAKES };

/* Makes the first turn of a call that may wait. AQS_IS_IN_CALL: the seat is in another. AQS_IS_NO_CODE: these
   are the numbers of no call. */
void aqs_begin(aqs_pass_t *pass, const aqs_call_t *call, aqs_answer_t *answer);

/* Makes the next turn of a call that waits. woke: AQS_WOKE_*, how its park ended; any of them if it didn't
   park. AQS_IS_IN_NO_CALL: the seat is in none. AQS_IS_NO_CODE: no park ends so. */
void aqs_go_on(aqs_pass_t *pass, uint8_t woke, aqs_answer_t *answer);

/* Writes the entry of a number since the last trim, counted from 0, or AQS_IS_NO_ENTRY. */
void aqs_entry_now(aqs_pass_t *pass, uint64_t number, aqs_answer_t *answer);

/* Writes the text of the history since the last trim, as `aqs audit` reads it, if it fits in `size`, and its
   length in any case: returns AQS_IS_ENTRY. If it doesn't fit, `out` is as it was. Or returns AQS_IS_BUSY,
   AQS_IS_NO_PASS, or AQS_IS_FAULT if memory lacks, and `out` and *length are as they were. `out` is not null,
   even if `size` is 0. */
uint8_t aqs_text_now(aqs_pass_t *pass, uint8_t *out, size_t size, uint64_t *length);

/* Folds all entries, so that their room comes back, and writes their number: returns AQS_IS_ENTRY. What the
   object does next is the same as before. Or returns AQS_IS_BUSY, AQS_IS_NO_PASS, or AQS_IS_FAULT if more
   than 10^15 entries would have been folded, and *count is as it was. */
uint8_t aqs_trim_now(aqs_pass_t *pass, uint64_t *count);

/* Writes the free permits of a semaphore, which may be below 0, or 0 of any other object: returns
   AQS_IS_ENTRY. Or returns AQS_IS_BUSY or AQS_IS_NO_PASS, and *permits is as it was. */
uint8_t aqs_available_now(aqs_pass_t *pass, int64_t *permits);

/* Writes the count of a latch, or 0 of any other object: returns AQS_IS_ENTRY. Or returns AQS_IS_BUSY or
   AQS_IS_NO_PASS, and *count is as it was. */
uint8_t aqs_count_now(aqs_pass_t *pass, uint32_t *count);

/* Whether some seat has exclusive holds, how many seats are in the queue, and how many wait in all: those in
   the queue, and those that wait on conditions. */
typedef struct {
    uint64_t waiting;
    uint16_t queue_length;
    bool is_held;
} aqs_contention_t;

/* Writes how the object is held and waited for: returns AQS_IS_ENTRY. Or returns AQS_IS_BUSY or
   AQS_IS_NO_PASS, and *contention is as it was. */
uint8_t aqs_contention_now(aqs_pass_t *pass, aqs_contention_t *contention);

/* Gives a pass back, and leaves AQS_NO_PASS. The object is freed with the last of its passes. A seat whose
   call waits stands in its queue for good then, and what others ask for after it may never be granted: so let
   each call end first, unless all passes of the object are given back. What the seat holds stays held. */
void aqs_drop(aqs_pass_t *pass);

#ifdef __cplusplus
}
#endif
#endif
