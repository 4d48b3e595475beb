/*
 * Basalekko: the cache server of a dispatch group, as a static library (libbasalekko.a).
 *
 * The cache takes one command at a time on a lent state of 65,536 bytes. Every function is proved: for every input it ends, and its
 * contract (docs/CONTRACTS.md) fixes what it returns, the two numbers that it tells, and each byte of the lent state after it.
 * The commands are described in docs/COMMANDS.md; the comments here are that page's words.
 *
 * What the host owes:
 *
 *  - A pointer with a length points to that many bytes for as long as the call lasts. A null pointer is allowed with length 0 only.
 *  - The bytes need no alignment. `told` points to two numbers, aligned as the host aligns a uint64_t.
 *  - The lent state, the value and `told` do not overlap. A value that a HIT handed back stands in the state: copy it before it is
 *    given to a command.
 *  - One caller at a time for one state: no other thread reads or writes it during a call. Calls on different states may run beside
 *    each other, since the library keeps nothing between calls: no pointer, no variable of its own.
 *  - The state lies where the host likes and lives as long as the host likes. It is plain bytes: it may be copied, moved, saved and
 *    loaded; the place that a HIT tells counts from its first byte and holds until the next command.
 *  - 16 KiB of stack (tools/linked prints what each function needs at most).
 *
 * The library calls nothing of the host's: no allocation, no system call, no C library; and it has no floating point.
 */
#ifndef BASALEKKO_H
#define BASALEKKO_H

#include <stdbool.h>
#include <stddef.h>
#include <stdint.h>

#ifdef __cplusplus
extern "C" {
#endif

/* The version of this header; basalekko_version() tells that of the library. */
#define BASALEKKO_VERSION 1

/* ---- sizes and limits ---- */

/* Bytes of the lent state. */
#define BASALEKKO_STATE_SIZE 65536
/* Keys are 0 to 255. */
#define BASALEKKO_KEY_COUNT 256
/* At most so many sessions are live, and so many Q rows are held. */
#define BASALEKKO_SESSION_COUNT 128
#define BASALEKKO_ROW_COUNT 384
/* A value or an operand has 0 to 64 bytes. */
#define BASALEKKO_VALUE_MAX 64
/* The count of a session's staging steps goes from 0 to this; a step is below it. */
#define BASALEKKO_STEP_MAX 1000
/* A lifetime is 1 to 600,000 ms. */
#define BASALEKKO_LIFE_MIN 1
#define BASALEKKO_LIFE_MAX 600000
/* The last time, 2^48 - 1 ms. */
#define BASALEKKO_TIME_MAX UINT64_C(281474976710655)

/* ---- commands, kinds, operations: what is given ---- */

/* The number of a command. Behind each its own numbers, which basalekko_run takes as a, b, c, d (0 for those that it has not), and
 * the answers that it can give besides a refusal. */
enum basalekko_command {
    /* BEGIN. SESSION n: session n is open until now plus the write lifetime. Refusals: 1, 2, 11, 13. */
    BASALEKKO_COMMAND_BEGIN = 1,
    /* GET session key. Session 0 is anyone. A session with a Q row on the key is a holder, open or sealed.
     * HIT: the holder's staged value; else, for a holder of kind 2 or 3 with nothing staged and for anyone who is no holder, the
     * cached value. ASK: the holder has no value to read: kind 1, DROP staged, or nothing staged and the key absent; go to the
     * register, there is no lease. BACKOFF w: absent and blocked; w is 0 if a sealed session blocks, else the latest blocking deadline
     * less now. LEASE t: absent and free; the key has an I lease with token t until now plus the read lifetime.
     * Refusals: 1, 2, 3, 5 (session not 0), 13 (only where LEASE would be given). */
    BASALEKKO_COMMAND_GET = 2,
    /* FILL token key, with a value. STORED: the key's I lease has that token; the value is cached and the lease removed. IGNORED: it
     * has not. Refusals: 1, 2, 3, 4. */
    BASALEKKO_COMMAND_FILL = 3,
    /* QUAR session key kind. HELD: the session has a row of that kind on the key. GRANTED: it gets one, with nothing staged; an I lease
     * on the key is void. ABORTED: the key is held by a row that doesn't share; the asker's rows are freed and its session ends; cached
     * values stay. Only kind 1 shares, with kind 1. Refusals: 1, 2, 3, 5, 6, 12 (only where it would be granted). */
    BASALEKKO_COMMAND_QUAR = 4,
    /* STAGE session step key, with a value, for a row of kind 2. STAGED: the value replaces what is staged. REPEATED: the step is below
     * the count; nothing is staged. Refusals: 1, 2, 3, 4, 5, 6, 8, 9, 10. */
    BASALEKKO_COMMAND_STAGE = 5,
    /* DELTA session step key operation, with an operand, for a row of kind 3; steps as in STAGE. STAGED: the result is staged. DROPPED:
     * DROP is staged: it was already, or there is no value, or the result is over 64 bytes, or the value or the operand of 3 or 4 is no
     * count; the step is taken. REPEATED: the step is below the count; nothing is staged. Refusals: 1, 2, 3, 4, 5, 6, 8, 9, 10. */
    BASALEKKO_COMMAND_DELTA = 6,
    /* VALIDATE session n. VALIDATED: n equals the count; the session is sealed: it has no deadline any more. LOST: it is open and n
     * differs; its rows are freed and it ends; cached values stay. Refusals: 1, 2, 3, 5, 6 (sealed and n differs). */
    BASALEKKO_COMMAND_VALIDATE = 7,
    /* DONE session. DONE: each row's staged value is cached; a key with nothing or DROP staged becomes absent; the rows are freed and
     * the session ends. Refusals: 1, 2, 5, 7. */
    BASALEKKO_COMMAND_DONE = 8,
    /* UNDO session. UNDONE: the rows are freed and the session ends, open or sealed; cached values stay. Refusals: 1, 2, 5. */
    BASALEKKO_COMMAND_UNDO = 9,
    /* EVICT key. EVICTED: the key becomes absent; rows and I lease stay. EMPTY: it was absent. Refusals: 1, 2, 3. */
    BASALEKKO_COMMAND_EVICT = 10,
    /* TICK. TICKED: expiry and the clock, nothing else. Refusals: 1, 2. */
    BASALEKKO_COMMAND_TICK = 11
};

/* The kind of a Q row. */
enum basalekko_kind {
    BASALEKKO_KIND_INVALIDATE = 1,
    BASALEKKO_KIND_REFRESH = 2,
    BASALEKKO_KIND_INCREMENTAL = 3
};

/* The operation of DELTA, on the staged value or else the cached one. A count is 1 to 20 ASCII digits, at most 2^64 - 1, digits only.
 * Increment wraps at 2^64, decrement stops at 0, results have no leading zero. */
enum basalekko_operation {
    BASALEKKO_OPERATION_APPEND = 1,
    BASALEKKO_OPERATION_PREPEND = 2,
    BASALEKKO_OPERATION_INCREMENT = 3,
    BASALEKKO_OPERATION_DECREMENT = 4
};

/* ---- answers: what is returned and told ---- */

/* Two numbers go with a word: told[BASALEKKO_TOLD_DETAIL] and told[BASALEKKO_TOLD_PLACE]. Each is 0 where nothing is said of it. */
#define BASALEKKO_TOLD_DETAIL 0
#define BASALEKKO_TOLD_PLACE 1
#define BASALEKKO_TOLD_SIZE 2

/* The word of an answer, with its detail. */
enum basalekko_word {
    /* A refusal; the detail is its number (enum basalekko_refusal). The state is as it was, byte for byte. */
    BASALEKKO_WORD_REFUSED = 0,
    /* START made the fresh state. */
    BASALEKKO_WORD_READY = 1,
    /* The detail is the session's number. */
    BASALEKKO_WORD_SESSION = 2,
    /* The detail is the value's length, the place is where it stands in the lent state. */
    BASALEKKO_WORD_HIT = 3,
    BASALEKKO_WORD_ASK = 4,
    /* The detail is the wait, in ms. */
    BASALEKKO_WORD_BACKOFF = 5,
    /* The detail is the token. */
    BASALEKKO_WORD_LEASE = 6,
    BASALEKKO_WORD_STORED = 7,
    BASALEKKO_WORD_IGNORED = 8,
    BASALEKKO_WORD_HELD = 9,
    BASALEKKO_WORD_GRANTED = 10,
    BASALEKKO_WORD_ABORTED = 11,
    BASALEKKO_WORD_STAGED = 12,
    BASALEKKO_WORD_REPEATED = 13,
    BASALEKKO_WORD_DROPPED = 14,
    BASALEKKO_WORD_VALIDATED = 15,
    BASALEKKO_WORD_LOST = 16,
    BASALEKKO_WORD_DONE = 17,
    BASALEKKO_WORD_UNDONE = 18,
    BASALEKKO_WORD_EVICTED = 19,
    BASALEKKO_WORD_EMPTY = 20,
    BASALEKKO_WORD_TICKED = 21,
    /* SHOW: the detail is the value's length. */
    BASALEKKO_WORD_VALUE = 22,
    BASALEKKO_WORD_NONE = 23
};

/* The number of a refusal. The first that applies, in this order, is given. */
enum basalekko_refusal {
    /* the length is wrong or the state is not well formed (START: length only) */
    BASALEKKO_REFUSAL_STATE = 1,
    /* now is below the clock or above 2^48 - 1 */
    BASALEKKO_REFUSAL_CLOCK = 2,
    /* key over 255, kind not 1 to 3, operation not 1 to 4, step over 999, n over 1,000, lifetime not 1 to 600,000 */
    BASALEKKO_REFUSAL_ARG = 3,
    /* value or operand over 64 bytes */
    BASALEKKO_REFUSAL_LONG = 4,
    /* the session is not live after expiry */
    BASALEKKO_REFUSAL_NO_SESSION = 5,
    /* the session is sealed */
    BASALEKKO_REFUSAL_SEALED = 6,
    /* the session is open */
    BASALEKKO_REFUSAL_NOT_SEALED = 7,
    /* the session has no row on the key */
    BASALEKKO_REFUSAL_NO_LEASE = 8,
    /* its row on the key has another kind */
    BASALEKKO_REFUSAL_KIND = 9,
    /* the step is above the count */
    BASALEKKO_REFUSAL_AHEAD = 10,
    /* 128 sessions are live after expiry */
    BASALEKKO_REFUSAL_FULL = 11,
    /* a row would be taken and 384 are held after expiry */
    BASALEKKO_REFUSAL_ROOM = 12,
    /* the number to give would be 2^32 - 1 or more */
    BASALEKKO_REFUSAL_NUMBERS = 13
};

/* ---- functions ---- */

/* The library's version: raised with each change of a name, a number or a parameter. */
uint64_t basalekko_version(void);

/* Whether the buffer holds a well-formed state. */
bool basalekko_well_formed(const uint8_t *state, size_t state_length);

/* START read-lifetime write-lifetime: makes the fresh state, clock 0, whatever the buffer held. READY. Refusals: 1 (length only), 3. */
uint64_t basalekko_start(uint8_t *state, size_t state_length, uint64_t read, uint64_t write, uint64_t *told);

/* One command by its number, at the time in ms. The value is that of FILL and STAGE or the operand of DELTA, and is not looked at by
 * the others. A number outside 1 to 11 is refused as ARG (3), after STATE and CLOCK.
 * Before a command acts, every I lease with a deadline at or before now is removed, and every open session with a deadline at or before
 * now ends: the values of its keys are dropped and its rows freed. Every accepted command keeps this and sets the clock to now, whatever
 * it answers. A refused command leaves every byte as it was. */
uint64_t basalekko_run(uint8_t *state, size_t state_length, uint64_t time, uint64_t number, uint64_t a, uint64_t b, uint64_t c, uint64_t d,
                       const uint8_t *value, size_t value_length, uint64_t *told);

/* SHOW session key, its first call. Reads only, without time or expiry. VALUE length: there is a value with which GET, nothing expiring,
 * would answer HIT. NONE: there is none. Refusals: 1, 3, 5 (session not 0). */
uint64_t basalekko_show(const uint8_t *state, size_t state_length, uint64_t session, uint64_t key, uint64_t *told);

/* SHOW session key, its second call: the stretch of the state that holds the value; for NONE and on a refusal the empty stretch at the
 * state's first byte. told[BASALEKKO_TOLD_DETAIL] is its length, told[BASALEKKO_TOLD_PLACE] its place. */
void basalekko_stretch(const uint8_t *state, size_t state_length, uint64_t session, uint64_t key, uint64_t *told);

#ifdef __cplusplus
}
#endif

#endif
