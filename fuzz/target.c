/* The fuzzing target: a script of commands from bytes on a state from bytes, to the proved library and to the second program. After each
 * command the word, the two numbers told and all bytes of the state are compared. The library's buffers stand between pages that may not be
 * touched, each ending (the state also beginning) at such a page, so that a byte read or written outside them stops the program. */
#include "basalekko.h"

#include <stdio.h>
#include <stdlib.h>
#include <string.h>
#include <sys/mman.h>

bool second_well_formed(const uint8_t *state, size_t length);
uint64_t second_start(uint8_t *state, size_t length, uint64_t read, uint64_t write, uint64_t *told);
uint64_t second_run(uint8_t *state, size_t length, uint64_t time, uint64_t number, uint64_t a, uint64_t b, uint64_t c, uint64_t d,
                    const uint8_t *value, size_t value_length, uint64_t *told);
uint64_t second_show(const uint8_t *state, size_t length, uint64_t session, uint64_t key, uint64_t *told);
void second_stretch(const uint8_t *state, size_t length, uint64_t session, uint64_t key, uint64_t *told);
int LLVMFuzzerTestOneInput(const uint8_t *data, size_t size);

enum {
    PAGE = 4096,
    SIZE = BASALEKKO_STATE_SIZE,
    LONGEST = 80,
    CLOCK = 0,
    NEXT_SESSION = 16,
    NEXT_TOKEN = 20,
    KEYS = 64,
    KEY_WIDTH = 80,
    KEY_TOKEN = 4,
    ROWS = 20544,
    ROW_WIDTH = 72,
    ROW_KEY = 4,
    SESSIONS = 48192,
    SESSION_WIDTH = 16,
    SESSION_STEPS = 6,
    BASES = 6,
    WORDS = 24,
    REFUSALS = 14
};

static uint8_t *ours;         /* the library's state */
static uint8_t theirs[SIZE];  /* the second program's */
static uint8_t *value_end;    /* a value ends here */
static uint64_t *ours_told;   /* two numbers, ending at a page that may not be touched */
static uint64_t theirs_told[BASALEKKO_TOLD_SIZE];
static uint8_t bases[BASES][SIZE];
static unsigned long long cases, commands, seen[WORDS], refused[REFUSALS], shown, checked;

/* ---- reading the script ---- */

static const uint8_t *at, *end;

static uint64_t byte(void)
{
    return at < end ? *at++ : 0;
}

static uint64_t wide(void)
{
    uint64_t n = 0;
    int i;
    for (i = 0; i < 8; i++) {
        n = n << 8 | byte();
    }
    return n;
}

static uint64_t loaded(const uint8_t *state, size_t from, int width)
{
    uint64_t n = 0;
    while (width-- > 0) {
        n = n << 8 | state[from + (size_t)width];
    }
    return n;
}

/* A number near the next one, a small one, or any. */
static uint64_t near_number(size_t next)
{
    uint64_t b = byte();
    return b < 0xc0 ? loaded(theirs, next, 4) - 1 - b % 8 : b < 0xfc ? b % 4 : wide();
}

static uint64_t key(void)
{
    uint64_t b = byte();
    return b < 0xf0 ? b % 8 : b < 0xf8 ? 248 + b % 10 : b < 0xfc ? 256 + b % 4 : wide();
}

/* The token of the key's lease, or a number near the next token. */
static uint64_t token_of(uint64_t k)
{
    return byte() % 4 && k < BASALEKKO_KEY_COUNT ? loaded(theirs, KEYS + KEY_WIDTH * k + KEY_TOKEN, 4) : near_number(NEXT_TOKEN);
}

/* The steps that a session has taken. */
static uint64_t count_of(uint64_t session)
{
    size_t i;
    for (i = 0; i < BASALEKKO_SESSION_COUNT; i++) {
        if (loaded(theirs, SESSIONS + SESSION_WIDTH * i, 4) == session) {
            return loaded(theirs, SESSIONS + SESSION_WIDTH * i + SESSION_STEPS, 2);
        }
    }
    return 0;
}

/* A session and a key: those of one of the first rows, or any. */
static void asker(uint64_t *n, uint64_t *k)
{
    uint64_t b = byte();
    size_t row = ROWS + ROW_WIDTH * (b % 8);
    uint64_t held = loaded(theirs, row, 4);
    *n = b < 0xc0 && held ? held : near_number(NEXT_SESSION);
    *k = b < 0xa0 && held ? theirs[row + ROW_KEY] : key();
}

/* A step by the session's count: mostly equal, else beside it, or any. */
static uint64_t step_of(uint64_t n)
{
    uint64_t b = byte();
    return b < 0xb0 ? count_of(n) : b < 0xe0 ? count_of(n) - 1 + b % 3 : b < 0xf8 ? 996 + b % 8 : wide();
}

static uint64_t small(uint64_t most)
{
    uint64_t b = byte();
    return b < 0xf0 ? b % (most + 2) : b < 0xfc ? 996 + b % 8 : wide();
}

/* 0 to 80 bytes: digits, or any. */
static size_t value(uint8_t *to)
{
    uint64_t b = byte();
    size_t length = b % (LONGEST + 1), i;
    if (b < 0xa0) {
        length = b % 24;
        for (i = 0; i < length; i++) {
            uint64_t digit = byte();
            to[i] = (uint8_t)(digit < 0xf0 ? '0' + digit % 10 : digit);
        }
        return length;
    }
    for (i = 0; i < length; i++) {
        to[i] = (uint8_t)byte();
    }
    return length;
}

static uint64_t moment(void)
{
    static const uint64_t STEPS[] = {0, 0, 0, 0, 1, 1, 2, 10, 999, 1000, 1001, 4999, 5000, 600000};
    uint64_t clock = loaded(theirs, CLOCK, 8), b = byte();
    return b < 0xf0 ? clock + STEPS[b < 0xd0 ? b % 8 : b % 14] : b < 0xf4 ? clock - 1 : b < 0xf8 ? BASALEKKO_TIME_MAX - 4 + b % 8 : wide();
}

/* ---- comparing ---- */

static void differ(const char *where, uint64_t one, uint64_t other)
{
    fprintf(stderr, "DISAGREEMENT in %s after %llu commands: %llu and %llu\n", where, commands, (unsigned long long)one, (unsigned long long)other);
    abort();
}

static void same(const char *where, uint64_t one, uint64_t other)
{
    if (one != other) {
        differ(where, one, other);
    }
}

static void same_told(const char *where)
{
    same(where, ours_told[0], theirs_told[0]);
    same(where, ours_told[1], theirs_told[1]);
}

static void same_bytes(const char *where)
{
    if (memcmp(ours, theirs, SIZE) != 0) {
        differ(where, 0, 1);
    }
}

static void same_answer(const char *where, uint64_t one, uint64_t other)
{
    same(where, one, other);
    same_told(where);
    same_bytes(where);
    seen[one < WORDS ? one : 0]++;
    if (one == BASALEKKO_WORD_REFUSED) {
        refused[ours_told[0] < REFUSALS ? ours_told[0] : 0]++;
    }
}

/* ---- one command ---- */

/* The length of the lent state: now and then a wrong one, by leaving off its first bytes. */
static size_t skipped(void)
{
    uint64_t b = byte();
    return b < 0xfd ? 0 : b == 0xfd ? 1 : b == 0xfe ? SIZE : (size_t)(wide() % SIZE);
}

static void start(size_t skip)
{
    static const uint64_t LIVES[] = {1000, 5000, 1, 600000, 0, 600001};
    uint64_t b = byte(), c = byte();
    uint64_t read = b < 0xfc ? LIVES[b % 6] : wide(), write = c < 0xfc ? LIVES[c % 6] : wide();
    uint64_t one = basalekko_start(ours + skip, SIZE - skip, read, write, ours_told);
    same_answer("START", one, second_start(theirs + skip, SIZE - skip, read, write, theirs_told));
}

static void show(size_t skip)
{
    uint64_t session, k, one;
    asker(&session, &k);
    session = byte() % 4 ? session : 0;
    one = basalekko_show(ours + skip, SIZE - skip, session, k, ours_told);
    same_answer("SHOW", one, second_show(theirs + skip, SIZE - skip, session, k, theirs_told));
    basalekko_stretch(ours + skip, SIZE - skip, session, k, ours_told);
    second_stretch(theirs + skip, SIZE - skip, session, k, theirs_told);
    same_told("the stretch");
    same_bytes("the stretch");
    shown++;
}

static void check(size_t skip)
{
    same("the check", basalekko_well_formed(ours + skip, SIZE - skip), second_well_formed(theirs + skip, SIZE - skip));
    checked++;
}

static void run(uint64_t number, size_t skip)
{
    uint64_t time = moment(), n[4] = {0, 0, 0, 0}, one;
    uint8_t bytes[LONGEST];
    size_t length;
    bool takes;
    switch (number) {
    case BASALEKKO_COMMAND_GET: asker(&n[0], &n[1]); n[0] = byte() % 2 ? n[0] : 0; break;
    case BASALEKKO_COMMAND_FILL: n[1] = key(); n[0] = token_of(n[1]); break;
    case BASALEKKO_COMMAND_QUAR: n[0] = near_number(NEXT_SESSION); n[1] = key(); n[2] = small(3); break;
    case BASALEKKO_COMMAND_STAGE:
    case BASALEKKO_COMMAND_DELTA: asker(&n[0], &n[2]); n[1] = step_of(n[0]); n[3] = small(4); break;
    case BASALEKKO_COMMAND_VALIDATE: asker(&n[0], &n[1]); n[1] = step_of(n[0]); break;
    case BASALEKKO_COMMAND_DONE:
    case BASALEKKO_COMMAND_UNDO: asker(&n[0], &n[1]); n[1] = 0; break;
    case BASALEKKO_COMMAND_EVICT: n[0] = key(); break;
    case BASALEKKO_COMMAND_BEGIN:
    case BASALEKKO_COMMAND_TICK: break;
    default: number = wide(); n[0] = wide(); n[1] = wide(); break;
    }
    takes = number == BASALEKKO_COMMAND_FILL || number == BASALEKKO_COMMAND_STAGE || number == BASALEKKO_COMMAND_DELTA;
    length = takes || byte() % 16 == 0 ? value(bytes) : 0;
    memcpy(value_end - length, bytes, length);
    one = basalekko_run(ours + skip, SIZE - skip, time, number, n[0], n[1], n[2], n[3], length ? value_end - length : NULL, length, ours_told);
    same_answer("a command", one,
                second_run(theirs + skip, SIZE - skip, time, number, n[0], n[1], n[2], n[3], bytes, length, theirs_told));
}

/* One byte of the state changed. */
static void patch(void)
{
    size_t place = (size_t)(byte() << 8 | byte()) % SIZE;
    ours[place] = theirs[place] = (uint8_t)byte();
}

static void step(void)
{
    uint64_t b = byte();
    size_t skip;
    if (b == 255) {
        patch();
        return;
    }
    skip = skipped();
    memset(ours_told, 0xa5, sizeof theirs_told);
    memset(theirs_told, 0xa5, sizeof theirs_told);
    commands++;
    switch (b) {
    case 254: start(skip); break;
    case 253: case 252: check(skip); break;
    case 251: case 250: run(0, skip); break;
    default: b % 12 == 0 ? show(skip) : run(b % 12, skip); break;
    }
}

/* ---- the states that a script begins on ---- */

static uint64_t give(uint8_t *state, uint64_t number, uint64_t a, uint64_t b, uint64_t c, const char *v)
{
    uint64_t told[BASALEKKO_TOLD_SIZE];
    second_run(state, SIZE, loaded(state, CLOCK, 8), number, a, b, c, 0, (const uint8_t *)v, strlen(v), told);
    return told[0];
}

static void put(uint8_t *state, size_t from, uint64_t n, int width)
{
    int i;
    for (i = 0; i < width; i++) {
        state[from + (size_t)i] = (uint8_t)(n >> (8 * i));
    }
}

/* 0 bytes as they come; 1 fresh; 2 in use; 3 128 sessions and 384 rows; 4 the last numbers; 5 the last times. */
static void begin(void)
{
    uint64_t told[BASALEKKO_TOLD_SIZE], s, k;
    memset(bases[0], 0xa5, SIZE);
    second_start(bases[1], SIZE, 1000, 5000, told);
    memcpy(bases[2], bases[1], SIZE);
    for (k = 0; k < 6; k++) {
        give(bases[2], BASALEKKO_COMMAND_FILL, give(bases[2], BASALEKKO_COMMAND_GET, 0, k, 0, ""), k, 0, k % 2 ? "18446744073709551610" : "floor 3");
    }
    for (k = 0; k < 4; k++) {
        s = give(bases[2], BASALEKKO_COMMAND_BEGIN, 0, 0, 0, "");
        give(bases[2], BASALEKKO_COMMAND_QUAR, s, k, 1 + k % 3, "");
        give(bases[2], BASALEKKO_COMMAND_STAGE, s, 0, k, "floor 12");
    }
    memcpy(bases[3], bases[1], SIZE);
    for (s = 1; s <= BASALEKKO_SESSION_COUNT; s++) {
        give(bases[3], BASALEKKO_COMMAND_BEGIN, 0, 0, 0, "");
        for (k = 0; k < 3; k++) {
            give(bases[3], BASALEKKO_COMMAND_QUAR, s, k, BASALEKKO_KIND_INVALIDATE, "");
        }
    }
    memcpy(bases[4], bases[2], SIZE);
    put(bases[4], NEXT_SESSION, 0xfffffffe, 4);
    put(bases[4], NEXT_TOKEN, 0xfffffffd, 4);
    memcpy(bases[5], bases[1], SIZE);
    put(bases[5], CLOCK, BASALEKKO_TIME_MAX - 3, 8);
}

/* ---- the harness ---- */

static uint8_t *fenced(size_t size)
{
    uint8_t *from = (uint8_t *)mmap(NULL, size + 2 * PAGE, PROT_NONE, MAP_PRIVATE | MAP_ANONYMOUS, -1, 0);
    if (from == MAP_FAILED || mprotect(from + PAGE, size, PROT_READ | PROT_WRITE) != 0) {
        perror("fenced");
        exit(2);
    }
    return from + PAGE;
}

static void report(void)
{
    int i;
    printf("fuzz: %llu cases, %llu commands, %llu SHOWs, %llu checks, 0 disagreements\n  words", cases, commands, shown, checked);
    for (i = 0; i < WORDS; i++) {
        printf(" %llu", seen[i]);
    }
    printf("\n  refusals");
    for (i = 1; i < REFUSALS; i++) {
        printf(" %llu", refused[i]);
    }
    printf("\n");
}

int LLVMFuzzerTestOneInput(const uint8_t *data, size_t size)
{
    const uint8_t *base;
    uint64_t b;
    if (ours == NULL) {
        ours = fenced(SIZE);
        value_end = fenced(PAGE) + PAGE;
        ours_told = (uint64_t *)(void *)(fenced(PAGE) + PAGE) - BASALEKKO_TOLD_SIZE;
        begin();
        atexit(report);
    }
    at = data;
    end = data + size;
    b = byte();
    base = bases[b ? 1 + b % (BASES - 1) : 0];
    memcpy(ours, base, SIZE);
    memcpy(theirs, base, SIZE);
    while (at < end) {
        step();
    }
    cases++;
    return 0;
}
