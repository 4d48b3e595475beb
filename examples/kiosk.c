/* A kiosk reads a badge, misses and fills. A tenant moves while the kiosk is mid-read, and the stale fill is ignored. */
#include "basalekko.h"

#include <stdio.h>
#include <string.h>

enum { BADGE = 42, READ_LIFETIME = 1000, WRITE_LIFETIME = 5000 };

static const char *const WORDS[] = {
    "REFUSED",  "READY",     "SESSION", "HIT",  "ASK",    "BACKOFF", "LEASE", "STORED", "IGNORED", "HELD",  "GRANTED", "ABORTED", "STAGED",
    "REPEATED", "DROPPED",   "VALIDATED", "LOST", "DONE", "UNDONE",  "EVICTED", "EMPTY", "TICKED", "VALUE", "NONE",
};

static uint8_t state[BASALEKKO_STATE_SIZE];
static uint64_t told[BASALEKKO_TOLD_SIZE];
static uint64_t now;

/* What was said, by whom, and the answer: its word, its detail, and a HIT's value. */
static void print(const char *said, uint64_t word)
{
    printf("%2llu  %-42s %s", (unsigned long long)now, said, WORDS[word]);
    if (word == BASALEKKO_WORD_HIT) {
        printf(" \"%.*s\"", (int)told[BASALEKKO_TOLD_DETAIL], (const char *)state + told[BASALEKKO_TOLD_PLACE]);
    } else if (word == BASALEKKO_WORD_SESSION || word == BASALEKKO_WORD_LEASE || word == BASALEKKO_WORD_BACKOFF || word == BASALEKKO_WORD_REFUSED) {
        printf(" %llu", (unsigned long long)told[BASALEKKO_TOLD_DETAIL]);
    }
    printf("\n");
}

/* One command a millisecond; the detail of its answer. */
static uint64_t run(const char *said, uint64_t number, uint64_t a, uint64_t b, uint64_t c, const char *value)
{
    now += 1;
    print(said, basalekko_run(state, sizeof state, now, number, a, b, c, 0, (const uint8_t *)value, strlen(value), told));
    return told[BASALEKKO_TOLD_DETAIL];
}

int main(void)
{
    uint64_t token, session;
    const char *register_says = "floor 3";
    const char *read;

    print("power-on", basalekko_start(state, sizeof state, READ_LIFETIME, WRITE_LIFETIME, told));

    token = run("kiosk: which floors has badge 42?", BASALEKKO_COMMAND_GET, 0, BADGE, 0, "");
    run("kiosk: the register says floor 3", BASALEKKO_COMMAND_FILL, token, BADGE, 0, register_says);
    run("kiosk: which floors has badge 42?", BASALEKKO_COMMAND_GET, 0, BADGE, 0, "");
    run("the value is evicted", BASALEKKO_COMMAND_EVICT, BADGE, 0, 0, "");

    token = run("kiosk: which floors has badge 42?", BASALEKKO_COMMAND_GET, 0, BADGE, 0, "");
    read = register_says; /* the kiosk has read the register, and is slow to say so */

    session = run("office: the tenant moves", BASALEKKO_COMMAND_BEGIN, 0, 0, 0, "");
    run("office: badge 42 will change", BASALEKKO_COMMAND_QUAR, session, BADGE, BASALEKKO_KIND_INVALIDATE, "");
    run("office: I have taken no steps", BASALEKKO_COMMAND_VALIDATE, session, 0, 0, "");
    register_says = "floor 12";

    run("kiosk: the register says floor 3 (stale)", BASALEKKO_COMMAND_FILL, token, BADGE, 0, read);
    run("kiosk: which floors has badge 42?", BASALEKKO_COMMAND_GET, 0, BADGE, 0, "");
    run("office: the register is written", BASALEKKO_COMMAND_DONE, session, 0, 0, "");

    token = run("kiosk: which floors has badge 42?", BASALEKKO_COMMAND_GET, 0, BADGE, 0, "");
    run("kiosk: the register says floor 12", BASALEKKO_COMMAND_FILL, token, BADGE, 0, register_says);
    run("kiosk: which floors has badge 42?", BASALEKKO_COMMAND_GET, 0, BADGE, 0, "");
    return 0;
}
