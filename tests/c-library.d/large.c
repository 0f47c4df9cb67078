/* A long life in constant memory: full loads, changes and notifies to so many megabytes; random bytes, 4 KiB for each connection, some of them behind an ask and a Cache Response and with prefixes in them; and random bytes with a new connection at each stop.
 * Prints what went through; exit status 1 where an answer is not the expected one or resident memory grew. Usage: large MEGABYTES RANDOM_MEGABYTES STOPPING_MEGABYTES. */
#define _DEFAULT_SOURCE
#include <stdio.h>
#include <stdlib.h>
#include <sys/resource.h>

#include "hingemoss.h"

enum { RECORDS = 1000, BLOCK = 8 + 20 * RECORDS + 24 + 12 };

static uint64_t session[HINGEMOSS_SESSION_NUMBERS];
static uint32_t live[HINGEMOSS_ROOM_NUMBERS], working[HINGEMOSS_ROOM_NUMBERS];
static uint8_t hold[8192], query[HINGEMOSS_CHANGE_QUERY], block[BLOCK], noise[4096];
static uint64_t through, updates;

#define SESSION session, HINGEMOSS_SESSION_NUMBERS
#define LIVE live, HINGEMOSS_ROOM_NUMBERS
#define WORKING working, HINGEMOSS_ROOM_NUMBERS
#define HOLD hold, sizeof hold

static void expect(int ok, const char *what)
{
    if (!ok) {
        printf("large: not so after %llu bytes: %s\n", (unsigned long long)through, what);
        exit(1);
    }
}

static uint8_t *put(uint8_t *at, uint32_t n)
{
    at[0] = (uint8_t)(n >> 24), at[1] = (uint8_t)(n >> 16), at[2] = (uint8_t)(n >> 8), at[3] = (uint8_t)n;
    return at + 4;
}

static uint8_t *header(uint8_t *at, uint32_t type, uint32_t field, uint32_t length)
{
    return put(put(at, 1u << 24 | type << 16 | field), length);
}

/* An update of so many records from the last one down, or up, and a notify of its serial. */
static size_t update(uint32_t count, uint32_t flags, uint32_t serial)
{
    uint8_t *at = header(block, 3, 7, 8);
    for (uint32_t i = 0; i < count; i++)
        at = put(put(put(header(at, 4, 0, 20), flags << 24 | 24 << 16 | 24 << 8), flags ? i << 8 : (RECORDS - 1 - i) << 8), 64496);
    at = put(put(put(put(header(at, 7, 7, 24), serial), 3600), 600), 7200);
    at = put(header(at, 0, 7, 12), serial);
    return (size_t)(at - block);
}

static void fed(size_t length)
{
    for (size_t at = 0; at < length; at += 4096) {
        uint64_t taken, finished;
        size_t piece = length - at < 4096 ? length - at : 4096;
        expect(hingemoss_feed(SESSION, LIVE, WORKING, HOLD, block + at, piece, &taken, &finished) == HINGEMOSS_OK && taken == piece, "a piece is taken");
        through += taken;
        updates += finished;
    }
}

static long resident(void)
{
    struct rusage used;
    getrusage(RUSAGE_SELF, &used);
    return used.ru_maxrss;
}

static void make_noise(void)
{
    static uint32_t state = 2463534242u;
    for (size_t i = 0; i < sizeof noise; i++) {
        state ^= state << 13, state ^= state >> 17, state ^= state << 5;
        noise[i] = (uint8_t)(state >> 24);
    }
}

static void stood(uint64_t random, uint64_t took, uint64_t stops, long before)
{
    expect(session[HINGEMOSS_SESSION_LIVE] == RECORDS / 2, "the table before stands");
    printf("%llu random bytes, %llu of them taken, %llu stops, the table before stands, resident memory grew by %ld KiB\n", (unsigned long long)random, (unsigned long long)took, (unsigned long long)stops, resident() - before);
    expect(resident() - before < 256, "constant memory");
}

static uint64_t megabytes(int count, char **words, int i, int otherwise) { return (uint64_t)(i < count ? atoi(words[i]) : otherwise) << 20; }

int main(int count, char **words)
{
    uint64_t most = megabytes(count, words, 1, 100), most_random = megabytes(count, words, 2, 100), most_stopping = megabytes(count, words, 3, 1);
    expect(hingemoss_start(1, SESSION, LIVE, WORKING, HOLD) == HINGEMOSS_OK, "a start");
    long before = 0;
    for (uint32_t serial = 1; through < most; serial += 2) {
        expect(hingemoss_full_ask(SESSION, LIVE, WORKING, HOLD, query, sizeof query) == HINGEMOSS_OK, "a full ask");
        fed(update(RECORDS, 1, serial));
        expect(session[HINGEMOSS_SESSION_LIVE] == RECORDS && session[HINGEMOSS_SESSION_SERIAL] == serial, "a full table");
        expect(hingemoss_change_ask(SESSION, LIVE, WORKING, HOLD, query, sizeof query) == HINGEMOSS_OK, "a change ask");
        fed(update(RECORDS / 2, 0, serial + 1));
        expect(session[HINGEMOSS_SESSION_LIVE] == RECORDS / 2 && session[HINGEMOSS_SESSION_SERIAL] == serial + 1, "half a table");
        if (before == 0)
            before = resident();
    }
    printf("%llu bytes, %llu updates, resident memory grew by %ld KiB\n", (unsigned long long)through, (unsigned long long)updates, resident() - before);
    expect(resident() - before < 256, "constant memory");

    /* 4 KiB for each connection: noise alone, behind a full ask, behind a Cache Response, and there with prefixes of random numbers in it; a stop repeats for what comes behind it */
    uint64_t stops = 0, random = 0, took = 0;
    for (uint32_t turn = 0; random < most_random; turn++) {
        uint64_t taken, behind, finished;
        make_noise();
        if (turn % 4 >= 1)
            expect(hingemoss_full_ask(SESSION, LIVE, WORKING, HOLD, query, sizeof query) == HINGEMOSS_OK, "a full ask");
        if (turn % 4 >= 2)
            header(noise, 3, turn & 0xffff, 8);
        if (turn % 4 == 3)
            for (size_t at = 8; at + 20 <= sizeof noise; at += 20)
                header(noise + at, 4, 0, 20)[0] = 1, noise[at + 9] %= 33, noise[at + 10] = 32;
        uint8_t answer = hingemoss_feed(SESSION, LIVE, WORKING, HOLD, noise, sizeof noise, &taken, &finished);
        expect(answer != HINGEMOSS_REFUSED_NOT_A_RECEIVER && (answer != HINGEMOSS_OK || taken == sizeof noise), "random bytes are taken or stop");
        if (answer) {
            stops++;
            expect(hingemoss_feed(SESSION, LIVE, WORKING, HOLD, noise + taken, sizeof noise - (size_t)taken, &behind, &finished) == answer && behind == 0, "the stop repeats");
        }
        expect(hingemoss_reconnect(SESSION, LIVE, WORKING, HOLD) == HINGEMOSS_OK, "a new connection");
        random += sizeof noise;
        took += taken;
        if (turn == 1024) /* an emulator has seen every way by now */
            before = resident();
    }
    stood(random, took, stops, before);

    for (stops = random = 0; random < most_stopping;) {
        if (random < 2 * sizeof noise)
            before = resident();
        make_noise();
        for (size_t at = 0; at < sizeof noise;) {
            uint64_t taken, finished;
            uint8_t answer = hingemoss_feed(SESSION, LIVE, WORKING, HOLD, noise + at, sizeof noise - at, &taken, &finished);
            expect(answer != HINGEMOSS_REFUSED_NOT_A_RECEIVER && (answer != HINGEMOSS_OK || taken == sizeof noise - at), "random bytes are taken or stop");
            at += (size_t)taken;
            random += taken;
            if (answer) {
                stops++;
                expect(hingemoss_reconnect(SESSION, LIVE, WORKING, HOLD) == HINGEMOSS_OK, "a new connection");
            }
        }
    }
    stood(random, random, stops, before);
    return 0;
}
