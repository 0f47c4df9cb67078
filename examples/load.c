/* Loads what a cache sent, as a capture file has it, and prints the table: a receiver asks for the whole table, is fed the file in pieces, and is listed.
 * Usage: load FILE [VERSION [PIECE]]. Built and run by tests/c-library. */
#include <stdio.h>
#include <stdlib.h>

#include "hingemoss.h"

static uint64_t session[HINGEMOSS_SESSION_NUMBERS];
static uint32_t live[HINGEMOSS_ROOM_NUMBERS], working[HINGEMOSS_ROOM_NUMBERS];
static uint8_t hold[8192], piece[65536], text[HINGEMOSS_LISTING_MOST];

static int failed(const char *call, unsigned answer)
{
    fprintf(stderr, "load: %s: refused by %u\n", call, answer);
    return 1;
}

int main(int count, char **words)
{
    if (count < 2) {
        fprintf(stderr, "usage: load FILE [VERSION [PIECE]]\n");
        return 2;
    }
    uint8_t version = count > 2 ? (uint8_t)atoi(words[2]) : 1;
    size_t most = count > 3 ? (size_t)atoi(words[3]) : sizeof piece;
    if (most == 0 || most > sizeof piece)
        most = sizeof piece;
    FILE *file = fopen(words[1], "rb");
    if (!file) {
        perror(words[1]);
        return 1;
    }

    uint8_t answer = hingemoss_start(version, session, HINGEMOSS_SESSION_NUMBERS, live, HINGEMOSS_ROOM_NUMBERS, working, HINGEMOSS_ROOM_NUMBERS, hold, sizeof hold);
    if (answer)
        return failed("start", answer);

    /* The query would go to the cache; here its answer lies in the file already. */
    uint8_t query[HINGEMOSS_FULL_QUERY];
    answer = hingemoss_full_ask(session, HINGEMOSS_SESSION_NUMBERS, live, HINGEMOSS_ROOM_NUMBERS, working, HINGEMOSS_ROOM_NUMBERS, hold, sizeof hold, query, sizeof query);
    if (answer)
        return failed("full_ask", answer);

    uint64_t updates = 0, bytes = 0;
    size_t got;
    while (!answer && (got = fread(piece, 1, most, file)) > 0) {
        uint64_t taken, finished;
        answer = hingemoss_feed(session, HINGEMOSS_SESSION_NUMBERS, live, HINGEMOSS_ROOM_NUMBERS, working, HINGEMOSS_ROOM_NUMBERS, hold, sizeof hold, piece, got, &taken, &finished);
        bytes += taken;
        updates += finished;
    }
    fclose(file);
    fprintf(stderr, "%llu bytes, %llu updates, answer %u\n", (unsigned long long)bytes, (unsigned long long)updates, answer);

    uint64_t noted;
    answer = hingemoss_notify(session, HINGEMOSS_SESSION_NUMBERS, live, HINGEMOSS_ROOM_NUMBERS, working, HINGEMOSS_ROOM_NUMBERS, hold, sizeof hold, &noted);
    if (answer)
        return failed("notify", answer);
    if (noted == HINGEMOSS_NOTED_NEWER)
        fprintf(stderr, "the cache has something newer\n");

    uint64_t written;
    answer = hingemoss_listing(session, HINGEMOSS_SESSION_NUMBERS, live, HINGEMOSS_ROOM_NUMBERS, text, sizeof text, &written);
    if (answer)
        return failed("listing", answer);
    return fwrite(text, 1, (size_t)written, stdout) == written ? 0 : 1;
}
