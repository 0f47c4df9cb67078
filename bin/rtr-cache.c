/* bin/rtr-cache's program: cache [-0] LISTING [LISTING]. Reads one listing and writes a full run of its table, or two and writes a change run from the first one's table to the second one's; in version 1, or
 * in version 0 with -0. Session, serial and intervals are the last listing's. The tables are hingemoss_read_listing's and the bytes hingemoss_full_run's or hingemoss_change_run's; what stands here is not proved.
 * One of two files may be - for standard input. Exit status: 0 written, 1 a listing without a table, 2 a file that is no listing or cannot be read, sessions that differ, or output that cannot be written; then
 * nothing is written to standard output. */
#include <stdio.h>
#include <stdlib.h>
#include <string.h>

#include "hingemoss.h"

/* What is read of a file: no listing is longer, so one byte more decides. */
enum { TEXT_MOST = HINGEMOSS_LISTING_MOST + 1 };

struct listing {
    uint64_t head[HINGEMOSS_HEAD_NUMBERS];
    uint32_t room[HINGEMOSS_ROOM_NUMBERS];
};
static struct listing first, last;
static uint8_t text[TEXT_MOST], run[HINGEMOSS_CHANGE_RUN_MOST];

static _Noreturn void stop(int status, const char *what, const char *word, const char *why)
{
    fprintf(stderr, "rtr-cache: %s%s%s\n", what, word, why);
    exit(status);
}

/* A table with its head, or the end of the program. */
static void read_listing(const char *path, struct listing *listing)
{
    FILE *file = strcmp(path, "-") ? fopen(path, "rb") : stdin;
    size_t length = file ? fread(text, 1, sizeof text, file) : 0;
    uint64_t line;
    uint8_t answer;
    if (!file || ferror(file))
        stop(2, "cannot read '", path, "'");
    answer = hingemoss_read_listing(text, length, listing->room, HINGEMOSS_ROOM_NUMBERS, listing->head, HINGEMOSS_HEAD_NUMBERS, &line);
    if (answer == HINGEMOSS_REFUSED_LISTING) {
        fprintf(stderr, "rtr-cache: '%s' is no listing: line %llu does not fit or is missing\n", path, (unsigned long long)line);
        exit(2);
    }
    if (answer)
        stop(2, "'", path, "' was refused");
    if (!listing->head[HINGEMOSS_HEAD_TABLE])
        stop(1, "no table in '", path, "': there is nothing to serve");
}

int main(int count, char **words)
{
    uint8_t version = 1, answer;
    uint64_t written;
    if (count > 1 && !strcmp(words[1], "-0"))
        version = 0, count--, words++;
    if (count != 2 && count != 3)
        stop(2, "one listing, or two", "", "");
    if (count == 3 && !strcmp(words[1], "-") && !strcmp(words[2], "-"))
        stop(2, "one of the listings can be standard input, not both", "", "");
    if (count == 3)
        read_listing(words[1], &first);
    read_listing(words[count - 1], &last);
    /* a router that holds the first table under another session stops by 15 */
    if (count == 3 && first.head[HINGEMOSS_HEAD_ID] != last.head[HINGEMOSS_HEAD_ID]) {
        fprintf(stderr, "rtr-cache: the listings' sessions differ (%llu and %llu): a router could not take the change\n", (unsigned long long)first.head[HINGEMOSS_HEAD_ID], (unsigned long long)last.head[HINGEMOSS_HEAD_ID]);
        return 2;
    }
    if (count == 3)
        answer = hingemoss_change_run(version, last.head + HINGEMOSS_HEAD_ID, HINGEMOSS_END_NUMBERS, first.room, HINGEMOSS_ROOM_NUMBERS, first.head[HINGEMOSS_HEAD_COUNT], last.room, HINGEMOSS_ROOM_NUMBERS, last.head[HINGEMOSS_HEAD_COUNT], run, sizeof run, &written);
    else
        answer = hingemoss_full_run(version, last.head + HINGEMOSS_HEAD_ID, HINGEMOSS_END_NUMBERS, last.room, HINGEMOSS_ROOM_NUMBERS, last.head[HINGEMOSS_HEAD_COUNT], run, sizeof run, &written);
    if (answer)
        stop(2, "the run was refused", "", "");
    fwrite(run, 1, written, stdout);
    if (fflush(stdout) || ferror(stdout) || fclose(stdout))
        stop(2, "cannot write the run", "", "");
    return 0;
}
