/* bin/rtr-peer's program: peer TABLE ROUTES. Loads what a cache sent (as rtr-table does: version 1, one full ask), reads lines PREFIX ORIGIN, and prints each with its state behind it, then a line
 * with the counts. The states are hingemoss_validate_all's; texts are this file's and not proved. One of the two files may be - for standard input.
 * Exit status: 0 all answered, 1 no table, 2 a line that is no route, or a file that cannot be read or written.
 *
 * Any number of lines in constant memory: they are read in blocks of at most BLOCK, and each block is one call. The states are those of one call for the whole list, by the law `c-calls-join` of
 * crates/rtr_c: what two calls leave in the same memory, one behind the other, is what one call leaves of both lists joined. A call tests the memory and looks at the
 * table once, whatever it is asked; a block spreads that over its lines. */
#define PROGRAM "rtr-peer"
#include "route-text.h"

enum {
    BLOCK = 4096,          /* lines in a call */
    LINE_MOST = 4096,      /* a line of more bytes is no route */
    TEXT = 1 << 19         /* bytes that are read ahead; a line of more is taken in parts */
};

/* Of C's time.h, which tests/libc does not have: on Linux a time is a long. */
long time(long *now);

static void put(const char *from, size_t length) { fwrite(from, 1, length, stdout); }

/* ---- Lines: text[at] to text[have - 1] is read and not taken yet */

struct line {
    const char *from;
    size_t length;         /* without its end */
    const char *end;       /* LF or CR LF; nothing behind a part of a line that is not its last */
    uint64_t number;       /* from 1 on */
    int is_asked;          /* a state is printed behind it; else it is passed through as it is */
};

static FILE *file;
static char text[TEXT + 1]; /* the last byte stays 0 */
static size_t at, have;
static int is_all_read;

/* The line that `at` stands in: its number, whether its beginning was taken as a part, and whether it begins with # or has only blanks so far. */
static uint64_t number;
static int is_part, is_comment, is_blank;

static const char *behind_blanks(const char *from)
{
    while (*from == ' ' || *from == '\t')
        from++;
    return from;
}

/* PREFIX ORIGIN, with blanks between, and before and behind where there are any. The byte at `end` is 0. */
static int is_route(const char *from, const char *end, uint32_t *route)
{
    if (end - from > LINE_MOST)
        return 0;
    from = prefix_at(behind_blanks(from), route);
    if (!from || behind_blanks(from) == from)
        return 0;
    from = origin_at(behind_blanks(from), route);
    return from && behind_blanks(from) == end;
}

/* Takes a line, or a part of one that is longer than the text, and the route in it: six zeros where it is none, which the library answers with 23 as it answers a prefix that is too long.
 * 0 where more must be read first, or all is taken. */
static int take_line(struct line *line, uint32_t *route)
{
    char *from = text + at, *feed = memchr(from, '\n', have - at), *end = feed ? feed : text + have;
    int is_whole = feed || is_all_read, has_return = end > from && end[-1] == '\r';
    if (is_whole ? !feed && end == from && !is_part : at > 0 || have < TEXT)
        return 0;
    end -= has_return;
    at = (size_t)(end - text) + (is_whole ? (size_t)has_return + (feed != 0) : 0); /* a part leaves its last CR to the next */
    if (is_whole)
        *end = 0;
    if (!is_part)
        number++, is_comment = *from == '#', is_blank = 1;
    is_blank = is_blank && behind_blanks(from) == end;
    *line = (struct line){ from, (size_t)(end - from), !is_whole ? "" : has_return ? "\r\n" : "\n", number, is_whole && !is_comment && !is_blank };
    if (line->is_asked && (is_part || !is_route(from, end, route)))
        memset(route, 0, HINGEMOSS_ROUTE_NUMBERS * sizeof route[0]);
    is_part = !is_whole;
    return 1;
}

/* What is not taken goes to the front, and the text is filled up. */
static void read_on(const char *path)
{
    memmove(text, text + at, have - at);
    have -= at, at = 0;
    have += fread(text + have, 1, TEXT - have, file);
    is_all_read = have < TEXT;
    if (ferror(file))
        stop(2, "cannot read '", path, "'");
}

/* ---- Blocks */

static struct line lines[BLOCK];
static uint32_t routes[BLOCK * HINGEMOSS_ROUTE_NUMBERS];
static uint8_t states[BLOCK];

/* How many lines have each state, and behind these how many are no route; and the first of those. */
enum { NO_ROUTE = 3 };
static unsigned long long counts[4];
static uint64_t first_bad;

static void ask(size_t asked, const char *table, uint8_t stopped)
{
    uint64_t written;
    uint8_t answer = hingemoss_validate_all(LENT, routes, asked * HINGEMOSS_ROUTE_NUMBERS, states, asked, &written);
    if (answer || written != asked)
        stop_by(answer, table, stopped);
}

static void put_lines(size_t count)
{
    const uint8_t *state = states;
    for (const struct line *line = lines; line < lines + count; line++) {
        put(line->from, line->length);
        if (line->is_asked) {
            int kind = *state < NO_ROUTE ? *state : NO_ROUTE;
            const char *name = kind < NO_ROUTE ? state_names[kind] : "NoRoute";
            put(" ", 1), put(name, strlen(name));
            if (kind == NO_ROUTE && !first_bad)
                first_bad = line->number;
            counts[kind]++, state++;
        }
        put(line->end, strlen(line->end));
    }
    if (ferror(stdout))
        stop(2, "cannot write what is to be printed", "", "");
}

int main(int count, char **words)
{
    long began = time(0), told = began + 1, now;
    uint8_t stopped;
    if (count != 3)
        stop(2, "two words: TABLE ROUTES", "", "");
    if (!strcmp(words[1], "-") && !strcmp(words[2], "-"))
        stop(2, "one of TABLE and ROUTES can be standard input, not both", "", "");
    file = open_file(words[2]);
    stopped = load(words[1]);
    ask(0, words[1], stopped); /* whether there is a table */
    for (;;) {
        size_t taken = 0, asked = 0;
        while (taken < BLOCK && take_line(&lines[taken], routes + asked * HINGEMOSS_ROUTE_NUMBERS))
            asked += (size_t)lines[taken++].is_asked;
        if (taken == 0 && is_all_read)
            break;
        if (taken == 0) {
            read_on(words[2]);
            continue;
        }
        ask(asked, words[1], stopped);
        put_lines(taken);
        now = time(0);
        if (now > told) /* first when more than a second has passed, then each second */
            fprintf(stderr, PROGRAM ": %llu routes so far\n", counts[0] + counts[1] + counts[2]), told = now;
    }
    printf("# routes=%llu NotFound=%llu Valid=%llu Invalid=%llu NoRoute=%llu", counts[0] + counts[1] + counts[2], counts[0], counts[1], counts[2], counts[NO_ROUTE]);
    if (stopped)
        printf(" stopped=%u", stopped);
    printf("\n");
    if (fflush(stdout) || ferror(stdout) || fclose(stdout))
        stop(2, "cannot write what is to be printed", "", "");
    if (!first_bad)
        return 0;
    fprintf(stderr, PROGRAM ": line %llu of '%s' is no route (a line is PREFIX ORIGIN, as 192.0.2.0/24 64496); such lines in all: %llu\n", (unsigned long long)first_bad, words[2], counts[NO_ROUTE]);
    return 2;
}
