/* What bin/rtr-route.c and bin/rtr-peer.c share: routes as people type them, and the table that a cache's bytes make. Texts are not proved; the table and the states are the library's.
 * PROGRAM is the program's name, for its messages. */
#ifndef ROUTE_TEXT_H
#define ROUTE_TEXT_H

#include <stdio.h>
#include <stdlib.h>
#include <string.h>

#include "hingemoss.h"

static uint64_t session[HINGEMOSS_SESSION_NUMBERS];
static uint32_t live[HINGEMOSS_ROOM_NUMBERS], working[HINGEMOSS_ROOM_NUMBERS];
static uint8_t hold[8192], piece[65536];
#define LENT session, HINGEMOSS_SESSION_NUMBERS, live, HINGEMOSS_ROOM_NUMBERS, working, HINGEMOSS_ROOM_NUMBERS, hold, sizeof hold

static const char *const state_names[] = { "NotFound", "Valid", "Invalid" };

static _Noreturn void stop(int status, const char *what, const char *word, const char *why)
{
    fprintf(stderr, PROGRAM ": %s%s%s\n", what, word, why);
    exit(status);
}

/* ---- Texts as people type them: each takes what fits and gives where it ends, or 0 */

/* A number without leading zeros, at most `most`. */
static const char *number_at(const char *at, uint64_t most, uint64_t *n)
{
    const char *from = at;
    for (*n = 0; *at >= '0' && *at <= '9'; at++) {
        if (at > from && *from == '0')
            return 0;
        *n = *n * 10 + (uint64_t)(*at - '0');
        if (*n > most)
            return 0;
    }
    return at > from ? at : 0;
}

/* Four numbers with dots between. */
static const char *ipv4_at(const char *at, uint32_t *address)
{
    *address = 0;
    for (int i = 0; i < 4; i++) {
        uint64_t n;
        if (i > 0 && *at++ != '.')
            return 0;
        at = number_at(at, 255, &n);
        if (!at)
            return 0;
        *address = *address << 8 | (uint32_t)n;
    }
    return at;
}

static int hex_of(char c) { return c >= '0' && c <= '9' ? c - '0' : c >= 'a' && c <= 'f' ? c - 'a' + 10 : c >= 'A' && c <= 'F' ? c - 'A' + 10 : -1; }

/* Eight groups with colons between; :: once, for one group of zeros or more; the last two may be an IPv4 address. */
static const char *ipv6_at(const char *at, uint32_t *words)
{
    uint32_t groups[8] = { 0 };
    int count = 0, gap = -1;
    if (at[0] == ':' && at[1] == ':')
        gap = 0, at += 2;
    while (count < 8 && hex_of(*at) >= 0) {
        uint32_t ipv4;
        const char *behind = count <= 6 ? ipv4_at(at, &ipv4) : 0;
        if (behind) {
            groups[count++] = ipv4 >> 16, groups[count++] = ipv4 & 0xffff, at = behind;
            break;
        }
        for (behind = at; hex_of(*at) >= 0; at++) {
            if (at - behind == 4)
                return 0;
            groups[count] = groups[count] << 4 | (uint32_t)hex_of(*at);
        }
        count++;
        if (at[0] == ':' && at[1] == ':' && gap < 0)
            gap = count, at += 2;
        else if (at[0] == ':' && hex_of(at[1]) >= 0 && count < 8)
            at++;
        else
            break;
    }
    if (gap < 0 ? count != 8 : count > 7)
        return 0;
    if (gap >= 0) {
        memmove(groups + 8 - (count - gap), groups + gap, (size_t)(count - gap) * sizeof groups[0]);
        memset(groups + gap, 0, (size_t)(8 - count) * sizeof groups[0]);
    }
    for (int i = 0; i < 4; i++)
        words[i] = groups[2 * i] << 16 | groups[2 * i + 1];
    return at;
}

/* An address, a slash and a length: all of the route's numbers but its origin. */
static inline const char *prefix_at(const char *text, uint32_t *route)
{
    uint64_t length;
    uint32_t family = 4;
    const char *at;
    memset(route, 0, HINGEMOSS_ROUTE_NUMBERS * sizeof route[0]);
    at = ipv4_at(text, route + HINGEMOSS_ROUTE_ADDRESS);
    if (!at)
        family = 6, route[HINGEMOSS_ROUTE_ADDRESS] = 0, at = ipv6_at(text, route + HINGEMOSS_ROUTE_ADDRESS);
    if (!at || *at != '/')
        return 0;
    at = number_at(at + 1, 65535, &length);
    route[HINGEMOSS_ROUTE_KIND] = family * 65536 + (uint32_t)length;
    return at;
}

/* 64496 or AS64496. */
static inline const char *origin_at(const char *at, uint32_t *route)
{
    uint64_t n;
    if ((at[0] == 'A' || at[0] == 'a') && (at[1] == 'S' || at[1] == 's'))
        at += 2;
    at = number_at(at, 4294967295u, &n);
    route[HINGEMOSS_ROUTE_ORIGIN] = (uint32_t)n;
    return at;
}

/* ---- The table */

/* A file of that name, or standard input for - */
static FILE *open_file(const char *path)
{
    FILE *file = strcmp(path, "-") ? fopen(path, "rb") : stdin;
    if (!file)
        stop(2, "cannot read '", path, "'");
    return file;
}

/* Loads what a cache sent, as rtr-table does: version 1, one full ask. Fed to the end of the file, or to a stop, which is told and handed back. */
static uint8_t load(const char *path)
{
    FILE *file = open_file(path);
    uint8_t query[HINGEMOSS_FULL_QUERY], answer;
    uint64_t taken, updates;
    size_t got;
    answer = hingemoss_start(1, LENT);
    if (!answer)
        answer = hingemoss_full_ask(LENT, query, sizeof query);
    while (!answer && (got = fread(piece, 1, sizeof piece, file)) > 0) {
        if (got >= 8 && !memcmp(piece, "stopped=", 8))
            stop(2, "'", path, "' is a listing: hand in what the cache sent");
        answer = hingemoss_feed(LENT, piece, got, &taken, &updates);
    }
    if (ferror(file))
        stop(2, "cannot read '", path, "'");
    if (answer)
        fprintf(stderr, PROGRAM ": the bytes stop the receiver by %u%s (README.md has the numbers)%s\n", answer, answer == HINGEMOSS_REFUSED_ROOM_FULL ? ", more than 1,024 records" : "",
                session[HINGEMOSS_SESSION_TABLE] ? "; the table before that answers" : "");
    return answer;
}

/* The end where a question was refused: by 21, as there is no table, or by what should not be. */
static inline _Noreturn void stop_by(uint8_t answer, const char *path, uint8_t stopped)
{
    if (answer == HINGEMOSS_REFUSED_NO_TABLE)
        stop(1, "no table in '", path, stopped ? "'" : "': it ends before an update of version 1 has finished");
    stop(2, "the question was refused", "", "");
}

#endif
