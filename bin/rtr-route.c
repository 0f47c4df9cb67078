/* bin/rtr-route's program: route FILE PREFIX ORIGIN. Loads what a cache sent (as rtr-table does: version 1, one full ask), asks the proved library whether the route is good, and prints the
 * state with the records that decided it. The state is hingemoss_validate's; texts, and which records are shown, are this file's and not proved. FILE is - for standard input.
 * Exit status: 0 answered, 1 no table, 2 a word that is no prefix or no AS number, or a file that cannot be read. */
#define PROGRAM "rtr-route"
#include "route-text.h"

/* ---- What is printed */

static void put_prefix(uint32_t family, const uint32_t *words, uint32_t length)
{
    if (family == 4)
        printf("%u.%u.%u.%u", words[0] >> 24, words[0] >> 16 & 255, words[0] >> 8 & 255, words[0] & 255);
    else {
        /* the longest run of two groups of zeros or more is ::, the first of several */
        uint32_t groups[8];
        int from = 8, most = 1;
        for (int i = 0; i < 8; i++)
            groups[i] = i % 2 ? words[i / 2] & 0xffff : words[i / 2] >> 16;
        for (int i = 0; i < 8; i++) {
            int n = 0;
            while (i + n < 8 && groups[i + n] == 0)
                n++;
            if (n > most)
                from = i, most = n;
        }
        for (int i = 0; i < 8; i++)
            if (i == from)
                printf("%s", "::"), i += most - 1;
            else
                printf("%s%x", i > 0 && i != from + most ? ":" : "", groups[i]);
    }
    printf("/%u", length);
}

static int agrees(const uint32_t *record, const uint32_t *route)
{
    uint32_t length = record[HINGEMOSS_RECORD_KIND] >> 8 & 255;
    if (record[HINGEMOSS_RECORD_KIND] >> 16 != route[HINGEMOSS_ROUTE_KIND] >> 16 || length > (route[HINGEMOSS_ROUTE_KIND] & 65535))
        return 0;
    for (uint32_t i = 0; i < length; i++)
        if ((record[HINGEMOSS_RECORD_ADDRESS + i / 32] ^ route[HINGEMOSS_ROUTE_ADDRESS + i / 32]) >> (31 - i % 32) & 1)
            return 0;
    return 1;
}

/* The records that match a Valid route, or that cover an Invalid one and why they do not match; how many. */
static int put_records(const uint32_t *route, uint64_t state)
{
    int shown = 0;
    for (uint64_t i = 0; i < session[HINGEMOSS_SESSION_LIVE]; i++) {
        const uint32_t *record = live + i * HINGEMOSS_RECORD_NUMBERS;
        uint32_t kind = record[HINGEMOSS_RECORD_KIND], asn = record[HINGEMOSS_RECORD_ASN], origin = route[HINGEMOSS_ROUTE_ORIGIN];
        int is_long = (route[HINGEMOSS_ROUTE_KIND] & 65535) > (kind & 255), is_other = asn != origin || asn == 0;
        if (!agrees(record, route) || (state == HINGEMOSS_STATE_VALID) == (is_long || is_other))
            continue;
        printf("  %s ", state == HINGEMOSS_STATE_VALID ? "matched by" : "covered by");
        put_prefix(kind >> 16, record + HINGEMOSS_RECORD_ADDRESS, kind >> 8 & 255);
        printf(", max %u, AS%u%s%s%s\n", kind & 255, asn, is_long ? ": the route is longer than max" : "", !is_other ? "" : is_long ? ", and " : ": ",
               !is_other ? "" : origin == 0 ? "the route has no origin" : asn == 0 ? "AS 0 allows nobody" : "another AS");
        shown++;
    }
    return shown;
}

int main(int count, char **words)
{
    uint32_t route[HINGEMOSS_ROUTE_NUMBERS];
    uint64_t state;
    uint8_t stopped, answer;
    const char *behind;
    if (count != 4)
        stop(2, "three words: TABLE PREFIX ORIGIN", "", "");
    behind = prefix_at(words[2], route);
    if (!behind || *behind)
        stop(2, "no prefix: '", words[2], "' (an address, a slash and a length, as 192.0.2.0/24 or 2001:db8::/32)");
    behind = origin_at(words[3], route);
    if (!behind || *behind)
        stop(2, "no AS number: '", words[3], "' (as 64496 or AS64496; 0 where there is no origin)");
    if ((route[HINGEMOSS_ROUTE_KIND] & 65535) > (route[HINGEMOSS_ROUTE_KIND] >> 16 == 4 ? 32 : 128))
        stop(2, "no prefix: '", words[2], "' (longer than an address)");
    stopped = load(words[1]);
    answer = hingemoss_validate(LENT, route, HINGEMOSS_ROUTE_NUMBERS, &state);
    if (answer)
        stop_by(answer, words[1], stopped);
    put_prefix(route[HINGEMOSS_ROUTE_KIND] >> 16, route + HINGEMOSS_ROUTE_ADDRESS, route[HINGEMOSS_ROUTE_KIND] & 65535);
    printf(" from AS%u: %s\n", route[HINGEMOSS_ROUTE_ORIGIN], state_names[state]);
    if (state == HINGEMOSS_STATE_NOT_FOUND)
        printf("  none of %llu records covers it\n", (unsigned long long)session[HINGEMOSS_SESSION_LIVE]);
    else if (put_records(route, state) == 0)
        stop(1, "no record fits that state: this should not be", "", "");
    if (stopped)
        printf("  by the table before stop %u\n", stopped);
    return fflush(stdout) ? 2 : 0;
}
