/* Many routes for bin/rtr-peer: peer TABLE COUNT ROUTES EXPECTED. Makes so many routes near the records of the table that a cache's bytes make, and writes them to ROUTES, with a comment, a blank line or a
 * line that is no route among them now and then; and to EXPECTED what rtr-peer must print. Each state is the library's answer to that route alone, and must be that of a plain loop over the live room.
 * Run by tests/c-library. */
#define PROGRAM "peer"
#include "../../bin/route-text.h"

static uint64_t seed = 20261116;
static uint32_t any(void) { seed = seed * 6364136223846793005u + 1442695040888963407u; return (uint32_t)(seed >> 32); }
static uint32_t below(uint32_t n) { return any() % n; }

/* The bits of address number i that the first `length` bits of an address have. */
static uint32_t mask(uint32_t i, uint32_t length) { return length >= 32 * i + 32 ? 0xffffffffu : length <= 32 * i ? 0 : ~(0xffffffffu >> (length - 32 * i)); }

static uint64_t state_of(const uint32_t *route)
{
    uint32_t length = route[0] & 65535, origin = route[5];
    uint64_t state = HINGEMOSS_STATE_NOT_FOUND;
    for (uint64_t k = 0; k < session[HINGEMOSS_SESSION_LIVE]; k++) {
        const uint32_t *record = live + 6 * k;
        uint32_t is_other = (record[0] >> 16 ^ route[0] >> 16) | (uint32_t)((record[0] >> 8 & 255) > length);
        for (uint32_t i = 0; i < 4; i++)
            is_other |= (record[1 + i] ^ route[1 + i]) & mask(i, record[0] >> 8 & 255);
        if (!is_other && length <= (record[0] & 255) && record[5] == origin && origin != 0)
            return HINGEMOSS_STATE_VALID;
        if (!is_other)
            state = HINGEMOSS_STATE_INVALID;
    }
    return state;
}

/* At, under or above a record, or beside it by one bit; mostly by its origin. One route in four has bits behind its length. */
static void some_route(uint32_t *route)
{
    const uint32_t *record = live + 6 * below((uint32_t)session[HINGEMOSS_SESSION_LIVE]);
    uint32_t family = record[0] >> 16, width = family == 4 ? 32 : 128, length = record[0] >> 8 & 255, i;
    memcpy(route, record, 6 * sizeof route[0]);
    if (below(3) == 0)
        i = below(width), route[1 + i / 32] ^= 0x80000000u >> i % 32;
    if (below(2))
        length = below(4) ? length + below(width - length + 1) : below(width + 1);
    for (i = 0; i < width / 32; i++)
        route[1 + i] |= any() & ~mask(i, record[0] >> 8 & 255);
    if (below(4))
        for (i = 0; i < 4; i++)
            route[1 + i] &= mask(i, length);
    if (below(4) == 0)
        route[5] = below(8) ? record[5] + below(3) : 0;
    route[0] = family << 16 | length;
}

static void put_route(FILE *file, const uint32_t *route)
{
    const uint32_t *a = route + 1;
    if (route[0] >> 16 == 4)
        fprintf(file, "%u.%u.%u.%u", a[0] >> 24, a[0] >> 16 & 255, a[0] >> 8 & 255, a[0] & 255);
    else
        for (int i = 0; i < 8; i++)
            fprintf(file, i ? ":%x" : "%x", a[i / 2] >> (i % 2 ? 0 : 16) & 0xffff);
    fprintf(file, "/%u %s%u", route[0] & 65535, route[5] % 2 ? "AS" : "", route[5]);
}

int main(int count, char **words)
{
    static const char *const between[] = { "# a comment\n", "\n", "no route", "192.0.2.0/33 64496", "2001:db8::/129 64496" };
    uint32_t route[HINGEMOSS_ROUTE_NUMBERS];
    uint64_t state, counts[3] = { 0 }, bad = 0;
    long most = count == 5 ? atol(words[2]) : 0;
    FILE *lines, *expected;
    if (count != 5 || load(words[1]) || !session[HINGEMOSS_SESSION_LIVE])
        stop(2, "TABLE COUNT ROUTES EXPECTED, and a table with records", "", "");
    lines = fopen(words[3], "wb"), expected = fopen(words[4], "wb");
    if (!lines || !expected)
        stop(2, "cannot write", "", "");
    for (long i = 0; i < most; i++) {
        some_route(route);
        if (hingemoss_validate(LENT, route, HINGEMOSS_ROUTE_NUMBERS, &state) || state != state_of(route))
            stop(1, "the library and the plain loop differ", "", "");
        put_route(lines, route), put_route(expected, route);
        fprintf(lines, "\n"), fprintf(expected, " %s\n", state_names[state]);
        counts[state]++;
        if (below(50) == 0) {
            uint32_t k = below(5);
            fprintf(lines, "%s%s", between[k], k < 2 ? "" : "\n"), fprintf(expected, "%s%s", between[k], k < 2 ? "" : " NoRoute\n");
            bad += k >= 2;
        }
    }
    fprintf(expected, "# routes=%ld NotFound=%llu Valid=%llu Invalid=%llu NoRoute=%llu\n", most, (unsigned long long)counts[0], (unsigned long long)counts[1], (unsigned long long)counts[2], (unsigned long long)bad);
    return fclose(lines) | fclose(expected) ? 2 : 0;
}
