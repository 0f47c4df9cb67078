/* What a question costs: makes a live table of 1,000 records and a list of routes, and asks about each of them N times.
 *   routes N TABLE LIST CALL [COUNT]    writes how many routes the list has (COUNT at the most, 1,000), how many of them are Valid, Invalid and NotFound, and a check sum of the states that CALL gave
 * TABLE: usual (blocks of networks in clusters, three IPv4 records to one IPv6) | ipv6 | loose16, loose8, loose0 (usual with one record of that length that has host bits) | loose (every record has them)
 *        | one (1,000 records of one prefix) | stair4, stair6 (records right below the route that do not cover it, and one of length 0) | chain4, chain6 (33 and 129 records that all cover, and others)
 * LIST: peer (two in three near a record) | valid | invalid | notfound | refused (each too long: 23). A longer list begins with the shorter one's routes.
 * CALL: quick | scan | test22 (notify, which does little but test for 22) | none: route by route; all: the whole list in one call; librtr: route by route, by that library's table of the same records
 *       (compiled with -DLIBRTR)
 * States come from a plain loop here too; where the library says otherwise the program ends with status 1. */
#include <stdint.h>
#include <stdio.h>
#include <stdlib.h>
#include <string.h>

#include "../include/hingemoss.h"

uint8_t test_validate_by_scan(const uint64_t *session, size_t session_len, const uint32_t *live, size_t live_len, const uint32_t *working, size_t working_len,
                              const uint8_t *hold, size_t hold_len, const uint32_t *route, size_t route_len, uint64_t *state);

#ifdef LIBRTR
#include <rtrlib/pfx/pfx.h>
#endif

enum { RECORDS = 1000, SIX = 6, ROUTES = 1000, PEER = 40000, TRIED = 100, REFUSED = 23 };

static uint64_t session[HINGEMOSS_SESSION_NUMBERS];
static uint32_t live[HINGEMOSS_ROOM_NUMBERS], working[HINGEMOSS_ROOM_NUMBERS];
static uint8_t hold[8192];
#define LENT session, HINGEMOSS_SESSION_NUMBERS, live, HINGEMOSS_ROOM_NUMBERS, working, HINGEMOSS_ROOM_NUMBERS, hold, sizeof hold

static uint64_t seed = 20261116;
static uint32_t any(void) { seed = seed * 6364136223846793005u + 1442695040888963407u; return (uint32_t)(seed >> 32); }
static uint32_t below(uint32_t n) { return any() % n; }

/* ---- records: the six numbers, and how many there are */

struct record { uint32_t n[SIX]; };
static struct record table[RECORDS];
static int count;

static uint32_t family_of(const uint32_t *n) { return n[0] >> 16; }
static uint32_t length_of(const uint32_t *n) { return n[0] >> 8 & 255; }
static uint32_t width_of(uint32_t family) { return family == 4 ? 32 : 128; }

/* The bits of word i (from 0) that the first `length` bits of an address have. */
static uint32_t mask(int i, uint32_t length) { return length >= 32u * i + 32 ? 0xffffffffu : length <= 32u * i ? 0 : ~(0xffffffffu >> (length - 32u * i)); }

static int order(const struct record *a, const struct record *b)
{
    uint32_t x[8] = { family_of(a->n), a->n[1], a->n[2], a->n[3], a->n[4], length_of(a->n), a->n[0] & 255, a->n[5] };
    uint32_t y[8] = { family_of(b->n), b->n[1], b->n[2], b->n[3], b->n[4], length_of(b->n), b->n[0] & 255, b->n[5] };
    for (int i = 0; i < 8; i++)
        if (x[i] != y[i])
            return x[i] < y[i] ? -1 : 1;
    return 0;
}

/* Enters at its place, unless it is there or all are. */
static void enter(struct record r)
{
    int i = count;
    if (count == RECORDS)
        return;
    for (int k = 0; k < count; k++)
        if (order(&table[k], &r) == 0)
            return;
    for (; i > 0 && order(&table[i - 1], &r) > 0; i--)
        table[i] = table[i - 1];
    table[i] = r, count++;
}

/* A record of the first `length` bits of an address. */
static void add(uint32_t family, const uint32_t *words, uint32_t length, uint32_t max, uint32_t asn)
{
    struct record r = { { family << 16 | length << 8 | max } };
    for (int i = 0; i < 4; i++)
        r.n[1 + i] = words[i] & mask(i, length);
    r.n[5] = asn;
    enter(r);
}

/* A network's block and more specific ones in it, in one of twelve clusters of its family. */
static void network(uint32_t family)
{
    static const uint32_t high4[12] = { 5, 23, 31, 45, 62, 77, 91, 103, 151, 185, 193, 203 }, high6[12] = { 0x2001, 0x2001, 0x2400, 0x2403, 0x2600, 0x2604, 0x2800, 0x2804, 0x2a00, 0x2a02, 0x2a03, 0x2c0f };
    uint32_t words[4] = { 0 }, cluster = below(12), asn = 1000 + below(60000), length, more = below(9);
    if (family == 4)
        words[0] = high4[cluster] << 24 | below(16) << 20 | (any() & 0xfffff), length = 14 + below(9);
    else
        words[0] = high6[cluster] << 16 | (any() & 0xffff), words[1] = any(), length = 29 + below(4);
    add(family, words, length, family == 4 ? (below(2) ? length : 24) : (below(2) ? length : 48), asn);
    while (more--) {
        uint32_t inner[4] = { words[0] & mask(0, length), words[1] & mask(1, length), 0, 0 }, n = family == 4 ? length + below(25 - length) : length + 1 + below(49 - length);
        inner[0] |= any() & ~mask(0, length);
        if (family == 6)
            inner[1] |= any() & ~mask(1, length);
        add(family, inner, n, n, below(5) ? asn : 1000 + below(60000));
    }
}

static void usual(int only6)
{
    for (int v4 = 0; count < RECORDS;) {
        int was = count;
        uint32_t family = only6 || v4 > 3 * (count - v4) ? 6 : 4;
        network(family);
        v4 += family == 4 ? count - was : 0;
    }
}

/* Bits behind a record's length are set; a record keeps its family and lengths. */
static void loosen(struct record *r)
{
    int words = family_of(r->n) == 4 ? 1 : 4;
    for (int i = 0; i < words; i++)
        r->n[1 + i] |= any() & ~mask(i, length_of(r->n));
    if (length_of(r->n) < width_of(family_of(r->n)))
        r->n[words] |= 1;
}

static void all_loose(void)
{
    static struct record old[RECORDS];
    memcpy(old, table, sizeof old);
    count = 0;
    for (int i = 0; i < RECORDS; i++)
        loosen(&old[i]), enter(old[i]);
}

/* One record makes room for one of that length with host bits, of IPv4, near a record that stands there. */
static void one_loose(uint32_t length)
{
    int near = (int)below(RECORDS / 2);
    struct record r = { { 4u << 16 | length << 8 | 24, table[near].n[1] } };
    r.n[5] = 65000;
    r.n[1] |= any() & ~mask(0, length), r.n[1] |= 1;
    memmove(table + near, table + near + 1, sizeof table[0] * (size_t)(count - near - 1));
    count--;
    enter(r);
}

static void stair(uint32_t family)
{
    uint32_t words[4] = { 0 }, width = width_of(family), ones[4];
    add(family, words, 0, 0, 65000);
    for (uint32_t i = 0; i < width; i++) {
        for (int k = 0; k < 4; k++)
            ones[k] = family == 6 || k == 0 ? 0xffffffffu : 0;
        ones[i / 32] &= ~(0x80000000u >> i % 32);
        add(family, ones, width, width, 65000);
    }
    while (count < RECORDS) /* others, far below */
        words[0] = 0x0a000000 + (uint32_t)count, add(family, words, 32, 32, 65000);
}

static void chain(uint32_t family)
{
    uint32_t words[4] = { 0xcb007100 | 0xab, 0, 0, 0 }, other[4] = { 0 };
    if (family == 6)
        words[0] = 0x20010db8, words[1] = any(), words[2] = any(), words[3] = any();
    for (uint32_t n = 0; n <= width_of(family); n++)
        add(family, words, n, width_of(family), 65000);
    while (count < RECORDS)
        other[0] = 0x0a000000 + (uint32_t)count, add(family, other, 32, 32, 65000);
}

static void one_prefix(void)
{
    uint32_t words[4] = { 0xcb000000, 0, 0, 0 };
    for (uint32_t i = 0; i < RECORDS; i++)
        add(4, words, 8, 8 + i % 25, 65000 + i / 25);
}

static void make(const char *name)
{
    int ok = 1;
    if (!strcmp(name, "usual") || !strncmp(name, "loose", 5))
        usual(0);
    else if (!strcmp(name, "ipv6"))
        usual(1);
    else if (!strcmp(name, "one"))
        one_prefix();
    else if (!strncmp(name, "stair", 5))
        stair(name[5] == '6' ? 6 : 4);
    else if (!strncmp(name, "chain", 5))
        chain(name[5] == '6' ? 6 : 4);
    else
        ok = 0;
    if (!strcmp(name, "loose"))
        all_loose();
    else if (!strncmp(name, "loose", 5))
        one_loose((uint32_t)atoi(name + 5));
    if (!ok || count != RECORDS) {
        fprintf(stderr, "routes: no such table, or one of %d records: %s\n", count, name);
        exit(2);
    }
    memcpy(live, table, sizeof table);
    session[HINGEMOSS_SESSION_VERSION] = 1;
    session[HINGEMOSS_SESSION_TABLE] = 1;
    session[HINGEMOSS_SESSION_LIVE] = RECORDS;
    session[HINGEMOSS_SESSION_LIMIT] = HINGEMOSS_RECORDS;
}

/* ---- routes, and their states by a plain loop */

static uint32_t routes[PEER][SIX];
static uint64_t states[PEER], given[PEER]; /* the plain loop's, and the call's */
static int asked;

static uint64_t state_of(const uint32_t *q)
{
    uint32_t length = q[0] & 65535;
    uint64_t found = 0;
    for (int i = 0; i < RECORDS; i++) {
        const uint32_t *n = table[i].n;
        int same = family_of(n) == q[0] >> 16 && length_of(n) <= length;
        for (int k = 0; same && k < 4; k++)
            same = ((n[1 + k] ^ q[1 + k]) & mask(k, length_of(n))) == 0;
        if (!same)
            continue;
        found = 2;
        if (length <= (n[0] & 255) && n[5] == q[5] && q[5] != 0)
            return 1;
    }
    return found;
}

/* As a peer sends them: two in three at or under a record, most of them by its origin; else some route of the same family's space. Address bits behind the length are 0. */
static void some_route(uint32_t *q)
{
    const uint32_t *n = table[below(RECORDS)].n;
    uint32_t family = family_of(n), length = length_of(n), most = n[0] & 255;
    memcpy(q, n, sizeof routes[0]);
    if (below(3)) {
        uint32_t longest = width_of(family) == 32 ? (length < 24 ? 24 : 32) : (length < 48 ? 48 : 128);
        length = below(2) ? length : below(3) ? length + below(most - length + 1) : length + below(longest - length + 1);
        q[5] = below(4) ? n[5] : 1000 + below(60000);
    } else {
        length = family == 4 ? 16 + below(9) : 32 + below(17);
        q[1] ^= any() & ~mask(0, family == 4 ? 8 : 16);
        q[2] = family == 4 ? 0 : any();
        q[5] = 1000 + below(60000);
    }
    for (int i = 0; i < 4; i++)
        q[1 + i] = (q[1 + i] | (family == 6 || i == 0 ? any() & ~mask(i, length_of(n)) : 0)) & mask(i, length);
    q[0] = family << 16 | length;
}

/* The route above the stair, or at the chain's end. */
static void worst_route(const char *name, uint32_t *q)
{
    uint32_t family = name[5] == '6' ? 6 : 4;
    q[0] = family << 16 | width_of(family);
    for (int i = 0; i < 4; i++)
        q[1 + i] = family == 4 && i ? 0 : 0xffffffffu;
    if (name[0] == 'c')
        for (int i = 0; i < RECORDS; i++)
            if (length_of(table[i].n) == width_of(family) && family_of(table[i].n) == family && table[i].n[1] >= 0x20000000)
                memcpy(q + 1, table[i].n + 1, 4 * sizeof q[0]);
    q[5] = 64999;
}

/* At most so many routes of that list, of a hundred times as many that are tried. */
static void choose(const char *name, const char *list, int most)
{
    int wanted = !strcmp(list, "notfound") ? 0 : !strcmp(list, "valid") ? 1 : !strcmp(list, "invalid") ? 2 : -1, is_worst = !strncmp(name, "stair", 5) || !strncmp(name, "chain", 5);
    for (int i = 0; i < TRIED * most && asked < most; i++) {
        uint32_t *q = routes[asked];
        some_route(q);
        if (is_worst)
            worst_route(name, q);
        states[asked] = state_of(q);
        if (wanted >= 0 && states[asked] != (uint64_t)wanted)
            continue;
        if (!strcmp(list, "refused"))
            q[0] = (q[0] >> 16) << 16 | 129, states[asked] = 0;
        asked++;
    }
}

/* ---- the whole list in one call */

static uint8_t answered[PEER];

static int ask_all(long rounds, uint8_t refused)
{
    for (; rounds > 0; rounds--) {
        uint64_t written;
        uint8_t answer = hingemoss_validate_all(LENT, routes[0], (size_t)asked * SIX, answered, (size_t)asked, &written);
        if (answer || written != (uint64_t)asked) {
            fprintf(stderr, "routes: all: answer %u, %llu written\n", answer, (unsigned long long)written);
            return 1;
        }
    }
    for (int i = 0; i < asked; i++) {
        given[i] = answered[i];
        if (answered[i] != (refused ? refused : states[i])) {
            fprintf(stderr, "routes: all: route %d: state %u for %llu\n", i, answered[i], (unsigned long long)states[i]);
            return 1;
        }
    }
    return 0;
}

/* ---- librtr: the same records and routes in its own words. It asks for prefixes without host bits, and for none of length 0. */

#ifdef LIBRTR
static struct pfx_table theirs;
static struct lrtr_ip_addr their_routes[PEER];

static struct lrtr_ip_addr their_address(uint32_t family, const uint32_t *words, uint32_t length)
{
    struct lrtr_ip_addr a = { .ver = family == 4 ? LRTR_IPV4 : LRTR_IPV6 };
    if (family == 4)
        a.u.addr4.addr = words[0] & mask(0, length);
    else
        for (int i = 0; i < 4; i++)
            a.u.addr6.addr[i] = words[i] & mask(i, length);
    return a;
}

static int make_theirs(void)
{
    pfx_table_init(&theirs, NULL);
    for (int i = 0; i < RECORDS; i++) {
        const uint32_t *n = table[i].n;
        struct pfx_record r = { .asn = n[5], .prefix = their_address(family_of(n), n + 1, length_of(n)), .min_len = (uint8_t)length_of(n), .max_len = (uint8_t)n[0] };
        int answer = length_of(n) ? pfx_table_add(&theirs, &r) : PFX_ERROR;
        if (answer != PFX_SUCCESS && answer != PFX_DUPLICATE_RECORD)
            return 0;
    }
    for (int i = 0; i < asked; i++)
        their_routes[i] = their_address(routes[i][0] >> 16, routes[i] + 1, routes[i][0] & 65535);
    return 1;
}

static uint8_t ask_theirs(int i, uint64_t *state)
{
    enum pfxv_state result;
    int answer = pfx_table_validate(&theirs, routes[i][5], &their_routes[i], (uint8_t)routes[i][0], &result);
    *state = result == BGP_PFXV_STATE_VALID ? 1 : result == BGP_PFXV_STATE_INVALID ? 2 : 0;
    return (uint8_t)answer;
}
#endif

int main(int c, char **v)
{
    if (c != 5 && c != 6)
        return 2;
    const char *call = v[4];
    int most = c == 6 ? atoi(v[5]) : ROUTES;
    uint64_t sum = 0, expected = !strcmp(v[3], "refused") ? REFUSED : 0;
    if (most < 1 || most > PEER)
        return 2;
    make(v[2]);
    choose(v[2], v[3], most);
#ifdef LIBRTR
    if (call[0] == 'l' && !make_theirs()) {
        fprintf(stderr, "routes: librtr does not take table %s\n", v[2]);
        return 2;
    }
#endif
    if (call[0] == 'a' && ask_all(atol(v[1]), (uint8_t)expected))
        return 1;
    for (long n = call[0] == 'a' ? 0 : atol(v[1]); n > 0; n--)
        for (int i = 0; i < asked; i++) {
            uint8_t answer = (uint8_t)expected;
            given[i] = states[i];
            if (call[0] == 'q')
                answer = hingemoss_validate(LENT, routes[i], SIX, &given[i]);
            else if (call[0] == 's')
                answer = test_validate_by_scan(LENT, routes[i], SIX, &given[i]);
            else if (call[0] == 't')
                answer = (uint8_t)(expected + hingemoss_notify(LENT, &sum) + sum), given[i] = states[i];
#ifdef LIBRTR
            else if (call[0] == 'l')
                answer = ask_theirs(i, &given[i]);
#endif
            if (answer != expected || given[i] != states[i]) {
                fprintf(stderr, "routes: %s %s %s: route %d: answer %u, state %llu for %llu\n", v[2], v[3], call, i, answer, (unsigned long long)given[i], (unsigned long long)states[i]);
                return 1;
            }
        }
    int of[3] = { 0 };
    for (int i = 0; i < asked; i++)
        sum = sum * 31 + given[i], of[states[i]]++;
    printf("%d %d %d %d %016llx\n", asked, of[1], of[2], of[0], (unsigned long long)sum);
    return 0;
}
