/* Our side of the rows about the receiver and the walk: C loops over the library for hosts, as a host has them. Reading, encoding and the stream are crates/test_bench. */
#include "../include/hingemoss.h"

static uint64_t session[HINGEMOSS_SESSION_NUMBERS];

/* A fresh receiver asks for all and is fed a whole answer: records in the live table. */
uint64_t bench_load(uint32_t *live, size_t l, uint32_t *working, size_t w, uint8_t *hold, size_t h, const uint8_t *bytes, size_t n, size_t piece)
{
    uint8_t query[HINGEMOSS_FULL_QUERY];
    uint64_t taken, updates;
    hingemoss_start(1, session, HINGEMOSS_SESSION_NUMBERS, live, l, working, w, hold, h);
    hingemoss_full_ask(session, HINGEMOSS_SESSION_NUMBERS, live, l, working, w, hold, h, query, sizeof query);
    for (size_t at = 0, size; at < n; at += size) {
        size = n - at < piece ? n - at : piece;
        hingemoss_feed(session, HINGEMOSS_SESSION_NUMBERS, live, l, working, w, hold, h, bytes + at, size, &taken, &updates);
    }
    return session[HINGEMOSS_SESSION_LIVE];
}

/* A load, and then so many calls that do little but test for 22. */
uint64_t bench_notify(uint32_t *live, size_t l, uint32_t *working, size_t w, uint8_t *hold, size_t h, const uint8_t *bytes, size_t n, size_t times)
{
    uint64_t sum = bench_load(live, l, working, w, hold, h, bytes, n, 4096), compared;
    for (size_t i = 0; i < times; i++)
        sum = 3 * sum + hingemoss_notify(session, HINGEMOSS_SESSION_NUMBERS, live, l, working, w, hold, h, &compared);
    return sum;
}

/* The level at which a walk ends, and how. */
uint64_t bench_walk(const uint8_t *bytes, size_t n)
{
    uint64_t level, end, value;
    return hingemoss_walk(bytes, n, &level, &end, &value) ? 0 : 4 * level + end;
}
