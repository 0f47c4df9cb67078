/* The mode `hosts`: a long-running host, played twice, side by side. One receiver's record is lent to every call (rtr_held), the other goes through the library for hosts. After each call the
 * session's numbers, the answer, what was taken and finished, the query, both rooms and the hold are compared. First 5,000 feeds of one piece, over a record that is lent once for all of them;
 * then two loads of 1,000 prefixes, a Serial Notify and a change that withdraws half of them, in pieces of 7; then a stop that repeats, an ask that is refused, memory that is no receiver's, and
 * a new connection. At the end captured bytes are read by place and through a run. */
#include <string.h>

#include "calls.h"
#include "modes.h"

enum { TIMES = 5000, HOLD = 64 };

struct receiver {
    uint64_t session[HINGEMOSS_SESSION_NUMBERS];
    uint32_t live[HINGEMOSS_ROOM_NUMBERS], working[HINGEMOSS_ROOM_NUMBERS];
    uint8_t hold[HOLD], query[HINGEMOSS_CHANGE_QUERY];
};

static struct receiver lent, other;
static uint64_t calls, same, updates;
static size_t working_lent = HINGEMOSS_ROOM_NUMBERS;

#define LENT(r) (r).session, HINGEMOSS_SESSION_NUMBERS, (r).live, HINGEMOSS_ROOM_NUMBERS, (r).working, working_lent, (r).hold, HOLD

/* A call's answers are the same, and so is all that it leaves. */
static void noted(uint64_t a, uint64_t b)
{
    calls++;
    same += a == b && memcmp(&lent, &other, sizeof lent) == 0;
}

/* ---- Calls of both */

static void feed(const uint8_t *piece, size_t n)
{
    uint64_t taken, finished;
    uint64_t a = test_held_feed(LENT(lent), piece, n);
    uint64_t b = hingemoss_feed(LENT(other), piece, n, &taken, &finished);
    updates += finished;
    noted(a, taken << 16 | finished << 8 | b);
}

static void times(const uint8_t *piece, size_t n)
{
    uint64_t taken, finished;
    test_held_times(LENT(lent), piece, n, TIMES);
    for (int i = 0; i < TIMES; i++)
        hingemoss_feed(LENT(other), piece, n, &taken, &finished);
    noted(0, 0);
}

static void full_ask(void)
{
    uint64_t a = test_held_ask(1, LENT(lent), lent.query, HINGEMOSS_FULL_QUERY);
    noted(a % 256, hingemoss_full_ask(LENT(other), other.query, HINGEMOSS_FULL_QUERY));
}

static void change_ask(void)
{
    uint64_t a = test_held_ask(0, LENT(lent), lent.query, HINGEMOSS_CHANGE_QUERY);
    noted(a % 256, hingemoss_change_ask(LENT(other), other.query, HINGEMOSS_CHANGE_QUERY));
}

static void reconnect(void)
{
    uint8_t a = test_held_reconnect(LENT(lent));
    noted(a, hingemoss_reconnect(LENT(other)));
}

static void notify(void)
{
    uint64_t compared;
    uint8_t answer = hingemoss_notify(LENT(other), &compared);
    noted(test_held_notify(LENT(lent)), answer ? answer : compared);
}

static void start(uint8_t version)
{
    if (hingemoss_start(version, LENT(lent)) != HINGEMOSS_OK || hingemoss_start(version, LENT(other)) != HINGEMOSS_OK)
        fault("a start");
}

/* ---- The play */

/* A Cache Response; the announcement (flags 1) or withdrawal (0) of so many prefixes 10.x.y.0/24 in pieces of 7, 7 and 6 bytes; an End of Data. */
static void answer(uint8_t flags, int count, uint8_t serial)
{
    static const uint8_t response[] = { 1, 3, 0, 7, 0, 0, 0, 8 };
    uint8_t end[] = { 1, 7, 0, 7, 0, 0, 0, 24, 0, 0, 0, serial, 0, 0, 14, 16, 0, 0, 2, 88, 0, 0, 28, 32 };
    feed(response, sizeof response);
    for (int i = 0; i < count; i++) {
        uint8_t prefix[] = { 1, 4, 0, 0, 0, 0, 0, 20, flags, 24, 24, 0, 10, (uint8_t)(i / 256), (uint8_t)i, 0, 0, 0, 253, 232 };
        feed(prefix, 7);
        feed(prefix + 7, 7);
        feed(prefix + 14, 6);
    }
    feed(end, sizeof end);
}

static void load(uint8_t serial)
{
    reconnect();
    full_ask();
    answer(1, 1000, serial);
}

static uint64_t play(void)
{
    /* three times these four are a Serial Notify (version and type 0; session, length and serial 12), so that two pieces of three end within a PDU, and what is held tells how often they were fed */
    static const uint8_t four[] = { 0, 0, 0, 12 }, newer[] = { 1, 0, 0, 7, 0, 0, 0, 12, 0, 0, 0, 7 }, wrong[] = { 1, 99, 0, 0, 0, 0, 0, 8 };
    start(0);
    times(four, sizeof four);
    uint64_t held = other.session[HINGEMOSS_SESSION_HELD];
    start(1);
    load(5);
    load(6);
    feed(newer, sizeof newer);
    notify();
    change_ask();
    answer(0, 500, 7);
    feed(wrong, sizeof wrong);
    feed(wrong, sizeof wrong);
    full_ask();
    working_lent = 6; /* a working room of one record is no receiver's */
    feed(wrong, sizeof wrong);
    working_lent = HINGEMOSS_ROOM_NUMBERS;
    reconnect();
    full_ask();
    return held;
}

/* ---- Runs */

/* By place and through a run: the same answer, the same place to go on from, and as much left. */
static int is_same_read(const uint8_t *bytes, size_t n, size_t at, uint64_t *next)
{
    uint64_t a[HINGEMOSS_PDU_NUMBERS] = { 0 }, b[HINGEMOSS_PDU_NUMBERS] = { 0 }, behind, rest;
    uint8_t done = test_rest(bytes, n, at, &rest);
    return test_read(0, bytes, n, at, a, HINGEMOSS_PDU_NUMBERS, next) == test_read(1, bytes, n, at, b, HINGEMOSS_PDU_NUMBERS, &behind) && *next == behind && memcmp(a, b, sizeof a) == 0
        && rest == (at < n ? n - at : 0) && done == (at >= n);
}

/* How many PDUs stand in a row; 0 where the two ways differ anywhere, at the end and past it too. */
static uint64_t in_a_row(void)
{
    /* a Cache Response, a prefix, a Reset Query and the first seven bytes of another */
    static const uint8_t bytes[] = { 1, 3, 0, 7, 0, 0, 0, 8, 1, 4, 0, 0, 0, 0, 0, 20, 1, 24, 24, 0, 10, 0, 0, 0, 0, 0, 253, 232, 1, 2, 0, 0, 0, 0, 0, 8, 1, 2, 0, 0, 0, 0, 0 };
    uint64_t next, at = 0, count = 0;
    if (!is_same_read(bytes, sizeof bytes, sizeof bytes, &next) || !is_same_read(bytes, sizeof bytes, (size_t)-1, &next))
        return 0;
    for (;; at = next, count++) {
        if (!is_same_read(bytes, sizeof bytes, at, &next))
            return 0;
        if (next <= at)
            return count;
    }
}

void hosts(void)
{
    uint64_t held = play(), pdus = in_a_row();
    put_field(&out, "calls=", calls);
    put_field(&out, " updates=", updates);
    put_field(&out, " records=", other.session[HINGEMOSS_SESSION_LIVE]);
    put_field(&out, " times=", TIMES);
    put_field(&out, " held=", held);
    put_field(&out, " pdus=", pdus);
    put_text(&out, same == calls ? " same: yes\n" : " same: no\n");
}
