/* Every call of include/hingemoss.h, once well and once refused, with document 01's bytes and numbers. Exit status 1 where one answers otherwise. */
#include <stdio.h>
#include <string.h>

#include "hingemoss.h"

static int bad;
#define EXPECT(ok) ((ok) ? (void)0 : (void)(bad = 1, printf("calls.c:%d: not so: %s\n", __LINE__, #ok)))

static uint64_t session[HINGEMOSS_SESSION_NUMBERS], before[HINGEMOSS_SESSION_NUMBERS];
static uint32_t live[HINGEMOSS_ROOM_NUMBERS], working[HINGEMOSS_ROOM_NUMBERS];
static uint8_t hold[64], out[64];

#define SESSION session, HINGEMOSS_SESSION_NUMBERS
#define LIVE live, HINGEMOSS_ROOM_NUMBERS
#define WORKING working, HINGEMOSS_ROOM_NUMBERS
#define HOLD hold, sizeof hold

static const uint8_t reset_query[] = { 1, 2, 0, 0, 0, 0, 0, 8 };
static const uint8_t nested[] = { 1, 10, 0, 0, 0, 0, 0, 24, 0, 0, 0, 8, 1, 2, 0, 0, 0, 0, 0, 8, 0, 0, 0, 0 };
static const uint8_t load[] = { 1, 3, 0x12, 0x34, 0, 0, 0, 8,
                                1, 4, 0, 0, 0, 0, 0, 20, 1, 24, 24, 0, 0xc0, 0, 2, 0, 0, 0, 0xfb, 0xf0,
                                1, 7, 0x12, 0x34, 0, 0, 0, 24, 0, 0, 0, 7, 0, 0, 0x0e, 0x10, 0, 0, 2, 0x58, 0, 0, 0x1c, 0x20 };
static const uint8_t newer[] = { 1, 0, 0x12, 0x34, 0, 0, 0, 12, 0, 0, 0, 8 };
static const uint8_t other_version[] = { 0, 8, 0, 0, 0, 0, 0, 8 };
static const char listing[] = "stopped=0\nsession=4660\nserial=7\nrefresh=3600\nretry=600\nexpire=7200\ncount=0001\nfamily=4\naddress=c0000200\nlength=24\nmax=24\nasn=64496\n";

static void codec(void)
{
    uint64_t pdu[HINGEMOSS_PDU_NUMBERS], written, level, end, value;
    EXPECT(hingemoss_read(reset_query, 8, pdu, HINGEMOSS_PDU_NUMBERS) == HINGEMOSS_OK);
    EXPECT(pdu[HINGEMOSS_PDU_TYPE] == 2 && pdu[HINGEMOSS_PDU_VERSION] == 1 && pdu[HINGEMOSS_PDU_CONSUMED] == 8 && pdu[3] == 0);
    EXPECT(hingemoss_read(reset_query, 7, pdu, HINGEMOSS_PDU_NUMBERS) == HINGEMOSS_REFUSED_INCOMPLETE && pdu[HINGEMOSS_PDU_CONSUMED] == 8);
    EXPECT(hingemoss_read_value(reset_query, 7, 0) == 7 && hingemoss_read_value(reset_query, 7, 1) == 8 && hingemoss_read_value(reset_query, 7, 2) == 0);
    EXPECT(hingemoss_read(reset_query, 8, pdu, HINGEMOSS_PDU_NUMBERS - 1) == HINGEMOSS_REFUSED_OUTPUT_SHORT);
    uint64_t more[HINGEMOSS_PDU_NUMBERS + 1] = { 7 };
    EXPECT(hingemoss_read(reset_query, 8, more, HINGEMOSS_PDU_NUMBERS + 1) == HINGEMOSS_REFUSED_OUTPUT_SHORT && more[0] == 7);
    EXPECT(hingemoss_encode(pdu, HINGEMOSS_PDU_NUMBERS, reset_query, 0, out, sizeof out, &written) == HINGEMOSS_OK && written == 8 && memcmp(out, reset_query, 8) == 0);
    EXPECT(hingemoss_encode(pdu, HINGEMOSS_PDU_NUMBERS, reset_query, 0, out, 7, &written) == HINGEMOSS_REFUSED_OUTPUT_SHORT && written == 8);
    pdu[HINGEMOSS_PDU_TYPE] = 5;
    EXPECT(hingemoss_encode(pdu, HINGEMOSS_PDU_NUMBERS, reset_query, 0, out, sizeof out, &written) == HINGEMOSS_REFUSED_NOT_A_RECEIVER && written == 0);
    EXPECT(hingemoss_read(nested, sizeof nested, pdu, HINGEMOSS_PDU_NUMBERS) == HINGEMOSS_OK && pdu[HINGEMOSS_PDU_COPY_START] == 12 && pdu[HINGEMOSS_PDU_COPY_LENGTH] == 8);
    EXPECT(hingemoss_encode(pdu, HINGEMOSS_PDU_NUMBERS, nested, sizeof nested, out, sizeof out, &written) == HINGEMOSS_OK && written == 24 && memcmp(out, nested, 24) == 0);
    EXPECT(hingemoss_encode(pdu, HINGEMOSS_PDU_NUMBERS, nested, 12, out, sizeof out, &written) == HINGEMOSS_REFUSED_PLACE && written == 0);
    EXPECT(hingemoss_walk(nested, sizeof nested, &level, &end, &value) == HINGEMOSS_OK && level == 1 && end == HINGEMOSS_END_PLAIN && value == 2);
    EXPECT(hingemoss_walk(nested, 3, &level, &end, &value) == HINGEMOSS_REFUSED_INCOMPLETE && level == 0 && end == 0 && value == 0);
}

/* One PDU of each type with fields of their own, by the header's names. */
static void fields(void)
{
    static const uint8_t notify[] = { 0, 0, 1, 2, 0, 0, 0, 12, 3, 4, 5, 6 }, query[] = { 1, 1, 1, 2, 0, 0, 0, 12, 3, 4, 5, 6 };
    static const uint8_t response[] = { 1, 3, 1, 2, 0, 0, 0, 8 }, reset[] = { 1, 8, 0, 0, 0, 0, 0, 8 };
    static const uint8_t ipv4[] = { 1, 4, 0, 0, 0, 0, 0, 20, 1, 8, 9, 0, 10, 11, 12, 13, 14, 15, 16, 17 };
    static const uint8_t ipv6[] = { 1, 6, 0, 0, 0, 0, 0, 32, 1, 8, 9, 0, 0, 0, 0, 1, 0, 0, 0, 2, 0, 0, 0, 3, 0, 0, 0, 4, 0, 0, 0, 5 };
    static const uint8_t end[] = { 1, 7, 1, 2, 0, 0, 0, 24, 0, 0, 0, 3, 0, 0, 0, 4, 0, 0, 0, 5, 0, 0, 0, 6 };
    uint8_t key[40] = { 1, 9, 0, 0, 0, 0, 0, 40, 1 }, report[27] = { 1, 10, 0, 2, 0, 0, 0, 27, 0, 0, 0, 8, 1, 2, 0, 0, 0, 0, 0, 8, 0, 0, 0, 3, 'a', 'b', 'c' };
    uint64_t pdu[HINGEMOSS_PDU_NUMBERS];
    key[33] = 7;
#define READS(bytes) (hingemoss_read(bytes, sizeof bytes, pdu, HINGEMOSS_PDU_NUMBERS) == HINGEMOSS_OK && pdu[HINGEMOSS_PDU_CONSUMED] == sizeof bytes)
    EXPECT(READS(notify) && pdu[HINGEMOSS_PDU_TYPE] == 0 && pdu[HINGEMOSS_PDU_VERSION] == 0 && pdu[HINGEMOSS_PDU_SESSION_ID] == 0x102 && pdu[HINGEMOSS_PDU_SERIAL] == 0x3040506);
    EXPECT(READS(query) && pdu[HINGEMOSS_PDU_TYPE] == 1 && pdu[HINGEMOSS_PDU_SESSION_ID] == 0x102 && pdu[HINGEMOSS_PDU_SERIAL] == 0x3040506);
    EXPECT(READS(response) && pdu[HINGEMOSS_PDU_TYPE] == 3 && pdu[HINGEMOSS_PDU_SESSION_ID] == 0x102);
    EXPECT(READS(reset) && pdu[HINGEMOSS_PDU_TYPE] == 8);
    EXPECT(READS(ipv4) && pdu[HINGEMOSS_PDU_FLAGS] == 1 && pdu[HINGEMOSS_PDU_PREFIX_LENGTH] == 8 && pdu[HINGEMOSS_PDU_MAX_LENGTH] == 9 && pdu[HINGEMOSS_PDU_IPV4] == 0x0a0b0c0d && pdu[HINGEMOSS_PDU_IPV4_ASN] == 0x0e0f1011);
    EXPECT(READS(ipv6) && pdu[HINGEMOSS_PDU_FLAGS] == 1 && pdu[HINGEMOSS_PDU_PREFIX_LENGTH] == 8 && pdu[HINGEMOSS_PDU_MAX_LENGTH] == 9);
    EXPECT(pdu[HINGEMOSS_PDU_IPV6] == 1 && pdu[HINGEMOSS_PDU_IPV6 + 1] == 2 && pdu[HINGEMOSS_PDU_IPV6 + 2] == 3 && pdu[HINGEMOSS_PDU_IPV6 + 3] == 4 && pdu[HINGEMOSS_PDU_IPV6_ASN] == 5);
    EXPECT(READS(end) && pdu[HINGEMOSS_PDU_SERIAL] == 3 && pdu[HINGEMOSS_PDU_REFRESH] == 4 && pdu[HINGEMOSS_PDU_RETRY] == 5 && pdu[HINGEMOSS_PDU_EXPIRE] == 6);
    EXPECT(READS(key) && pdu[HINGEMOSS_PDU_FLAGS] == 1 && pdu[HINGEMOSS_PDU_KEY_START] == 10 && pdu[HINGEMOSS_PDU_KEY_LENGTH] == 20 && pdu[HINGEMOSS_PDU_KEY_ASN] == 7);
    EXPECT(pdu[HINGEMOSS_PDU_INFO_START] == 34 && pdu[HINGEMOSS_PDU_INFO_LENGTH] == 6);
    EXPECT(READS(report) && pdu[HINGEMOSS_PDU_CODE] == 2 && pdu[HINGEMOSS_PDU_COPY_START] == 12 && pdu[HINGEMOSS_PDU_COPY_LENGTH] == 8 && pdu[HINGEMOSS_PDU_TEXT_START] == 24 && pdu[HINGEMOSS_PDU_TEXT_LENGTH] == 3);
}

/* Each end of a walk. */
static void ends(void)
{
    static const uint8_t empty[] = { 1, 10, 0, 0, 0, 0, 0, 16, 0, 0, 0, 0, 0, 0, 0, 0 };
    static const uint8_t cut[] = { 1, 10, 0, 0, 0, 0, 0, 17, 0, 0, 0, 1, 1, 0, 0, 0, 0 };
    static uint8_t deep[8 * 1024];
    uint64_t level, end, value;
    uint32_t length = 8;
    EXPECT(hingemoss_walk(empty, sizeof empty, &level, &end, &value) == HINGEMOSS_OK && level == 0 && end == HINGEMOSS_END_EMPTY && value == 0);
    EXPECT(hingemoss_walk(cut, sizeof cut, &level, &end, &value) == HINGEMOSS_OK && level == 0 && end == HINGEMOSS_END_REFUSED && value == HINGEMOSS_REFUSED_INCOMPLETE);
    memcpy(deep, reset_query, 8);
    for (int i = 0; i < 18; i++, length += 16) {
        memmove(deep + 12, deep, length);
        memset(deep, 0, 12);
        deep[0] = 1, deep[1] = 10, deep[6] = (uint8_t)((length + 16) >> 8), deep[7] = (uint8_t)(length + 16);
        deep[10] = (uint8_t)(length >> 8), deep[11] = (uint8_t)length;
        memset(deep + 12 + length, 0, 4);
    }
    EXPECT(hingemoss_walk(deep, length, &level, &end, &value) == HINGEMOSS_OK && level == 16 && end == HINGEMOSS_END_TOO_DEEP && value == 0);
}

/* A stop's number and values in the session, and every comparison. */
static void stops(void)
{
    static const uint8_t long_one[] = { 1, 3, 0, 0, 0, 0, 0, 7 }, over_hold[] = { 1, 9, 0, 0, 0, 0, 1, 0 };
    static const uint8_t bad_lengths[] = { 1, 4, 0, 0, 0, 0, 0, 20, 1, 9, 8, 0, 0, 0, 0, 0, 0, 0, 0, 0 };
    static const uint8_t report[] = { 0, 10, 0, 3, 0, 0, 0, 16, 0, 0, 0, 0, 0, 0, 0, 0 };
    static const uint32_t serials[] = { 7, 8, 6, 7 + 0x80000000u };
    static const uint64_t compared[] = { HINGEMOSS_NOTED_SAME, HINGEMOSS_NOTED_NEWER, HINGEMOSS_NOTED_OLDER, HINGEMOSS_NOTED_UNDEFINED };
    uint64_t taken, updates, answer;
    EXPECT(hingemoss_start(1, SESSION, LIVE, WORKING, HOLD) == HINGEMOSS_OK);
#define STOPS(bytes, number, a, b, c) (hingemoss_feed(SESSION, LIVE, WORKING, HOLD, bytes, sizeof bytes, &taken, &updates) == (number) && session[HINGEMOSS_SESSION_DETAIL] == (number) \
    && session[HINGEMOSS_SESSION_FIRST] == (a) && session[HINGEMOSS_SESSION_SECOND] == (b) && session[HINGEMOSS_SESSION_THIRD] == (c) && hingemoss_reconnect(SESSION, LIVE, WORKING, HOLD) == HINGEMOSS_OK)
    EXPECT(STOPS(long_one, HINGEMOSS_REFUSED_LENGTH, 8, 7, 3));
    EXPECT(STOPS(over_hold, HINGEMOSS_REFUSED_OVER_HOLD, 256, 0, 0));
    EXPECT(STOPS(bad_lengths, HINGEMOSS_REFUSED_PREFIX_LENGTH, 9, 8, 32));
    EXPECT(STOPS(report, HINGEMOSS_REFUSED_ERROR_REPORT, 3, 0, 0));
    EXPECT(STOPS(load, HINGEMOSS_REFUSED_OUT_OF_TURN, 0, 0, 0));
    EXPECT(hingemoss_full_ask(SESSION, LIVE, WORKING, HOLD, out, HINGEMOSS_FULL_QUERY) == HINGEMOSS_OK);
    EXPECT(hingemoss_feed(SESSION, LIVE, WORKING, HOLD, load, sizeof load, &taken, &updates) == HINGEMOSS_OK && updates == 1);
    EXPECT(session[HINGEMOSS_SESSION_ID] == 0x1234 && session[HINGEMOSS_SESSION_REFRESH] == 3600 && session[HINGEMOSS_SESSION_RETRY] == 600 && session[HINGEMOSS_SESSION_EXPIRE] == 7200);
    for (int i = 0; i < 4; i++) {
        uint8_t note[12];
        memcpy(note, newer, 12);
        note[8] = (uint8_t)(serials[i] >> 24), note[11] = (uint8_t)serials[i];
        EXPECT(hingemoss_feed(SESSION, LIVE, WORKING, HOLD, note, 12, &taken, &updates) == HINGEMOSS_OK);
        EXPECT(session[HINGEMOSS_SESSION_NOTE] == 1 && session[HINGEMOSS_SESSION_NOTE_ID] == 0x1234 && session[HINGEMOSS_SESSION_NOTE_SERIAL] == serials[i]);
        EXPECT(hingemoss_notify(SESSION, LIVE, WORKING, HOLD, &answer) == HINGEMOSS_OK && answer == compared[i]);
    }
    session[HINGEMOSS_SESSION_NOTE_ID] = 1;
    EXPECT(hingemoss_notify(SESSION, LIVE, WORKING, HOLD, &answer) == HINGEMOSS_OK && answer == HINGEMOSS_NOTED_OTHER_SESSION);
    EXPECT(hingemoss_change_ask(SESSION, LIVE, WORKING, HOLD, out, HINGEMOSS_CHANGE_QUERY) == HINGEMOSS_OK && session[HINGEMOSS_SESSION_PHASE] == HINGEMOSS_ASKED_CHANGE);
    EXPECT(hingemoss_feed(SESSION, LIVE, WORKING, HOLD, load, 8, &taken, &updates) == HINGEMOSS_OK && session[HINGEMOSS_SESSION_PHASE] == HINGEMOSS_LOADING_CHANGE);
    EXPECT(session[HINGEMOSS_SESSION_WORKING] == 1 && hingemoss_reconnect(SESSION, LIVE, WORKING, HOLD) == HINGEMOSS_OK && session[HINGEMOSS_SESSION_WORKING] == 0);
}

static void receiver(void)
{
    uint64_t taken, updates, answer, written;
    uint8_t text[256];
    EXPECT(hingemoss_start(2, SESSION, LIVE, WORKING, HOLD) == HINGEMOSS_REFUSED_NOT_A_RECEIVER);
    EXPECT(hingemoss_start(1, SESSION, LIVE, WORKING, hold, HINGEMOSS_HOLD_LEAST - 1) == HINGEMOSS_REFUSED_NOT_A_RECEIVER);
    EXPECT(hingemoss_start(1, SESSION, LIVE, WORKING, HOLD) == HINGEMOSS_OK && session[HINGEMOSS_SESSION_VERSION] == 1);
    EXPECT(hingemoss_change_ask(SESSION, LIVE, WORKING, HOLD, out, sizeof out) == HINGEMOSS_REFUSED_NO_TABLE);
    EXPECT(hingemoss_full_ask(SESSION, LIVE, WORKING, HOLD, out, 7) == HINGEMOSS_REFUSED_OUTPUT_SHORT && session[HINGEMOSS_SESSION_PHASE] == HINGEMOSS_IDLE);
    EXPECT(hingemoss_full_ask(SESSION, LIVE, WORKING, HOLD, out, sizeof out) == HINGEMOSS_OK && memcmp(out, reset_query, 8) == 0);
    EXPECT(session[HINGEMOSS_SESSION_PHASE] == HINGEMOSS_ASKED_FULL);
    EXPECT(hingemoss_full_ask(SESSION, LIVE, WORKING, HOLD, out, sizeof out) == HINGEMOSS_REFUSED_WRONG_PHASE);

    EXPECT(hingemoss_feed(SESSION, LIVE, WORKING, HOLD, load, sizeof load - 1, &taken, &updates) == HINGEMOSS_OK && taken == sizeof load - 1 && updates == 0);
    EXPECT(session[HINGEMOSS_SESSION_PHASE] == HINGEMOSS_LOADING_FULL && session[HINGEMOSS_SESSION_DETAIL] == 0x1234 && session[HINGEMOSS_SESSION_HELD] == 23);
    EXPECT(hingemoss_feed(SESSION, LIVE, WORKING, HOLD, load + sizeof load - 1, 1, &taken, &updates) == HINGEMOSS_OK && taken == 1 && updates == 1);
    EXPECT(session[HINGEMOSS_SESSION_TABLE] == 1 && session[HINGEMOSS_SESSION_SERIAL] == 7 && session[HINGEMOSS_SESSION_LIVE] == 1);
    EXPECT(live[HINGEMOSS_RECORD_KIND] == 4u * 65536 + 24 * 256 + 24 && live[HINGEMOSS_RECORD_ADDRESS] == 0xc0000200u && live[HINGEMOSS_RECORD_ASN] == 64496);

    EXPECT(hingemoss_notify(SESSION, LIVE, WORKING, HOLD, &answer) == HINGEMOSS_OK && answer == HINGEMOSS_NOTED_NOTHING);
    EXPECT(hingemoss_feed(SESSION, LIVE, WORKING, HOLD, newer, sizeof newer, &taken, &updates) == HINGEMOSS_OK && updates == 0);
    EXPECT(hingemoss_notify(SESSION, LIVE, WORKING, HOLD, &answer) == HINGEMOSS_OK && answer == HINGEMOSS_NOTED_NEWER);
    EXPECT(hingemoss_listing(SESSION, LIVE, text, sizeof text, &written) == HINGEMOSS_OK && written == sizeof listing - 1 && memcmp(text, listing, written) == 0);
    EXPECT(hingemoss_listing(SESSION, LIVE, text, 8, &written) == HINGEMOSS_REFUSED_OUTPUT_SHORT && written == sizeof listing - 1);

    EXPECT(hingemoss_change_ask(SESSION, LIVE, WORKING, HOLD, out, sizeof out) == HINGEMOSS_OK && out[1] == 1 && out[11] == 7);
    EXPECT(hingemoss_feed(SESSION, LIVE, WORKING, HOLD, other_version, 8, &taken, &updates) == HINGEMOSS_REFUSED_OTHER_VERSION && taken == 8 && updates == 0);
    EXPECT(session[HINGEMOSS_SESSION_PHASE] == HINGEMOSS_STOPPED && session[HINGEMOSS_SESSION_DETAIL] == HINGEMOSS_REFUSED_OTHER_VERSION);
    EXPECT(hingemoss_feed(SESSION, LIVE, WORKING, HOLD, load, 8, &taken, &updates) == HINGEMOSS_REFUSED_OTHER_VERSION && taken == 0);
    EXPECT(hingemoss_reconnect(SESSION, LIVE, WORKING, HOLD) == HINGEMOSS_OK);
    EXPECT(session[HINGEMOSS_SESSION_PHASE] == HINGEMOSS_IDLE && session[HINGEMOSS_SESSION_TABLE] == 1 && session[HINGEMOSS_SESSION_NOTE] == 0);

    /* The limit is set by the start. Another one, and anything behind it, are refused by 22. */
    EXPECT(session[HINGEMOSS_SESSION_LIMIT] == HINGEMOSS_RECORDS);
    for (int i = HINGEMOSS_SESSION_LIMIT; i < HINGEMOSS_SESSION_NUMBERS; i++) {
        session[i]--;
        EXPECT(hingemoss_notify(SESSION, LIVE, WORKING, HOLD, &answer) == HINGEMOSS_REFUSED_NOT_A_RECEIVER && hingemoss_listing(SESSION, LIVE, text, sizeof text, &written) == HINGEMOSS_REFUSED_NOT_A_RECEIVER);
        session[i]++;
        EXPECT(hingemoss_notify(SESSION, LIVE, WORKING, HOLD, &answer) == HINGEMOSS_OK);
    }

    /* Numbers that are no session's: 22, and nothing changes. */
    session[HINGEMOSS_SESSION_FIRST] = 1;
    memcpy(before, session, sizeof before);
    EXPECT(hingemoss_feed(SESSION, LIVE, WORKING, HOLD, load, sizeof load, &taken, &updates) == HINGEMOSS_REFUSED_NOT_A_RECEIVER && taken == 0 && updates == 0);
    EXPECT(hingemoss_full_ask(SESSION, LIVE, WORKING, HOLD, out, sizeof out) == HINGEMOSS_REFUSED_NOT_A_RECEIVER);
    EXPECT(hingemoss_change_ask(SESSION, LIVE, WORKING, HOLD, out, sizeof out) == HINGEMOSS_REFUSED_NOT_A_RECEIVER);
    EXPECT(hingemoss_reconnect(SESSION, LIVE, WORKING, HOLD) == HINGEMOSS_REFUSED_NOT_A_RECEIVER);
    EXPECT(hingemoss_notify(SESSION, LIVE, WORKING, HOLD, &answer) == HINGEMOSS_REFUSED_NOT_A_RECEIVER && answer == 0);
    EXPECT(hingemoss_listing(SESSION, LIVE, text, sizeof text, &written) == HINGEMOSS_REFUSED_NOT_A_RECEIVER && written == 0);
    EXPECT(memcmp(before, session, sizeof before) == 0);
}

/* The receiver's memory kept, and whether it is still the same. */
static uint32_t kept_live[HINGEMOSS_ROOM_NUMBERS], kept_working[HINGEMOSS_ROOM_NUMBERS];
static uint8_t kept_hold[sizeof hold];
static void keep(void) { memcpy(before, session, sizeof before), memcpy(kept_live, live, sizeof live), memcpy(kept_working, working, sizeof working), memcpy(kept_hold, hold, sizeof hold); }
static int is_kept(void)
{
    return memcmp(before, session, sizeof before) == 0 && memcmp(kept_live, live, sizeof live) == 0 && memcmp(kept_working, working, sizeof working) == 0 && memcmp(kept_hold, hold, sizeof hold) == 0;
}

/* Whether a route is good: every state, every refusal in its order, and nothing written but the state. */
static void routes(void)
{
    const uint32_t good[HINGEMOSS_ROUTE_NUMBERS] = { 4u * 65536 + 24, 0xc0000200u, 0, 0, 0, 64496 };
    uint32_t route[HINGEMOSS_ROUTE_NUMBERS + 1] = { 0 }, kept[HINGEMOSS_ROUTE_NUMBERS + 1];
    uint64_t taken, updates, state;
#define ASKED(lent, number, said) (state = 9, memcpy(kept, route, sizeof kept), hingemoss_validate(SESSION, LIVE, WORKING, HOLD, route, lent, &state) == (number) && state == (said) && memcmp(kept, route, sizeof kept) == 0)
#define ASKED_WITH(place, value, number, said) (memcpy(route, good, sizeof good), route[place] = (value), ASKED(HINGEMOSS_ROUTE_NUMBERS, number, said))
    EXPECT(hingemoss_start(1, SESSION, LIVE, WORKING, HOLD) == HINGEMOSS_OK);
    EXPECT(ASKED_WITH(0, good[0], HINGEMOSS_REFUSED_NO_TABLE, 0));
    EXPECT(ASKED_WITH(HINGEMOSS_ROUTE_KIND, 4u * 65536 + 33, HINGEMOSS_REFUSED_NO_TABLE, 0));
    EXPECT(ASKED(HINGEMOSS_ROUTE_NUMBERS - 1, HINGEMOSS_REFUSED_NOT_A_RECEIVER, 0));
    EXPECT(hingemoss_full_ask(SESSION, LIVE, WORKING, HOLD, out, HINGEMOSS_FULL_QUERY) == HINGEMOSS_OK);
    EXPECT(hingemoss_feed(SESSION, LIVE, WORKING, HOLD, load, sizeof load, &taken, &updates) == HINGEMOSS_OK && updates == 1);
    keep();

    EXPECT(ASKED_WITH(0, good[0], HINGEMOSS_OK, HINGEMOSS_STATE_VALID));
    EXPECT(ASKED_WITH(HINGEMOSS_ROUTE_ADDRESS, 0xc00002ffu, HINGEMOSS_OK, HINGEMOSS_STATE_VALID)); /* host bits of a route are not looked at */
    EXPECT(ASKED_WITH(HINGEMOSS_ROUTE_ORIGIN, 64497, HINGEMOSS_OK, HINGEMOSS_STATE_INVALID));
    EXPECT(ASKED_WITH(HINGEMOSS_ROUTE_ORIGIN, 0, HINGEMOSS_OK, HINGEMOSS_STATE_INVALID));
    EXPECT(ASKED_WITH(HINGEMOSS_ROUTE_KIND, 4u * 65536 + 25, HINGEMOSS_OK, HINGEMOSS_STATE_INVALID)); /* over max */
    EXPECT(ASKED_WITH(HINGEMOSS_ROUTE_KIND, 4u * 65536 + 32, HINGEMOSS_OK, HINGEMOSS_STATE_INVALID));
    EXPECT(ASKED_WITH(HINGEMOSS_ROUTE_KIND, 4u * 65536 + 23, HINGEMOSS_OK, HINGEMOSS_STATE_NOT_FOUND));
    EXPECT(ASKED_WITH(HINGEMOSS_ROUTE_ADDRESS, 0xc0000300u, HINGEMOSS_OK, HINGEMOSS_STATE_NOT_FOUND));
    EXPECT(ASKED_WITH(HINGEMOSS_ROUTE_KIND, 6u * 65536 + 24, HINGEMOSS_OK, HINGEMOSS_STATE_NOT_FOUND));
    EXPECT(ASKED_WITH(HINGEMOSS_ROUTE_KIND, 6u * 65536 + 128, HINGEMOSS_OK, HINGEMOSS_STATE_NOT_FOUND));

    EXPECT(ASKED_WITH(HINGEMOSS_ROUTE_KIND, 4u * 65536 + 33, HINGEMOSS_REFUSED_ROUTE, 0));
    EXPECT(ASKED_WITH(HINGEMOSS_ROUTE_KIND, 6u * 65536 + 129, HINGEMOSS_REFUSED_ROUTE, 0));
    EXPECT(ASKED_WITH(HINGEMOSS_ROUTE_KIND, 4u * 65536 + 24 * 256 + 24, HINGEMOSS_REFUSED_ROUTE, 0)); /* a record's first number */
    EXPECT(ASKED_WITH(HINGEMOSS_ROUTE_KIND, 5u * 65536 + 24, HINGEMOSS_REFUSED_ROUTE, 0));
    EXPECT(ASKED_WITH(HINGEMOSS_ROUTE_KIND, 0x1040018u, HINGEMOSS_REFUSED_ROUTE, 0));
    for (int i = HINGEMOSS_ROUTE_ADDRESS + 1; i < HINGEMOSS_ROUTE_ORIGIN; i++)
        EXPECT(ASKED_WITH(i, 1, HINGEMOSS_REFUSED_ROUTE, 0));
    memcpy(route, good, sizeof good);
    EXPECT(ASKED(HINGEMOSS_ROUTE_NUMBERS - 1, HINGEMOSS_REFUSED_NOT_A_RECEIVER, 0) && ASKED(HINGEMOSS_ROUTE_NUMBERS + 1, HINGEMOSS_REFUSED_NOT_A_RECEIVER, 0) && ASKED(0, HINGEMOSS_REFUSED_NOT_A_RECEIVER, 0));
    EXPECT((state = 9, hingemoss_validate(session, HINGEMOSS_SESSION_NUMBERS - 1, LIVE, WORKING, HOLD, route, HINGEMOSS_ROUTE_NUMBERS, &state)) == HINGEMOSS_REFUSED_NOT_A_RECEIVER && state == 0);
    EXPECT((state = 9, hingemoss_validate(SESSION, live, HINGEMOSS_ROOM_NUMBERS - 1, WORKING, HOLD, route, HINGEMOSS_ROUTE_NUMBERS, &state)) == HINGEMOSS_REFUSED_NOT_A_RECEIVER && state == 0);
    EXPECT((state = 9, hingemoss_validate(SESSION, LIVE, working, HINGEMOSS_ROOM_NUMBERS - 1, HOLD, route, HINGEMOSS_ROUTE_NUMBERS, &state)) == HINGEMOSS_REFUSED_NOT_A_RECEIVER && state == 0);
    EXPECT((state = 9, hingemoss_validate(SESSION, LIVE, WORKING, hold, HINGEMOSS_HOLD_LEAST - 1, route, HINGEMOSS_ROUTE_NUMBERS, &state)) == HINGEMOSS_REFUSED_NOT_A_RECEIVER && state == 0);
    EXPECT(is_kept());
    session[HINGEMOSS_SESSION_FIRST] = 1;
    EXPECT(ASKED_WITH(0, good[0], HINGEMOSS_REFUSED_NOT_A_RECEIVER, 0));

    /* The live table answers in every phase: while another is loading, and behind a stop. */
    session[HINGEMOSS_SESSION_FIRST] = 0;
    EXPECT(hingemoss_full_ask(SESSION, LIVE, WORKING, HOLD, out, HINGEMOSS_FULL_QUERY) == HINGEMOSS_OK && ASKED_WITH(0, good[0], HINGEMOSS_OK, HINGEMOSS_STATE_VALID));
    EXPECT(hingemoss_feed(SESSION, LIVE, WORKING, HOLD, load, 8, &taken, &updates) == HINGEMOSS_OK && ASKED_WITH(0, good[0], HINGEMOSS_OK, HINGEMOSS_STATE_VALID));
    EXPECT(hingemoss_feed(SESSION, LIVE, WORKING, HOLD, load, 8, &taken, &updates) == HINGEMOSS_REFUSED_OUT_OF_TURN && ASKED_WITH(0, good[0], HINGEMOSS_OK, HINGEMOSS_STATE_VALID));
}

/* A list of routes: every state and 23 in its own place, every refusal in its order, and nothing written but the states and how many. */
static void lists(void)
{
    enum { ROUTES = 6, NUMBERS = ROUTES * HINGEMOSS_ROUTE_NUMBERS, BEHIND = 3, UNTOUCHED = 99 };
    static const uint32_t list[NUMBERS + 1] = {
        5u * 65536 + 24, 0xc0000200u, 0, 0, 0, 64496,            /* of no known family */
        4u * 65536 + 24, 0xc0000200u, 0, 0, 0, 64496,
        4u * 65536 + 24, 0xc0000200u, 0, 0, 0, 64497,            /* of another origin */
        4u * 65536 + 24, 0xc0000200u, 0, 0, 1, 64496,            /* a spare that is not 0 */
        6u * 65536 + 24, 0xc0000200u, 0, 0, 1, 64496,            /* of the other family, which has no spares */
        4u * 65536 + 24 * 256 + 24, 0xc0000200u, 0, 0, 0, 64496, /* a record for a route */
        7 };
    static const uint8_t expected[ROUTES] = { HINGEMOSS_REFUSED_ROUTE, HINGEMOSS_STATE_VALID, HINGEMOSS_STATE_INVALID, HINGEMOSS_REFUSED_ROUTE, HINGEMOSS_STATE_NOT_FOUND, HINGEMOSS_REFUSED_ROUTE };
    static uint8_t states[ROUTES + BEHIND], untouched[ROUTES + BEHIND];
    uint64_t taken, updates, written;
#define LISTED_BY(receiver, numbers, size, number, said) (memset(states, UNTOUCHED, sizeof states), written = 9, hingemoss_validate_all(receiver, list, numbers, states, size, &written) == (number) && written == (said))
#define RECEIVER SESSION, LIVE, WORKING, HOLD
#define ANSWERED(size) (LISTED_BY(RECEIVER, NUMBERS, size, HINGEMOSS_OK, ROUTES) && memcmp(states, expected, ROUTES) == 0 && memcmp(states + ROUTES, untouched, BEHIND) == 0)
#define STAYS (memcmp(states, untouched, sizeof states) == 0)
    memset(untouched, UNTOUCHED, sizeof untouched);
    EXPECT(hingemoss_start(1, SESSION, LIVE, WORKING, HOLD) == HINGEMOSS_OK);
    EXPECT(LISTED_BY(RECEIVER, NUMBERS, sizeof states, HINGEMOSS_REFUSED_NO_TABLE, 0) && STAYS);
    EXPECT(LISTED_BY(RECEIVER, NUMBERS, 0, HINGEMOSS_REFUSED_NO_TABLE, 0) && STAYS);                             /* 21 before 9 */
    EXPECT(LISTED_BY(RECEIVER, 0, 0, HINGEMOSS_REFUSED_NO_TABLE, 0) && STAYS);
    EXPECT(LISTED_BY(RECEIVER, NUMBERS - 1, sizeof states, HINGEMOSS_REFUSED_NOT_A_RECEIVER, 0) && STAYS);       /* 22 before 21 */
    EXPECT(hingemoss_full_ask(SESSION, LIVE, WORKING, HOLD, out, HINGEMOSS_FULL_QUERY) == HINGEMOSS_OK);
    EXPECT(hingemoss_feed(SESSION, LIVE, WORKING, HOLD, load, sizeof load, &taken, &updates) == HINGEMOSS_OK && updates == 1);
    keep();

    EXPECT(ANSWERED(sizeof states) && ANSWERED(ROUTES));
    EXPECT(LISTED_BY(RECEIVER, 0, 0, HINGEMOSS_OK, 0) && STAYS);
    EXPECT(LISTED_BY(RECEIVER, 0, sizeof states, HINGEMOSS_OK, 0) && STAYS);
    EXPECT(LISTED_BY(RECEIVER, HINGEMOSS_ROUTE_NUMBERS, 1, HINGEMOSS_OK, 1) && states[0] == HINGEMOSS_REFUSED_ROUTE && memcmp(states + 1, untouched, sizeof states - 1) == 0);
    EXPECT(LISTED_BY(RECEIVER, NUMBERS, ROUTES - 1, HINGEMOSS_REFUSED_OUTPUT_SHORT, ROUTES) && STAYS);
    EXPECT(LISTED_BY(RECEIVER, NUMBERS, 0, HINGEMOSS_REFUSED_OUTPUT_SHORT, ROUTES) && STAYS);
    for (size_t numbers = NUMBERS - 5; numbers <= NUMBERS + 1; numbers++)
        EXPECT(numbers == NUMBERS || (LISTED_BY(RECEIVER, numbers, sizeof states, HINGEMOSS_REFUSED_NOT_A_RECEIVER, 0) && STAYS));
    EXPECT(LISTED_BY(RECEIVER, NUMBERS - 1, 0, HINGEMOSS_REFUSED_NOT_A_RECEIVER, 0) && STAYS);                   /* 22 before 9 */
#define SHORT_SESSION session, HINGEMOSS_SESSION_NUMBERS - 1, LIVE, WORKING, HOLD
#define SHORT_LIVE SESSION, live, HINGEMOSS_ROOM_NUMBERS - 1, WORKING, HOLD
#define SHORT_WORKING SESSION, LIVE, working, HINGEMOSS_ROOM_NUMBERS - 1, HOLD
#define SHORT_HOLD SESSION, LIVE, WORKING, hold, HINGEMOSS_HOLD_LEAST - 1
    EXPECT(LISTED_BY(SHORT_SESSION, NUMBERS, sizeof states, HINGEMOSS_REFUSED_NOT_A_RECEIVER, 0) && STAYS);
    EXPECT(LISTED_BY(SHORT_LIVE, NUMBERS, sizeof states, HINGEMOSS_REFUSED_NOT_A_RECEIVER, 0) && STAYS);
    EXPECT(LISTED_BY(SHORT_WORKING, NUMBERS, 0, HINGEMOSS_REFUSED_NOT_A_RECEIVER, 0) && STAYS);
    EXPECT(LISTED_BY(SHORT_HOLD, 0, 0, HINGEMOSS_REFUSED_NOT_A_RECEIVER, 0) && STAYS);
    EXPECT(is_kept());
    session[HINGEMOSS_SESSION_FIRST] = 1;
    EXPECT(LISTED_BY(RECEIVER, NUMBERS, sizeof states, HINGEMOSS_REFUSED_NOT_A_RECEIVER, 0) && STAYS);

    /* The live table answers in every phase, as of a single route. */
    session[HINGEMOSS_SESSION_FIRST] = 0;
    EXPECT(hingemoss_full_ask(SESSION, LIVE, WORKING, HOLD, out, HINGEMOSS_FULL_QUERY) == HINGEMOSS_OK && ANSWERED(ROUTES));
    EXPECT(hingemoss_feed(SESSION, LIVE, WORKING, HOLD, load, 8, &taken, &updates) == HINGEMOSS_OK && ANSWERED(ROUTES));
    EXPECT(hingemoss_feed(SESSION, LIVE, WORKING, HOLD, load, 8, &taken, &updates) == HINGEMOSS_REFUSED_OUT_OF_TURN && ANSWERED(ROUTES));
}

/* Records as they stand in a room, handed in for routes: one of length 0 has the state of a route of length max, and any other 23. They are of another table than the one that answers. */
static void records_for_routes(void)
{
    enum { RECORDS = 4, ROOM = RECORDS * HINGEMOSS_RECORD_NUMBERS };
    static const uint8_t lengths[RECORDS][2] = { { 0, 23 }, { 0, 24 }, { 0, 25 }, { 8, 24 } };
    static const uint8_t expected[RECORDS] = { HINGEMOSS_STATE_NOT_FOUND, HINGEMOSS_STATE_VALID, HINGEMOSS_STATE_INVALID, HINGEMOSS_REFUSED_ROUTE };
    uint32_t records[ROOM];
    uint8_t states[RECORDS] = { 0 }, prefix[20];
    uint64_t taken, updates, written, state;
    EXPECT(hingemoss_start(1, RECEIVER) == HINGEMOSS_OK && hingemoss_full_ask(RECEIVER, out, HINGEMOSS_FULL_QUERY) == HINGEMOSS_OK);
    EXPECT(hingemoss_feed(RECEIVER, load, 8, &taken, &updates) == HINGEMOSS_OK);
    memcpy(prefix, load + 8, sizeof prefix);
    for (int i = 0; i < RECORDS; i++) {
        memcpy(prefix + 9, lengths[i], 2);
        EXPECT(hingemoss_feed(RECEIVER, prefix, sizeof prefix, &taken, &updates) == HINGEMOSS_OK);
    }
    EXPECT(hingemoss_feed(RECEIVER, load + 28, sizeof load - 28, &taken, &updates) == HINGEMOSS_OK && updates == 1 && session[HINGEMOSS_SESSION_LIVE] == RECORDS);
    memcpy(records, live, sizeof records);
    EXPECT(hingemoss_full_ask(RECEIVER, out, HINGEMOSS_FULL_QUERY) == HINGEMOSS_OK && hingemoss_feed(RECEIVER, load, sizeof load, &taken, &updates) == HINGEMOSS_OK && updates == 1);
    EXPECT(hingemoss_validate_all(RECEIVER, records, ROOM, states, RECORDS, &written) == HINGEMOSS_OK && written == RECORDS && memcmp(states, expected, RECORDS) == 0);
    for (int i = 0; i < RECORDS; i++) {
        const uint32_t *record = records + i * HINGEMOSS_RECORD_NUMBERS;
        uint32_t route[HINGEMOSS_ROUTE_NUMBERS] = { 4u * 65536 + lengths[i][1], 0xc0000200u, 0, 0, 0, 64496 };
        int is_route = lengths[i][0] == 0;
        EXPECT(record[HINGEMOSS_RECORD_KIND] == 4u * 65536 + lengths[i][0] * 256u + lengths[i][1]);
        EXPECT(hingemoss_validate(RECEIVER, record, HINGEMOSS_ROUTE_NUMBERS, &state) == (is_route ? HINGEMOSS_OK : HINGEMOSS_REFUSED_ROUTE) && state == (is_route ? expected[i] : 0));
        EXPECT(!is_route || (hingemoss_validate(RECEIVER, route, HINGEMOSS_ROUTE_NUMBERS, &state) == HINGEMOSS_OK && state == states[i]));
    }
}

/* What changed between two listings: the listing above beside one without a table, beside itself and beside what is none. */
static void diffs(void)
{
    static const char none[] = "stopped=0\ncount=none\n", record[] = "family=4\naddress=c0000200\nlength=24\nmax=24\nasn=64496\n";
    static const char announced[] = "change=announce\nfamily=4\naddress=c0000200\nlength=24\nmax=24\nasn=64496\n";
    static const char withdrawn[] = "change=withdraw\nfamily=4\naddress=c0000200\nlength=24\nmax=24\nasn=64496\n";
    static uint32_t old_room[HINGEMOSS_ROOM_NUMBERS], new_room[HINGEMOSS_ROOM_NUMBERS];
    static uint8_t text[HINGEMOSS_DIFF_MOST];
    uint64_t written;
#define TEXT(s) (const uint8_t *)(s), strlen(s)
#define ROOMS old_room, HINGEMOSS_ROOM_NUMBERS, new_room, HINGEMOSS_ROOM_NUMBERS
#define SAYS(old, new, expected) (hingemoss_diff(TEXT(old), TEXT(new), ROOMS, text, sizeof text, &written) == HINGEMOSS_OK \
    && written == strlen(expected) && memcmp(text, expected, strlen(expected)) == 0)
    EXPECT(SAYS(none, listing, announced) && old_room[0] == 0 && new_room[HINGEMOSS_RECORD_ASN] == 64496);
    EXPECT(SAYS(listing, none, withdrawn) && old_room[HINGEMOSS_RECORD_ADDRESS] == 0xc0000200u && new_room[HINGEMOSS_RECORD_ADDRESS] == 0);
    EXPECT(hingemoss_diff(TEXT(listing), TEXT(listing), ROOMS, text, 0, &written) == HINGEMOSS_OK && written == 0);
    EXPECT(hingemoss_diff(TEXT(none), TEXT(listing), ROOMS, text, 15, &written) == HINGEMOSS_REFUSED_OUTPUT_SHORT && written == sizeof record - 1 + 16);
    EXPECT(HINGEMOSS_REFUSED_LISTING == 24);
    EXPECT(SAYS("", listing, "refused=24\nfile=old\nline=1\n") && new_room[HINGEMOSS_RECORD_ASN] == 0);
    EXPECT(SAYS(listing, listing + 1, "refused=24\nfile=new\nline=1\n") && old_room[HINGEMOSS_RECORD_ASN] == 64496 && new_room[HINGEMOSS_RECORD_ASN] == 0);
    EXPECT(hingemoss_diff(TEXT(none), TEXT(listing), old_room, HINGEMOSS_ROOM_NUMBERS - 1, new_room, HINGEMOSS_ROOM_NUMBERS, text, sizeof text, &written) == HINGEMOSS_REFUSED_NOT_A_RECEIVER && written == 0);
    EXPECT(old_room[HINGEMOSS_RECORD_ASN] == 64496);
}

/* The cache's side: document 01's bytes are the full run of its listing, which is also the change run from no records; back again the record is withdrawn. */
static void runs(void)
{
    static uint32_t room[HINGEMOSS_ROOM_NUMBERS], empty[HINGEMOSS_ROOM_NUMBERS];
    static const uint8_t v0_end[] = { 0, 7, 0x12, 0x34, 0, 0, 0, 12, 0, 0, 0, 7 };
    uint64_t head[HINGEMOSS_HEAD_NUMBERS] = { 9 }, written, line;
#define ROOM room, HINGEMOSS_ROOM_NUMBERS
#define EMPTY empty, HINGEMOSS_ROOM_NUMBERS, 0
#define TABLE room, HINGEMOSS_ROOM_NUMBERS, head[7]
#define END head + 2, 5
    EXPECT(hingemoss_read_listing(TEXT(listing), ROOM, head, 7, &line) == HINGEMOSS_REFUSED_NOT_A_RECEIVER && line == 0 && head[0] == 9 && room[0] == 0);
    EXPECT(hingemoss_read_listing(TEXT(listing + 1), ROOM, head, 8, &line) == HINGEMOSS_REFUSED_LISTING && line == 1 && head[0] == 9 && room[0] == 0);
    EXPECT(hingemoss_read_listing(TEXT("stopped=19\ncount=none\n"), ROOM, head, 8, &line) == HINGEMOSS_OK && line == 0 && head[0] == 19 && head[1] == 0 && head[2] == 0 && head[7] == 0);
    EXPECT(hingemoss_read_listing(TEXT(listing), ROOM, head, 8, &line) == HINGEMOSS_OK && line == 0 && room[HINGEMOSS_RECORD_ASN] == 64496);
    EXPECT(head[0] == 0 && head[1] == 1 && head[2] == 4660 && head[3] == 7 && head[4] == 3600 && head[5] == 600 && head[6] == 7200 && head[7] == 1);
    EXPECT(hingemoss_full_run(1, END, TABLE, out, sizeof out, &written) == HINGEMOSS_OK && written == sizeof load && memcmp(out, load, sizeof load) == 0);
    EXPECT(hingemoss_full_run(1, END, TABLE, out, sizeof load - 1, &written) == HINGEMOSS_REFUSED_OUTPUT_SHORT && written == sizeof load);
    EXPECT(hingemoss_full_run(0, END, TABLE, out, sizeof out, &written) == HINGEMOSS_OK && written == 40 && memcmp(out + 28, v0_end, sizeof v0_end) == 0);
    EXPECT(hingemoss_full_run(2, END, TABLE, out, 0, &written) == HINGEMOSS_REFUSED_NOT_A_RECEIVER && written == 0);
    EXPECT(hingemoss_change_run(1, END, EMPTY, TABLE, out, sizeof out, &written) == HINGEMOSS_OK && written == sizeof load && memcmp(out, load, sizeof load) == 0);
    EXPECT(hingemoss_change_run(1, END, TABLE, EMPTY, out, sizeof out, &written) == HINGEMOSS_OK && written == sizeof load && out[16] == 0 && memcmp(out + 17, load + 17, sizeof load - 17) == 0);
    EXPECT(hingemoss_change_run(1, END, TABLE, TABLE, out, 31, &written) == HINGEMOSS_REFUSED_OUTPUT_SHORT && written == 32);
    EXPECT(hingemoss_change_run(1, END, TABLE, room, HINGEMOSS_ROOM_NUMBERS, 0, out, 31, &written) == HINGEMOSS_REFUSED_NOT_A_RECEIVER && written == 0);
}

int main(void)
{
    codec();
    fields();
    ends();
    stops();
    receiver();
    routes();
    lists();
    records_for_routes();
    diffs();
    runs();
    puts(bad ? "calls: not all as expected" : "calls: all as expected");
    return bad;
}
