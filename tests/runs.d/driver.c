/* driver < CASES > ANSWERS   the cache's side and the receiver from C, for tests/runs
 *
 * Cases and answers are binary, their numbers little-endian and of 64 bits, but for those of rooms, of 32. A case begins with its kind:
 *
 *   0 full run, 1 change run   version, how many end numbers; of each of two rooms (a full run is lent the second alone) its length, how many of its numbers are given, and the count; the output's length.
 *                              Then the end numbers, and both rooms' given numbers; zeros stand behind these. Answer: number, faults (enum fault), written, and the output as a part
 *   2 a listing read           the text's length, how many bytes lie behind it, the room's length, the head's, and what stands in the room (0 zeros, 1 a pattern). Then the text and the bytes
 *                              behind it. Answer: number, faults, line, and as parts the room and the head
 *   3 a receiver's life        version, the hold's length, how many steps. A step is its kind: 0 full ask, 1 change ask, 2 reconnect, or 3 feed with how many pieces, their lengths, and their bytes.
 *                              Answer: for each step its number, and of an ask 12 bytes of query, of a feed the bytes taken and the updates finished (up to the first piece that is not taken with 0);
 *                              then the session's numbers, as parts both rooms, and the listing's number, length and bytes
 *
 * A part is three numbers, a, b and c, and then a elements; behind these come b zeros, and c elements that stand as they stood. Before a call byte i of an output is i * 167 + 13, number i of a room's
 * pattern is i * 2654435761 + 2654435769 with its lowest bit set, and number i of a head is i + 1000. Exit status: 0, or 2 where a case is broken or too large. */
#include <stdio.h>
#include <stdlib.h>
#include <string.h>

#include "hingemoss.h"

/* Said again here: where the header says otherwise, this does not compile. */
uint8_t hingemoss_full_run(uint8_t version, const uint64_t *end, size_t end_len, const uint32_t *table, size_t table_len, uint64_t count, uint8_t *out, size_t out_len, uint64_t *written);
uint8_t hingemoss_change_run(uint8_t version, const uint64_t *end, size_t end_len, const uint32_t *first, size_t first_len, uint64_t first_count, const uint32_t *second, size_t second_len,
                             uint64_t second_count, uint8_t *out, size_t out_len, uint64_t *written);
uint8_t hingemoss_read_listing(const uint8_t *text, size_t text_len, uint32_t *room, size_t room_len, uint64_t *head, size_t head_len, uint64_t *line);

enum { AROUND = 64, ROOM_MOST = 1 << 14, END_MOST = 16, OUT_MOST = 1 << 18, TEXT_MOST = 1 << 21, HOLD_MOST = 1 << 18, PIECES_MOST = 1 << 18 };

enum fault { READ_CHANGED = 1, AROUND_CHANGED = 2 };

/* What a call may write stands with AROUND elements before and behind it; everything is kept beside a copy of how it stood. */
static uint64_t ends[END_MOST + 2 * AROUND], ends_before[END_MOST + 2 * AROUND];
static uint32_t rooms[2][ROOM_MOST + 2 * AROUND], rooms_before[2][ROOM_MOST + 2 * AROUND];
static uint8_t out[OUT_MOST + 2 * AROUND + 16], out_before[OUT_MOST + 2 * AROUND + 16];
static uint8_t text[TEXT_MOST + 16], text_before[TEXT_MOST + 16];
static uint64_t answered[3];

static _Noreturn void die(const char *why)
{
    fprintf(stderr, "driver: %s\n", why);
    exit(2);
}

static void get(void *to, size_t count)
{
    if (fread(to, 1, count, stdin) != count)
        die("a case is cut short");
}

static void put(const void *from, size_t count)
{
    if (fwrite(from, 1, count, stdout) != count)
        die("cannot write");
}

static void put_number(uint64_t number) { put(&number, sizeof number); }

static void put_part(const void *now, const void *before, size_t size, size_t length)
{
    static const uint8_t zeros[8];
    const uint8_t *bytes = now, *stood = before;
    uint64_t counts[3], n = length;
    while (n > 0 && memcmp(bytes + size * (n - 1), stood + size * (n - 1), size) == 0)
        n--;
    counts[2] = length - n;
    while (n > 0 && memcmp(bytes + size * (n - 1), zeros, size) == 0)
        n--;
    counts[1] = length - counts[2] - n;
    counts[0] = n;
    put(counts, sizeof counts);
    put(bytes, size * n);
}

static int around_is_same(const void *now, const void *before, size_t size, size_t length)
{
    const uint8_t *bytes = now, *stood = before;
    size_t behind = size * (AROUND + length);
    return memcmp(bytes, stood, size * AROUND) == 0 && memcmp(bytes + behind, stood + behind, size * AROUND) == 0;
}

/* The number that a call answers through a pointer, with one before and one behind it that must stay. */
static uint64_t *lent_number(void)
{
    answered[0] = answered[2] = 0x5a5a5a5a5a5a5a5a, answered[1] = 0xa5a5a5a5a5a5a5a5;
    return &answered[1];
}

static int number_is_alone(void) { return answered[0] == 0x5a5a5a5a5a5a5a5a && answered[2] == 0x5a5a5a5a5a5a5a5a; }

/* ---- Runs */

static void run_case(int is_change, size_t shift)
{
    struct { uint64_t version, end_len; struct { uint64_t len, given, count; } rooms[2]; uint64_t out_len; } head;
    uint8_t *lent = out + shift, number;
    uint64_t faults = 0, *written = lent_number();
    get(&head, sizeof head);
    if (head.version > 255 || head.end_len > END_MOST || head.out_len > OUT_MOST)
        die("a case is too large");
    memset(ends, 0xa5, sizeof ends);
    get(ends + AROUND, 8 * head.end_len);
    memcpy(ends_before, ends, sizeof ends);
    for (int i = 0; i < 2; i++) {
        if (head.rooms[i].len > ROOM_MOST || head.rooms[i].given > head.rooms[i].len)
            die("a case is too large");
        memset(rooms[i], 0xa5, sizeof rooms[i]);
        memset(rooms[i] + AROUND, 0, 4 * head.rooms[i].len);
        get(rooms[i] + AROUND, 4 * head.rooms[i].given);
        memcpy(rooms_before[i], rooms[i], sizeof rooms[i]);
    }
    for (size_t j = 0; j < head.out_len + 2 * AROUND; j++)
        lent[j] = (uint8_t)((j - AROUND) * 167 + 13);
    memcpy(out_before, lent, head.out_len + 2 * AROUND);
    if (is_change)
        number = hingemoss_change_run((uint8_t)head.version, ends + AROUND, head.end_len, rooms[0] + AROUND, head.rooms[0].len, head.rooms[0].count, rooms[1] + AROUND, head.rooms[1].len,
                                      head.rooms[1].count, lent + AROUND, head.out_len, written);
    else
        number = hingemoss_full_run((uint8_t)head.version, ends + AROUND, head.end_len, rooms[1] + AROUND, head.rooms[1].len, head.rooms[1].count, lent + AROUND, head.out_len, written);
    if (memcmp(ends, ends_before, sizeof ends) != 0 || memcmp(rooms, rooms_before, sizeof rooms) != 0)
        faults |= READ_CHANGED;
    if (!number_is_alone() || !around_is_same(lent, out_before, 1, head.out_len))
        faults |= AROUND_CHANGED;
    put_number(number), put_number(faults), put_number(*written);
    put_part(lent + AROUND, out_before + AROUND, 1, head.out_len);
}

/* ---- Listings */

static void read_case(size_t shift)
{
    struct { uint64_t text_len, behind, room_len, head_len, fill; } head;
    uint8_t number;
    uint64_t faults = 0, *line = lent_number();
    uint32_t *room = rooms[0];
    get(&head, sizeof head);
    if (head.text_len > TEXT_MOST || head.behind > TEXT_MOST - head.text_len || head.room_len > ROOM_MOST || head.head_len > END_MOST)
        die("a case is too large");
    get(text + shift, head.text_len + head.behind);
    memcpy(text_before, text + shift, head.text_len + head.behind);
    for (uint32_t j = 0; j < head.room_len + 2 * AROUND; j++)
        room[j] = head.fill == 0 ? 0 : ((j - AROUND) * 2654435761u + 2654435769u) | 1;
    memcpy(rooms_before[0], room, 4 * (head.room_len + 2 * AROUND));
    for (uint64_t j = 0; j < head.head_len + 2 * AROUND; j++)
        ends[j] = j - AROUND + 1000;
    memcpy(ends_before, ends, sizeof ends);
    number = hingemoss_read_listing(text + shift, head.text_len, room + AROUND, head.room_len, ends + AROUND, head.head_len, line);
    if (memcmp(text + shift, text_before, head.text_len + head.behind) != 0)
        faults |= READ_CHANGED;
    if (!number_is_alone() || !around_is_same(room, rooms_before[0], 4, head.room_len) || !around_is_same(ends, ends_before, 8, head.head_len))
        faults |= AROUND_CHANGED;
    put_number(number), put_number(faults), put_number(*line);
    put_part(room + AROUND, rooms_before[0] + AROUND, 4, head.room_len);
    put_part(ends + AROUND, ends_before + AROUND, 8, head.head_len);
}

/* ---- Lives */

static uint64_t session[HINGEMOSS_SESSION_NUMBERS], lengths[PIECES_MOST];
static uint32_t live[HINGEMOSS_ROOM_NUMBERS], working[HINGEMOSS_ROOM_NUMBERS];
static uint8_t hold[HOLD_MOST];
#define LENT session, HINGEMOSS_SESSION_NUMBERS, live, HINGEMOSS_ROOM_NUMBERS, working, HINGEMOSS_ROOM_NUMBERS, hold, hold_len

static void feed_step(size_t hold_len)
{
    uint64_t pieces, total = 0, taken = 0, updates = 0, all_taken = 0, all_updates = 0;
    uint8_t number = 0, *at = text;
    get(&pieces, sizeof pieces);
    if (pieces > PIECES_MOST)
        die("a case is too large");
    get(lengths, 8 * pieces);
    for (uint64_t i = 0; i < pieces; i++) {
        if (lengths[i] > TEXT_MOST - total)
            die("a case is too large");
        total += lengths[i];
    }
    get(text, total);
    for (uint64_t i = 0; i < pieces && !number; at += lengths[i++]) {
        number = hingemoss_feed(LENT, at, lengths[i], &taken, &updates);
        all_taken += taken, all_updates += updates;
    }
    put_number(number), put_number(all_taken), put_number(all_updates);
}

static void life_case(void)
{
    static const uint32_t zeros[HINGEMOSS_ROOM_NUMBERS];
    static uint8_t listing[HINGEMOSS_LISTING_MOST];
    struct { uint64_t version, hold_len, steps; } head;
    uint8_t query[HINGEMOSS_CHANGE_QUERY];
    uint64_t kind, written;
    size_t hold_len;
    get(&head, sizeof head);
    if (head.version > 1 || head.hold_len > HOLD_MOST)
        die("a case is too large");
    hold_len = head.hold_len;
    memset(session, 7, sizeof session), memset(live, 7, sizeof live), memset(working, 7, sizeof working), memset(hold, 0x5a, hold_len);
    if (hingemoss_start((uint8_t)head.version, LENT))
        die("a start is refused");
    for (uint64_t i = 0; i < head.steps; i++) {
        get(&kind, sizeof kind);
        memset(query, 0, sizeof query);
        if (kind == 0)
            put_number(hingemoss_full_ask(LENT, query, sizeof query)), put(query, sizeof query);
        else if (kind == 1)
            put_number(hingemoss_change_ask(LENT, query, sizeof query)), put(query, sizeof query);
        else if (kind == 2)
            put_number(hingemoss_reconnect(LENT));
        else if (kind == 3)
            feed_step(hold_len);
        else
            die("no such step");
    }
    put(session, sizeof session);
    put_part(live, zeros, 4, HINGEMOSS_ROOM_NUMBERS);
    put_part(working, zeros, 4, HINGEMOSS_ROOM_NUMBERS);
    put_number(hingemoss_listing(session, HINGEMOSS_SESSION_NUMBERS, live, HINGEMOSS_ROOM_NUMBERS, listing, sizeof listing, &written));
    put_number(written), put(listing, written <= sizeof listing ? written : 0);
}

int main(void)
{
    uint64_t kind;
    size_t got;
    /* an output and a text may begin anywhere */
    for (size_t number = 0; (got = fread(&kind, 1, sizeof kind, stdin)) == sizeof kind; number++) {
        if (kind <= 1)
            run_case(kind == 1, number % 16);
        else if (kind == 2)
            read_case(number % 16);
        else if (kind == 3)
            life_case();
        else
            die("no such case");
        if (fflush(stdout) != 0)
            die("cannot write");
    }
    if (got != 0)
        die("a case is cut short");
    return 0;
}
