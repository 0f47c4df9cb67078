/* The mode `rooms`: 1,024 records enter a room in table order, in reverse and in two shuffles, and leave in other orders, with the room rules tested after each step; then small rooms, listed,
 * and what is refused. A shuffle is a generator of full period: it comes by each number once. */
#include <string.h>

#include "calls.h"
#include "modes.h"

enum { RECORDS = HINGEMOSS_RECORDS, NUMBERS = HINGEMOSS_ROOM_NUMBERS, SIX = HINGEMOSS_RECORD_NUMBERS };

static const uint32_t zeros[NUMBERS];

struct record {
    uint64_t n[SIX];
};

static struct record ipv4(uint64_t length, uint64_t max, uint64_t address, uint64_t asn)
{
    uint64_t given[8] = { 4, length, max, address, 0, 0, 0, asn };
    struct record r = { { 0 } };
    if (!test_record(given, 8, r.n, SIX))
        fault("a record is made");
    return r;
}

static struct record ipv6(uint64_t length, uint64_t max, uint64_t w0, uint64_t w1, uint64_t w3, uint64_t asn)
{
    uint64_t given[8] = { 6, length, max, w0, w1, 0, w3, asn };
    struct record r = { { 0 } };
    if (!test_record(given, 8, r.n, SIX))
        fault("a record is made");
    return r;
}

/* Record k of a table that ascends with k: eight to an address, which differ in length, max and AS number; IPv4 (with host bits), then IPv6. */
static struct record record_number(uint64_t k)
{
    uint64_t group = k / 8, length = 16 + k / 4 % 2 * 8, max = length + k / 2 % 2 * 8, asn = 64496 + k % 2;
    return k < 512 ? ipv4(length, max, 167772161 + group * 256, asn) : ipv6(length, max, 536939960, group, 1, asn);
}

/* In which order records 0 to 1,023 are taken. */
struct way {
    const char *label;
    uint64_t start, times, more;
};
enum { UPWARD, DOWNWARD, SHUFFLED, SHUFFLED_ANEW };
static const struct way ways[] = { { "in order", 0, 1, 1 }, { "in reverse", 1023, 1, 1023 }, { "shuffled", 5, 677, 339 }, { "shuffled anew", 1000, 229, 441 } };

/* ---- A room, and what a call says */

struct room {
    uint32_t *numbers;
    size_t n;
    uint64_t count;
};

static void put_rules(const struct room *r) { put_text(&out, test_rules(r->numbers, r->n, r->n / SIX, r->count) ? ", in rule\n" : ", out of rule\n"); }

static void put_said(const char *label, const char *done, uint8_t answer, const struct room *r)
{
    put_text(&out, label);
    if (answer)
        put_field(&out, ": refused ", answer);
    else
        put_field(&out, done, r->count);
    put_rules(r);
}

static void show_enter(const char *label, struct room *r, struct record record) { put_said(label, ": entered, count=", test_enter(r->numbers, r->n, r->count, record.n, SIX, &r->count), r); }

static void show_leave(const char *label, struct room *r, struct record record) { put_said(label, ": left, count=", test_leave(r->numbers, r->n, r->count, record.n, SIX, &r->count), r); }

static void show_look_up(const char *label, const struct room *r, struct record record)
{
    uint64_t place;
    uint8_t answer = test_look_up(r->numbers, r->n, r->count, record.n, SIX, &place);
    put_text(&out, label);
    if (answer == HINGEMOSS_REFUSED_NOT_A_RECEIVER)
        put_text(&out, ": refused 22");
    else
        put_field(&out, answer ? ": would stand at " : ": stands at ", place);
    put_byte(&out, '\n');
}

/* How many numbers of two rooms differ, as far as both have them. */
static uint64_t differing(const uint32_t *a, size_t n, const uint32_t *b, size_t m)
{
    uint64_t count = 0;
    for (size_t i = 0; i < n && i < m; i++)
        count += a[i] != b[i];
    return count;
}

static void show_number(const char *label, uint64_t n)
{
    put_field(&out, label, n);
    put_byte(&out, '\n');
}

static void show_copy(const char *label, const uint32_t *from, size_t n, struct room *r)
{
    uint8_t answer = test_copy(from, n, r->numbers, r->n);
    put_text(&out, label);
    put_text(&out, answer ? ": refused 22" : ": copied");
    show_number(", differing=", differing(from, n, r->numbers, r->n));
}

/* ---- Full rooms */

/* Every record enters or leaves; after each the rules are tested, and its place is looked up. */
static void all(const char *label, struct room *r, const struct way *way, int entering, int is_shown)
{
    uint64_t done = 0, kept = 0, k = way->start;
    for (int i = 0; i < RECORDS; i++, k = (k * way->times + way->more) % RECORDS) {
        struct record record = record_number(k), found = { { 0 } };
        uint64_t place = RECORDS;
        uint8_t answer = entering ? test_enter(r->numbers, r->n, r->count, record.n, SIX, &r->count) : test_leave(r->numbers, r->n, r->count, record.n, SIX, &r->count);
        done += answer == 0;
        kept += answer == 0 && test_rules(r->numbers, r->n, r->n / SIX, r->count);
        if ((test_look_up(r->numbers, r->n, r->count, record.n, SIX, &place) == 0) != entering)
            fault("a record that entered is found, and one that left is not");
        if (entering && (!test_get(r->numbers, r->n, place, found.n, SIX) || memcmp(&found, &record, sizeof found) != 0))
            fault("a record stands where it is found");
    }
    if (!is_shown)
        return;
    put_text(&out, label);
    put_field(&out, ": done=", done);
    put_field(&out, " in rule=", kept);
    show_number(" count=", r->count);
}

/* Document 01: record 1,024 enters; the next new one: 18; a repeated one: 17. After a withdrawal one more enters. */
static void full_room(const struct way *way, const struct way *back, const uint32_t *in_order)
{
    static uint32_t numbers[NUMBERS];
    struct room r = { numbers, NUMBERS, 0 };
    memset(numbers, 0, sizeof numbers);
    all(way->label, &r, way, 1, 1);
    show_number(" differing from in order: ", differing(numbers, NUMBERS, in_order, NUMBERS));
    show_enter(" next new, behind all", &r, record_number(1024));
    show_enter(" next new, between", &r, ipv4(16, 16, 167772161, 64500));
    show_enter(" repeated, last", &r, record_number(1023));
    show_enter(" repeated, between", &r, record_number(300));
    show_leave(" withdrawn", &r, record_number(300));
    show_leave(" withdrawn again", &r, record_number(300));
    show_enter(" one more", &r, record_number(1024));
    show_enter(" and one", &r, record_number(300));
    show_leave(" last withdrawn", &r, record_number(1024));
    show_enter(" one more", &r, record_number(300));
    show_number(" differing from in order: ", differing(numbers, NUMBERS, in_order, NUMBERS));
    all(" leaving all", &r, back, 0, 1);
    show_number(" differing from zeros: ", differing(numbers, NUMBERS, zeros, NUMBERS));
}

static void full_rooms(void)
{
    static uint32_t in_order[NUMBERS], copy[NUMBERS];
    static const uint8_t back[] = { DOWNWARD, UPWARD, SHUFFLED_ANEW, SHUFFLED };
    struct room first = { in_order, NUMBERS, 0 }, r = { copy, NUMBERS, RECORDS };
    all("", &first, ways + UPWARD, 1, 0);
    for (int i = 0; i < 4; i++)
        full_room(ways + i, ways + back[i], in_order);
    memset(copy, 7, sizeof copy);
    show_copy("copy of a full room", in_order, NUMBERS, &r);
    show_look_up("first", &r, record_number(0));
    show_look_up("last", &r, record_number(1023));
    show_look_up("behind all", &r, record_number(1024));
    test_empty(copy, NUMBERS);
    show_number("differing from zeros, emptied: ", differing(copy, NUMBERS, zeros, NUMBERS));
}

/* ---- Small rooms */

static void show_four(const struct room *r)
{
    for (size_t i = 0; i < 4; i++) {
        struct record record = { { 0 } };
        if (!test_get(r->numbers, r->n, i, record.n, SIX))
            fault("a room of four has four records");
        uint64_t kind = test_kind_of(record.n, SIX);
        put_field(&out, "  family=", kind >> 32);
        put_text(&out, " address=");
        for (int w = 1; w <= 4; w++)
            put_hex32(&out, (uint32_t)record.n[w]);
        put_field(&out, " length=", kind >> 16 & 65535);
        put_field(&out, " max=", kind & 65535);
        show_number(" asn=", record.n[HINGEMOSS_RECORD_ASN]);
    }
}

/* The order of the table is not the order of the six numbers: 9.0.0.0/24 comes before 10.0.0.0/8. */
static void listed(void)
{
    uint32_t numbers[24] = { 0 };
    struct room r = { numbers, 24, 0 };
    struct record ten = ipv4(8, 24, 167772160, 64496), ten_to_8 = ipv4(8, 8, 167772160, 64499), nine = ipv4(24, 24, 150994944, 64497);
    show_enter("2001:db8::1/32-48", &r, ipv6(32, 48, 536939960, 0, 1, 64498));
    show_enter("10.0.0.0/8-24", &r, ten);
    show_enter("9.0.0.0/24", &r, nine);
    show_enter("10.0.0.0/8", &r, ten_to_8);
    show_four(&r);
    show_look_up("10.0.0.0/8-24", &r, ten);
    show_look_up("10.0.0.0/9-24", &r, ipv4(9, 24, 167772160, 64496));
    show_leave("10.0.0.0/8", &r, ten_to_8);
    show_leave("9.0.0.0/24", &r, nine);
    show_four(&r);
}

/* A record in a room of one, in rule or out of it: entering does not ask, the rules' test does. */
static void show_rule(const char *label, struct record record)
{
    uint32_t numbers[SIX] = { 0 };
    struct room r = { numbers, SIX, 0 };
    show_enter(label, &r, record);
}

static void rules(void)
{
    struct record spare = ipv4(24, 24, 1, 0), five = ipv4(24, 24, 1, 0);
    spare.n[4] = 1;
    five.n[HINGEMOSS_RECORD_KIND] += 65536;
    show_rule("IPv4 32-32", ipv4(32, 32, 1, 0));
    show_rule("IPv4 32-33", ipv4(32, 33, 1, 0));
    show_rule("IPv4 25-24", ipv4(25, 24, 1, 0));
    show_rule("IPv4 0-0", ipv4(0, 0, 0, 0));
    show_rule("IPv6 128-128", ipv6(128, 128, 0, 0, 1, 0));
    show_rule("IPv6 128-129", ipv6(128, 129, 0, 0, 1, 0));
    show_rule("IPv6 49-48", ipv6(49, 48, 0, 0, 1, 0));
    show_rule("IPv4 with a fourth number", spare);
    show_rule("family 5", five);
}

/* Counts over the limit, rooms of no record, and numbers that are no six. */
static void odd_rooms(void)
{
    struct record record = ipv4(24, 24, 3221225984, 64496);
    uint32_t one[6] = { 0 }, none[5] = { 0 }, eight[8] = { 9, 9, 9, 9, 9, 9, 9, 9 };
    struct room over = { one, 6, 2 }, small = { none, 5, 0 }, odd = { eight, 8, 0 };
    show_look_up("count 2 of 1", &over, record);
    show_enter("count 2 of 1", &over, record);
    show_leave("count 2 of 1", &over, record);
    show_enter("room of no record", &small, record);
    show_leave("room of no record", &small, record);
    show_enter("eight numbers", &odd, record);
    show_look_up("eight numbers", &odd, record);
    show_copy("six over eight", one, 6, &odd);
}

void rooms(void)
{
    full_rooms();
    listed();
    rules();
    odd_rooms();
}
