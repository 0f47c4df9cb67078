/* PDUs and refusals as the oracle writes them, and the modes `read` and `walk`: a line of hex digits, its answer.
 * Each slice is read four ways (hingemoss_read, by place, through a run, by the models' type and version), and each payload's bytes are asked one by one. */
#include <string.h>

#include "calls.h"
#include "modes.h"

/* How many values a refusal has. */
static size_t values_of(uint64_t number)
{
    static const uint8_t count[] = { 0, 2, 1, 1, 3, 0, 3, 1, 0, 1, 0, 0, 1, 0, 0, 0, 0, 0, 0, 1 };
    return number < sizeof count ? count[number] : 0;
}

void put_values(struct text *t, uint64_t number, const uint64_t *values)
{
    put_field(t, " ", number);
    for (size_t i = 0; i < values_of(number); i++)
        put_field(t, " ", values[i]);
}

void put_refusal(struct text *t, uint64_t number, const uint64_t *values)
{
    put_text(t, "refused");
    put_values(t, number, values);
}

/* ---- A PDU */

/* A payload's bytes by its place, and by the models' own call for its part. */
static void put_payload(struct text *t, const char *name, const uint64_t *pdu, struct span bytes, uint8_t which, uint64_t start, uint64_t length)
{
    put_text(t, name);
    if (start > bytes.n || length > bytes.n - start) {
        fault("a payload lies in its bytes");
        return;
    }
    put_hex(t, bytes.bytes + start, length);
    for (uint64_t i = 0; i <= length; i++)
        if (test_part(pdu, HINGEMOSS_PDU_NUMBERS, bytes.bytes, bytes.n, which, i) != (i < length ? bytes.bytes[start + i] : 256))
            fault("a payload's part is its place");
}

static void put_prefix(struct text *t, const uint64_t *pdu, int words, uint64_t asn)
{
    put_field(t, " flags=", pdu[HINGEMOSS_PDU_FLAGS]);
    put_field(t, " length=", pdu[HINGEMOSS_PDU_PREFIX_LENGTH]);
    put_field(t, " max=", pdu[HINGEMOSS_PDU_MAX_LENGTH]);
    put_text(t, " address=");
    for (int i = 0; i < words; i++)
        put_hex32(t, (uint32_t)pdu[HINGEMOSS_PDU_IPV4 + i]);
    put_field(t, " asn=", asn);
}

static void put_interval(struct text *t, const char *name, const uint64_t *pdu, int place)
{
    if (pdu[HINGEMOSS_PDU_VERSION] == 0) {
        put_text(t, name);
        put_text(t, "none");
    } else
        put_field(t, name, pdu[place]);
}

void put_pdu(struct text *t, const uint64_t *pdu, const uint8_t *at, size_t n)
{
    struct span bytes = { at, n };
    uint64_t type = pdu[HINGEMOSS_PDU_TYPE];
    put_field(t, " type=", type);
    put_field(t, " version=", pdu[HINGEMOSS_PDU_VERSION]);
    if (type == 0 || type == 1 || type == 3 || type == 7)
        put_field(t, " session=", pdu[HINGEMOSS_PDU_SESSION_ID]);
    if (type == 0 || type == 1 || type == 7)
        put_field(t, " serial=", pdu[HINGEMOSS_PDU_SERIAL]);
    if (type == 4)
        put_prefix(t, pdu, 1, pdu[HINGEMOSS_PDU_IPV4_ASN]);
    if (type == 6)
        put_prefix(t, pdu, 4, pdu[HINGEMOSS_PDU_IPV6_ASN]);
    if (type == 7) {
        put_interval(t, " refresh=", pdu, HINGEMOSS_PDU_REFRESH);
        put_interval(t, " retry=", pdu, HINGEMOSS_PDU_RETRY);
        put_interval(t, " expire=", pdu, HINGEMOSS_PDU_EXPIRE);
    }
    if (type == 9) {
        put_field(t, " flags=", pdu[HINGEMOSS_PDU_FLAGS]);
        put_payload(t, " ski=", pdu, bytes, PART_KEY, pdu[HINGEMOSS_PDU_KEY_START], pdu[HINGEMOSS_PDU_KEY_LENGTH]);
        put_field(t, " asn=", pdu[HINGEMOSS_PDU_KEY_ASN]);
        put_payload(t, " spki=", pdu, bytes, PART_INFO, pdu[HINGEMOSS_PDU_INFO_START], pdu[HINGEMOSS_PDU_INFO_LENGTH]);
    }
    if (type == 10) {
        put_field(t, " code=", pdu[HINGEMOSS_PDU_CODE]);
        put_payload(t, " encap=", pdu, bytes, PART_COPY, pdu[HINGEMOSS_PDU_COPY_START], pdu[HINGEMOSS_PDU_COPY_LENGTH]);
        put_payload(t, " text=", pdu, bytes, PART_TEXT, pdu[HINGEMOSS_PDU_TEXT_START], pdu[HINGEMOSS_PDU_TEXT_LENGTH]);
    }
    if (test_kind(at, n) != type * 256 + pdu[HINGEMOSS_PDU_VERSION])
        fault("the models' type and version are the PDU's");
}

/* ---- Reading */

/* What the other ways of reading say of the same bytes. */
static void compare_reads(struct span s, uint8_t answer, const uint64_t *said)
{
    for (int run = 0; run < 2; run++) {
        uint64_t other[HINGEMOSS_PDU_NUMBERS] = { 0 }, next = 7;
        if (test_read(run, s.bytes, s.n, 0, other, HINGEMOSS_PDU_NUMBERS, &next) != answer || memcmp(other, said, sizeof other) != 0 || next != (answer ? 0 : said[HINGEMOSS_PDU_CONSUMED]))
            fault("reading by place and through a run is reading");
    }
}

void put_answer(struct text *t, struct span s)
{
    uint64_t pdu[HINGEMOSS_PDU_NUMBERS] = { 0 };
    uint8_t answer = hingemoss_read(s.bytes, s.n, pdu, HINGEMOSS_PDU_NUMBERS);
    if (answer) {
        for (size_t i = 0; i < 3; i++)
            pdu[i] = hingemoss_read_value(s.bytes, s.n, i);
        put_refusal(t, answer, pdu);
    } else {
        put_field(t, "ok consumed=", pdu[HINGEMOSS_PDU_CONSUMED]);
        put_pdu(t, pdu, s.bytes, s.n);
    }
    compare_reads(s, answer, pdu);
}

static uint8_t bytes[LONGEST];

void put_line_answer(struct text *t, struct span line)
{
    long n = decode(line, bytes, sizeof bytes);
    struct span s = { bytes, (size_t)n };
    if (n < 0)
        put_text(t, "error not-hex");
    else
        put_answer(t, s);
}

void read_lines(void)
{
    struct lines *in = open_lines(0);
    struct span line;
    while (next_line(in, &line)) {
        put_line_answer(&out, line);
        put_byte(&out, '\n');
    }
}

/* ---- Walking */

/* The same walk over hingemoss_read, PDU by PDU. */
static void compare_walk(struct span s, uint64_t level, uint64_t end, uint64_t value)
{
    uint64_t pdu[HINGEMOSS_PDU_NUMBERS], depth = 0;
    uint8_t answer;
    for (answer = hingemoss_read(s.bytes, s.n, pdu, HINGEMOSS_PDU_NUMBERS); !answer && pdu[HINGEMOSS_PDU_TYPE] == 10 && pdu[HINGEMOSS_PDU_COPY_LENGTH] > 0 && depth < 16; depth++) {
        s.bytes += pdu[HINGEMOSS_PDU_COPY_START], s.n = pdu[HINGEMOSS_PDU_COPY_LENGTH];
        answer = hingemoss_read(s.bytes, s.n, pdu, HINGEMOSS_PDU_NUMBERS);
        if (answer)
            break;
    }
    uint64_t ends = answer ? HINGEMOSS_END_REFUSED : pdu[HINGEMOSS_PDU_TYPE] != 10 ? HINGEMOSS_END_PLAIN : pdu[HINGEMOSS_PDU_COPY_LENGTH] == 0 ? HINGEMOSS_END_EMPTY : HINGEMOSS_END_TOO_DEEP;
    uint64_t with = answer ? answer : ends == HINGEMOSS_END_PLAIN ? pdu[HINGEMOSS_PDU_TYPE] : 0;
    if (depth != level || ends != end || with != value)
        fault("a walk is reading, PDU by PDU");
}

static void put_walk(struct text *t, struct span s)
{
    static const char *const ends[] = { " plain=", " empty", " refused=", " too deep" };
    uint64_t level, end, value, values[3];
    uint8_t answer = hingemoss_walk(s.bytes, s.n, &level, &end, &value);
    if (answer) {
        for (size_t i = 0; i < 3; i++)
            values[i] = hingemoss_read_value(s.bytes, s.n, i);
        put_refusal(t, answer, values);
        return;
    }
    put_field(t, "level=", level);
    put_text(t, ends[end]);
    if (end == HINGEMOSS_END_PLAIN || end == HINGEMOSS_END_REFUSED)
        put_number(t, value);
    compare_walk(s, level, end, value);
}

void walk_lines(void)
{
    struct lines *in = open_lines(0);
    struct span line;
    while (next_line(in, &line)) {
        long n = decode(line, bytes, sizeof bytes);
        struct span s = { bytes, (size_t)n };
        if (n < 0)
            put_text(&out, "error not-hex");
        else
            put_walk(&out, s);
        put_byte(&out, '\n');
    }
}
