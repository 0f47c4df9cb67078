/* The mode `encode`: a PDU line of the oracle's becomes a PDU's numbers, and then hex digits. Fields stand in any order, and the last of a name counts.
 * They are asked for in the oracle's order, so that a line with two faults is answered by the same one. */
#include <string.h>

#include "calls.h"
#include "modes.h"

static uint8_t payload[LONGEST], encoded[LONGEST];
static const uint64_t ABSENT = (uint64_t)1 << 32;

/* ASCII's white space; the oracle passes over Unicode's besides, which no PDU line has. */
static int is_space(uint8_t c) { return c == ' ' || (c >= 9 && c <= 13); }

/* The value of the last word that begins with the name and `=`. */
static int find(struct span line, const char *name, struct span *value)
{
    size_t length = strlen(name), from = 0;
    int found = 0;
    while (from < line.n) {
        size_t end = from;
        while (end < line.n && !is_space(line.bytes[end]))
            end++;
        if (end - from > length && memcmp(line.bytes + from, name, length) == 0 && line.bytes[from + length] == '=') {
            value->bytes = line.bytes + from + length + 1, value->n = end - from - length - 1;
            found = 1;
        }
        from = end + 1;
    }
    return found;
}

/* ---- A field; where it is missing or bad, its name is kept and nothing more is asked for. */

struct asked {
    struct span line;
    const char *fault;
    size_t used; /* of the payload's bytes */
};

static void missed(struct asked *a, const char *name)
{
    if (!a->fault)
        a->fault = name;
}

static int number_of(struct span s, uint64_t most, uint64_t *n)
{
    if (s.n > 0 && s.bytes[0] == '+')
        s.bytes++, s.n--;
    return number_in(s, most, n);
}

static uint64_t number(struct asked *a, const char *name, uint64_t most)
{
    struct span value;
    uint64_t n = 0;
    if (a->fault || (find(a->line, name, &value) && number_of(value, most, &n)))
        return n;
    missed(a, name);
    return 0;
}

static uint64_t interval(struct asked *a, const char *name)
{
    struct span value;
    if (!a->fault && find(a->line, name, &value) && is_text(value, "none"))
        return ABSENT;
    return number(a, name, 4294967295);
}

/* Digits that become payload; the place they then have. */
static void place(struct asked *a, const char *name, uint64_t *start, uint64_t *length)
{
    struct span value;
    if (a->fault)
        return;
    long n = find(a->line, name, &value) ? decode(value, payload + a->used, sizeof payload - a->used) : -1;
    if (n < 0)
        missed(a, name);
    else
        *start = a->used, *length = (uint64_t)n, a->used += (size_t)n;
}

/* ---- Each kind */

static void prefix(struct asked *a, uint64_t *pdu, size_t words)
{
    uint64_t start = 0, length = 0;
    place(a, "address", &start, &length);
    if (!a->fault && length != 4 * words)
        missed(a, "address");
    for (size_t i = 0; i < words; i++)
        pdu[6 + i] = (uint64_t)payload[4 * i] << 24 | (uint64_t)payload[4 * i + 1] << 16 | (uint64_t)payload[4 * i + 2] << 8 | payload[4 * i + 3];
    pdu[HINGEMOSS_PDU_FLAGS] = number(a, "flags", 255);
    pdu[HINGEMOSS_PDU_PREFIX_LENGTH] = number(a, "length", 255);
    pdu[HINGEMOSS_PDU_MAX_LENGTH] = number(a, "max", 255);
    pdu[6 + words] = number(a, "asn", 4294967295);
}

/* An identifier of another length than 20 is refused before the fields behind it are looked at. */
static void router_key(struct asked *a, uint64_t *pdu)
{
    pdu[HINGEMOSS_PDU_FLAGS] = number(a, "flags", 255);
    place(a, "ski", pdu + HINGEMOSS_PDU_KEY_START, pdu + HINGEMOSS_PDU_KEY_LENGTH);
    if (a->fault || pdu[HINGEMOSS_PDU_KEY_LENGTH] != 20)
        return;
    pdu[HINGEMOSS_PDU_KEY_ASN] = number(a, "asn", 4294967295);
    place(a, "spki", pdu + HINGEMOSS_PDU_INFO_START, pdu + HINGEMOSS_PDU_INFO_LENGTH);
}

static void fields(struct asked *a, uint64_t type, uint64_t *pdu)
{
    if (type == 0 || type == 1 || type == 3 || type == 7)
        pdu[HINGEMOSS_PDU_SESSION_ID] = number(a, "session", 65535);
    if (type == 0 || type == 1 || type == 7)
        pdu[HINGEMOSS_PDU_SERIAL] = number(a, "serial", 4294967295);
    if (type == 4)
        prefix(a, pdu, 1);
    if (type == 6)
        prefix(a, pdu, 4);
    if (type == 7) {
        pdu[HINGEMOSS_PDU_REFRESH] = interval(a, "refresh");
        pdu[HINGEMOSS_PDU_RETRY] = interval(a, "retry");
        pdu[HINGEMOSS_PDU_EXPIRE] = interval(a, "expire");
    }
    if (type == 9)
        router_key(a, pdu);
    if (type == 10) {
        pdu[HINGEMOSS_PDU_CODE] = number(a, "code", 65535);
        if (!a->fault && pdu[HINGEMOSS_PDU_CODE] > 8)
            missed(a, "code");
        place(a, "encap", pdu + HINGEMOSS_PDU_COPY_START, pdu + HINGEMOSS_PDU_COPY_LENGTH);
        place(a, "text", pdu + HINGEMOSS_PDU_TEXT_START, pdu + HINGEMOSS_PDU_TEXT_LENGTH);
    }
}

static int parse(struct asked *a, uint64_t *pdu)
{
    uint64_t version = number(a, "version", 255), type;
    if (!a->fault && version > 1)
        missed(a, "version");
    type = number(a, "type", 255);
    if (!a->fault && (type > 10 || type == 5))
        missed(a, "type");
    pdu[HINGEMOSS_PDU_TYPE] = type, pdu[HINGEMOSS_PDU_VERSION] = version;
    if (!a->fault)
        fields(a, type, pdu);
    return !a->fault;
}

/* ---- Encoding */

static int has_absent(const uint64_t *pdu) { return pdu[HINGEMOSS_PDU_REFRESH] == ABSENT || pdu[HINGEMOSS_PDU_RETRY] == ABSENT || pdu[HINGEMOSS_PDU_EXPIRE] == ABSENT; }

/* An End of Data goes through test_calls, which knows absent intervals; a host's numbers, which do not, must come to the same where they can say it. */
static void put_end_of_data(struct text *t, uint64_t *pdu)
{
    static uint8_t other[64];
    uint64_t n = test_encode_end(pdu, HINGEMOSS_PDU_NUMBERS, encoded, sizeof encoded), written;
    put_hex(t, encoded, n);
    if (pdu[HINGEMOSS_PDU_VERSION] == 1 && has_absent(pdu))
        return;
    if (pdu[HINGEMOSS_PDU_VERSION] == 0)
        pdu[HINGEMOSS_PDU_REFRESH] = pdu[HINGEMOSS_PDU_RETRY] = pdu[HINGEMOSS_PDU_EXPIRE] = 0;
    if (hingemoss_encode(pdu, HINGEMOSS_PDU_NUMBERS, payload, 0, other, sizeof other, &written) != HINGEMOSS_OK || written != n || memcmp(other, encoded, n) != 0)
        fault("an End of Data by its numbers is the same");
}

static void put_encoding(struct text *t, const uint64_t *pdu, size_t used)
{
    uint64_t written;
    uint8_t answer = hingemoss_encode(pdu, HINGEMOSS_PDU_NUMBERS, payload, used, encoded, sizeof encoded, &written);
    if (answer == HINGEMOSS_OK)
        put_hex(t, encoded, written);
    else
        put_refusal(t, answer, &written);
}

void put_line_encoding(struct text *t, struct span line)
{
    uint64_t pdu[HINGEMOSS_PDU_NUMBERS] = { 0 };
    struct asked a = { line, 0, 0 };
    struct span value;
    if (line.n >= 7 && memcmp(line.bytes, "refused", 7) == 0)
        put_byte(t, '-');
    else if (!parse(&a, pdu)) {
        put_text(t, find(line, a.fault, &value) ? "error bad " : "error missing ");
        put_text(t, a.fault);
    } else if (pdu[HINGEMOSS_PDU_TYPE] == 7)
        put_end_of_data(t, pdu);
    else
        put_encoding(t, pdu, a.used);
}

void encode_lines(void)
{
    struct lines *in = open_lines(0);
    struct span line;
    while (next_line(in, &line)) {
        put_line_encoding(&out, line);
        put_byte(&out, '\n');
    }
}
