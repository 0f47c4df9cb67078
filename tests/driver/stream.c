/* The modes `stream` and `captures`: pieces of bytes go through the stream's search, and each PDU, then how the stream stands, is a line as the oracle's `stream` writes it.
 * Each PDU that is found is read again where it lies. */
#include <string.h>

#include "calls.h"
#include "modes.h"

/* A stream that is listened to: its state, the bytes taken in the pieces before, and the answer that ended it. */
struct heard {
    uint64_t state[STATE_NUMBERS], before, said[SAID_NUMBERS], pdu[HINGEMOSS_PDU_NUMBERS];
    uint8_t ended;
};

static struct heard nothing_heard(void)
{
    struct heard h = { { 0 }, 0, { 0 }, { 0 }, SEARCH_MORE };
    return h;
}

static void put_found(struct text *t, const uint64_t *said, const uint64_t *pdu, const uint8_t *hold, size_t hold_len, struct span piece)
{
    struct span in = { hold, hold_len };
    uint64_t again[HINGEMOSS_PDU_NUMBERS];
    if (said[SAID_LIES] == LIES_IN_PIECE)
        in = piece;
    if (said[SAID_LIES] < LIES_IN_PIECE || said[SAID_LIES] > LIES_IN_HOLD || said[SAID_START] > in.n || said[SAID_LENGTH] > in.n - said[SAID_START]) {
        fault("a PDU that is found lies in the piece or in the hold");
        return;
    }
    const uint8_t *at = in.bytes + said[SAID_START];
    if (hingemoss_read(at, said[SAID_LENGTH], again, HINGEMOSS_PDU_NUMBERS) != HINGEMOSS_OK || memcmp(again, pdu, sizeof again) != 0)
        fault("a PDU that is found is read where it lies");
    put_field(t, "ok consumed=", said[SAID_LENGTH]);
    put_pdu(t, pdu, at, said[SAID_LENGTH]);
    put_byte(t, '\n');
}

/* Every PDU that a piece makes whole; a stream that stopped hears none. */
static void hear(struct text *t, struct heard *h, uint8_t *hold, size_t hold_len, struct span piece, uint64_t *counts)
{
    if (h->ended != SEARCH_MORE)
        return;
    h->before += h->state[STATE_NEXT];
    h->state[STATE_NEXT] = 0;
    while ((h->ended = test_search(hold, hold_len, piece.bytes, piece.n, h->state, STATE_NUMBERS, h->said, SAID_NUMBERS, h->pdu, HINGEMOSS_PDU_NUMBERS)) == SEARCH_FOUND) {
        if (counts)
            counts[h->pdu[HINGEMOSS_PDU_TYPE]]++;
        h->pdu[HINGEMOSS_PDU_CONSUMED] = h->said[SAID_LENGTH];
        put_found(t, h->said, h->pdu, hold, hold_len, piece);
    }
}

static void put_end(struct text *t, const struct heard *h)
{
    if (h->ended == SEARCH_MORE)
        put_field(t, "more held=", h->state[STATE_HELD]);
    else if (h->ended == HINGEMOSS_REFUSED_NOT_A_RECEIVER)
        put_text(t, "refused 22");
    else {
        put_field(t, "stop taken=", h->before + h->state[STATE_NEXT]);
        put_byte(t, ' ');
        put_refusal(t, h->ended, h->said);
    }
    put_byte(t, '\n');
}

/* ---- stream: a space cuts a line, and the hold takes any PDU that is listened to, so that 12 never arises */

static uint8_t answer_space[1 << 22];

static void stream_line(struct span line)
{
    static uint8_t hold[HINGEMOSS_HOLD_MOST], bytes[LONGEST];
    struct text answer = { answer_space, sizeof answer_space, 0 };
    struct heard h = nothing_heard();
    while (line.n > 0) {
        long n = decode(first_word(line), bytes, sizeof bytes);
        struct span piece = { bytes, (size_t)n };
        if (n < 0) {
            put_text(&out, "error not-hex\n");
            return;
        }
        hear(&answer, &h, hold, sizeof hold, piece, 0);
        line = behind_word(line);
    }
    put_end(&answer, &h);
    for (size_t at = 0; at < answer.n; at += 65536)
        put_bytes(&out, answer.bytes + at, answer.n - at < 65536 ? answer.n - at : 65536);
}

void stream_lines(void)
{
    struct lines *in = open_lines(0);
    struct span line;
    while (next_line(in, &line))
        stream_line(line);
}

/* ---- captures: what real caches sent, whole and in pieces of 1 to 64 bytes: the same text, PDU by PDU, the same end and the same bytes held */

static uint8_t whole_space[1 << 20], pieces_space[1 << 20];

/* One piece after another, all in one where `size` is 0; then how the stream stands and the bytes that it holds. */
static struct heard hear_all(struct text *t, uint8_t *hold, size_t hold_len, struct span bytes, size_t size, uint64_t *counts)
{
    struct heard h = nothing_heard();
    for (size_t from = 0, n; from < bytes.n; from += n) {
        n = size && size < bytes.n - from ? size : bytes.n - from;
        struct span piece = { bytes.bytes + from, n };
        hear(t, &h, hold, hold_len, piece, counts);
    }
    put_end(t, &h);
    put_hex(t, hold, h.state[STATE_HELD]);
    return h;
}

static void show(const char *label, uint8_t *hold, size_t hold_len, struct span bytes, int with_counts)
{
    struct text whole = { whole_space, sizeof whole_space, 0 };
    uint64_t counts[11] = { 0 };
    struct heard h = hear_all(&whole, hold, hold_len, bytes, 0, counts);
    int same = 1;
    for (uint64_t i = 0; with_counts && i < 11; i++)
        if (counts[i]) {
            put_field(&out, "type=", i);
            put_field(&out, " count=", counts[i]);
            put_byte(&out, '\n');
        }
    put_text(&out, label);
    put_end(&out, &h);
    for (size_t size = 1; size <= 64; size++) {
        struct text pieces = { pieces_space, sizeof pieces_space, 0 };
        hear_all(&pieces, hold, hold_len, bytes, size, 0);
        same &= is_same(written(&whole), written(&pieces));
    }
    put_text(&out, label);
    put_text(&out, same ? "same in pieces of 1 to 64: yes\n" : "same in pieces of 1 to 64: no\n");
}

/* As it is, without its last byte, and in a hold that has no room for an IPv6 prefix. */
void captures(const char *folder)
{
    static const char *const names[] = { "stayrtr_v1_reset_30.bin", "stayrtr_v0_reset_30.bin", "stayrtr_v1_serial_diff.bin", "stayrtr_v1_session_reset_notify_serial.bin", "stayrtr_v1_reset_1000.bin",
        "fort_v1_reset_30_keys.bin", "fort_v1_unknown_type5.bin" };
    static uint8_t bytes[1 << 16], hold[8192];
    for (size_t i = 0; i < sizeof names / sizeof names[0]; i++) {
        struct span all = { bytes, append_file(folder, names[i], bytes, sizeof bytes, 0) };
        put_text(&out, names[i]);
        put_field(&out, "\nbytes=", all.n);
        put_byte(&out, '\n');
        show("", hold, sizeof hold, all, 1);
        all.n--;
        show("without its last byte: ", hold, sizeof hold, all, 0);
        all.n++;
        show("in a hold of 24: ", hold, 24, all, 0);
    }
}
