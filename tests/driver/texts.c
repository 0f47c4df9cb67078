/* The mode `texts`: hex digits on standard input, a line each, `-` for an empty text; for each how many bytes from its front are well-formed UTF-8, and whether
 * that is all of it. Each text is lent from the end of a buffer, and from 16 places among bytes that are not its own. Both calls must agree, and say the same
 * each time. */
#include <string.h>

#include "calls.h"
#include "modes.h"

/* Other bytes before and behind a text, and how many places it is lent from. */
enum { BESIDE = 32, PLACES = 16 };

static uint8_t bytes[LONGEST], ends_here[LONGEST], among[BESIDE + PLACES + LONGEST + BESIDE];

/* What both calls say of a text. */
struct said {
    uint64_t up_to;
    int whole;
};

static struct said ask(const uint8_t *text, size_t n)
{
    struct said s = { test_up_to(text, n), test_is_text(text, n) };
    if (s.whole != (s.up_to == n))
        fault("a text is well formed exactly if it is so up to its end");
    return s;
}

static void put_said(struct said s)
{
    put_number(&out, s.up_to);
    put_text(&out, s.whole ? " yes" : " no");
}

/* The text among other bytes, in twos from it outwards: ASCII; two that follow in a character, one of which fits behind any first byte; ASCII of one byte. */
static void put_others(const uint8_t *text, size_t n, struct said first)
{
    static const uint8_t others[][2] = { { 0x00, 0x00 }, { 0x80, 0x80 }, { 0xbf, 0xbf }, { 0x61, 0x80 } };
    for (size_t i = 0; i < sizeof others / sizeof others[0]; i++)
        for (size_t place = 0; place < PLACES; place++) {
            uint8_t *at = among + BESIDE + place;
            for (size_t k = 0; k < BESIDE; k++)
                *(at - 1 - k) = at[n + k] = others[i][k % 2];
            memcpy(at, text, n);
            struct said s = ask(at, n);
            if (s.up_to == first.up_to && s.whole == first.whole)
                continue;
            fault("what is said of a text does not hang on where it lies, nor on what is beside it");
            /* told on the line too, so that it is found where it is */
            put_text(&out, " beside ");
            put_hex(&out, others[i], 2);
            put_byte(&out, ' ');
            put_said(s);
            return;
        }
}

static void put_line_text(struct span line)
{
    long n = is_text(line, "-") ? 0 : decode(line, bytes, sizeof bytes);
    if (n < 0) {
        put_text(&out, "error not-hex");
        return;
    }
    uint8_t *last = ends_here + sizeof ends_here - n;
    memcpy(last, bytes, (size_t)n);
    struct said s = ask(last, (size_t)n);
    put_said(s);
    put_others(bytes, (size_t)n, s);
}

void texts(void)
{
    struct lines *in = open_lines(0);
    struct span line;
    while (next_line(in, &line)) {
        put_line_text(line);
        put_byte(&out, '\n');
    }
}
