/* driver < CASES > ANSWERS   hingemoss_diff from C, for tests/diffs
 *
 * Cases and answers are binary, their numbers little-endian and, but for `written`, of 32 bits.
 * A case is eight numbers: the old text's length and how many bytes lie behind it, the same of the new text, the lengths of the old room, the new room and the output, and what
 * stands in the rooms (0 zeros, 1 a pattern, 2 a full table); then the old text, the bytes behind it, the new text, and the bytes behind it.
 * An answer is the call's number, its faults (enum fault), `written` in 64 bits, and three parts: the old room, the new room and the output. A part is three numbers, a, b and c,
 * and then a elements; behind these come b zeros, and c elements that stand as they stood. So all that is lent is told, in few bytes.
 *
 * Before the call number i of a room's pattern is i * 2654435761 + START with its lowest bit set, where START is 2654435769 in the old room and 2135587861 in the new one;
 * byte i of the output is i * 167 + 13. Exit status: 0, or 2 where a case is broken or too large. */
#include <stdio.h>
#include <stdlib.h>
#include <string.h>

#include "hingemoss.h"

/* Said again here: where the header says otherwise, this does not compile. */
uint8_t hingemoss_diff(const uint8_t *old_text, size_t old_text_len, const uint8_t *new_text, size_t new_text_len, uint32_t *old_room, size_t old_room_len,
                       uint32_t *new_room, size_t new_room_len, uint8_t *out, size_t out_len, uint64_t *written);

enum { TEXT_MOST = 1 << 21, ROOM_MOST = 1 << 14, OUT_MOST = 1 << 19, AROUND = 64 };

enum fault { TEXT_CHANGED = 1, AROUND_CHANGED = 2 };

/* Each is lent with AROUND elements before and behind it, and kept beside a copy of how it stood. */
static uint8_t texts[2][TEXT_MOST + AROUND], texts_before[2][TEXT_MOST + AROUND];
static uint32_t rooms[2][ROOM_MOST + 2 * AROUND], rooms_before[2][ROOM_MOST + 2 * AROUND];
static uint8_t out[OUT_MOST + 2 * AROUND], out_before[OUT_MOST + 2 * AROUND];

static _Noreturn void die(const char *why)
{
    fprintf(stderr, "driver: %s\n", why);
    exit(2);
}

static void get(void *to, size_t count)
{
    if (fread(to, 1, count, stdin) != count)
        die("a case is cut short");
}

static void put(const void *from, size_t count)
{
    if (fwrite(from, 1, count, stdout) != count)
        die("cannot write");
}

static uint32_t filled(uint32_t fill, uint32_t start, uint32_t i)
{
    uint32_t record[6] = { 4 * 65536 + 8 * 256 + 8, 0x0a000000 + i / 6, 0, 0, 0, 1 };
    if (fill == 0)
        return 0;
    if (fill == 1)
        return (i * 2654435761u + start) | 1;
    return record[i % 6];
}

static void put_part(const void *now, const void *before, size_t size, uint32_t length)
{
    static const uint8_t zeros[4];
    const uint8_t *bytes = now, *stood = before;
    uint32_t counts[3], n = length;
    while (n > 0 && memcmp(bytes + size * (n - 1), stood + size * (n - 1), size) == 0)
        n--;
    counts[2] = length - n;
    while (n > 0 && memcmp(bytes + size * (n - 1), zeros, size) == 0)
        n--;
    counts[1] = length - counts[2] - n;
    counts[0] = n;
    put(counts, sizeof counts);
    put(bytes, size * n);
}

static int around_is_same(const void *now, const void *before, size_t size, size_t length)
{
    const uint8_t *bytes = now, *stood = before;
    size_t behind = size * (AROUND + length);
    return memcmp(bytes, stood, size * AROUND) == 0 && memcmp(bytes + behind, stood + behind, size * AROUND) == 0;
}

int main(void)
{
    static const uint32_t starts[2] = { 2654435769u, 2135587861u };
    uint32_t head[8];
    size_t got;
    for (uint32_t number = 0; (got = fread(head, 1, sizeof head, stdin)) == sizeof head; number++) {
        size_t lengths[2] = { head[0], head[2] }, behind[2] = { head[1], head[3] }, room_lengths[2] = { head[4], head[5] }, out_length = head[6];
        /* a text may begin anywhere */
        size_t at = number % 16;
        for (int i = 0; i < 2; i++) {
            if (lengths[i] > TEXT_MOST || behind[i] > TEXT_MOST - lengths[i] || room_lengths[i] > ROOM_MOST)
                die("a case is too large");
            get(texts[i] + at, lengths[i] + behind[i]);
            memcpy(texts_before[i], texts[i], at + lengths[i] + behind[i]);
            for (uint32_t j = 0; j < room_lengths[i] + 2 * AROUND; j++)
                rooms[i][j] = filled(j < AROUND || j >= AROUND + room_lengths[i] ? 1 : head[7], starts[i], j - AROUND);
            memcpy(rooms_before[i], rooms[i], 4 * (room_lengths[i] + 2 * AROUND));
        }
        if (out_length > OUT_MOST)
            die("a case is too large");
        for (size_t j = 0; j < out_length + 2 * AROUND; j++)
            out[j] = (uint8_t)((j - AROUND) * 167 + 13);
        memcpy(out_before, out, out_length + 2 * AROUND);

        uint64_t written[3] = { 0x5a5a5a5a5a5a5a5a, 0xa5a5a5a5a5a5a5a5, 0x5a5a5a5a5a5a5a5a };
        uint32_t answer[2];
        answer[0] = hingemoss_diff(texts[0] + at, lengths[0], texts[1] + at, lengths[1], rooms[0] + AROUND, room_lengths[0], rooms[1] + AROUND, room_lengths[1],
                                   out + AROUND, out_length, &written[1]);
        answer[1] = 0;
        for (int i = 0; i < 2; i++) {
            if (memcmp(texts[i], texts_before[i], at + lengths[i] + behind[i]) != 0)
                answer[1] |= TEXT_CHANGED;
            if (!around_is_same(rooms[i], rooms_before[i], 4, room_lengths[i]))
                answer[1] |= AROUND_CHANGED;
        }
        if (!around_is_same(out, out_before, 1, out_length) || written[0] != 0x5a5a5a5a5a5a5a5a || written[2] != 0x5a5a5a5a5a5a5a5a)
            answer[1] |= AROUND_CHANGED;
        put(answer, sizeof answer);
        put(&written[1], 8);
        for (int i = 0; i < 2; i++)
            put_part(rooms[i] + AROUND, rooms_before[i] + AROUND, 4, (uint32_t)room_lengths[i]);
        put_part(out + AROUND, out_before + AROUND, 1, (uint32_t)out_length);
        if (fflush(stdout) != 0)
            die("cannot write");
    }
    if (got != 0)
        die("a case is cut short");
    return 0;
}
