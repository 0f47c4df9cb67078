/* Memory that is lent to questions about routes, as lines set it. */
#include <string.h>

#include "memory.h"

struct memory memory;
static struct memory kept;
uint64_t lent[5];

void keep_memory(void) { memcpy(&kept, &memory, sizeof kept); }

int is_kept(void) { return memcmp(&kept, &memory, sizeof kept) == 0; }

/* ---- Numbers of a line, in hex */

static int hex_in(struct span s, uint64_t *n)
{
    *n = 0;
    for (size_t i = 0; i < s.n; i++) {
        uint8_t c = s.bytes[i];
        if (!((c >= '0' && c <= '9') || (c >= 'a' && c <= 'f')))
            return 0;
        *n = *n << 4 | (uint64_t)(c <= '9' ? c - '0' : c - 'a' + 10);
    }
    return s.n > 0 && s.n <= 16;
}

int numbers_in(struct span text, size_t count, uint64_t most, uint64_t *n)
{
    for (size_t i = 0; i < count; i++, text = behind_word(text))
        if (!hex_in(first_word(text), n + i) || n[i] > most)
            return 0;
    return text.n == 0;
}

int six_in(struct span text, uint32_t *six)
{
    uint64_t n[SIX];
    if (!numbers_in(text, SIX, NUMBER_MOST, n))
        return 0;
    for (int i = 0; i < SIX; i++)
        six[i] = (uint32_t)n[i];
    return 1;
}

/* ---- Lines: false where a line is none */

static int new_memory(struct span text)
{
    memset(&memory, 0, sizeof memory);
    memory.session[HINGEMOSS_SESSION_VERSION] = 1;
    memory.session[HINGEMOSS_SESSION_LIMIT] = HINGEMOSS_RECORDS;
    lent[0] = HINGEMOSS_SESSION_NUMBERS, lent[1] = lent[2] = HINGEMOSS_ROOM_NUMBERS, lent[3] = 64, lent[4] = SIX;
    return text.n == 0;
}

static int lend(struct span text)
{
    static const uint64_t most[5] = { SESSION_MEMORY, ROOM_MEMORY, ROOM_MEMORY, HOLD_MEMORY, ROUTE_MEMORY };
    if (!numbers_in(text, 5, ROOM_MEMORY, lent))
        return 0;
    for (int i = 0; i < 5; i++)
        if (lent[i] > most[i])
            return 0;
    return 1;
}

static int set_session(struct span text)
{
    uint64_t n[2];
    if (!numbers_in(text, 2, ~(uint64_t)0, n) || n[0] >= SESSION_MEMORY)
        return 0;
    memory.session[n[0]] = n[1];
    return 1;
}

static int set_number(uint32_t *room, struct span text)
{
    uint64_t n[2];
    if (!numbers_in(text, 2, NUMBER_MOST, n) || n[0] >= ROOM_MEMORY)
        return 0;
    room[n[0]] = (uint32_t)n[1];
    return 1;
}

static int set_hold(struct span text)
{
    uint64_t from;
    return hex_in(first_word(text), &from) && from <= HOLD_MEMORY && decode(behind_word(text), memory.hold + from, HOLD_MEMORY - from) >= 0;
}

/* A record behind the last one of a room. */
static int add_record(uint32_t *room, uint64_t *count, struct span text)
{
    if (*count >= ROOM_MEMORY / SIX || !six_in(text, room + SIX * *count))
        return 0;
    ++*count;
    return 1;
}

static int set_memory(struct span word, struct span text)
{
    return is_text(word, "record")    ? add_record(memory.live, memory.session + HINGEMOSS_SESSION_LIVE, text)
           : is_text(word, "pending") ? add_record(memory.work, memory.session + HINGEMOSS_SESSION_WORKING, text)
           : is_text(word, "session") ? set_session(text)
           : is_text(word, "live")    ? set_number(memory.live, text)
           : is_text(word, "work")    ? set_number(memory.work, text)
           : is_text(word, "hold")    ? set_hold(text)
           : is_text(word, "lend")    ? lend(text)
                                      : is_text(word, "new") && new_memory(text);
}

void memory_lines(int (*own)(struct span word, struct span text))
{
    struct lines *in = open_lines(0);
    struct span line, none = { (const uint8_t *)"", 0 };
    new_memory(none);
    while (next_line(in, &line)) {
        struct span word = first_word(line), text = behind_word(line);
        if (!own(word, text) && !set_memory(word, text)) {
            put_text(&out, "error ");
            put_bytes(&out, word.bytes, word.n);
            put_byte(&out, '\n');
        }
    }
}
