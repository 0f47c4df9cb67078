/* The mode `scripts`: scripts of receiver calls (tests/model/FORMAT.md) on standard input; each call's answer, and how session and memory then stand, as the reference model prints them.
 * Each call but the start is made twice: by the library for hosts, and over a lent record (rtr_held) on a copy of all memory. The two must leave the same. */
#include <string.h>

#include "calls.h"
#include "modes.h"

enum { ROOM_MEMORY = 6150, HOLD_MEMORY = 131200, OUTPUT = 32 };

struct memory {
    uint64_t session[HINGEMOSS_SESSION_NUMBERS];
    uint32_t live[ROOM_MEMORY], work[ROOM_MEMORY];
    uint8_t hold[HOLD_MEMORY], output[OUTPUT];
};

static struct memory m, twin;
static int has_session;
static size_t lent_live, lent_work, lent_hold;

#define LENT(m) (m).session, HINGEMOSS_SESSION_NUMBERS, (m).live, lent_live, (m).work, lent_work, (m).hold, lent_hold

/* ---- The state line */

static uint32_t sum_numbers(const uint32_t *numbers, size_t n)
{
    uint32_t sum = 0;
    for (size_t i = 0; i < n; i++)
        sum = sum * 31 + numbers[i];
    return sum;
}

static uint32_t sum_bytes(const uint8_t *bytes, size_t n)
{
    uint32_t sum = 0;
    for (size_t i = 0; i < n; i++)
        sum = sum * 31 + bytes[i];
    return sum;
}

static void put_phase(const uint64_t *s)
{
    static const char *const names[] = { "idle", "mustreset", "askedfull", "askedchange", "loading full ", "loading change ", "stopped" };
    uint64_t phase = s[HINGEMOSS_SESSION_PHASE];
    put_text(&out, names[phase]);
    if (phase == HINGEMOSS_STOPPED)
        put_values(&out, s[HINGEMOSS_SESSION_DETAIL], s + HINGEMOSS_SESSION_FIRST);
    else if (phase >= HINGEMOSS_LOADING_FULL)
        put_number(&out, s[HINGEMOSS_SESSION_DETAIL]);
}

/* `name none`, or the name and so many numbers. */
static void put_numbers(const char *name, uint64_t is_there, const uint64_t *numbers, size_t n)
{
    put_text(&out, name);
    if (!is_there)
        put_text(&out, " none");
    for (size_t i = 0; is_there && i < n; i++)
        put_field(&out, " ", numbers[i]);
}

static void show_state(void)
{
    const uint64_t *s = m.session;
    uint64_t held = has_session && s[HINGEMOSS_SESSION_HELD] <= lent_hold ? s[HINGEMOSS_SESSION_HELD] : 0;
    if (has_session) {
        put_field(&out, "state version ", s[HINGEMOSS_SESSION_VERSION]);
        put_text(&out, " phase ");
        put_phase(s);
        put_numbers(" table", s[HINGEMOSS_SESSION_TABLE], s + HINGEMOSS_SESSION_ID, 5);
        put_numbers(" note", s[HINGEMOSS_SESSION_NOTE], s + HINGEMOSS_SESSION_NOTE_ID, 2);
        put_numbers(" counts", 1, s + HINGEMOSS_SESSION_LIVE, 3);
    } else
        put_text(&out, "state none");
    put_field(&out, " sums ", sum_numbers(m.live, ROOM_MEMORY));
    put_field(&out, " ", sum_numbers(m.work, ROOM_MEMORY));
    put_field(&out, " ", sum_bytes(m.hold, held));
    put_field(&out, " ", sum_bytes(m.output, OUTPUT));
    put_byte(&out, '\n');
}

/* ---- Calls: false where the line is none */

static int start(struct span text)
{
    if (!is_text(text, "0") && !is_text(text, "1"))
        return 0;
    has_session = hingemoss_start(text.bytes[0] == '1', LENT(m)) == HINGEMOSS_OK;
    put_text(&out, has_session ? "start ok\n" : "start 22\n");
    return 1;
}

static int ask(const char *name, int full, struct span text)
{
    uint64_t n, other;
    if (!number_in(text, OUTPUT, &n))
        return 0;
    uint8_t answer = full ? hingemoss_full_ask(LENT(m), m.output, n) : hingemoss_change_ask(LENT(m), m.output, n);
    other = test_held_ask(full, LENT(twin), twin.output, n);
    put_text(&out, name);
    if (answer == HINGEMOSS_OK)
        put_text(&out, " ok");
    else
        put_field(&out, " ", answer);
    if (answer == HINGEMOSS_OK || answer == HINGEMOSS_REFUSED_OUTPUT_SHORT)
        put_field(&out, " ", other / 256);
    put_byte(&out, '\n');
    if (answer != other % 256)
        fault("an ask over a lent record answers the same");
    return 1;
}

/* A piece of hex digits, `-` for none. */
static int feed(struct span text)
{
    static uint8_t piece[4096];
    uint64_t taken, updates;
    long n = is_text(text, "-") ? 0 : decode(text, piece, sizeof piece);
    if (n < 0 || (n == 0 && !is_text(text, "-")))
        return 0;
    uint8_t answer = hingemoss_feed(LENT(m), piece, (size_t)n, &taken, &updates);
    uint64_t other = test_held_feed(LENT(twin), piece, (size_t)n);
    put_field(&out, "feed ", taken);
    put_field(&out, " ", updates);
    if (answer == HINGEMOSS_OK)
        put_text(&out, " none");
    else if (answer == HINGEMOSS_REFUSED_NOT_A_RECEIVER)
        put_text(&out, " refused 22");
    else {
        put_text(&out, " stop");
        put_values(&out, answer, m.session + HINGEMOSS_SESSION_FIRST);
    }
    put_byte(&out, '\n');
    if (other != (taken << 16 | updates << 8 | answer))
        fault("a feed over a lent record answers the same");
    return 1;
}

static int reconnect(void)
{
    uint8_t answer = hingemoss_reconnect(LENT(m));
    put_text(&out, answer ? "reconnect 22\n" : "reconnect ok\n");
    if (answer != test_held_reconnect(LENT(twin)))
        fault("a new connection over a lent record answers the same");
    return 1;
}

static int notify(void)
{
    static const char *const names[] = { "none\n", "othersession\n", "same\n", "newer\n", "older\n", "undefined\n" };
    uint64_t compared;
    uint8_t answer = hingemoss_notify(LENT(m), &compared);
    put_text(&out, "notify ");
    put_text(&out, answer ? "22\n" : names[compared]);
    if (test_held_notify(LENT(twin)) != (answer ? answer : compared))
        fault("a notify over a lent record answers the same");
    return 1;
}

static int call(struct span word, struct span text)
{
    static const char *const names[] = { "full", "change", "feed", "reconnect", "notify" };
    size_t i = 0;
    while (i < 5 && !is_text(word, names[i]))
        i++;
    if (i == 5)
        return -1;
    if (!has_session) {
        put_text(&out, names[i]);
        put_text(&out, " nosession\n");
        return 1;
    }
    memcpy(&twin, &m, sizeof twin);
    int is_call = i < 2 ? ask(names[i], i == 0, text) : i == 2 ? feed(text) : i == 3 ? reconnect() : notify();
    if (is_call && memcmp(&twin, &m, sizeof twin) != 0)
        fault("a call over a lent record leaves the same memory");
    return is_call;
}

/* ---- Damage: the caller's hand in the memory that is lent, and in the session's numbers */

enum { WORDS = 8 };

/* Every word a number of 32 bits: how many, or -1. */
static int numbers_in(struct span text, uint64_t *n)
{
    int count = 0;
    for (; text.n > 0; text = behind_word(text), count++)
        if (count == WORDS || !number_in(first_word(text), 4294967295, n + count))
            return -1;
    return count;
}

static int set_number(uint32_t *room, struct span text)
{
    uint64_t n[WORDS];
    if (numbers_in(text, n) != 2 || n[0] >= ROOM_MEMORY)
        return 0;
    room[n[0]] = (uint32_t)n[1];
    return 1;
}

static int set_hold(struct span text)
{
    uint64_t from;
    return number_in(first_word(text), HOLD_MEMORY, &from) && decode(behind_word(text), m.hold + from, HOLD_MEMORY - from) >= 0;
}

static int set_stop(struct span text, uint64_t *detail)
{
    static const struct { uint8_t number, values; uint32_t most[3]; } stops[] = { { 2, 1, { 255 } }, { 3, 1, { 255 } }, { 4, 3, { 4294967295, 4294967295, 255 } }, { 5, 0, { 0 } }, { 6, 3, { 255, 255, 255 } },
        { 7, 1, { 65535 } }, { 8, 0, { 0 } }, { 12, 1, { 4294967295 } }, { 13, 0, { 0 } }, { 14, 0, { 0 } }, { 15, 0, { 0 } }, { 16, 0, { 0 } }, { 17, 0, { 0 } }, { 18, 0, { 0 } }, { 19, 1, { 8 } } };
    uint64_t n[WORDS];
    int count = numbers_in(text, n);
    for (size_t i = 0; count > 0 && i < sizeof stops / sizeof stops[0]; i++) {
        if (stops[i].number != n[0] || stops[i].values != count - 1)
            continue;
        for (int k = 0; k < 3; k++)
            detail[k + 1] = k < count - 1 ? n[k + 1] : 0;
        for (int k = 0; k < count - 1; k++)
            if (n[k + 1] > stops[i].most[k])
                return 0;
        detail[0] = n[0];
        return 1;
    }
    return 0;
}

static int set_phase(struct span text)
{
    static const char *const names[] = { "idle", "mustreset", "askedfull", "askedchange" };
    uint64_t phase = 0, detail[4] = { 0 };
    struct span word = first_word(text), rest = behind_word(text);
    if (is_text(word, "loading")) {
        phase = is_text(first_word(rest), "full") ? HINGEMOSS_LOADING_FULL : HINGEMOSS_LOADING_CHANGE;
        if ((phase == HINGEMOSS_LOADING_CHANGE && !is_text(first_word(rest), "change")) || !number_in(behind_word(rest), 65535, detail))
            return 0;
    } else if (is_text(word, "stopped")) {
        phase = HINGEMOSS_STOPPED;
        if (!set_stop(rest, detail))
            return 0;
    } else {
        while (phase < 4 && !is_text(text, names[phase]))
            phase++;
        if (phase == 4)
            return 0;
    }
    m.session[HINGEMOSS_SESSION_PHASE] = phase;
    memcpy(m.session + HINGEMOSS_SESSION_DETAIL, detail, sizeof detail);
    return 1;
}

/* Numbers of the session from a place on, a flag before them; the first is a session id where there are more. */
static int set_fields(size_t flag, int count, struct span text)
{
    uint64_t n[WORDS];
    if (numbers_in(text, n) != count || n[0] > 65535)
        return 0;
    m.session[flag] = 1;
    memcpy(m.session + flag + 1, n, (size_t)count * sizeof n[0]);
    return 1;
}

static int clear_fields(size_t flag, size_t count)
{
    memset(m.session + flag, 0, (count + 1) * sizeof m.session[0]);
    return 1;
}

static int set_count(size_t place, struct span text) { return number_in(text, 4294967295, m.session + place); }

/* 1 or 0, or -1 where the word is none of these. */
static int damage(struct span word, struct span text)
{
    if (is_text(word, "live"))
        return set_number(m.live, text);
    if (is_text(word, "work"))
        return set_number(m.work, text);
    if (is_text(word, "hold"))
        return set_hold(text);
    if (!has_session)
        return 0;
    if (is_text(word, "livecount"))
        return set_count(HINGEMOSS_SESSION_LIVE, text);
    if (is_text(word, "workcount"))
        return set_count(HINGEMOSS_SESSION_WORKING, text);
    if (is_text(word, "held"))
        return set_count(HINGEMOSS_SESSION_HELD, text);
    if (is_text(word, "table"))
        return set_fields(HINGEMOSS_SESSION_TABLE, 5, text);
    if (is_text(word, "notable"))
        return clear_fields(HINGEMOSS_SESSION_TABLE, 5);
    if (is_text(word, "note"))
        return set_fields(HINGEMOSS_SESSION_NOTE, 2, text);
    if (is_text(word, "nonote"))
        return clear_fields(HINGEMOSS_SESSION_NOTE, 2);
    return is_text(word, "phase") && set_phase(text);
}

/* ---- Scripts */

/* The memory afresh, each kind with a number of its own. */
static int begin(struct span text)
{
    uint64_t n;
    if (!number_in(text, 4294967295, &n))
        return 0;
    memset(&m, 0, sizeof m);
    for (size_t i = 0; i < ROOM_MEMORY; i++)
        m.live[i] = m.work[i] = 7;
    memset(m.hold, 90, sizeof m.hold);
    memset(m.output, 165, sizeof m.output);
    has_session = 0;
    lent_live = lent_work = lent_hold = 0;
    put_field(&out, "script ", n);
    put_byte(&out, '\n');
    return 1;
}

static int set_sizes(struct span text)
{
    uint64_t n[WORDS];
    if (numbers_in(text, n) != 3 || n[0] > ROOM_MEMORY || n[1] > ROOM_MEMORY || n[2] > HOLD_MEMORY)
        return 0;
    lent_live = n[0], lent_work = n[1], lent_hold = n[2];
    return 1;
}

void scripts(void)
{
    struct lines *in = open_lines(0);
    struct span line;
    while (next_line(in, &line)) {
        struct span word = first_word(line), text = behind_word(line);
        int is_line, is_start = is_text(word, "start"), called = 0;
        if (is_text(word, "script"))
            is_line = begin(text);
        else if (is_text(word, "sizes"))
            is_line = set_sizes(text);
        else if (is_start || (called = call(word, text)) >= 0) {
            is_line = is_start ? start(text) : called;
            if (is_line)
                show_state();
        } else
            is_line = damage(word, text);
        if (!is_line) {
            put_text(&out, "error ");
            put_bytes(&out, word.bytes, word.n);
            put_byte(&out, '\n');
        }
    }
}
