/* The mode `loads`: what real caches sent, loaded into a receiver. Each history is played whole, in single bytes, and cut in two at every place (the longest at every 251st, or with `all` at
 * every one): the same session, rooms and sums at the end, and at every moment the table of the last End of Data that was fed whole, or none. tests/model/captures.py prints the same. */
#include <string.h>

#include "modes.h"

enum { HOLD = 512, NEVER = 65536 };

/* A capture, or two one after the other: the version, and how many bytes stand before the first update's end, the change ask, and the second update's end. */
struct history {
    const char *names[2];
    uint64_t version;
    size_t first, ask, second, step;
};

struct run {
    uint64_t session[HINGEMOSS_SESSION_NUMBERS], taken, updates;
    uint32_t live[HINGEMOSS_ROOM_NUMBERS], working[HINGEMOSS_ROOM_NUMBERS];
    uint8_t hold[HOLD];
};

#define LENT(r) (r)->session, HINGEMOSS_SESSION_NUMBERS, (r)->live, HINGEMOSS_ROOM_NUMBERS, (r)->working, HINGEMOSS_ROOM_NUMBERS, (r)->hold, HOLD

/* ---- Playing */

/* A fresh receiver that asked for the whole table; what was in its memory does not matter. */
static void begin(struct run *r, const struct history *h)
{
    uint8_t query[HINGEMOSS_FULL_QUERY];
    memset(r, 7, sizeof *r);
    r->taken = r->updates = 0;
    if (hingemoss_start((uint8_t)h->version, LENT(r)) != HINGEMOSS_OK || hingemoss_full_ask(LENT(r), query, sizeof query) != HINGEMOSS_OK)
        fault("a start and a full ask");
}

static void feed(struct run *r, struct span bytes, size_t from, size_t to)
{
    uint64_t taken, updates;
    hingemoss_feed(LENT(r), bytes.bytes + from, to - from, &taken, &updates);
    r->taken += taken, r->updates += updates;
}

/* The bytes from a place to another: one feed, or two with the change ask between them. */
static void play(struct run *r, const struct history *h, struct span bytes, size_t from, size_t to)
{
    uint8_t query[HINGEMOSS_CHANGE_QUERY];
    if (h->ask < from || to <= h->ask) {
        feed(r, bytes, from, to);
        return;
    }
    feed(r, bytes, from, h->ask);
    hingemoss_change_ask(LENT(r), query, sizeof query);
    feed(r, bytes, h->ask, to);
}

/* ---- Comparing */

static int is_same_room(const struct run *a, const struct run *b) { return memcmp(a->live, b->live, sizeof a->live) == 0; }

static int is_same_end(const struct run *a, const struct run *b)
{
    return memcmp(a->session, b->session, sizeof a->session) == 0 && a->taken == b->taken && a->updates == b->updates && is_same_room(a, b);
}

static int is_table(const struct run *a, const struct run *b)
{
    return memcmp(a->session + HINGEMOSS_SESSION_TABLE, b->session + HINGEMOSS_SESSION_TABLE, 6 * sizeof a->session[0]) == 0 && a->session[HINGEMOSS_SESSION_LIVE] == b->session[HINGEMOSS_SESSION_LIVE]
        && is_same_room(a, b);
}

static int is_no_table(const struct run *r)
{
    static const uint32_t none[HINGEMOSS_ROOM_NUMBERS];
    return r->session[HINGEMOSS_SESSION_TABLE] == 0 && r->session[HINGEMOSS_SESSION_LIVE] == 0 && memcmp(r->live, none, sizeof none) == 0;
}

/* After k bytes the table is that of the last End of Data that ended in them, or none. */
static int is_whole(const struct run *r, size_t k, const struct history *h, const struct run *first, const struct run *last)
{
    return k < h->first ? is_no_table(r) : is_table(r, k < h->second ? first : last);
}

/* ---- Printing */

static void put_table(const char *label, const struct run *r)
{
    static const char *const names[] = { "session=", " serial=", " refresh=", " retry=", " expire=" };
    const uint64_t *s = r->session;
    uint32_t sum = 0;
    put_text(&out, label);
    if (!s[HINGEMOSS_SESSION_TABLE])
        put_text(&out, "none");
    for (size_t i = 0; s[HINGEMOSS_SESSION_TABLE] && i < 5; i++)
        put_field(&out, names[i], s[HINGEMOSS_SESSION_ID + i]);
    put_field(&out, " records=", s[HINGEMOSS_SESSION_LIVE]);
    for (size_t i = 0; i < HINGEMOSS_ROOM_NUMBERS; i++)
        sum = sum * 31 + r->live[i];
    put_field(&out, " sum=", sum);
    put_byte(&out, '\n');
}

static void put_run(const struct run *r)
{
    static const char *const phases[] = { "idle", "mustreset", "askedfull", "askedchange", "loading full ", "loading change ", "stopped " };
    const uint64_t *s = r->session;
    put_text(&out, " end: ");
    put_text(&out, phases[s[HINGEMOSS_SESSION_PHASE]]);
    if (s[HINGEMOSS_SESSION_PHASE] >= HINGEMOSS_LOADING_FULL)
        put_number(&out, s[HINGEMOSS_SESSION_DETAIL]);
    if (s[HINGEMOSS_SESSION_NOTE]) {
        put_field(&out, " note=", s[HINGEMOSS_SESSION_NOTE_ID]);
        put_field(&out, "/", s[HINGEMOSS_SESSION_NOTE_SERIAL]);
    } else
        put_text(&out, " note=none");
    put_field(&out, " working=", s[HINGEMOSS_SESSION_WORKING]);
    put_field(&out, " held=", s[HINGEMOSS_SESSION_HELD]);
    put_field(&out, " taken=", r->taken);
    put_field(&out, " updates=", r->updates);
    put_byte(&out, '\n');
}

static void put_place(const char *label, size_t at)
{
    if (at < NEVER)
        put_field(&out, label, at);
}

static void put_tally(const char *label, uint64_t cuts, int same, int whole)
{
    put_field(&out, label, cuts);
    put_text(&out, same ? "\n same at every cut: yes\n" : "\n same at every cut: no\n");
    put_text(&out, whole ? " table whole at every cut: yes\n" : " table whole at every cut: no\n");
}

static void put_history(const struct history *h, struct span bytes, const struct run *first, const struct run *last)
{
    put_text(&out, h->names[0]);
    if (h->names[1]) {
        put_text(&out, ", ");
        put_text(&out, h->names[1]);
    }
    put_field(&out, "\n version=", h->version);
    put_field(&out, " bytes=", bytes.n);
    put_place(" first update ends at ", h->first);
    put_place(", change ask at ", h->ask);
    put_place(", second update ends at ", h->second);
    put_byte(&out, '\n');
    if (h->first < NEVER)
        put_table(" first table: ", first);
    put_table(" last table: ", last);
    put_run(last);
}

/* ---- Histories */

/* The history whole, then in single bytes, then cut in two. */
static void show(const struct history *h, struct span bytes, size_t step)
{
    static struct run first, last, r;
    int same = 1, whole = 1;
    uint64_t cuts = 0;
    begin(&first, h);
    play(&first, h, bytes, 0, h->first < bytes.n ? h->first : bytes.n);
    begin(&last, h);
    play(&last, h, bytes, 0, bytes.n);
    put_history(h, bytes, &first, &last);

    begin(&r, h);
    for (size_t k = 0; k < bytes.n; k++, cuts++) {
        play(&r, h, bytes, k, k + 1);
        whole &= is_whole(&r, k + 1, h, &first, &last);
    }
    put_tally(" pieces of one byte: ", cuts, is_same_end(&r, &last), whole);

    cuts = 0, whole = 1;
    for (size_t k = 0; k <= bytes.n; k += step, cuts++) {
        begin(&r, h);
        play(&r, h, bytes, 0, k);
        whole &= is_whole(&r, k, h, &first, &last);
        play(&r, h, bytes, k, bytes.n);
        whole &= is_whole(&r, bytes.n, h, &first, &last);
        same &= is_same_end(&r, &last);
    }
    put_tally(" cut in two: ", cuts, same, whole);
}

/* Where each update ends and where the change ask stands, by the captures' README and the PDUs: a v1 reset of 30 records ends at 788, in v0 at 776, FORT's at 1,034; the change is asked for
 * behind the reset, in stayrtr's session behind the Serial Notify at 788 to 800. The last seven stop: 19, an Error Report; 14, the other version; 13, no ask; 17, records that are in; 15, the
 * other cache's session. */
#define V1_30 "stayrtr_v1_reset_30.bin"
#define V0_30 "stayrtr_v0_reset_30.bin"
#define DIFF "stayrtr_v1_serial_diff.bin"
#define KEYS "fort_v1_reset_30_keys.bin"
#define REPORT "fort_v1_unknown_type5.bin"
static const struct history histories[] = {
    { { V1_30, 0 }, 1, 788, NEVER, NEVER, 1 },
    { { V0_30, 0 }, 0, 776, NEVER, NEVER, 1 },
    { { KEYS, 0 }, 1, 1034, NEVER, NEVER, 1 },
    { { V1_30, DIFF }, 1, 788, 788, 924, 1 },
    { { "stayrtr_v1_session_reset_notify_serial.bin", 0 }, 1, 788, 800, 936, 1 },
    { { "stayrtr_v1_reset_1000.bin", 0 }, 1, 24232, NEVER, NEVER, 251 },
    { { REPORT, 0 }, 1, NEVER, NEVER, NEVER, 1 },
    { { V0_30, 0 }, 1, NEVER, NEVER, NEVER, 1 },
    { { V1_30, REPORT }, 1, 788, 788, NEVER, 1 },
    { { V0_30, DIFF }, 0, 776, 776, NEVER, 1 },
    { { V1_30, DIFF }, 1, 788, NEVER, NEVER, 1 },
    { { V1_30, V1_30 }, 1, 788, 788, NEVER, 1 },
    { { KEYS, DIFF }, 1, 1034, 1034, NEVER, 1 },
};

void loads(const char *folder, int all)
{
    static uint8_t space[1 << 16];
    for (size_t i = 0; i < sizeof histories / sizeof histories[0]; i++) {
        const struct history *h = histories + i;
        struct span bytes = { space, append_file(folder, h->names[0], space, sizeof space, 0) };
        if (h->names[1])
            bytes.n = append_file(folder, h->names[1], space, sizeof space, bytes.n);
        show(h, bytes, all ? 1 : h->step);
        flush();
    }
}
