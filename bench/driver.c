/* bench/run's driver: makes the input of one row, calls one function N times, and writes a check sum, or how much stack it took.
 *   driver N ROW [WORD]     ROW: read WORD | pass WORD | recode WORD | stream WORD PIECE | load ORDER COUNT PIECE | test22 TIMES | stack WHAT
 * pass: read, using no more than the length; recode: read and encode.
 * WORD: all (every kind), prefixes (three IPv4, one IPv6), or a PDU type's number. ORDER: sorted, shuffled, turned.
 * Linked twice: with crates/test_bench's static library and ours.c (-DOURS), and with the Rust's. */
#include <stdint.h>
#include <stdio.h>
#include <stdlib.h>
#include <string.h>
#include <ucontext.h>

#define RECORDS 1024
uint64_t bench_read(const uint8_t *bytes, size_t n);
uint64_t bench_pass(const uint8_t *bytes, size_t n);
uint64_t bench_recode(const uint8_t *bytes, size_t n, uint8_t *out, size_t size);
uint64_t bench_stream(uint8_t *hold, size_t size, const uint8_t *bytes, size_t n, size_t piece);
uint64_t bench_load(uint32_t *live, size_t l, uint32_t *working, size_t w, uint8_t *hold, size_t h, const uint8_t *bytes, size_t n, size_t piece);
#ifdef OURS
uint64_t bench_notify(uint32_t *live, size_t l, uint32_t *working, size_t w, uint8_t *hold, size_t h, const uint8_t *bytes, size_t n, size_t times);
uint64_t bench_walk(const uint8_t *bytes, size_t n);
#define bench_load_slice bench_load
static void bench_table(uint32_t *live, size_t n) { (void)live; (void)n; }
#else
uint64_t bench_load_slice(uint32_t *live, size_t l, uint32_t *working, size_t w, uint8_t *hold, size_t h, const uint8_t *bytes, size_t n, size_t piece);
void bench_table(uint32_t *live, size_t n);
#endif

static uint8_t buf[1 << 20], out[1 << 18], hold[8192];
static uint32_t live[6 * RECORDS], working[6 * RECORDS];
static size_t at;

/* ---- the input */

static uint32_t seed = 20261115;
static uint32_t any(void) { seed = seed * 1103515245u + 12345u; return seed >> 9; }
static void put8(uint32_t x) { buf[at++] = (uint8_t)x; }
static void put16(uint32_t x) { put8(x >> 8); put8(x); }
static void put32(uint32_t x) { put16(x >> 16); put16(x); }
static void header(uint32_t version, uint32_t type, uint32_t middle, uint32_t length) { put8(version); put8(type); put16(middle); put32(length); }
static void some(uint32_t n) { while (n--) put8(any()); }

static const char text[] = "the length of this PDU is not one of its kind (r\xc3\xa9ponse)";

static void pdu(int type)
{
    uint32_t i, length;
    switch (type) {
    case 0: case 1: header(any() & 1, type, any(), 12); put32(any() * 521); break;
    case 2: case 8: header(any() & 1, type, 0, 8); break;
    case 3: header(any() & 1, 3, any(), 8); break;
    case 4: length = 8 + any() % 25; header(1, 4, 0, 20); put8(any() & 1); put8(length); put8(32); put8(0); put32(any() * 521); put32(any()); break;
    case 6: header(1, 6, 0, 32); put8(any() & 1); put8(16 + any() % 33); put8(48 + any() % 81); put8(0); for (i = 0; i < 4; i++) put32(any() * 521); put32(any()); break;
    case 7: header(1, 7, any(), 24); for (i = 0; i < 4; i++) put32(any()); break;
    case 9: header(1, 9, 0, 34 + 91); put8(1); put8(0); some(20); put32(any()); some(91); break;
    case 10: length = sizeof text - 1; header(1, 10, any() % 9, 16 + 20 + length); put32(20); some(20); put32(length); for (i = 0; i < length; i++) put8((uint8_t)text[i]); break;
    }
}

static void run_of(const char *word)
{
    static const int kinds[] = {0, 1, 2, 3, 4, 6, 7, 8, 9, 10};
    for (int i = 0; i < 1000; i++)
        pdu(!strcmp(word, "all") ? kinds[i % 10] : !strcmp(word, "prefixes") ? (i % 4 == 3 ? 6 : 4) : atoi(word));
}

/* An answer of so many records, three of four IPv4: in table order, turned (last first), or shuffled. */
static void answer_of(const char *order, int count)
{
    static int place[RECORDS];
    int i, j, k, v4 = count * 3 / 4;
    for (i = 0; i < count; i++) place[i] = strcmp(order, "turned") ? i : count - 1 - i;
    if (!strcmp(order, "shuffled"))
        for (i = count - 1; i > 0; i--) { j = any() % (i + 1); k = place[i]; place[i] = place[j]; place[j] = k; }
    header(1, 3, 7, 8);
    for (i = 0; i < count; i++) {
        k = place[i];
        if (k < v4) { header(1, 4, 0, 20); put8(1); put8(24); put8(24 + k % 9); put8(0); put32(0x0a000000u + 1021u * 256 * k); put32(64496 + k % 16); }
        else { header(1, 6, 0, 32); put8(1); put8(32); put8(32 + k % 17); put8(0); put32(0x20010000u + 61 * k); put32(0); put32(0); put32(0); put32(64496 + k % 16); }
    }
    header(1, 7, 7, 24); put32(9); put32(3600); put32(600); put32(7200);
}

/* Reports in reports, sixteen and the first, and in the innermost a Reset Query. */
static void nest(void)
{
    static uint8_t in[4096];
    size_t n;
    int level;
    at = 0; header(1, 2, 0, 8);
    for (level = 0; level < 17; level++) {
        n = at; memcpy(in, buf, n); at = 0;
        header(1, 10, 0, 16 + n); put32(n); memcpy(buf + at, in, n); at += n; put32(0);
    }
}

/* ---- one row */

static int argc; static char **argv;
static const char *word(int i) { return i < argc ? argv[i] : ""; }
static size_t number(int i) { return (size_t)atol(word(i)); }

static uint64_t once(const char *row)
{
    if (!strcmp(row, "read")) return bench_read(buf, at);
    if (!strcmp(row, "pass")) return bench_pass(buf, at);
    if (!strcmp(row, "recode")) return bench_recode(buf, at, out, sizeof out);
    if (!strcmp(row, "stream")) return bench_stream(hold, sizeof hold, buf, at, number(4));
    if (!strcmp(row, "load")) return bench_load(live, 6 * RECORDS, working, 6 * RECORDS, hold, sizeof hold, buf, at, number(5));
    if (!strcmp(row, "slice")) return bench_load_slice(live, 6 * RECORDS, working, 6 * RECORDS, hold, sizeof hold, buf, at, number(5));
#ifdef OURS
    if (!strcmp(row, "test22")) return bench_notify(live, 6 * RECORDS, working, 6 * RECORDS, hold, sizeof hold, buf, at, number(3));
    if (!strcmp(row, "walk")) return bench_walk(buf, at);
#endif
    return 0;
}

/* ---- stack: a call on a stack of its own, filled with a pattern; what is no longer the pattern was used */

#define PAINT 0xa7
static uint8_t stack[1 << 20];
static ucontext_t here, there;
static const char *called;
static uint64_t said;
static void call(void) { said = once(called); }
static size_t used(const char *row)
{
    size_t i = 0;
    memset(stack, PAINT, sizeof stack);
    getcontext(&there);
    there.uc_stack.ss_sp = stack; there.uc_stack.ss_size = sizeof stack; there.uc_link = &here;
    called = row;
    makecontext(&there, call, 0);
    swapcontext(&here, &there);
    while (i < sizeof stack && stack[i] == PAINT) i++;
    return sizeof stack - i;
}

int main(int c, char **v)
{
    uint64_t h = 0;
    const char *row;
    argc = c; argv = v;
    row = word(2);
    if (!strcmp(row, "read") || !strcmp(row, "pass") || !strcmp(row, "recode") || !strcmp(row, "stream")) run_of(word(3));
    if (!strcmp(row, "load") || !strcmp(row, "slice")) answer_of(word(3), atoi(word(4)));
    if (!strcmp(row, "test22")) answer_of("sorted", 1000);
    if (!strcmp(row, "stack")) { /* a load of 1,000 in pieces of 4 KiB, or a walk, less a call that does nothing */
        static char *load[] = {"", "", "load", "shuffled", "1000", "4096"};
        int walk = !strcmp(word(3), "walk");
        if (walk) nest(); else answer_of("shuffled", 1000);
        argc = 6; argv = load;
        size_t none = used("none"), some = used(walk ? "walk" : "load");
        printf("%zu %llu\n", some - none, (unsigned long long)said);
        return 0;
    }
    for (long i = 0, n = atol(word(1)); i < n; i++) { h = h * 31 + once(row); __asm__ volatile("" ::"r"(buf), "r"(live) : "memory"); }
    if (!strcmp(row, "load") || !strcmp(row, "slice")) { /* both tables, number by number */
        bench_table(live, 6 * RECORDS);
        for (int i = 0; i < 6 * RECORDS; i++) h = h * 31 + live[i];
    }
    printf("%zu %016llx\n", at, (unsigned long long)h);
    return 0;
}
