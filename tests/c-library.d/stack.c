/* How much stack each call takes: it runs on a stack of its own that is filled with a pattern, and what is no longer the pattern was used, less what an empty call uses. Exit status 1 where a call takes 8 KiB or more,
 * which include/hingemoss.h promises against. */
#include <stdio.h>
#include <string.h>
#include <ucontext.h>

#include "hingemoss.h"

enum { RECORDS = 1000, STACK = 1 << 16, PAINT = 0xa7 };

static uint64_t session[HINGEMOSS_SESSION_NUMBERS], pdu[HINGEMOSS_PDU_NUMBERS], number, other, third;
static uint32_t live[HINGEMOSS_ROOM_NUMBERS], working[HINGEMOSS_ROOM_NUMBERS];
static uint8_t hold[8192], query[HINGEMOSS_CHANGE_QUERY], answer[8 + 20 * RECORDS + 24], nest[8 + 17 * 16], out[1 << 17], text[HINGEMOSS_DIFF_MOST], stack[STACK], said;
static const uint32_t route[HINGEMOSS_ROUTE_NUMBERS] = { 6u * 65536 + 128, 0x20010db8, 1, 2, 3, 64496 };
static const uint32_t routes[] = { 6u * 65536 + 128, 0x20010db8, 1, 2, 3, 64496, 4u * 65536 + 24, 256, 0, 0, 0, 64496, 4u * 65536 + 33, 0, 0, 0, 0, 1 };
static ucontext_t here, there;
static void (*job)(void);

#define MEMORY session, HINGEMOSS_SESSION_NUMBERS, live, HINGEMOSS_ROOM_NUMBERS, working, HINGEMOSS_ROOM_NUMBERS, hold, sizeof hold
static void nothing(void) {}
static void start(void) { said = hingemoss_start(1, MEMORY); }
static void full_ask(void) { said = hingemoss_full_ask(MEMORY, query, sizeof query); }
static void feed(void) { said = hingemoss_feed(MEMORY, answer, sizeof answer, &number, &other); }
static void change_ask(void) { said = hingemoss_change_ask(MEMORY, query, sizeof query); }
static void notify(void) { said = hingemoss_notify(MEMORY, &number); }
static void reconnect(void) { said = hingemoss_reconnect(MEMORY); }
static void listing(void) { said = hingemoss_listing(session, HINGEMOSS_SESSION_NUMBERS, live, HINGEMOSS_ROOM_NUMBERS, out, sizeof out, &number); }
static void walk(void) { said = hingemoss_walk(nest, sizeof nest, &number, &other, &third); }
static void read_one(void) { said = hingemoss_read(nest, sizeof nest, pdu, HINGEMOSS_PDU_NUMBERS); }
static void encode(void) { said = hingemoss_encode(pdu, HINGEMOSS_PDU_NUMBERS, nest, sizeof nest, out, sizeof out, &number); }
static void validate(void) { said = hingemoss_validate(MEMORY, route, HINGEMOSS_ROUTE_NUMBERS, &number); }
static void validate_all(void) { said = hingemoss_validate_all(MEMORY, routes, sizeof routes / sizeof routes[0], out, sizeof out, &number); }
static const char none[] = "stopped=0\ncount=none\n";
static void diff(void) { said = hingemoss_diff((const uint8_t *)none, sizeof none - 1, out, number, live, HINGEMOSS_ROOM_NUMBERS, working, HINGEMOSS_ROOM_NUMBERS, text, sizeof text, &other); }
/* the listing is read into the room and the head that the runs are then of */
static uint64_t head[HINGEMOSS_HEAD_NUMBERS];
static void read_listing(void) { said = hingemoss_read_listing(out, number, working, HINGEMOSS_ROOM_NUMBERS, head, 8, &other); }
static void full_run(void) { said = hingemoss_full_run(1, head + 2, 5, working, HINGEMOSS_ROOM_NUMBERS, head[7], text, sizeof text, &other); }
static void change_run(void) { said = hingemoss_change_run(1, head + 2, 5, live, HINGEMOSS_ROOM_NUMBERS, head[7], working, HINGEMOSS_ROOM_NUMBERS, head[7], text, sizeof text, &other); }
static void value(void) { number = hingemoss_read_value(nest, 3, 1), said = 0; }

static void run(void) { job(); }

static size_t used(void (*call)(void))
{
    size_t i = 0;
    memset(stack, PAINT, sizeof stack);
    getcontext(&there);
    there.uc_stack.ss_sp = stack, there.uc_stack.ss_size = sizeof stack, there.uc_link = &here;
    job = call;
    makecontext(&there, run, 0);
    swapcontext(&here, &there);
    while (i < sizeof stack && stack[i] == PAINT)
        i++;
    return sizeof stack - i;
}

static uint8_t *put(uint8_t *at, uint32_t n)
{
    at[0] = (uint8_t)(n >> 24), at[1] = (uint8_t)(n >> 16), at[2] = (uint8_t)(n >> 8), at[3] = (uint8_t)n;
    return at + 4;
}

static uint8_t *header(uint8_t *at, uint32_t type, uint32_t field, uint32_t length) { return put(put(at, 1u << 24 | type << 16 | field), length); }

int main(void)
{
    static const struct { const char *name; void (*call)(void); } calls[] = { { "start", start }, { "full_ask", full_ask }, { "feed", feed }, { "change_ask", change_ask }, { "notify", notify }, { "reconnect", reconnect },
        { "listing", listing }, { "validate", validate }, { "validate_all", validate_all }, { "walk", walk }, { "read", read_one }, { "encode", encode }, { "read_value", value },
        { "listing", listing }, { "read_listing", read_listing }, { "full_run", full_run }, { "change_run", change_run }, { "diff", diff } }; /* all of the listing before them; the diff takes the rooms */
    uint8_t *at = header(answer, 3, 7, 8);
    for (uint32_t i = 0; i < RECORDS; i++) /* far from table order */
        at = put(put(put(header(at, 4, 0, 20), 1u << 24 | 24 << 16 | 24 << 8), (i * 617 % RECORDS) << 8), 64496);
    put(put(put(put(header(at, 7, 7, 24), 1), 3600), 600), 7200);
    at = nest; /* reports in reports, the first and sixteen more, and in the innermost a Reset Query */
    for (uint32_t i = 17; i > 0; i--)
        at = put(header(at, 10, 0, 8 + 16 * i), 8 + 16 * (i - 1));
    header(at, 2, 0, 8);
    size_t none = used(nothing), most = 0;
    for (size_t i = 0; i < sizeof calls / sizeof calls[0]; i++) {
        size_t n = used(calls[i].call) - none;
        if (said) {
            printf("stack: %s answers %d\n", calls[i].name, said);
            return 1;
        }
        printf("%s%s %zu", i ? ", " : "bytes of stack: ", calls[i].name, n);
        most = n > most ? n : most;
    }
    printf("\n");
    return most < 8192 ? 0 : 1;
}
