/* The mode `route-lists`: lists of routes (lines as tests/model/route_lists.py's head has them) on standard input; for each question the answer, the number
 * written and the whole state list, as the model prints them. A question must write nothing but these two, and each state of an answered list must be what the
 * single question (hingemoss_validate) gives for that route. */
#include <string.h>

#include "hingemoss.h"
#include "memory.h"
#include "modes.h"

/* The largest lists, and how many elements before and behind them are watched: an odd number, so that the lists are aligned to their elements and no more. */
enum { NUMBERS_MOST = SIX * 65600, STATES_MOST = 1 << 17, BESIDE = 61, UNLENT = 0xee };

static uint32_t list_memory[BESIDE + NUMBERS_MOST + BESIDE], kept_list[BESIDE + NUMBERS_MOST + BESIDE], *const list = list_memory + BESIDE;
static uint8_t state_memory[BESIDE + STATES_MOST + BESIDE], *const states = state_memory + BESIDE;
static size_t count; /* of the list's numbers */

/* ---- The list: false where a line is none */

static int add_route(struct span text)
{
    if (count + SIX > NUMBERS_MOST || !six_in(text, list + count))
        return 0;
    count += SIX;
    return 1;
}

static int add_number(struct span text)
{
    uint64_t n;
    if (count + 1 > NUMBERS_MOST || !numbers_in(text, 1, NUMBER_MOST, &n))
        return 0;
    list[count++] = (uint32_t)n;
    return 1;
}

static int empty(struct span text)
{
    count = 0;
    return text.n == 0;
}

/* The list over and over, until it has so many routes. */
static int repeat(struct span text)
{
    uint64_t routes;
    size_t once = count;
    if (!numbers_in(text, 1, NUMBERS_MOST / SIX, &routes) || once == 0)
        return 0;
    for (; count < SIX * routes; count++)
        list[count] = list[count - once];
    return 1;
}

/* ---- The question */

static size_t list_bytes(void) { return (BESIDE + count + BESIDE) * sizeof list[0]; }

/* Bytes that are no state in every place, and others around the list; all but the states is kept. */
static void prepare(size_t size)
{
    memset(state_memory, UNLENT, BESIDE + size + BESIDE);
    for (size_t i = 0; i < size; i++)
        states[i] = (uint8_t)(128 + i % 127);
    keep_memory();
    memcpy(kept_list, list_memory, list_bytes());
}

static int is_all_kept(size_t size)
{
    for (size_t i = 0; i < BESIDE; i++)
        if (state_memory[i] != UNLENT || states[size + i] != UNLENT)
            return 0;
    return is_kept() && memcmp(kept_list, list_memory, list_bytes()) == 0;
}

/* Whether the single question about route i gives this answer and state. */
static int is_alone(size_t i, uint8_t answer, uint64_t state)
{
    uint64_t said = 99;
    return hingemoss_validate(RECEIVER, list + SIX * i, SIX, &said) == answer && said == state;
}

/* The first route of which the single question says something else; `routes` where there is none. */
static size_t first_other(uint8_t answer, size_t routes)
{
    if (answer == HINGEMOSS_REFUSED_NOT_A_RECEIVER || answer == HINGEMOSS_REFUSED_NO_TABLE) /* refused before a route is looked at: one says it for all */
        return routes == 0 || is_alone(0, answer, 0) ? routes : 0;
    for (size_t i = 0; answer == HINGEMOSS_OK && i < routes; i++) {
        uint8_t state = states[i];
        if (!(state == HINGEMOSS_REFUSED_ROUTE ? is_alone(i, state, 0) : is_alone(i, HINGEMOSS_OK, state)))
            return i;
    }
    return routes;
}

static int ask(struct span text)
{
    uint64_t size, number = 99;
    if (!numbers_in(text, 1, STATES_MOST, &size))
        return 0;
    prepare(size);
    uint8_t answer = hingemoss_validate_all(RECEIVER, list, count, states, size, &number);
    put_number(&out, answer);
    put_field(&out, " ", number);
    put_text(&out, size ? " " : " -");
    put_hex(&out, states, size);
    /* what does not hold is told on the line too, so that it is found where it is */
    if (!is_all_kept(size)) {
        fault("a list's question writes nothing but the states and how many");
        put_text(&out, " writes elsewhere");
    }
    /* not in sixes there are no routes to ask about, and an answered list has no more than it has states */
    size_t routes = count % SIX || (answer == HINGEMOSS_OK && count / SIX > size) ? 0 : count / SIX, other = first_other(answer, routes);
    if (other < routes) {
        fault("a list has the single question's states");
        put_field(&out, " otherwise alone ", other);
    }
    put_byte(&out, '\n');
    return 1;
}

static int question(struct span word, struct span text)
{
    return is_text(word, "route")    ? add_route(text)
           : is_text(word, "number") ? add_number(text)
           : is_text(word, "repeat") ? repeat(text)
           : is_text(word, "empty")  ? empty(text)
                                     : is_text(word, "list") && ask(text);
}

void route_lists(void) { memory_lines(question); }
