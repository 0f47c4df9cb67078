/* The mode `routes`: questions whether a route is good (lines as tests/model/origin.py's head has them) on standard input; for each the answer and the state, as the model prints them.
 * Each is asked twice, of the library's call and of the plain scan (test_validate_by_scan). The two must say the same, and write nothing but the state. */
#include "calls.h"
#include "memory.h"
#include "modes.h"

static int ask(struct span text)
{
    uint64_t state = 99, other = 77;
    if (!six_in(text, memory.route))
        return 0;
    keep_memory();
    uint8_t answer = hingemoss_validate(RECEIVER, memory.route, lent[4], &state), by_scan = test_validate_by_scan(RECEIVER, memory.route, lent[4], &other);
    if (answer != by_scan || state != other)
        fault("both calls say the same of a route");
    if (!is_kept())
        fault("a question writes nothing but the state");
    put_number(&out, answer);
    put_field(&out, " ", state);
    /* told on the line too, so that a difference is found where it is */
    if (answer != by_scan || state != other) {
        put_field(&out, " scan ", by_scan);
        put_field(&out, " ", other);
    }
    put_byte(&out, '\n');
    return 1;
}

static int question(struct span word, struct span text) { return is_text(word, "route") && ask(text); }

void routes(void) { memory_lines(question); }
