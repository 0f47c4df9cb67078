/* Memory that is lent to questions about routes, as lines set it: tests/model/origin.py's head has the lines, from `new` to `pending`. */
#ifndef DRIVER_MEMORY_H
#define DRIVER_MEMORY_H

#include "text.h"

enum { SESSION_MEMORY = 26, ROOM_MEMORY = 6150, HOLD_MEMORY = 512, ROUTE_MEMORY = 12, SIX = HINGEMOSS_RECORD_NUMBERS };

/* The largest number of 32 bits. */
#define NUMBER_MOST 4294967295u

struct memory {
    uint64_t session[SESSION_MEMORY];
    uint32_t live[ROOM_MEMORY], work[ROOM_MEMORY], route[ROUTE_MEMORY];
    uint8_t hold[HOLD_MEMORY];
};

/* What is lent, and how many elements of each: session, live room, working room, hold, route. */
extern struct memory memory;
extern uint64_t lent[5];

/* A call's first parameters. */
#define RECEIVER memory.session, lent[0], memory.live, lent[1], memory.work, lent[2], memory.hold, lent[3]

/* Keeps a copy that no call sees; whether memory is still as the copy. */
void keep_memory(void);
int is_kept(void);

/* Exactly so many hex numbers, none over `most`; false where the text is something else. */
int numbers_in(struct span text, size_t count, uint64_t most, uint64_t *n);

/* Exactly six numbers of 32 bits. */
int six_in(struct span text, uint32_t *six);

/* Standard input, line by line: each is a line of the mode's own, or sets memory, or is named in the output as an error. */
void memory_lines(int (*own)(struct span word, struct span text));

#endif
