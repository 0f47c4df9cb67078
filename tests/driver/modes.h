/* The driver's modes, and what they share: PDUs and refusals as the oracle writes them. */
#ifndef DRIVER_MODES_H
#define DRIVER_MODES_H

#include "text.h"

/* Bytes of the longest line's PDUs, with some to spare. */
enum { LONGEST = 1 << 19 };

/* pdu.c */
void put_values(struct text *t, uint64_t number, const uint64_t *values);
void put_refusal(struct text *t, uint64_t number, const uint64_t *values);
void put_pdu(struct text *t, const uint64_t *pdu, const uint8_t *bytes, size_t n);
void put_answer(struct text *t, struct span bytes);
void put_line_answer(struct text *t, struct span line);
/* encode.c */
void put_line_encoding(struct text *t, struct span line);

void read_lines(void);
void walk_lines(void);
void encode_lines(void);
void stream_lines(void);
void replay(const char *folder);
void scripts(void);
void captures(const char *folder);
void loads(const char *folder, int all);
void rooms(void);
void hosts(void);
void routes(void);
void route_lists(void);
void texts(void);

#endif
