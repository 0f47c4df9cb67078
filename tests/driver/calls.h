/* The calls of crates/test_calls: what include/hingemoss.h does not have. A slice is a pointer and a length, as there. */
#ifndef DRIVER_CALLS_H
#define DRIVER_CALLS_H

#include "hingemoss.h"

/* The stream's state, before and after a search; and where a PDU that was found lies. */
enum { STATE_HELD, STATE_NEXT, STATE_NUMBERS };
enum { SAID_LIES, SAID_START, SAID_LENGTH, SAID_NUMBERS };
enum { LIES_IN_PIECE = 1, LIES_IN_HOLD = 2 };
enum { SEARCH_FOUND = 0, SEARCH_MORE = 21 };
/* A PDU's payloads. */
enum { PART_KEY, PART_INFO, PART_COPY, PART_TEXT };

/* Reading by place, or through a run: 0 and the PDU, or the refusal with its values in the first three numbers. */
uint8_t test_read(_Bool run, const uint8_t *bytes, size_t bytes_len, size_t from, uint64_t *pdu, size_t pdu_len, uint64_t *next);
/* Bytes left from a place on; 1 where the run is done. */
uint8_t test_rest(const uint8_t *bytes, size_t bytes_len, size_t from, uint64_t *rest);
/* The models' type x 256 + version; 65535 where nothing is read. */
uint64_t test_kind(const uint8_t *bytes, size_t bytes_len);
/* Byte i of a payload; 256 behind its end. */
uint64_t test_part(const uint64_t *pdu, size_t pdu_len, const uint8_t *bytes, size_t bytes_len, uint8_t which, size_t i);
/* An End of Data, numbers over 32 bits being absent intervals: bytes written, or 0. */
uint64_t test_encode_end(const uint64_t *pdu, size_t pdu_len, uint8_t *out, size_t out_len);

/* One search of the stream: 0, a PDU (its bytes not counted) and where it lies; 1 to 12, its values in `said`; SEARCH_MORE; or 22. */
uint8_t test_search(uint8_t *hold, size_t hold_len, const uint8_t *piece, size_t piece_len, uint64_t *state, size_t state_len, uint64_t *said, size_t said_len, uint64_t *pdu, size_t pdu_len);

/* Rooms. A record is six numbers, of which the first has family, length and max. */
_Bool test_record(const uint64_t *given, size_t given_len, uint64_t *record, size_t record_len);
_Bool test_get(const uint32_t *room, size_t room_len, size_t i, uint64_t *record, size_t record_len);
uint64_t test_kind_of(const uint64_t *record, size_t record_len);
_Bool test_rules(const uint32_t *room, size_t room_len, size_t limit, size_t count);
uint8_t test_enter(uint32_t *room, size_t room_len, size_t count, const uint64_t *record, size_t record_len, uint64_t *after);
uint8_t test_leave(uint32_t *room, size_t room_len, size_t count, const uint64_t *record, size_t record_len, uint64_t *after);
uint8_t test_look_up(const uint32_t *room, size_t room_len, size_t count, const uint64_t *record, size_t record_len, uint64_t *place);
void test_empty(uint32_t *room, size_t room_len);
uint8_t test_copy(const uint32_t *from, size_t from_len, uint32_t *room, size_t room_len);

/* The receiver's calls over a record that is lent (rtr_held). A feed answers its number, 256 times the updates finished and 65,536 times the bytes taken. */
uint64_t test_held_feed(uint64_t *session, size_t session_len, uint32_t *live, size_t live_len, uint32_t *working, size_t working_len, uint8_t *hold, size_t hold_len,
                        const uint8_t *piece, size_t piece_len);
void test_held_times(uint64_t *session, size_t session_len, uint32_t *live, size_t live_len, uint32_t *working, size_t working_len, uint8_t *hold, size_t hold_len,
                     const uint8_t *piece, size_t piece_len, uint32_t count);
/* The answer, and 256 times the bytes written, or needed where the output is too short. */
uint64_t test_held_ask(_Bool full, uint64_t *session, size_t session_len, const uint32_t *live, size_t live_len, const uint32_t *working, size_t working_len,
                       const uint8_t *hold, size_t hold_len, uint8_t *out, size_t out_len);
uint8_t test_held_reconnect(uint64_t *session, size_t session_len, const uint32_t *live, size_t live_len, uint32_t *working, size_t working_len,
                            const uint8_t *hold, size_t hold_len);
/* The comparison's number, or 22. */
uint8_t test_held_notify(const uint64_t *session, size_t session_len, const uint32_t *live, size_t live_len, const uint32_t *working, size_t working_len,
                         const uint8_t *hold, size_t hold_len);

/* Whether a route is good, by the plain scan: hingemoss_validate's parameters and answers. */
uint8_t test_validate_by_scan(const uint64_t *session, size_t session_len, const uint32_t *live, size_t live_len, const uint32_t *working, size_t working_len,
                              const uint8_t *hold, size_t hold_len, const uint32_t *route, size_t route_len, uint64_t *state);

/* How many bytes from the front are whole well-formed characters. */
uint64_t test_up_to(const uint8_t *text, size_t text_len);
/* Whether that is all of the text. */
_Bool test_is_text(const uint8_t *text, size_t text_len);

#endif
