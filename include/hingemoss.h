/* Hingemoss: a proved receiver of the RPKI-to-Router protocol (RFC 6810, RFC 8210). `rt lib --cpu x86-64` in crates/rtr_c writes its archive, out/librtr_c.a there; of C's library it
 * needs memset alone.
 *
 * Every call takes every input and answers; nothing is allocated, and nothing is kept between calls but the memory that you lend. A call's answer is 0 or a refusal's number (below); where several
 * would fit, the first in the order that the call names is given. What is proved of calls one after another (the table is that of the last finished update, however the bytes were cut) is `c-history` of crates/rtr_c: it asks that
 * the same session, rooms and hold are lent each time, the hold with one length, and that nobody else writes them in between. A refused call changes nothing, but for the
 * numbers that it answers with (written, taken, updates, level, end, value, compared, state, line), which are then 0 unless the call says otherwise, and for the rooms of hingemoss_diff
 * and hingemoss_read_listing. A stop is no such refusal: it is the receiver's new state.
 *
 * What you owe: a slice is a pointer and a length in elements, one behind the other, and so many elements are there, readable, set to something, and writable where there is no const. A pointer is never NULL (not
 * of an empty slice either) and is aligned to its element. Memory that a call may write overlaps nothing else that is lent to the same call, and until the call returns nobody else (another thread, a signal's
 * handler, a file's mapping) writes what is lent, or reads what may be written. Calls on other memory may run at the same time, and may share memory that both only read. A call uses less than 8 KiB of stack. */
#ifndef HINGEMOSS_H
#define HINGEMOSS_H

/* size_t and the numbers of fixed width: from C's headers or, where a compiler comes without them (as the kit's own does), from what it predefines. */
#ifdef __has_include
#if !__has_include(<stddef.h>) || !__has_include(<stdint.h>)
#define HINGEMOSS_NO_HEADERS
#endif
#endif
#ifdef HINGEMOSS_NO_HEADERS
typedef __SIZE_TYPE__ size_t;
typedef __UINT8_TYPE__ uint8_t;
typedef __UINT32_TYPE__ uint32_t;
typedef __UINT64_TYPE__ uint64_t;
#else
#include <stddef.h>
#include <stdint.h>
#endif

#ifdef __cplusplus
extern "C" {
#endif

/* Sizes. A room is HINGEMOSS_ROOM_NUMBERS numbers of 32 bits, six for each of at most HINGEMOSS_RECORDS records; a hold is HINGEMOSS_HOLD_LEAST bytes or more,
 * and with HINGEMOSS_HOLD_MOST no PDU is too long for it. */
#define HINGEMOSS_RECORDS 1024
#define HINGEMOSS_ROOM_NUMBERS 6144
#define HINGEMOSS_SESSION_NUMBERS 24
#define HINGEMOSS_PDU_NUMBERS 12
#define HINGEMOSS_HEAD_NUMBERS 8        /* of what a listing says before its records: enum hingemoss_head */
#define HINGEMOSS_END_NUMBERS 5         /* of what a run's End of Data says: session, serial, refresh, retry, expire */
#define HINGEMOSS_HOLD_LEAST 8
#define HINGEMOSS_HOLD_MOST 131086
#define HINGEMOSS_FULL_QUERY 8          /* bytes of a full ask's query */
#define HINGEMOSS_CHANGE_QUERY 12       /* and of a change ask's */
#define HINGEMOSS_LISTING_MOST 131200   /* no listing has more bytes: 128 for the head, 128 for each record */
#define HINGEMOSS_DIFF_MOST 294976      /* no text of hingemoss_diff has more bytes: 144 for each change of two tables, and 64 */
#define HINGEMOSS_FULL_RUN_MOST 32800   /* no full run has more bytes: 32 for each record, and 32 */
#define HINGEMOSS_CHANGE_RUN_MOST 65568 /* no change run has more bytes: 32 for each record of two tables, and 32 */

/* Refusal numbers and, behind the colon, their values in order. */
enum hingemoss_refusal {
    HINGEMOSS_OK = 0,
    HINGEMOSS_REFUSED_INCOMPLETE = 1,      /* incomplete: available, needed */
    HINGEMOSS_REFUSED_VERSION = 2,         /* no such version: version */
    HINGEMOSS_REFUSED_TYPE = 3,            /* no such type: type */
    HINGEMOSS_REFUSED_LENGTH = 4,          /* length: expected, actual, type */
    HINGEMOSS_REFUSED_KEY_IN_V0 = 5,       /* a Router Key in version 0 */
    HINGEMOSS_REFUSED_PREFIX_LENGTH = 6,   /* prefix length, max, limit */
    HINGEMOSS_REFUSED_ERROR_CODE = 7,      /* no such error code: code */
    HINGEMOSS_REFUSED_TEXT = 8,            /* the text is not UTF-8 */
    HINGEMOSS_REFUSED_OUTPUT_SHORT = 9,    /* the output is shorter than needed: needed */
    HINGEMOSS_REFUSED_TOO_LONG = 10,       /* the encoded length is over 4,294,967,295 */
    HINGEMOSS_REFUSED_PLACE = 11,          /* a payload's place is outside the lent slice, or a key identifier's is not 20 long */
    HINGEMOSS_REFUSED_OVER_HOLD = 12,      /* a PDU longer than the hold: length */
    HINGEMOSS_REFUSED_OUT_OF_TURN = 13,    /* a PDU that is not due in this phase */
    HINGEMOSS_REFUSED_OTHER_VERSION = 14,  /* a PDU of the other version */
    HINGEMOSS_REFUSED_OTHER_SESSION = 15,  /* a PDU of another session */
    HINGEMOSS_REFUSED_NOT_IN = 16,         /* a withdrawal of what is not in the working room */
    HINGEMOSS_REFUSED_ALREADY_IN = 17,     /* an announcement of what is in it */
    HINGEMOSS_REFUSED_ROOM_FULL = 18,      /* a new announcement with 1,024 in it */
    HINGEMOSS_REFUSED_ERROR_REPORT = 19,   /* the cache sent an Error Report: code */
    HINGEMOSS_REFUSED_WRONG_PHASE = 20,    /* an ask in a wrong phase */
    HINGEMOSS_REFUSED_NO_TABLE = 21,       /* a change asked for, or a route asked about, without a table */
    HINGEMOSS_REFUSED_NOT_A_RECEIVER = 22, /* lent memory is not of receiver shape, or numbers are no session's, no PDU's, no table's, not six of a route or not in sixes; of a run also the version, of a listing the head's size */
    HINGEMOSS_REFUSED_ROUTE = 23,          /* a route longer than its family allows, of no known family, or with IPv4 spares that are not 0 */
    HINGEMOSS_REFUSED_LISTING = 24         /* a text that is no listing: line. hingemoss_read_listing answers it; hingemoss_diff writes it into its text */
};

/* A session: the place of each of its HINGEMOSS_SESSION_NUMBERS numbers. */
enum hingemoss_session {
    HINGEMOSS_SESSION_VERSION = 0,
    HINGEMOSS_SESSION_PHASE = 1,       /* enum hingemoss_phase */
    HINGEMOSS_SESSION_DETAIL = 2,      /* a load's session id, or a stop's refusal number, else 0 */
    HINGEMOSS_SESSION_FIRST = 3,       /* a stop's values, zeros behind them */
    HINGEMOSS_SESSION_SECOND = 4,
    HINGEMOSS_SESSION_THIRD = 5,
    HINGEMOSS_SESSION_TABLE = 6,       /* 1 where there is a table, else 0 and zeros up to EXPIRE */
    HINGEMOSS_SESSION_ID = 7,
    HINGEMOSS_SESSION_SERIAL = 8,
    HINGEMOSS_SESSION_REFRESH = 9,
    HINGEMOSS_SESSION_RETRY = 10,
    HINGEMOSS_SESSION_EXPIRE = 11,
    HINGEMOSS_SESSION_NOTE = 12,       /* 1 where a Serial Notify is noted, else 0 and two zeros */
    HINGEMOSS_SESSION_NOTE_ID = 13,
    HINGEMOSS_SESSION_NOTE_SERIAL = 14,
    HINGEMOSS_SESSION_LIVE = 15,       /* records in the live room */
    HINGEMOSS_SESSION_WORKING = 16,    /* records in the working room */
    HINGEMOSS_SESSION_HELD = 17,       /* bytes held in the hold */
    HINGEMOSS_SESSION_LIMIT = 18       /* the most records that a room has: HINGEMOSS_RECORDS; another limit is 22. Behind it stand five zeros, for later versions; anything else there is 22.
                                        * A start sets them all. A session of 18 numbers, as versions before this one had it, is 22 too */
};

enum hingemoss_phase {
    HINGEMOSS_IDLE = 0,
    HINGEMOSS_MUST_RESET = 1,
    HINGEMOSS_ASKED_FULL = 2,
    HINGEMOSS_ASKED_CHANGE = 3,
    HINGEMOSS_LOADING_FULL = 4,
    HINGEMOSS_LOADING_CHANGE = 5,
    HINGEMOSS_STOPPED = 6
};

/* A PDU: the place of each of its HINGEMOSS_PDU_NUMBERS numbers. Behind the first three stand the fields of its type, then zeros. A payload (key, copy of a
 * PDU, text) is named by its place: where it starts in the bytes that were read, or that are lent to be encoded, and its length. */
enum hingemoss_pdu {
    HINGEMOSS_PDU_TYPE = 0,
    HINGEMOSS_PDU_VERSION = 1,
    HINGEMOSS_PDU_CONSUMED = 2,        /* bytes that it took; encoding passes over it */
    /* Serial Notify (0), Serial Query (1), Cache Response (3: no serial), End of Data (7: version 0 has no intervals, its numbers are 0;
     * version 1 has all three as they stand here, 0 as 0).
     * Reset Query (2) and Cache Reset (8) have no fields. */
    HINGEMOSS_PDU_SESSION_ID = 3,
    HINGEMOSS_PDU_SERIAL = 4,
    HINGEMOSS_PDU_REFRESH = 5,
    HINGEMOSS_PDU_RETRY = 6,
    HINGEMOSS_PDU_EXPIRE = 7,
    /* IPv4 Prefix (4), IPv6 Prefix (6: four numbers of 32 bits are its address) */
    HINGEMOSS_PDU_FLAGS = 3,
    HINGEMOSS_PDU_PREFIX_LENGTH = 4,
    HINGEMOSS_PDU_MAX_LENGTH = 5,
    HINGEMOSS_PDU_IPV4 = 6,
    HINGEMOSS_PDU_IPV4_ASN = 7,
    HINGEMOSS_PDU_IPV6 = 6,
    HINGEMOSS_PDU_IPV6_ASN = 10,
    /* Router Key (9): its flags stand as a prefix's do */
    HINGEMOSS_PDU_KEY_START = 4,
    HINGEMOSS_PDU_KEY_LENGTH = 5,
    HINGEMOSS_PDU_KEY_ASN = 6,
    HINGEMOSS_PDU_INFO_START = 7,
    HINGEMOSS_PDU_INFO_LENGTH = 8,
    /* Error Report (10) */
    HINGEMOSS_PDU_CODE = 3,
    HINGEMOSS_PDU_COPY_START = 4,
    HINGEMOSS_PDU_COPY_LENGTH = 5,
    HINGEMOSS_PDU_TEXT_START = 6,
    HINGEMOSS_PDU_TEXT_LENGTH = 7
};

/* A record: the place of each of its six numbers in a room. A table's room keeps these rules: records ascend strictly by family, address, prefix length, max, AS number (not by the six numbers
 * as they stand: the first has the lengths in it); prefix length <= max <= 32, or 128 for IPv6; IPv4 has zeros in its three other address numbers; every number behind the last record is 0. */
enum hingemoss_record {
    HINGEMOSS_RECORD_KIND = 0,         /* family (4 or 6) * 65536 + prefix length * 256 + max */
    HINGEMOSS_RECORD_ADDRESS = 1,      /* four numbers; IPv4 has its address in the first and zeros behind it */
    HINGEMOSS_RECORD_ASN = 5,
    HINGEMOSS_RECORD_NUMBERS = 6
};

/* What a listing says before its records: the place of each of its HINGEMOSS_HEAD_NUMBERS numbers. From ID on stand the HINGEMOSS_END_NUMBERS that a run is lent. */
enum hingemoss_head {
    HINGEMOSS_HEAD_STOPPED = 0,        /* a stop's refusal number, else 0 */
    HINGEMOSS_HEAD_TABLE = 1,          /* 1 where there is a table, else 0 and zeros behind it */
    HINGEMOSS_HEAD_ID = 2,
    HINGEMOSS_HEAD_SERIAL = 3,
    HINGEMOSS_HEAD_REFRESH = 4,
    HINGEMOSS_HEAD_RETRY = 5,
    HINGEMOSS_HEAD_EXPIRE = 6,
    HINGEMOSS_HEAD_COUNT = 7           /* records in the room */
};

/* A route: the place of each of its six numbers. */
enum hingemoss_route {
    HINGEMOSS_ROUTE_KIND = 0,          /* family (4 or 6) * 65536 + length: all sixteen low bits are the length, where a record has its max too */
    HINGEMOSS_ROUTE_ADDRESS = 1,       /* four numbers, as in a record: an IPv4 address is the first, and the other three are 0. Address bits behind the length are not looked at */
    HINGEMOSS_ROUTE_ORIGIN = 5,        /* the origin's AS number; 0 stands for a path that ends in an AS_SET, and is never valid */
    HINGEMOSS_ROUTE_NUMBERS = 6
};

/* What a route is by the live table (RFC 6811). */
enum hingemoss_state {
    HINGEMOSS_STATE_NOT_FOUND = 0,     /* no record covers it */
    HINGEMOSS_STATE_VALID = 1,         /* a record matches it */
    HINGEMOSS_STATE_INVALID = 2        /* a record covers it, and none matches */
};

/* How a walk ends, and the end's value. */
enum hingemoss_end {
    HINGEMOSS_END_PLAIN = 0,           /* a PDU that is no Error Report: its type */
    HINGEMOSS_END_EMPTY = 1,           /* an Error Report with no encapsulated bytes: 0 */
    HINGEMOSS_END_REFUSED = 2,         /* encapsulated bytes that are refused: the refusal's number */
    HINGEMOSS_END_TOO_DEEP = 3         /* a report at level 16 with encapsulated bytes, whatever they are: 0 */
};

/* How the last Serial Notify compares with the table (RFC 1982). */
enum hingemoss_compared {
    HINGEMOSS_NOTED_NOTHING = 0,       /* no note, or no table */
    HINGEMOSS_NOTED_OTHER_SESSION = 1,
    HINGEMOSS_NOTED_SAME = 2,
    HINGEMOSS_NOTED_NEWER = 3,
    HINGEMOSS_NOTED_OLDER = 4,
    HINGEMOSS_NOTED_UNDEFINED = 5
};

/* ---- Codec */

/* Reads the first PDU of bytes. 9: pdu is not exactly HINGEMOSS_PDU_NUMBERS numbers (fewer or more), nothing was read. 1 to 8: why it is not read. 0: pdu has its numbers. */
uint8_t hingemoss_read(const uint8_t *bytes, size_t bytes_len, uint64_t *pdu, size_t pdu_len);

/* Value i of the refusal of these bytes (1 to 8, not the 9 above), from 0 on; 0 where it has none, or where the PDU is read. */
uint64_t hingemoss_read_value(const uint8_t *bytes, size_t bytes_len, size_t i);

/* Encodes a PDU into out; its payloads are taken from payload. Tested in this order: 22, the numbers are no PDU's; 11; 8; 10; 9, written is how many bytes are needed. 0: written is how many
 * bytes, and those behind them stay. */
uint8_t hingemoss_encode(const uint64_t *pdu, size_t pdu_len, const uint8_t *payload, size_t payload_len, uint8_t *out, size_t out_len, uint64_t *written);

/* Walks from a PDU to the one in it while it is an Error Report. 0: level is that of the last PDU read (0 is the first), end and value say how it ended.
 * 1 to 8: why the first is not read; hingemoss_read_value has the values. */
uint8_t hingemoss_walk(const uint8_t *bytes, size_t bytes_len, uint64_t *level, uint64_t *end, uint64_t *value);

/* ---- Receiver: HINGEMOSS_SESSION_NUMBERS numbers, two rooms of HINGEMOSS_ROOM_NUMBERS numbers and a hold. Each call but the start and the listing tests all of
 * them first (22). A session that is lent may hold any stop, also 1, which no call makes: it is given back as it stands. */

/* A fresh receiver of version 0 or 1: session is set, both rooms are zeroed. 0. 22: a size or the version is wrong. */
uint8_t hingemoss_start(uint8_t version, uint64_t *session, size_t session_len, uint32_t *live, size_t live_len, uint32_t *working, size_t working_len,
                        const uint8_t *hold, size_t hold_len);

/* Asks for the whole table. 0: out begins with a Reset Query of 8 bytes. 22, 20; 9: out is shorter than HINGEMOSS_FULL_QUERY. */
uint8_t hingemoss_full_ask(uint64_t *session, size_t session_len, const uint32_t *live, size_t live_len, const uint32_t *working, size_t working_len,
                           const uint8_t *hold, size_t hold_len, uint8_t *out, size_t out_len);

/* Asks for what changed since the table's serial. 0: out begins with a Serial Query of 12 bytes. 22, 20, 21; 9: out is shorter than HINGEMOSS_CHANGE_QUERY. */
uint8_t hingemoss_change_ask(uint64_t *session, size_t session_len, const uint32_t *live, size_t live_len, const uint32_t *working, size_t working_len,
                             const uint8_t *hold, size_t hold_len, uint8_t *out, size_t out_len);

/* Takes a piece of what the cache sent, of any length. 0: all of it was taken. 2 to 8, 12 to 19: the receiver stopped (its values are in the session),
 * taken ends with the byte that stopped it; fed again it takes 0 and gives the same stop until it is reconnected. updates counts the updates finished in this call, 0 or 1. 22: taken and updates are 0. */
uint8_t hingemoss_feed(uint64_t *session, size_t session_len, uint32_t *live, size_t live_len, uint32_t *working, size_t working_len, uint8_t *hold,
                       size_t hold_len, const uint8_t *piece, size_t piece_len, uint64_t *taken, uint64_t *updates);

/* A new connection, from any phase: the table stays; what was held, noted or half loaded is gone. 0 or 22. */
uint8_t hingemoss_reconnect(uint64_t *session, size_t session_len, const uint32_t *live, size_t live_len, uint32_t *working, size_t working_len,
                            const uint8_t *hold, size_t hold_len);

/* The last Serial Notify beside the table: 0 and compared (enum hingemoss_compared), or 22 and 0. */
uint8_t hingemoss_notify(const uint64_t *session, size_t session_len, const uint32_t *live, size_t live_len, const uint32_t *working, size_t working_len,
                         const uint8_t *hold, size_t hold_len, uint64_t *compared);

/* The stop and the table as lines of text. 22, which asks of the session, the live room and the table alone; 9, written is how many bytes are needed. 0: written is how many bytes. */
uint8_t hingemoss_listing(const uint64_t *session, size_t session_len, const uint32_t *live, size_t live_len, uint8_t *out, size_t out_len, uint64_t *written);

/* Reads a listing back into a room. In this order: 22, where head is not HINGEMOSS_HEAD_NUMBERS numbers or room not HINGEMOSS_ROOM_NUMBERS, and nothing changes; 24, line is the
 * first line that does not fit or is missing, from 1 on, the room is all 0, and head stays. 0: room holds the table, head is enum hingemoss_head's. On 0 and 22 line is 0. */
uint8_t hingemoss_read_listing(const uint8_t *text, size_t text_len, uint32_t *room, size_t room_len, uint64_t *head, size_t head_len, uint64_t *line);

/* What changed from one listing to another, as bin/rtr-diff prints it: withdrawals in the old table's order, then announcements in the new table's, six lines each; nothing where nothing changed. A text
 * that is no listing is told in the output, old text first: refused=24, file=old or file=new, line=N, the first line that does not fit or is missing; the answer is then 0 as well. In this order: 22, where a room is not
 * HINGEMOSS_ROOM_NUMBERS numbers, and nothing changes; 9, written is how many bytes are needed, and the output stays. On 0 and on 9 each room holds its text's table; of a refused text it is all 0, and so is the new
 * room where the old text is refused. 0: written is how many bytes. */
uint8_t hingemoss_diff(const uint8_t *old_text, size_t old_text_len, const uint8_t *new_text, size_t new_text_len, uint32_t *old_room, size_t old_room_len,
                       uint32_t *new_room, size_t new_room_len, uint8_t *out, size_t out_len, uint64_t *written);

/* Whether a route is good (RFC 6811), by the live table in any phase; nothing but state is written. In this order: 22, also where route is not exactly HINGEMOSS_ROUTE_NUMBERS numbers; 21; 23: of no
 * known family, longer than 32 (IPv4) or 128 (IPv6), or an IPv4 route whose second to fourth address number is not 0. 0: state is enum hingemoss_state's. On 22, 21 and 23 it is 0. */
uint8_t hingemoss_validate(const uint64_t *session, size_t session_len, const uint32_t *live, size_t live_len, const uint32_t *working, size_t working_len,
                           const uint8_t *hold, size_t hold_len, const uint32_t *route, size_t route_len, uint64_t *state);

/* The states of a list of routes, HINGEMOSS_ROUTE_NUMBERS numbers for each, by the live table in any phase: each is what hingemoss_validate gives for that route alone. The memory is tested and the table looked at
 * once for the whole list, so ask for many routes at once. In this order: 22, also where routes_len is no multiple of HINGEMOSS_ROUTE_NUMBERS; 21; 9: there are fewer states than routes, and written is how many
 * routes there are. 0: written is how many routes there were, and states has a byte for each, in order: enum hingemoss_state's, or HINGEMOSS_REFUSED_ROUTE (23) where its six numbers are no route (as above), which
 * ends nothing. Bytes behind them stay; on 22, 21 and 9 all of them do. A list of no routes is answered too, behind 22 and 21: 0, and written 0. Do not hand in a record: read as a route its length is length * 256 + max, so it
 * gets 23; one of length 0 gets the state of a route of length max. */
uint8_t hingemoss_validate_all(const uint64_t *session, size_t session_len, const uint32_t *live, size_t live_len, const uint32_t *working, size_t working_len,
                               const uint8_t *hold, size_t hold_len, const uint32_t *routes, size_t routes_len, uint8_t *states, size_t states_len, uint64_t *written);

/* ---- Cache: a table is a room of HINGEMOSS_ROOM_NUMBERS numbers and how many records stand in it; it is only read. Fed to a receiver of that version that has asked for it and holds
 * no bytes, with a hold of 32 bytes or more, a run makes its table live. Before a change run the receiver has to have the first table, under end's session. */

/* All of a table, as a cache answers a Reset Query: Cache Response, a prefix for each record in order, End of Data. end is HINGEMOSS_END_NUMBERS numbers; version 0 does not send the
 * intervals. In this order: 22, a version other than 0 and 1, not five numbers, one that does not fit 16 bits (the session) or 32, or a table that breaks the rules of enum hingemoss_record; 9, written is how
 * many bytes are needed, and the output stays. 0: written is how many bytes, and those behind them stay. */
uint8_t hingemoss_full_run(uint8_t version, const uint64_t *end, size_t end_len, const uint32_t *table, size_t table_len, uint64_t count, uint8_t *out, size_t out_len, uint64_t *written);

/* What changed from the first table to the second, as a cache answers a Serial Query: Cache Response, withdrawals in the first table's order, announcements in the second's, End of Data. Answers are
 * hingemoss_full_run's, 22 by either table. */
uint8_t hingemoss_change_run(uint8_t version, const uint64_t *end, size_t end_len, const uint32_t *first, size_t first_len, uint64_t first_count,
                             const uint32_t *second, size_t second_len, uint64_t second_count, uint8_t *out, size_t out_len, uint64_t *written);

#ifdef __cplusplus
}
#endif

#endif
