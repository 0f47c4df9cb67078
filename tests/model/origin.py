#!/usr/bin/env python3
"""A reference model of the question "is this route good?": RFC 6811, section 2.

The states are written from RFC 6811, document 02 (request One) and the decided open points (here "OP 1.x", "OP 2.x"), by someone who had not seen the code of the
crate that answers (rtr_origin), but had read the plan of the request, which has its definitions.  Plain and slow: addresses are compared bit by bit.  22 is the
receiver model's (receiver_model.py); which numbers are a session's is from include/hingemoss.h and, for the widths of a stop's values, crates/rtr_numbers/specs.

    python3 origin.py QUESTIONS > ANSWERS

Questions are lines of words, one space between them; numbers are hex without leading zeros.  Only `route` prints: `ANSWER STATE`, both decimal.

    new                      memory afresh: zeros, the session that a start of version 1 leaves; lent: 24 numbers, 6,144, 6,144, 64 bytes, 6 numbers
    lend S L W H R           how many elements of session, live room, working room, hold and route are lent (memory has 26, 6,150, 6,150, 512 and 12)
    session I X              number I of the session is X (64 bits)
    live I X, work I X       number I of a room is X (32 bits)
    hold I BYTES             bytes of the hold from I on, two hex digits each
    record K A B C D N       six numbers behind the last live record, and the session counts one more
    pending K A B C D N      the same in the working room
    route K A B C D N        a question: family * 65536 + length, four address numbers, origin
"""

import sys

import receiver_model as m

NOT_FOUND, VALID, INVALID = 0, 1, 2          # OP 1.16
NAMES = ("NotFound", "Valid", "Invalid")
SESSION_MEMORY, ROOM_MEMORY, HOLD_MEMORY, ROUTE_MEMORY = 26, 6150, 512, 12
SESSION_NUMBERS, ROUTE_NUMBERS = 24, 6


# ---------------------------------------------------------------------------
# RFC 6811, section 2
# ---------------------------------------------------------------------------

def bit(words, i):
    """Bit i of an address, from the most significant bit of its first number on."""
    return words[i // 32] >> (31 - i % 32) & 1


def identical(words, others, count):
    """"identical for all bits specified by the VRP prefix length" """
    for i in range(count):
        if bit(words, i) != bit(others, i):
            return False
    return True


def parts_of_record(record):
    """Family, length, max, address, AS number of a room's six numbers."""
    return record[0] // 65536, record[0] // 256 % 256, record[0] % 256, record[1:5], record[5]


def parts_of_route(route):
    """Family, length (all sixteen low bits: OP 2.1), address, origin."""
    return route[0] // 65536, route[0] % 65536, route[1:5], route[5]


def covers(record, route):
    """"Covered": of one family, the VRP's length is no longer, and its bits agree. """
    family, length, _, words, _ = parts_of_record(record)
    route_family, route_length, route_words, _ = parts_of_route(route)
    return family == route_family and length <= route_length and identical(words, route_words, length)


def matches(record, route):
    """"Matched": covered, no longer than max, and the AS numbers are equal; never by AS 0. """
    _, _, most, _, asn = parts_of_record(record)
    _, route_length, _, origin = parts_of_route(route)
    return covers(record, route) and route_length <= most and asn == origin and asn != 0


def state_of(records, route):
    """"NotFound: No VRP Covers"; "Valid: At least one VRP Matches"; else Invalid. """
    if any(matches(record, route) for record in records):
        return VALID
    if any(covers(record, route) for record in records):
        return INVALID
    return NOT_FOUND


def route_in_rule(route):
    """Else 23: OP 1.11 and 2.2. """
    family, length, words, _ = parts_of_route(route)
    if family == 4:
        return length <= 32 and not any(words[1:])
    return family == 6 and length <= 128


# ---------------------------------------------------------------------------
# The session's numbers (include/hingemoss.h)
# ---------------------------------------------------------------------------

# How many bits each value of a stop has (document 01's table; 1's values are lengths of lent memory).
STOP_BITS = {1: (64, 64), 2: (8,), 3: (8,), 4: (32, 32, 8), 5: (), 6: (8, 8, 8), 7: (16,), 8: (), 12: (32,),
             13: (), 14: (), 15: (), 16: (), 17: (), 18: (), 19: (16,)}
PLAIN_PHASES = ("Idle", "MustReset", "AskedFull", "AskedChange")


def phase_of(numbers):
    """The phase of numbers 1 to 5, or None where they are no phase's."""
    phase, detail, values = numbers[1], numbers[2], numbers[3:6]
    if phase < 4:
        return (PLAIN_PHASES[phase],) if detail == 0 and not any(values) else None
    if phase in (4, 5):
        if detail > 65535 or any(values):
            return None
        return ("Loading", "full" if phase == 4 else "change", detail)
    if phase != 6 or detail not in STOP_BITS:
        return None
    bits = STOP_BITS[detail]
    for i in range(3):
        if values[i] >= 2 ** (bits[i] if i < len(bits) else 0):
            return None
    if detail == 19 and values[0] > 8:          # "error codes 0 to 8"
        return None
    return ("Stopped", (detail,) + tuple(values[:len(bits)]))


def optional(numbers, bits):
    """A flag and the numbers behind it: (is it in rule, the numbers or None)."""
    flag, values = numbers[0], numbers[1:]
    if flag == 0:
        return not any(values), None
    return flag == 1 and all(v < 2 ** b for v, b in zip(values, bits)), tuple(values)


def session_of(numbers):
    """The session of lent numbers, or None: "numbers are no session's". """
    if len(numbers) != SESSION_NUMBERS:
        return None
    phase = phase_of(numbers)
    table_fits, table = optional(numbers[6:12], (16, 32, 32, 32, 32))
    note_fits, note = optional(numbers[12:15], (16, 32))
    if numbers[0] > 1 or phase is None or not table_fits or not note_fits:
        return None
    if numbers[18] != m.DEFAULT_LIMIT or any(numbers[19:]):
        return None
    return m.Session(numbers[0], phase, table, note, numbers[15], numbers[16], numbers[17])


# ---------------------------------------------------------------------------
# The call
# ---------------------------------------------------------------------------

def refusal(numbers, live, working, hold):
    """22 or 21 by the lent memory alone, else the records of the live table."""
    session = session_of(numbers)
    receiver = m.Receiver()
    if session is None or receiver.out_of_shape(session, live, working, hold):
        return 22, None
    if session.table is None:
        return 21, None
    return 0, [receiver.record_at(live, i) for i in range(session.live_count)]


def answer(said, records, route):
    """The answer and the state where `said` is what the memory alone gives. OP 1.10: 22 (also where not six are lent), 21, 23."""
    if said == 22 or len(route) != ROUTE_NUMBERS:
        return 22, 0
    if said == 21:
        return 21, 0
    if not route_in_rule(route):
        return 23, 0
    return 0, state_of(records, route)


def validate(numbers, live, working, hold, route):
    """The call: (answer, state). It writes nothing but the state."""
    said, records = refusal(numbers, live, working, hold)
    return answer(said, records, route)


# ---------------------------------------------------------------------------
# Lines
# ---------------------------------------------------------------------------

FRESH = [1] + [0] * 17 + [m.DEFAULT_LIMIT] + [0] * 7


class Memory:
    """What is lent, as question lines set it. `refusal` is asked once for each state of the memory."""

    def __init__(self):
        self.new()

    def new(self):
        self.session = FRESH[:]
        self.live, self.work = [0] * ROOM_MEMORY, [0] * ROOM_MEMORY
        self.hold = bytearray(HOLD_MEMORY)
        self.lent = (24, 6144, 6144, 64, 6)
        self.known = None

    def said(self):
        if self.known is None:
            s, l, w, h, _ = self.lent
            self.known = refusal(self.session[:s], self.live[:l], self.work[:w], self.hold[:h])
        return self.known

    def line(self, text):
        """The answer of a `route` line, else None."""
        word, *rest = text.split()
        if word == "route":
            route = ([int(x, 16) for x in rest] + [0] * 6)[:self.lent[4]]
            return answer(*self.said(), route)
        self.known = None
        if word == "new":
            self.new()
        elif word == "hold":
            at, data = int(rest[0], 16), bytes.fromhex(rest[1])
            self.hold[at:at + len(data)] = data
        else:
            n = [int(x, 16) for x in rest]
            if word == "lend":
                self.lent = tuple(n)
            elif word == "session":
                self.session[n[0]] = n[1]
            elif word == "live":
                self.live[n[0]] = n[1]
            elif word == "work":
                self.work[n[0]] = n[1]
            elif word in ("record", "pending"):
                room, count = (self.live, 15) if word == "record" else (self.work, 16)
                at = 6 * self.session[count]
                room[at:at + 6] = n
                self.session[count] += 1
            else:
                raise ValueError("no such line: " + text)
        return None


def main(argv):
    memory = Memory()
    with open(argv[1]) if len(argv) > 1 else sys.stdin as lines:
        for text in lines:
            said = memory.line(text)
            if said is not None:
                print(*said)


if __name__ == "__main__":
    main(sys.argv)
