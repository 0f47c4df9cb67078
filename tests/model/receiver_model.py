#!/usr/bin/env python3
"""A reference model of Hingemoss's RTR receiver.

Written from document 01 (01-scope.md) and the decided open points
(OPEN-POINTS.md, here "OP n") alone.  It shares nothing with the program: it
is plain, slow Python.  Sentences in quotes are document 01's own.

    python3 receiver_model.py SCRIPTFILE > REFERENCE     (format: FORMAT.md)

Lent memory: `live` and `work` are lists of 32-bit numbers, `hold` and
`output` are lists (or bytearrays) of bytes.  What is lent is the whole list.

A refusal or stop is a tuple: its number, then its values in the order of
document 01's table, e.g. (4, 8, 0, 5) or (13,).
"""

import sys
from bisect import bisect_left
from dataclasses import dataclass
from typing import Optional

# ---------------------------------------------------------------------------
# Numbers of document 01
# ---------------------------------------------------------------------------

DEFAULT_LIMIT = 1024          # "at most 1,024 records"
NUMBERS_PER_RECORD = 6        # "six per record"
STREAM_LEAST = 8              # "a length outside 8 to 131,086 is refused by 4"
STREAM_MOST = 131_086
U32_MOST = 4_294_967_295
DEFAULT_INTERVALS = (3600, 600, 7200)   # "the End of Data defaults 3600, 600 and 7200"

# PDU types ("types 0 to 4 and 6 to 10")
SERIAL_NOTIFY, SERIAL_QUERY, RESET_QUERY, CACHE_RESPONSE = 0, 1, 2, 3
IPV4_PREFIX, IPV6_PREFIX, END_OF_DATA, CACHE_RESET = 4, 6, 7, 8
ROUTER_KEY, ERROR_REPORT = 9, 10
KNOWN_TYPES = (0, 1, 2, 3, 4, 6, 7, 8, 9, 10)


def be16(data, at):
    """"Numbers are big-endian." """
    return data[at] * 256 + data[at + 1]


def be32(data, at):
    return be16(data, at) * 65_536 + be16(data, at + 2)


# ---------------------------------------------------------------------------
# Text: "well-formed UTF-8" (Unicode's table of well-formed byte sequences)
# ---------------------------------------------------------------------------

def well_formed_utf8(text):
    """One row of Unicode's table per branch. "Empty text and NUL pass." """
    at = 0
    while at < len(text):
        first = text[at]
        if first <= 0x7F:
            at += 1
            continue
        if 0xC2 <= first <= 0xDF:
            more, low, high = 1, 0x80, 0xBF
        elif first == 0xE0:
            more, low, high = 2, 0xA0, 0xBF
        elif 0xE1 <= first <= 0xEC or 0xEE <= first <= 0xEF:
            more, low, high = 2, 0x80, 0xBF
        elif first == 0xED:
            more, low, high = 2, 0x80, 0x9F
        elif first == 0xF0:
            more, low, high = 3, 0x90, 0xBF
        elif 0xF1 <= first <= 0xF3:
            more, low, high = 3, 0x80, 0xBF
        elif first == 0xF4:
            more, low, high = 3, 0x80, 0x8F
        else:
            return False
        if at + more >= len(text):
            return False
        if not low <= text[at + 1] <= high:
            return False
        for k in range(2, more + 1):
            if not 0x80 <= text[at + k] <= 0xBF:
                return False
        at += more + 1
    return True


# ---------------------------------------------------------------------------
# Reading ("Checks in order")
# ---------------------------------------------------------------------------

@dataclass
class Pdu:
    """An accepted PDU: only what the receiver needs of it."""
    kind: int                 # the type byte
    version: int
    length: int
    session: int = 0          # types 0, 1, 3, 7
    serial: int = 0           # types 0, 1, 7
    intervals: tuple = ()     # type 7: refresh, retry, expire (defaults in v0)
    flags: int = 0            # types 4, 6
    record: tuple = ()        # types 4, 6: the six numbers of a room's record
    code: int = 0             # type 10


def expected_length(version, kind):
    """(exact?, length): "Lengths: types 0 and 1, 12; types 2, 3 and 8, 8;
    type 4, 20; type 6, 32; type 7, 12 in v0 and 24 in v1; type 9 at least 34;
    type 10 at least 16." """
    if kind in (0, 1):
        return True, 12
    if kind in (2, 3, 8):
        return True, 8
    if kind == 4:
        return True, 20
    if kind == 6:
        return True, 32
    if kind == 7:
        return True, (12 if version == 0 else 24)
    if kind == 9:
        return False, 34
    return False, 16


def read_pdu(data):
    """Gives (Pdu, None) or (None, refusal)."""
    # 1. "under 8 bytes, or fewer than the header's length: 1"
    if len(data) < 8:
        return None, (1, len(data), 8)
    length = be32(data, 4)
    if len(data) < length:
        return None, (1, len(data), length)
    # 2. "version: 2"
    version = data[0]
    if version not in (0, 1):
        return None, (2, version)
    # 3. "type: 3"
    kind = data[1]
    if kind not in KNOWN_TYPES:
        return None, (3, kind)
    # 4. "Router Key in v0: 5"
    if kind == ROUTER_KEY and version == 0:
        return None, (5,)
    # 5. "length: 4" with "expected, actual, type"
    exact, expected = expected_length(version, kind)
    if length < expected or (exact and length != expected):
        return None, (4, expected, length, kind)

    pdu = Pdu(kind, version, length)
    # "Bytes 2 and 3 are the session id (types 0, 1, 3, 7), the error code
    # (10), else ignored."
    if kind in (0, 1, 3, 7):
        pdu.session = be16(data, 2)
    if kind in (0, 1, 7):
        pdu.serial = be32(data, 8)
    if kind == END_OF_DATA:
        if version == 1:
            pdu.intervals = (be32(data, 12), be32(data, 16), be32(data, 20))
        else:
            # "sets serial, session and intervals (defaults in v0)"
            pdu.intervals = DEFAULT_INTERVALS
    if kind in (IPV4_PREFIX, IPV6_PREFIX):
        # "Prefixes: flags 8, prefix length 9, max 10, ignored 11, address
        # from 12, then the AS number; prefix length <= max <= 32 or 128."
        limit = 32 if kind == IPV4_PREFIX else 128
        prefix_length, most = data[9], data[10]
        # 6. "prefix lengths: 6" with "prefix length, max, limit"
        if not prefix_length <= most <= limit:
            return None, (6, prefix_length, most, limit)
        pdu.flags = data[8]
        # "family (4 or 6) x 65,536 + prefix length x 256 + max; four address
        # numbers (IPv4 in the first, others 0); AS number." "Host bits are
        # kept as sent."  (The types' numbers happen to be the families'.)
        if kind == IPV4_PREFIX:
            pdu.record = (4 * 65_536 + prefix_length * 256 + most,
                          be32(data, 12), 0, 0, 0, be32(data, 16))
        else:
            pdu.record = (6 * 65_536 + prefix_length * 256 + most,
                          be32(data, 12), be32(data, 16), be32(data, 20),
                          be32(data, 24), be32(data, 28))
    if kind == ERROR_REPORT:
        # 6. "error code: 7"; "error codes 0 to 8" (8 in v0 too, as in 000)
        pdu.code = be16(data, 2)
        if pdu.code > 8:
            return None, (7, pdu.code)
        # 7. "encapsulated length, then text length: 4; text: 8"; "the
        # expected number is 16 + encapsulated length, or 16 + encapsulated
        # length + text length, at most 4,294,967,295."  Bytes after the text
        # are accepted ("Two known ones: ... bytes after an Error Report's
        # text").
        inner = be32(data, 8)
        if 16 + inner > length:
            return None, (4, min(16 + inner, U32_MOST), length, kind)
        text_length = be32(data, 12 + inner)
        if 16 + inner + text_length > length:
            return None, (4, min(16 + inner + text_length, U32_MOST), length, kind)
        if not well_formed_utf8(data[16 + inner:16 + inner + text_length]):
            return None, (8,)
    return pdu, None


# ---------------------------------------------------------------------------
# Stream
# ---------------------------------------------------------------------------

def judge_stream(hold, held):
    """What the first `held` bytes of the hold make: (None, None) is the wish
    for more; else (Pdu, None) or (None, refusal).  H is len(hold)."""
    # "once 8 bytes are in"
    if held < 8:
        return None, None
    length = be32(hold, 4)
    # "a length outside 8 to 131,086 is refused by 4 (expected 8 or 131,086)";
    # OP 3: with the raw type byte.
    if length < STREAM_LEAST:
        return None, (4, STREAM_LEAST, length, hold[1])
    if length > STREAM_MOST:
        return None, (4, STREAM_MOST, length, hold[1])
    # "then 12 if it exceeds H"
    if length > len(hold):
        return None, (12, length)
    # "then the PDU is read when whole"
    if held < length:
        return None, None
    return read_pdu(bytes(hold[:length]))


# ---------------------------------------------------------------------------
# The session record
# ---------------------------------------------------------------------------
# Phases: ("Idle",) ("MustReset",) ("AskedFull",) ("AskedChange",)
#         ("Loading", "full" or "change", session id) ("Stopped", stop)

@dataclass
class Session:
    version: int
    phase: tuple = ("Idle",)
    table: Optional[tuple] = None     # (session, serial, refresh, retry, expire)
    note: Optional[tuple] = None      # (session, serial) of the last Serial Notify
    live_count: int = 0
    work_count: int = 0
    held: int = 0


@dataclass
class Feed:
    """"Feed returns the bytes taken, the updates finished in that call, and
    the stop if there is one"; `refused` is (22,) or None."""
    taken: int = 0
    updates: int = 0
    stop: Optional[tuple] = None
    refused: Optional[tuple] = None


class Receiver:
    """The receiver's calls. `limit` is the record limit (1,024); a room is six
    times as many numbers."""

    def __init__(self, limit=DEFAULT_LIMIT):
        self.limit = limit
        self.room_size = NUMBERS_PER_RECORD * limit

    # -- rooms --------------------------------------------------------------

    @staticmethod
    def order_key(record):
        """"Records ascend strictly by family, address, length, max, AS
        number." (OP 12: not the order of the six numbers.)"""
        first = record[0]
        family, length, most = first >> 16, (first >> 8) & 255, first & 255
        return (family, record[1], record[2], record[3], record[4],
                length, most, record[5])

    @staticmethod
    def record_at(room, i):
        return room[6 * i:6 * i + 6]

    @staticmethod
    def record_in_rule(record):
        """"family (4 or 6) x 65,536 + prefix length x 256 + max; four address
        numbers (IPv4 in the first, others 0)"; "Lengths pass check 6." """
        first = record[0]
        family, length, most = first >> 16, (first >> 8) & 255, first & 255
        if family == 4:
            if record[2] != 0 or record[3] != 0 or record[4] != 0:
                return False
            return length <= most <= 32
        if family == 6:
            return length <= most <= 128
        return False

    def room_in_rule(self, room, count):
        before = None
        for i in range(count):
            record = self.record_at(room, i)
            if not self.record_in_rule(record):
                return False
            key = self.order_key(record)
            if before is not None and not before < key:
                return False
            before = key
        # "Spare numbers are 0."
        return not any(room[6 * count:])

    def find(self, room, count, record):
        """(place of the first record not below this one, is it this one?)"""
        key = self.order_key(record)
        place = bisect_left(range(count), key,
                            key=lambda i: self.order_key(self.record_at(room, i)))
        there = place < count and tuple(self.record_at(room, place)) == tuple(record)
        return place, there

    # -- 22 -----------------------------------------------------------------

    def wrong_sizes(self, live, work, hold):
        # "a room is not 6,144 numbers, H < 8"
        return len(live) != self.room_size or len(work) != self.room_size or len(hold) < 8

    def out_of_shape(self, s, live, work, hold):
        """"22 is tested first in every receiver call, and beyond start given
        exactly when:" (the list, in its order)."""
        # "a room is not 6,144 numbers, H < 8,"
        if self.wrong_sizes(live, work, hold):
            return True
        # "a count is over its limit," (OP 7: held against the H lent now)
        if s.live_count > self.limit or s.work_count > self.limit:
            return True
        if s.held > len(hold):
            return True
        # "a room breaks the room rules,"
        if not self.room_in_rule(live, s.live_count):
            return True
        if not self.room_in_rule(work, s.work_count):
            return True
        # "a live record stands or a change is under way without a table,"
        # (OP 5: AskedChange, and a Loading that a change began)
        change_under_way = (s.phase[0] == "AskedChange"
                            or s.phase[:2] == ("Loading", "change"))
        if s.table is None and (s.live_count > 0 or change_under_way):
            return True
        # "the working room is not empty outside Loading,"
        if s.phase[0] != "Loading" and s.work_count > 0:
            return True
        # "bytes are held in Stopped,"
        if s.phase[0] == "Stopped" and s.held > 0:
            return True
        # "or the held bytes already make a PDU or a refusal."
        return judge_stream(hold, s.held) != (None, None)

    # -- start --------------------------------------------------------------

    def start(self, version, live, work, hold):
        """(Session, None) or (None, (22,)). OP 16: a refused start leaves both
        rooms; start never writes the hold."""
        # "it is refused by 22 only for a room's size or H"
        if self.wrong_sizes(live, work, hold):
            return None, (22,)
        # "Start zeroes both rooms and gives the fresh state: Idle, no table,
        # nothing held or noted"
        self.empty(live)
        self.empty(work)
        return Session(version), None

    @staticmethod
    def empty(room):
        room[:] = [0] * len(room)

    # -- asks ---------------------------------------------------------------

    def full_ask(self, s, live, work, hold, output):
        """(written length, None) or (None, refusal). "Checks: 22, 20, 21, 9."
        "9, 10, 11, 20, 21, 22 change nothing." """
        if self.out_of_shape(s, live, work, hold):
            return None, (22,)
        # "Full ask (Idle, MustReset)"; "20: ask in a wrong phase"
        if s.phase[0] not in ("Idle", "MustReset"):
            return None, (20,)
        # "output shorter than needed: needed"
        if len(output) < 8:
            return None, (9, 8)
        # "writes a Reset Query: AskedFull"; "its asks carry it" (the version);
        # "Only the encoded length is written; bytes after it stay."
        query = [s.version, RESET_QUERY, 0, 0, 0, 0, 0, 8]
        for i in range(8):
            output[i] = query[i]
        s.phase = ("AskedFull",)
        return 8, None

    def change_ask(self, s, live, work, hold, output):
        if self.out_of_shape(s, live, work, hold):
            return None, (22,)
        # "Change ask (Idle, with a table)"; OP 13: 20 before 21
        if s.phase[0] != "Idle":
            return None, (20,)
        if s.table is None:
            return None, (21,)
        if len(output) < 12:
            return None, (9, 12)
        # "writes a Serial Query of the table's session and serial: AskedChange"
        session, serial = s.table[0], s.table[1]
        query = ([s.version, SERIAL_QUERY] + list(session.to_bytes(2, "big"))
                 + [0, 0, 0, 12] + list(serial.to_bytes(4, "big")))
        for i in range(12):
            output[i] = query[i]
        s.phase = ("AskedChange",)
        return 12, None

    # -- feed ---------------------------------------------------------------

    def feed(self, s, live, work, hold, piece):
        # "22 is tested first in every receiver call"; "under 22 feed takes
        # and counts 0"
        if self.out_of_shape(s, live, work, hold):
            return Feed(refused=(22,))
        # "in Stopped it takes none and gives the same stop"
        if s.phase[0] == "Stopped":
            return Feed(stop=s.phase[1])
        answer = Feed()
        # "The search through a piece goes round until it breaks off with a
        # whole PDU, a refusal, or the wish for more."  Here: byte by byte.
        for byte in piece:
            hold[s.held] = byte
            s.held += 1
            answer.taken += 1
            if s.held < 8:
                continue
            pdu, stop = judge_stream(hold, s.held)
            if pdu is None and stop is None:
                continue                        # the wish for more
            finished = 0
            if stop is None:
                s.held = 0                      # the PDU leaves the hold
                stop, finished = self.take_pdu(s, live, work, pdu)
            answer.updates += finished
            if stop is not None:
                # "A stop takes bytes up to the one that completed the refused
                # header or PDU." "A stop keeps the note." OP 9: it clears the
                # held bytes and the working room and keeps table, live room.
                s.held = 0
                self.empty(work)
                s.work_count = 0
                s.phase = ("Stopped", stop)
                answer.stop = stop
                return answer
        # "Without a stop all bytes are taken."
        return answer

    def take_pdu(self, s, live, work, pdu):
        """One PDU that was read: (stop or None, updates finished: 0 or 1).
        "Order for a PDU: read, Error Report, version (14), turn (13), session
        (15), record (16 or 17, then 18)." """
        # "Error Report of either version: 19" with "code"
        if pdu.kind == ERROR_REPORT:
            return (19, pdu.code), 0
        # "a PDU of the other is 14"
        if pdu.version != s.version:
            return (14,), 0

        phase = s.phase[0]
        if pdu.kind == SERIAL_NOTIFY:
            # "Serial Notify is noted in any phase but Stopped." (OP 9: the
            # last one wins.)
            s.note = (pdu.session, pdu.serial)
            return None, 0

        if pdu.kind == CACHE_RESPONSE and phase == "AskedFull":
            # "Cache Response in an Asked phase begins Loading"; "The working
            # room starts empty"
            self.empty(work)
            s.work_count = 0
            s.phase = ("Loading", "full", pdu.session)
            return None, 0

        if pdu.kind == CACHE_RESPONSE and phase == "AskedChange":
            # "for a change its session must be the table's"
            if pdu.session != s.table[0]:
                return (15,), 0
            # "The working room starts ... as the live one."
            work[:] = live[:]
            s.work_count = s.live_count
            s.phase = ("Loading", "change", pdu.session)
            return None, 0

        if pdu.kind in (IPV4_PREFIX, IPV6_PREFIX) and phase == "Loading":
            # "A prefix in Loading enters (lowest flag bit 1) or leaves (0) the
            # working room."
            if pdu.flags % 2 == 1:
                return self.enter(s, work, pdu.record), 0
            return self.leave(s, work, pdu.record), 0

        if pdu.kind == ROUTER_KEY and phase == "Loading":
            # "Router Key in Loading is passed over."
            return None, 0

        if pdu.kind == END_OF_DATA and phase == "Loading":
            # "End of Data in Loading with the load's session"
            if pdu.session != s.phase[2]:
                return (15,), 0
            # "makes the working room live, sets serial, session and intervals
            # (defaults in v0): Idle, working room emptied."
            live[:] = work[:]
            s.live_count = s.work_count
            s.table = (pdu.session, pdu.serial) + pdu.intervals
            self.empty(work)
            s.work_count = 0
            s.phase = ("Idle",)
            return None, 1

        if pdu.kind == CACHE_RESET and phase == "AskedChange":
            # "Cache Reset in AskedChange: MustReset."
            s.phase = ("MustReset",)
            return None, 0

        # "Anything else: 13."
        return (13,), 0

    def enter(self, s, work, record):
        place, there = self.find(work, s.work_count, record)
        # "17: announcement already in the working room"
        if there:
            return (17,)
        # "18: new announcement with 1,024 in"
        if s.work_count >= self.limit:
            return (18,)
        end = 6 * s.work_count
        work[6 * place + 6:end + 6] = work[6 * place:end]
        work[6 * place:6 * place + 6] = record
        s.work_count += 1
        return None

    def leave(self, s, work, record):
        place, there = self.find(work, s.work_count, record)
        # "16: withdrawal not in ... the working room"
        if not there:
            return (16,)
        end = 6 * s.work_count
        work[6 * place:end - 6] = work[6 * place + 6:end]
        work[end - 6:end] = [0] * 6             # "Spare numbers are 0."
        s.work_count -= 1
        return None

    # -- reconnect ----------------------------------------------------------

    def reconnect(self, s, live, work, hold):
        """None or (22,)."""
        if self.out_of_shape(s, live, work, hold):
            return (22,)
        # "Reconnect: Idle; held bytes, working room and note cleared; table
        # kept."
        s.phase = ("Idle",)
        s.held = 0
        self.empty(work)
        s.work_count = 0
        s.note = None
        return None

    # -- notify -------------------------------------------------------------

    def notify(self, s, live, work, hold):
        """(name, None) or (None, (22,)). OP 8: 22 first; it answers in Stopped
        too."""
        if self.out_of_shape(s, live, work, hold):
            return None, (22,)
        # "None comes first, without a note or a table."
        if s.note is None or s.table is None:
            return "None", None
        if s.note[0] != s.table[0]:
            return "OtherSession", None
        # "Notify compared with the table by RFC 1982 over 32 bits that wrap:
        # ... or Undefined at 2,147,483,648 apart."
        ahead = (s.note[1] - s.table[1]) % 2**32
        if ahead == 0:
            return "Same", None
        if ahead < 2**31:
            return "Newer", None
        if ahead > 2**31:
            return "Older", None
        return "Undefined", None


# ---------------------------------------------------------------------------
# The listing: `rtr-table`
# ---------------------------------------------------------------------------

def rtr_table(data, cuts=()):
    """The listing's program: version 1, H = 8,192, one full ask, the input,
    the print.  `cuts` are places at which the input is cut into pieces."""
    r = Receiver()
    live, work = [1] * r.room_size, [1] * r.room_size
    hold, output = bytearray(8192), bytearray(8)
    s, _ = r.start(1, live, work, hold)
    r.full_ask(s, live, work, hold, output)
    places = [0] + sorted(cuts) + [len(data)]
    stop = None
    for a, b in zip(places, places[1:]):
        stop = r.feed(s, live, work, hold, data[a:b]).stop
        if stop is not None:
            break
    lines = ["stopped=%d" % (stop[0] if stop else 0)]
    if s.table is None:
        lines.append("count=none")
    else:
        for name, value in zip(("session", "serial", "refresh", "retry", "expire"), s.table):
            lines.append("%s=%d" % (name, value))
        lines.append("count=%04d" % s.live_count)
        for i in range(s.live_count):
            record = live[6 * i:6 * i + 6]
            family = record[0] >> 16
            words = record[1:2] if family == 4 else record[1:5]
            lines.append("family=%d" % family)
            lines.append("address=" + "".join("%08x" % w for w in words))
            lines.append("length=%d" % (record[0] >> 8 & 255))
            lines.append("max=%d" % (record[0] & 255))
            lines.append("asn=%d" % record[5])
    return "".join(line + "\n" for line in lines)


# ---------------------------------------------------------------------------
# Scripts (FORMAT.md): the runner
# ---------------------------------------------------------------------------

HOLD_MEMORY = 131_200
OUTPUT_MEMORY = 32
ROOM_FILL, HOLD_FILL, OUTPUT_FILL = 7, 90, 165


def checksum(numbers):
    """h = (h*31 + x) mod 2^32 from h = 0."""
    h = 0
    for x in numbers:
        h = (h * 31 + x) & 0xFFFFFFFF
    return h


def room_checksum(numbers):
    """The same value as checksum(), quicker: a run of k zeros multiplies by
    31^k."""
    h = 0
    for at in range(0, len(numbers), 96):
        part = numbers[at:at + 96]
        if any(part):
            for x in part:
                h = (h * 31 + x) & 0xFFFFFFFF
        else:
            h = h * POWERS_OF_31[len(part)] & 0xFFFFFFFF
    return h


POWERS_OF_31 = [pow(31, k, 2**32) for k in range(97)]


class ScriptError(Exception):
    """The script itself is at fault (not the receiver)."""


class Runner:
    """Runs script lines; `out` collects the reference output's lines."""

    CALLS = ("start", "full", "change", "feed", "reconnect", "notify")

    def __init__(self, limit=DEFAULT_LIMIT, receiver=None):
        self.receiver = receiver or Receiver(limit)
        self.out = []
        self.sums = {}
        self.fresh()

    def fresh(self):
        room_memory = self.receiver.room_size + 6
        self.live = [ROOM_FILL] * room_memory
        self.work = [ROOM_FILL] * room_memory
        self.hold = bytearray([HOLD_FILL]) * HOLD_MEMORY
        self.output = bytearray([OUTPUT_FILL]) * OUTPUT_MEMORY
        self.session = None
        self.sizes = None
        # Bytes of the hold that document 01 does not fix ("the single
        # exception ... is the hold buffer past the held count"): 1 = unfixed.
        self.unfixed = bytearray(HOLD_MEMORY)

    # -- one line -----------------------------------------------------------

    def line(self, text):
        words = text.split()
        if not words:
            return
        name, args = words[0], words[1:]
        if name == "script":
            self.fresh()
            self.out.append("script " + args[0])
        elif name == "sizes":
            l, w, h = map(int, args)
            if l > len(self.live) or w > len(self.work) or h > HOLD_MEMORY:
                raise ScriptError("sizes over the memory: " + text)
            self.sizes = (l, w, h)
        elif name in self.CALLS:
            if self.sizes is None:
                raise ScriptError("no sizes before: " + text)
            self.call(name, args)
        else:
            self.damage(name, args, text)

    # -- calls --------------------------------------------------------------

    def call(self, name, args):
        l, w, h = self.sizes
        s = self.session
        if s is None and name != "start":
            self.out.append(name + " nosession")
            self.state_line()
            return
        if s is not None and s.held <= h and any(self.unfixed[:s.held]):
            raise ScriptError("the script holds bytes that document 01 leaves open")
        live, work, hold = self.live[:l], self.work[:w], self.hold[:h]
        r = self.receiver
        if name == "start":
            self.session, refused = r.start(int(args[0]), live, work, hold)
            answer = "start ok" if refused is None else "start 22"
        elif name in ("full", "change"):
            n = int(args[0])
            output = self.output[:n]
            ask = r.full_ask if name == "full" else r.change_ask
            wrote, refused = ask(s, live, work, hold, output)
            self.output[:n] = output
            answer = name + (" ok %d" % wrote if refused is None
                             else " " + numbers_text(refused))
        elif name == "feed":
            piece = b"" if args[0] == "-" else bytes.fromhex(args[0])
            a = r.feed(s, live, work, hold, piece)
            if a.refused is not None:
                end = "refused " + numbers_text(a.refused)
            elif a.stop is not None:
                end = "stop " + numbers_text(a.stop)
            else:
                end = "none"
            answer = "feed %d %d %s" % (a.taken, a.updates, end)
        elif name == "reconnect":
            refused = r.reconnect(s, live, work, hold)
            answer = "reconnect ok" if refused is None else "reconnect 22"
        else:
            result, refused = r.notify(s, live, work, hold)
            answer = "notify " + (result.lower() if refused is None else "22")
        self.live[:l], self.work[:w], self.hold[:h] = live, work, hold
        if name != "start":
            held = self.session.held
            if held <= h:
                self.unfixed[held:h] = b"\1" * (h - held)
                self.unfixed[:held] = bytes(held)
        self.out.append(answer)
        self.state_line()

    # -- damage -------------------------------------------------------------

    def damage(self, name, args, text):
        if name in ("live", "work"):
            room = self.live if name == "live" else self.work
            room[int(args[0])] = int(args[1])
            return
        if name == "hold":
            at, data = int(args[0]), bytes.fromhex(args[1])
            if at + len(data) > HOLD_MEMORY:
                raise ScriptError("outside the hold: " + text)
            self.hold[at:at + len(data)] = data
            self.unfixed[at:at + len(data)] = bytes(len(data))
            return
        s = self.session
        if s is None:
            raise ScriptError("no session for: " + text)
        if name == "livecount":
            s.live_count = int(args[0])
        elif name == "workcount":
            s.work_count = int(args[0])
        elif name == "held":
            s.held = int(args[0])
        elif name == "table":
            s.table = tuple(map(int, args))
        elif name == "notable":
            s.table = None
        elif name == "note":
            s.note = tuple(map(int, args))
        elif name == "nonote":
            s.note = None
        elif name == "phase":
            s.phase = parse_phase(args)
        else:
            raise ScriptError("unknown line: " + text)

    # -- the state line -----------------------------------------------------

    def sum_of(self, name, room):
        """room_checksum, remembered while the room stays the same."""
        old = self.sums.get(name)
        if old is None or old[0] != room:
            old = (room[:], room_checksum(room))
            self.sums[name] = old
        return old[1]

    def state_line(self):
        s = self.session
        hold_sum = 0
        if s is None:
            text = "state none"
        else:
            if s.held <= self.sizes[2]:
                hold_sum = checksum(self.hold[:s.held])
            text = "state version %d phase %s table %s note %s counts %d %d %d" % (
                s.version, phase_text(s.phase),
                "none" if s.table is None else numbers_text(s.table),
                "none" if s.note is None else numbers_text(s.note),
                s.live_count, s.work_count, s.held)
        self.out.append("%s sums %d %d %d %d" % (
            text, self.sum_of("live", self.live), self.sum_of("work", self.work),
            hold_sum, checksum(self.output)))


def numbers_text(values):
    return " ".join(str(v) for v in values)


def phase_text(phase):
    if phase[0] == "Loading":
        return "loading %s %d" % (phase[1], phase[2])
    if phase[0] == "Stopped":
        return "stopped " + numbers_text(phase[1])
    return phase[0].lower()


def parse_phase(args):
    name = args[0]
    if name == "loading":
        if args[1] not in ("full", "change"):
            raise ScriptError("phase " + " ".join(args))
        return ("Loading", args[1], int(args[2]))
    if name == "stopped":
        return ("Stopped", tuple(map(int, args[1:])))
    for plain in ("Idle", "MustReset", "AskedFull", "AskedChange"):
        if name == plain.lower():
            return (plain,)
    raise ScriptError("phase " + " ".join(args))


def run(lines, limit=DEFAULT_LIMIT):
    """The reference output of script lines, as a list of lines."""
    runner = Runner(limit)
    for text in lines:
        runner.line(text)
    return runner.out


def main(argv):
    limit = DEFAULT_LIMIT
    if len(argv) > 2 and argv[1] == "--limit":
        limit = int(argv[2])
        argv = argv[:1] + argv[3:]
    source = sys.stdin if len(argv) < 2 or argv[1] == "-" else open(argv[1])
    runner = Runner(limit)
    with source:
        for text in source:
            runner.line(text)
            if len(runner.out) > 1000:
                sys.stdout.write("\n".join(runner.out) + "\n")
                runner.out.clear()
    if runner.out:
        sys.stdout.write("\n".join(runner.out) + "\n")


if __name__ == "__main__":
    main(sys.argv)
