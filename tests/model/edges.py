#!/usr/bin/env python3
"""Edge scripts for the receiver, in the language of FORMAT.md.

    python3 edges.py SCRIPTS EXPECTED

Each function below is one edge, or one family of edges.  Beside each call
stands the answer that document 01 asks for, written by hand: a script whose
answer by the model is another one is not written, and the run fails.
SCRIPTS and EXPECTED are tests/scripts.d/stdin and stdout.
"""

import sys

import receiver_model as m
from scripts import PIECE_MOST, end_of_data, error_report, pdu, prefix, u32

ROOM = 6 * m.DEFAULT_LIMIT
SESSION, SERIAL = 4660, 7


def record(i):
    """IPv4 record i; they ascend with i."""
    return (4, (0x0A000000 + 256 * i, 0, 0, 0), 24, 24, 64496)


def record6(i):
    return (6, (0x20010DB8, i, 0, 1), 48, 64, 64497)


def numbers(rec):
    """The six numbers of a record in a room."""
    family, address, length, most, asn = rec
    return [family * 65536 + length * 256 + most, *address, asn]


class Edges:
    def __init__(self):
        self.lines = []
        self.runner = m.Runner()
        self.number = 0
        self.version = 1

    # -- lines --------------------------------------------------------------

    def line(self, text):
        assert len(text) <= 8200
        self.lines.append(text)
        self.runner.line(text)

    def call(self, text, answer):
        """A call, and the whole of its answer line."""
        self.line(text)
        said = self.runner.out[-2]
        if said != answer:
            sys.exit("script %d: %s\n  document 01: %s\n  the model:   %s" % (self.number - 1, text[:80], answer, said))

    def sizes(self, h, live=ROOM, work=ROOM):
        self.line("sizes %d %d %d" % (live, work, h))

    def script(self, version=1, h=64):
        """A script with a fresh receiver."""
        self.line("script %d" % self.number)
        self.number += 1
        self.version = version
        self.sizes(h)
        self.call("start %d" % version, "start ok")

    def feed(self, data, answer="none", taken=None, updates=0):
        """One piece. `taken`: all of it, if not said."""
        taken = len(data) if taken is None else taken
        self.call("feed " + (data.hex() or "-"), "feed %d %d %s" % (taken, updates, answer))

    def again(self, answer):
        """In Stopped a feed takes none and gives the same stop."""
        self.feed(b"\1", answer, taken=0)
        self.feed(b"", answer)

    def full(self, answer="ok 8", n=8):
        self.call("full %d" % n, "full " + answer)

    def change(self, answer="ok 12", n=12):
        self.call("change %d" % n, "change " + answer)

    def notify(self, answer="none"):
        self.call("notify", "notify " + answer)

    def reconnect(self):
        self.call("reconnect", "reconnect ok")

    # -- PDUs of the receiver's version -------------------------------------

    def response(self, session=SESSION):
        return pdu(self.version, 3, session)

    def enters(self, i):
        return prefix(self.version, record(i), True)

    def leaves(self, i):
        return prefix(self.version, record(i), False)

    def end(self, serial=SERIAL, session=SESSION):
        return end_of_data(self.version, session, serial)

    def told(self, serial, session=SESSION):
        return pdu(self.version, 0, session, u32(serial))

    def reset(self):
        return pdu(self.version, 8, 0)

    # -- ways to a phase ----------------------------------------------------

    def load(self, records=(1, 2), serial=SERIAL, session=SESSION):
        """A full load, from Idle or MustReset: a table and its records."""
        self.full()
        data = self.response(session) + b"".join(self.enters(i) for i in records) + self.end(serial, session)
        self.feed(data, updates=1)

    PHASES = ("idle", "mustreset", "askedfull", "askedchange", "loading full", "loading change", "stopped")

    def reach(self, phase):
        """From Idle; a table is loaded where the phase needs one."""
        if phase in ("mustreset", "askedchange", "loading change"):
            if self.runner.session.table is None:
                self.load()
            self.change()
        if phase in ("askedfull", "loading full"):
            self.full()
        if phase == "mustreset":
            self.feed(self.reset())
        if phase in ("loading full", "loading change"):
            self.feed(self.response())
            self.feed(self.enters(5))
        if phase == "stopped":
            self.feed(self.reset(), "stop 13")

    def lay(self, name, count_name, records):
        """Records into a room by damage lines."""
        for k, rec in enumerate(records):
            for j, x in enumerate(numbers(rec)):
                self.line("%s %d %d" % (name, 6 * k + j, x))
        self.line("%s %d" % (count_name, len(records)))

    def holds(self, data):
        if data:
            self.line("hold 0 " + data.hex())
        self.line("held %d" % len(data))


# ---------------------------------------------------------------------------
# Record 1,024
# ---------------------------------------------------------------------------

def in_pieces(data):
    return [data[a:a + PIECE_MOST] for a in range(0, len(data), PIECE_MOST)]


def filled(e, order):
    """A full load with 1,024 records in, its End of Data not sent yet."""
    e.full()
    for piece in in_pieces(e.response() + b"".join(e.enters(i) for i in order)):
        e.feed(piece)


def full_room(e):
    # record 1,024 enters; the table is whole; 1,025 by the caller's hand is 22, 1,024 is not
    e.script(h=32)
    filled(e, range(1, 1025))
    e.feed(e.end(), updates=1)
    e.notify()
    e.line("livecount 1025")
    e.notify("22")
    e.line("livecount 1024")
    e.notify()
    # a change: the next new one is 18, in front of all, between and behind all; a repeated one is 17
    for new in (0, 1025):
        e.change()
        e.feed(e.response() + e.enters(new) + e.end(), "stop 18", taken=28)
        e.reconnect()
    for old in (1, 500, 1024):
        e.change()
        e.feed(e.response() + e.enters(old), "stop 17")
        e.reconnect()
    # the count of the working room over its limit
    e.change()
    e.feed(e.response())
    e.line("workcount 1025")
    e.feed(b"", "refused 22")
    e.line("workcount 1024")
    # after a withdrawal one more enters, and then no other
    e.feed(e.leaves(500) + e.enters(1025) + e.enters(500), "stop 18")
    e.reconnect()
    # the same, finished: records 500 and 0 changed places
    e.change()
    e.feed(e.response() + e.leaves(500) + e.enters(0) + e.end(8), updates=1)
    e.notify()
    e.change()
    e.feed(e.response() + e.enters(0), "stop 17")
    e.reconnect()
    e.change()
    e.feed(e.response() + e.leaves(500), "stop 16")


def full_load_18(e):
    # in a full load, descending: the next new one is 18, and the load is gone
    e.script(h=20)
    filled(e, range(1024, 0, -1))
    e.feed(e.enters(1025), "stop 18")
    e.again("stop 18")
    e.reconnect()
    e.change("21")


def full_load_17(e):
    # in a full load with 1,024 in: a repeated one is 17 and not 18
    e.script(version=0, h=20)
    filled(e, range(1, 1025))
    e.feed(e.enters(1024), "stop 17")
    e.again("stop 17")


# ---------------------------------------------------------------------------
# Stops
# ---------------------------------------------------------------------------

def stops(e):
    """Each stop: the bytes up to the one that completed it are taken; fed
    again, also the empty piece, it is the same; asks are 20 there, notify
    answers; after a reconnect a full load goes through."""
    for version in (1, 0):
        e.version = version
        bad = [
            (b"\x09\x02\0\0\0\0\0\x08", "2 9"),
            (b"\x02\x05\0\0\0\0\0\x08", "2 2"),
            (b"\1\5\0\0\0\0\0\x08", "3 5"),
            (b"\0\x0b\0\0\0\0\0\x08", "3 11"),
            (b"\1\2\0\0\0\0\0\x07", "4 8 7 2"),
            (b"\1\xff\0\0\0\0\0\0", "4 8 0 255"),
            (b"\x09\xff\0\0\0\2\0\x0f", "4 131086 131087 255"),
            (b"\1\2\0\0\0\0\0\x09\0", "4 8 9 2"),
            (b"\0\x09" + bytes(5) + b"\x08", "5"),
            (prefix(1, (4, (1, 0, 0, 0), 25, 24, 1), True), "6 25 24 32"),
            (prefix(0, (4, (1, 0, 0, 0), 32, 33, 1), True), "6 32 33 32"),
            (prefix(1, (6, (1, 2, 3, 4), 0, 129, 1), False), "6 0 129 128"),
            (error_report(1, 9), "7 9"),
            (error_report(0, 65535), "7 65535"),
            (error_report(1, 0, inner_length=1), "4 17 16 10"),
            (error_report(1, 0, inner_length=0xFFFFFFFF), "4 4294967295 16 10"),
            (error_report(1, 0, text_length=1), "4 17 16 10"),
            (error_report(1, 0, text_length=0xFFFFFFFF), "4 4294967295 16 10"),
            (error_report(1, 9, inner_length=0xFFFFFFFF), "7 9"),
            (error_report(1, 0, text=b"\xc0\x80"), "8"),
            (error_report(0, 0, text=b"\xed\xa0\x80"), "8"),
            (error_report(0, 0, text=b"\xf4\x90\x80\x80"), "8"),
            (pdu(version, 10, 0, length=65), "12 65"),
            (pdu(9, 5, 0, length=131086), "12 131086"),
            (pdu(version, 3, 1), "13"),
            (pdu(version, 2, 0), "13"),
            (pdu(version, 1, 1, u32(1)), "13"),
            (e.end(), "13"),
            (e.enters(1), "13"),
            (e.leaves(1), "13"),
            (prefix(version, record6(1), True), "13"),
            (pdu(1 - version, 3, 1), "14"),
            (error_report(version, 8, b"\1\2", b"\xf4\x8f\xbf\xbf", b"\xff"), "19 8"),
        ]
        if version == 1:
            bad.append((pdu(1, 9, 0, bytes(26)), "13"))
        for data, stop in bad:
            e.script(version)
            stop = "stop " + stop
            e.feed(e.told(3) + data + b"\0\0", stop, taken=12 + len(data))
            e.again(stop)
            e.full("20")
            e.change("20")
            e.notify()
            e.reconnect()
            e.load((1,))
            # the same in a load, cut behind its first byte and before its last: the load is gone, the live table stands
            if stop == "stop 13":
                continue
            e.change()
            e.feed(e.response() + e.enters(2) + data[:1])
            e.feed(data[1:-1])
            e.feed(data[-1:] + b"\0", stop, taken=1)
            e.again(stop)
            e.reconnect()
            e.change()


def stops_in_a_load(e):
    """13 and 15 to 17 in both loads."""
    for version in (0, 1):
        for phase in ("loading full", "loading change"):
            e.version = version
            full = phase == "loading full"
            bad = [
                (e.response(), "13"),
                (pdu(version, 1, 1, u32(1)), "13"),
                (pdu(version, 2, 0), "13"),
                (e.reset(), "13"),
                (e.end(session=SESSION + 1), "15"),
                (e.end(session=SESSION ^ 256), "15"),
                (e.leaves(9), "16"),
                (prefix(version, (4, (0x0A000500, 0, 0, 0), 24, 25, 64496), False), "16"),
                (prefix(version, (4, (0x0A000500, 0, 0, 0), 24, 24, 64497), False), "16"),
                (e.leaves(1), "16" if full else None),
                (e.enters(1), None if full else "17"),
                (e.enters(5), "17"),
                (prefix(version, record(5), True, flags=255), "17"),
            ]
            for data, stop in bad:
                e.script(version)
                e.load()
                e.reach(phase)
                if stop is None:
                    e.feed(data)
                    e.feed(e.end(8), updates=1)
                else:
                    e.feed(data + b"\1", "stop " + stop, taken=len(data))
                    e.again("stop " + stop)
                    e.reconnect()
                    e.change()


def lengths(e):
    # each kind one byte too short and one too long, where that is a refusal: 4, in every phase
    for version in (0, 1):
        e.script(version)
        for kind, right in ((0, 12), (1, 12), (2, 8), (3, 8), (4, 20), (6, 32), (7, 24 if version else 12), (8, 8), (9, 34), (10, 16)):
            if kind == 9 and version == 0:
                continue
            wrong = [right - 1] if kind in (9, 10) else [right + 1] if right == 8 else [right - 1, right + 1]
            for length in wrong:
                e.feed(pdu(version, kind, 0, bytes(length - 8)), "stop 4 %d %d %d" % (right, length, kind))
                e.reconnect()
        # the End of Data of the other version's length
        e.feed(pdu(version, 7, 0, bytes(4 if version else 16)), "stop 4 24 12 7" if version else "stop 4 12 24 7")


def as_sent(e):
    # host bits are kept; only the lowest flag bit counts; other bytes are passed over; v1's intervals are as sent, v0's the defaults
    for version in (0, 1):
        e.script(version)
        e.full()
        host = (4, (0xC00002FF, 0, 0, 0), 8, 24, 0xFFFFFFFF)
        host6 = (6, (0x20010DB8, 0xFFFFFFFF, 0x80000000, 1), 0, 128, 0)
        e.feed(e.response() + prefix(version, host, True, flags=254, zero=255, field=65535) + prefix(version, host6, True)
               + end_of_data(version, SESSION, 9, (0, 0xFFFFFFFF, 0x80000000)), updates=1)
        e.change()
        e.feed(e.response() + prefix(version, host, False, flags=254) + end_of_data(version, SESSION, 10, (1, 2, 3)), updates=1)


def router_keys(e):
    # Router Key: passed over in Loading, 13 elsewhere; its version is tested by the read (5)
    e.script()
    e.full()
    key = pdu(1, 9, 256, bytes(27))
    e.feed(e.response() + key + e.enters(1) + key + e.end(), updates=1)
    e.feed(key, "stop 13")


def refused_change(e):
    # a change refused half-way leaves the live table; after a reconnect the change again, whole
    for version in (0, 1):
        e.script(version)
        e.load((1, 2))
        e.change()
        e.feed(e.response() + e.enters(3) + e.leaves(9) + e.end(8), "stop 16", taken=48)
        e.notify()
        e.reconnect()
        e.change()
        e.feed(e.response() + e.enters(3) + e.leaves(1) + e.end(8), updates=1)
        e.notify()
        # another one, cut off by a reconnect in its middle, with bytes held
        e.change()
        e.feed(e.response() + e.enters(4) + e.leaves(2)[:19])
        e.reconnect()
        e.change()
        e.feed(e.response() + e.leaves(2) + e.end(9), updates=1)
        # a full load refused half-way leaves the live table too
        e.full()
        e.feed(e.response(9) + e.enters(4) + e.enters(4), "stop 17")
        e.reconnect()
        e.change()
        e.feed(e.response() + e.leaves(3) + e.end(10), updates=1)
        # an empty load is a table of no record
        e.load(())
        e.change()


def sessions(e):
    for version in (0, 1):
        # an End of Data of another session in the first load: 15
        e.script(version)
        e.full()
        e.feed(e.response(5) + e.enters(4) + e.end(9, 6), "stop 15")
        # a Cache Response of another session to a change ask: 15
        e.script(version)
        e.load()
        for other in (SESSION + 1, SESSION ^ 256, 0):
            e.change()
            e.feed(e.response(other) + e.end(8, other), "stop 15", taken=8)
            e.again("stop 15")
            e.reconnect()
        # to a full ask any session will do, and the table's becomes it
        e.load((3,), session=65535)
        e.change()
        e.feed(e.response(SESSION), "stop 15")
        e.reconnect()
        # an End of Data of another session with a table: 15, in both loads; the live table stands
        e.full()
        e.feed(e.response(5) + e.enters(4) + e.end(9, 65535), "stop 15")
        e.reconnect()
        e.change()
        e.feed(e.response(65535) + e.end(9, 5), "stop 15")
        e.reconnect()
        # the load's session decides, also where the caller changed the table's
        e.change()
        e.feed(e.response(65535))
        e.line("table 6 1 2 3 4")
        e.feed(e.end(9, 6), "stop 15")
        e.reconnect()
        e.change()


def cache_resets(e):
    for version in (0, 1):
        # to a change ask: MustReset; then a change ask is 20, a full ask is heard
        e.script(version)
        e.load()
        e.change()
        e.feed(e.reset())
        e.change("20")
        e.change("20", n=0)
        e.notify()
        e.feed(e.told(9))
        e.notify("newer")
        e.full()
        e.feed(e.response(9) + e.enters(7) + e.end(1, 9), updates=1)
        e.notify("othersession")
        # reconnect leads from MustReset to Idle
        e.change()
        e.feed(e.reset())
        e.reconnect()
        e.change()
        # in every other phase: 13
        for phase in e.PHASES:
            if phase == "askedchange":
                continue
            e.script(version)
            e.reach(phase)
            stopped = phase == "stopped"
            e.feed(e.reset() + b"\1", "stop 13", taken=0 if stopped else 8)
            e.again("stop 13")


def error_reports(e):
    # in each phase, of each version, to receivers of each; in Stopped nothing is read
    for version in (0, 1):
        for code, phase in enumerate(e.PHASES):
            for theirs in (0, 1):
                e.script(version)
                e.reach(phase)
                stopped = phase == "stopped"
                stop = "stop 13" if stopped else "stop 19 %d" % code
                data = error_report(theirs, code, pdu(version, 5, 0), b"no")
                e.feed(data + data, stop, taken=0 if stopped else len(data))
                e.again(stop)


def other_version(e):
    # a PDU of the other version, in turn or out of it: 14; a Serial Notify of it is not noted
    for version in (0, 1):
        other = 1 - version
        for phase in e.PHASES:
            kinds = [pdu(other, 0, SESSION, u32(9)), pdu(other, 2, 0), pdu(other, 3, SESSION), pdu(other, 8, 0),
                     prefix(other, record(5), True), prefix(other, record6(5), False),
                     end_of_data(other, SESSION, 9), pdu(other, 1, SESSION, u32(9))]
            if other == 1:
                kinds.append(pdu(1, 9, 0, bytes(26)))
            stopped = phase == "stopped"
            if stopped:
                kinds = kinds[:1]
            e.script(version)
            for data in kinds:
                e.reach(phase)
                e.feed(data, "stop 13" if stopped else "stop 14", taken=0 if stopped else None)
                e.notify()
                e.reconnect()


# ---------------------------------------------------------------------------
# Asks
# ---------------------------------------------------------------------------

def asks(e):
    for version in (0, 1):
        # outputs of 0, 7, 8, 11 and 12 bytes, and all 32; a change ask without a table is 21, also with no output
        e.script(version)
        e.change("21", n=0)
        e.change("21", n=12)
        for n in (0, 7):
            e.full("9 8", n)
        e.full("ok 8", 8)
        e.full("20", 0)
        e.change("20", 0)
        e.reconnect()
        for n in (11, 12, 32):
            e.full("ok 8", n)
            e.reconnect()
        e.load()
        for n in (0, 7, 8, 11):
            e.change("9 12", n)
        e.change("ok 12", 12)
        e.full("20", 32)
        e.reconnect()
        e.change("ok 12", 32)
        # 20 before 21: a change ask in MustReset without a table
        e.script(version)
        e.line("phase mustreset")
        e.change("20")
        e.full()
        # every phase: which ask is heard
        for phase in e.PHASES:
            e.script(version)
            e.reach(phase)
            idle = phase == "idle"
            e.change("21" if idle else "20")
            e.full("ok 8" if phase in ("idle", "mustreset") else "20")
        # the session and the serial in a Serial Query, at their ends
        for session, serial in ((0, 0), (65535, 0xFFFFFFFF), (258, 0x01020304)):
            e.script(version)
            e.load((), serial, session)
            e.change("ok 12", 32)
        # bytes that are held stand over an ask
        e.script(version)
        e.feed(e.response()[:5])
        e.full()
        e.feed(e.response()[5:] + e.end(), updates=1)


# ---------------------------------------------------------------------------
# 22
# ---------------------------------------------------------------------------

def refused(e, undo, fine="none"):
    """Every call is 22 and changes nothing; the damage undone, none is."""
    e.full("22", 8)
    e.full("22", 0)
    e.change("22", 12)
    e.feed(b"", "refused 22")
    e.feed(e.response() + e.end(), "refused 22", taken=0)
    e.call("reconnect", "reconnect 22")
    e.notify("22")
    for text in undo:
        e.line(text)
    e.notify(fine)


def sizes_22(e):
    # a room of another size, H of 7; also a start, which then leaves no session and memory as it was
    normal = "sizes %d %d 8" % (ROOM, ROOM)
    wrong = [(ROOM - 1, ROOM, 8), (ROOM, ROOM - 1, 8), (ROOM + 1, ROOM, 8), (ROOM, ROOM + 1, 8), (ROOM - 6, ROOM, 8),
             (ROOM, ROOM - 6, 8), (ROOM + 6, ROOM, 8), (ROOM, ROOM + 6, 8), (ROOM + 6, ROOM + 6, 8), (0, ROOM, 8),
             (ROOM, 0, 8), (ROOM, ROOM, 7), (ROOM, ROOM, 0), (0, 0, 0)]
    for live, work, h in wrong:
        e.script(h=8)
        e.sizes(h, live, work)
        refused(e, [normal])
        e.sizes(h, live, work)
        e.call("start 1", "start 22")
        e.line(normal)
        e.call("start 0", "start ok")
        e.notify()
    # H of 8 is enough for all calls
    e.script(version=0, h=8)
    e.full()
    e.feed(e.response())
    e.notify()
    e.reconnect()
    e.change("21")
    # a call after a start that was refused
    e.sizes(7)
    e.call("start 1", "start 22")
    e.call("notify", "notify nosession")


def counts_22(e):
    # each count over its limit (1,025 in a full room: full_room); H may shrink while what is held still waits
    e.script()
    e.load()
    for name, right, wrong in (("livecount", 2, (1024, 1025, 4294967295)), ("workcount", 0, (1024, 1025, 4294967295)),
                               ("held", 0, (65, 4294967295))):
        for n in wrong:
            e.line("%s %d" % (name, n))
            refused(e, ["%s %d" % (name, right)])
    e.feed(pdu(1, 4, 0, bytes(11), length=20)[:19])
    for h in (20, 64):
        e.sizes(h)
        e.notify()
    for h in (19, 18, 8):
        e.sizes(h)
        refused(e, ["sizes %d %d 64" % (ROOM, ROOM)])
    e.reconnect()
    # a count that is too small leaves numbers behind it
    e.line("livecount 1")
    refused(e, ["livecount 2"])
    e.change()
    e.feed(e.response() + e.enters(3))
    e.line("workcount 2")
    refused(e, ["workcount 3"])


ROOM_FAULTS = [
    # two records, sorted and in rule, with a fault each: (number, its value)
    ("max 33", 0, 4 * 65536 + 24 * 256 + 33),
    ("length over max", 0, 4 * 65536 + 25 * 256 + 24),
    ("family 5", 0, 5 * 65536 + 24 * 256 + 24),
    ("family 0", 0, 24 * 256 + 24),
    ("bits above the family", 0, 0x104 * 65536 + 24 * 256 + 24),
    ("an IPv4 record's second number", 2, 1),
    ("an IPv4 record's third number", 3, 1),
    ("an IPv4 record's fourth number", 4, 0x80000000),
    ("twice the same", 1, 0x0A000200),
    ("out of order by address", 1, 0x0A000201),
    ("a number behind the count", 12, 1),
    ("the room's last number", ROOM - 1, 0x80000000),
]


def rooms_22(e):
    # a room out of rule or out of order, or not 0 behind its count: live in Idle, working in Loading
    for name in ("live", "work"):
        e.script()
        e.load((1, 2))
        fine = "none"
        if name == "work":
            e.change()
            e.feed(e.response())
        right = numbers(record(1)) + numbers(record(2))
        for _, at, x in ROOM_FAULTS:
            e.line("%s %d %d" % (name, at, x))
            refused(e, ["%s %d %d" % (name, at, right[at] if at < 12 else 0)], fine)
        # behind the room that is lent all is the caller's
        e.line("%s %d 1" % (name, ROOM))
        e.notify()
        # out of order by each field in turn, IPv4 behind IPv6; then just in order
        for first, second in ((record6(1), record(1)), ((4, (9, 0, 0, 0), 9, 24, 1), (4, (9, 0, 0, 0), 8, 24, 1)),
                              ((4, (9, 0, 0, 0), 8, 25, 1), (4, (9, 0, 0, 0), 8, 24, 1)),
                              ((4, (9, 0, 0, 0), 8, 24, 2), (4, (9, 0, 0, 0), 8, 24, 1)),
                              ((4, (9, 0, 0, 0), 9, 24, 1), (4, (9, 0, 0, 0), 8, 25, 2)),
                              ((4, (9, 0, 0, 0), 9, 25, 1), (4, (9, 0, 0, 0), 9, 24, 2)),
                              ((4, (10, 0, 0, 0), 8, 24, 1), (4, (9, 0, 0, 0), 24, 24, 1)),
                              ((6, (1, 0, 0, 2), 1, 2, 1), (6, (1, 0, 0, 1), 1, 128, 9)),
                              ((6, (1, 0, 2, 0), 1, 2, 1), (6, (1, 0, 1, 3), 1, 128, 9)),
                              ((6, (1, 2, 0, 0), 1, 2, 1), (6, (1, 1, 3, 0), 1, 128, 9)),
                              ((6, (0x80000000, 0, 0, 0), 1, 2, 1), (6, (0x7FFFFFFF, 9, 0, 0), 1, 128, 9))):
            e.lay(name, name + "count", (first, second))
            e.notify("22")
            e.lay(name, name + "count", (second, first))
            e.notify()
        # IPv6: 128 is in rule, 129 is not
        e.line("%s 0 %d" % (name, 6 * 65536 + 128 * 256 + 128))
        e.line("%s 6 %d" % (name, 6 * 65536 + 128 * 256 + 129))
        e.notify("22")
    # the working room outside Loading: numbers in it, with a count of 0
    e.script()
    e.line("work 3 1")
    refused(e, ["work 3 0"])


def tables_22(e):
    # a live record without a table
    e.script()
    e.load((1,))
    e.line("notable")
    refused(e, ["table %d %d 1 2 3" % (SESSION, SERIAL)])
    # a table without a live record is none
    e.script()
    e.line("table 1 2 3 4 5")
    e.notify()
    e.change()
    # a change under way without a table; a full load, and MustReset, need none
    for phase in ("askedchange", "loading change 5"):
        e.script()
        e.line("phase " + phase)
        refused(e, ["table 5 1 1 1 1"])
    for phase in ("idle", "mustreset", "askedfull", "loading full 5", "stopped 13"):
        e.script()
        e.line("phase " + phase)
        e.notify()


def working_22(e):
    # a record in the working room outside Loading
    for phase in ("idle", "mustreset", "askedfull", "askedchange", "stopped 19 3"):
        e.script()
        e.line("table 5 1 1 1 1")
        e.line("phase " + phase)
        e.lay("work", "workcount", [record(1)])
        refused(e, ["workcount 0"] + ["work %d 0" % i for i in range(6)])
    e.script()
    e.line("phase loading full 5")
    e.lay("work", "workcount", [record(1)])
    e.notify()
    e.feed(e.end(8, 5), updates=1)


def held_22(e):
    # bytes held in Stopped, one or more
    for data in (b"\1", b"\1\2\0\0\0\0\0"):
        e.script()
        e.reach("stopped")
        e.holds(data)
        refused(e, ["held 0"])
    # held bytes that make a PDU, or a refusal: of the range, of H, or of the read
    e.script()
    for data in (pdu(1, 2, 0), pdu(0, 2, 0), pdu(9, 2, 0), pdu(1, 5, 0), pdu(1, 2, 0, length=0), pdu(1, 2, 0, length=7),
                 pdu(1, 10, 0, length=131087), pdu(1, 10, 0, length=0xFFFFFFFF), pdu(1, 10, 0, length=65),
                 pdu(1, 4, 0, bytes(12)), prefix(1, record6(1), True), pdu(1, 2, 0) + b"\1", pdu(1, 10, 0, bytes(56)),
                 pdu(1, 3, 0, b"\0", length=9)):
        e.holds(data)
        refused(e, ["held 0"])
    # one byte less waits, and so do 7 bytes of anything
    for data in (b"\x09\xff\xff\xff\xff\xff\xff", pdu(1, 10, 0, length=64), pdu(9, 5, 0, length=9),
                 prefix(1, record6(1), True)[:31], pdu(1, 10, 0, bytes(55), length=64)):
        e.holds(data)
        e.notify()
        e.feed(b"")
        e.change("21")
    # and one byte more makes it whole: an Error Report
    e.feed(b"\0\0", "stop 19 0", taken=1)


# ---------------------------------------------------------------------------
# Notify
# ---------------------------------------------------------------------------

def notifies(e):
    # none: without a note or a table
    e.script()
    e.notify()
    e.feed(e.told(1))
    e.notify()
    e.load()
    e.notify("older")
    e.reconnect()
    e.notify()
    # othersession comes before the serials
    e.feed(e.told(SERIAL, SESSION + 1))
    e.notify("othersession")
    # the last one wins
    e.feed(e.told(1) + e.told(SERIAL))
    e.notify("same")
    # how far ahead decides, with the wrap
    for version in (0, 1):
        for base in (0, 7, 2**31 - 1, 2**31, 2**32 - 1):
            e.script(version)
            e.load((), base)
            for ahead, said in ((0, "same"), (1, "newer"), (2**31 - 1, "newer"), (2**31, "undefined"), (2**31 + 1, "older"),
                                (2**32 - 1, "older")):
                e.feed(e.told(base + ahead))
                e.notify(said)
    # noted in every phase but Stopped, and kept by all but a reconnect
    for phase in Edges.PHASES:
        e.script()
        e.load()
        e.feed(e.told(3))
        e.reach(phase)
        stopped = phase == "stopped"
        e.feed(e.told(9), "stop 13" if stopped else "none", taken=0 if stopped else None)
        e.notify("older" if stopped else "newer")
        e.reconnect()
        e.notify()


# ---------------------------------------------------------------------------
# H
# ---------------------------------------------------------------------------

def holds(e):
    """H of 8, 12, 20, 24 and 32: a PDU of that length is read, whole in a
    piece or byte by byte; one that names a byte more is 12 at its byte 8."""
    for h, version in ((8, 0), (8, 1), (12, 0), (12, 1), (20, 0), (20, 1), (24, 1), (32, 0), (32, 1)):
        e.version = version
        right = {8: e.response(), 12: e.told(9) if version == 1 else e.end(), 20: e.enters(1), 24: e.end(),
                 32: prefix(version, record6(1), True)}[h]
        for one_by_one in (False, True):
            e.script(version, h)
            e.full()
            if h != 8:
                e.feed(e.response())
            updates = 1 if right[1] == 7 else 0
            if one_by_one:
                for i in range(h - 1):
                    e.feed(right[i:i + 1])
                e.feed(right[-1:], updates=updates)
            else:
                e.feed(right, updates=updates)
            wrong = pdu(version, 10, 0, bytes(h - 7))
            if one_by_one:
                e.feed(wrong[:7])
                e.feed(wrong[7:], "stop 12 %d" % (h + 1), taken=1)
            else:
                e.feed(wrong, "stop 12 %d" % (h + 1), taken=8)
            e.again("stop 12 %d" % (h + 1))
            e.reconnect()
            e.full()
    # an H under a PDU's length: 12, at whatever the PDU is
    for h, data in ((8, pdu(1, 0, 1, u32(1))), (12, prefix(1, record(1), True)), (20, end_of_data(1, 1, 1)),
                    (24, prefix(1, record6(1), True)), (11, pdu(9, 255, 0, bytes(4)))):
        e.script(1, h)
        e.feed(data, "stop 12 %d" % len(data), taken=8)
    # H over 131,086: the range is tested first
    for h in (131085, 131086, 131087, 131200):
        e.script(1, h)
        e.feed(pdu(1, 10, 0, length=131087), "stop 4 131086 131087 10")
        e.reconnect()
        e.feed(pdu(1, 10, 0, length=131086), "stop 12 131086" if h < 131086 else "none")


EDGES = (full_room, full_load_18, full_load_17, stops, stops_in_a_load, lengths, as_sent, router_keys, refused_change, sessions, cache_resets,
         error_reports, other_version, asks, sizes_22, counts_22, rooms_22, tables_22, working_22, held_22, notifies, holds)


def main(argv):
    if len(argv) != 3:
        sys.exit(__doc__)
    e = Edges()
    for edge in EDGES:
        edge(e)
    with open(argv[1], "w") as out:
        out.write("\n".join(e.lines) + "\n")
    with open(argv[2], "w") as out:
        out.write("\n".join(e.runner.out) + "\n")


if __name__ == "__main__":
    main(sys.argv)
