"""The enumerated cases of tests/runs: runs asked for from C, with the memory that is lent, and listings to be read. The answers are the model's (tests/run_model.py).

Each case has its reason in document 02 or in the open points (here "OP 5.x"). Its name begins with its group.
"""

import collections
import itertools
import os

import diff_cases
import diff_stored
import run_model as model
from diff_cases import HIGHEST, LOWEST, OTHER, THREE, USUAL, WIDEST, longest, many, v4, v6
from run_model import ROOM, Room

# A run: version, end numbers, one room (a full run) or two (a change run), and the output's length.
Run = collections.namedtuple("Run", "name version end rooms out")
# A listing to be read: the text, what lies behind it in memory, the room's and the head's lengths, and what stands in the room (0 zeros, 1 a pattern).
Reading = collections.namedtuple("Reading", "name text behind room head fill")

WORDS = (0x20010DB8, 0x00C0FFEE, 0, 0xABCDEF12)
SMALL = {
    "empty": [], "lowest": [LOWEST], "highest": [HIGHEST], "IPv4": [v4(0xC0000200, 24, 24, 64496)], "IPv6": [v6(WORDS, 32, 48, 4200000000)], "three": THREE, "other": OTHER,
    "host bits": [v4(0x0A000000, 8, 8, 1), v4(0x0A000001, 8, 8, 1), v4(0xFFFFFFFF, 0, 0, 1), v6((0x20010DB8, 1, 2, 3), 32, 32, 1), v6([0xFFFFFFFF] * 4, 0, 128, 1)],
    "lengths": [v4(0, 0, 0, 1), v4(0, 0, 32, 1), v4(0, 32, 32, 1), v6([0] * 4, 0, 0, 1), v6([0] * 4, 0, 128, 1), v6([0] * 4, 128, 128, 1)],
    "neighbours": [v4(1, 8, 24, 1), v4(1, 8, 24, 2), v4(1, 8, 25, 0), v4(1, 9, 9, 0), v4(2, 8, 24, 1), v6((1, 0, 0, 0), 8, 24, 1), v6((1, 0, 0, 1), 8, 24, 1), v6((1, 0, 1, 0), 8, 24, 1)],
}
FULL = {
    "1024 IPv4": many(1024), "1023 IPv4": many(1023), "1024 IPv4, the last changed": many(1023) + [v4(0x0A0003FF, 8, 8, 2)], "1024 IPv6": longest(1024), "1024 other IPv6": longest(1024, 5000),
    "1024 of both": many(512) + longest(512), "every other of 1024": many(1024)[::2],
}
TABLES = {**SMALL, **FULL}


def need(version, rooms):
    """The length of a run of good rooms, by OP 5.5."""
    tables = [{lent.numbers[6 * i:6 * i + 6] for i in range(lent.count)} for lent in rooms]
    sent = tables[0] if len(tables) == 1 else tables[0] ^ tables[1]
    return 8 + sum(20 if six[0] >> 16 == 4 else 32 for six in sent) + (12 if version == 0 else 24)


def run(name, version, end, tables, more=0):
    """A run of good tables into an output of its length and so many bytes more."""
    rooms = tuple(map(model.room, tables))
    return Run(name, version, tuple(end), rooms, need(version, rooms) + more)


# ---------------------------------------------------------------------------
# Answered, or refused by 9
# ---------------------------------------------------------------------------

def fulls():
    """OP 5.1: every table whole, in an exact output."""
    for version, (name, table) in itertools.product((0, 1), TABLES.items()):
        yield run("full: version %d, %s" % (version, name), version, USUAL, [table])


def changes():
    """OP 5.1, 5.6: every small table to every other and to itself, and some full ones."""
    pairs = list(itertools.product(SMALL, repeat=2)) + [(one, one) for one in FULL]
    pairs += [("empty", "1024 IPv6"), ("1024 IPv6", "empty"), ("1024 IPv4", "1024 IPv6"), ("1024 IPv6", "1024 IPv4"), ("1024 IPv6", "1024 other IPv6"), ("1024 IPv4", "1023 IPv4"),
              ("1023 IPv4", "1024 IPv4"), ("1024 IPv4", "1024 IPv4, the last changed"), ("1024 of both", "1024 IPv4"), ("1024 IPv4", "every other of 1024"), ("every other of 1024", "1024 of both")]
    for i, (one, two) in enumerate(pairs):
        # small tables to themselves in both versions, all others in one
        for version in (0, 1) if one == two and one in SMALL else ((i + i // len(SMALL)) % 2,):
            yield run("change: version %d, %s to %s" % (version, one, two), version, USUAL, [TABLES[one], TABLES[two]])


KINDS = {"full, empty": ["empty"], "full, three": ["three"], "full, 1024 IPv6": ["1024 IPv6"], "change, none": ["three", "three"], "change, three to other": ["three", "other"],
         "change, all to all": ["1024 IPv6", "1024 other IPv6"]}


def outs():
    """OP 5.5: outputs on either side of what is needed."""
    for version, (kind, names) in itertools.product((0, 1), KINDS.items()):
        exact = run("", version, USUAL, [TABLES[name] for name in names])
        for length in sorted({0, 8, exact.out // 2, exact.out - 12, exact.out - 1, exact.out, exact.out + 1, exact.out + 1000}):
            yield exact._replace(name="out: version %d, %s, %d bytes where %d are needed" % (version, kind, length, exact.out), out=length)


def ends():
    """OP 5.2, 5.3: any numbers that fit, the three intervals apart."""
    tried = [USUAL, WIDEST, (0, 0, 0, 0, 0), (1, 2, 3, 4, 5), (256, 65536, 16777216, 257, 65537), (0x1234, 0x12345678, 0x9ABCDEF0, 0x0FEDCBA9, 0x87654321)]
    tried += [USUAL._replace(**{name: n}) for name in ("serial", "refresh", "retry", "expire") for n in (0, 1, 255, 256, 65535, 65536, 2 ** 31 - 1, 2 ** 31, 2 ** 32 - 1)]
    tried += [USUAL._replace(session=n) for n in (0, 1, 255, 256, 32767, 32768, 65534, 65535)]
    for version, end in itertools.product((0, 1), tried):
        kind = "full, three" if sum(end) % 2 else "change, three to other"
        yield run("end: version %d, %s, %s" % (version, "/".join(map(str, end)), kind), version, end, [TABLES[name] for name in KINDS[kind]], more=5)


# ---------------------------------------------------------------------------
# Refused by 22
# ---------------------------------------------------------------------------

def put(lent, **edits):
    """A room with some numbers changed; they are named n0, n1 and so on."""
    numbers = list(lent.numbers)
    for place, number in edits.items():
        numbers[int(place[1:])] = number
    return lent._replace(numbers=tuple(numbers))


def sixes(*records):
    """A room of records in this order."""
    return model.room(list(records))


def resized(lent, length):
    return lent._replace(numbers=(lent.numbers + (0,) * length)[:length])


def broken_rooms():
    """OP 5.4: rooms of THREE, each broken in one way."""
    three, full = model.room(THREE), model.room(many(1024))
    for length in (0, 1, 6, 18, 6138, 6143, 6145, 6150, 12288):
        yield "%d numbers" % length, resized(three, length)
        yield "%d numbers and a count of 0" % length, Room((0,) * length, 0)
    for count in (0, 2, 4, 1024, 1025, 256 + 3, 65536 + 3, 2 ** 31 + 3, 2 ** 32 + 3, 2 ** 63, 2 ** 64 - 1):
        yield "3 records counted as %d" % count, three._replace(count=count)
    for count in (1023, 1025, 1026, 2048, 2 ** 32 + 1024):
        yield "1024 records counted as %d" % count, full._replace(count=count)
    yield "1025 records", Room(full.numbers + (4 * 65536 + 8 * 256 + 8, 0x0B000000, 0, 0, 0, 1), 1025)
    for family in (0, 1, 3, 5, 7, 8, 256, 260, 65535):
        yield "family %d" % family, put(three, n0=family * 65536 + 8 * 256 + 24)
        yield "family %d, the last" % family, put(three, n12=family * 65536 + 32 * 256 + 48)
    for length, most in ((9, 8), (32, 31), (0, 33), (33, 33), (32, 33), (8, 128), (128, 128), (255, 255), (25, 24), (255, 24), (24, 255)):
        yield "IPv4 lengths %d and %d" % (length, most), put(three, n0=4 * 65536 + length * 256 + most)
    for length, most in ((49, 48), (128, 127), (0, 129), (129, 129), (128, 129), (255, 255), (255, 128), (0, 255)):
        yield "IPv6 lengths %d and %d" % (length, most), put(three, n12=6 * 65536 + length * 256 + most)
    for place, number in itertools.product((2, 3, 4, 8, 9, 10), (1, 2 ** 31)):
        yield "IPv4 spare %d is %d" % (place, number), put(three, **{"n%d" % place: number})
    for place in (18, 19, 23, 24, 3000, 6137, 6138, 6143):
        yield "number %d behind the last is 1" % place, put(three, **{"n%d" % place: 1})
    yield "number 6143 behind no record is 1", put(model.room([]), n6143=1)
    yield "a record behind the last", put(three, n18=6 * 65536, n19=0xFFFFFFFF)
    yield from broken_orders()
    yield "the last of 1024 is the one before", put(full, n6139=0x0A0003FE)
    yield "the last of 1024 is no record", put(full, n6138=0)


def broken_orders():
    """Records not in strictly ascending order, by each field and in each place."""
    one = {4: v4(5, 8, 24, 5), 6: v6((5, 5, 5, 5), 8, 24, 5)}
    for family, record in one.items():
        yield "IPv%d twice" % family, sixes(record, record)
        downs = [record._replace(length=7), record._replace(max=23), record._replace(asn=4)]
        for place in range(1 if family == 4 else 4):
            for number in (4, 0):
                downs.append(record._replace(address=record.address[:place] + (number,) + record.address[place + 1:]))
        # what is higher behind the field that is lower does not count
        downs += [record._replace(length=7, max=32, asn=9), record._replace(max=23, asn=9), record._replace(address=(4,) + record.address[1:], length=24, asn=9)]
        for down in downs:
            yield "IPv%d, %s behind %s" % (family, tuple(down)[1:], tuple(record)[1:]), sixes(record, down)
        for high, low in ((2 ** 31, 2 ** 31 - 1), (2 ** 32 - 1, 0), (256, 255)):
            yield "IPv%d, address %d behind %d" % (family, low, high), sixes(record._replace(address=(high,) + record.address[1:]), record._replace(address=(low,) + record.address[1:]))
            yield "IPv%d, AS %d behind %d" % (family, low, high), sixes(record._replace(asn=high), record._replace(asn=low))
    yield "IPv4 behind IPv6", sixes(one[6], one[4])
    yield "IPv4 behind a lower IPv6", sixes(v6((0, 0, 0, 0), 0, 0, 0), one[4])
    yield "the third below the second", sixes(THREE[0], THREE[2], THREE[1])
    yield "the second twice", sixes(THREE[0], THREE[1], THREE[1], THREE[2])


def refused():
    """OP 5.4, 5.5: each reason alone, and 22 before 9."""
    three, other = model.room(THREE), model.room(OTHER)
    reasons = []
    for version, rooms in itertools.product((2, 3, 4, 127, 128, 254, 255), ((three,), (three, other))):
        reasons.append(("version %d" % version, version, USUAL, rooms))
    bad_ends = [tuple(USUAL)[:length] for length in range(5)] + [tuple(USUAL) + (0,), tuple(USUAL) * 2]
    bad_ends += [USUAL._replace(session=n) for n in (65536, 65536 + 4660, 2 ** 32, 2 ** 32 + 4660, 2 ** 64 - 1)]
    bad_ends += [USUAL._replace(**{name: n}) for name in ("serial", "refresh", "retry", "expire") for n in (2 ** 32, 2 ** 32 + 7, 2 ** 63, 2 ** 64 - 1)]
    for i, end in enumerate(bad_ends):
        # in version 0 intervals are not sent, and must fit all the same
        for version, rooms in itertools.product((0, 1) if len(end) == 5 else (i % 2,), ((three,), (three, other))):
            reasons.append(("version %d, end %s" % (version, "/".join(map(str, end)) or "of no numbers"), version, end, rooms))
    for i, (what, lent) in enumerate(broken_rooms()):
        reasons.append((what, i % 2, USUAL, (lent,)))
        reasons.append(("first room, " + what, (i + 1) % 2, USUAL, (lent, three)))
        reasons.append(("second room, " + what, i % 2, USUAL, (three, lent)))
    bad = three._replace(count=4)
    reasons.append(("both rooms", 1, USUAL, (bad, bad)))
    reasons.append(("a room that is the same and broken", 1, USUAL, (put(three, n6143=1), put(three, n6143=1))))
    for i, (what, version, end, rooms) in enumerate(reasons):
        # an output that is long enough, or too short for any run
        out = 0 if (i + i // 3) % 3 == 0 else 40_000
        yield Run("refused: %s, %s%s" % ("full" if len(rooms) == 1 else "change", what, "" if out else ", no output"), version, tuple(end), rooms, out)


def runs():
    """Every case once; of those that come to the same, the first."""
    seen = set()
    for this in itertools.chain(fulls(), changes(), outs(), ends(), refused()):
        if this[1:] not in seen:
            seen.add(this[1:])
            yield this


# ---------------------------------------------------------------------------
# Listings to be read
# ---------------------------------------------------------------------------

def readings(every):
    """hingemoss_read_listing on request Four's texts, all of them or the stored ones; and rooms and heads of other lengths."""
    if every:
        texts = ((name, text, behind) for case in diff_cases.enumerated(diff_cases.model.FOUR) for name, text, behind in
                 ((case.name + ", the old text", case.old, case.old_behind), (case.name + ", the new text", case.new, case.new_behind)))
    else:
        folder = os.path.join(os.path.dirname(os.path.dirname(os.path.realpath(__file__))), "diffs.d")
        texts = ((case.name, text, behind) for case, _ in diff_stored.read(folder, lambda case: (b"", b"", b"")) for text, behind in ((case.old, case.old_behind), (case.new, case.new_behind)))
    seen = set()
    for name, text, behind in texts:
        if (text, behind) not in seen:
            seen.add((text, behind))
            yield Reading("text: " + name, text, behind, ROOM, 8, len(seen) % 8 and 1)
    base = diff_cases.bases(diff_cases.model.FOUR)
    wrong = [(n, 8) for n in (0, 1, 6, 6138, 6143, 6145, 12288)] + [(ROOM, n) for n in (0, 1, 6, 7, 9, 16)] + [(0, 0), (6143, 9)]
    for (what, text), (room, head), fill in itertools.product((*base.items(), ("empty text", b""), ("cut", base["three"][:-1])), [(ROOM, 8)] + wrong, (0, 1)):
        yield Reading("lent: %s, a room of %d and a head of %d, %s" % (what, room, head, diff_cases.FILLS[fill]), text, diff_cases.BEHIND, room, head, fill)
