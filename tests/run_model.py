#!/usr/bin/env python3
"""A reference model of request Five (document 02): what a cache sends, in full and as a change, and what a receiver makes of it.

    python3 run_model.py VERSION LISTING [LISTING]     writes the run of a listing's table, or from the first one's table to the second one's

Written from the pictures of RFC 6810 and RFC 8210, section 5, documents 01 and 02 and the decided open points (here "OP 5.x"), by someone who had not seen the code that
answers. Tables and differences are request Four's model (diff_model.py); the receiver is tests/model's. tests/runs compares all this with the program.
"""

import collections
import os
import struct
import sys

HERE = os.path.dirname(os.path.realpath(__file__))
sys.path[:0] = [HERE, os.path.join(HERE, "model")]
sys.dont_write_bytecode = True

import diff_model                     # noqa: E402
import receiver_model as receiver     # noqa: E402
from diff_model import Record, Table  # noqa: E402

LIMIT, ROOM = 1024, 6144
MOST_16, MOST_32 = 2 ** 16 - 1, 2 ** 32 - 1

# ---------------------------------------------------------------------------
# PDUs, each from the top left of its picture on
# ---------------------------------------------------------------------------

SERIAL_NOTIFY, CACHE_RESPONSE, IPV4_PREFIX, IPV6_PREFIX, END_OF_DATA, CACHE_RESET = 0, 3, 4, 6, 7, 8
WITHDRAW, ANNOUNCE = 0, 1


def header(version, kind, field, length):
    return struct.pack(">BBHI", version, kind, field, length)


def cache_response(version, session):
    return header(version, CACHE_RESPONSE, session, 8)


def prefix(version, flags, record):
    """OP 5.1: the fields marked zero are zero, and host bits are sent as they stand."""
    lengths = struct.pack(">BBBB", flags, record.length, record.max, 0)
    if record.family == 4:
        return header(version, IPV4_PREFIX, 0, 20) + lengths + struct.pack(">II", record.address[0], record.asn)
    return header(version, IPV6_PREFIX, 0, 32) + lengths + struct.pack(">IIIII", *record.address, record.asn)


def end_of_data(version, end):
    """OP 5.2: RFC 6810's has no intervals; RFC 8210's has them as they are."""
    if version == 0:
        return header(version, END_OF_DATA, end.session, 12) + struct.pack(">I", end.serial)
    return header(version, END_OF_DATA, end.session, 24) + struct.pack(">IIII", end.serial, end.refresh, end.retry, end.expire)


def serial_notify(version, session, serial):
    return header(version, SERIAL_NOTIFY, session, 12) + struct.pack(">I", serial)


def cache_reset(version):
    return header(version, CACHE_RESET, 0, 8)


# ---------------------------------------------------------------------------
# Runs
# ---------------------------------------------------------------------------

def full_run(version, end, table):
    """OP 5.1: every record in table order."""
    prefixes = [prefix(version, ANNOUNCE, record) for record in table]
    return cache_response(version, end.session) + b"".join(prefixes) + end_of_data(version, end)


def change_run(version, end, first, second):
    """OP 5.1: request Four's differences, withdrawals first."""
    flags = {"withdraw": WITHDRAW, "announce": ANNOUNCE}
    prefixes = [prefix(version, flags[kind], record) for kind, record in diff_model.changes(first, second)]
    return cache_response(version, end.session) + b"".join(prefixes) + end_of_data(version, end)


# ---------------------------------------------------------------------------
# The calls from C
# ---------------------------------------------------------------------------

# A lent room's numbers, and the count that is lent with it.
Room = collections.namedtuple("Room", "numbers count")
# A call's answer, and then the output.
Answer = collections.namedtuple("Answer", "number written out")


def room(table):
    """Document 01's room: six numbers for each record, then zeros."""
    numbers = []
    for record in table:
        numbers += [record.family * 65536 + record.length * 256 + record.max, *record.address, record.asn]
    return Room(tuple(numbers + [0] * (ROOM - len(numbers))), len(table))


def record_in(six):
    """The record that six numbers are; None where they are none."""
    kind, *address, asn = six
    family, length, longest = kind // 65536, kind // 256 % 256, kind % 256
    if family not in (4, 6):
        return None
    if not length <= longest <= diff_model.LONGEST[family]:
        return None
    if family == 4 and any(address[1:]):
        return None
    return Record(family, tuple(address), length, longest, asn)


def table_in(lent):
    """The table in a lent room; None where it breaks a rule (OP 5.4)."""
    if len(lent.numbers) != ROOM:
        return None
    if lent.count > LIMIT:
        return None
    table = [record_in(lent.numbers[6 * i:6 * i + 6]) for i in range(lent.count)]
    if None in table:
        return None
    if any(not one < two for one, two in zip(table, table[1:])):
        return None
    if any(lent.numbers[6 * lent.count:]):
        return None
    return table


def end_in(numbers):
    """Session, serial and intervals as they are lent from C; None where they do not fit (OP 5.4)."""
    if len(numbers) != 5:
        return None
    if numbers[0] > MOST_16:
        return None
    if max(numbers[1:]) > MOST_32:
        return None
    return Table(*numbers)


def call(version, numbers, rooms, out):
    """hingemoss_full_run of one room, or hingemoss_change_run of two; `out` is what stood in the output."""
    end, tables = end_in(numbers), [table_in(lent) for lent in rooms]
    if version not in (0, 1) or end is None or None in tables:
        return Answer(22, 0, out)
    run = full_run(version, end, *tables) if len(tables) == 1 else change_run(version, end, *tables)
    if len(out) < len(run):
        return Answer(9, len(run), out)
    return Answer(0, len(run), run + out[len(run):])


# hingemoss_read_listing's answer, and then what is lent.
Read = collections.namedtuple("Read", "number line room head")


def read_call(text, room_before, head_before):
    """hingemoss_read_listing; `room_before` and `head_before` are what stood there, as numbers."""
    if len(room_before) != ROOM or len(head_before) != 8:
        return Read(22, 0, room_before, head_before)
    read = diff_model.read_listing(text)
    if read[0] == "misfit":
        return Read(24, read[1], (0,) * ROOM, head_before)
    stop, table, records = read[1:]
    numbers = (1, *table) if table else (0,) * 6
    return Read(0, 0, room(records).numbers, (stop, *numbers, len(records)))


# ---------------------------------------------------------------------------
# A receiver's life
# ---------------------------------------------------------------------------

# Steps: ("full",) and ("change",) ask, ("reconnect",), ("feed", bytes, the pieces' lengths). What is told of them: a number, then an ask's query, or how many
# bytes were taken and how many updates finished; behind a stop no further piece is fed.
# How a life ends: the steps' answers, the session's numbers as the header has them, both rooms' numbers, and the listing.
Life = collections.namedtuple("Life", "steps session live working listing")

PHASES = {"Idle": 0, "MustReset": 1, "AskedFull": 2, "AskedChange": 3, "Loading": 4, "Stopped": 6}


def session_numbers(session):
    """A session of tests/model as the header's 24 numbers."""
    phase, detail, values = session.phase[0], 0, ()
    number = PHASES[phase]
    if phase == "Loading":
        number, detail = 4 + (session.phase[1] == "change"), session.phase[2]
    if phase == "Stopped":
        detail, *values = session.phase[1]
    table = (1, *session.table) if session.table else (0,) * 6
    note = (1, *session.note) if session.note else (0,) * 3
    return (session.version, number, detail, *values, *[0] * (3 - len(values)), *table, *note, session.live_count, session.work_count, session.held, LIMIT, 0, 0, 0, 0, 0)


def life_by_model(version, hold, steps):
    """A life by tests/model's receiver."""
    box, live, work, held, out = receiver.Receiver(), [7] * ROOM, [7] * ROOM, bytearray(hold), bytearray(12)
    session, _ = box.start(version, live, work, held)
    lent, told = (session, live, work, held), []
    for kind, *words in steps:
        if kind in ("full", "change"):
            written, refused = (box.full_ask if kind == "full" else box.change_ask)(*lent, out)
            told.append((refused[0], b"") if refused else (0, bytes(out[:written])))
        elif kind == "reconnect":
            box.reconnect(*lent)
            told.append((0,))
        else:
            told.append(fed(box, lent, *words))
    stop = session.phase[1][0] if session.phase[0] == "Stopped" else 0
    records = [record_in(live[6 * i:6 * i + 6]) for i in range(session.live_count)]
    text = diff_model.listing(stop, session.table and Table(*session.table), records)
    return Life(tuple(told), session_numbers(session), tuple(live), tuple(work), text)


def fed(box, lent, data, lengths):
    """Pieces of data up to a stop: its number or 0, the bytes taken, the updates finished."""
    at, taken, updates = 0, 0, 0
    for length in lengths:
        answer = box.feed(*lent, data[at:at + length])
        at, taken, updates = at + length, taken + answer.taken, updates + answer.updates
        if answer.stop:
            return answer.stop[0], taken, updates
    return 0, taken, updates


def life_by_statement(version, end, note, second):
    """How request Five says that a life ends (OP 5.8): the session, both rooms and the listing. `note` is a Serial Notify's session and serial, or None."""
    table = end if version == 1 else end._replace(refresh=3600, retry=600, expire=7200)
    told = (1, *note) if note else (0, 0, 0)
    session = (version, PHASES["Idle"], 0, 0, 0, 0, 1, *table, *told, len(second), 0, 0, LIMIT, 0, 0, 0, 0, 0)
    return session, room(second).numbers, (0,) * ROOM, diff_model.listing(0, table, second)


# ---------------------------------------------------------------------------

def main(words):
    if len(words) not in (2, 3) or words[0] not in ("0", "1"):
        print("VERSION and one listing or two", file=sys.stderr)
        return 2
    reads = []
    for word in words[1:]:
        with open(word, "rb") as file:
            reads.append(diff_model.read_listing(file.read()))
    if any(read[0] == "misfit" or read[2] is None for read in reads):
        print("a file is no listing, or has no table", file=sys.stderr)
        return 1
    tables = [read[3] for read in reads]
    run = full_run if len(tables) == 1 else change_run
    sys.stdout.buffer.write(run(int(words[0]), reads[-1][2], *tables))
    return 0


if __name__ == "__main__":
    sys.exit(main(sys.argv[1:]))
