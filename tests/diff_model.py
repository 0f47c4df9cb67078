#!/usr/bin/env python3
"""A reference model of request Four (document 02): reading a listing, and what changed between two.

    python3 diff_model.py OLD NEW      prints what the program prints of these two files

Written from documents 01 and 02 and the decided open points (here "OP 4.x"), by someone who had not seen the code that answers. It goes by lines, as the
papers do, and shares nothing with the program. tests/diffs compares the two.
"""

import collections
import struct
import sys

# The rules that may change. `limit` is the most records. `widths` has the highest count for each number of digits that the reader takes, and `digits` is
# how many the writer writes. `unread` says what becomes of the new room where the old file is refused: "zero" (docs/DECISIONS.md, 64), "kept", or None where it is not looked at.
# `short` says what the rooms are on refusal 9: "read" (as the reader leaves them), "zero" or "kept".
Rules = collections.namedtuple("Rules", "limit widths digits unread short")
FOUR = Rules(limit=1024, widths={4: 1024}, digits=4, unread="zero", short="read")
SIX = Rules(limit=1024, widths={4: 1024, 5: 16384}, digits=5, unread="zero", short="read")

# OP 4.4: no stop, or one of document 01's: 2 to 8 and 12 to 19.
STOPS = (0, 2, 3, 4, 5, 6, 7, 8, 12, 13, 14, 15, 16, 17, 18, 19)

MOST_8, MOST_16, MOST_32 = 2 ** 8 - 1, 2 ** 16 - 1, 2 ** 32 - 1

# The longest prefix and the hex digits of an address, by family.
LONGEST = {4: 32, 6: 128}
HEX_DIGITS = {4: 8, 6: 32}

# A table's numbers in the order of their lines.
Table = collections.namedtuple("Table", "session serial refresh retry expire")
# A record in table order: two records compare as their fields do, from the first on. An address is four words; IPv4 has its own in the first.
Record = collections.namedtuple("Record", "family address length max asn")


# ---------------------------------------------------------------------------
# Reading a listing
# ---------------------------------------------------------------------------

class Misfit(Exception):
    """The line at hand does not fit, or is missing."""


def require(holds):
    if not holds:
        raise Misfit


class Lines:
    """The lines of a file, one after another; `number` is that of the line at hand, from 1 on."""

    def __init__(self, text):
        self.text, self.at, self.number = text, 0, 0

    def take(self):
        """The next line without its line feed. One that is missing, or has no line feed, fits nowhere (OP 4.1)."""
        self.number += 1
        end = self.text.find(b"\n", self.at)
        require(end >= 0)
        line = self.text[self.at:end]
        self.at = end + 1
        return line

    def value(self, name):
        """What stands behind `name=` in the next line."""
        line = self.take()
        require(line.startswith(name + b"="))
        return line[len(name) + 1:]

    def finish(self):
        """Nothing may stand behind the last line; what does is the next line (OP 4.6)."""
        self.number += 1
        require(self.at == len(self.text))


def number_in(value, most):
    """OP 4.3: digits without a leading zero, and no more than `most`."""
    require(value.isdigit())
    require(value == b"0" or not value.startswith(b"0"))
    require(len(value) <= len(str(most)))
    require(int(value) <= most)
    return int(value)


def count_in(value, rules):
    """OP 4.5: exactly so many digits, with zeros in front, and a count within the range of its width."""
    require(value.isdigit())
    require(len(value) in rules.widths)
    count = int(value)
    require(count <= rules.widths[len(value)])
    require(count <= rules.limit)
    return count


def address_in(value, family):
    """OP 4.7: 8 or 32 lower-case hex digits, as four words."""
    require(len(value) == HEX_DIGITS[family])
    require(all(digit in b"0123456789abcdef" for digit in value))
    words = [int(value[i:i + 8], 16) for i in range(0, len(value), 8)]
    return tuple(words + [0] * (4 - len(words)))


def record_in(lines, before):
    """A record's five lines. OP 4.8: the lengths are judged at `max=`, the order at `asn=`."""
    family = lines.value(b"family")
    require(family in (b"4", b"6"))
    family = int(family)
    address = address_in(lines.value(b"address"), family)
    length = number_in(lines.value(b"length"), MOST_8)
    longest = number_in(lines.value(b"max"), MOST_8)
    require(length <= longest)
    require(longest <= LONGEST[family])
    asn = number_in(lines.value(b"asn"), MOST_32)
    record = Record(family, address, length, longest, asn)
    require(before is None or before < record)
    return record


def whole_listing(lines, rules):
    """OP 4.1: the lines of a listing in their order."""
    stop = number_in(lines.value(b"stopped"), MOST_32)
    require(stop in STOPS)
    line = lines.take()
    if line == b"count=none":
        lines.finish()
        return stop, None, []
    require(line.startswith(b"session="))
    session = number_in(line[len(b"session="):], MOST_16)
    others = [number_in(lines.value(name), MOST_32) for name in (b"serial", b"refresh", b"retry", b"expire")]
    count = count_in(lines.value(b"count"), rules)
    records = []
    for _ in range(count):
        records.append(record_in(lines, records[-1] if records else None))
    lines.finish()
    return stop, Table(session, *others), records


def read_listing(text, rules=FOUR):
    """("listed", stop, table or None, records), or ("misfit", the first line that does not fit or is missing)."""
    lines = Lines(text)
    try:
        return ("listed", *whole_listing(lines, rules))
    except Misfit:
        return "misfit", lines.number


# ---------------------------------------------------------------------------
# Writing
# ---------------------------------------------------------------------------

def record_lines(record):
    words = record.address[:HEX_DIGITS[record.family] // 8]
    address = "".join("%08x" % word for word in words)
    return "family=%d\naddress=%s\nlength=%d\nmax=%d\nasn=%d\n" % (record.family, address, record.length, record.max, record.asn)


def listing(stop, table, records, rules=FOUR):
    """Document 01's listing."""
    text = "stopped=%d\n" % stop
    if table is None:
        return (text + "count=none\n").encode()
    text += "session=%d\nserial=%d\nrefresh=%d\nretry=%d\nexpire=%d\n" % table
    text += "count=%0*d\n" % (rules.digits, len(records))
    return (text + "".join(map(record_lines, records))).encode()


# ---------------------------------------------------------------------------
# What changed
# ---------------------------------------------------------------------------

def changes(old, new):
    """OP 4.15: withdrawals in the old table's order, then announcements in the new one's."""
    in_old, in_new = set(old), set(new)
    withdrawn = [("withdraw", record) for record in old if record not in in_new]
    announced = [("announce", record) for record in new if record not in in_old]
    return withdrawn + announced


def refused(which, line):
    """OP 4.10: the three lines of refusal 24."""
    return b"refused=24\nfile=%s\nline=%d\n" % (which, line)


def diff_of(old, new):
    """What is printed of two answers of read_listing; the new one may be None where the old one is refused."""
    if old[0] == "misfit":
        return refused(b"old", old[1])
    if new[0] == "misfit":
        return refused(b"new", new[1])
    return "".join("change=%s\n" % kind + record_lines(record) for kind, record in changes(old[3], new[3])).encode()


def read_both(old, new, rules):
    """OP 4.10: the old file first; the new one is not looked at where the old one is refused."""
    old = read_listing(old, rules)
    return old, None if old[0] == "misfit" else read_listing(new, rules)


def diff(old, new, rules=FOUR):
    """What the program prints of two files' bytes."""
    return diff_of(*read_both(old, new, rules))


# ---------------------------------------------------------------------------
# The call from C
# ---------------------------------------------------------------------------

def room(records, rules=FOUR):
    """Document 01's room, as the bytes of its 32-bit numbers: six for each record, then zeros."""
    numbers = []
    for record in records:
        numbers += [record.family * 65536 + record.length * 256 + record.max, *record.address, record.asn]
    return struct.pack("<%dI" % len(numbers), *numbers) + bytes(4 * (6 * rules.limit - len(numbers)))


def room_of(read, rules):
    """OP 4.17: the table's room, and never half a table."""
    return room([] if read[0] == "misfit" else read[3], rules)


def rooms(old, new, old_before, new_before, rules=FOUR):
    """Both rooms behind the call, from two answers of read_listing and what stood there; None where it is not looked at."""
    old_room = room_of(old, rules)
    if new is not None:
        return old_room, room_of(new, rules)
    return old_room, {"zero": bytes(len(new_before)), "kept": new_before, None: None}[rules.unread]


# The call's answer, and then what is lent.
Answer = collections.namedtuple("Answer", "number written out old_room new_room")


def call(old, new, old_room, new_room, out, rules=FOUR):
    """hingemoss_diff: both texts, and as bytes what stood in both rooms and in the output."""
    if len(old_room) != 24 * rules.limit or len(new_room) != 24 * rules.limit:
        return Answer(22, 0, out, old_room, new_room)
    old_read, new_read = read_both(old, new, rules)
    text = diff_of(old_read, new_read)
    left = rooms(old_read, new_read, old_room, new_room, rules)
    if len(out) < len(text):
        if rules.short != "read":
            left = (old_room, new_room) if rules.short == "kept" else (bytes(len(old_room)), bytes(len(new_room)))
        return Answer(9, len(text), out, *left)
    return Answer(0, len(text), text + out[len(text):], *left)


# ---------------------------------------------------------------------------

def main(words):
    if len(words) != 2:
        print("two files: OLD NEW", file=sys.stderr)
        return 2
    texts = []
    for word in words:
        try:
            with open(word, "rb") as file:
                texts.append(file.read())
        except OSError:
            texts.append(b"")    # OP 4.11, 4.12
    sys.stdout.buffer.write(diff(*texts))
    return 0


if __name__ == "__main__":
    sys.exit(main(sys.argv[1:]))
