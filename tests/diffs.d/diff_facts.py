"""Facts about request Four that the papers themselves give, typed by hand: the model (tests/diff_model.py) must say the same.

The number in front of a fact's name is the open point's; 01 is document 01.
"""

import diff_model as model

# Document 01's listing, and its listing without the last input byte.
EXAMPLE = b"""stopped=0
session=4660
serial=7
refresh=3600
retry=600
expire=7200
count=0001
family=4
address=c0000200
length=24
max=24
asn=64496
"""
NONE = b"stopped=0\ncount=none\n"
RECORD = b"family=4\naddress=c0000200\nlength=24\nmax=24\nasn=64496\n"
TALL = b"family=6\naddress=20010db8000000000000000000000000\nlength=32\nmax=128\nasn=1\n"


def example(*edits):
    """The example with some texts in place of others."""
    text = EXAMPLE
    for old, new in edits:
        if text.count(old) != 1:
            raise AssertionError("not there once: %r" % old)
        text = text.replace(old, new)
    return text


TWO = (b"count=0001", b"count=0002")

# What is the first line that does not fit, or 0 where all do. The number in front is the open point's.
LINES = (
    ("01, the example", EXAMPLE, 0),
    ("01, without a table", NONE, 0),
    ("4.1, no bytes: line 1 is missing", b"", 1),
    ("4.1, no line feed at all", b"stopped=0", 1),
    ("4.1, line 2 is missing", b"stopped=0\n", 2),
    ("4.1, the last line without its end", EXAMPLE[:-1], 12),
    ("4.1, count=none without its end", NONE[:-1], 2),
    ("4.1, count=none and a byte", NONE + b"x", 3),
    ("4.1, count=none and a line", NONE + b"\n", 3),
    ("4.2, CR LF", EXAMPLE.replace(b"\n", b"\r\n"), 1),
    ("4.2, a capital", example((b"serial=", b"Serial=")), 3),
    ("4.2, two =", example((b"serial=", b"serial==")), 3),
    ("4.2, a blank behind =", example((b"retry=", b"retry= ")), 5),
    ("4.2, a blank at the end", example((b"max=24", b"max=24 ")), 11),
    ("4.2, an empty line", example((b"family=", b"\nfamily=")), 8),
    ("4.2, a byte order mark", b"\xef\xbb\xbf" + EXAMPLE, 1),
    ("4.3, session 65535", example((b"=4660", b"=65535")), 0),
    ("4.3, session 65536", example((b"=4660", b"=65536")), 2),
    ("4.3, session 0", example((b"=4660", b"=0")), 0),
    ("4.3, session 00", example((b"=4660", b"=00")), 2),
    ("4.3, session 04660", example((b"=4660", b"=04660")), 2),
    ("4.3, serial 2^32 - 1", example((b"serial=7", b"serial=4294967295")), 0),
    ("4.3, serial 2^32", example((b"serial=7", b"serial=4294967296")), 3),
    ("4.3, serial 2^32 + 7", example((b"serial=7", b"serial=4294967303")), 3),
    ("4.3, serial 2^64 + 7", example((b"serial=7", b"serial=18446744073709551623")), 3),
    ("4.3, serial of 5000 digits", example((b"serial=7", b"serial=" + b"1" * 5000)), 3),
    ("4.3, serial -7", example((b"serial=7", b"serial=-7")), 3),
    ("4.3, refresh without digits", example((b"=3600", b"=")), 4),
    ("4.3, expire 2^32", example((b"=7200", b"=4294967296")), 6),
    ("4.3, asn 2^32 - 1", example((b"=64496", b"=4294967295")), 0),
    ("4.3, asn 2^32", example((b"=64496", b"=4294967296")), 12),
    *(("4.4, stop %d" % n, b"stopped=%d\n" % n + EXAMPLE[10:], 0 if n in (0, 2, 3, 4, 5, 6, 7, 8, 12, 13, 14, 15, 16, 17, 18, 19) else 1) for n in range(40)),
    *(("4.4, stop %d without a table" % n, b"stopped=%d\ncount=none\n" % n, 0) for n in (2, 8, 12, 19)),
    ("4.5, count=0000 and nothing", EXAMPLE[:EXAMPLE.index(b"count")] + b"count=0000\n", 0),
    ("4.5, count=1025", example((b"=0001", b"=1025")), 7),
    ("4.5, count=9999", example((b"=0001", b"=9999")), 7),
    ("4.5, count=001", example((b"=0001", b"=001")), 7),
    ("4.5, count=00001", example((b"=0001", b"=00001")), 7),
    ("4.5, count=1", example((b"=0001", b"=1")), 7),
    ("4.5, count=none behind expire=", EXAMPLE[:EXAMPLE.index(b"count")] + b"count=none\n", 7),
    ("4.5, count=0000 as line 2", b"stopped=0\ncount=0000\n", 2),
    ("4.6, one record of two", example(TWO), 13),
    ("4.6, one record of 1024", example((b"=0001", b"=1024")), 13),
    ("4.6, one record and a line of the next", example(TWO) + b"family=6\n", 14),
    ("4.6, one record and another line", example(TWO) + b"serial=7\n", 13),
    ("4.6, two records of one", EXAMPLE + TALL, 13),
    ("4.6, a record of none", example((b"=0001", b"=0000")), 8),
    ("4.6, a record behind count=none", NONE + RECORD, 3),
    ("4.7, family=5", example((b"family=4", b"family=5")), 8),
    ("4.7, family=6 with 8 digits", example((b"family=4", b"family=6")), 9),
    ("4.7, 7 digits", example((b"=c0000200", b"=c000020")), 9),
    ("4.7, 9 digits", example((b"=c0000200", b"=c00002000")), 9),
    ("4.7, capitals", example((b"=c0000200", b"=C0000200")), 9),
    ("4.7, an IPv6 record", example(TWO) + TALL, 0),
    ("4.7, 31 digits", example(TWO) + TALL.replace(b"20010db8", b"2001db8"), 14),
    ("4.8, length=256", example((b"length=24", b"length=256")), 10),
    ("4.8, length=255", example((b"length=24", b"length=255")), 11),
    ("4.8, length=33", example((b"length=24", b"length=33")), 11),
    ("4.8, length=33 and max=33", example((b"length=24", b"length=33"), (b"max=24", b"max=33")), 11),
    ("4.8, length=25 and max=24", example((b"length=24", b"length=25")), 11),
    ("4.8, max=32", example((b"max=24", b"max=32")), 0),
    ("4.8, max=33", example((b"max=24", b"max=33")), 11),
    ("4.8, max=256", example((b"max=24", b"max=256")), 11),
    ("4.8, max=128 in IPv6", example(TWO) + TALL, 0),
    ("4.8, max=129 in IPv6", example(TWO) + TALL.replace(b"128", b"129"), 16),
    ("4.8, an equal record", example(TWO) + RECORD, 17),
    ("4.8, a lower AS number", example(TWO) + RECORD.replace(b"64496", b"64495"), 17),
    ("4.8, a higher AS number", example(TWO) + RECORD.replace(b"64496", b"64497"), 0),
    ("4.8, IPv4 behind IPv6", example((b"=0001", b"=0002"), (RECORD, TALL + RECORD)), 17),
    ("4.8, a longer prefix with a lower AS number", example(TWO) + RECORD.replace(b"64496", b"1").replace(b"24", b"25"), 0),
    ("4.9, nothing behind is looked at", example((b"session=4660", b"x"), (b"serial=7", b"y")), 2),
)


def change(kind, lines):
    return b"change=" + kind + b"\n" + lines


MOVED = RECORD.replace(b"64496", b"64497")
PRINTED = (
    ("4.15, a withdrawal", EXAMPLE, NONE, change(b"withdraw", RECORD)),
    ("4.15, an announcement", NONE, EXAMPLE, change(b"announce", RECORD)),
    ("4.15, nothing", EXAMPLE, EXAMPLE, b""),
    ("4.15, another AS number", EXAMPLE, example((RECORD, MOVED)), change(b"withdraw", RECORD) + change(b"announce", MOVED)),
    ("4.15, withdrawals first, each part in table order", example(TWO) + TALL, example(TWO, (RECORD, MOVED)) + TALL.replace(b"=1\n", b"=0\n"),
     change(b"withdraw", RECORD) + change(b"withdraw", TALL) + change(b"announce", MOVED) + change(b"announce", TALL.replace(b"=1\n", b"=0\n"))),
    ("4.15, a shared record", example(TWO) + TALL, EXAMPLE, change(b"withdraw", TALL)),
    ("4.16, another stop, session, serial and intervals", EXAMPLE,
     example((b"stopped=0", b"stopped=19"), (b"=4660", b"=1"), (b"serial=7", b"serial=8"), (b"=3600", b"=1"), (b"=600", b"=2"), (b"=7200", b"=3")), b""),
    ("4.16, no table beside an empty one", NONE, EXAMPLE[:EXAMPLE.index(b"count")] + b"count=0000\n", b""),
    ("4.10, old", b"", EXAMPLE, b"refused=24\nfile=old\nline=1\n"),
    ("4.10, new", EXAMPLE, EXAMPLE[:-1], b"refused=24\nfile=new\nline=12\n"),
    ("4.10, both, the new one's line earlier", EXAMPLE[:-1], b"", b"refused=24\nfile=old\nline=12\n"),
)


# Document 01's room: family x 65,536 + prefix length x 256 + max, four address numbers, the AS number, and zeros.
ROOM = b"".join(n.to_bytes(4, "little") for n in (4 * 65536 + 24 * 256 + 24, 0xC0000200, 0, 0, 0, 64496)) + bytes(4 * (6144 - 6))
ZERO = bytes(4 * 6144)
LENT, OTHER, OUT = b"\1" * 24576, b"\2" * 24576, b"\3" * 100
WITHDRAWN, REFUSED = change(b"withdraw", RECORD), b"refused=24\nfile=new\nline=13\n"
# The call: both texts, both rooms and the output as they stand, and what is then answered.
CALLS = (
    ("4.17, rooms of two listings", (EXAMPLE, NONE, LENT, OTHER, OUT), (0, len(WITHDRAWN), WITHDRAWN + OUT[len(WITHDRAWN):], ROOM, ZERO)),
    ("4.17, the room of a refused file", (EXAMPLE, EXAMPLE + b"x", LENT, OTHER, OUT), (0, len(REFUSED), REFUSED + OUT[len(REFUSED):], ROOM, ZERO)),
    ("4.17, a room too short", (EXAMPLE, NONE, LENT[4:], OTHER, OUT), (22, 0, OUT, LENT[4:], OTHER)),
    ("4.17, a room too long, before 24 and 9", (b"", b"", LENT, OTHER + b"\2\2\2\2", b""), (22, 0, b"", LENT, OTHER + b"\2\2\2\2")),
    ("9", (EXAMPLE, NONE, LENT, OTHER, OUT[:len(WITHDRAWN) - 1]), (9, len(WITHDRAWN), OUT[:len(WITHDRAWN) - 1], ROOM, ZERO)),
    ("an exact output", (EXAMPLE, NONE, LENT, OTHER, OUT[:len(WITHDRAWN)]), (0, len(WITHDRAWN), WITHDRAWN, ROOM, ZERO)),
)

COUNT = len(LINES) + len(PRINTED) + len(CALLS)


def wrong_facts():
    """What the model says otherwise."""
    wrong = []
    for name, text, line in LINES:
        read = model.read_listing(text)
        if (read[1] if read[0] == "misfit" else 0) != line:
            wrong.append("fact %s: line %d is expected, and the model says %s" % (name, line, read[:2]))
    for name, old, new, text in PRINTED:
        if model.diff(old, new) != text:
            wrong.append("fact %s: the model prints %r" % (name, model.diff(old, new)))
    for name, lent, wanted in CALLS:
        if model.call(*lent) != wanted:
            wrong.append("fact %s: the model's answer is another" % name)
    return wrong
