"""The enumerated cases of tests/diffs: two texts, with the memory that is lent to the call. The answers are the model's (tests/diff_model.py).

Each case has its reason in document 02 or in the open points (here "OP 4.x"). Its name begins with its group. A name that ends with "old" or "new" tells which file
is tried; the other one is then a good listing.
"""

import collections
import glob
import itertools
import os

import diff_model as model
from diff_model import Record, Table

ROOM = 6144

# Two texts and what lies behind each in memory; the rooms' lengths in numbers; the output's in bytes; and what stood in the rooms.
Case = collections.namedtuple("Case", "name old new old_behind new_behind old_room new_room out fill")
FILLS = {0: "zeros", 1: "a pattern", 2: "a full table"}
# A reader that looks behind its text finds line ends there.
BEHIND = b"\n" * 16
OUT_MOST = 262144


def roomy(old, new):
    """An output that is long enough: a change has 16 bytes more than its record's lines, which are 47 or more."""
    return min(OUT_MOST, 64 + 2 * (len(old) + len(new)))


def case(name, old, new, old_behind=BEHIND, new_behind=BEHIND, old_room=ROOM, new_room=ROOM, out=None, fill=1):
    return Case(name, old, new, old_behind, new_behind, old_room, new_room, roomy(old, new) if out is None else out, fill)


# ---------------------------------------------------------------------------
# Good listings
# ---------------------------------------------------------------------------

def v4(address, length, longest, asn):
    return Record(4, (address, 0, 0, 0), length, longest, asn)


def v6(words, length, longest, asn):
    return Record(6, tuple(words), length, longest, asn)


USUAL = Table(4660, 7, 3600, 600, 7200)
ODD = Table(65535, 4294967295, 0, 10, 99)
WIDEST = Table(65535, *[4294967295] * 4)
LOWEST, HIGHEST = v4(0, 0, 0, 0), v6([0xFFFFFFFF] * 4, 128, 128, 0xFFFFFFFF)
THREE = [v4(0x0A000000, 8, 24, 64496), v4(0xC0000200, 24, 24, 64500), v6((0x20010DB8, 0x00C0FFEE, 0, 0xABCDEF12), 32, 48, 4200000000)]
OTHER = [v4(0x0A000000, 8, 24, 64497), v4(0xC0000200, 24, 24, 64500), v6((0x20010DB8, 0, 0, 1), 32, 32, 1)]


def many(count):
    """So many small records of IPv4."""
    return [v4(0x0A000000 + i, 8, 8, 1) for i in range(count)]


def longest(count, first=0):
    """So many IPv6 records whose lines are as long as lines can be."""
    return [v6((0xFFFFFFFF, 0xFFFFFFFF, 0, first + i), 128, 128, 4294967295 - i) for i in range(count)]


def bases(rules):
    """Three listings that are cut and edited, the good one that stands beside them, and a full one."""
    return {
        "none": model.listing(19, None, [], rules),
        "empty": model.listing(13, ODD, [], rules),
        "three": model.listing(0, USUAL, THREE, rules),
        "other": model.listing(0, USUAL._replace(serial=8), OTHER, rules),
        "1024": model.listing(0, USUAL, many(1024), rules),
    }


def lines_of(text):
    return [line + b"\n" for line in text.split(b"\n")[:-1]]


def short(text):
    """As much of a text as a name takes."""
    return (text if len(text) < 50 else text[:12] + b".. of %d" % len(text)).decode("latin-1")


# ---------------------------------------------------------------------------
# Texts to be tried, as old and as new: (name, text), or (name, text, what lies behind it)
# ---------------------------------------------------------------------------

SMALL = ("none", "empty", "three")

# Lines of a listing, of the output, and of a later request.
NAMES = (b"stopped", b"session", b"serial", b"refresh", b"retry", b"expire", b"count", b"family", b"address", b"length", b"max", b"asn",
         b"change", b"refused", b"file", b"line", b"textbyte")

HEX = b"0123456789abcdef0123456789abcdef0"
VALUES = (
    # small numbers, right somewhere and wrong elsewhere
    b"", b"0", b"1", b"2", b"4", b"5", b"6", b"7", b"8", b"9", b"10", b"24", b"32", b"33", b"128", b"129", b"255", b"256", b"257",
    # numbers as others write them
    b"+1", b"-1", b"+0", b"-0", b"+4", b"-4", b"00", b"01", b"04", b"06", b"0x1", b"0x4", b"0b1", b"1e3", b"4e0", b"1.0", b"1,0", b"1_0", b"1'0",
    b" 1", b"1 ", b"1\t", b"1\r", b"1\x00", b"\x001", b"4\x00", b"\x00", b"\xff", b"4\xff", b"'4'", b'"4"', b"4;", b"4#", b"=4", b"4=4", b"4,4",
    # either side of what fits 16, 32 and 64 bits; numbers that would wrap to 4 and to 5
    b"65535", b"65536", b"2147483647", b"2147483648", b"4294967295", b"4294967296", b"4294967300", b"18446744073709551615", b"18446744073709551616",
    b"18446744073709551620", b"18446744073709551621", b"340282366920938463463374607431768211460",
    b"1" * 11, b"9" * 20, b"1" * 40, b"1" * 5000, b"0" * 5000, b"0" * 4999 + b"4",
    # words, and the digit 4 of other scripts
    b"none", b"None", b"NONE", b"NaN", b"inf", b"null", b"none ", b"non", b"nonee",
    "\u0664".encode(), "\uff14".encode(), "\u2074".encode(), "\U0001d7d2".encode(), "\u00a04".encode(),
    # addresses
    HEX[:7], HEX[:8], HEX[:9], HEX[:31], HEX[:32], HEX[:33], HEX[8:16], HEX[8:16].upper(), HEX[:32].upper(), b"0x" + HEX[:8], b"0x" + HEX[:6],
    b"g" * 8, b"g" * 32, b"::", b"192.0.2.0", b"2001:db8::", b"10.0.0.0/8",
    # counts
    b"0000", b"0001", b"0002", b"0003", b"0004", b"1023", b"1024", b"1025", b"9999", b"003", b"00003", b"000003", b"10003",
)


def cuts(rules):
    """Cut after every byte, with the rest behind it in memory; and whole."""
    for base in SMALL:
        text = bases(rules)[base]
        for at in range(len(text)):
            yield "cut: %s after %d bytes" % (base, at), text[:at], text[at:]
        yield "cut: %s, whole" % base, text


def line_edits(line):
    """What may become of a line."""
    bare = line[:-1]
    name, _, value = bare.partition(b"=")
    behind = b"=" + value + b"\n"
    return {
        "left out": b"",
        "doubled": line * 2,
        "emptied": b"\n",
        "with a line of its kind behind": line + name + b"=0\n",
        "with count=none behind": line + b"count=none\n",
        "with count=none before": b"count=none\n" + line,
        "backwards": bare[::-1] + b"\n",
        # its end
        "with CR LF": bare + b"\r\n",
        "with LF CR": bare + b"\n\r",
        "with CR": bare + b"\r",
        "with CR CR LF": bare + b"\r\r\n",
        "without its line feed": bare,
        "with two line feeds": line + b"\n",
        "behind a line feed": b"\n" + line,
        "with a zero byte for its end": bare + b"\0",
        "with U+0085 for its end": bare + b"\xc2\x85",
        "with byte 0x85 for its end": bare + b"\x85",
        "with U+2028 for its end": bare + b"\xe2\x80\xa8",
        "with a form feed for its end": bare + b"\x0c",
        "with a vertical tab for its end": bare + b"\x0b",
        "with a file separator for its end": bare + b"\x1c",
        # letters
        "in capitals": line.upper(),
        "with a capital": line.capitalize(),
        "with its name's last letter a capital": name[:-1] + name[-1:].upper() + behind,
        "without its first letter": line[1:],
        "without its last byte": bare[:-1] + b"\n",
        "with its first letter twice": line[:1] + line,
        "with its name's last letter twice": name + name[-1:] + behind,
        # blanks and other bytes around
        "behind a blank": b" " + line,
        "before a blank": bare + b" \n",
        "with a blank before =": name + b" " + behind,
        "with a blank behind =": name + b"= " + value + b"\n",
        "with a blank in its name": name[:1] + b" " + name[1:] + behind,
        "with a blank in its value": name + b"=" + value[:1] + b" " + value[1:] + b"\n",
        "behind a tab": b"\t" + line,
        "before a tab": bare + b"\t\n",
        "behind a zero byte": b"\0" + line,
        "before a zero byte": bare + b"\0\n",
        "behind a byte order mark": b"\xef\xbb\xbf" + line,
        "before a no-break space": bare + b"\xc2\xa0\n",
        "before a semicolon": bare + b";\n",
        "before a comment": bare + b" # x\n",
        "behind a comment": b"# x\n" + line,
        "in quotes": b'"' + bare + b'"\n',
        # its =
        "without =": name + value + b"\n",
        "with ==": name + b"=" + behind,
        "with a colon": name + b":" + value + b"\n",
        "with := for =": name + b":" + behind,
        "without its name": value + b"\n",
        "without its name before =": behind,
        "without its value": name + b"\n",
    }


def lines(rules):
    """Each line edited, exchanged with the next, and under each other name."""
    for base in SMALL:
        every = lines_of(bases(rules)[base])
        for i, line in enumerate(every):
            front, back, where = b"".join(every[:i]), b"".join(every[i + 1:]), "%s, line %d" % (base, i + 1)
            for what, edit in line_edits(line).items():
                yield "line: %s %s" % (where, what), front + edit + back
            if i + 1 < len(every):
                yield "line: %s exchanged with the next" % where, front + every[i + 1] + line + b"".join(every[i + 2:])
            for name in NAMES:
                yield "name: %s named %s" % (where, name.decode()), front + name + line[line.index(b"="):] + back


def values(rules):
    """Each line with each of VALUES, and with its own value but for what wraps or stands around."""
    for base in SMALL:
        every = lines_of(bases(rules)[base])
        for i, line in enumerate(every):
            name, _, value = line[:-1].partition(b"=")
            own = [b"0" + value, b"0" * 20 + value, b"+" + value, value + b"0", value[:-1], value[1:], value * 2, value.upper(), value + b".0", value + b"e0"]
            if value.isdigit():
                own += [b"%d" % (int(value) + 2 ** bits) for bits in (8, 16, 31, 32, 63, 64, 128)] + [b"%d" % (int(value) * (2 ** 64 + 1))]
            for other in (*VALUES, *own):
                edit = name + b"=" + other + b"\n"
                yield "value: %s, line %d is %s=%s" % (base, i + 1, name.decode(), short(other)), b"".join(every[:i]) + edit + b"".join(every[i + 1:])


def numbers(rules):
    """Either side of each range and of each power of ten, in every line that has a number."""
    steps = [0, 256, 65536, 2 ** 31, 2 ** 32, 2 ** 33] + [10 ** n for n in range(1, 11)]
    tried = sorted({n + d for n in steps for d in (-2, -1, 0, 1) if n + d >= 0})
    every = lines_of(bases(rules)["three"])
    for i, line in enumerate(every):
        name = line.partition(b"=")[0]
        if name not in (b"address", b"count"):
            for n in tried:
                yield "number: line %d is %s=%d" % (i + 1, name.decode(), n), b"".join(every[:i]) + b"%s=%d\n" % (name, n) + b"".join(every[i + 1:])


def stops(rules):
    """OP 4.4."""
    for base in SMALL:
        behind = b"".join(lines_of(bases(rules)[base])[1:])
        for n in (*range(42), 99, 100, 127, 128, 254, 255, 256, 258, 260, 269, 512, 65536, 65538, 2 ** 32, 2 ** 32 + 2):
            yield "stop: %d before %s" % (n, base), b"stopped=%d\n" % n + behind


def counts(rules):
    """OP 4.5, 4.6: counts on either side of what follows, and counts that are none."""
    words = [b"%04d" % n for n in (*range(7), 9, 10, 99, 100, 999, 1000, 1023, 1024, 1025, 1026, 1279, 1280, 2000, 2048, 4096, 8192, 9998, 9999)]
    words += [b"%05d" % n for n in (*range(5), 1024, 1025, 9999, 10000, 16383, 16384, 16385, 65536, 65539, 99999)]
    words += [b"", b"0", b"1", b"3", b"03", b"003", b"000003", b"0000000003", b"0" * 5000, b"0" * 5000 + b"3", b"3000", b"0030", b"0300",
              b"none", b"None", b"+003", b"-003", b" 003", b"003 ", b"3.00", b"000a", b"0x03", b"0 03", b"00:3", b"00/3"]
    for follow in range(6):
        every = lines_of(model.listing(0, USUAL, many(follow), rules))
        head, records = b"".join(every[:6]), b"".join(every[7:])
        for word in words:
            yield "count: %s before %d records" % (short(word), follow), head + b"count=" + word + b"\n" + records
        if follow < 2:
            for word in (b"none", b"0000", b"00000", b"0", b"1024"):
                line = b"count=" + word + b"\n"
                yield "count: %s as line 2 before %d records" % (word.decode(), follow), every[0] + line + records
                yield "count: %s as line 2 before a table of %d records" % (word.decode(), follow), every[0] + line + b"".join(every[1:])


def lengths(rules):
    """OP 4.8: all pairs of lengths on either side of each rule, and what stands behind a bad length."""
    tried = (0, 1, 9, 10, 31, 32, 33, 34, 99, 100, 127, 128, 129, 254, 255, 256, 257, 288, 384)
    for family, length, top in itertools.product((4, 6), tried, tried):
        yield "length: IPv%d, %d to %d" % (family, length, top), model.listing(0, USUAL, [Record(family, (0x20010DB8, 0, 0, 0), length, top, 1)], rules)
    for family, length in itertools.product((4, 6), (0, 33, 129, 255, 256)):
        every = lines_of(model.listing(0, USUAL, [Record(family, (1, 0, 0, 0), length, 32, 1)], rules))
        front, where = b"".join(every[:10]), "length: IPv%d, %d" % (family, length)
        yield where + " and then the end", front
        yield where + " and then asn=", front + every[11]
        yield where + " and then max=x", front + b"max=x\n" + every[11]


FIELDS = {4: ("word 0", "length", "max", "asn"), 6: ("word 0", "word 1", "word 2", "word 3", "length", "max", "asn")}
START = {4: Record(4, (5, 0, 0, 0), 5, 30, 5), 6: Record(6, (5, 5, 5, 5), 5, 40, 5)}
UP, DOWN = {4: {"max": 31}, 6: {"max": 41}}, {4: {"max": 29}, 6: {"max": 39}}
STEPS = {
    "word": ((5, 6), (0, 1), (9, 10), (0xFF, 0x100), (0xFFFF, 0x10000), (0x00FFFFFF, 0x01000000), (0x7FFFFFFF, 0x80000000), (1, 0x80000000),
             (0, 0xFFFFFFFF), (0xFFFFFFFE, 0xFFFFFFFF)),
    "length": ((5, 6), (0, 1), (9, 10), (2, 10), (15, 16), (31, 32)),
    "max": ((32, 33), (99, 100), (127, 128), (32, 128), (40, 100)),
    "max of IPv4": ((30, 31), (31, 32)),
    "asn": ((5, 6), (0, 1), (9, 10), (255, 256), (65535, 65536), (2 ** 31 - 1, 2 ** 31), (0, 2 ** 32 - 1), (2 ** 32 - 2, 2 ** 32 - 1), (999999999, 1000000000)),
}


def with_field(record, field, value):
    if field.startswith("word"):
        words = list(record.address)
        words[int(field[-1])] = value
        return record._replace(address=tuple(words))
    return record._replace(**{field: value})


def neighbours():
    """Two records each: they differ in one field or in two, both ways round, or not at all."""
    for family, record in START.items():
        yield "IPv%d, equal" % family, record, record
        for field in FIELDS[family]:
            kind = field.split()[0]
            for low, high in STEPS["max of IPv4" if (kind, family) == ("max", 4) else kind]:
                a, b = with_field(record, field, low), with_field(record, field, high)
                if kind == "length":
                    a, b = a._replace(max=32), b._replace(max=32)
                yield "IPv%d, %s %d and then %d" % (family, field, low, high), a, b
                yield "IPv%d, %s %d and then %d" % (family, field, high, low), b, a
                yield "IPv%d, %s %d twice" % (family, field, low), a, a
        for one, two in itertools.combinations(FIELDS[family], 2):
            other = with_field(with_field(record, one, UP[family].get(one, 6)), two, DOWN[family].get(two, 4))
            yield "IPv%d, %s up and %s down" % (family, one, two), record, other
            yield "IPv%d, %s down and %s up" % (family, one, two), other, record
    zero4, zero6, full4 = LOWEST, LOWEST._replace(family=6), v4(0xFFFFFFFF, 32, 32, 0xFFFFFFFF)
    yield "IPv4 and then IPv6, all else 0", zero4, zero6
    yield "IPv6 and then IPv4, all else 0", zero6, zero4
    yield "the highest IPv4 and the lowest IPv6", full4, zero6
    yield "the lowest IPv6 and the highest IPv4", zero6, full4


def orders(rules):
    """OP 4.8: neighbours alone and among others; three records in every order; a table out of order that is wrong or ends before asn=."""
    for what, a, b in neighbours():
        yield "order: " + what, model.listing(0, USUAL, [a, b], rules)
        yield "order: %s, behind another" % what, model.listing(0, USUAL, [LOWEST, a, b], rules)
        yield "order: %s, between others" % what, model.listing(0, USUAL, [LOWEST, a, b, HIGHEST], rules)
    for three in itertools.product(range(3), repeat=3):
        yield "order: records %d, %d and %d" % three, model.listing(0, USUAL, [many(3)[i] for i in three], rules)
    every = lines_of(model.listing(0, USUAL, [LOWEST._replace(family=6), LOWEST], rules))
    for i in range(12, 17):
        yield "order: IPv4 behind IPv6, and line %d is wrong" % (i + 1), b"".join(every[:i]) + b"x\n" + b"".join(every[i + 1:])
        yield "order: IPv4 behind IPv6, and line %d is missing" % (i + 1), b"".join(every[:i])


def single_bytes(rules):
    """Each byte of a listing changed in some ways, and in a few places every byte."""
    text = bases(rules)["three"]
    for i, byte in enumerate(text):
        own = bytes([byte])
        for what, edit in (("deleted", b""), ("doubled", own * 2), ("one up", bytes([byte + 1])), ("one down", bytes([byte - 1])), ("a line feed", b"\n"),
                           ("behind a line feed", b"\n" + own), ("in the other case", bytes([byte ^ 0x20])), ("with its top bit", bytes([byte | 0x80]))):
            yield "byte: number %d %s" % (i + 1, what), text[:i] + edit + text[i + 1:]
    places = {"the first of all": 0, "the first =": text.index(b"="), "the stop": text.index(b"=") + 1, "the first line's end": text.index(b"\n")}
    places["the last of all"] = len(text) - 1
    for name in (b"session", b"count", b"family", b"address", b"length", b"max", b"asn"):
        places["the start of " + name.decode()] = text.index(name) + len(name) + 1
        places["the end of " + name.decode()] = text.index(b"\n", text.index(name)) - 1
    for where, i in places.items():
        for byte in range(256):
            yield "byte: %s is %d" % (where, byte), text[:i] + bytes([byte]) + text[i + 1:]


def digits(rules):
    """Bytes beside the digits' ranges, in each place of an address and of a number."""
    text = bases(rules)["three"]
    at = 0
    for line in lines_of(text):
        name, _, value = line[:-1].partition(b"=")
        for i in range(at + len(name) + 1, at + len(line) - 1):
            for byte in b"/:@AFG`gz\0 +-_.\xff" if name == b"address" else b"/: +-.a\0":
                yield "digit: byte %d, in %s, is %d" % (i + 1, name.decode(), byte), text[:i] + bytes([byte]) + text[i + 1:]
        at += len(line)


def fulls(rules):
    """1,024 records and one more or less."""
    for name, table in (("small", many(1025)), ("longest", longest(1025))):
        every = lines_of(model.listing(19, WIDEST, table[:1024], rules))
        text = b"".join(every)
        head, records = b"".join(every[:6]), b"".join(every[7:])
        yield "full: 1024, %s" % name, text
        yield "full: 1023, %s" % name, model.listing(0, USUAL, table[:1023], rules)
        yield "full: 1025, %s" % name, model.listing(0, USUAL, table, rules)
        yield "full: 1023 counted as 1024, %s" % name, b"".join(every[:-5])
        yield "full: 1024 counted as 1023, %s" % name, head + b"count=%0*d\n" % (rules.digits, 1023) + records
        yield "full: 1024 and one more, %s" % name, text + model.record_lines(table[1024]).encode()
        yield "full: 1024 without the last line, %s" % name, b"".join(every[:-1])
        yield "full: 1024 without the last line feed, %s" % name, text[:-1]
        yield "full: 1024 and a byte, %s" % name, text + b"x"
        yield "full: 1024 and a line feed, %s" % name, text + b"\n"
        yield "full: 1024, the last one twice, %s" % name, b"".join(every[:-10] + every[-5:] * 2)
        yield "full: 1024, the last one is the first, %s" % name, b"".join(every[:-5] + every[7:12])


def wholes(rules):
    """Whole files that are no listings, or listings with something before or behind."""
    none, empty, three, other = (bases(rules)[name] for name in ("none", "empty", "three", "other"))
    every = lines_of(three)
    front, back, record = b"".join(every[:7]), b"".join(every[7:]), b"".join(every[7:12])
    texts = {
        "empty": b"", "a line feed": b"\n", "two line feeds": b"\n\n", "CR": b"\r", "CR LF": b"\r\n", "a blank": b" ", "a zero byte": b"\0", "byte 255": b"\xff",
        "the stop alone": b"stopped=0\n", "the count alone": b"count=none\n", "a stop of two digits and count=none": b"stopped=12\ncount=none\n",
        "a byte order mark": b"\xef\xbb\xbf", "behind a byte order mark": b"\xef\xbb\xbf" + three,
        "in UTF-16": three.decode().encode("utf-16"), "in UTF-16 without a mark": three.decode().encode("utf-16-le"), "in capitals": three.upper(),
        "with CR LF": three.replace(b"\n", b"\r\n"), "with CR": three.replace(b"\n", b"\r"), "with LF CR": three.replace(b"\n", b"\n\r"), "none with CR LF": none.replace(b"\n", b"\r\n"),
        "the first line with CR LF": three.replace(b"\n", b"\r\n", 1), "the last line with CR LF": three[:-1] + b"\r\n",
        "with zero bytes for line feeds": three.replace(b"\n", b"\0"), "with blanks for line feeds": three.replace(b"\n", b" "),
        "without its last line feed": three[:-1], "none without its last line feed": none[:-1], "empty table without its last line feed": empty[:-1],
        "and a line feed": three + b"\n", "and a blank": three + b" ", "and a zero byte": three + b"\0", "and CR": three + b"\r", "and count=none": three + b"count=none\n",
        "and a record": three + model.record_lines(HIGHEST).encode(), "and a half record": three + b"family=6\n", "and a cut line": three + b"family=6", "twice": three * 2,
        "none and a line feed": none + b"\n", "none and a byte": none + b"x", "none twice": none * 2, "none and count=none": none + b"count=none\n",
        "none and a table": none + b"".join(every[1:]), "none and a record": none + record,
        "empty table and a line feed": empty + b"\n", "empty table and a byte": empty + b"0", "empty table and a record": empty + record,
        "behind a line feed": b"\n" + three, "with a blank line behind the head": front + b"\n" + back, "with a blank line between records": front + record + b"\n" + b"".join(every[12:]),
        "lines backwards": b"".join(reversed(every)), "without its head": back, "with its head behind": back + front,
        "an IPv4 address of 32 digits": three.replace(b"=0a000000", b"=0a000000" + b"0" * 24), "an IPv6 address of 8 digits": three.replace(every[18], b"address=20010db8\n"),
        "family=6 with an IPv4 address": three.replace(b"family=4", b"family=6", 1), "family=4 with an IPv6 address": three.replace(b"family=6", b"family=4"),
        "what the program prints": model.diff(three, other, rules), "what the program refuses with": b"refused=24\nfile=old\nline=1\n",
        "names with a colon": three.replace(b"=", b": "),
        "textbyte behind stopped=8": b"stopped=8\ntextbyte=0\n" + b"".join(every[1:]), "textbyte behind stopped=8 before count=none": b"stopped=8\ntextbyte=0\ncount=none\n",
    }
    for what, text in texts.items():
        yield "whole: " + what, text
    # OP 4.13: longer than any listing
    starts = {"nothing": b"", "stopped=": b"stopped=", "a stop": b"stopped=0\n", "none": none, "session=": b"stopped=0\nsession=", "an empty table": empty,
              "address=": front + b"family=4\naddress=", "asn=": front + b"".join(every[7:11]) + b"asn=", "a listing but its last byte": three[:-1], "a listing": three}
    units = {"line feeds": b"\n", "zeros": b"0", "digits": b"1234567890", "zero bytes": b"\0", "stops": b"stopped=0\n", "families": b"family=4\n", "records": record,
             "blanks": b" ", "CR LF": b"\r\n", "f": b"f"}
    for (one, start), (two, unit) in itertools.product(starts.items(), units.items()):
        yield "long: %s and then %s" % (one, two), start + unit * (140_000 // len(unit))


TEXTS = (cuts, lines, values, numbers, stops, counts, lengths, orders, single_bytes, digits, fulls, wholes)


# ---------------------------------------------------------------------------
# Cases of two texts
# ---------------------------------------------------------------------------

def both_wrong(rules):
    """OP 4.10: the old file is told, be the new one's line earlier."""
    three = bases(rules)["three"]
    every = lines_of(three)
    texts = {
        "good": three, "empty": b"", "wrong at 1": b"x\n" + b"".join(every[1:]), "wrong at 2": every[0] + b"x\n", "missing at 3": b"".join(every[:2]),
        "wrong at 7": b"".join(every[:6]) + b"count=1025\n", "missing at 8": b"".join(every[:7]), "wrong at 12": b"".join(every[:11]) + b"asn=x\n" + b"".join(every[12:]),
        "missing at 22": b"".join(every[:-1]), "without its last line feed": three[:-1], "too long": three + b"\n", "with CR LF": three.replace(b"\n", b"\r\n"),
    }
    for (one, old), (two, new) in itertools.product(texts.items(), repeat=2):
        yield case("both: old %s, new %s" % (one, two), old, new)


def subsets(rules):
    """OP 4.15, 4.16: every table of some of five neighbouring records beside every other; what is not compared differs as it may."""
    five = [v4(0x0A000000, 8, 24, 1), v4(0x0A000000, 8, 24, 2), v4(0x0A000000, 8, 25, 1), v6((0x0A000000, 0, 0, 0), 8, 24, 1), v6((0x0A000000, 0, 0, 1), 8, 24, 1)]
    for pair in itertools.product(range(32), repeat=2):
        texts = []
        for which, bits in enumerate(pair):
            number = 32 * pair[0] + pair[1] + which
            table = Table(64 * number % 65536, 4099 * number, 3600 + number, 600, 7200) if bits or number % 3 else None
            records = [record for i, record in enumerate(five) if bits >> i & 1]
            texts.append(model.listing(model.STOPS[number % len(model.STOPS)], table, records, rules))
        yield case("change: some of five records, %d and %d" % pair, *texts)


def changed_fields(rules):
    """OP 4.15: one field of one record changed, alone and among others; small tables beside each other."""
    for family, record in START.items():
        for field in FIELDS[family]:
            other = with_field(record, field, UP[family].get(field, 6))
            for one, two in ((record, other), (other, record)):
                where = "change: %s of an IPv%d record from %s" % (field, family, "low to high" if one < two else "high to low")
                yield case(where, *(model.listing(0, USUAL, [x], rules) for x in (one, two)))
                yield case(where + ", among others", *(model.listing(0, USUAL, [LOWEST, x, HIGHEST], rules) for x in (one, two)))
    texts = {
        "the lowest record": model.listing(0, USUAL, [LOWEST], rules), "the highest record": model.listing(0, USUAL, [HIGHEST], rules), "both": model.listing(0, USUAL, [LOWEST, HIGHEST], rules),
        "an empty table": model.listing(0, USUAL, [], rules), "another empty table": model.listing(18, ODD, [], rules),
        "no table": model.listing(0, None, [], rules), "a stop and no table": model.listing(2, None, [], rules),
    }
    for (one, old), (two, new) in itertools.product(texts.items(), repeat=2):
        yield case("change: %s and %s" % (one, two), old, new)


def large_changes(rules):
    """Large tables with few changes and with many, up to the longest output: 2,048 records of 100 bytes."""
    table, far = many(1024), longest(1024)
    tables = {
        "all": table, "all but the first": table[1:], "all but one in the middle": table[:512] + table[513:], "all but the last": table[:-1], "every other": table[::2],
        "the others": table[1::2], "all with the last changed": table[:-1] + [table[-1]._replace(asn=2)], "all with the first changed": [table[0]._replace(asn=0)] + table[1:],
        "1024 far ones": far, "1024 far ones with one near": table[:1] + far[1:], "none": [],
    }
    for (one, old), (two, new) in itertools.product(tables.items(), repeat=2):
        yield case("large: %s and %s" % (one, two), model.listing(0, USUAL, old, rules), model.listing(0, ODD, new, rules))
    yield case("large: the longest output", model.listing(19, WIDEST, far, rules), model.listing(19, WIDEST, longest(1024, 5000), rules))


def printed_listings(rules):
    """What rtr-table is known to print (tests/listings.d): each beside the next, and beside itself."""
    texts = []
    for name in sorted(glob.glob(os.path.join(os.path.dirname(os.path.dirname(os.path.realpath(__file__))), "listings.d", "*.txt"))):
        with open(name, "rb") as file:
            texts.append((os.path.basename(name), file.read()))
    for (one, old), (two, new) in zip(texts, texts[1:] + texts[:1]):
        yield case("listing: %s and %s" % (one, two), old, new)
        yield case("listing: %s twice" % one, old, old)


def lent_memory(rules):
    """Outputs of every length about what is needed, rooms of other lengths, and rooms with something in them."""
    none, empty, three, other, full = (bases(rules)[name] for name in ("none", "empty", "three", "other", "1024"))
    one = model.listing(0, USUAL, THREE[:1], rules)
    pairs = {
        "no change": (three, three), "no tables": (none, empty), "one withdrawn": (one, none), "one announced": (none, one), "three and other": (three, other), "many": (full, none),
        "old refused": (b"x", three), "new refused": (three, b""), "both refused": (b"", b"x\n"), "old refused at its end": (three[:-1], other), "new refused far behind": (none, full[:-1]),
    }
    wrong = [(n, ROOM) for n in (0, 1, 5, 6, 6138, 6143, 6145, 6150, 12288)] + [(ROOM, n) for n in (0, 1, 6138, 6143, 6145, 12288)]
    wrong += [(0, 0), (6143, 6145), (6145, 6143), (6145, 6145), (12288, 0)]
    for what, (old, new) in pairs.items():
        need = len(model.diff(old, new, rules))
        for length in range(need + 3) if need < 400 else (0, 1, 30, 64, need // 2, need - 65, need - 1, need, need + 1, need + 1000):
            yield case("out: %s, %d bytes where %d are needed" % (what, length, need), old, new, out=length)
        # 22 comes before 9 and before 24
        for old_room, new_room in wrong:
            for length in (None, 0, need):
                name = "room: %s, rooms of %d and %d, %s" % (what, old_room, new_room, "output enough" if length is None else "an output of %d" % length)
                yield case(name, old, new, old_room=old_room, new_room=new_room, out=length)
        for fill, name in FILLS.items():
            for length in (None, max(0, need - 1)):
                where = "fill: %s, rooms with %s, %s" % (what, name, "output enough" if length is None else "an output of %d" % length)
                yield case(where, old, new, out=length, fill=fill)


PAIRS = (both_wrong, subsets, changed_fields, large_changes, printed_listings, lent_memory)


def enumerated(rules):
    """Every case once; of those that come to the same, the first."""
    good, seen = bases(rules)["other"], set()

    def every():
        for make in TEXTS:
            for name, text, *behind in make(rules):
                yield case(name + ", old", text, good, old_behind=behind[0] if behind else BEHIND)
                yield case(name + ", new", good, text, new_behind=behind[0] if behind else BEHIND)
        for make in PAIRS:
            yield from make(rules)

    for this in every():
        key = hash(this[1:])
        if key not in seen:
            seen.add(key)
            yield this
