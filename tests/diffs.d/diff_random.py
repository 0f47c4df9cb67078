"""The random cases of tests/diffs. Number i of a seed is the same whatever comes before it.

pair(seed, i, rules) is a case of two good listings, with both tables; damage(seed, i, rules) is one with edits.
"""

import random

import diff_model as model
from diff_cases import case
from diff_model import Record, Table


# ---------------------------------------------------------------------------
# Two good listings
# ---------------------------------------------------------------------------

def a_record(dice, near):
    """A record anywhere; or a near one, of few addresses, lengths and AS numbers, so that neighbours differ in one field."""
    family = dice.choice((4, 4, 6))
    top = model.LONGEST[family]
    if near:
        words = [dice.choice((0, 1, 0x0A000000, 0xFFFFFFFF))] + [dice.choice((0, 0, 1, 0x80000000)) for _ in range(3)]
        low = dice.choice((0, 8, 24, 32))
        high, asn = dice.choice((low, low, min(top, low + 1), top)), dice.choice((0, 1, 9, 10, 64496, 4294967295))
    else:
        words = [dice.getrandbits(32) for _ in range(4)]
        low = dice.randint(0, top)
        high, asn = dice.randint(low, top), dice.getrandbits(dice.choice((8, 16, 32)))
    if family == 4:
        words[1:] = 0, 0, 0
    return Record(family, tuple(words), low, high, asn)


def records(dice, count, near):
    """So many records, or fewer where near ones run out."""
    found = set()
    for _ in range(4 * count):
        if len(found) < count:
            found.add(a_record(dice, near))
    return found


def size(dice):
    """Mostly up to 40, now and then up to 1,024."""
    kind = dice.random()
    if kind < 0.985:
        return dice.randint(0, 3 if kind < 0.25 else 40)
    return dice.randint(41, 1024) if kind < 0.997 else dice.choice((1023, 1024))


def text_of(dice, table, rules):
    """A listing of these records under any head; where there are none, half of the time without a table."""
    numbers = [dice.choice((0, 7, 3600, 4294967295, dice.getrandbits(32))) for _ in range(4)]
    head = Table(dice.choice((0, 4660, 65535, dice.getrandbits(16))), *numbers)
    if not table and dice.random() < 0.5:
        head = None
    return model.listing(dice.choice(model.STOPS), head, sorted(table), rules)


def changed(dice, record):
    """The same record but for its AS number or its max."""
    if dice.random() < 0.5:
        return record._replace(asn=(record.asn + dice.choice((1, -1, 256, 65536))) % 2 ** 32)
    return record._replace(max=dice.randint(record.length, model.LONGEST[record.family]))


def tables(dice):
    """Two tables with a common share, and with some records that differ in one field alone."""
    near = dice.random() < 0.5
    one = records(dice, size(dice), near)
    share, moved = dice.choice((0, 0.1, 0.5, 0.9, 0.99, 1)), dice.choice((0, 0, 0.1, 0.5))
    two = [changed(dice, record) if dice.random() < moved else record for record in sorted(one) if dice.random() < share]
    if dice.random() < 0.8:
        two += sorted(records(dice, size(dice) // dice.choice((1, 2, 8)), near))
    two = set(two[:1024])
    return (one, two) if dice.random() < 0.5 else (two, one)


def pair(seed, i, rules):
    dice = random.Random("pair %s %d" % (seed, i))
    old, new = tables(dice)
    return case("pair: seed %s, number %d" % (seed, i), text_of(dice, old, rules), text_of(dice, new, rules), fill=dice.choice((0, 1, 1, 2))), old, new


# ---------------------------------------------------------------------------
# Edits: from a text and another listing the edited text
# ---------------------------------------------------------------------------

def a_byte(dice):
    return bytes([dice.choice((10, 13, 0, 32, 48, 49, 57, 61, 97, 102, 255, dice.randrange(256)))])


def byte_changed(dice, text, other):
    at = dice.randint(0, len(text))
    return text[:at] + a_byte(dice) + text[at + 1:]


def byte_put_in(dice, text, other):
    at = dice.randint(0, len(text))
    return text[:at] + a_byte(dice) + text[at:]


def byte_taken_out(dice, text, other):
    at = dice.randint(0, len(text))
    return text[:at] + text[at + 1:]


def cut(dice, text, other):
    return text[:dice.randint(0, len(text))]


def digit_changed(dice, text, other):
    places = [i for i, byte in enumerate(text) if byte in b"0123456789"] or [0]
    at = dice.choice(places)
    return text[:at] + b"%d" % dice.randrange(10) + text[at + 1:]


def number_changed(dice, text, other):
    """A line's number one up or down, or so that it would wrap; a count keeps its width."""
    lines = text.split(b"\n")
    i = dice.randrange(len(lines))
    name, _, value = lines[i].partition(b"=")
    if value.isdigit() and len(value) < 20:
        number = int(value) + dice.choice((-1, 1, -1, 1, 2 ** 8, 2 ** 16, 2 ** 32, 2 ** 64))
        lines[i] = name + b"=%0*d" % (len(value) if name == b"count" else 1, number)
    return b"\n".join(lines)


def lines_exchanged(dice, text, other):
    lines = text.split(b"\n")
    i, j = dice.randrange(len(lines)), dice.randrange(len(lines))
    lines[i], lines[j] = lines[j], lines[i]
    return b"\n".join(lines)


def line_taken_out(dice, text, other):
    lines = text.split(b"\n")
    del lines[dice.randrange(len(lines))]
    return b"\n".join(lines)


def line_doubled(dice, text, other):
    lines = text.split(b"\n")
    i = dice.randrange(len(lines))
    return b"\n".join(lines[:i + 1] + lines[i:])


def lines_of_another(dice, text, other):
    """Some lines of another listing, put in or in place of as many."""
    lines, theirs = text.split(b"\n"), other.split(b"\n")
    i, j, count = dice.randrange(len(lines)), dice.randrange(len(theirs)), dice.choice((1, 1, 5, 10))
    return b"\n".join(lines[:i] + theirs[j:j + count] + lines[i + dice.choice((0, count)):])


def records_exchanged(dice, text, other):
    """Two records exchanged, or one copied over another."""
    lines = text.split(b"\n")
    if len(lines) >= 18:
        i, j = (7 + 5 * dice.randrange((len(lines) - 8) // 5) for _ in range(2))
        one, two = lines[i:i + 5], lines[j:j + 5]
        lines[j:j + 5] = one
        if dice.random() < 0.5:
            lines[i:i + 5] = two
    return b"\n".join(lines)


def word_put_in(dice, text, other):
    at = dice.randint(0, len(text))
    return text[:at] + dice.choice((b"\n", b"\r", b" ", b"0", b"count=none\n", b"\xef\xbb\xbf", b"1" * 30)) + text[at:]


def record_put_in(dice, text, other):
    """One more record behind, and half of the time counted too: an edit that may fit."""
    lines = text.split(b"\n")
    lines[-1:] = [*model.record_lines(a_record(dice, dice.random() < 0.5)).encode().split(b"\n")]
    if dice.random() < 0.5:
        for i, line in enumerate(lines):
            if line.startswith(b"count=") and line[6:].isdigit() and len(line) < 20:
                lines[i] = b"count=%0*d" % (len(line) - 6, int(line[6:]) + 1)
    return b"\n".join(lines)


EDITS = (byte_changed, byte_put_in, byte_taken_out, cut, digit_changed, digit_changed, number_changed, number_changed, lines_exchanged, line_taken_out, line_doubled,
         lines_of_another, records_exchanged, word_put_in, record_put_in)


def damage(seed, i, rules):
    """One file with one to three edits; now and then both have them, or the output is short."""
    dice = random.Random("damage %s %d" % (seed, i))
    near = dice.random() < 0.5
    good, other = (text_of(dice, records(dice, dice.randint(0, 8) if dice.random() < 0.98 else size(dice), near), rules) for _ in range(2))
    bad = good
    for _ in range(dice.choice((1, 1, 2, 3))):
        bad = dice.choice(EDITS)(dice, bad, other)
    if dice.random() < 0.05:
        other = dice.choice(EDITS)(dice, other, good)
    out, fill = None if dice.random() < 0.95 else dice.randint(0, 40), dice.choice((0, 1, 1, 2))
    if dice.random() < 0.5:
        return case("damaged: seed %s, number %d, old" % (seed, i), bad, other, out=out, fill=fill)
    return case("damaged: seed %s, number %d, new" % (seed, i), other, bad, out=out, fill=fill)
