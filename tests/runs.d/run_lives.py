"""Receivers that are fed runs, for tests/runs: random ones by a seed, holds on either side of a PDU's length, and the tables of real caches.

A life is the steps of run_model.py. What a receiver makes of a run must be what request Five says (OP 5.8) and what tests/model's receiver makes of it, however the run is cut.
"""

import collections
import itertools
import random

import diff_random
import run_cases as cases
import run_model as model
from diff_model import Table

# A receiver's life: version, hold, steps.
Life = collections.namedtuple("Life", "name version hold steps")

HOLDS = (32, 32, 32, 33, 40, 63, 64, 100, 1024, 8192, 8192, 131086)
WAYS = ("whole", "in single bytes", "in random cuts")


def fed(data):
    return "feed", data, (len(data),)


# ---------------------------------------------------------------------------
# Random runs
# ---------------------------------------------------------------------------

def a_number(dice, bits):
    return dice.choice((0, 1, 2 ** bits - 1, 2 ** (bits - 1), dice.getrandbits(bits), dice.getrandbits(bits), dice.getrandbits(bits)))


def an_end(dice, session=None):
    return Table(a_number(dice, 16) if session is None else session, *(a_number(dice, 32) for _ in range(4)))


def random_run(seed, i):
    """Run number i of a seed, the same whatever comes before it: (dice, case, end, first table or None, second table). Four in a row have both versions and both kinds."""
    dice = random.Random("run %s %d" % (seed, i))
    first, second = map(sorted, diff_random.tables(dice))
    version, is_change = i % 2, i // 2 % 2
    end = an_end(dice)
    name = "random: seed %s, number %d, version %d, %s" % (seed, i, version, "change" if is_change else "full")
    case = cases.run(name, version, end, [first, second] if is_change else [second], more=dice.choice((0, 0, 1, 100)))
    return dice, case, end, first if is_change else None, second


def damaged_run(seed, i):
    """A random run with one or two numbers of a room changed, or with another count, end number, version or output: most are refused by 22, some are not."""
    dice = random.Random("damaged %s %d" % (seed, i))
    first, second = (sorted(diff_random.records(dice, dice.randint(0, 6), dice.random() < 0.5)) for _ in range(2))
    case = cases.run("damaged: seed %s, number %d" % (seed, i), dice.randrange(2), an_end(dice), [first, second][dice.randrange(2):])
    rooms, end, which = list(case.rooms), list(case.end), dice.randrange(len(case.rooms))
    for _ in range(dice.choice((1, 1, 2))):
        numbers, count, kind = *rooms[which], dice.random()
        if kind < 0.7:
            place = dice.randrange(min(6 * count + 7, len(numbers))) if dice.random() < 0.9 else dice.randrange(len(numbers))
            number = dice.choice((numbers[place] ^ 1 << dice.randrange(32), (numbers[place] + dice.choice((1, -1))) % 2 ** 32, numbers[(place + 6) % len(numbers)], numbers[place - 6], 0))
            rooms[which] = model.Room(numbers[:place] + (number,) + numbers[place + 1:], count)
        elif kind < 0.8:
            rooms[which] = model.Room(numbers, (count + dice.choice((1, -1, 256, 2 ** 32))) % 2 ** 64)
        elif kind < 0.9:
            end[dice.randrange(5)] ^= 1 << dice.randrange(40)
        else:
            case = case._replace(version=dice.choice((0, 1, 2, 255)), out=max(0, case.out + dice.choice((-1, 1, -20))))
    return case._replace(rooms=tuple(rooms), end=tuple(end))


# ---------------------------------------------------------------------------
# Lives
# ---------------------------------------------------------------------------

def other_run(dice, version):
    """A full run of a small table that is nobody's."""
    return model.full_run(version, an_end(dice), sorted(diff_random.records(dice, dice.randint(0, 5), True)))


def up_to_the_ask(dice, version, end, first):
    """Steps to a receiver that has asked for the run and holds nothing, and its note. OP 5.7: for a full run it may have had any life."""
    steps, note = [("full",)], None
    had = dice.choice(("nothing", "nothing", "a table", "a stop", "a reset"))
    if first is None and had != "nothing":
        steps += [fed(other_run(dice, version)), ("full",)]
    if first is not None:
        steps += [fed(model.full_run(version, an_end(dice, end.session), first)), ("change",)]
    if len(steps) > 1 and had == "a stop":
        # a PDU of the other version, behind a note that the new connection forgets
        steps += [fed(model.serial_notify(version, 1, 2) + model.cache_response(1 - version, 3)), ("reconnect",), steps[-1]]
    if len(steps) > 1 and first is None and had == "a reset":
        steps[-1:] = [("change",), fed(model.cache_reset(version)), ("full",)]
    if dice.random() < 0.5:
        note = (a_number(dice, 16), a_number(dice, 32))
        steps.insert(len(steps) - (len(steps) > 1 and dice.random() < 0.5), fed(model.serial_notify(version, *note)))
    return steps, note


def pieces(dice, data, way):
    """The lengths of a run's pieces; some are 0."""
    size = len(data)
    if way == "whole":
        return (size,)
    if way == "in single bytes":
        return (1,) * size
    kind = dice.random()
    if kind < 0.6:
        places = [dice.randint(0, size) for _ in range(dice.choice((1, 1, 2, 3, 8, 40)))]
    elif kind < 0.8:
        step = dice.randint(1, 64)
        places = range(step, size, step)
    else:
        # about the ends of PDUs
        at, places = 0, []
        while at < size:
            places += [at + near for near in (-1, 0, 1, 7, 8, 9) if dice.random() < 0.4 and 0 <= at + near <= size]
            at += int.from_bytes(data[at + 4:at + 8], "big")
    places = [0, *sorted(places), size]
    return tuple(b - a for a, b in zip(places, places[1:]))


def lives(dice, name, version, end, first, second, data, ways=WAYS):
    """Lives that are fed these bytes: (life, how it must end, what the papers and the model differ in)."""
    steps, note = up_to_the_ask(dice, version, end, first)
    wanted = model.life_by_model(version, 64, steps + [fed(data)])
    own = [] if wanted[1:] == model.life_by_statement(version, end, note, second) and wanted.steps[-1] == (0, len(data), 1) else ["tests/model's receiver does not end as request Five says"]
    for way in ways:
        hold = dice.choice(HOLDS)
        yield Life("%s, fed %s, hold %d" % (name, way, hold), version, hold, steps + [("feed", data, pieces(dice, data, way))]), wanted, own


# ---------------------------------------------------------------------------
# Holds
# ---------------------------------------------------------------------------

def longest_pdu(data):
    at, found = 0, 0
    while at < len(data):
        length = int.from_bytes(data[at + 4:at + 8], "big")
        at, found = at + length, max(found, length)
    return found


def holds():
    """OP 5.7: with a PDU over the hold the receiver stops by 12, and else all is well, under 32 too: (life, how it must end, what is wrong with the model)."""
    tables, end = cases.SMALL, cases.USUAL
    named = [(None, "empty"), (None, "IPv4"), (None, "IPv6"), (None, "three"), ("empty", "IPv6"), ("IPv4", "three"), ("IPv4", "lowest"), ("lowest", "empty"), ("IPv4", "IPv4")]
    for version, (one, two), hold in itertools.product((0, 1), named, (8, 11, 12, 19, 20, 23, 24, 31, 32)):
        first = tables[one] if one else None
        data = model.full_run(version, end, tables[two]) if one is None else model.change_run(version, end, first, tables[two])
        steps = [("full",)]
        if first is not None:
            load = model.full_run(version, end, first)
            steps += [fed(load), ("change",)]
            if longest_pdu(load) > hold:
                continue
        name = "hold: %d, version %d, %s" % (hold, version, two if one is None else "%s to %s" % (one, two))
        wanted, over = model.life_by_model(version, hold, steps + [fed(data)]), longest_pdu(data) > hold
        if over:
            right = wanted.steps[-1][0] == 12 and wanted.session[3] > hold and wanted.steps[-1][1] < len(data)
        else:
            right = wanted[1:] == model.life_by_statement(version, end, None, tables[two]) and wanted.steps[-1] == (0, len(data), 1)
        for lengths in ((len(data),), (1,) * len(data)):
            yield Life("%s, in pieces of %d" % (name, lengths[0]), version, hold, steps + [("feed", data, lengths)]), wanted, [] if right else ["tests/model's receiver does not end as request Five says"]
