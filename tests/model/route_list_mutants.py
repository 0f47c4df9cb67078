"""Is the stored sample of lists sharp? Wrong programs, each of which must answer some list of it otherwise than the model.

    python3 route_list_mutants.py QUESTIONS        (or tests/route-lists --sharp)

They are wrong in what refuses a list, in what is written where, in which six numbers are a route, or in the states: by a survey of the table that does not hold
for every route of the list, by what a route leaves behind for the next, by a wrong definition, or by a wrong engine (the last two are origin_mutants.py's).
Six numbers that are no route are called a bad route here.
"""

import bisect
import collections
import sys

import origin as o
import origin_mutants as om
import route_lists as rl

# One list: what the memory alone gives, the records of the live and of the working room, the session's phase, whether it has a table, the list, the state
# list's length, one route's right state, and the right answer.
Call = collections.namedtuple("Call", "said records working phase has_table numbers size state right")


def sixes(numbers):
    return [tuple(numbers[i:i + 6]) for i in range(0, len(numbers) - 5, 6)]


class Recorder(rl.Memory):
    """The model; it keeps each list that it is asked about."""

    def __init__(self):
        self.calls = []
        super().__init__()

    def ask(self, size):
        said, records = self.said()
        states = {six: self.state(six) for six in set(sixes(self.numbers))} if said == 0 else {}
        working = [self.work[6 * i:6 * i + 6] for i in range(min(self.session[16], 1024))]
        answer = super().ask(size)
        self.calls.append(Call(said, records or [], working, self.session[1], self.session[6] == 1, self.numbers[:], size, states.get, answer))
        return answer


# ---------------------------------------------------------------------------
# Refusals: from a call the wrong answer, or None where it is as the model's
# ---------------------------------------------------------------------------

def count(c):
    return len(c.numbers) // 6


def rest(c):
    return len(c.numbers) % 6


def is_short(c):
    return c.size < count(c) and not rest(c)


def gives(c, *answers):
    return c.right[0] in answers


def refused(c, answer, written=0):
    return answer, written, rl.untouched(c.size)


def on_table(c, records):
    """The answer that another table gives."""
    return rl.validate_all(0, c.numbers, c.size, lambda six: rl.state_at(records, six))


def on_list(c, numbers):
    """The answer of another list."""
    return on_table(c._replace(numbers=numbers), c.records)


def as_far_as_it_goes(c, answer):
    return answer, count(c), bytes(map(c.state, sixes(c.numbers)))[:c.size]


def zeroed(c):
    return c.right[0], c.right[1], bytes(c.size)


def with_number(c, number):
    return c.right[0], number, c.right[2]


REFUSALS = {
    "22 never": lambda c: c.said == 22 and on_table(c, []),
    "a list not in sixes taken, the rest passed over": lambda c: rest(c) and c.said == 0 and on_list(c, c.numbers[:6 * count(c)]),
    "a list not in sixes taken, the rest a route": lambda c: rest(c) and c.said == 0 and on_list(c, c.numbers + [0] * (6 - rest(c))),
    "a list not in sixes refused by 9": lambda c: rest(c) and c.said == 0 and refused(c, 9, count(c)),
    "a list of one to five numbers taken as empty": lambda c: rest(c) and not count(c) and c.said == 0 and refused(c, 0),
    "21 before a list not in sixes": lambda c: c.said == 21 and rest(c) and refused(c, 21),
    "21 before 22": lambda c: c.said == 22 and not c.has_table and refused(c, 21),
    "9 before 21": lambda c: c.said == 21 and is_short(c) and refused(c, 9, count(c)),
    "9 before 22": lambda c: c.said == 22 and is_short(c) and refused(c, 9, count(c)),
    "9 before a list not in sixes": lambda c: c.said == 0 and rest(c) and c.size < count(c) and refused(c, 9, count(c)),
    "no table as an empty one": lambda c: gives(c, 21) and on_table(c, []),
    "an empty table as none": lambda c: gives(c, 0, 9) and not c.records and refused(c, 21),
    "must reset refused": lambda c: gives(c, 0, 9) and c.phase == 1 and refused(c, 21),
    "loading refused": lambda c: gives(c, 0, 9) and c.phase in (4, 5) and refused(c, 21),
    "stopped refused": lambda c: gives(c, 0, 9) and c.phase == 6 and refused(c, 22),
    "an empty list refused by 22": lambda c: not c.numbers and refused(c, 22),
    "an empty list refused by 9 with an empty state list": lambda c: gives(c, 0) and c.size == 0 and refused(c, 9),
    "an empty list answered before 22": lambda c: c.said == 22 and not c.numbers and refused(c, 0),
    "an empty list answered before 21": lambda c: c.said == 21 and not c.numbers and refused(c, 0),
    "an empty state list refused by 22": lambda c: gives(c, 9) and c.size == 0 and refused(c, 22),
    "an exact state list refused": lambda c: gives(c, 0) and c.size == count(c) and refused(c, 9, count(c)),
    "a longer state list refused": lambda c: gives(c, 0) and c.size > count(c) and refused(c, 9, count(c)),
    "a state list that is one short taken": lambda c: gives(c, 9) and c.size == count(c) - 1 and as_far_as_it_goes(c, 0),
    "a too short state list filled as far as it goes": lambda c: gives(c, 9) and as_far_as_it_goes(c, 9),
    "a state needed for each number": lambda c: gives(c, 0) and c.size < len(c.numbers) and refused(c, 9, count(c)),
    "routes counted modulo 256 for 9": lambda c: gives(c, 9) and c.size >= count(c) % 256 and as_far_as_it_goes(c, 0),
    "states and routes compared modulo 256": lambda c: gives(c, 0) and c.size % 256 < count(c) % 256 and refused(c, 9, count(c)),
    "9 counts numbers instead of routes": lambda c: gives(c, 9) and with_number(c, len(c.numbers)),
    "9 says how many are missing": lambda c: gives(c, 9) and with_number(c, count(c) - c.size),
    "9 says how many states there are": lambda c: gives(c, 9) and with_number(c, c.size),
    "9 says 0": lambda c: gives(c, 9) and with_number(c, 0),
    "9 says the number modulo 256": lambda c: gives(c, 9) and with_number(c, count(c) % 256),
    "9 says the number modulo 65,536": lambda c: gives(c, 9) and with_number(c, count(c) % 65536),
    "22 says how many": lambda c: gives(c, 22) and with_number(c, count(c)),
    "21 says how many": lambda c: gives(c, 21) and with_number(c, count(c)),
    "a state list zeroed on 22": lambda c: gives(c, 22) and zeroed(c),
    "a state list zeroed on 21": lambda c: gives(c, 21) and zeroed(c),
    "a state list zeroed on 9": lambda c: gives(c, 9) and zeroed(c),
    "a bad route refuses the list by 23": lambda c: gives(c, 0) and 23 in c.right[2] and refused(c, 23),
}


# ---------------------------------------------------------------------------
# What is written where: from the number of routes, their states and the bytes that stood there, the number and the bytes that stand there then
# ---------------------------------------------------------------------------

def over(states, before):
    """States over the first bytes; what is behind them stays, and nothing is written past the end."""
    states = bytes(states)[:len(before)]
    return states + before[len(states):]


def to_bad(s):
    """How many routes there are up to the first bad one."""
    return s.index(23) + 1 if 23 in s else len(s)


def bad_as(byte):
    return lambda n, s, b: (n, over([byte if x == 23 else x for x in s], b))


def as_the_one_before(s, b):
    out = []
    for i, x in enumerate(s):
        out.append(x if x != 23 else out[-1] if out else b[i])
    return out


WRITTEN = {
    "a bad route ends the list": lambda n, s, b: (n, over(s[:to_bad(s)], b)),
    "a bad route ends the list and the count": lambda n, s, b: (to_bad(s), over(s[:to_bad(s)], b)),
    "all behind a bad route are bad": lambda n, s, b: (n, over(s[:to_bad(s)] + b"\x17" * (n - to_bad(s)), b)),
    "the others moved up": lambda n, s, b: (n, over([x for x in s if x != 23], b)),
    "the others moved up, and fewer counted": lambda n, s, b: (n - s.count(23), over([x for x in s if x != 23], b)),
    "23 not counted": lambda n, s, b: (n - s.count(23), over(s, b)),
    "23 as 0": bad_as(0),
    "23 as 1": bad_as(1),
    "23 as 2": bad_as(2),
    "23 as 3": bad_as(3),
    "23 as 22": bad_as(22),
    "no byte for a bad route": lambda n, s, b: (n, over([y if x == 23 else x for x, y in zip(s, b)], b)),
    "a bad route has the state of the one before": lambda n, s, b: (n, over(as_the_one_before(s, b), b)),
    "Valid and Invalid exchanged": lambda n, s, b: (n, over([{1: 2, 2: 1}.get(x, x) for x in s], b)),
    "states from 1 on": lambda n, s, b: (n, over([x + (x < 3) for x in s], b)),
    "the last route left out": lambda n, s, b: (n, over(s[:-1], b)),
    "the last route left out and not counted": lambda n, s, b: (max(0, n - 1), over(s[:-1], b)),
    "the first route left out": lambda n, s, b: (n, over(b[:1] + s[1:] if s else s, b)),
    "every other route left out": lambda n, s, b: (n, over([b[i] if i % 2 else x for i, x in enumerate(s)], b)),
    "one place late": lambda n, s, b: (n, over(b[:1] + s, b)),
    "one place early": lambda n, s, b: (n, over(s[1:], b)),
    "from the last to the first": lambda n, s, b: (n, over(s[::-1], b)),
    "sorted": lambda n, s, b: (n, over(sorted(s), b)),
    "all have the first's state": lambda n, s, b: (n, over(s[:1] * n, b)),
    "all have the last's state": lambda n, s, b: (n, over(s[-1:] * n, b)),
    "a 0 behind the routes": lambda n, s, b: (n, over(s + b"\0", b)),
    "a 23 behind the routes": lambda n, s, b: (n, over(s + b"\x17", b)),
    "zeros behind the routes": lambda n, s, b: (n, over(s + bytes(len(b)), b)),
    "the last's state behind the routes": lambda n, s, b: (n, over(s + s[-1:], b)),
    "a state for each number": lambda n, s, b: (n, over([x for x in s for _ in range(6)], b)),
    "places modulo 256": lambda n, s, b: (n, over(s[n - n % 256:] + s[n % 256:256] if n > 256 else s, b)),
    "routes modulo 256": lambda n, s, b: (n % 256, over(s[:n % 256], b)),
    "written one short": lambda n, s, b: (max(0, n - 1), over(s, b)),
    "written one more": lambda n, s, b: (n + 1, over(s, b)),
    "written 0": lambda n, s, b: (0, over(s, b)),
    "written counts numbers": lambda n, s, b: (6 * n, over(s, b)),
    "written counts the state list": lambda n, s, b: (len(b), over(s, b)),
    "written counts the Valid": lambda n, s, b: (s.count(1), over(s, b)),
    "written modulo 256": lambda n, s, b: (n % 256, over(s, b)),
}


def placed(how, c):
    answer, written, states = c.right
    return (answer, *how(written, states[:written], rl.untouched(c.size))) if answer == 0 else c.right


# ---------------------------------------------------------------------------
# Which six numbers are a route: from the six, and the right answer of any six, what stands in their place
# ---------------------------------------------------------------------------

def kind(change):
    """The answer with another first number."""
    return lambda six, said: said((change(six[0]),) + six[1:])


def unread(*places):
    """IPv4's spares as if they were 0."""
    return lambda six, said: said(tuple(0 if six[0] >> 16 == 4 and i in places else x for i, x in enumerate(six)))


def refused_where(test):
    return lambda six, said: 23 if test(six) else said(six)


def cut_to_32(k):
    """IPv4's lengths of 33 to 128 as 32, which is what is asked of an address that has no more bits."""
    return min(k, rl.V4 + 32) if rl.V4 <= k <= rl.V4 + 128 else k


def has_host_bits(six):
    return rl.is_route(six) and om.first_bits(six[1:5], six[0] % 65536) != list(six[1:5])


ROUTES = {
    "length modulo 256": kind(lambda k: k & 0xFFFF00FF),
    "length modulo 32,768": kind(lambda k: k & 0xFFFF7FFF),
    "a record's first number taken for its length": kind(lambda k: k & 0xFFFF0000 | (k >> 8 & 255 or k & 255)),
    "family modulo 256": kind(lambda k: k & 0xFFFFFF),
    "family modulo 32,768": kind(lambda k: k & 0x7FFFFFFF),
    "family modulo 16": kind(lambda k: k & 0xFFFFF),
    "family modulo 8": kind(lambda k: k & 0x7FFFF),
    "family in the high byte taken": kind(lambda k: k >> 24 << 16 | k & 65535 if k >> 24 else k),
    "family 0 as IPv4": kind(lambda k: k + rl.V4 if k < 65536 else k),
    "family 5 as IPv4": kind(lambda k: k - 65536 if k >> 16 == 5 else k),
    "family 5 as IPv6": kind(lambda k: k + 65536 if k >> 16 == 5 else k),
    "family 7 as IPv6": kind(lambda k: k - 65536 if k >> 16 == 7 else k),
    "every other family as IPv4": kind(lambda k: k if k >> 16 == 6 else rl.V4 | k & 65535),
    "every other family as IPv6": kind(lambda k: k if k >> 16 == 4 else rl.V6 | k & 65535),
    "IPv4's spare 2 unread": unread(2),
    "IPv4's spare 3 unread": unread(3),
    "IPv4's spare 4 unread": unread(4),
    "IPv4's spares unread": unread(2, 3, 4),
    "IPv6's last three numbers as spares": refused_where(lambda six: six[0] >> 16 == 6 and any(six[2:5])),
    "33 taken": kind(lambda k: rl.V4 + 32 if k == rl.V4 + 33 else k),
    "129 taken": kind(lambda k: rl.V6 + 128 if k == rl.V6 + 129 else k),
    "32 refused": refused_where(lambda six: six[0] == rl.V4 + 32),
    "128 refused": refused_where(lambda six: six[0] == rl.V6 + 128),
    "128 for both families": kind(cut_to_32),
    "32 for both families": refused_where(lambda six: six[0] > rl.V6 + 32),
    "the families' longest exchanged": lambda six, said: 23 if six[0] > rl.V6 + 32 else kind(cut_to_32)(six, said),
    "a too long route cut": kind(lambda k: min(k, rl.V4 + 32) if k >> 16 == 4 else min(k, rl.V6 + 128) if k >> 16 == 6 else k),
    "length 0 refused": refused_where(lambda six: six[0] % 65536 == 0),
    "origin 0 refused": refused_where(lambda six: six[5] == 0),
    "address 0 refused": refused_where(lambda six: not any(six[1:5])),
    "host bits of an IPv4 route refused": refused_where(lambda six: six[0] >> 16 == 4 and has_host_bits(six)),
    "host bits of an IPv6 route refused": refused_where(lambda six: six[0] >> 16 == 6 and has_host_bits(six)),
}


class ByRoute:
    """Lists with a fault in what is a route."""

    def __init__(self, how):
        self.how, self.known = how, {}

    def __call__(self, c):
        def said(six):
            at = (id(c.records), six)
            if at not in self.known:
                self.known[at] = rl.state_at(c.records, six)
            return self.known[at]
        return rl.validate_all(c.said, c.numbers, c.size, lambda six: self.how(six, said))


# ---------------------------------------------------------------------------
# A survey of the table: for each family (least, loose), the shortest length and the shortest of a record with host bits, or one over the longest
# ---------------------------------------------------------------------------

NONE = {4: 33, 6: 129}


def lengths(records, family):
    """In table order: all lengths, and those of records with host bits."""
    parts = [(n, list(own)) for f, n, _, own, _ in map(o.parts_of_record, records) if f == family]
    return [n for n, _ in parts], [n for n, own in parts if om.first_bits(own, n) != own]


def survey(records, least=min, loose=min, families=(4, 6)):
    out = {}
    for f in (4, 6):
        tight, host = lengths(records, f)
        out[f] = (least(tight) if tight and f in families else NONE[f], loose(host) if host and f in families else NONE[f])
    return out


def first_family(c):
    return next((six[0] >> 16 for six in sixes(c.numbers) if rl.is_route(six)), 4)


def exchanged(s, least, loose):
    """The families' numbers exchanged, both or one of them."""
    return {f: (s[10 - f if least else f][0], s[10 - f if loose else f][1]) for f in s}


def first_of(lengths_found):
    return lengths_found[0]


def last_of(lengths_found):
    return lengths_found[-1]


def over_0(lengths_found):
    return min(n or 129 for n in lengths_found)


SURVEYS = {
    "host bits passed over": lambda c: survey(c.records, loose=lambda _: 129),
    "host bits of length 0 passed over": lambda c: survey(c.records, loose=over_0),
    "length 0 passed over": lambda c: survey(c.records, least=over_0),
    "least is the first's": lambda c: survey(c.records, least=first_of),
    "least is the last's": lambda c: survey(c.records, least=last_of),
    "least is the longest": lambda c: survey(c.records, least=max),
    "least one too large": lambda c: survey(c.records, least=lambda x: min(x) + 1),
    "loose is the first's": lambda c: survey(c.records, loose=first_of),
    "loose is the last's": lambda c: survey(c.records, loose=last_of),
    "loose is the longest": lambda c: survey(c.records, loose=max),
    "loose one too large": lambda c: survey(c.records, loose=lambda x: min(x) + 1),
    "families' bounds exchanged": lambda c: exchanged(survey(c.records), True, True),
    "families' least exchanged": lambda c: exchanged(survey(c.records), True, False),
    "families' loose exchanged": lambda c: exchanged(survey(c.records), False, True),
    "IPv4's bounds for both": lambda c: dict.fromkeys((4, 6), survey(c.records)[4]),
    "IPv6's bounds for both": lambda c: dict.fromkeys((4, 6), survey(c.records)[6]),
    "IPv4 alone": lambda c: survey(c.records, families=(4,)),
    "IPv6 alone": lambda c: survey(c.records, families=(6,)),
    "the first route's family alone": lambda c: survey(c.records, families=(first_family(c),)),
    "the first record left out": lambda c: survey(c.records[1:]),
    "the last record left out": lambda c: survey(c.records[:-1]),
    "of the working room": lambda c: survey(c.working),
}


class BySurvey:
    """Lists by the engine of origin_mutants.py with a survey for the whole list."""

    def __init__(self, how, is_late=False):
        self.how, self.is_late, self.before, self.known, self.keys = how, is_late, None, {}, {}

    def __call__(self, c):
        if c.said != 0:
            return c.right
        if id(c.records) not in self.keys:
            self.keys[id(c.records)] = [om.key(x) for x in c.records]
        bounds = now = self.how(c)
        if self.is_late:
            bounds, self.before = self.before or now, now

        def state(six):
            if not rl.is_route(six):
                return 23
            at = (id(c.records), six, bounds[six[0] >> 16])
            if at not in self.known:
                self.known[at] = om.quick("", c.records, self.keys[id(c.records)], six, *at[2])
            return self.known[at]
        return rl.validate_all(0, c.numbers, c.size, state)


# ---------------------------------------------------------------------------
# What a route leaves behind for the next: from a route, its right state, the call and what is left, its state
# ---------------------------------------------------------------------------

def stays(first, then):
    """A state that the next route keeps where it would have another."""
    def state(six, right, c, left):
        said = first if left.get("last") == first and right == then else right
        left["last"] = said
        return said
    return state


def remembered(key):
    """The state of an earlier route that is the same but for a part."""
    return lambda six, right, c, left: left.setdefault(key(six), right)


def ascending(six, right, c, left):
    """Records before the last route's place are not looked at again."""
    if len(c.numbers) > 600 or not c.records:
        return right
    places = [(x[0] >> 16, *x[1:5]) for x in c.records]
    said = o.state_of(c.records[left.get("at", 0):], six)
    left["at"] = max(left.get("at", 0), bisect.bisect_left(places, (six[0] >> 16, *om.first_bits(six[1:5], 8))))
    return said


def used_up(six, right, c, left):
    """A record that has matched is not looked at again."""
    if len(c.numbers) > 600:
        return right
    gone = left.setdefault("gone", set())
    said = o.state_of([x for i, x in enumerate(c.records) if i not in gone], six)
    gone |= {i for i, x in enumerate(c.records) if o.matches(x, six)}
    return said


LEFT = {
    "Invalid stays": stays(2, 0),
    "Valid stays": stays(1, 2),
    "NotFound stays": stays(0, 2),
    "remembered without the origin": remembered(lambda six: six[:5]),
    "remembered without the length": remembered(lambda six: (six[0] >> 16,) + six[1:]),
    "remembered without the family": remembered(lambda six: (six[0] % 65536,) + six[1:]),
    "remembered without the last address number": remembered(lambda six: six[:4] + six[5:]),
    "remembered by the prefix's first number": remembered(lambda six: six[:2]),
    "routes taken as ascending": ascending,
    "records used up": used_up,
}


def one_by_one(how, c):
    left = {}
    return rl.validate_all(0, c.numbers, c.size, lambda six: how(six, c.state(six), c, left) if rl.is_route(six) else 23) if c.said == 0 else c.right


# ---------------------------------------------------------------------------
# A wrong definition, a wrong engine, another table
# ---------------------------------------------------------------------------

class ByFault:
    """Lists by a faulty program of origin_mutants.py: its definition, or its engine with `bounds` or the true ones."""

    def __init__(self, fault, is_engine=False, bounds=None):
        self.fault, self.is_engine, self.bounds, self.known, self.tables = fault, is_engine, bounds, {}, {}

    def one(self, records, six):
        if not self.is_engine:
            return om.plain(self.fault, records, six)
        if id(records) not in self.tables:
            self.tables[id(records)] = [om.key(x) for x in records], survey(records)
        keys, true = self.tables[id(records)]
        return om.quick(self.fault, records, keys, six, *(self.bounds or true[six[0] >> 16]))

    def __call__(self, c):
        def state(six):
            at = (id(c.records), six)
            if at not in self.known:
                self.known[at] = self.one(c.records, six) if rl.is_route(six) else 23
            return self.known[at]
        return rl.validate_all(c.said, c.numbers, c.size, state)


def on_working(c):
    return on_table(c, c.working) if c.said == 0 and len(c.numbers) < 600 else c.right


class Late:
    """Lists by the table of the list before."""

    def __init__(self):
        self.before = None

    def __call__(self, c):
        if c.said != 0:
            return c.right
        records, self.before = self.before, c.records
        return on_table(c, records) if records is not None and records is not c.records and len(c.numbers) < 600 else c.right


# ---------------------------------------------------------------------------
# All of them
# ---------------------------------------------------------------------------

def programs():
    """(kind, name, the program): a program answers a call."""
    out = [("refusal", name, lambda c, how=how: how(c) or c.right) for name, how in REFUSALS.items()]
    out += [("written", name, lambda c, how=how: placed(how, c)) for name, how in WRITTEN.items()]
    out += [("route", name, ByRoute(how)) for name, how in ROUTES.items()]
    out += [("table", "the working room's", on_working), ("table", "of the list before", Late())]
    out += [("survey", name, BySurvey(how)) for name, how in SURVEYS.items()]
    out += [("survey", "of the list before", BySurvey(lambda c: survey(c.records), is_late=True))]
    out += [("left behind", name, lambda c, how=how: one_by_one(how, c)) for name, how in LEFT.items()]
    out += [("definition", name, ByFault(name)) for name in om.PLAIN]
    out += [("engine with 0 and 0", name, ByFault(name, True, (least, loose))) for name, least, loose in om.QUICK]
    # the walk's faults; those of its two numbers are among the surveys
    walk = [name for name in om.WALK if name[:5] not in ("least", "loose") and name not in om.HARMLESS]
    out += [("engine with the true numbers", name, ByFault(name, True)) for name in walk]
    return out


def faultless():
    """The same programs without a fault: they must agree with the model."""
    return [("what is a route", ByRoute(lambda six, said: said(six))), ("the survey", BySurvey(lambda c: survey(c.records))),
            ("one by one", lambda c: one_by_one(lambda six, right, c, left: right, c)), ("the definition", ByFault("")),
            ("the engine with 0 and 0", ByFault("", True, (0, 0))), ("the engine with the true numbers", ByFault("", True))]


def main(path):
    with open(path) as file:
        lines = file.read().splitlines()
    model = Recorder()
    for text in lines:
        model.line(text)

    def differ(program):
        return sum(program(c) != c.right for c in model.calls)

    missed = []
    made = programs()
    for what, name, program in made:
        n = differ(program)
        print("%5d of %d differ: %s: %s" % (n, len(model.calls), what, name))
        if n == 0:
            missed.append(name)
    for name, program in faultless():
        n = differ(program)
        print("%5d of %d differ: without a fault: %s" % (n, len(model.calls), name))
        if n:
            missed.append("without a fault: " + name)
    print("%d wrong programs, %d not found out%s" % (len(made), len(missed), "".join("; " + name for name in missed)))
    return 1 if missed else 0


if __name__ == "__main__":
    sys.exit(main(sys.argv[1]))
