#!/usr/bin/env python3
"""A reference model of the question about a list of routes (document 02, request Two), and random lists for tests/route-lists.

Written from document 02, the decided open points (here "OP 2.x") and include/hingemoss.h, by someone who had not seen the code that answers.  States, and
refusals by the memory, are the single question's (origin.py).  Here are: which six numbers are a route, the order of refusals, and what is written.

    python3 route_lists.py QUESTIONS > ANSWERS

Lines are origin.py's from `new` to `pending`, which set memory (the last number of `lend` has no use here), and these, which make a list of numbers and ask:

    empty                 the list has no numbers; so it begins
    route K A B C D N     six numbers behind those of the list
    number X              one number behind them
    repeat N              the list over and over, until it has N routes
    list S                the question: the whole list is lent, and a state list of S bytes, in which byte i is 128 + i % 127 before the call

The list stays until `empty`, whatever becomes of the memory.  Only `list` prints: `ANSWER WRITTEN STATES`, two decimal numbers, and the S bytes after the
call in hex (`-` where S is 0).

The generator's answers come another way than the model's: a refusal because the lines were made for it, a state by sets of prefixes (routes.py).
"""

import random
import sys

import origin
import routes as r1

NO_ROUTE = 23
V4, V6 = 4 * 65536, 6 * 65536


# ---------------------------------------------------------------------------
# The call
# ---------------------------------------------------------------------------

def is_route(six):
    """OP 2.1, 2.2: the first number is one of IPv4's 33 or of IPv6's 129, and IPv4 has its address in one number."""
    kind, _, second, third, fourth, _ = six
    return kind in range(V4, V4 + 33) and (second, third, fourth) == (0, 0, 0) or kind in range(V6, V6 + 129)


def state_at(records, six):
    """What stands in a route's place: "what the single question gives", its state or 23."""
    answer, state = origin.answer(0, records, six)
    if answer != (0 if is_route(six) else NO_ROUTE):
        raise AssertionError("origin.py and this model differ on what a route is: %s" % (six,))
    return state if answer == 0 else answer


def untouched(size):
    """A state list before the call: no byte of it is a state or 23."""
    return bytes(128 + i % 127 for i in range(size))


def validate_all(said, numbers, size, state):
    """(answer, written, the state list), where `said` is what the memory alone gives and `state` answers one route. OP 2.3: 22, 21, 9."""
    states = untouched(size)
    if said == 22 or len(numbers) % 6 != 0:
        return 22, 0, states
    if said == 21:
        return 21, 0, states
    routes = [tuple(numbers[i:i + 6]) for i in range(0, len(numbers), 6)]
    if size < len(routes):
        return 9, len(routes), states
    return 0, len(routes), bytes(map(state, routes)) + states[len(routes):]


class Memory(origin.Memory):
    """What is lent, as question lines set it; and the list."""

    def __init__(self):
        self.numbers, self.answered = [], (None, {})
        super().__init__()

    def state(self, route):
        """The table does not change under a list: a route is asked about once."""
        records = self.said()[1]
        if self.answered[0] is not records:
            self.answered = (records, {})
        if route not in self.answered[1]:
            self.answered[1][route] = state_at(records, route)
        return self.answered[1][route]

    def ask(self, size):
        return validate_all(self.said()[0], self.numbers, size, self.state)

    def line(self, text):
        """The answer of a `list` line, else None."""
        word, *rest = text.split()
        if word not in ("empty", "route", "number", "repeat", "list"):
            return super().line(text)
        n = [int(x, 16) for x in rest]
        if word == "empty":
            self.numbers = []
        elif word == "repeat":
            once = self.numbers
            self.numbers = (once * (6 * n[0] // len(once) + 1))[:max(len(once), 6 * n[0])]
        elif word == "list":
            return self.ask(n[0])
        elif len(n) == (6 if word == "route" else 1):
            self.numbers += n
        else:
            raise ValueError("no such line: " + text)
        return None


def printed(said):
    answer, written, states = said
    return "%d %d %s" % (answer, written, states.hex() or "-")


# ---------------------------------------------------------------------------
# Six numbers that are no route
# ---------------------------------------------------------------------------

FAMILIES = (0, 1, 2, 3, 5, 7, 8, 12, 20, 22, 0x0400, 0x0600, 256, 260, 262, 32772, 32774, 65530, 65532, 65535)
LENGTHS = {4: (33, 34, 64, 128, 129, 255, 256, 256 + 24, 280 + 256, 24 * 256, 32768, 32768 + 24, 65535),
           6: (129, 130, 255, 256, 256 + 32, 280, 512, 32768, 32768 + 64, 65535)}
# behind a good first number these would be Valid on DAMAGED's table
ADDRESS = {4: [0x0A000000, 0, 0, 0, 64496], 6: [0x20010DB8, 0, 0, 0, 64496]}


def no_routes():
    """Each kind, with its reason."""
    out = [("six zeros", [0] * 6), ("all bits set", [0xFFFFFFFF] * 6)]
    for family in FAMILIES:
        out += [("of no known family", [family * 65536 + length] + ADDRESS[like]) for like, length in ((4, 8), (6, 32))]
        out.append(("of no known family", [family * 65536] + [0] * 5))
    for family, lengths in LENGTHS.items():
        out += [("a too long IPv%d route" % family, [family * 65536 + length] + ADDRESS[family]) for length in lengths]
    for place in (2, 3, 4):
        for value in (1, 0x80000000, 0xFFFFFFFF):
            six = [V4 + 8] + ADDRESS[4]
            six[place] = value
            out.append(("an IPv4 route with number %d not 0" % place, six))
    out.append(("an IPv4 route with three spares not 0", [V4 + 8, 0x0A000000, 1, 2, 3, 64496]))
    out.append(("an IPv4 route with three spares not 0", [V4 + 32, 0x20010DB8, 1, 1, 1, 64496]))
    out.append(("an IPv4 route with number 4 not 0", [V4, 0, 0, 0, 1, 0]))
    for record in ((4, 0x0A000000, 8, 24, 64496), (4, 0x0A000000, 1, 1, 1), (4, 0xC0000200, 24, 24, 64497), (4, 0xFFFFFFFF, 32, 32, 1),
                   (6, 0x20010DB8 << 96, 32, 48, 64496), (6, 0, 1, 1, 1), (6, 1, 128, 128, 1)):
        out.append(("an IPv%d record" % record[0], r1.record_numbers(record)))
    return out


# ---------------------------------------------------------------------------
# The generator
# ---------------------------------------------------------------------------

class Block:
    """Lines of one memory and its lists; `expected` has (answer, written, states, cases) for each `list` line."""

    def __init__(self, said=0):
        self.lines, self.expected, self.said = ["new", "empty"], [], said
        self.items, self.rest, self.cases = [], 0, ()

    def put(self, items, rest=0, repeat=0, cases=()):
        """The list: (six numbers, the state that is expected) for each route, and so many numbers more."""
        self.lines += ["empty"] + ["route " + r1.hexes(six) for six, _ in items]
        if repeat:
            self.lines.append("repeat %x" % repeat)
            items = (items * (repeat // len(items) + 1))[:repeat]
        self.lines += ["number %x" % x for x in (V4 + 24, 0x0A000000, 0, 0, 0)[:rest]]
        self.items, self.rest, self.cases = items, rest, tuple(cases)

    def ask(self, size, *cases):
        """The question with so many states. What is expected is said here, not asked of the model."""
        n, states = len(self.items), untouched(size)
        if self.said == 22 or self.rest:
            said = (22, 0, states)
        elif self.said == 21:
            said = (21, 0, states)
        elif size < n:
            said = (9, n, states)
        else:
            said = (0, n, bytes(state for _, state in self.items) + states[n:])
        room = "exact" if size == n else "longer" if size > n else "none" if size == 0 else "one short" if size == n - 1 else "shorter"
        form = ("list: not in sixes",) if self.rest else ("list: no routes",) if n == 0 else self.cases
        self.lines.append("list %x" % size)
        self.expected.append((*said, form + ("states: " + ("none for no routes" if size == n == 0 else room),) + cases))


class Generator(r1.Generator):
    def __init__(self, seed):
        super().__init__(seed)
        self.rng = random.Random("route lists/%s" % seed)
        self.only = None
        self.no_routes = no_routes()

    # -- tables -------------------------------------------------------------

    def families(self):
        return self.only or super().families()

    def usual(self, only=None):
        """Records without host bits, none of length 0."""
        self.only = only or (4, 6)
        out = [x for x in self.cluster() + self.edges() + self.cluster() if x[2] > 0 and x[0] in self.only]
        self.only = None
        return out or self.usual(only)

    def loosened(self, records, share=1):
        return [(f, self.host(f, a, n) if self.chance(share) else a, n, m, s) for f, a, n, m, s in records]

    def of_length_0(self, has_host_bits):
        """Records that cover all of a family or of both."""
        return [self.record(f, self.host(f, 0, 0) if has_host_bits else 0, 0) for f in self.rng.choice([(4,), (6,), (4, 6)])]

    def one_loose(self, records):
        """One record with host bits: short, and most often far from where its prefix would stand."""
        f, a = self.rng.choice(records)[:2]
        n = self.rng.choice([1, 1, 2, 4, 8, self.rng.randrange(1, r1.WIDTH[f])])
        return records + [self.record(f, self.host(f, a, n), n)]

    def unlike(self):
        """One family with short records and host bits, the other with long ones and none."""
        short, long = self.rng.choice([(4, 6), (6, 4)])
        out = [self.record(short, self.host(short, self.address(short), n), n) for n in (0, 1, 3, 8)[self.rng.randrange(4):]]
        for _ in range(self.rng.randint(1, 12)):
            n = self.rng.randint(r1.WIDTH[long] * 3 // 4, r1.WIDTH[long])
            out.append(self.record(long, r1.cut(long, self.address(long), n), n))
        return out + self.usual((short,))

    def full(self, some):
        """1,024 records, of what `some` gives."""
        out = set()
        while len(out) < r1.FULL_ROOM:
            out |= set(some())
        return self.rng.sample(sorted(out), r1.FULL_ROOM)

    def tables(self):
        """Kinds of tables: name and how one is made. The last four have 1,024 records."""
        return [("no record", list),
                ("IPv4 alone", lambda: self.usual((4,))),
                ("IPv6 alone", lambda: self.usual((6,))),
                ("both families", self.usual),
                ("a chain that covers", self.chain),
                ("one prefix, many records", self.one_prefix),
                ("a stair below an address", self.stair),
                ("edges of lengths", self.edges),
                ("the same bits in both families", self.both),
                ("length 0", lambda: self.usual() + self.of_length_0(False)),
                ("length 0 alone", lambda: self.of_length_0(self.chance(0.5))),
                ("length 0 with host bits", lambda: self.usual() + self.of_length_0(True)),
                ("one record with host bits", lambda: self.one_loose(self.usual(self.rng.choice([(4,), (6,), (4, 6)])))),
                ("some with host bits", lambda: self.loosened(self.usual() + self.chain(), 0.3)),
                ("all with host bits", lambda: self.loosened(self.usual() + self.one_prefix())),
                ("the families unlike", self.unlike),
                ("1,024 records", lambda: self.full(self.usual)),
                ("1,024 records, one with host bits", lambda: self.one_loose(self.full(self.usual)[:-1])),
                ("1,024 records with host bits", lambda: self.full(lambda: self.loosened(self.usual()))),
                ("1,024 records of few prefixes", lambda: self.full(lambda: self.one_prefix(300)))]

    # -- lists: (six numbers, state expected) ---------------------------------

    def item(self, route):
        return r1.route_numbers(route), self.sets.state(route)

    def good(self, family=None):
        route = self.route(self.records)
        while family and route[0] != family:
            route = self.route([x for x in self.records if x[0] == family])
        return self.item(route)

    def bad(self):
        return (self.rng.choice(self.no_routes)[1] if self.chance(0.7) else self.refused_route(self.records)[0]), NO_ROUTE

    def mixed(self, n):
        return [self.bad() if self.chance(0.2) else self.good() for _ in range(n)]

    def all_good(self, n):
        return [self.good() for _ in range(n)]

    def all_bad(self, n):
        return [self.bad() for _ in range(n)]

    def equal(self, n):
        """One or two routes many times."""
        few = [self.good(), self.rng.choice([self.good, self.bad])()]
        return [few[i > n // 2] for i in range(n)] if self.chance(0.5) else [few[i % 2] for i in range(n)]

    def bad_first(self, n):
        return [self.bad()] + self.all_good(n)

    def bad_between(self, n):
        return self.all_good(n // 2 + 1) + [self.bad()] + self.all_good(n - n // 2)

    def bad_last(self, n):
        return self.all_good(n) + [self.bad()]

    def bad_all_over(self, n):
        """A bad one first, in the middle and last."""
        return self.bad_first(n // 2 + 1) + self.bad_first(n - n // 2) + [self.bad()]

    def in_turn(self, n):
        """Families in turn."""
        return [self.good(4 + 2 * (i % 2)) for i in range(n)]

    def each_state(self, n):
        """Valid, Invalid and NotFound in turn as far as they are found, so that neighbours differ."""
        found = {}
        for six, state in (self.good() for _ in range(6 * n + 6)):
            found.setdefault(state, []).append((six, state))
        piles = list(found.values())
        return [self.rng.choice(piles[i % len(piles)]) for i in range(n)]

    def twins(self, n):
        """Pairs of routes of which only one number differs: family, length, a bit of the address, origin."""
        out = []
        while len(out) < n:
            f, a, length, origin = self.route(self.records)
            long = [x for x in self.records if x[2] > 96]
            if long and self.chance(0.3):
                f, a, length, _, origin = self.rng.choice(long)
            others = [(f, a, max(0, length - 1), origin), (f, a, min(r1.WIDTH[f], length + 1), origin), (f, a, length, origin ^ 1),
                      (f, r1.flip(f, a, length - 1), length, origin)]
            if f == 4:
                others.append((6, a << 96, length, origin))
            out += [self.item((f, a, length, origin)), self.item(self.rng.choice(others))]
        return out

    def around(self, n):
        """Around one record: its lengths and max and one more or less, one bit off at the edge, its AS number, another and 0."""
        if not self.records:
            return self.all_good(n)
        f, a, length, most, asn = self.rng.choice(self.records)
        lengths = [x for x in (length - 1, length, length + 1, most - 1, most, most + 1, r1.WIDTH[f]) if 0 <= x <= r1.WIDTH[f]]
        addresses = [a, r1.cut(f, a, length), r1.flip(f, a, length - 1), r1.flip(f, a, length), r1.flip(f, a, 0)]
        every = [(f, b, x, s) for b in addresses for x in lengths for s in (asn, asn ^ 1, 0)]
        return [self.item(x) for x in self.rng.sample(every, min(n, len(every)))]

    def records_for_routes(self, n):
        """Records as they stand in the room: 23, unless their length is 0; then max reads as the length."""
        out = [self.good()]
        for record in self.rng.sample(self.records, min(n, len(self.records))):
            f, a, length, most, asn = record
            out.append(self.item((f, a, most, asn)) if length == 0 else (r1.record_numbers(record), NO_ROUTE))
        return out + [self.good()]

    FORMS = (mixed, all_good, all_bad, equal, bad_first, bad_between, bad_last, bad_all_over, in_turn, each_state, twins, around,
             records_for_routes)

    def put(self, block, form, n, **words):
        block.put(form(self, n), cases=("list: " + form.__name__.replace("_", " "),), **words)

    def sizes(self, n):
        """Lengths of a state list: too short, exact, too long."""
        return self.rng.choice([n, n, n, max(0, n - 1), max(0, n - 1), 0, n + 1, n + 2, n + self.rng.randint(1, 40), 6 * n, n // 2])

    # -- memory -------------------------------------------------------------

    def begin(self, name, records, phase, has_table=True):
        """A block on a memory in order, or without a table, where two phases are none: 22."""
        self.records = sorted(set(records))
        self.sets = r1.BySets(self.records)
        block = Block(0 if has_table else 22 if phase in (r1.ASKED_CHANGE, r1.LOADING_CHANGE) else 21)
        if has_table:
            block.lines += ["record " + r1.hexes(r1.record_numbers(x)) for x in self.records]
            self.set_table(block)
        self.set_phase(block, phase)
        self.set_rest(block, phase)
        if phase in (r1.LOADING_FULL, r1.LOADING_CHANGE) and self.chance(0.8):
            block.lines += ["pending " + r1.hexes(r1.record_numbers(x)) for x in self.pending(self.records[:40], (64496, 1, 0x80000000))]
        block.memory = ("phase: " + r1.PHASES[phase] + ("" if has_table else ", no table"),) + (("table: " + name,) if has_table else ())
        return block

    # -- blocks that are always made ------------------------------------------

    def phases(self):
        """Every phase with and without a table: no routes, bad ones in every place, and numbers left over, each with states of every length."""
        for has_table in (True, False):
            for phase in range(7):
                block = self.begin("one record with host bits", self.one_loose(DAMAGED), phase, has_table)
                block.put([])
                for size in (0, 1 + phase):
                    block.ask(size, *block.memory)
                self.put(block, Generator.bad_all_over, 4)
                n = len(block.items)
                for size in (n, n - 1, 0, n + 9):
                    block.ask(size, *block.memory)
                rest = 1 + phase % 5
                self.put(block, Generator.mixed, 3, rest=rest)
                for size in (3, 4, 0):
                    block.ask(size, *block.memory)
                block.put([], rest=6 - rest)
                for size in (0, 2):
                    block.ask(size, *block.memory)
                yield block

    def kinds_of_no_route(self, sample):
        """Each kind by itself, first, in the middle or last, and all in one list: in every phase with and without a table, in a sample in one with a table."""
        memories = [(True, self.rng.randrange(7))] if sample else [(has_table, phase) for has_table in (True, False) for phase in range(7)]
        for has_table, phase in memories:
            block = self.begin("both families", DAMAGED, phase, has_table)
            for i, (why, six) in enumerate(self.no_routes):
                items = self.each_state(4)
                items.insert((0, 2, 4)[i % 3], (six, NO_ROUTE))
                block.put(items, cases=("list: one is " + why,))
                block.ask(5, *block.memory)
            self.rng.shuffle(self.no_routes)
            block.put([x for _, six in self.no_routes for x in ((six, NO_ROUTE), self.good())], cases=("list: every kind that is no route",))
            block.ask(len(block.items), *block.memory)
            yield block

    def kinds_of_tables(self, lists, large):
        """Each kind of table, in any phase; of those with 1,024 records `large`."""
        kinds = self.tables()
        for name, made in kinds[:-4] + self.rng.sample(kinds[-4:], 4)[:large]:
            block = self.begin(name, made(), self.rng.randrange(7))
            for form in (Generator.mixed, Generator.twins, Generator.in_turn, Generator.each_state, Generator.around)[:lists]:
                self.put(block, form, 24)
                block.ask(len(block.items) + self.rng.choice([0, 0, 3]), *block.memory)
            yield block

    def reasons_for_22(self, every):
        """Each reason: before it in one block of `every`, and behind it one of the forms of lists."""
        for i, (name, phase, lines) in enumerate(x for x in self.damages() if not x[0].startswith("route:")):
            block = self.begin("both families", DAMAGED, phase)
            # the memory is as the damage expects it: nothing held, and DAMAGED pending while loading
            block.lines = block.lines[:2 + len(DAMAGED) + 6]
            self.set_phase(block, phase)
            if phase in (r1.LOADING_FULL, r1.LOADING_CHANGE):
                block.lines += ["pending " + r1.hexes(r1.record_numbers(x)) for x in DAMAGED]
            self.put(block, Generator.bad_between, 2, rest=(i % 5 == 4) * self.rng.randint(1, 5))
            if i % 5 == 3:
                block.put([])
            n = len(block.items)
            if "new" not in lines and i % every == 0:
                block.ask(n, *block.memory)
            block.lines += lines
            block.said = 22
            # exact, too short, longer; no routes; not in sixes
            block.ask((n, self.rng.randrange(max(1, n)), n + 3, 0, self.rng.choice([0, n + 1]))[i % 5], "22: " + name)
            yield block

    def long_lists(self, sample):
        """Lists of 255 to 257 routes and of 65,537, and a peer's 40,000."""
        block = self.begin("both families", DAMAGED, r1.IDLE)
        for routes in (255, 256, 257):
            block.put(self.each_state(6) + [self.bad()], repeat=routes, cases=("list: %d routes" % routes,))
            for size in (routes, routes - 1, routes + 1, routes % 256):
                block.ask(size, *block.memory)
        block.put(self.each_state(9) + [self.bad(), self.good()], repeat=65537, cases=("list: 65,537 routes",))
        for size in (0, 1) if sample else (0, 1, 65536, 65537):
            block.ask(size, *block.memory)
        block.put(self.each_state(30) + self.mixed(7), repeat=40000, cases=("list: 40,000 routes",))
        for size in (0, 40000) if sample else (0, 39999, 40000, 40007):
            block.ask(size, *block.memory)
        block.put(self.mixed(9), repeat=40000, rest=5)
        block.ask(0 if sample else 40001, *block.memory)
        yield block
        if not sample:
            block = self.begin("1,024 records with host bits", self.loosened(self.full(self.usual), 0.1), r1.IDLE)
            few = self.mixed(3000)
            block.put([self.rng.choice(few) for _ in range(40000)], cases=("list: 40,000 routes",))
            block.ask(40000, *block.memory)
            yield block

    # -- blocks at random -----------------------------------------------------

    def lists(self, count, has_table=True, large=False):
        """Lists of any form on a table of any kind, in any phase."""
        kinds = self.tables()
        name, made = self.rng.choice(kinds[-4:] if large else kinds[:-4])
        block = self.begin(name, made(), self.rng.randrange(7), has_table)
        while len(block.expected) < count:
            form = self.rng.choice(Generator.FORMS)
            n = self.rng.choice([1, 1, 2, 2, 3, 4, 5, 6, 7, 8, 12, 16, 25, 40])
            self.put(block, form, n, rest=self.rng.randint(1, 5) if self.chance(0.08) else 0)
            if self.chance(0.05):
                block.put([], rest=self.rng.randint(1, 5) if self.chance(0.3) else 0)
            for _ in range(self.rng.choice([1, 1, 2])):
                block.ask(self.sizes(len(block.items)), *block.memory)
        return block


# What a damaged memory holds: routes.py's reasons for 22 are made for it.
DAMAGED = r1.DAMAGED


def blocks(seed, count, sample):
    """Blocks of `count` lists in all or a few more. Every phase, kind of table and of six numbers that are no route, and every reason for 22 is in it."""
    g = Generator(seed)
    done = 0
    always = (g.phases(), g.kinds_of_no_route(sample), g.kinds_of_tables(3 if sample else 5, 1 if sample else 4), g.reasons_for_22(3 if sample else 1),
              g.long_lists(sample))
    for block in (block for some in always for block in some):
        done += len(block.expected)
        yield block
    turn = 0
    while done < count:
        turn += 1
        block = g.lists(g.rng.randint(4, 12), has_table=turn % 12 != 0, large=turn % 100 == 0)
        done += len(block.expected)
        yield block


def main(argv):
    memory = Memory()
    with open(argv[1]) if len(argv) > 1 else sys.stdin as lines:
        for text in lines:
            said = memory.line(text)
            if said is not None:
                print(printed(said))


if __name__ == "__main__":
    main(sys.argv)
