"""Random questions whether a route is good, for tests/routes: lines as origin.py's head has them, each with the answer that is expected of it.

What is expected here comes another way than the model's: a refusal because the lines were made for it, a state by looking prefixes up in a set, one look for
each length.  So the model is checked too.
"""

import random

WIDTH = {4: 32, 6: 128}
FULL_ROOM = 1024
ASNS = (0, 1, 64496, 64497, 0x7FFFFFFF, 0x80000000, 0xFFFFFFFF)
IDLE, MUST_RESET, ASKED_FULL, ASKED_CHANGE, LOADING_FULL, LOADING_CHANGE, STOPPED = range(7)
PHASES = ("idle", "mustreset", "askedfull", "askedchange", "loading full", "loading change", "stopped")
# stops as a session has them: number and values, the largest values among them; 1 is made by no call and may stand in a session
STOPS = ((2, 255), (3, 5), (4, 0xFFFFFFFF, 0xFFFFFFFF, 255), (5,), (6, 33, 255, 32), (7, 65535), (8,), (12, 0xFFFFFFFF), (13,), (14,), (15,), (16,), (17,), (18,),
         (19, 0), (19, 8), (1, 2**64 - 1, 2**64 - 1), (1, 0, 8))


# ---------------------------------------------------------------------------
# Records and routes: (family, address as one number, length, max, AS number) and (family, address, length, origin)
# ---------------------------------------------------------------------------

def cut(family, address, length):
    """The first `length` bits, zeros behind."""
    behind = WIDTH[family] - length
    return address >> behind << behind


def has_host_bits(record):
    return cut(record[0], record[1], record[2]) != record[1]


def flip(family, address, i):
    """Bit i from the most significant one turned; none behind the last."""
    return address ^ (1 << (WIDTH[family] - 1 - i)) if 0 <= i < WIDTH[family] else address


def words(family, address):
    return [address, 0, 0, 0] if family == 4 else [address >> 96, address >> 64 & 0xFFFFFFFF, address >> 32 & 0xFFFFFFFF, address & 0xFFFFFFFF]


def hexes(numbers):
    return " ".join("%x" % n for n in numbers)


def record_numbers(record):
    family, address, length, most, asn = record
    return [family * 65536 + length * 256 + most] + words(family, address) + [asn]


def route_numbers(route):
    family, address, length, origin = route
    return [family * 65536 + length] + words(family, address) + [origin]


class BySets:
    """States by sets of prefixes: one look for each length that a record has."""

    def __init__(self, records):
        self.at = {}
        for family, address, length, most, asn in records:
            self.at.setdefault((family, length), {}).setdefault(address >> WIDTH[family] - length, set()).add((most, asn))

    def state(self, route):
        family, address, length, origin = route
        over = set()
        for n in range(length + 1):
            over |= self.at.get((family, n), {}).get(address >> WIDTH[family] - n, set())
        if origin != 0 and any(asn == origin and most >= length for most, asn in over):
            return 1
        return 2 if over else 0


# ---------------------------------------------------------------------------
# The generator
# ---------------------------------------------------------------------------

class Block:
    """Lines of one memory and its questions: `expected` has (answer, state, what it is a case of) for each route line."""

    def __init__(self):
        self.lines, self.expected = ["new"], []
        self.host_bits = 0        # questions with a state on a table with host bits
        self.decided = 0          # of them those whose state would be another without the records that have host bits

    def ask(self, numbers, answer, state, what):
        self.lines.append("route " + hexes(numbers))
        self.expected.append((answer, state, what))


class Generator:
    def __init__(self, seed):
        self.rng = random.Random("routes/%s" % seed)

    def chance(self, p):
        return self.rng.random() < p

    # -- addresses, lengths -------------------------------------------------

    def address(self, family):
        r, width = self.rng, WIDTH[family]
        what = r.randrange(5)
        if what == 0:
            return r.choice([0, 2**width - 1, 1, 2**(width - 1), 2**(width - 1) - 1])
        if what == 1 and family == 6:     # each word by itself
            out = 0
            for _ in range(4):
                out = out << 32 | r.choice([0, 1, 0x80000000, 0xFFFFFFFF, 0x7FFFFFFF, r.getrandbits(32)])
            return out
        if what == 2:
            return 0x0A000000 | r.getrandbits(24) if family == 4 else 0x20010DB8 << 96 | r.getrandbits(96)
        return r.getrandbits(width)

    def length(self, family):
        r, width = self.rng, WIDTH[family]
        edges = [0, 0, 1, width - 1, width, width, 8, 16, 24, r.randint(0, width)]
        if family == 6:
            edges += [31, 32, 33, 63, 64, 65, 95, 96, 97, 127, 128, 48]
        return r.choice(edges)

    def most(self, family, length):
        width = WIDTH[family]
        return self.rng.choice([length, length, min(width, length + 1), width, self.rng.randint(length, width)])

    def asn(self):
        return self.rng.choice(ASNS)

    def host(self, family, address, length):
        """Some bits behind the length set: the first, the last, all, or any."""
        behind = WIDTH[family] - length
        if behind == 0:
            return address
        bits = self.rng.choice([1, 2**behind - 1, 2**(behind - 1), self.rng.getrandbits(behind) | 1])
        return cut(family, address, length) | bits

    def record(self, family, address, length):
        return (family, address, length, self.most(family, length), self.asn())

    # -- tables -------------------------------------------------------------

    def families(self):
        return self.rng.choice([(4,), (6,), (4, 6), (4, 6)])

    def chain(self):
        """Records that all cover one address, of many lengths."""
        out = []
        for family in self.families():
            a = self.address(family)
            lengths = self.rng.sample(range(WIDTH[family] + 1), self.rng.randint(2, 33))
            out += [self.record(family, cut(family, a, n), n) for n in lengths + [self.rng.choice([0, WIDTH[family]])]]
        return out

    def cluster(self):
        """Blocks of networks with more specific ones in them."""
        out = []
        for family in self.families():
            for _ in range(self.rng.randint(1, 6)):
                n = self.rng.randint(4, WIDTH[family] // 2)
                a = cut(family, self.address(family), n)
                out.append(self.record(family, a, n))
                for _ in range(self.rng.randint(0, 8)):
                    k = self.rng.randint(n, WIDTH[family])
                    out.append(self.record(family, cut(family, a | self.rng.getrandbits(WIDTH[family] - n), k), k))
        return out

    def one_prefix(self, count=None):
        """Many records of one prefix, which differ in max, AS number and host bits; and one shorter above them."""
        family = self.rng.choice([4, 6])
        n = self.rng.choice([0, 1, 8, WIDTH[family] // 2, WIDTH[family] - 4])
        a = cut(family, self.address(family), n)
        out = {(family, a, n, self.rng.randint(n, WIDTH[family]), self.rng.choice([0, 1, 2, 64496, 64497, self.rng.getrandbits(32)])) for _ in range(count or self.rng.randint(8, 60))}
        return list(out) + [self.record(family, cut(family, a, n // 2), n // 2)]

    def stair(self, family=None, count=None):
        """Records right below an address that do not cover it, one step for each bit that is set, and a short one that does."""
        family = family or self.rng.choice([4, 6])
        width = WIDTH[family]
        a = self.rng.choice([2**width - 1, self.rng.getrandbits(width), int("10" * (width // 2), 2)])
        out = []
        for i in range(width):
            if a >> (width - 1 - i) & 1:
                below = flip(family, a, i) | ((1 << (width - 1 - i)) - 1)
                n = self.rng.choice([width, i + 1, min(width, i + 2)])
                out.append(self.record(family, cut(family, below, n), n))
        n = self.rng.choice([0, 0, 1, 2, 8])
        return (out if count is None else (out * 9)[:count]) + [self.record(family, cut(family, a, n), n)]

    def edges(self):
        """Records of every kind of length at one address, and the same one bit off at the length's edge."""
        out = []
        for family in self.families():
            a = self.address(family)
            for _ in range(self.rng.randint(3, 14)):
                n = self.length(family)
                out.append(self.record(family, cut(family, flip(family, a, self.rng.choice([n - 1, n, n + 1, -1])), n), n))
        return out

    def both(self):
        """One address's bits in both families: nothing crosses."""
        a = self.address(4)
        out = [self.record(4, cut(4, a, n), n) for n in (0, 8, self.rng.randint(0, 32)) if self.chance(0.7)]
        mapped = [a << 96, 0xFFFF << 32 | a]
        return out + [self.record(6, cut(6, self.rng.choice(mapped), n), n) for n in (0, 8, 96, self.rng.randint(0, 128)) if self.chance(0.6)]

    def table(self, wants_host, large=False):
        r = self.rng
        if large:
            out = set()
            what = r.randrange(4)
            while len(out) < FULL_ROOM:
                out |= set(self.one_prefix(300) if what == 0 else self.stair() + self.cluster() if what == 1 else self.cluster() + self.edges())
            out = r.sample(sorted(out), r.choice([FULL_ROOM, FULL_ROOM, 1000, 777]))
        else:
            out = r.choice([self.chain, self.cluster, self.one_prefix, self.stair, self.edges, self.edges, self.both, list])()
        if wants_host:
            # one record with host bits, some, or all; a short one far behind its place too
            share = r.choice([0, 0.3, 1])
            out = [(f, self.host(f, a, n) if r.random() < share else a, n, m, s) for f, a, n, m, s in out]
            if share == 0 or not any(map(has_host_bits, out)):
                f, a = (r.choice(out)[:2] if out and self.chance(0.8) else (4, self.address(4)))
                n = r.choice([0, 0, 1, 2, 8, r.randrange(WIDTH[f])])
                out = out[:FULL_ROOM - 1] + [self.record(f, self.host(f, a, n), n)]
        return sorted(set(out))

    # -- routes -------------------------------------------------------------

    def route(self, records):
        """A route near a record, or any."""
        r = self.rng
        if not records or self.chance(0.06):
            family = r.choice([4, 6])
            return (family, self.address(family), r.choice([self.length(family), WIDTH[family]]), self.asn())
        family, address, length, most, asn = r.choice(records)
        width = WIDTH[family]
        what = r.randrange(10)
        if what == 0:
            address = flip(family, address, length - 1)          # one bit off, the last that counts
        elif what == 1:
            address = flip(family, address, length)              # one bit off, the first that does not
        elif what == 2:
            address = flip(family, address, r.randrange(width))
        elif what == 3:
            address = cut(family, address, length)
        elif what in (4, 5, 6):                                  # any bits behind the record's length
            address = cut(family, address, length) | r.getrandbits(width - length) if length < width else address
        elif what == 7 and family == 6:                          # one word another
            address ^= r.choice([1, 0x80000000, 0xFFFFFFFF]) << 32 * r.randrange(4)
        elif what == 8:
            address = (address + r.choice([-1, 1])) % 2**width
        n = r.choice([length, length, length - 1, length + 1, most, most, most - 1, most + 1, width, 0, r.randint(0, width), r.randint(length, width)])
        origin = r.choice([asn, asn, asn, asn, 0, (asn + 1) % 2**32, asn ^ 0x80000000, r.choice(records)[4], self.asn()])
        if self.chance(0.04):                                    # the same bits in the other family
            family, address = (6, address << 96) if family == 4 else (4, address >> 96)
        return (family, address, min(max(n, 0), WIDTH[family]), origin)

    def refused_route(self, records):
        """Six numbers that are 23's, and why."""
        r = self.rng
        route = list(self.route(records))
        numbers = route_numbers(route)
        what = r.randrange(6)
        if what == 0:
            numbers[0] = route[0] * 65536 + WIDTH[route[0]] + 1
            return numbers, "length one over"
        if what == 1:
            numbers[0] = route[0] * 65536 + r.choice([129, 255, 256, 256 + 24, 512, 256 * 24 + 24, 32768, 65535])
            return numbers, "length over"
        if what == 2 and records:
            numbers = record_numbers(r.choice([x for x in records if x[2] > 0] or [(4, 0, 8, 8, 1)]))
            return numbers, "a record's first number"
        if what == 3:
            family = r.choice([0, 1, 2, 3, 5, 7, 8, 40, 60, 256 + 4, 256 + 6, 65535, 32768 + 4])
            numbers[0] = family * 65536 + r.choice([0, route[2]])
            return r.choice([numbers, [numbers[0], 0, 0, 0, 0, 0]]), "no known family"
        numbers = route_numbers((4, self.address(4), r.randint(0, 32), self.asn()))
        numbers[r.randint(2, 4)] = r.choice([1, 0x80000000, 0xFFFFFFFF])
        return numbers, "an IPv4 spare"

    # -- memory -------------------------------------------------------------

    def set_table(self, block):
        r = self.rng
        values = [1, r.choice([0, 4660, 65535]), r.choice([0, 7, 0xFFFFFFFF]), 3600, 600, r.choice([0, 7200, 0xFFFFFFFF])]
        block.lines += ["session %x %x" % (6 + i, v) for i, v in enumerate(values)]

    def set_phase(self, block, phase):
        r = self.rng
        values = [phase]
        if phase in (LOADING_FULL, LOADING_CHANGE):
            values.append(r.choice([0, 4660, 65535]))
        if phase == STOPPED:
            values += r.choice(STOPS)
        block.lines += ["session %x %x" % (1 + i, v) for i, v in enumerate(values)]

    def set_rest(self, block, phase):
        """The version, a note, and bytes held that are no whole PDU."""
        r = self.rng
        if self.chance(0.3):
            block.lines.append("session 0 0")
        if self.chance(0.3):
            block.lines += ["session c 1", "session d %x" % r.choice([0, 4660, 65535]), "session e %x" % r.getrandbits(32)]
        if phase != STOPPED and self.chance(0.3):
            block.lines += r.choice([["hold 0 01030000000000", "session 11 7"],                                          # seven bytes
                                     ["hold 0 010a000000000040" + "00" * 55, "session 11 3f"],                           # one short of the hold
                                     ["lend 18 1800 1800 8 6", "hold 0 09ffffffffffff", "session 11 7"],                 # the least hold
                                     ["hold 0 0909000000000009", "session 11 8"]])                                       # not yet refused

    def pending(self, records, asked):
        """A working room that would answer otherwise: a record of length 0 for each family and origin asked about, and a part of the live one."""
        out = set(self.rng.sample(records, self.rng.randint(0, min(5, len(records)))))
        out |= {(f, 0, 0, WIDTH[f], s) for f in (4, 6) for s in asked}
        return sorted(out)

    # -- blocks -------------------------------------------------------------

    def states(self, count, wants_host, large=False):
        """Questions on a table, in any phase; one in thirty is refused by 23."""
        block = Block()
        records = self.table(wants_host, large)
        phase = self.rng.choice(range(7))
        block.lines += ["record " + hexes(record_numbers(x)) for x in records]
        self.set_table(block)
        self.set_phase(block, phase)
        self.set_rest(block, phase)
        if phase in (LOADING_FULL, LOADING_CHANGE) and self.chance(0.8):
            block.lines += ["pending " + hexes(record_numbers(x)) for x in self.pending(records, (64496, 1, 0x80000000))]
        sets, plain = BySets(records), BySets([x for x in records if not has_host_bits(x)])
        is_loose = any(map(has_host_bits, records))
        for _ in range(count):
            if self.chance(1 / 30):
                numbers, why = self.refused_route(records)
                block.ask(numbers, 23, 0, "23: " + why)
                continue
            route = self.route(records)
            state = sets.state(route)
            block.ask(route_numbers(route), 0, state, PHASES[phase] + (", no record" if not records else ""))
            block.host_bits += is_loose
            block.decided += plain.state(route) != state
        return block

    def no_table(self):
        """21, before 23; the working room may hold records."""
        block = Block()
        phase = self.rng.choice([IDLE, MUST_RESET, ASKED_FULL, LOADING_FULL, STOPPED])
        self.set_phase(block, phase)
        self.set_rest(block, phase)
        records = self.table(False)
        if phase == LOADING_FULL:
            block.lines += ["pending " + hexes(record_numbers(x)) for x in records]
        for _ in range(4):
            block.ask(route_numbers(self.route(records)), 21, 0, "21")
        numbers, _ = self.refused_route(records)
        block.ask(numbers, 21, 0, "21 before 23")
        return block

    def damages(self):
        """Every reason for 22: its name, the phase it is made in, and its lines. The memory has a table with live records of DAMAGED; while loading, they are pending too."""
        out = []

        def add(name, *lines, phase=IDLE):
            out.append((name, phase, lines))

        for i, (name, right, others) in enumerate((("session", 24, (0, 18, 23, 25, 26)), ("live", 6144, (0, 6138, 6143, 6145, 6150)), ("working", 6144, (0, 6138, 6143, 6145, 6150)),
                                                   ("hold", 64, (0, 7)), ("route", 6, (0, 5, 7, 12)))):
            for other in others:
                lent = [24, 6144, 6144, 64, 6]
                lent[i] = other
                add("%s: %s lent" % (name, "too few" if other < right else "too many"), "lend " + hexes(lent))
                add("%s: wrong, and no table" % name, "new", "lend " + hexes(lent))
        add("version 2", "session 0 2")
        add("version over 32 bits", "session 0 100000001")
        add("no such phase", "session 1 7")
        add("no such phase", "session 1 100000000")
        for phase in (IDLE, MUST_RESET, ASKED_FULL, ASKED_CHANGE):
            for i in (2, 3, 4, 5):
                add("a detail without a use", "session %x 1" % i, phase=phase)
        for phase in (LOADING_FULL, LOADING_CHANGE):
            add("a load's session over 16 bits", "session 2 10000", phase=phase)
            for i in (3, 4, 5):
                add("a detail without a use", "session %x 1" % i, phase=phase)
        for number in (0, 9, 10, 11, 20, 21, 22, 23, 24, 256 + 13, 2**32 + 13):
            add("no stop's number", "session 2 %x" % number, "session 3 0", "session 4 0", "session 5 0", phase=STOPPED)
        for stop in ((1, 8, 8, 1), (2, 256), (2, 0, 1), (3, 256), (4, 2**32, 0, 0), (4, 0, 2**32, 0), (4, 0, 0, 256), (5, 1), (6, 256, 0, 0), (6, 0, 256, 0), (6, 0, 0, 256), (7, 65536),
                     (7, 9, 1), (8, 1), (12, 2**32), (12, 0, 1), (13, 1), (18, 0, 0, 1), (19, 9), (19, 65536), (19, 0, 1)):
            add("a stop's value over its width", *("session %x %x" % (2 + i, v) for i, v in enumerate(stop + (0,) * (4 - len(stop)))), phase=STOPPED)
        add("the table's flag 2", "session 6 2")
        add("a table's session over 16 bits", "session 7 10000")
        for i in (8, 9, 10, 11):
            add("a table's number over 32 bits", "session %x 100000000" % i)
        for i in (7, 8, 9, 10, 11):
            add("a table's number without a table", "new", "session %x 1" % i)
        add("the note's flag 2", "session c 2")
        add("a note's session over 16 bits", "session c 1", "session d 10000")
        add("a note's serial over 32 bits", "session c 1", "session e 100000000")
        for i in (13, 14):
            add("a note's number without a note", "session %x 1" % i)
        for limit in (0, 1, 1023, 1025, 16384, 2**32 + 1024, 2**64 - 1):
            add("another limit", "session 12 %x" % limit)
        for i in range(19, 24):
            add("a spare number of the session", "session %x 1" % i)
            add("a spare number of the session", "session %x 8000000000000000" % i)
        for room, at, phase in (("live", 15, IDLE), ("live", 15, STOPPED), ("work", 16, LOADING_FULL), ("work", 16, LOADING_CHANGE)):
            n = len(DAMAGED)
            for count in (1025, 2**32 + n, 2**64 - 1, 2**63 + n):
                add("%s: a count over its limit" % room, "session %x %x" % (at, count), phase=phase)
            add("%s: more records than are there" % room, "session %x %x" % (at, n + 1), phase=phase)
            add("%s: fewer records than are there" % room, "session %x %x" % (at, n - 1), phase=phase)
            for i in (6 * n, 6 * n + 5, 6143):
                add("%s: a spare number" % room, "%s %x 1" % (room, i), phase=phase)
            first, last = record_numbers(DAMAGED[0]), record_numbers(DAMAGED[-1])
            add("%s: not ascending" % room, *("%s %x %x" % (room, i, x) for i, x in enumerate(last)), phase=phase)
            add("%s: a record twice" % room, *("%s %x %x" % (room, 6 + i, x) for i, x in enumerate(first)), phase=phase)
            add("%s: a lower AS number behind" % room, "%s 5 fffffff0" % room, *("%s %x %x" % (room, 6 + i, x) for i, x in enumerate(first)), phase=phase)
            for kind in (5 * 65536 + 8 * 256 + 8, 0, 0x1040000 + 8 * 256 + 8, 4 * 65536 + 9 * 256 + 8, 4 * 65536 + 8 * 256 + 33, 4 * 65536 + 33 * 256 + 33):
                add("%s: a record out of rule" % room, "%s 0 %x" % (room, kind), phase=phase)
            for kind in (7 * 65536, 6 * 65536 + 128 * 256 + 129, 6 * 65536 + 129 * 256 + 129, 6 * 65536 + 64 * 256 + 63):
                add("%s: a record out of rule" % room, "%s %x %x" % (room, 6 * (n - 1), kind), phase=phase)
            for i in (2, 3, 4):
                add("%s: an IPv4 spare of a record" % room, "%s %x 1" % (room, i), phase=phase)
        for phase in (IDLE, ASKED_FULL, STOPPED):
            add("a live record without a table", *("session %x 0" % i for i in range(6, 12)), phase=phase)
        for phase in (ASKED_CHANGE, LOADING_CHANGE):
            add("a change without a table", "new", "session 1 %x" % phase)
        for phase in (IDLE, MUST_RESET, ASKED_FULL, ASKED_CHANGE, STOPPED):
            add("the working room is not empty", "pending " + hexes(record_numbers(DAMAGED[0])), phase=phase)
        for i in (0, 6143):
            add("work: a spare number", "work %x 1" % i)
        add("bytes held in stopped", "session 11 1", phase=STOPPED)
        for held in (65, 512, 2**32, 2**64 - 1):
            add("held over the hold", "session 11 %x" % held)
        for phase in (IDLE, ASKED_FULL, LOADING_FULL):
            for name, held, data in (("a PDU held", 8, "0102000000000008"), ("a PDU held", 12, "010000000000000c00000001"), ("a PDU and more held", 9, "010200000000000800"),
                                     ("a refusal held: a version", 8, "0902000000000008"), ("a refusal held: a type", 8, "0105000000000008"), ("a refusal held: under 8", 8, "0102000000000007"),
                                     ("a refusal held: over 131,086", 8, "010a00000002000f"), ("a refusal held: over the hold", 8, "010a000000000041"), ("a refusal held: a length", 9, "010200000000000900"),
                                     ("a refusal held: a prefix length", 20, "0104000000000014010908000000000000000000"), ("a refusal held: an error code", 16, "010a0009000000100000000000000000"),
                                     ("a refusal held: text", 17, "010a000000000011000000000000000180")):
                add(name, "hold 0 " + data, "session 11 %x" % held, phase=phase)
        return out

    def damaged(self, name, phase, lines):
        """One reason for 22: a route that would be good, one that would be 23, and with the table gone too where the lines leave it."""
        block = Block()
        block.lines += ["record " + hexes(record_numbers(x)) for x in DAMAGED]
        self.set_table(block)
        self.set_phase(block, phase)
        if phase in (LOADING_FULL, LOADING_CHANGE):
            block.lines += ["pending " + hexes(record_numbers(x)) for x in DAMAGED]
        if "new" not in lines:
            # the memory is in order before the damage is done
            route = self.route(DAMAGED)
            block.ask(route_numbers(route), 0, BySets(DAMAGED).state(route), PHASES[phase])
        block.lines += lines
        block.ask(route_numbers((4, DAMAGED[0][1], DAMAGED[0][2], DAMAGED[0][4])), 22, 0, "22: " + name)
        block.ask(self.refused_route(DAMAGED)[0], 22, 0, "22: " + name)
        return block


# What the damaged memory holds: both families, in order.
DAMAGED = [(4, 0x0A000000, 8, 24, 64496), (4, 0xC0000200, 24, 24, 64497), (6, 0x20010DB8 << 96, 32, 48, 64496)]


def blocks(seed, count, host_bits, large_tables):
    """Blocks of `count` questions in all or a few more, `host_bits` of them with a state on tables with host bits; every reason for 22 at least once."""
    g = Generator(seed)
    done = loose = 0
    for one in g.damages():
        block = g.damaged(*one)
        done += len(block.expected)
        yield block
    for i in range(large_tables):
        block = g.states(min(120, count), i % 2 == 0, large=True)
        done, loose = done + len(block.expected), loose + block.host_bits
        yield block
    turn = 0
    while done < count or loose < host_bits:
        turn += 1
        if turn % 12 == 0:
            block = g.no_table()
        else:
            left = host_bits - loose
            wants_host = left > 0 and (count - done <= left or g.chance(max(0.3, left / max(1, count - done))))
            block = g.states(g.rng.randint(20, 60), wants_host)
        done, loose = done + len(block.expected), loose + block.host_bits
        yield block
