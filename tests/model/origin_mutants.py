"""Is the stored sample of questions sharp? Wrong programs, each of which must answer some question of it otherwise than the model.

    python3 origin_mutants.py QUESTIONS        (or tests/routes --sharp)

The first are wrong definitions or a wrong order of refusals.  The others are wrong forms of a quick engine, written here after the plan of the request (a walk down from the
route, then the records with host bits); without a fault it must agree with the model on every question.
"""

import bisect
import sys

import origin as o

WIDTH = {4: 32, 6: 128}
MOST = 4_294_967_295


# ---------------------------------------------------------------------------
# Wrong definitions
# ---------------------------------------------------------------------------

def plain(fault, records, route):
    """The state with one fault in the definition."""
    family, length, words, origin = o.parts_of_route(route)
    found = o.NOT_FOUND
    for record in records:
        f, n, most, own, asn = o.parts_of_record(record)
        if fault == "records with host bits passed over" and any(o.bit(own, i) for i in range(n, WIDTH[f])):
            continue
        bits = n
        if fault == "one bit too few":
            bits = max(0, n - 1)
        elif fault == "one bit too many":
            bits = min(WIDTH[f], n + 1)
        elif fault == "the route's length in place of the record's":
            bits = length
        elif fault == "only the first word":
            bits = min(n, 32)
        elif fault == "only the first two words":
            bits = min(n, 64)
        elif fault == "only the first three words":
            bits = min(n, 96)
        elif fault == "whole words only":
            bits = n // 32 * 32
        if fault != "families not compared" and f != family:
            continue
        longest = length + 1 if fault == "a record one longer covers" else length - 1 if fault == "a record as long does not cover" else length
        if fault != "lengths not compared" and n > longest:
            continue
        if not o.identical(own, words, bits):
            if fault == "ended at the first that does not cover":
                break
            continue
        found = o.NOT_FOUND if fault == "Invalid as NotFound" else o.INVALID
        top = {"max not compared": 128, "max compared with the record's length": n, "max itself too long": most - 1, "max + 1 is short enough": most + 1}.get(fault, most)
        if length > top or asn != origin and fault != "AS numbers not compared":
            if fault == "the first that covers decides":
                break
            continue
        if asn != 0 or fault == "AS 0 matches":
            return o.VALID
    return found


PLAIN = ("records with host bits passed over", "one bit too few", "one bit too many", "the route's length in place of the record's", "only the first word", "only the first two words",
         "only the first three words", "whole words only", "families not compared", "lengths not compared", "a record one longer covers", "a record as long does not cover",
         "ended at the first that does not cover", "Invalid as NotFound", "max not compared", "max compared with the record's length", "max itself too long", "max + 1 is short enough",
         "the first that covers decides", "AS 0 matches", "AS numbers not compared")


# ---------------------------------------------------------------------------
# A quick engine
# ---------------------------------------------------------------------------

def key(record):
    f, n, most, own, asn = o.parts_of_record(record)
    return (f, *own, n, most, asn)


def first_bits(words, count):
    """The first bits of an address, zeros behind."""
    return [w if count >= 32 * i + 32 else 0 if count <= 32 * i else w >> 32 * i + 32 - count << 32 * i + 32 - count for i, w in enumerate(words)]


def in_common(words, others):
    n = 0
    while n < 128 and o.bit(words, n) == o.bit(others, n):
        n += 1
    return n


def quick(fault, records, keys, route, least=0, loose=0):
    family, length, words, _ = o.parts_of_route(route)
    found = o.NOT_FOUND

    def judge(record):
        nonlocal found
        if o.covers(record, route):
            found = max(found, o.INVALID)
            return o.matches(record, route)
        return False

    # the walk down
    b = length
    while b >= least:
        if fault == "the walk's probe one bit short":
            probe = (family, *first_bits(words, max(0, b - 1)), b, 255, MOST)
        elif fault == "the walk's probe with max 0":
            probe = (family, *first_bits(words, b), b, 0, MOST)
        elif fault == "the walk's probe with AS 0":
            probe = (family, *first_bits(words, b), b, 255, 0)
        elif fault == "the walk's probe with length one less":
            probe = (family, *first_bits(words, b), b - 1, 255, MOST)
        elif fault == "the walk's probe with length 0":
            probe = (family, *first_bits(words, b), 0, 255, MOST)
        else:
            probe = (family, *first_bits(words, b), b, 255, MOST)
        at = bisect.bisect_left(keys, probe) - 1
        while at >= 0 and records[at][0] >> 16 == family and o.covers(records[at], route):
            if judge(records[at]):
                return o.VALID
            at -= 1
            if fault == "the walk ended behind the first that covers":
                at = -1
        if at < 0 or records[at][0] >> 16 != family or fault == "the walk ended at the first that does not cover":
            break
        shared = in_common(records[at][1:5], words)
        if fault == "one bit in common too few":
            shared -= 1
        if fault == "bits in common in the first word alone":
            shared = min(shared, 32)
        if shared >= b:
            shared = b - 1               # without a fault it falls by itself
        b = shared
    # the records with host bits
    if loose > length or fault == "no look at records with host bits":
        return found
    if fault == "host bits looked for before the route alone":
        for i in range(bisect.bisect_left(keys, (family, *words, length, 255, MOST))):
            if judge(records[i]):
                return o.VALID
        return found
    if fault == "host bits looked for behind the route alone":
        for i in range(bisect.bisect_left(keys, (family, *words, 0, 0, 0)), len(records)):
            if judge(records[i]):
                return o.VALID
        return found
    at = bisect.bisect_left(keys, (family, *first_bits(words, loose), 0, 0, 0)) + (1 if fault == "the second probe one record late" else 0)
    while at < len(records) and records[at][0] >> 16 == family and o.identical(records[at][1:5], words, loose):
        if judge(records[at]):
            return o.VALID
        if fault == "the run ended at the first that does not cover" and not o.covers(records[at], route):
            break
        at += 1
        if fault == "the run ended one record early" and (at + 1 >= len(records) or records[at + 1][0] >> 16 != family):
            break
    return found


# (fault, least, loose): the numbers need only be low enough, and 0 and 0 are
QUICK = [(fault, 0, 0) for fault in ("no look at records with host bits", "host bits looked for before the route alone", "host bits looked for behind the route alone", "the second probe one record late",
                                     "the run ended at the first that does not cover", "the run ended one record early")]
QUICK += [("least 1, where a record has length 0", 1, 129), ("loose 1, where a record of length 0 has host bits", 0, 1), ("loose 8, where a shorter record has host bits", 0, 8)]
# faults of the walk show where the second part does not make them good: with the true numbers of each table
WALK = ("the walk ended at the first that does not cover", "the walk ended behind the first that covers", "the walk's probe one bit short", "the walk's probe with max 0", "the walk's probe with AS 0",
        "the walk's probe with length one less", "the walk's probe with length 0", "one bit in common too few", "bits in common in the first word alone", "least one too large", "loose one too large")


def survey(records, family):
    """The shortest length of the family, and the shortest of a record with host bits."""
    least = loose = WIDTH.get(family, 128) + 1
    for record in records:
        f, n, _, own, _ = o.parts_of_record(record)
        if f == family:
            least = min(least, n)
            if first_bits(own, n) != list(own):
                loose = min(loose, n)
    return least, loose


# ---------------------------------------------------------------------------
# The calls
# ---------------------------------------------------------------------------

class Wrong(o.Memory):
    """A memory whose questions are answered by a wrong program."""

    def __init__(self, fault, how, least=0, loose=0):
        self.fault, self.how, self.least, self.loose, self.keys, self.surveyed = fault, how, least, loose, None, {}
        super().__init__()

    def state(self, records, route):
        if self.how == "plain":
            return plain(self.fault, records, route)
        if self.keys is None or self.keys[0] is not records:
            self.keys, self.surveyed = (records, [key(x) for x in records]), {}
        least, loose = self.least, self.loose
        if self.how == "walk":
            family = route[0] >> 16
            if family not in self.surveyed:
                self.surveyed[family] = survey(records, family)
            least, loose = self.surveyed[family]
            least += self.fault == "least one too large"
            loose += self.fault == "loose one too large"
        return quick(self.fault, records, self.keys[1], route, least, loose)

    def line(self, text):
        if not text.startswith("route"):
            return super().line(text)
        route = ([int(x, 16) for x in text.split()[1:]] + [0] * 6)[:self.lent[4]]
        (said, records), fault = self.said(), self.fault
        if fault == "22 never":
            said, records = (said, records) if said != 22 else (0, [])
        if fault == "the working room asked" and said == 0:
            records = [self.work[6 * i:6 * i + 6] for i in range(self.session[16])]
        if fault == "an empty table as none" and said == 0 and not records:
            said = 21
        if fault == "no table as an empty one" and said == 21:
            said, records = 0, []
        if fault == "five or seven numbers taken" and said != 22:
            route = (route + [0] * 6)[:6]
        if fault == "stopped refused" and said == 0 and self.session[1] == 6:
            return 22, 0
        if fault == "loading refused" and said == 0 and self.session[1] in (4, 5):
            return 21, 0
        if said == 22 and fault == "21 before 22" and self.session[6] == 0:
            return 21, 0
        if len(route) == 6 and not o.route_in_rule(route) and (fault == "23 before 22" or fault == "23 before 21" and said == 21):
            return 23, 0
        if fault == "23 not given":
            in_rule = True
        elif fault == "IPv4 spares not looked at":
            in_rule = len(route) == 6 and o.route_in_rule([route[0], route[1], 0, 0, 0, 0] if route[0] >> 16 == 4 else route)
        elif fault == "length by eight bits":
            route = [route[0] & 0xFFFF00FF] + route[1:] if len(route) == 6 else route
            in_rule = len(route) == 6 and o.route_in_rule(route)
        elif fault == "family by eight bits":
            route = [route[0] & 0xFFFFFF] + route[1:] if len(route) == 6 else route
            in_rule = len(route) == 6 and o.route_in_rule(route)
        elif fault == "128 for both families":
            in_rule = len(route) == 6 and route[0] >> 16 in (4, 6) and route[0] & 65535 <= 128 and o.route_in_rule([route[0] >> 16 << 16] + route[1:])
        elif fault == "the longest route refused":
            in_rule = len(route) == 6 and o.route_in_rule([route[0] + 1] + route[1:])
        else:
            in_rule = len(route) == 6 and o.route_in_rule(route)
        if said == 22 or len(route) != 6:
            return 22, 0
        if said == 21:
            return 21, 0
        return (0, self.state(records, route)) if in_rule else (23, 0)


# no record has a max of 255, so that the AS number behind it decides nothing
HARMLESS = ("the walk's probe with AS 0",)
CALLS = ("22 never", "the working room asked", "an empty table as none", "no table as an empty one", "five or seven numbers taken", "stopped refused", "loading refused", "21 before 22", "23 before 22",
         "23 before 21", "23 not given", "IPv4 spares not looked at", "length by eight bits", "family by eight bits", "128 for both families", "the longest route refused")


def main(path):
    with open(path) as file:
        lines = file.read().splitlines()
    right = o.Memory()
    expected = [x for x in map(right.line, lines) if x is not None]

    def differ(wrong):
        return sum(a != b for a, b in zip(expected, (x for x in map(wrong.line, lines) if x is not None)))

    missed = []
    programs = [(x, "call", Wrong(x, "plain")) for x in CALLS] + [(x, "definition", Wrong(x, "plain")) for x in PLAIN]
    programs += [(x, "engine with 0 and 0", Wrong(x, "quick", least, loose)) for x, least, loose in QUICK] + [(x, "engine with the true numbers", Wrong(x, "walk")) for x in WALK]
    for name, kind, wrong in programs:
        n = differ(wrong)
        print("%5d of %d differ: %s: %s" % (n, len(expected), kind, name))
        if (n == 0) != (name in HARMLESS):
            missed.append(name)
    for kind in ("plain", "quick", "walk"):
        n = differ(Wrong("", kind))
        print("%5d of %d differ: without a fault: %s" % (n, len(expected), kind))
        if n:
            missed.append(kind)
    print("%d wrong programs, %d not found out" % (len(programs), len(missed)))
    return 1 if missed else 0


if __name__ == "__main__":
    sys.exit(main(sys.argv[1]))
