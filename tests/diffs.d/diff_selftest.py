"""tests/diffs --selftest: is the model right, and would the cases find a wrong program? No library is needed.

Four parts. Facts: texts whose answer the papers give (diff_facts.py). Listings: what rtr-table is known to print is read, and written again byte for byte. Spoiled answers: a
right answer with one thing changed must be told as a difference. Wrong models (diff_wrong.py): the enumerated cases must tell each from the right one; how many the stored
ones tell is said too.
"""

import glob
import os
import time

import diff_cases as cases
import diff_facts
import diff_model as model
import diff_stored
import diff_wrong

HERE = os.path.dirname(os.path.realpath(__file__))


def listings(rules):
    """What rtr-table prints must be read, and be what the model's writer writes."""
    wrong, names = [], sorted(glob.glob(os.path.join(os.path.dirname(HERE), "listings.d", "*.txt")))
    for name in names:
        with open(name, "rb") as file:
            text = file.read()
        read = model.read_listing(text, rules)
        if read[0] != "listed" or model.listing(*read[1:], rules) != text:
            wrong.append("listing %s: the model reads it as %s" % (os.path.basename(name), read[:2]))
    return len(names), wrong


def digest(answer):
    """An answer in few bytes; a part that no paper speaks of is left out by the caller."""
    return answer.number, answer.written, hash(answer.out), hash(answer.old_room), None if answer.new_room is None else hash(answer.new_room)


def noticed(these, wrong, expected, rules):
    """The first of these cases, with the right answers' digests, that the wrong model answers otherwise; None where there is none."""
    for case, right in these:
        answer = digest(expected(case, rules, wrong))
        if right[4] is None:
            answer = answer[:4] + (None,)
        if answer != right:
            return case
    return None


# ---------------------------------------------------------------------------
# Which cases are stored
# ---------------------------------------------------------------------------

# Of each group every so many; long texts are left out.
EVERY = {"cut": 9, "line": 23, "name": 31, "value": 47, "number": 29, "stop": 3, "count": 11, "length": 17, "order": 17, "byte": 199, "digit": 41, "full": 1, "whole": 2,
         "both": 5, "change": 37, "large": 7, "out": 13, "room": 17, "fill": 3}
MOST_BYTES = 900


def chosen(expected, rules):
    """The cases to be stored: some of each group, and for each wrong model that these do not notice one that does. With the answers."""
    every = [(case, digest(expected(case, rules))) for case in cases.enumerated(rules)]
    store = diff_stored.Store(rules)
    takes = [i for i, (case, _) in enumerate(every) if store.cost(case, expected(case, rules)) <= MOST_BYTES]
    seen, picked = {}, set()
    for i in takes:
        group = every[i][0].name.split(":")[0]
        seen[group] = seen.get(group, -1) + 1
        if group in EVERY and seen[group] % EVERY[group] == 0:
            picked.add(i)
    for name, edits in diff_wrong.wrong_models(rules).items():
        wrong = diff_wrong.wrong_model(edits)
        if noticed([every[i] for i in sorted(picked)], wrong, expected, rules) is None:
            more = noticed([every[i] for i in takes], wrong, expected, rules)
            if more is None:
                print("stored: no short case notices: " + name)
            else:
                picked.add(next(i for i in takes if every[i][0] is more))
    return [(every[i][0], expected(every[i][0], rules)) for i in sorted(picked)]


# ---------------------------------------------------------------------------
# Spoiled answers
# ---------------------------------------------------------------------------

def flipped(part, at):
    return part[:at] + bytes([part[at] ^ 1]) + part[at + 1:]


def spoiled(expected, differences, got_type, rules):
    """What the comparison does not notice."""
    case = next(x for x in cases.enumerated(rules) if x.name == "cut: three, whole, old")
    wanted = expected(case, rules)
    right = got_type(wanted.number, 0, wanted.written, wanted.old_room, wanted.new_room, wanted.out)
    wrong = []
    if differences(wanted, right):
        wrong.append("a right answer is told as a difference")
    spoils = {
        "the number": right._replace(number=9), "written": right._replace(written=right.written + 1), "written, past 32 bits": right._replace(written=right.written + 2 ** 32),
        "a text changed": right._replace(faults=1), "memory beside it changed": right._replace(faults=2),
        "the first byte of the output": right._replace(out=flipped(right.out, 0)), "the last byte that is written": right._replace(out=flipped(right.out, wanted.written - 1)),
        "the byte behind": right._replace(out=flipped(right.out, wanted.written)), "the last byte of the output": right._replace(out=flipped(right.out, len(right.out) - 1)),
    }
    for name in ("old_room", "new_room"):
        part = getattr(right, name)
        for at in (0, 24 * 3 - 1, 24 * 3, len(part) - 1):
            spoils["%s at byte %d" % (name, at)] = right._replace(**{name: flipped(part, at)})
    for name, got in spoils.items():
        if not differences(wanted, got):
            wrong.append("not noticed: " + name)
    return len(spoils), wrong


def main(expected, differences, got_type, rules, folder, before):
    began, found = time.time(), []
    bad = diff_facts.wrong_facts()
    print("%d facts, %d wrong" % (diff_facts.COUNT, len(bad)))
    found += bad
    count, bad = listings(rules)
    print("%d listings of rtr-table, %d not read as they were written" % (count, len(bad)))
    found += bad
    count, bad = spoiled(expected, differences, got_type, rules)
    print("%d spoiled answers, %d not noticed" % (count, len(bad)))
    found += bad
    stored = [(case, digest(answer)) for case, answer in diff_stored.read(folder, before)] if diff_stored.is_of(folder, rules) else []
    every = [(case, digest(expected(case, rules))) for case in cases.enumerated(rules)]
    by_group, missed, missed_stored, models = {}, [], [], diff_wrong.wrong_models(rules)
    for name, edits in models.items():
        wrong = diff_wrong.wrong_model(edits)
        by_stored = noticed(stored, wrong, expected, rules)
        # what is stored is among the enumerated; most wrong models are noticed there sooner
        first = by_stored or noticed(every, wrong, expected, rules)
        if first is None:
            missed.append("wrong model not noticed: " + name)
        else:
            group = first.name.split(":")[0]
            by_group[group] = by_group.get(group, 0) + 1
        if by_stored is None:
            missed_stored.append(name)
    names = {case.name for case, _ in every}
    missed += ["stored and not enumerated: " + case.name for case, _ in stored if case.name not in names]
    print("%d enumerated cases; %d wrong models, %d not noticed" % (len(every), len(models), sum(x.startswith("wrong") for x in missed)))
    print("noticed first in: " + ", ".join("%s %d" % x for x in by_group.items()))
    if not stored:
        found.append("the stored cases are not of these rules: tests/diffs --make")
    else:
        print("%d stored cases; %d wrong models not noticed by them%s" % (len(stored), len(missed_stored), ": " + ", ".join(missed_stored) if missed_stored else ""))
    found += missed
    for line in found:
        print(line)
    print("selftest: %d faults, %.0f seconds" % (len(found), time.time() - began))
    return 1 if found else 0
