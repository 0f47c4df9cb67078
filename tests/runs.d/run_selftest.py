"""tests/runs --selftest: is the model right, and would the cases find a wrong program? No library is needed.

Six parts. Facts: runs that the papers give. Rooms: the model's room rules against those of tests/model's receiver. Spoiled answers: a right answer with one thing changed must be told as
a difference. Stored answers: each is the model's. Wrong models: the model with one edit each; the enumerated cases must tell each from the right one. Wrong runs: fed to tests/model's receiver, those that a receiver can notice must
not end as request Five says.
"""

import glob
import os
import random
import time
import types

import run_cases as cases
import run_lives
import run_model as model
from diff_model import read_listing

HERE = os.path.dirname(os.path.realpath(__file__))

# ---------------------------------------------------------------------------
# Facts
# ---------------------------------------------------------------------------

EXAMPLE = bytes.fromhex("01031234 00000008  01040000 00000014 01181800 c0000200 0000fbf0  01071234 00000018 00000007 00000e10 00000258 00001c20")


def facts():
    """(what, whether it holds)."""
    v4, three, other, usual = cases.SMALL["IPv4"], cases.THREE, cases.OTHER, cases.USUAL
    full, change = model.full_run, model.change_run
    yield "document 01's input is the full run of its listing", full(1, usual, v4) == EXAMPLE
    yield "RFC 6810's End of Data has 12 bytes", full(0, usual, [])[8:] == bytes.fromhex("00071234 0000000c 00000007")
    yield "the longest full run has 32,800 bytes", len(full(1, usual, cases.FULL["1024 IPv6"])) == 32_800
    yield "the longest change run has 65,568 bytes", len(change(1, usual, cases.FULL["1024 IPv6"], cases.FULL["1024 other IPv6"])) == 65_568
    yield "an IPv6 prefix has 32 bytes, and an IPv4 prefix 20", (len(model.prefix(1, 1, three[2])), len(model.prefix(1, 1, three[0]))) == (32, 20)
    for version in (0, 1):
        yield "identical tables: nothing between, version %d" % version, change(version, usual, three, three) == full(version, usual, [])
        yield "a first table without records: the full run, version %d" % version, change(version, usual, [], three) == full(version, usual, three)
        yield "to no records: flags 0, version %d" % version, [part[8] for part in parts(change(version, usual, three, []))[1:-1]] == [0, 0, 0]
        run = parts(change(version, usual, three, other))
        yield "withdrawals first, version %d" % version, [part[8] for part in run[1:-1]] == [0, 0, 1, 1]
        yield "in the first table's order, then in the second's, version %d" % version, [part[12:16].hex() for part in run[1:-1]] == ["0a000000", "20010db8", "0a000000", "20010db8"]
    for path in sorted(glob.glob(os.path.join(os.path.dirname(HERE), "listings.d", "*.txt"))):
        with open(path, "rb") as file:
            stop, table, records = read_listing(file.read())[1:]
        if table is not None:
            for version in (0, 1):
                life = model.life_by_model(version, 32, [("full",), run_lives.fed(full(version, table, records))])
                yield "%s, served in version %d" % (os.path.basename(path), version), life[1:] == model.life_by_statement(version, table, None, records)


def parts(data):
    found = []
    while data:
        length = int.from_bytes(data[4:8], "big")
        found.append(data[:length])
        data = data[length:]
    return found


def room_rules():
    """Rooms that the two models judge apart."""
    box, count, wrong = model.receiver.Receiver(), 0, []
    for case in cases.runs():
        for lent in case.rooms:
            count += 1
            theirs = len(lent.numbers) == model.ROOM and lent.count <= model.LIMIT and box.room_in_rule(lent.numbers, lent.count)
            if theirs != (model.table_in(lent) is not None):
                wrong.append("a room of " + case.name)
    return count, wrong


# ---------------------------------------------------------------------------
# Spoiled answers
# ---------------------------------------------------------------------------

def flipped(part, at):
    if isinstance(part, bytes):
        return part[:at] + bytes([part[at] ^ 1]) + part[at + 1:]
    return part[:at] + (part[at] ^ 1,) + part[at + 1:]


def spoiled(expected, differences, got_type):
    """What the comparison does not notice: an answer of each kind with one thing changed."""
    run = next(case for case in cases.ends() if case.version == 1)
    reading = next(case for case in cases.readings(False) if case.name.startswith("lent: three, a room of 6144 and a head of 8"))
    life = model.life_by_model(1, 32, [("full",), run_lives.fed(model.full_run(1, cases.USUAL, cases.THREE))])
    count, wrong = 0, []
    for name, right in (("run", expected(run)), ("reading", expected(reading)), ("life", life)):
        if differences(right, got_type(0, right)):
            wrong.append("a right answer of a %s is told as a difference" % name)
        spoils = {"faults": got_type(1, right), "memory beside": got_type(2, right)}
        for field in right._fields:
            value = getattr(right, field)
            if isinstance(value, int):
                spoils.update({"%s by %d" % (field, by): got_type(0, right._replace(**{field: value + by})) for by in (1, 2 ** 32)})
            elif field == "steps":
                spoils["a step's number"] = got_type(0, right._replace(steps=((9, b""),) + value[1:]))
                spoils["bytes taken"] = got_type(0, right._replace(steps=value[:1] + ((0, value[1][1] - 1, 1),)))
                spoils["updates"] = got_type(0, right._replace(steps=value[:1] + ((0, value[1][1], 2),)))
            else:
                spoils.update({"%s at %d" % (field, at): got_type(0, right._replace(**{field: flipped(value, at)})) for at in (0, len(value) // 2, len(value) - 1)})
                spoils[field + " cut"] = got_type(0, right._replace(**{field: value[:-1]}))
        count += len(spoils)
        wrong += ["not noticed of a %s: %s" % (name, what) for what, got in spoils.items() if not differences(right, got)]
    return count, wrong


# ---------------------------------------------------------------------------
# Wrong models: what stands in run_model.py, and what is put in its place
# ---------------------------------------------------------------------------

FLAGS = 'flags = {"withdraw": WITHDRAW, "announce": ANNOUNCE}'
CHANGES = "diff_model.changes(first, second)"
LENGTHS = "struct.pack(\">BBBB\", flags, record.length, record.max, 0)"
END_0 = 'header(version, END_OF_DATA, end.session, 12) + struct.pack(">I", end.serial)'
END_1 = 'header(version, END_OF_DATA, end.session, 24) + struct.pack(">IIII", end.serial, end.refresh, end.retry, end.expire)'
RESPONSE = "return header(version, CACHE_RESPONSE, session, 8)"
FULL_TABLE = "for record in table]\n    return cache_response"
SHORT, RIGHT, BAD = "return Answer(9, len(run), out)", "return Answer(0, len(run), run + out[len(run):])", "return Answer(22, 0, out)"
TEST = "if version not in (0, 1) or end is None or None in tables:"
TABLES = "[table_in(lent) for lent in rooms]"
LATER = "if any(not one < two for one, two in zip(table, table[1:])):"
READ_22, READ_24, READ_0 = "return Read(22, 0, room_before, head_before)", "return Read(24, read[1], (0,) * ROOM, head_before)", "return Read(0, 0, room(records).numbers, (stop, *numbers, len(records)))"

WRONG_RUNS = {
    "flags exchanged": [(FLAGS, 'flags = {"withdraw": ANNOUNCE, "announce": WITHDRAW}')],
    "withdrawals left out": [(CHANGES, '[x for x in diff_model.changes(first, second) if x[0] == "announce"]')],
    "announcements left out": [(CHANGES, '[x for x in diff_model.changes(first, second) if x[0] == "withdraw"]')],
    "announcements first": [(CHANGES, "sorted(diff_model.changes(first, second), key=lambda x: x[0])")],
    "differences in table order": [(CHANGES, "sorted(diff_model.changes(first, second), key=lambda x: x[1])")],
    "withdrawals backwards": [(CHANGES, 'sorted(diff_model.changes(first, second), key=lambda x: (x[0] != "withdraw", [-n for n in x[1].address] if x[0] == "withdraw" else []))')],
    "a change as a full run": [(CHANGES, '[("announce", record) for record in second]')],
    "a change's tables exchanged": [(CHANGES, "diff_model.changes(second, first)")],
    "everything withdrawn, then everything announced": [(CHANGES, '[("withdraw", record) for record in first] + [("announce", record) for record in second]')],
    "the last record left out": [(FULL_TABLE, "for record in table[:-1]]\n    return cache_response")],
    "the first record left out": [(FULL_TABLE, "for record in table[1:]]\n    return cache_response")],
    "a table backwards": [(FULL_TABLE, "for record in table[::-1]]\n    return cache_response")],
    "IPv6 first": [(FULL_TABLE, "for record in sorted(table, key=lambda x: -x.family)]\n    return cache_response")],
    "a full run with flags 0": [("prefixes = [prefix(version, ANNOUNCE, record)", "prefixes = [prefix(version, WITHDRAW, record)")],
    "more flags": [(LENGTHS, LENGTHS.replace("flags,", "flags | 2,"))],
    "length and max exchanged": [(LENGTHS, LENGTHS.replace("record.length, record.max", "record.max, record.length"))],
    "a prefix's last ignored byte": [(LENGTHS, LENGTHS.replace("0)", "1)"))],
    "a prefix's first ignored bytes": [("header(version, IPV4_PREFIX, 0, 20)", "header(version, IPV4_PREFIX, 1, 20)")],
    "an IPv6 prefix's ignored bytes": [("header(version, IPV6_PREFIX, 0, 32)", "header(version, IPV6_PREFIX, 1, 32)")],
    "host bits cleared": [("    lengths = struct", "    cut = 128 - record.length\n    bits = sum(n << 96 - 32 * i for i, n in enumerate(record.address)) >> cut << cut\n"
                           "    record = record._replace(address=tuple(bits >> 96 - 32 * i & MOST_32 for i in range(4)))\n    lengths = struct")],
    "an IPv6 address backwards": [("*record.address, record.asn)", "*record.address[::-1], record.asn)")],
    "the AS number first": [('">II", record.address[0], record.asn', '">II", record.asn, record.address[0]')],
    "little-endian addresses": [('">II"', '"<II"')],
    "an IPv4 prefix one byte short": [("record.address[0], record.asn)", "record.address[0], record.asn)[:-1]")],
    "a prefix's length one short": [("IPV6_PREFIX, 0, 32)", "IPV6_PREFIX, 0, 31)")],
    "no Cache Response": [("    return cache_response(version, end.session) + b\"\".join(prefixes) + end_of_data(version, end)\n\n\ndef change",
                           "    return b\"\".join(prefixes) + end_of_data(version, end)\n\n\ndef change")],
    "a Cache Response of no session": [(RESPONSE, "return header(version, CACHE_RESPONSE, 0, 8)")],
    "a session of 8 bits": [(RESPONSE, "return header(version, CACHE_RESPONSE, session % 256, 8)")],
    "an End of Data of another session": [(END_1, END_1.replace("end.session", "end.session ^ 1"))],
    "an End of Data of another session in version 0": [(END_0, END_0.replace("end.session", "end.session ^ 1"))],
    "intervals in version 0": [("if version == 0:", "if False:")],
    "no intervals in version 1": [("if version == 0:", "if True:")],
    "length 24 in version 0": [(END_0, END_0.replace("12", "24"))],
    "intervals exchanged": [(END_1, END_1.replace("end.refresh, end.retry", "end.retry, end.refresh"))],
    "retry and expire exchanged": [(END_1, END_1.replace("end.retry, end.expire", "end.expire, end.retry"))],
    "default intervals": [(END_1, END_1.replace("end.refresh, end.retry, end.expire", "3600, 600, 7200"))],
    "intervals held to RFC 8210, section 6": [(END_1, END_1.replace("end.refresh,", "min(max(end.refresh, 1), 86400),"))],
    "an interval of 0 as its default": [(END_1, END_1.replace("end.expire", "end.expire or 7200"))],
    "the serial one up": [(END_1, END_1.replace("end.serial", "(end.serial + 1) % 2 ** 32"))],
    "the version always 1": [('struct.pack(">BBHI", version,', 'struct.pack(">BBHI", 1,')],
}
WRONG_REFUSALS = {
    "nothing is 22": [(TEST, "if len(numbers) != 5 or version > 1 or end is None or None in tables and False:"), (TABLES, "[table_in(lent) or [] for lent in rooms]")],
    "22 of the first room alone": [(TABLES, "[table_in(rooms[0])] + [table_in(lent) or [] for lent in rooms[1:]]")],
    "22 of the second room alone": [(TABLES, "[table_in(lent) or [] for lent in rooms[:-1]] + [table_in(rooms[-1])]")],
    "9 before 22": [(TEST, "if len(out) < 20:\n        return Answer(9, 20, out)\n    " + TEST)],
    "9 before 22 of the second room": [(TEST, "if len(rooms) > 1 and tables[0] is not None and tables[1] is None and len(out) < 20:\n        return Answer(9, 20, out)\n    " + TEST)],
    "9 where the output is exact": [("if len(out) < len(run):", "if len(out) <= len(run):")],
    "9 only where the output is empty": [("if len(out) < len(run):", "if len(out) == 0:")],
    "9 with what is missing": [(SHORT, "return Answer(9, len(run) - len(out), out)")],
    "9 with what would be written without End of Data": [(SHORT, "return Answer(9, len(run) - 12, out)")],
    "9 with nothing": [(SHORT, "return Answer(9, 0, out)")],
    "what fits is written on 9": [(SHORT, "return Answer(9, len(run), run[:len(out)])")],
    "the Cache Response is written on 9": [(SHORT, "return Answer(9, len(run), (run[:8] + out[8:])[:len(out)])")],
    "the output zeroed on 22": [(BAD, "return Answer(22, 0, bytes(len(out)))")],
    "a length on 22": [(BAD, "return Answer(22, 20, out)")],
    "the rest of the output zeroed": [(RIGHT, "return Answer(0, len(run), run + bytes(len(out) - len(run)))")],
    "a byte behind the run": [(RIGHT, "return Answer(0, len(run), (run + b'\\0' + out[len(run) + 1:])[:len(out)])")],
    "written is the output's length": [(RIGHT, "return Answer(0, len(out), run + out[len(run):])")],
    "written is one short": [(RIGHT, "return Answer(0, len(run) - 1, run + out[len(run):])")],
    "no other version": [("version not in (0, 1)", "version not in (0, 1, 2)")],
    "a version of one bit": [(TEST, "version %= 2\n    " + TEST)],
    "more end numbers": [("if len(numbers) != 5:", "numbers = numbers[:5]\n    if len(numbers) != 5:")],
    "fewer end numbers": [("if len(numbers) != 5:", "numbers = (tuple(numbers) + (0,) * 5)[:max(5, len(numbers))]\n    if len(numbers) != 5:")],
    "a session of 17 bits": [("if numbers[0] > MOST_16:", "if numbers[0] > 2 * MOST_16:"), (RESPONSE, "return header(version, CACHE_RESPONSE, session % 65536, 8)"),
                             (END_0, END_0.replace("end.session", "end.session % 65536")), (END_1, END_1.replace("end.session", "end.session % 65536"))],
    "a session below 65535": [("if numbers[0] > MOST_16:", "if numbers[0] >= MOST_16:")],
    "numbers below 2^32 - 1": [("if max(numbers[1:]) > MOST_32:", "if max(numbers[1:]) >= MOST_32:")],
    "the serial alone is tested": [("if max(numbers[1:]) > MOST_32:", "numbers = (*numbers[:2], *(n % 2 ** 32 for n in numbers[2:]))\n    if numbers[1] > MOST_32:")],
    "intervals are not tested in version 0": [("end, tables = end_in(numbers)", "end, tables = end_in([n if i < 2 or version else n % 2 ** 32 for i, n in enumerate(numbers)])")],
    "a serial that must not be 0": [("if numbers[0] > MOST_16:", "if numbers[0] > MOST_16 or numbers[1] == 0:")],
    "a longer room": [("if len(lent.numbers) != ROOM:", "if len(lent.numbers) < ROOM:")],
    "a shorter room": [("if len(lent.numbers) != ROOM:", "if len(lent.numbers) > ROOM or lent.count * 6 > len(lent.numbers):")],
    "a count of 1025": [("if lent.count > LIMIT:", "if lent.count > 1025:"), ("if len(lent.numbers) != ROOM:", "if len(lent.numbers) not in (ROOM, ROOM + 6):")],
    "1,023 at the most": [("if lent.count > LIMIT:", "if lent.count >= LIMIT:")],
    "a count of 32 bits": [("if len(lent.numbers) != ROOM:", "lent = lent._replace(count=lent.count % 2 ** 32)\n    if len(lent.numbers) != ROOM:")],
    "a count of 16 bits": [("if len(lent.numbers) != ROOM:", "lent = lent._replace(count=lent.count % 2 ** 16)\n    if len(lent.numbers) != ROOM:")],
    "spare numbers may be anything": [("if any(lent.numbers[6 * lent.count:]):", "if False:")],
    "the first spare number alone": [("if any(lent.numbers[6 * lent.count:]):", "if any(lent.numbers[6 * lent.count:6 * lent.count + 1]):")],
    "spare numbers but the last": [("if any(lent.numbers[6 * lent.count:]):", "if any(lent.numbers[6 * lent.count:-1]):")],
    "equal records": [(LATER, LATER.replace("not one < two", "one > two"))],
    "records in any order": [(LATER, "if len(set(table)) < len(table):")],
    "order by addresses alone": [(LATER, LATER.replace("not one < two", "one[:2] > two[:2]"))],
    "order by the six numbers": [(LATER, LATER.replace("not one < two", "not (one.family, one.length, one.max, one.address, one.asn) < (two.family, two.length, two.max, two.address, two.asn)"))],
    "order without families": [(LATER, LATER.replace("not one < two", "not one[1:] < two[1:]"))],
    "the last two records not compared": [(LATER, "if any(not one < two for one, two in zip(table[:-1], table[1:-1])):")],
    "order by signed addresses": [(LATER, LATER.replace("not one < two", "not (one.family, [n ^ 2 ** 31 for n in one.address], one) < (two.family, [n ^ 2 ** 31 for n in two.address], two)"))],
    "any family": [("if family not in (4, 6):", "if family == 0:"), ("LONGEST[family]", "LONGEST.get(family, 128)")],
    "a family of 8 bits": [("family, length, longest = kind // 65536,", "family, length, longest = kind // 65536 % 256,")],
    "IPv4 spares": [("if family == 4 and any(address[1:]):", "if False:")],
    "the last IPv4 spare": [("if family == 4 and any(address[1:]):", "if family == 4 and any(address[1:3]):")],
    "max over the family's": [("if not length <= longest <= diff_model.LONGEST[family]:", "if not length <= longest <= 128:")],
    "max under the length": [("if not length <= longest <= diff_model.LONGEST[family]:", "if not max(length, longest) <= diff_model.LONGEST[family]:")],
    "max of 255": [("if not length <= longest <= diff_model.LONGEST[family]:", "if not length <= longest:")],
}
WRONG_READINGS = {
    "the room zeroed on 22": [(READ_22, "return Read(22, 0, (0,) * len(room_before), head_before)")],
    "the head zeroed on 22": [(READ_22, "return Read(22, 0, room_before, (0,) * len(head_before))")],
    "line 1 on 22": [(READ_22, "return Read(22, 1, room_before, head_before)")],
    "24 before 22": [("if len(room_before) != ROOM or len(head_before) != 8:", 'if diff_model.read_listing(text)[0] == "misfit":\n        return Read(24, 1, room_before, head_before)\n'
                      "    if len(room_before) != ROOM or len(head_before) != 8:")],
    "any longer head": [("len(head_before) != 8", "len(head_before) < 8")],
    "any longer room": [("len(room_before) != ROOM or", "len(room_before) < ROOM or")],
    "the room kept on 24": [(READ_24, READ_24.replace("(0,) * ROOM", "room_before"))],
    "the head zeroed on 24": [(READ_24, READ_24.replace("head_before", "(0,) * 8"))],
    "lines from 0": [(READ_24, READ_24.replace("read[1]", "read[1] - 1"))],
    "line 1 on 0": [(READ_0, READ_0.replace("Read(0, 0,", "Read(0, 1,"))],
    "no stop in the head": [(READ_0, READ_0.replace("(stop,", "(0,"))],
    "a table always": [("(1, *table) if table else (0,) * 6", "(1, *table) if table else (1,) + (0,) * 5")],
    "the head kept without a table": [(READ_0, "return Read(0, 0, room(records).numbers, (stop, *numbers, len(records)) if table else head_before)")],
    "the room kept without records": [(READ_0, "return Read(0, 0, room(records).numbers if records else room_before, (stop, *numbers, len(records)))")],
    "the count is how many numbers": [(READ_0, READ_0.replace("len(records)))", "6 * len(records)))"))],
}
WRONG = {**WRONG_RUNS, **WRONG_REFUSALS, **WRONG_READINGS}


def wrong_model(edits):
    """The model with these edits."""
    with open(model.__file__) as file:
        source = file.read()
    for old, new in edits:
        if source.count(old) != 1:
            raise AssertionError("found %d times in the model: %s" % (source.count(old), old))
        source = source.replace(old, new)
    module = types.ModuleType("wrong_model")
    module.__file__ = model.__file__
    exec(compile(source, "wrong model", "exec"), module.__dict__)
    return module


def noticed(these, wrong, expected):
    """The first case that the wrong model answers otherwise."""
    return next((case for case, right in these if tuple(expected(case, wrong)) != right), None)


# ---------------------------------------------------------------------------
# Wrong runs
# ---------------------------------------------------------------------------

# What a receiver of small tables does not notice: it takes these for a right run. With tables that fill its room the first two stop it by 18.
UNNOTICED = {"announcements first", "differences in table order", "withdrawals backwards", "a table backwards", "IPv6 first", "everything withdrawn, then everything announced", "more flags",
             "a prefix's last ignored byte", "a prefix's first ignored bytes", "an IPv6 prefix's ignored bytes"}


def wrong_runs():
    """The wrong runs that end as a right one does in every case."""
    these = []
    for case in cases.runs():
        if case.name.startswith(("full", "change", "end")) and max(lent.count for lent in case.rooms) < 100:
            these.append((case, [model.table_in(lent) for lent in case.rooms]))
    found = set()
    for name, edits in WRONG_RUNS.items():
        wrong = wrong_model(edits)
        for case, tables in these:
            end, first = model.Table(*case.end), tables[0] if len(tables) == 2 else None
            run = (wrong.full_run if first is None else wrong.change_run)(case.version, end, *tables)
            (_, _, own), = run_lives.lives(random.Random(1), name, case.version, end, first, tables[-1], run, ("whole",))
            if own:
                break
        else:
            found.add(name)
    return found


# ---------------------------------------------------------------------------

def main(expected, differences, got_type, stored, stored_words):
    began, found = time.time(), []
    every = list(facts())
    bad = ["fact: " + what for what, holds in every if not holds]
    print("%d facts, %d wrong" % (len(every), len(bad)))
    found += bad
    count, bad = room_rules()
    print("%d rooms, %d judged apart by the two models" % (count, len(bad)))
    found += bad
    count, bad = spoiled(expected, differences, got_type)
    print("%d spoiled answers, %d not noticed" % (count, len(bad)))
    found += bad
    runs = list(cases.runs())
    bad = ["stored otherwise: " + case.name for case in runs if stored.get(case.name) != stored_words(expected(case))]
    bad += ["stored and not enumerated: " + name for name in set(stored) - {case.name for case in runs}]
    print("%d stored answers, %d not the model's" % (len(stored), len(bad)))
    found += bad
    # large tables last: they take long
    these = sorted(((case, tuple(expected(case))) for case in (*runs, *cases.readings(False))), key=lambda x: isinstance(x[0], cases.Run) and max(lent.count for lent in x[0].rooms) > 100)
    bad = [name for name, edits in WRONG.items() if noticed(these, wrong_model(edits), expected) is None]
    print("%d wrong models, %d not noticed" % (len(WRONG), len(bad)))
    found += ["wrong model not noticed: " + name for name in bad]
    unnoticed = wrong_runs()
    bad = sorted(unnoticed - UNNOTICED)
    print("%d wrong runs fed, %d not noticed; %d more that a receiver of small tables does not notice" % (len(WRONG_RUNS) - len(UNNOTICED), len(bad), len(unnoticed & UNNOTICED)))
    found += ["wrong run not noticed: " + name for name in bad] + ["noticed and said not to be: " + name for name in sorted(UNNOTICED - unnoticed)]
    for line in found:
        print(line)
    print("selftest: %d faults, %.0f seconds" % (len(found), time.time() - began))
    return 1 if found else 0
