"""Wrong models of request Four: each is the model's source (tests/diff_model.py) with one idea of it changed.

WRONG has a name for each, and what is replaced by what; each text that is replaced stands in the source exactly once. tests/diffs --selftest asks that the cases tell every
one of them from the model: then a program that is wrong in that way is found too.
"""

import types

import diff_model as model

LINE = "line = self.text[self.at:end]"
UNENDED = "require(end >= 0)"
FINISH = "require(self.at == len(self.text))"
NAMED = 'require(line.startswith(name + b"="))'
BEHIND_NAME = "return line[len(name) + 1:]"
NUMBER = '    """OP 4.3: digits without a leading zero, and no more than `most`."""\n'
COUNT = '    """OP 4.5: exactly so many digits, with zeros in front, and a count within the range of its width."""\n'
WIDTH, IN_WIDTH, IN_LIMIT = "require(len(value) in rules.widths)", "require(count <= rules.widths[len(value)])", "require(count <= rules.limit)"
FIT = "require(len(value) <= len(str(most)))"
HEX_LENGTH = "require(len(value) == HEX_DIGITS[family])"
LENGTH, MAX = 'length = number_in(lines.value(b"length"), MOST_8)', 'longest = number_in(lines.value(b"max"), MOST_8)'
UNDER_MAX, UNDER_LONGEST = "require(length <= longest)", "require(longest <= LONGEST[family])"
ASN = 'asn = number_in(lines.value(b"asn"), MOST_32)'
ORDER = "require(before is None or before < record)"
LOOP = "for _ in range(count):"
READ = "    lines = Lines(text)\n"
STOPPED = 'stop = number_in(lines.value(b"stopped"), MOST_32)'
STOPS = "require(stop in STOPS)"
CHANGES = "return withdrawn + announced"
WITHDRAWN, ANNOUNCED = "for record in old if record not in in_new", "for record in new if record not in in_old"
COMPARED = "in changes(old[3], new[3])"
TEXT = "text = diff_of(old_read, new_read)"
DONE = "return Answer(0, len(text), text + out[len(text):], *left)"
SHORT = "return Answer(9, len(text), out, *left)"
ROOMS = "if len(old_room) != 24 * rules.limit or len(new_room) != 24 * rules.limit:"
ROOM_OF = 'return room([] if read[0] == "misfit" else read[3], rules)'
SIX = "record.family * 65536 + record.length * 256 + record.max, *record.address, record.asn"
LEFT = "left = rooms(old_read, new_read, old_room, new_room, rules)"
IS_SHORT, CUT = "if len(out) < len(text):", "return Answer(0, len(text), (text + out[len(text):])[:len(out)], *left)"
NO_ROOMS = "return Answer(22, 0, out, old_room, new_room)"


def left_as(what):
    """Other rooms than those that are right, which stand in `left`; each with what stood there and what was read."""
    return [(LEFT, LEFT + "\n    lent = list(zip(left, (old_room, new_room), (old_read, new_read)))\n    left = " + what)]


def ordered_by(key):
    """Another order of records."""
    return (ORDER, "require(before is None or (lambda r: %s)(before) < (lambda r: %s)(record))" % (key, key))


def passing_over(key):
    """Records compared by a part of theirs."""
    return [("in_old, in_new = set(old), set(new)", "part = lambda r: %s\n    in_old, in_new = set(map(part, old)), set(map(part, new))" % key),
            (WITHDRAWN, "for record in old if part(record) not in in_new"), (ANNOUNCED, "for record in new if part(record) not in in_old")]


def value_as(what):
    """Numbers read in another way."""
    return (NUMBER, "    value = %s\n" % what)


WRONG = {
    # lines
    "lines from 0": [("self.text, self.at, self.number = text, 0, 0", "self.text, self.at, self.number = text, 0, -1")],
    "lines are bytes": [("return \"misfit\", lines.number", "return \"misfit\", lines.at")],
    "CR dropped": [(LINE, LINE + '.rstrip(b"\\r")')],
    "one CR dropped": [(LINE, LINE + '\n        line = line[:-1] if line.endswith(b"\\r") else line')],
    "blanks dropped": [(LINE, LINE + '.strip(b" ")')],
    "tabs dropped": [(LINE, LINE + '.strip(b"\\t")')],
    "zero bytes dropped": [(LINE, LINE + '.strip(b"\\0")')],
    "lines in any case": [(LINE, LINE + ".lower()")],
    "comments dropped": [(LINE, LINE + '.split(b" #")[0]')],
    "no line feed at the end of all taken": [(UNENDED, "require(self.at < len(self.text))\n        end = len(self.text) if end < 0 else end"),
                                             (FINISH, "require(self.at >= len(self.text))")],
    "empty lines passed over": [(READ, '    while b"\\n\\n" in text:\n        text = text.replace(b"\\n\\n", b"\\n")\n' + READ)],
    "CR ends a line too": [(READ, '    text = text.replace(b"\\r\\n", b"\\n").replace(b"\\r", b"\\n")\n' + READ)],
    "a zero byte ends a line": [(READ, '    text = text.replace(b"\\0", b"\\n")\n' + READ)],
    "a zero byte ends the file": [(READ, '    text = text.split(b"\\0")[0]\n' + READ)],
    "a form feed ends a line": [(READ, '    text = text.replace(b"\\x0c", b"\\n")\n' + READ)],
    "a vertical tab ends a line": [(READ, '    text = text.replace(b"\\x0b", b"\\n")\n' + READ)],
    "a byte order mark passed over": [(READ, '    text = text[3:] if text.startswith(b"\\xef\\xbb\\xbf") else text\n' + READ)],
    "blank lines before passed over": [(READ, '    text = text.lstrip(b"\\n")\n' + READ)],
    "the top bit dropped": [(READ, "    text = bytes(x & 127 for x in text)\n" + READ)],
    "an empty file is no table": [(READ, '    text = text or b"stopped=0\\ncount=none\\n"\n' + READ)],
    "only 65,536 bytes read": [(READ, "    text = text[:65536]\n" + READ)],
    "only 86,123 bytes read": [(READ, "    text = text[:86123]\n" + READ)],
    "only 86,124 bytes read": [(READ, "    text = text[:86124]\n" + READ)],
    "what is behind passed over": [(FINISH, "pass")],
    "line feeds behind passed over": [(FINISH, 'require(self.text[self.at:].strip(b"\\n") == b"")')],
    "blanks behind passed over": [(FINISH, 'require(self.text[self.at:].strip(b" ") == b"")')],
    "a line without its end behind passed over": [(FINISH, 'require(b"\\n" not in self.text[self.at:])')],
    "what is behind told at the last line": [(FINISH, "self.number -= 1\n        " + FINISH)],
    # names
    "names not compared": [(NAMED, 'require(b"=" in line)'), (BEHIND_NAME, 'return line.partition(b"=")[2]')],
    "a name's first letters compared": [(NAMED, 'require(line.startswith(name[:3]) and b"=" in line)'), (BEHIND_NAME, 'return line.partition(b"=")[2]')],
    "a name's length compared alone": [(NAMED, 'require(line[len(name):len(name) + 1] == b"=")')],
    "any byte for =": [(NAMED, "require(line.startswith(name) and len(line) > len(name))")],
    "two = taken": [(BEHIND_NAME, 'return line[len(name):].lstrip(b"=")')],
    "the value behind the last =": [(BEHIND_NAME, 'return line.rpartition(b"=")[2]')],
    "a blank behind = taken": [(BEHIND_NAME, 'return line[len(name) + 1:].lstrip(b" ")')],
    "a name anywhere in the line": [(NAMED, 'require(name + b"=" in line)'), (BEHIND_NAME, 'return line.partition(name + b"=")[2]')],
    # numbers
    "leading zeros taken": [('require(value == b"0" or not value.startswith(b"0"))', "pass")],
    "one leading zero taken": [value_as('value[1:] if value.startswith(b"0") and len(value) > 1 else value')],
    "any number of leading zeros taken": [value_as('value.lstrip(b"0") or value[:1]')],
    "00 taken": [value_as('b"0" if value == b"00" else value')],
    "0 refused": [('require(value == b"0" or not value.startswith(b"0"))', 'require(not value.startswith(b"0"))')],
    "+ taken": [value_as('value[1:] if value.startswith(b"+") else value')],
    "- taken": [value_as('value[1:] if value.startswith(b"-") else value')],
    "no digits taken as 0": [value_as('value or b"0"')],
    "a number up to what is no digit": [value_as('value[:next((i for i, x in enumerate(value) if x not in b"0123456789"), len(value))]')],
    "a blank before a number taken": [value_as('value.lstrip(b" ")')],
    "a blank behind a number taken": [value_as('value.rstrip(b" ")')],
    "a zero byte behind a number taken": [value_as('value.split(b"\\0")[0]')],
    "_ in a number taken": [value_as('value.replace(b"_", b"")')],
    "quotes around a number taken": [value_as('value.strip(b\'"\')')],
    "byte 58 as a digit": [value_as('value.replace(b":", b"9")')],
    "byte 47 as a digit": [value_as('value.replace(b"/", b"0")')],
    "hex numbers taken": [value_as('b"%d" % int(value, 16) if value.startswith(b"0x") and value[2:].isalnum() else value')],
    "digits of other scripts taken": [value_as('other_digits(value)')],
    "a sum that wraps at 8 bits": [value_as("wrapped(value, 8)")],
    "a sum that wraps at 16 bits": [value_as("wrapped(value, 16)")],
    "a sum that wraps at 32 bits": [value_as("wrapped(value, 32)")],
    "a sum that wraps at 64 bits": [value_as("wrapped(value, 64)")],
    "a sum that wraps at 128 bits": [value_as("wrapped(value, 128)")],
    "a sum that stays at the most": [value_as('b"%d" % min(most, int(value[:30])) if value.isdigit() and value[:1] != b"0" else value')],
    "only ten digits read": [value_as("value[:10]")],
    "at most four digits": [(FIT, "require(len(value) <= 4)")],
    "at most nine digits": [(FIT, FIT + "\n    require(len(value) <= 9)")],
    "a number at the most refused": [("require(int(value) <= most)", "require(int(value) < most)")],
    "one over the most taken": [("require(int(value) <= most)", "require(int(value) <= most + 1)")],
    "31 bits are the most": [("require(int(value) <= most)", "require(int(value) <= min(most, 2 ** 31 - 1))")],
    "a session of 32 bits": [("MOST_16)\n    others", "MOST_32)\n    others")],
    "serial and intervals of 16 bits": [('MOST_32) for name in (b"serial"', 'MOST_16) for name in (b"serial"')],
    "serial and intervals of 33 bits": [('MOST_32) for name in (b"serial"', '2 ** 33) for name in (b"serial"')],
    "an AS number of 16 bits": [(ASN, ASN.replace("MOST_32", "MOST_16"))],
    "an AS number of 33 bits": [(ASN, ASN.replace("MOST_32", "2 ** 33") + " % 2 ** 32")],
    "an AS number of 0 refused": [(ASN, ASN + "\n    require(asn != 0)")],
    # the head
    "a stop refuses a table": [("return stop, Table(session, *others), records", "lines.number = 1\n    require(stop == 0)\n    return stop, Table(session, *others), records")],
    "a stop of 8 bits": [(STOPPED, STOPPED + "\n    stop = stop % 256")],
    "a stop of one digit": [(STOPPED, STOPPED + "\n    require(stop < 10)")],
    "count=none behind the numbers taken": [(COUNT, '    if value == b"none":\n        return 0\n')],
    "count=0000 as line 2 taken": [('if line == b"count=none":', 'if line in (b"count=none", b"count=0000"):')],
    "count=none with more behind it": [('if line == b"count=none":', 'if line.startswith(b"count=none"):')],
    "an empty count as line 2 taken": [('if line == b"count=none":', 'if line in (b"count=none", b"count="):')],
    "no table, and then one": [('if line == b"count=none":', 'if line == b"count=none" and lines.at < len(lines.text):\n        line = lines.take()\n    if line == b"count=none":')],
    "serial and session exchanged": [('line.startswith(b"session=")', 'line.startswith(b"serial=")'), ('line[len(b"session="):]', 'line[len(b"serial="):]'),
                                     ('(b"serial", b"refresh"', '(b"session", b"refresh"')],
    "refresh and retry exchanged": [('b"refresh", b"retry"', 'b"retry", b"refresh"')],
    # the count
    "a count of any width": [(WIDTH, "pass"), (IN_WIDTH, "pass"), ("count = int(value)", "count = int(value[-9:])")],
    "a count without leading zeros": [(COUNT, '    value = b"%04d" % int(value) if value.isdigit() and value[:1] != b"0" and len(value) < 4 else value\n')],
    "a count of three digits": [(COUNT, '    value = b"0" + value if len(value) == 3 else value\n')],
    "1025 taken": [(IN_WIDTH, "count = min(count, 1024) if count == 1025 else count\n    " + IN_WIDTH)],
    "a count over the most taken as the most": [(IN_WIDTH, "count = min(count, 1024)")],
    "1024 refused": [(IN_LIMIT, "require(count < rules.limit)")],
    "1023 is the most": [(IN_LIMIT, "require(count < 1023)")],
    "a count over the most told behind the records": [(IN_WIDTH, "pass"), (IN_LIMIT, "pass")],
    "the count not looked at": [(LOOP, "while lines.at < len(lines.text):")],
    "fewer records taken": [(LOOP, "for _ in range(count):\n        if lines.at == len(lines.text):\n            break")],
    "more records taken": [("    lines.finish()\n    return stop, Table",
                            "    while lines.at < len(lines.text):\n        records.append(record_in(lines, (records or [None])[-1]))\n    return stop, Table")],
    "one record fewer": [(LOOP, "for _ in range(count - 1):")],
    "a missing record told at its end": [(LOOP, "for _ in range(count):\n        lines.number += 4 if lines.at == len(lines.text) else 0")],
    # records
    "another family as 6": [('require(family in (b"4", b"6"))', 'number_in(family, 9)\n    family = family if family == b"4" else b"6"')],
    "family=5 as 4": [('require(family in (b"4", b"6"))', 'family = b"4" if family == b"5" else family\n    require(family in (b"4", b"6"))')],
    "family=04 taken": [('require(family in (b"4", b"6"))', 'family = family[-1:]\n    require(family in (b"4", b"6"))')],
    "IPv6 refused": [('require(family in (b"4", b"6"))', 'require(family == b"4")')],
    "capital hex digits taken": [('b"0123456789abcdef"', 'b"0123456789abcdefABCDEF"')],
    "g as a hex digit": [('b"0123456789abcdef" for digit in value))', 'b"0123456789abcdefg" for digit in value))\n    value = value.replace(b"g", b"f")')],
    "` as a hex digit": [('b"0123456789abcdef" for digit in value))', 'b"0123456789abcdef`" for digit in value))\n    value = value.replace(b"`", b"9")')],
    "any hex digits": [("    require(all(digit in b", "    value = bytes(x if x in b'0123456789abcdef' else 48 for x in value)\n    require(all(digit in b")],
    "the last hex digit not looked at": [("    require(all(digit in b", "    value = value[:-1] + (value[-1:] if value[-1:] in b'0123456789abcdef' else b'0')\n    require(all(digit in b")],
    "shorter addresses taken": [(HEX_LENGTH, 'require(0 < len(value) <= HEX_DIGITS[family])')],
    "longer addresses taken": [(HEX_LENGTH, "require(len(value) >= HEX_DIGITS[family])\n    value = value[:HEX_DIGITS[family]]")],
    "an address of either length": [(HEX_LENGTH, "require(len(value) in (8, 32))")],
    "IPv4 addresses of 32 digits": [("HEX_DIGITS = {4: 8, 6: 32}", "HEX_DIGITS = {4: 32, 6: 32}")],
    "a length over 255 told at max=": [(LENGTH, LENGTH.replace("MOST_8", "MOST_32"))],
    "a length's lowest eight bits": [(LENGTH, LENGTH.replace("MOST_8", "MOST_32") + " % 256")],
    "a max's lowest eight bits": [(MAX, MAX.replace("MOST_8", "MOST_32") + " % 256")],
    "a length told at length=": [(LENGTH, LENGTH + "\n    require(length <= LONGEST[family])")],
    "a length told at length= over 128": [(LENGTH, LENGTH + "\n    require(length <= 128)")],
    "lengths told at asn=": [(UNDER_MAX, "pass"), (UNDER_LONGEST, "pass"), (ASN, ASN + "\n    require(length <= longest <= LONGEST[family])")],
    "a max under the length told at asn=": [(UNDER_MAX, "pass"), (ASN, ASN + "\n    require(length <= longest)")],
    "a max under the length taken": [(UNDER_MAX, "pass")],
    "a max over the family's taken": [(UNDER_LONGEST, "pass")],
    "128 for IPv4 too": [(UNDER_LONGEST, "require(longest <= 128)")],
    "32 for IPv6 too": [(UNDER_LONGEST, "require(longest <= 32)")],
    "a max equal to the length refused": [(UNDER_MAX, "require(length < longest)")],
    "a max of 32 and 128 refused": [(UNDER_LONGEST, "require(longest < LONGEST[family])")],
    "a max of 33 and 129 taken": [(UNDER_LONGEST, "require(longest <= LONGEST[family] + 1)")],
    "a length of 0 refused": [(UNDER_MAX, "require(0 < length <= longest)")],
    # order
    "order not strict": [(ORDER, "require(before is None or before <= record)")],
    "order not looked at": [(ORDER, "pass")],
    "equal records alone refused": [(ORDER, "require(before != record)")],
    "order backwards": [(ORDER, "require(before is None or before > record)")],
    "order told at family=": [("    family = int(family)\n", "    family = int(family)\n    require(before is None or before.family <= family)\n")],
    "order told at address=": [("    length = number_in", "    require(before is None or before[:2] <= (family, address))\n    length = number_in")],
    "order told at max=": [("    asn = number_in", "    require(before is None or before[:4] <= (family, address, length, longest))\n    asn = number_in")],
    "order told behind asn=": [(ORDER, "lines.number += 1\n    require(before is None or before < record)\n    lines.number -= 1")],
    "order without the family": [ordered_by("r[1:]")],
    "order without the address": [ordered_by("(r.family, r.length, r.max, r.asn)")],
    "order by the first word": [ordered_by("(r.family, r.address[0], r.length, r.max, r.asn)")],
    "order by three words": [ordered_by("(r.family, r.address[:3], r.length, r.max, r.asn)")],
    "order by the words backwards": [ordered_by("(r.family, r.address[::-1], r.length, r.max, r.asn)")],
    "order without the length": [ordered_by("(r.family, r.address, r.max, r.asn)")],
    "order without the max": [ordered_by("(r.family, r.address, r.length, r.asn)")],
    "order without the AS number": [ordered_by("r[:4]")],
    "length before address": [ordered_by("(r.family, r.length, r.address, r.max, r.asn)")],
    "max before length": [ordered_by("(r.family, r.address, r.max, r.length, r.asn)")],
    "AS number before max": [ordered_by("(r.family, r.address, r.length, r.asn, r.max)")],
    "address before family": [ordered_by("(r.address, r.family, r.length, r.max, r.asn)")],
    "order by first numbers, as in a room": [ordered_by("(r.family * 65536 + r.length * 256 + r.max, r.address, r.asn)")],
    "order by text": [ordered_by("record_lines(r)")],
    "order by signed words": [ordered_by("(r.family, tuple((x + 2 ** 31) % 2 ** 32 for x in r.address), r.length, r.max, r.asn)")],
    "order by signed AS numbers": [ordered_by("(r.family, r.address, r.length, r.max, (r.asn + 2 ** 31) % 2 ** 32)")],
    "order by 16 bits of the AS number": [ordered_by("(r.family, r.address, r.length, r.max, r.asn % 65536)")],
    "order beside the first record": [("records[-1] if records else None", "records[0] if records else None")],
    "order of the first two alone": [("records[-1] if records else None", "records[-1] if len(records) == 1 else None")],
    # what is printed
    "announcements first": [(CHANGES, "return announced + withdrawn")],
    "withdrawals alone": [(CHANGES, "return withdrawn")],
    "announcements alone": [(CHANGES, "return announced")],
    "changes in table order": [(CHANGES, "return sorted(withdrawn + announced, key=lambda x: x[1])")],
    "withdrawals backwards": [(CHANGES, "return withdrawn[::-1] + announced")],
    "announcements backwards": [(CHANGES, "return withdrawn + announced[::-1]")],
    "the last change left out": [(CHANGES, "return (withdrawn + announced)[:-1]")],
    "withdraw and announce exchanged": [('("withdraw", record)', '("announce", record)'), ('[("announce", record) for record in new', '[("withdraw", record) for record in new')],
    "old and new exchanged": [(COMPARED, "in changes(new[3], old[3])")],
    "a shared record printed": [(WITHDRAWN, "for record in old")],
    "a shared record announced": [(ANNOUNCED, "for record in new")],
    "a changed AS number passed over": passing_over("r[:4]"),
    "a changed max passed over": passing_over("(*r[:3], r[4])"),
    "a changed length passed over": passing_over("(*r[:2], *r[3:])"),
    "a changed family passed over": passing_over("r[1:]"),
    "a changed first word passed over": passing_over("(r[0], r[1][1:], *r[2:])"),
    "a changed last word passed over": passing_over("(r[0], r[1][:3], *r[2:])"),
    "another head withdraws all": [(COMPARED, "in (changes(old[3], new[3]) if old[2] == new[2] else changes(old[3], []) + changes([], new[3]))")],
    "another serial compared": [(COMPARED, "in (changes(old[3], new[3]) if old[2] != new[2] else [])")],
    "without a table nothing is withdrawn": [(COMPARED, "in (changes(old[3], new[3]) if new[2] else [])")],
    "a stop withdraws nothing": [(COMPARED, "in (changes(old[3], new[3]) if new[1] == 0 else [])")],
    "a line where nothing changed": [(DONE, 'text = text or b"\\n"\n    ' + DONE)],
    "no last line feed": [(TEXT, TEXT + '\n    text = text[:-1]')],
    "CR LF printed": [(TEXT, TEXT + '\n    text = text.replace(b"\\n", b"\\r\\n")')],
    "change= behind the record": [('"change=%s\\n" % kind + record_lines(record)', 'record_lines(record) + "change=%s\\n" % kind')],
    "withdrawn printed": [('("withdraw", record)', '("withdrawn", record)')],
    "IPv4 addresses printed with 32 digits": [("record.address[:HEX_DIGITS[record.family] // 8]", "record.address")],
    "addresses printed without leading zeros": [('"%08x" % word', '"%x" % word')],
    "addresses printed in capitals": [('"%08x" % word', '"%08X" % word')],
    "length and max exchanged in print": [("address, record.length, record.max, record.asn", "address, record.max, record.length, record.asn")],
    "signed AS numbers printed": [("address, record.length, record.max, record.asn", "address, record.length, record.max, (record.asn + 2 ** 31) % 2 ** 32 - 2 ** 31")],
    # refusals
    "new file first": [("return old, None if old[0] == \"misfit\" else read_listing(new, rules)", "return old, read_listing(new, rules)"),
                       ('    if old[0] == "misfit":\n        return refused(b"old", old[1])\n    if new[0] == "misfit":\n        return refused(b"new", new[1])',
                        '    if new[0] == "misfit":\n        return refused(b"new", new[1])\n    if old[0] == "misfit":\n        return refused(b"old", old[1])')],
    "the earlier line first": [("return old, None if old[0] == \"misfit\" else read_listing(new, rules)", "return old, read_listing(new, rules)"),
                               ('    if old[0] == "misfit":\n        return refused', '    if old[0] == "misfit" and not (new[0] == "misfit" and new[1] < old[1]):\n        return refused')],
    "file names exchanged": [('return refused(b"old"', 'return refused(b"new"'), ('return refused(b"new"', 'return refused(b"old"')],
    "always the old file": [('return refused(b"new"', 'return refused(b"old"')],
    "file=old.txt": [('return refused(b"old"', 'return refused(b"old.txt"')],
    "refused=22 printed": [("refused=24", "refused=22")],
    "line= of four digits": [("line=%d\\n", "line=%04d\\n")],
    "line= at most 255": [('return "misfit", lines.number', 'return "misfit", lines.number % 256')],
    "what changed printed before the refusal": [('return refused(b"new", new[1])', 'return diff_of(old, ("listed", 0, None, [])) + refused(b"new", new[1])')],
    "a refused new file is no table": [('    if new[0] == "misfit":\n        return refused(b"new", new[1])', '    new = ("listed", 0, None, []) if new[0] == "misfit" else new')],
    # the call
    "24 as the call's number": [(DONE, 'return Answer(24 if text.startswith(b"refused") else 0, len(text), text + out[len(text):], *left)')],
    "an exact output refused": [(IS_SHORT, "if len(out) <= len(text):")],
    "an output that is one short taken": [(IS_SHORT, "if len(out) < len(text) - 1:"), (DONE, CUT)],
    "9 never for a refusal": [(IS_SHORT, 'if len(out) < len(text) and not text.startswith(b"refused"):'), (DONE, CUT)],
    "9 says one less": [(SHORT, "return Answer(9, len(text) - 1, out, *left)")],
    "9 says what is missing": [(SHORT, "return Answer(9, len(text) - len(out), out, *left)")],
    "9 says 0": [(SHORT, "return Answer(9, 0, out, *left)")],
    "9 says 204,800 always": [(SHORT, "return Answer(9, 204800, out, *left)")],
    "an output of less than 204,800 refused": [(IS_SHORT, "if len(out) < 204800:")],
    "the output filled as far as it goes on 9": [(SHORT, "return Answer(9, len(text), text[:len(out)], *left)")],
    "the output zeroed on 9": [(SHORT, "return Answer(9, len(text), bytes(len(out)), *left)")],
    "a zero behind the output": [(DONE, "return Answer(0, len(text), (text + b'\\0' + out[len(text) + 1:])[:len(out)], *left)")],
    "the rest of the output zeroed": [(DONE, "return Answer(0, len(text), text + bytes(len(out) - len(text)), *left)")],
    "written 0": [(DONE, "return Answer(0, 0, text + out[len(text):], *left)")],
    "written counts changes": [(DONE, 'return Answer(0, text.count(b"change="), text + out[len(text):], *left)')],
    "written counts the output": [(DONE, "return Answer(0, len(out), text + out[len(text):], *left)")],
    "22 never": [(ROOMS, "if False:")],
    "22 for the old room alone": [(ROOMS, "if len(old_room) != 24 * rules.limit:")],
    "22 for the new room alone": [(ROOMS, "if len(new_room) != 24 * rules.limit:")],
    "22 for the new room only where it is used": [(ROOMS, ROOMS[:-1] + ' and read_listing(old, rules)[0] == "listed":')],
    "22 for smaller rooms alone": [(ROOMS, ROOMS.replace("!=", "<")), *left_as("[x and x + y[len(x):] for x, y, z in lent]")],
    "22 for rooms that are not in sixes": [(ROOMS, "if len(old_room) % 24 or len(new_room) % 24:")],
    "22 for rooms of two lengths": [(ROOMS, "if len(old_room) != len(new_room):")],
    "9 before 22": [(ROOMS, "if len(out) < len(diff(old, new, rules)):\n        return Answer(9, len(diff(old, new, rules)), out, old_room, new_room)\n    " + ROOMS)],
    "24 before 22": [(ROOMS, 'said = diff(old, new, rules)\n    if said.startswith(b"refused") and len(out) >= len(said):\n'
                              '        return Answer(0, len(said), said + out[len(said):], old_room, new_room)\n    ' + ROOMS)],
    "rooms zeroed on 22": [(NO_ROOMS, "return Answer(22, 0, out, bytes(len(old_room)), bytes(len(new_room)))")],
    "a room of the right length zeroed on 22": [(NO_ROOMS, "return Answer(22, 0, out, *(bytes(len(x)) if len(x) == 24576 else x for x in (old_room, new_room)))")],
    "the output zeroed on 22": [(NO_ROOMS, "return Answer(22, 0, bytes(len(out)), old_room, new_room)")],
    # rooms
    "half a table left in the room": [("    records = []\n", "    records = lines.records = []\n"), (ROOM_OF, "return room(read[3], rules)"),
                                      ('return "misfit", lines.number', 'return "misfit", lines.number, None, getattr(lines, "records", [])')],
    "a room kept on 24": left_as('[y if z and z[0] == "misfit" else x for x, y, z in lent]'),
    "the old room zeroed where the new file is refused": left_as('[bytes(len(old_room)) if new_read and new_read[0] == "misfit" else left[0], left[1]]'),
    "rooms kept": left_as("[old_room, new_room]"),
    "rooms zeroed at the end": left_as("[bytes(len(old_room)), bytes(len(new_room))]"),
    "rooms exchanged": left_as("left[::-1]"),
    "spare numbers kept": left_as('[x and (lambda n: x[:n] + y[n:])(24 * len(z[3]) if z and z[0] == "listed" else 0) for x, y, z in lent]'),
    "a room kept whose file is not looked at": left_as('[y if z is None else x for x, y, z in lent]'),
    "rooms kept without a table": left_as('[y if z and z[0] == "listed" and z[2] is None else x for x, y, z in lent]'),
    "rooms kept without records": left_as('[y if z and z[0] == "listed" and z[3] == [] else x for x, y, z in lent]'),
    "rooms kept where nothing changed": left_as('[y if text == b"" else x for x, y, z in lent]'),
    "records left only where they changed": left_as('[x if not new_read or text.startswith(b"refused") else room([r for r in z[3] if record_lines(r).encode() in text]) for x, y, z in lent]'),
    "rooms kept on 9": [(SHORT, "return Answer(9, len(text), out, old_room, new_room)")],
    "rooms zeroed on 9": [(SHORT, "return Answer(9, len(text), out, bytes(len(old_room)), bytes(len(new_room)))")],
    "length and max exchanged in the room": [(SIX, "record.family * 65536 + record.max * 256 + record.length, *record.address, record.asn")],
    "family x 256 in the room": [(SIX, "record.family * 256 + record.length * 256 + record.max, *record.address, record.asn")],
    "an address's words backwards in the room": [(SIX, SIX.replace("*record.address", "*record.address[::-1]"))],
    "an IPv4 address in the last word": [(SIX, SIX.replace("*record.address", "*(record.address if record.family == 6 else record.address[::-1])"))],
    "the AS number before the address in the room": [(SIX, "record.family * 65536 + record.length * 256 + record.max, record.asn, *record.address")],
    "big-endian numbers in the room": [('struct.pack("<%dI"', 'struct.pack(">%dI"')],
}
# of each number as a stop: taken where it is refused, refused where it is taken
WRONG.update({"stop %d %s" % (n, "refused" if n in model.STOPS else "taken"): [(STOPS, "require((stop in STOPS) != (stop == %d))" % n)] for n in range(42)})
# of each number in the head and in a record: not looked at
for NAME, MOST in (("length= and max=", "MOST_8"), ("session=", "MOST_16"), ("asn=, serial= and intervals", "MOST_32")):
    WRONG[NAME + " may be anything"] = [(NUMBER, NUMBER + "    if most == %s and not value.isdigit():\n        return 0\n" % MOST)]
# of Four alone, and of Six alone
WRONG_IN_FOUR = {"a count of five digits": [(COUNT, '    value = value[1:] if len(value) == 5 and value[:1] == b"0" else value\n')]}
WRONG_IN_SIX = {"five digits refused": [(WIDTH, "require(len(value) == 4)")], "four digits refused": [(WIDTH, "require(len(value) == 5)")]}


def wrong_models(rules):
    """Every wrong model's name and edits."""
    return {**WRONG, **(WRONG_IN_SIX if 5 in rules.widths else WRONG_IN_FOUR)}


def wrapped(value, bits):
    """A number without a leading zero as a sum that wraps."""
    if not value.isdigit() or value.startswith(b"0"):
        return value
    n = 0
    for digit in value:
        n = (10 * n + digit - 48) % 2 ** bits
    return b"%d" % n


def other_digits(value):
    """Digits of any script as plain ones."""
    text = value.decode("utf-8", "replace")
    return b"%d" % int(text) if text.isdecimal() and not text.startswith("0") and len(text) < 4000 else value


def wrong_model(edits):
    """The model with these edits."""
    with open(model.__file__) as file:
        source = file.read()
    # found in the source as it was: one edit may put in what another looks for
    places = []
    for old, new in edits:
        if source.count(old) != 1:
            raise AssertionError("found %d times in the model: %s" % (source.count(old), old))
        places.append((source.index(old), old, new))
    for at, old, new in sorted(places, reverse=True):
        source = source[:at] + new + source[at + len(old):]
    module = types.ModuleType("wrong_model")
    module.__dict__.update(wrapped=wrapped, other_digits=other_digits)
    exec(compile(source, "wrong model", "exec"), module.__dict__)
    return module
