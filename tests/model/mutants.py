#!/usr/bin/env python3
"""Are the scripts sharp?  Each mutant is the model with one rule changed; it
must answer some script differently.

    python3 mutants.py SCRIPTFILE EXPECTEDFILE
"""

import sys
import types

SOURCE = open(__file__.rsplit("/", 1)[0] + "/receiver_model.py").read() if "/" in __file__ else open("receiver_model.py").read()

MUTANTS = [
    ("plain comparison of serials", "ahead = (s.note[1] - s.table[1]) % 2**32", "ahead = 0 if s.note[1] == s.table[1] else 1 if s.note[1] > s.table[1] else 2**32 - 1"),
    ("undefined is newer", "if ahead < 2**31:", "if ahead <= 2**31:"),
    ("undefined is older", "if ahead > 2**31:", "if ahead >= 2**31:"),
    ("other session not told", "if s.note[0] != s.table[0]:", "if False:"),
    ("note lost at stop", "s.held = 0\n                self.empty(work)", "s.held = 0; s.note = None\n                self.empty(work)"),
    ("reconnect keeps the note", "        s.work_count = 0\n        s.note = None\n", "        s.work_count = 0\n"),
    ("reconnect keeps held", "        s.phase = (\"Idle\",)\n        s.held = 0\n", "        s.phase = (\"Idle\",)\n"),
    ("reconnect keeps MustReset", "s.phase = (\"Idle\",)\n        s.held = 0", "s.phase = s.phase if s.phase[0] == 'MustReset' else (\"Idle\",)\n        s.held = 0"),
    ("live cleared at Cache Response", "self.empty(work)\n            s.work_count = 0\n            s.phase = (\"Loading\", \"full\"", "self.empty(work); self.empty(live); s.live_count = 0\n            s.work_count = 0\n            s.phase = (\"Loading\", \"full\""),
    ("duplicates sought in the live room", "return self.enter(s, work, pdu.record), 0", "return ((17,) if self.find(live, s.live_count, pdu.record)[1] and s.phase[1] == 'full' else self.enter(s, work, pdu.record)), 0"),
    ("18 before 17", "        if there:\n            return (17,)\n", "        if s.work_count >= self.limit:\n            return (18,)\n        if there:\n            return (17,)\n"),
    ("1,023 records", "if s.work_count >= self.limit:", "if s.work_count >= self.limit - 1:"),
    ("order by the six numbers", "return (family, record[1], record[2], record[3], record[4],\n                length, most, record[5])", "return tuple(record)"),
    ("AS number before lengths", "record[4],\n                length, most, record[5])", "record[4],\n                record[5], length, most)"),
    ("signed addresses", "return (family, record[1], record[2]", "return (family, record[1] ^ 0x80000000, record[2]"),
    ("host bits cleared", "be32(data, 12), 0, 0, 0, be32(data, 16))", "be32(data, 12) & (0xffffffff << 32 - prefix_length), 0, 0, 0, be32(data, 16))"),
    ("whole flag byte", "if pdu.flags % 2 == 1:", "if pdu.flags == 1:"),
    ("version before Error Report", "if pdu.kind == ERROR_REPORT:\n            return (19", "if pdu.kind == ERROR_REPORT and pdu.version == s.version:\n            return (19"),
    ("turn before version", "if pdu.version != s.version:", "if pdu.version != s.version and not (s.phase[0] == 'Idle' and pdu.kind != 0):"),
    ("record before session", "if pdu.session != s.phase[2]:", "if s.table is not None and pdu.session != s.phase[2]:"),
    ("change session not tested", "if pdu.session != s.table[0]:", "if False:"),
    ("full session must be the table's", "s.phase = (\"Loading\", \"full\", pdu.session)", "s.phase = (\"Loading\", \"full\", s.table[0] if s.table else pdu.session)"),
    ("Cache Reset in AskedFull", "if pdu.kind == CACHE_RESET and phase == \"AskedChange\":", "if pdu.kind == CACHE_RESET and phase in (\"AskedChange\", \"AskedFull\"):"),
    ("Cache Reset drops the table", "s.phase = (\"MustReset\",)", "s.phase = (\"MustReset\",); s.table = None; s.live_count = 0; self.empty(live)"),
    ("notify only in Idle", "if pdu.kind == SERIAL_NOTIFY:", "if pdu.kind == SERIAL_NOTIFY and phase != 'Loading':"),
    ("first note wins", "s.note = (pdu.session, pdu.serial)", "s.note = s.note or (pdu.session, pdu.serial)"),
    ("End of Data clears the note", "            s.phase = (\"Idle\",)\n            return None, 1", "            s.phase = (\"Idle\",); s.note = None\n            return None, 1"),
    ("v1 intervals are the defaults", "pdu.intervals = (be32(data, 12), be32(data, 16), be32(data, 20))", "pdu.intervals = DEFAULT_INTERVALS"),
    ("retry and expire changed about", "be32(data, 12), be32(data, 16), be32(data, 20))", "be32(data, 12), be32(data, 20), be32(data, 16))"),
    ("router key is 13", "if pdu.kind == ROUTER_KEY and phase == \"Loading\":", "if False:"),
    ("router key anywhere", "if pdu.kind == ROUTER_KEY and phase == \"Loading\":", "if pdu.kind == ROUTER_KEY:"),
    ("updates not counted", "return None, 1", "return None, 0"),
    ("read before 12", "    if length > len(hold):\n        return None, (12, length)\n", "    if length > len(hold):\n        if hold[0] > 1:\n            return None, (2, hold[0])\n        return None, (12, length)\n"),
    ("12 at H", "if length > len(hold):", "if length >= len(hold):"),
    ("cap of 131,087", "STREAM_MOST = 131_086", "STREAM_MOST = 131_087"),
    ("cap of 131,085", "STREAM_MOST = 131_086", "STREAM_MOST = 131_085"),
    ("least 7", "if length < STREAM_LEAST:", "if length < 7:"),
    ("12 before 4", "    if length > STREAM_MOST:", "    if length > STREAM_MOST and length <= len(hold):"),
    ("type in 4 not raw", "return None, (4, STREAM_LEAST, length, hold[1])", "return None, (4, STREAM_LEAST, length, hold[1] if hold[1] < 11 else 0)"),
    ("type before version", "    if version not in (0, 1):\n        return None, (2, version)\n", "    if version not in (0, 1) and data[1] in KNOWN_TYPES:\n        return None, (2, version)\n"),
    ("length before Router Key in v0", "if kind == ROUTER_KEY and version == 0:", "if kind == ROUTER_KEY and version == 0 and length >= 34:"),
    ("error code after lengths", "        if pdu.code > 8:\n            return None, (7, pdu.code)\n", "        if pdu.code > 8 and be32(data, 8) + 16 <= length:\n            return None, (7, pdu.code)\n"),
    ("code 9 is known", "if pdu.code > 8:", "if pdu.code > 9:"),
    ("low byte of the code", "pdu.code = be16(data, 2)", "pdu.code = data[3]"),
    ("lengths added in 32 bits", "if 16 + inner > length:", "if (16 + inner) % 2**32 > length:"),
    ("sum not capped", "return None, (4, min(16 + inner + text_length, U32_MOST), length, kind)", "return None, (4, (16 + inner + text_length) % 2**32, length, kind)"),
    ("no bytes after the text", "if 16 + inner + text_length > length:", "if 16 + inner + text_length != length:"),
    ("text to the end", "data[16 + inner:16 + inner + text_length]", "data[16 + inner:]"),
    ("text not tested", "if not well_formed_utf8(", "if False and not well_formed_utf8("),
    ("surrogates pass", "more, low, high = 2, 0x80, 0x9F", "more, low, high = 2, 0x80, 0xBF"),
    ("max 33 passes", "limit = 32 if kind == IPV4_PREFIX else 128\n", "limit = 33 if kind == IPV4_PREFIX else 128\n"),
    ("length over max passes", "if not prefix_length <= most <= limit:", "if not most <= limit:"),
    ("router key of 33", "        return False, 34", "        return False, 33"),
    ("stop keeps the working room", "                self.empty(work)\n                s.work_count = 0\n                s.phase = (\"Stopped\"", "                s.phase = (\"Stopped\""),
    ("stop takes all", "                answer.stop = stop\n", "                answer.stop = stop; answer.taken = len(piece)\n"),
    ("Stopped takes all", "return Feed(stop=s.phase[1])", "return Feed(taken=len(piece), stop=s.phase[1])"),
    ("full ask in AskedFull", "if s.phase[0] not in (\"Idle\", \"MustReset\"):", "if s.phase[0] not in (\"Idle\", \"MustReset\", \"AskedFull\"):"),
    ("no full ask in MustReset", "if s.phase[0] not in (\"Idle\", \"MustReset\"):", "if s.phase[0] != \"Idle\":"),
    ("change ask in MustReset", "if s.phase[0] != \"Idle\":\n            return None, (20,)", "if s.phase[0] not in (\"Idle\", \"MustReset\"):\n            return None, (20,)"),
    ("21 before 20", "        if s.phase[0] != \"Idle\":\n            return None, (20,)\n", "        if s.table is None:\n            return None, (21,)\n        if s.phase[0] != \"Idle\":\n            return None, (20,)\n"),
    ("9 before 20", "        if s.phase[0] not in (\"Idle\", \"MustReset\"):\n", "        if len(output) < 8:\n            return None, (9, 8)\n        if s.phase[0] not in (\"Idle\", \"MustReset\"):\n"),
    ("9 before 21", "        if s.table is None:\n            return None, (21,)\n", "        if len(output) < 12:\n            return None, (9, 12)\n        if s.table is None:\n            return None, (21,)\n"),
    ("ask clears held", "        s.phase = (\"AskedFull\",)\n", "        s.phase = (\"AskedFull\",); s.held = 0\n"),
    ("ask writes behind", "            output[i] = query[i]\n        s.phase = (\"AskedFull\",)", "            output[i] = query[i]\n        for i in range(8, len(output)):\n            output[i] = 0\n        s.phase = (\"AskedFull\",)"),
    ("ask of version 1", "query = [s.version, RESET_QUERY", "query = [1, RESET_QUERY"),
    ("start leaves the working room", "        self.empty(work)\n        return Session(version), None", "        return Session(version), None"),
    ("refused start empties", "        if self.wrong_sizes(live, work, hold):\n            return None, (22,)", "        if self.wrong_sizes(live, work, hold):\n            self.empty(live)\n            return None, (22,)"),
    ("22: larger rooms pass", "return len(live) != self.room_size or", "return len(live) < self.room_size or"),
    ("22: larger working rooms pass", "or len(work) != self.room_size or", "or len(work) < self.room_size or"),
    ("22: H 7 passes", "len(hold) < 8\n", "len(hold) < 7\n"),
    ("22: live count", "if s.live_count > self.limit or s.work_count", "if s.live_count > self.limit + 1 or s.work_count"),
    ("22: live not tested", "if not self.room_in_rule(live, s.live_count):", "if False:"),
    ("22: work not tested", "if not self.room_in_rule(work, s.work_count):", "if False:"),
    ("22: not strictly", "not before < key:", "not before <= key:"),
    ("22: spare numbers", "return not any(room[6 * count:])", "return True"),
    ("22: last spare number", "return not any(room[6 * count:])", "return not any(room[6 * count:-1])"),
    ("22: first spare number", "return not any(room[6 * count:])", "return not any(room[6 * count + 1:])"),
    ("22: IPv4's other numbers", "if record[2] != 0 or record[3] != 0 or record[4] != 0:", "if record[2] != 0:"),
    ("22: family", "        if family == 6:\n            return length", "        if family != 4:\n            return length"),
    ("22: lengths", "return length <= most <= 32", "return most <= 32"),
    ("22: limit 33", "return length <= most <= 32", "return length <= most <= 33"),
    ("22: limit 129", "return length <= most <= 128", "return length <= most <= 129"),
    ("22: records without a table", "if s.table is None and (s.live_count > 0 or change_under_way):", "if s.table is None and change_under_way:"),
    ("22: change without a table", "if s.table is None and (s.live_count > 0 or change_under_way):", "if s.table is None and s.live_count > 0:"),
    ("22: loading change without a table", "                            or s.phase[:2] == (\"Loading\", \"change\"))", "                            )"),
    ("22: full load without a table", "or s.phase[:2] == (\"Loading\", \"change\"))", "or s.phase[0] == \"Loading\")"),
    ("22: working room outside Loading", "if s.phase[0] != \"Loading\" and s.work_count > 0:", "if False:"),
    ("22: held in Stopped", "if s.phase[0] == \"Stopped\" and s.held > 0:", "if False:"),
    ("22: held bytes not judged", "return judge_stream(hold, s.held) != (None, None)", "return False"),
    ("22: only a refusal", "return judge_stream(hold, s.held) != (None, None)", "return judge_stream(hold, s.held)[1] is not None"),
    ("22: only a PDU", "return judge_stream(hold, s.held) != (None, None)", "return judge_stream(hold, s.held)[0] is not None"),
    ("22: MustReset needs a table", "change_under_way = (s.phase[0] == \"AskedChange\"", "change_under_way = (s.phase[0] in (\"AskedChange\", \"MustReset\")"),
    ("22 not in notify", "return None, (22,)\n        # \"None comes first", "pass\n        # \"None comes first"),
    ("22 not in reconnect", "            return (22,)\n        # \"Reconnect", "            pass\n        # \"Reconnect"),
    ("22: Stopped before 22", "        if self.out_of_shape(s, live, work, hold):\n            return Feed(refused=(22,))\n", "        if s.phase[0] != 'Stopped' and self.out_of_shape(s, live, work, hold):\n            return Feed(refused=(22,))\n"),
]


def blocks(path):
    """The file's scripts, one list of lines each."""
    block = []
    for text in open(path):
        if text.startswith("script ") and block:
            yield block
            block = []
        block.append(text.rstrip("\n"))
    if block:
        yield block


def main(argv):
    scripts, expected = list(blocks(argv[1])), list(blocks(argv[2]))
    only = argv[3] if len(argv) > 3 else ""
    left = 0
    for name, old, new in MUTANTS:
        if only not in name:
            continue
        if SOURCE.count(old) != 1:
            print("BROKEN %-40s %d places" % (name, SOURCE.count(old)))
            left += 1
            continue
        module = types.ModuleType("mutant")
        sys.modules["mutant"] = module
        exec(compile(SOURCE.replace(old, new), name, "exec"), module.__dict__)
        caught = None
        for lines, want in zip(scripts, expected):
            runner = module.Runner()
            try:
                for text in lines:
                    runner.line(text)
                fine = runner.out == want
            except Exception:
                fine = False
            if not fine:
                caught = want[0]
                break
        print("%-10s %s" % (caught or "NOT CAUGHT", name))
        sys.stdout.flush()
        left += caught is None
    print("%d mutants, %d not caught" % (len(MUTANTS), left))


if __name__ == "__main__":
    main(sys.argv)
