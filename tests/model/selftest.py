#!/usr/bin/env python3
"""Self-test of the receiver model and of the script generator.

    python3 selftest.py          (about a minute)
"""

import os
import copy
import ipaddress
import json
import random
import sys
import time

import receiver_model as m
import scripts as g
from scripts import pdu, prefix, end_of_data, error_report, u32

CAPTURES = os.environ.get("CAPTURES", os.path.join(os.path.dirname(os.path.abspath(__file__)), "../../../shared/captures")) + "/"
checks = 0


def same(got, want, what=""):
    global checks
    checks += 1
    if got != want:
        raise AssertionError("%s\n got  %r\n want %r" % (what, got, want))


# ---------------------------------------------------------------------------
# A receiver with its memory
# ---------------------------------------------------------------------------

class Host:
    def __init__(self, version=1, h=8192, limit=m.DEFAULT_LIMIT):
        self.r = m.Receiver(limit)
        self.live = [3] * self.r.room_size
        self.work = [4] * self.r.room_size
        self.hold = bytearray(b"\x55" * h)
        self.output = bytearray(b"\xaa" * 16)
        self.s, refused = self.r.start(version, self.live, self.work, self.hold)
        assert refused is None

    def mem(self):
        return self.s, self.live, self.work, self.hold

    def full(self):
        return self.r.full_ask(*self.mem(), self.output)

    def change(self):
        return self.r.change_ask(*self.mem(), self.output)

    def feed(self, data):
        a = self.r.feed(*self.mem(), data)
        return a.taken, a.updates, a.stop, a.refused

    def reconnect(self):
        return self.r.reconnect(*self.mem())

    def notify(self):
        return self.r.notify(*self.mem())

    def snapshot(self):
        """All that document 01 fixes (not the hold past the held count)."""
        return (copy.copy(self.s), self.live[:], self.work[:],
                bytes(self.hold[:self.s.held]), bytes(self.output))

    def records(self):
        return [g.record_of(self.live[6 * i:6 * i + 6]) for i in range(self.s.live_count)]

    def working(self):
        return [g.record_of(self.work[6 * i:6 * i + 6]) for i in range(self.s.work_count)]

    def load(self, records, session=4660, serial=7):
        """A full load by the wire."""
        v = self.s.version
        self.full()
        data = pdu(v, 3, session) + b"".join(prefix(v, x, True) for x in records)
        same(self.feed(data + end_of_data(v, session, serial))[1:], (1, None, None), "load")
        return self


A = (4, (0xC0000200, 0, 0, 0), 24, 24, 64496)
B = (4, (0xC0000200, 0, 0, 0), 24, 25, 64496)
C = (4, (0xC0000201, 0, 0, 0), 0, 0, 1)
D = (6, (0x20010DB8, 0, 0, 0), 32, 48, 64496)


# ---------------------------------------------------------------------------
# Document 01's listing
# ---------------------------------------------------------------------------

LISTING_IN = bytes.fromhex(
    "0103123400000008"
    "0104000000000014" "01181800" "c0000200" "0000fbf0"
    "0107123400000018" "00000007" "00000e10" "00000258" "00001c20")
LISTING_OUT = """stopped=0
session=4660
serial=7
refresh=3600
retry=600
expire=7200
count=0001
family=4
address=c0000200
length=24
max=24
asn=64496
"""


def listing():
    for cut in range(len(LISTING_IN) + 1):
        same(m.rtr_table(LISTING_IN, [cut]), LISTING_OUT, "listing cut at %d" % cut)
    same(m.rtr_table(LISTING_IN, range(1, len(LISTING_IN))), LISTING_OUT)
    for end in range(len(LISTING_IN)):
        same(m.rtr_table(LISTING_IN[:end]), "stopped=0\ncount=none\n")
    same(m.rtr_table(LISTING_IN + b"\1\2" + bytes(6)), LISTING_OUT.replace("stopped=0", "stopped=4"))
    empty = LISTING_IN[:8] + LISTING_IN[28:]
    same(m.rtr_table(empty).splitlines()[-1], "count=0000")
    six = LISTING_IN[:8] + prefix(1, D, True) + LISTING_IN[28:]
    same("address=20010db8000000000000000000000000\nlength=32\nmax=48\n" in m.rtr_table(six), True)


# ---------------------------------------------------------------------------
# Captures
# ---------------------------------------------------------------------------

def table_of(name):
    """Records of a .json, in table order, computed by other means."""
    out = []
    for roa in json.load(open(CAPTURES + name))["roas"]:
        net = ipaddress.ip_network(roa["prefix"])
        packed = net.network_address.packed.ljust(16, b"\0")
        words = tuple(int.from_bytes(packed[i:i + 4], "big") for i in (0, 4, 8, 12))
        asn = int(str(roa["asn"]).lstrip("AS"))
        out.append((net.version, words, net.prefixlen, roa["maxLength"], asn))
    same(len(set(out)), len(out))
    return sorted(out)              # family, address, length, max, AS number


def capture(name):
    return open(CAPTURES + name, "rb").read()


def captures():
    first, changed = table_of("vrps30.json"), table_of("vrps30_changed.json")
    same((len(first), len(changed)), (30, 30))

    def feed_cut(host, data, cut, updates):
        got = [host.feed(data[:cut]), host.feed(data[cut:])]
        same([x[0] for x in got], [cut, len(data) - cut])
        same(got[0][1] + got[1][1], updates)
        same([x[2:] for x in got], [(None, None)] * 2)

    for name, version, session, serial in (
            ("stayrtr_v1_reset_30.bin", 1, 0x2A65, 0), ("stayrtr_v0_reset_30.bin", 0, 0x2A65, 0),
            ("fort_v1_reset_30_keys.bin", 1, 0x1AA8, 1)):
        data = capture(name)
        for cut in range(len(data) + 1):
            host = Host(version)
            host.full()
            feed_cut(host, data, cut, 1)
            same(host.s, m.Session(version, ("Idle",), (session, serial, 3600, 600, 7200), None, 30, 0, 0), name)
            same(host.records(), first, name)
    data, diff = capture("stayrtr_v1_reset_30.bin"), capture("stayrtr_v1_serial_diff.bin")
    for cut in range(len(diff) + 1):
        host = Host()
        host.full()
        host.feed(data)
        same(host.change(), (12, None))
        same(bytes(host.output[:12]), bytes.fromhex("01012a650000000c00000000"))
        feed_cut(host, diff, cut, 1)
        same(host.s.table, (0x2A65, 1, 3600, 600, 7200))
        same(host.records(), changed)
    whole = capture("stayrtr_v1_session_reset_notify_serial.bin")
    head, tail = whole[:800], whole[800:]
    for cut in range(len(head) + 1):
        for ask in (788, 795, 800):            # the ask before, in or after the notify
            if ask != 800 and cut % 40 and cut < 780:
                continue
            host = Host()
            host.full()
            if cut <= ask:
                host.feed(whole[:cut])
                host.feed(whole[cut:ask])
            else:
                host.feed(whole[:ask])
            same(host.s.note, (0x2A65, 1) if ask == 800 else None)
            same(host.notify()[0], "Newer" if ask == 800 else "None")
            same(host.change(), (12, None))
            same(host.feed(whole[ask:]), (936 - ask, 1, None, None))
            same(host.notify()[0], "Same")
            same(host.records(), changed)
    for cut in range(len(tail) + 1):
        host = Host()
        host.full()
        host.feed(head)
        host.change()
        feed_cut(host, tail, cut, 1)
        same((host.s.table[1], host.records()), (1, changed))
    big = capture("stayrtr_v1_reset_1000.bin")
    rng = random.Random(5)
    tables = set()
    for trial in range(6):
        host = Host(h=32 if trial % 2 else 8192)
        host.full()
        places = sorted({0, len(big)} | {rng.randrange(len(big)) for _ in range(30)})
        for a, b in zip(places, places[1:]):
            same(host.feed(big[a:b])[2:], (None, None))
        same(host.s.live_count, 1000)
        tables.add(tuple(host.live))
    same(len(tables), 1)
    report = capture("fort_v1_unknown_type5.bin")
    for cut in range(len(report)):
        host = Host()
        host.feed(report[:cut])
        same(host.feed(report[cut:] + b"zz"), (len(report) - cut, 0, (19, 5), None))


# ---------------------------------------------------------------------------
# Reading: "Either side of each edge", text
# ---------------------------------------------------------------------------

def read(text):
    value, refusal = m.read_pdu(bytes.fromhex(text.replace(" ", "")))
    return refusal or (value.kind, value.length)


def reading():
    same(read(""), (1, 0, 8))
    same(read("0102000000000008"), (2, 8))
    same(read("0102000000000000"), (4, 8, 0, 2))
    same(read("0905000000000009"), (1, 8, 9))
    same(read("0905000000000008"), (2, 9))
    same(read("0105000000000008"), (3, 5))
    same(read("0009000000000008"), (5,))
    same(read("0009000000000000"), (5,))
    same(read("010a000000000000"), (4, 16, 0, 10))
    same(read("010a0009 00000010 0000000000000000"), (7, 9))
    same(read("010a0000 00000010 00000001 00000000"), (4, 17, 16, 10))
    same(read("010a0000 00000010 ffffffff 00000000"), (4, 4294967295, 16, 10))
    same(read("010a0000 00000010 ffffffef 00000000"), (4, 4294967295, 16, 10))
    same(read("010a0000 00000010 ffffffee 00000000"), (4, 4294967294, 16, 10))
    same(read("010a0000 00000010 00000000 ffffffff"), (4, 4294967295, 16, 10))
    same(read("010a0000 00000010 00000000 00000003"), (4, 19, 16, 10))
    same(read("010a0000 00000011 00000000 00000000 ff"), (10, 17))
    same(read("010a0000 00000018 00000008 0102000000000008 00000000"), (10, 24))
    same(read("000a0008 00000010 00000000 00000000"), (10, 16))
    for text, want in (("c080", (8,)), ("eda080", (8,)), ("f4908080", (8,)), ("f48fbfbf", (10, 20)), ("00", (10, 17))):
        n = len(text) // 2
        same(read("010a0000 %08x 00000000 %08x %s" % (16 + n, n, text)), want)
    same(read("0104000000000014 01212100 c0000200 0000fbf0"), (6, 33, 33, 32))
    same(read("0104000000000014 01202000 c0000200 0000fbf0"), (4, 20))
    same(read("0104000000000014 01191800 c0000200 0000fbf0"), (6, 25, 24, 32))
    same(read("0106000000000020 01008100" + "00" * 20), (6, 0, 129, 128))
    same(read("0106000000000020 01808000" + "00" * 20), (6, 32))
    same(read("0109000000000021" + "00" * 25), (4, 34, 33, 9))
    same(read("0109000000000022" + "00" * 26), (9, 34))
    same(read("0007123400000018" + "00" * 16), (4, 12, 24, 7))
    same(read("010712340000000c" + "00" * 4), (4, 24, 12, 7))

    def python_says(data):
        try:
            data.decode("utf-8", "strict")
            return True
        except UnicodeDecodeError:
            return False
    edge = [0, 0x7F, 0x80, 0x8F, 0x90, 0x9F, 0xA0, 0xBF, 0xC0, 0xC1, 0xC2, 0xDF, 0xE0, 0xE1, 0xEC, 0xED, 0xEE, 0xEF,
            0xF0, 0xF1, 0xF3, 0xF4, 0xF5, 0xFF]
    for a in range(256):
        same(m.well_formed_utf8(bytes([a])), python_says(bytes([a])))
        for b in range(256):
            same(m.well_formed_utf8(bytes([a, b])), python_says(bytes([a, b])))
    for a in edge:
        for b in edge:
            for c in edge:
                same(m.well_formed_utf8(bytes([a, b, c])), python_says(bytes([a, b, c])))
                for d in edge:
                    data = bytes([a, b, c, d])
                    same(m.well_formed_utf8(data), python_says(data), data.hex())


# ---------------------------------------------------------------------------
# Every bullet of "Stream and receiver"
# ---------------------------------------------------------------------------

def stream():
    # 4 by the range, at header byte 8, with the raw type; then 12; then the read
    for length, want in ((0, (4, 8, 0, 5)), (7, (4, 8, 7, 5)), (131087, (4, 131086, 131087, 5)),
                         (0xFFFFFFFF, (4, 131086, 0xFFFFFFFF, 5)), (8193, (12, 8193)), (131086, (12, 131086))):
        for cut in range(8):
            host = Host()
            data = pdu(9, 5, 0, b"rest", length)
            host.feed(data[:cut])
            same(host.feed(data[cut:]), (8 - cut, 0, want, None))
            same(host.s, m.Session(1, ("Stopped", want)))
    host = Host(h=131200)
    same(host.feed(pdu(9, 5, 0, b"rest", 131087)), (8, 0, (4, 131086, 131087, 5), None))
    # H itself is no 12; the read comes when whole
    host = Host(h=20)
    same(host.feed(pdu(9, 5, 0, bytes(11), 20)), (19, 0, None, None))
    same(host.feed(b"\0\0"), (1, 0, (2, 9), None))
    same(Host(h=19).feed(pdu(9, 5, 0, bytes(12))), (8, 0, (12, 20), None))
    same(Host().feed(pdu(1, 5, 0) + b"zz"), (8, 0, (3, 5), None))
    same(Host().feed(pdu(0, 9, 0)), (8, 0, (5,), None))
    same(Host().feed(pdu(1, 4, 0)), (8, 0, (4, 20, 8, 4), None))
    same(Host().feed(prefix(0, (4, (1, 0, 0, 0), 9, 8, 1), True)), (20, 0, (6, 9, 8, 32), None))
    same(Host().feed(error_report(0, 9)), (16, 0, (7, 9), None))
    same(Host().feed(error_report(0, 8, b"", b"\xc0\x80")), (18, 0, (8,), None))
    # the largest PDU of the stream
    host = Host(h=131086)
    host.full()
    same(host.feed(pdu(1, 3, 5) + pdu(1, 9, 0, bytes(131078)) + b"\1"), (8 + 131086 + 1, 0, None, None))
    same((host.s.phase, host.s.held), (("Loading", "full", 5), 1))


def starting():
    # "Start zeroes both rooms ...; it is refused by 22 only for a room's size or H"
    r = m.Receiver()
    for l, w, h, ok in ((6144, 6144, 8, True), (6144, 6144, 7, False), (6143, 6144, 8, False), (6144, 6145, 8, False),
                        (0, 6144, 8, False), (6144, 6144, 0, False)):
        live, work, hold = [9] * l, [8] * w, bytearray(b"\x07" * h)
        s, refused = r.start(0, live, work, hold)
        if ok:
            same((s, refused), (m.Session(0, ("Idle",), None, None, 0, 0, 0), None))
            same((live, work), ([0] * l, [0] * w))
        else:
            same((s, refused, live, work), (None, (22,), [9] * l, [8] * w))
        same(hold, bytearray(b"\x07" * h))


def asks():
    for version in (0, 1):
        host = Host(version)
        # without a table: change 21, and that before 9; full never 21
        for n in (0, 7, 16):
            same(host.r.change_ask(*host.mem(), bytearray(n)), (None, (21,)))
        for n in range(8):
            before = host.snapshot()
            same(host.r.full_ask(*host.mem(), bytearray(n)), (None, (9, 8)))
            same(host.snapshot(), before)
        same(host.full(), (8, None))
        same(host.output, bytes([version, 2, 0, 0, 0, 0, 0, 8]) + b"\xaa" * 8)
        same(host.s.phase, ("AskedFull",))
        # 20 before 21 and 9
        same((host.full(), host.change()), ((None, (20,)),) * 2)
        same(host.r.full_ask(*host.mem(), bytearray(0)), (None, (20,)))
        host.reconnect()
        host.load([A], 0x1234, 0xFFFFFFFE)
        for n in range(12):
            same(host.r.change_ask(*host.mem(), bytearray(n)), (None, (9, 12)))
        same(host.change(), (12, None))
        same(host.output, bytes([version, 1]) + bytes.fromhex("12340000000cfffffffe") + b"\xaa" * 4)
        same(host.s.phase, ("AskedChange",))
        same((host.full(), host.change()), ((None, (20,)),) * 2)
        # Cache Reset in AskedChange: MustReset; change 20, full works
        same(host.feed(pdu(version, 8, 9)), (8, 0, None, None))
        same((host.s.phase, host.s.live_count), (("MustReset",), 1))
        same(host.change(), (None, (20,)))
        same(host.full(), (8, None))
        host.feed(pdu(version, 3, 1))
        same((host.full(), host.change()), ((None, (20,)),) * 2)
        host.feed(pdu(version, 3, 1))
        same(host.s.phase, ("Stopped", (13,)))
        same((host.full(), host.change()), ((None, (20,)),) * 2)
        # reconnect from MustReset: Idle, change ask allowed again
        host.reconnect()
        host.change()
        host.feed(pdu(version, 8, 0))
        host.reconnect()
        same(host.change(), (12, None))


def phases():
    """A host in each phase, with a table of A (but the first two)."""
    out = {}
    out["IdleNone"] = Host()
    host = out["AskedFullNone"] = Host()
    host.full()
    out["Idle"] = Host().load([A])
    host = out["AskedFull"] = Host().load([A])
    host.full()
    host = out["AskedChange"] = Host().load([A])
    host.change()
    host = out["MustReset"] = Host().load([A])
    host.change()
    host.feed(pdu(1, 8, 0))
    host = out["LoadingFull"] = Host().load([A])
    host.full()
    host.feed(pdu(1, 3, 99))
    host = out["LoadingChange"] = Host().load([A])
    host.change()
    host.feed(pdu(1, 3, 4660))
    return out


def turns():
    """Each PDU in each phase: the new phase or the stop."""
    table = {                        # PDU: {phase: what is right}; else 13
        "notify": (pdu(1, 0, 5, u32(9)), dict.fromkeys(phases(), "stay")),
        "serial query": (pdu(1, 1, 4660, u32(7)), {}),
        "reset query": (pdu(1, 2, 0), {}),
        "response": (pdu(1, 3, 4660), {"AskedFullNone": ("Loading", "full", 4660), "AskedFull": ("Loading", "full", 4660),
                                       "AskedChange": ("Loading", "change", 4660)}),
        "other response": (pdu(1, 3, 4661), {"AskedFullNone": ("Loading", "full", 4661),
                                             "AskedFull": ("Loading", "full", 4661), "AskedChange": (15,)}),
        "announce B": (prefix(1, B, True), {"LoadingFull": "stay", "LoadingChange": "stay"}),
        "announce A": (prefix(1, A, True), {"LoadingFull": "stay", "LoadingChange": (17,)}),
        "withdraw A": (prefix(1, A, False), {"LoadingFull": (16,), "LoadingChange": "stay"}),
        "withdraw B": (prefix(1, B, False), {"LoadingFull": (16,), "LoadingChange": (16,)}),
        "announce D": (prefix(1, D, True), {"LoadingFull": "stay", "LoadingChange": "stay"}),
        "end 99": (end_of_data(1, 99, 8), {"LoadingFull": ("Idle",), "LoadingChange": (15,)}),
        "end 4660": (end_of_data(1, 4660, 8), {"LoadingFull": (15,), "LoadingChange": ("Idle",)}),
        "reset": (pdu(1, 8, 0), {"AskedChange": ("MustReset",)}),
        "key": (pdu(1, 9, 0, bytes(26)), {"LoadingFull": "stay", "LoadingChange": "stay"}),
        "report": (error_report(1, 2), dict.fromkeys(phases(), (19, 2))),
        "report v0": (error_report(0, 8), dict.fromkeys(phases(), (19, 8))),
        "bad report": (error_report(1, 9), dict.fromkeys(phases(), (7, 9))),
        "notify v0": (pdu(0, 0, 5, u32(9)), dict.fromkeys(phases(), (14,))),
        "query v0": (pdu(0, 2, 5), dict.fromkeys(phases(), (14,))),
        "end v0": (end_of_data(0, 3, 8), dict.fromkeys(phases(), (14,))),
        "withdraw v0": (prefix(0, B, False), dict.fromkeys(phases(), (14,))),
        "key v0": (pdu(0, 9, 0, bytes(26)), dict.fromkeys(phases(), (5,))),
    }
    for name, (data, right) in table.items():
        for phase, host in phases().items():
            what = name + " in " + phase
            before = host.snapshot()[0]
            live = host.live[:]
            want = right.get(phase, (13,))
            got = host.feed(data + b"\1")
            if want == "stay" or isinstance(want[0], str):
                updates = 1 if name.startswith("end") else 0
                same(got, (len(data) + 1, updates, None, None), what)
                same(host.s.phase, before.phase if want == "stay" else want, what)
                same(host.s.held, 1, what)
            else:
                same(got, (len(data), 0, want, None), what)
                # A stop clears held bytes and working room; keeps the rest
                same(host.s, m.Session(1, ("Stopped", want), before.table, before.note, before.live_count, 0, 0), what)
                same((host.live, any(host.work)), (live, False), what)
                same(host.feed(b""), (0, 0, want, None), what)
                same(host.feed(data), (0, 0, want, None), what)
            if name == "notify":
                same(host.s.note, (5, 9), what)
            elif not name.startswith("end"):
                same((host.s.table, host.live), (before.table, live), what)
    # Stopped: Serial Notify is not noted; the stop keeps an earlier note
    host = Host().load([A])
    host.feed(pdu(1, 0, 4660, u32(8)))
    host.feed(pdu(1, 0, 4660, u32(9)) + pdu(1, 2, 0) + pdu(1, 0, 4660, u32(10)))
    same((host.s.note, host.s.phase), ((4660, 9), ("Stopped", (13,))))
    same(host.notify()[0], "Newer")
    same(host.feed(pdu(1, 0, 4660, u32(10))), (0, 0, (13,), None))
    same(host.s.note, (4660, 9))
    # an End of Data before a stop in the same call counts
    host = Host()
    host.full()
    same(host.feed(LISTING_IN + LISTING_IN), (60, 1, (13,), None))
    same(host.s.table, (4660, 7, 3600, 600, 7200))


def loading():
    # the working room starts empty (full) or as the live one (change)
    host = Host().load([A, D])
    host.full()
    host.feed(pdu(1, 3, 5))
    same((host.working(), host.records()), ([], [A, D]))
    host.feed(prefix(1, B, True, 254))
    same((host.working(), host.records()), ([B], [A, D]))
    same(host.feed(end_of_data(1, 5, 1, (0, 4294967295, 1))), (24, 1, None, None))
    same(host.s, m.Session(1, ("Idle",), (5, 1, 0, 4294967295, 1), None, 1, 0, 0))
    same((host.records(), any(host.work), any(host.live[6:])), ([B], False, False))
    host = Host().load([A, D])
    host.change()
    host.feed(pdu(1, 3, 4660))
    same((host.working(), host.records()), ([A, D], [A, D]))
    host.feed(prefix(1, A, False, 254) + prefix(1, C, True))
    same((host.working(), host.records()), ([C, D], [A, D]))
    host.feed(prefix(1, A, True) + end_of_data(1, 4660, 8))
    same(host.records(), [A, C, D])
    # v0: defaults
    host = Host(0).load([D, A], 3, 0)
    same((host.s.table, host.records()), ((3, 0, 3600, 600, 7200), [A, D]))
    # order: family, address, length, max, AS number
    want = [(4, (0, 0, 0, 0), 32, 32, 9), (4, (1, 0, 0, 0), 0, 32, 9), (4, (1, 0, 0, 0), 1, 1, 5),
            (4, (1, 0, 0, 0), 1, 2, 0), (4, (1, 0, 0, 0), 1, 2, 0x80000000), (4, (0x80000000, 0, 0, 0), 0, 0, 0),
            (6, (0, 0, 0, 1), 128, 128, 0), (6, (0, 0, 1, 0), 0, 0, 0), (6, (0, 1, 0, 0), 0, 0, 0), (6, (1, 0, 0, 0), 0, 0, 0)]
    for trial in range(20):
        mixed = want[:]
        random.Random(trial).shuffle(mixed)
        same(Host().load(mixed).records(), want)
    # host bits are kept as sent
    same(Host().load([(4, (0xC00002FF, 0, 0, 0), 8, 8, 1)]).records()[0][1][0], 0xC00002FF)


def record_limit():
    def numbered(k):
        return (4, (k * 2654435761 % 2**32, 0, 0, 0), 8, 9, k)
    host = Host()
    host.full()
    host.feed(pdu(1, 3, 5) + b"".join(prefix(1, numbered(k), True) for k in range(1023)))
    same(host.s.work_count, 1023)
    same(host.feed(prefix(1, numbered(1023), True)), (20, 0, None, None))
    same(host.s.work_count, 1024)
    keep = copy.deepcopy(host)
    same(host.feed(prefix(1, numbered(1024), True)), (20, 0, (18,), None))
    same((host.s.work_count, any(host.work)), (0, False))
    host = copy.deepcopy(keep)
    same(host.feed(prefix(1, numbered(3), True)), (20, 0, (17,), None))
    host = copy.deepcopy(keep)
    same(host.feed(prefix(1, numbered(2000), False)), (20, 0, (16,), None))
    host = keep
    same(host.feed(prefix(1, numbered(3), False) + prefix(1, numbered(1024), True)), (40, 0, None, None))
    same(host.feed(end_of_data(1, 5, 1)), (24, 1, None, None))
    same(host.s.live_count, 1024)
    same(host.notify(), ("None", None))


def reconnecting():
    for name, host in phases().items():
        host.feed(pdu(1, 0, 5, u32(9)) + b"\1\2\3")
        before, live = host.snapshot()[0], host.live[:]
        same(host.s.held, 3)
        same(host.reconnect(), None)
        same(host.s, m.Session(1, ("Idle",), before.table, None, before.live_count, 0, 0), name)
        same((host.live, any(host.work)), (live, False))
    host = Host().load([A])
    host.feed(pdu(1, 2, 0))
    same(host.reconnect(), None)
    same(host.change(), (12, None))
    # a Cache Response half in before the ask is in turn (OP 10)
    for cut in range(1, 8):
        host = Host()
        host.feed(LISTING_IN[:cut])
        same(host.full(), (8, None))
        same(host.feed(LISTING_IN[cut:]), (52 - cut, 1, None, None))
    same(host.records(), [A])


def notifying():
    host = Host()
    same(host.notify(), ("None", None))
    host.feed(pdu(1, 0, 4660, u32(7)))
    same(host.notify(), ("None", None))                     # a note, no table
    host = Host().load([A])
    same(host.notify(), ("None", None))                     # a table, no note
    for table, note, want in ((4294967295, 0, "Newer"), (0, 2147483648, "Undefined"), (2147483648, 0, "Undefined"),
                              (0, 2147483647, "Newer"), (0, 2147483649, "Older"), (0, 4294967295, "Older"),
                              (5, 5, "Same"), (5, 4, "Older"), (5, 6, "Newer")):
        host = Host().load([], 4660, table)
        host.feed(pdu(1, 0, 4660, u32(note)))
        same(host.notify(), (want, None))
        before = host.snapshot()
        host.feed(pdu(1, 0, 4661, u32(note)))
        same(host.notify(), ("OtherSession", None))
        host.feed(pdu(1, 2, 0))
        same(host.notify(), ("OtherSession", None))         # in Stopped too
        same(host.snapshot()[1:], before[1:])


def shape():
    """22's list: each item, and what is not on it."""
    def verdicts(host, live=None, work=None, hold=None):
        live = host.live if live is None else live
        work = host.work if work is None else work
        hold = host.hold if hold is None else hold
        before = (copy.copy(host.s), live[:], work[:], bytes(hold), bytes(host.output))
        out = set()
        for call in ("full", "change", "feed", "reconnect", "notify"):
            s = copy.copy(host.s)
            mem = (s, live[:], work[:], hold[:])
            output = host.output[:]
            if call == "full":
                got = host.r.full_ask(*mem, output)[1]
            elif call == "change":
                got = host.r.change_ask(*mem, output)[1]
            elif call == "feed":
                a = host.r.feed(*mem, b"\1\3\1")
                got = a.refused
                if got:
                    same((a.taken, a.updates, a.stop), (0, 0, None))
            elif call == "reconnect":
                got = host.r.reconnect(*mem)
            else:
                got = host.r.notify(*mem)[1]
            out.add(got == (22,))
            if got == (22,):
                same((s, mem[1], mem[2], bytes(mem[3]), bytes(output)), before, "22 changes nothing")
        same(len(out), 1, "all calls agree about 22")
        return out.pop()

    for name, host in phases().items():
        same(verdicts(host), False, name)
        same(verdicts(host, live=host.live + [0]), True)
        same(verdicts(host, live=host.live[:-1]), True)
        same(verdicts(host, work=host.work[:-1]), True)
        same(verdicts(host, work=host.work + [0]), True)
        same(verdicts(host, hold=bytearray(7)), True)
        same(verdicts(host, hold=bytearray(8)), False)
        for field in ("live_count", "work_count"):
            other = copy.deepcopy(host)
            setattr(other.s, field, 1025)
            same(verdicts(other), True)
        other = copy.deepcopy(host)
        other.s.held = 8193
        same(verdicts(other), True)
        for room in ("live", "work"):
            for at in (12, 6143):
                other = copy.deepcopy(host)
                getattr(other, room)[at] = 1
                same(verdicts(other), True)
        other = copy.deepcopy(host)
        other.s.table = None
        same(verdicts(other), "None" not in name)
        other.s.live_count, other.live = 0, [0] * 6144
        want = name in ("AskedChange", "LoadingChange")
        same(verdicts(other), want, name + " without a table")
        other = copy.deepcopy(host)
        other.s.work_count = 1
        other.work[:6] = [0x41818, 5, 0, 0, 0, 6]
        same(verdicts(other), not name.startswith("Loading"))
    host = Host().load([A, B])
    for at, value, want in ((0, 0x41819, True), (0, 0x41717, False), (0, 0x41718, False), (6, 0x41820, False),
                            (6, 0x41818, True), (6, 0x41821, True), (6, 0x42120, True), (0, 0x51818, True),
                            (6, 0x68080, False), (6, 0x68081, True), (6, 0x1041819, True), (0, 0x68080, True),
                            (2, 1, True), (9, 1, True), (10, 1, True), (5, 0xFFFFFFFF, False), (7, 0xC0000201, False),
                            (7, 0xC00001FF, True), (12, 1, True), (11, 0, False)):
        other = copy.deepcopy(host)
        other.live[at] = value
        same(verdicts(other), want, "live %d %x" % (at, value))
    # held bytes
    for data, want in ((pdu(1, 3, 4), True), (pdu(1, 3, 4)[:7], False), (pdu(1, 0, 4, u32(1))[:11], False),
                       (pdu(1, 0, 4, u32(1)), True), (pdu(1, 0, 4, u32(1)) + b"\1", True), (pdu(1, 2, 4, b"", 7), True),
                       (pdu(1, 2, 4, b"", 131087), True), (pdu(1, 2, 4, b"", 8193), True), (pdu(1, 2, 4, b"", 8192), False),
                       (pdu(9, 5, 4), True), (pdu(9, 5, 4, b"", 9), False)):
        other = copy.deepcopy(host)
        other.hold[:len(data)] = data
        other.s.held = len(data)
        same(verdicts(other), want, data.hex())
        other.s.phase = ("Stopped", (13,))
        same(verdicts(other), True)
        other.s.held = 0
        same(verdicts(other), False)
    # the H lent now counts
    host.feed(pdu(1, 0, 4, u32(1))[:11])
    same(verdicts(host, hold=host.hold[:11]), True)
    same(verdicts(host, hold=host.hold[:12]), False)
    same(verdicts(host, hold=host.hold[:10]), True)


# ---------------------------------------------------------------------------
# Random: cuts do not matter; refusals change nothing; shape is kept
# ---------------------------------------------------------------------------

class CheckedReceiver(m.Receiver):
    """Tests what document 01 says of every call, at every call of a script."""

    def checked(self, call, s, live, work, hold, *rest):
        before = (copy.copy(s), live[:], work[:], bytes(hold), [bytes(x) for x in rest])
        bad = self.out_of_shape(s, live, work, hold)
        answer = call(s, live, work, hold, *rest)
        after = (copy.copy(s), live[:], work[:], bytes(hold), [bytes(x) for x in rest])
        refused = answer.refused if isinstance(answer, m.Feed) else answer if not isinstance(answer, tuple) or \
            len(answer) == 1 else answer[1]
        same(refused == (22,), bad)
        if refused is not None:
            same(after, before, "a refusal changes nothing")
        else:
            same(self.out_of_shape(s, live, work, hold), False, "the shape is kept")
        same(s.version, before[0].version)
        return answer

    def full_ask(self, *a):
        return self.checked(super().full_ask, *a)

    def change_ask(self, *a):
        return self.checked(super().change_ask, *a)

    def reconnect(self, *a):
        return self.checked(super().reconnect, *a)

    def notify(self, *a):
        return self.checked(super().notify, *a)

    def feed(self, s, live, work, hold, piece):
        first = (copy.copy(s), live[:], work[:], hold[:])
        a = self.checked(super().feed, s, live, work, hold, piece)
        same(a.updates in (0, 1), True)
        if a.stop is None and a.refused is None:
            same(a.taken, len(piece))
        # the same piece cut in two gives the same
        if len(piece) > 1 and len(piece) < 400:
            cut = len(piece) // 2
            one = m.Receiver.feed(self, *first, piece[:cut])
            two = m.Receiver.feed(self, *first, piece[cut:])
            same((first[0], first[1], first[2], bytes(first[3][:s.held])), (s, live, work, bytes(hold[:s.held])))
            same((one.taken + two.taken, one.updates + two.updates, two.stop, two.refused),
                 (a.taken, a.updates, a.stop, a.refused))
        return a


def random_scripts():
    for limit, count in ((m.DEFAULT_LIMIT, 60), (4, 250)):
        for index in range(count):
            lines, expected = g.make("selftest", index, limit)
            runner = m.Runner(limit, CheckedReceiver(limit))
            for text in lines:
                runner.line(text)
            same(runner.out, expected, "script %d" % index)
            same(any("nosession" in x for x in expected), False)
            same(max(map(len, lines)) <= 8192 + 5, True)
            if index % 20 == 0:
                same(g.make("selftest", index, limit), (lines, expected), "deterministic")
    rng = random.Random(1)
    for _ in range(50):
        numbers = [rng.choice([0, 0, 0, rng.getrandbits(32)]) for _ in range(rng.randint(0, 700))] + [0] * rng.randint(0, 300)
        numbers += [7] * rng.randint(0, 6)
        same(m.room_checksum(numbers), m.checksum(numbers))


def main():
    tests = [listing, reading, stream, starting, asks, turns, loading, record_limit, reconnecting, notifying, shape,
             captures, random_scripts]
    if len(sys.argv) > 1:
        tests = [t for t in tests if t.__name__ in sys.argv[1:]]
    for test in tests:
        began = time.time()
        test()
        print("ok %-15s %5.1fs" % (test.__name__, time.time() - began))
        sys.stdout.flush()
    print("all ok: %d checks" % checks)


if __name__ == "__main__":
    main()
