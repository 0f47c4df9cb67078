#!/usr/bin/env python3
"""Random scripts for the receiver model (format: FORMAT.md).

    python3 scripts.py SEED COUNT SCRIPTFILE [EXPECTEDFILE] [--first N] [--limit N]

Script i of a seed depends on nothing but seed, i and limit.  The generator
runs the model beside it, to know the phase and the rooms and so to write
scripts that mostly make sense; EXPECTEDFILE gets the model's output, the same
as `receiver_model.py SCRIPTFILE` prints.
"""

import random
import sys

import receiver_model as m

PIECE_MOST = 4096              # bytes in one feed line


# ---------------------------------------------------------------------------
# PDUs as bytes
# ---------------------------------------------------------------------------

def u16(x):
    return (x & 0xFFFF).to_bytes(2, "big")


def u32(x):
    return (x & 0xFFFFFFFF).to_bytes(4, "big")


def pdu(version, kind, field, body=b"", length=None):
    if length is None:
        length = 8 + len(body)
    return bytes([version, kind]) + u16(field) + u32(length) + body


def prefix(version, record, announce, flags=0, zero=0, field=0):
    """`record`: (family, (four address numbers), length, max, asn)."""
    family, address, length, most, asn = record
    words = address[:1] if family == 4 else address
    body = bytes([(flags & 0xFE) | (1 if announce else 0), length, most, zero])
    body += b"".join(u32(w) for w in words) + u32(asn)
    return pdu(version, family, field, body)


def end_of_data(version, session, serial, intervals=(3600, 600, 7200)):
    body = u32(serial)
    if version == 1:
        body += b"".join(u32(x) for x in intervals)
    return pdu(version, 7, session, body)


def error_report(version, code, inner=b"", text=b"", behind=b"",
                 inner_length=None, text_length=None):
    body = u32(len(inner) if inner_length is None else inner_length) + inner
    body += u32(len(text) if text_length is None else text_length) + text + behind
    return pdu(version, 10, code, body)


GOOD_TEXTS = [b"", b"bad", b"\0", "Zeit \u00e4\u20ac".encode(), b"\xf4\x8f\xbf\xbf",
              b"\xed\x9f\xbf\xee\x80\x80", b"\xf0\x90\x80\x80", b"\xe0\xa0\x80", b"\xc2\x80\xdf\xbf"]
BAD_TEXTS = [b"\xc0\x80", b"\xed\xa0\x80", b"\xf4\x90\x80\x80", b"\xff", b"ok\x80", b"\xe2\x82",
             b"\xc3", b"\xf0\x8f\xbf\xbf", b"\xe0\x9f\xbf", b"\xf5\x80\x80\x80", b"\xe1\x80\xc0",
             b"\xf1\x80\x80", b"\xc1\xbf", b"\xf1\x80\x80\x7f"]
EDGE32 = [0, 1, 2, 0x7FFFFFFE, 0x7FFFFFFF, 0x80000000, 0x80000001, 0xFFFFFFFE, 0xFFFFFFFF]


def record_of(numbers):
    """A room's six numbers as the generator's record."""
    first = numbers[0]
    return (first >> 16, tuple(numbers[1:5]), (first >> 8) & 255, first & 255, numbers[5])


# ---------------------------------------------------------------------------
# One script
# ---------------------------------------------------------------------------

class Script:
    def __init__(self, seed, index, limit, attempt=0):
        self.rng = random.Random("%s/%d/%d/%d" % (seed, index, limit, attempt))
        self.limit = limit
        self.runner = m.Runner(limit)
        self.lines = []
        self.tail = b""        # bytes of a PDU that was sent in part
        self.index = index

    # -- small helps --------------------------------------------------------

    def chance(self, p):
        return self.rng.random() < p

    def emit(self, text):
        self.lines.append(text)
        self.runner.line(text)

    @property
    def s(self):
        return self.runner.session

    @property
    def phase(self):
        return self.s.phase[0] if self.s else None

    @property
    def h(self):
        return self.runner.sizes[2]

    @property
    def version(self):
        return self.s.version if self.s else 1

    def number32(self):
        r = self.rng
        if self.chance(0.5):
            return r.choice(EDGE32)
        return r.getrandbits(32)

    def any_session(self):
        r = self.rng
        known = [0, 1, 4660, 65535]
        if self.s and self.s.table:
            known.append(self.s.table[0])
            known.append((self.s.table[0] + 1) % 65536)
            known.append(self.s.table[0] ^ 256)
        return r.choice(known)

    def near_serial(self):
        """A serial that stands in some relation to the table's."""
        r = self.rng
        base = self.s.table[1] if self.s and self.s.table else 7
        step = r.choice([0, 0, 1, 1, 1, 2, -1, 2**31, 2**31 - 1, 2**31 + 1, 5, r.getrandbits(32)])
        return (base + step) % 2**32

    # -- records ------------------------------------------------------------

    def new_record(self, family=None):
        r = self.rng
        if family is None:
            family = r.choice([4, 4, 6])
        limit = 32 if family == 4 else 128
        most = r.choice([0, 1, limit // 2, limit - 1, limit, r.randint(0, limit)])
        length = r.choice([0, most, most, max(0, most - 1), r.randint(0, most)])
        if family == 4:
            address = (r.choice(EDGE32 + [0x0A000000, 0x0A010000, 0xC0000200, r.getrandbits(32)]), 0, 0, 0)
        else:
            words = [0, 0, 1, 0x7FFFFFFF, 0x80000000, 0xFFFFFFFF, 0x20010DB8]
            address = tuple(r.choice(words) for _ in range(4))
        asn = r.choice([0, 1, 64496, 64497, 0x7FFFFFFF, 0x80000000, 0xFFFFFFFF])
        return (family, address, length, most, asn)

    def neighbour(self, record):
        """The record with one field changed."""
        r = self.rng
        family, address, length, most, asn = record
        limit = 32 if family == 4 else 128
        what = r.randrange(4)
        if what == 0:
            at = 0 if family == 4 else r.randrange(4)
            words = list(address)
            words[at] = r.choice([words[at] ^ 1, words[at] ^ 0x80000000, self.number32()])
            address = tuple(words)
        elif what == 1:
            length = r.randint(0, most)
        elif what == 2:
            most = r.randint(length, limit)
        else:
            asn = self.number32()
        return (family, address, length, most, asn)

    def make_pool(self):
        size = self.rng.choice([3, 6, 12, 12, 20, 40])
        if self.limit < 64:
            size = self.rng.randint(1, self.limit + 4)
        pool = []
        while len(pool) < size:
            if pool and self.chance(0.6):
                record = self.neighbour(self.rng.choice(pool))
            else:
                record = self.new_record()
            if record not in pool:
                pool.append(record)
        return pool

    def room_records(self, name):
        room = self.runner.live if name == "live" else self.runner.work
        count = self.s.live_count if name == "live" else self.s.work_count
        count = min(count, self.limit)
        return [record_of(room[6 * i:6 * i + 6]) for i in range(count)]

    # -- odd PDUs -----------------------------------------------------------

    def valid_pdu(self, version):
        """Some PDU that reads, of this version."""
        r = self.rng
        what = r.randrange(12)
        if what == 0:
            return pdu(version, 0, self.any_session(), u32(self.near_serial()))
        if what == 1:
            return pdu(version, 1, self.any_session(), u32(self.near_serial()))
        if what == 2:
            return pdu(version, 2, r.choice([0, 0, 99]))
        if what == 3:
            return pdu(version, 3, self.any_session())
        if what in (4, 5):
            return prefix(version, self.pick_record(), self.chance(0.7), r.getrandbits(8),
                          r.choice([0, 255]), r.choice([0, 513]))
        if what == 6:
            return end_of_data(version, self.any_session(), self.near_serial())
        if what == 7:
            return pdu(version, 8, r.choice([0, 7]))
        if what == 8 and version == 1:
            return self.router_key()
        return self.report(good=True)

    def pick_record(self):
        r = self.rng
        record = r.choice(self.pool)
        if self.chance(0.1):
            record = self.new_record()
        return record

    def router_key(self):
        r = self.rng
        info = r.choice([0, 0, 1, 20, 91])
        if self.h < 34 + info and self.chance(0.8):
            info = 0
        return pdu(1, 9, r.choice([0, 256]), r.randbytes(26 + info))

    def report(self, good):
        r = self.rng
        version = r.randrange(2)
        code = r.randint(0, 8)
        what = r.randrange(6)
        if what <= 1:
            inner = b""
        elif what == 2:
            inner = pdu(version, 5, 0)
        elif what == 3:
            inner = prefix(version, self.pick_record(), True)
        elif what == 4:
            inner = error_report(version, r.randint(0, 8), r.choice([b"", pdu(1, 2, 0)]))
        else:
            inner = r.randbytes(r.randint(1, 40))
        if inner and self.chance(0.3):
            inner = inner[:r.randint(1, len(inner))]
        text = r.choice(GOOD_TEXTS)
        behind = r.choice([b"", b"", b"", b"\xff", b"\0\0\0"])
        if good:
            return error_report(version, code, inner, text, behind)
        bad = r.randrange(5)
        if bad == 0:
            return error_report(version, r.choice([9, 10, 256, 264, 65535]), inner, text, behind)
        if bad == 1:
            return error_report(version, code, inner, r.choice(BAD_TEXTS), behind)
        if bad == 2:
            over = r.choice([len(inner) + len(text) + len(behind) + 1, 0xFFFFFFEF, 0xFFFFFFF0,
                             0xFFFFFFFF, 0x7FFFFFFF, len(inner) + 1, len(inner) + 5])
            return error_report(version, code, inner, text, behind, inner_length=over)
        if bad == 3:
            over = r.choice([len(text) + len(behind) + 1, 0xFFFFFFFF, 0xFFFFFFEF - len(inner),
                             0xFFFFFFF0 - len(inner), 0xFFFFFFEE - len(inner)])
            return error_report(version, code, inner, text, behind, text_length=over)
        # the code and the lengths both wrong: the order shows
        return error_report(version, 9, inner, r.choice(BAD_TEXTS), inner_length=0xFFFFFFFF)

    def sized(self, version, kind, length):
        """A PDU whose header names `length`, with as many bytes as are sane."""
        r = self.rng
        have = length if 8 <= length <= min(self.h, 600) else r.choice([8, 9, 30])
        body = bytearray(r.randbytes(have - 8))
        if kind in (4, 6) and len(body) >= 3 and self.chance(0.7):
            body[1], body[2] = 8, 16
        if kind == 10 and self.chance(0.7):
            body[:8] = bytes(min(8, len(body)))
        field = r.choice([0, 3, 4660])
        return pdu(version, kind, field, bytes(body), length)

    def odd_pdu(self):
        """Bytes that a good cache would not send here."""
        r = self.rng
        v = self.version
        what = r.randrange(13)
        if what == 0:
            good = self.valid_pdu(v)
            return bytes([r.choice([2, 3, 9, 128, 255])]) + good[1:]
        if what == 1:
            return self.sized(v, r.choice([5, 11, 12, 127, 255]), r.choice([8, 8, 12, 20]))
        if what in (2, 3):
            kind = r.choice([0, 1, 2, 3, 4, 6, 7, 8, 9, 10])
            right = m.expected_length(v, kind)[1]
            length = r.choice([right - 1, right + 1, right - 1, right + 1, 8, 12, 16, 24, 33])
            return self.sized(v, kind, max(8, length))
        if what == 4:
            length = r.choice([0, 1, 7, 131087, 0x7FFFFFFF, 0x80000000, 0xFFFFFFFF])
            return self.sized(r.choice([v, 9]), r.choice([0, 2, 5, 9, 10, 255]), length)
        if what == 5:
            length = r.choice([self.h + 1, self.h + 1, 131086, self.h, self.h - 1])
            return self.sized(r.choice([v, v, 7]), r.choice([9, 10, 10, 2, 5]), max(8, length))
        if what == 6:
            return self.valid_pdu(1 - v)
        if what == 7:
            record = self.pick_record()
            limit = 32 if record[0] == 4 else 128
            length, most = r.choice([(limit + 1, limit + 1), (0, limit + 1), (9, 8), (limit, limit - 1),
                                     (255, 255), (1, 0), (0, 255), (200, 8)])
            bad = (record[0], record[1], length, most, record[4])
            return prefix(r.choice([v, v, 1 - v]), bad, self.chance(0.5))
        if what == 8:
            return self.sized(0, 9, r.choice([34, 40, 8, 33]))
        if what in (9, 10):
            return self.report(good=self.chance(0.4))
        if what == 11:
            return self.valid_pdu(v)
        return r.randbytes(r.randint(1, 24))

    # -- an answer of the cache ---------------------------------------------

    def fits(self, data):
        return len(data) <= self.h

    def burst(self, kind, session, base, mistakes, begin=True):
        """The PDUs of one answer. `base`: the records the working room has
        when it begins."""
        r = self.rng
        v = self.version
        out = []
        if begin:
            out.append(pdu(v, 3, session))
        inside = list(base)
        pool = self.pool
        many = r.choice([0, 1, 2, 3, 5, 8, 16])
        if self.h < 20:
            many = 0 if self.chance(0.9) else many
        if self.limit < 64 and self.chance(0.4):
            many = self.limit + 2
        for _ in range(many):
            if self.chance(0.04):
                out.append(pdu(v, 0, session if self.chance(0.8) else self.any_session(),
                               u32(self.near_serial())))
            if v == 1 and self.chance(0.05):
                key = self.router_key()
                if self.fits(key) or self.chance(0.1):
                    out.append(key)
            leave = bool(inside) and self.chance(0.3 if kind == "full" else 0.5)
            if leave:
                record = r.choice(inside)
                inside.remove(record)
            else:
                record = r.choice(pool) if self.chance(0.8) else self.neighbour(r.choice(pool))
                if record in inside:
                    if self.chance(0.97):
                        continue
                else:
                    inside.append(record)
                    if record not in pool:
                        pool.append(record)
            data = prefix(v, record, not leave, r.choice([0, 0, 254, 2]), r.choice([0, 0, 9]),
                          r.choice([0, 0, 65535]))
            if not self.fits(data) and self.chance(0.97):
                if leave:
                    inside.append(record)
                else:
                    inside.remove(record)
                continue
            out.append(data)
        if self.chance(mistakes):
            what = r.randrange(6)
            if what == 0 and inside:
                wrong = prefix(v, r.choice(inside), True)                      # 17
            elif what == 1:
                outside = [x for x in pool if x not in inside] or [self.new_record()]
                wrong = prefix(v, r.choice(outside), False)                    # 16
            elif what == 2 and inside:
                wrong = prefix(v, self.neighbour(r.choice(inside)), False)     # 16
            else:
                wrong = self.odd_pdu()
            out.insert(r.randint(0, len(out)), wrong)
        if self.chance(0.06):
            return out                          # no End of Data yet
        serial = self.near_serial() if self.chance(0.7) else self.number32()
        own = session if self.chance(0.95) else (session + r.choice([1, 256, 65535])) % 65536
        intervals = r.choice([(3600, 600, 7200), (1, 2, 3), (0, 0, 0),
                              (0xFFFFFFFF, 0x80000000, 0x7FFFFFFF)])
        end = end_of_data(v, own, serial, intervals)
        if self.fits(end) or self.chance(0.3):
            out.append(end)
        if self.chance(0.15):
            out.append(pdu(v, 0, session, u32(serial + r.choice([0, 1, 2**31, 2**31 - 1, -1]))))
        if self.chance(0.04):
            out.append(self.odd_pdu())
        return out

    # -- sending ------------------------------------------------------------

    def pieces(self, data):
        r = self.rng
        mode = r.randrange(10)
        if mode < 3 and len(data) <= PIECE_MOST:
            return [data]
        if mode == 9 and len(data) <= 70:
            return [data[i:i + 1] for i in range(len(data))]
        cuts = set()
        if len(data) > 1:
            for _ in range(r.choice([1, 1, 2, 3, 5])):
                cuts.add(r.randint(1, len(data) - 1))
        places = sorted(cuts | {0, len(data)})
        out = []
        for a, b in zip(places, places[1:]):
            while b - a > PIECE_MOST:
                out.append(data[a:a + PIECE_MOST])
                a += PIECE_MOST
            out.append(data[a:b])
        return out

    def feed(self, data):
        self.emit("feed " + (data.hex() or "-"))

    def send(self, data, interrupt=0.06):
        """Feeds the bytes, cut; sometimes only a part now (tail)."""
        r = self.rng
        data = self.tail + data
        self.tail = b""
        if not data:
            self.feed(b"")
            return
        keep = 0
        if self.chance(0.12):
            keep = r.randint(1, min(len(data), 12))
        now, self.tail = data[:len(data) - keep], data[len(data) - keep:]
        for piece in self.pieces(now) if now else []:
            self.feed(piece)
            if self.phase == "Stopped":
                self.tail = b""
                if self.chance(0.75):
                    return
            if self.chance(interrupt):
                what = r.randrange(8)
                if what <= 1:
                    self.emit("notify")
                elif what == 2:
                    self.feed(b"")
                elif what <= 4:
                    self.ask("full")
                elif what <= 6:
                    self.ask("change")
                elif self.chance(0.4):
                    self.reconnect()
                    return

    def ask(self, kind):
        r = self.rng
        needed = 8 if kind == "full" else 12
        size = r.choice([needed, needed, needed + 1, 16, 32, 32, 12])
        if self.chance(0.1):
            size = r.choice([0, 1, 7, 8, 11])
        self.emit("%s %d" % (kind, size))

    def reconnect(self):
        self.emit("reconnect")
        self.tail = b""

    def start(self, version=None):
        if version is None:
            version = self.rng.randrange(2)
        self.emit("start %d" % version)
        self.tail = b""

    def normal_sizes(self):
        room = 6 * self.limit
        self.emit("sizes %d %d %d" % (room, room, self.usual_h))

    # -- damage -------------------------------------------------------------

    def set_number(self, name, at, value):
        room = self.runner.live if name == "live" else self.runner.work
        self.undo.append("%s %d %d" % (name, at, room[at]))
        self.emit("%s %d %d" % (name, at, value))

    def set_word(self, name, value, old):
        self.undo.append("%s %d" % (name, old))
        self.emit("%s %d" % (name, value))

    def set_phase(self, text):
        self.undo.append("phase " + m.phase_text(self.s.phase))
        self.emit("phase " + text)

    def set_held(self, data):
        """Held bytes are these. (All of them are written: document 01 leaves
        the hold past the held count open.)"""
        old = bytes(self.runner.hold[:self.s.held])
        self.undo.append("held %d" % len(old))
        if old:
            self.undo.append("hold 0 " + old.hex())
        if data:
            self.emit("hold 0 " + data.hex())
        self.emit("held %d" % len(data))

    def undo_table(self):
        t = self.s.table
        self.undo.append("notable" if t is None else "table " + m.numbers_text(t))

    def undo_note(self):
        n = self.s.note
        self.undo.append("nonote" if n is None else "note " + m.numbers_text(n))

    def damage_room(self, name):
        r = self.rng
        s = self.s
        count = min(self.limit, s.live_count if name == "live" else s.work_count)
        room = self.runner.live if name == "live" else self.runner.work
        top = 6 * self.limit
        if count and self.chance(0.75):
            i = r.randrange(count)
            at = 6 * i
            first = room[at]
            what = r.randrange(8)
            if what == 0:
                self.set_number(name, at, r.choice([
                    first ^ 0x10000, first + 0x20000, first & 0xFFFF, first | 0xFF, first ^ 0x80000000,
                    4 * 65536 + 8 * 256 + 33, 4 * 65536 + 33 * 256 + 33, 6 * 65536 + 129 * 256 + 129,
                    6 * 65536 + 128 * 256 + 128, 4 * 65536 + 32 * 256 + 32, 4 * 65536 + 9 * 256 + 8,
                    5 * 65536 + 8 * 256 + 8, 0]))
            elif what == 1:
                self.set_number(name, at + r.randint(2, 4), r.choice([1, 0x80000000, 0xFFFFFFFF]))
            elif what == 2:
                self.set_number(name, at + 1, r.choice([room[at + 1] ^ 1, 0, 0xFFFFFFFF, self.number32()]))
            elif what == 3:
                self.set_number(name, at + 5, r.choice([room[at + 5] ^ 1, 0, 0xFFFFFFFF, self.number32()]))
            elif what == 4 and count > 1:
                j = (i + 1) % count                    # the same record twice
                for k in range(6):
                    self.set_number(name, 6 * j + k, room[at + k])
            elif what == 5 and i + 1 < count:
                a, b = room[at:at + 6], room[at + 6:at + 12]     # two changed about
                for k in range(6):
                    self.set_number(name, at + k, b[k])
                    self.set_number(name, at + 6 + k, a[k])
            elif what == 6 and i + 1 < count:
                self.set_number(name, at + 6, room[at])
                self.set_number(name, at + 7, room[at + 1])
            else:
                self.set_number(name, at + r.randrange(6), self.number32())
        else:
            at = r.choice([6 * count, 6 * count + 5, top - 1, top - 6, r.randrange(top)])
            self.set_number(name, min(at, top - 1), r.choice([1, 0x80000000, 0x00041818]))
            if self.chance(0.1):
                self.set_number(name, top, 5)          # outside what is lent

    def damage_held(self):
        r = self.rng
        s = self.s
        v = s.version
        if s.held > self.h:
            return                             # damaged already
        what = r.randrange(7)
        if what == 0:
            data = pdu(v, 3, self.any_session())                      # a PDU
        elif what == 1:
            data = self.odd_pdu()[:self.h]
        elif what == 2:
            data = pdu(v, 0, 5, u32(9))[:r.randint(1, 12)]
        elif what == 3:
            data = pdu(v, 2, 0, b"", r.choice([0, 7, 131087, 131086, self.h, self.h + 1, 9]))
        elif what == 4:
            data = pdu(v, 0, 5, u32(9)) + b"\1\3"                     # a PDU and more
        elif what == 5:
            data = b""
        else:
            self.set_word("held", r.choice([self.h + 1, 0x7FFFFFFF, 0xFFFFFFFF]), s.held)
            return
        self.set_held(data[:self.h])

    def damage_sizes(self):
        r = self.rng
        room = 6 * self.limit
        self.undo.append("sizes %d %d %d" % self.runner.sizes)
        held = self.s.held if self.s else 0
        l, w, h = r.choice([(room, room, 7), (room, room, 8), (room - 1, room, self.h), (room, room - 1, self.h),
                            (room + 1, room, self.h), (room, room + 6, self.h), (room - 6, room - 6, self.h),
                            (0, 0, 0), (0, room, self.h), (room, 0, self.h), (room, room, 0),
                            (room, room, held), (room, room, max(8, held - 1)), (room, room, max(8, held + 1)),
                            (room, room, r.randint(8, 64)), (room, room, r.randint(8, 64)),
                            (room, room, 131086), (room, room, 131200)])
        self.emit("sizes %d %d %d" % (l, w, h))

    def damage_phase(self):
        r = self.rng
        session = self.any_session()
        stops = ["2 9", "3 5", "4 8 0 5", "4 131086 131087 255", "5", "6 9 8 32", "7 9", "8", "12 9000",
                 "13", "14", "15", "16", "17", "18", "19 0", "19 8"]
        self.set_phase(r.choice([
            "idle", "mustreset", "askedfull", "askedchange", "askedchange", "loading full %d" % session,
            "loading change %d" % session, "loading change %d" % session, "stopped " + r.choice(stops),
            "stopped " + r.choice(stops)]))

    def damage_table(self):
        if self.s.table is not None and self.chance(0.6):
            self.undo_table()
            self.emit("notable")
            if self.chance(0.2):
                self.undo.append("livecount %d" % self.s.live_count)
                self.emit("livecount 0")
        else:
            self.undo_table()
            self.emit("table %d %d %d %d %d" % (self.any_session(), self.number32(), self.number32(), 0, 7200))

    def damage_note(self):
        self.undo_note()
        if self.chance(0.2):
            self.emit("nonote")
        else:
            self.emit("note %d %d" % (self.any_session(), self.near_serial()))

    def damage_count(self):
        r = self.rng
        s = self.s
        name, old = ("livecount", s.live_count) if self.chance(0.5) else ("workcount", s.work_count)
        self.set_word(name, r.choice([old + 1, max(0, old - 1), 0, self.limit, self.limit + 1,
                                      0x7FFFFFFF, 0xFFFFFFFF, 1]), old)

    def damage(self):
        r = self.rng
        self.undo = []
        for _ in range(r.choice([1, 1, 1, 2])):
            r.choice([lambda: self.damage_room("live"), lambda: self.damage_room("work"),
                      lambda: self.damage_room("live"), self.damage_held, self.damage_sizes, self.damage_sizes,
                      self.damage_phase, self.damage_phase, self.damage_table, self.damage_note,
                      self.damage_count])()
        for _ in range(r.choice([1, 1, 2, 3, 5])):
            what = r.randrange(9)
            if what == 0:
                self.ask("full")
            elif what == 1:
                self.ask("change")
            elif what in (2, 8):
                self.emit("notify")
            elif what == 3 and self.chance(0.5):
                self.reconnect()
            elif what == 4:
                self.feed(b"")
            elif what == 5:
                self.feed(pdu(self.version, 0, self.any_session(), u32(self.near_serial())))
            elif what == 6:
                self.feed(self.valid_pdu(self.version))
            else:
                data = b"".join(self.burst("full", 7, [], 0.1))
                self.feed(data[:r.randint(0, min(len(data), 300))])
        if self.is_out_of_shape() and self.chance(0.85):
            for text in reversed(self.undo):
                self.emit(text)
        room = 6 * self.limit
        if self.runner.sizes[:2] != (room, room) or self.h < 8 or self.chance(0.5):
            self.normal_sizes()
        if self.is_out_of_shape():
            if self.chance(0.5):
                self.emit(r.choice(["reconnect", "notify", "full 32", "feed -"]))
            self.start()
        self.tail = b""
        if self.s.held and self.chance(0.7):
            self.reconnect()

    def is_out_of_shape(self):
        l, w, h = self.runner.sizes
        run = self.runner
        return run.receiver.out_of_shape(run.session, run.live[:l], run.work[:w], run.hold[:h])

    # -- steps by phase -----------------------------------------------------

    def step(self):
        r = self.rng
        s = self.s
        phase = s.phase[0]
        x = r.random()
        if phase == "Idle":
            if s.note and s.table and self.chance(0.3):
                self.emit("notify")
            elif x < 0.60:
                kind = "full" if s.table is None or self.chance(0.35) else "change"
                if not self.tail and s.held == 0 and self.chance(0.12):
                    # a Cache Response half in before the ask
                    session = s.table[0] if s.table and kind == "change" else self.any_session()
                    head = pdu(s.version, 3, session)
                    at = r.randint(1, 7)
                    self.feed(head[:at])
                    self.ask(kind)
                    self.tail = head[at:]
                    if self.chance(0.8):
                        base = self.room_records("live") if kind == "change" else []
                        self.send(b"".join(self.burst(kind, session, base, 0.2, begin=False)))
                else:
                    self.ask(kind)
            elif x < 0.66:
                self.ask(r.choice(["full", "change"]))
            elif x < 0.78:
                self.send(pdu(s.version, 0, s.table[0] if s.table and self.chance(0.8) else self.any_session(),
                              u32(self.near_serial())))
            elif x < 0.88:
                self.emit("notify")
            elif x < 0.94:
                self.send(self.odd_pdu())
            elif x < 0.97:
                self.reconnect()
            else:
                self.send(b"")
        elif phase in ("AskedFull", "AskedChange"):
            kind = "full" if phase == "AskedFull" else "change"
            session = s.table[0] if kind == "change" else self.any_session()
            if x < 0.76:
                base = self.room_records("live") if kind == "change" else []
                if kind == "change" and self.chance(0.04):
                    session = (session + r.choice([1, 256])) % 65536
                self.send(b"".join(self.burst(kind, session, base, 0.25)))
            elif x < 0.86:
                if kind == "change" or self.chance(0.15):
                    self.send(pdu(s.version, 8, r.choice([0, 5])))
            elif x < 0.90:
                self.ask(r.choice(["full", "change"]))
            elif x < 0.94:
                self.send(pdu(s.version, 0, self.any_session(), u32(self.near_serial())))
            elif x < 0.96:
                self.reconnect()
            elif x < 0.98:
                self.emit("notify")
            else:
                self.send(self.odd_pdu())
        elif phase == "Loading":
            if self.tail and x < 0.6:
                self.send(b"")
            elif x < 0.80:
                self.send(b"".join(self.burst(s.phase[1], s.phase[2], self.room_records("work"), 0.3, begin=False)))
            elif x < 0.86:
                self.ask(r.choice(["full", "change"]))
            elif x < 0.90:
                self.emit("notify")
            elif x < 0.94:
                self.reconnect()
            else:
                self.send(self.odd_pdu())
        elif phase == "MustReset":
            if x < 0.6:
                self.ask("full")
            elif x < 0.72:
                self.ask("change")
            elif x < 0.82:
                self.send(pdu(s.version, 0, self.any_session(), u32(self.near_serial())))
            elif x < 0.9:
                self.reconnect()
            elif x < 0.95:
                self.emit("notify")
            else:
                self.send(self.odd_pdu())
        else:                                   # Stopped
            if x < 0.2:
                self.feed(self.valid_pdu(s.version)[:r.randint(0, 40)])
            elif x < 0.28:
                self.ask(r.choice(["full", "change"]))
            elif x < 0.38:
                self.emit("notify")
            elif x < 0.88:
                self.reconnect()
            else:
                self.start()

    # -- whole scripts ------------------------------------------------------

    def choose_h(self):
        r = self.rng
        x = r.random()
        if x < 0.2:
            return r.randint(8, 64)
        if x < 0.45:
            return r.choice([24, 32, 34, 64, 100])
        if x < 0.9:
            return r.choice([256, 1024, 8192])
        return r.choice([131085, 131086, 131087, 131200])

    def write(self):
        r = self.rng
        self.emit("script %d" % self.index)
        self.usual_h = self.choose_h()
        self.pool = self.make_pool()
        room = 6 * self.limit
        if self.chance(0.05):
            # a start that is refused leaves all as it was
            self.emit("sizes %d %d %d" % r.choice([
                (room - 1, room, 64), (room, room - 1, 64), (room + 1, room, 64), (room, room + 1, 64),
                (room, room, 7), (0, 0, 0), (room, room, 0), (room + 6, room + 6, 100)]))
            self.start()
        self.normal_sizes()
        if self.chance(0.03) and not self.runner.session:
            self.emit("live %d %d" % (r.randrange(room), self.number32()))
            self.emit("hold 0 " + r.randbytes(8).hex())
        self.start()
        if self.index % 125 == 7 and self.limit > 64:
            self.fill()
            return
        if self.index % 1000 == 13:
            self.huge()
        if self.chance(0.10):
            for _ in range(r.randint(1, 3)):
                self.rooms_by_damage()
        if self.chance(0.10):
            self.storm()
        damaged = self.chance(0.25)
        for _ in range(r.randint(4, 16)):
            if self.s is None:
                self.normal_sizes()
                self.start()
            if damaged and self.chance(0.18):
                self.damage()
            else:
                self.step()
        if self.chance(0.02):
            self.emit("sizes %d %d %d" % (room, room, 7))
            self.start()
            self.normal_sizes()
            self.start()

    # -- rooms by damage lines ----------------------------------------------

    def lay_room(self, name, fault):
        """Writes a few records into a room by damage lines, in rule but for
        the fault. Returns the count."""
        r = self.rng
        records = set(self.pool[:r.randint(1, 5)])
        numbers = [[family * 65536 + length * 256 + most, *address, asn]
                   for family, address, length, most, asn in records]
        numbers.sort(key=m.Receiver.order_key)
        numbers = numbers[:self.limit]
        i = r.randrange(len(numbers))
        six = numbers[i]
        family = six[0] >> 16
        top = 32 if family == 4 else 128
        if fault == "most":
            six[0] = family * 65536 + r.choice([0, top, top + 1]) * 256 + top + 1
        elif fault == "length":
            six[0] = family * 65536 + r.choice([(1, 0), (top, top - 1), (9, 8), (255, 8)])[0] * 256 + r.choice([0, 8])
        elif fault == "family":
            six[0] = r.choice([0, 1, 3, 5, 7, 0x104, 0x106, 0x8004]) * 65536 + (six[0] & 0xFFFF)
        elif fault == "number":
            at = r.randrange(len(numbers))
            numbers[at][r.randint(2, 4)] = r.choice([1, 0x80000000])
        elif fault == "twice":
            numbers.insert(i, list(six))
            numbers = numbers[:self.limit]
        elif fault == "order":
            other = list(six)
            what = r.randrange(3)
            if what == 0:
                other[5] = (six[5] + 1) % 2**32
            elif what == 1:
                other[1] = (six[1] + 1) % 2**32
            else:
                other[0] = family * 65536 + (six[0] & 0xFF) * 257
            pair = [other, six] if self.chance(0.7) else [six, other]
            numbers[i:i + 1] = pair
            numbers = numbers[:self.limit]
        for k, six in enumerate(numbers):
            for j in range(6):
                self.emit("%s %d %d" % (name, 6 * k + j, six[j]))
        if fault == "spare" and len(numbers) < self.limit:
            self.emit("%s %d %d" % (name, r.choice([6 * len(numbers), 6 * len(numbers) + 5, 6 * self.limit - 1]), 1))
        return len(numbers)

    def rooms_by_damage(self):
        """A short way to a table and to a load: the state is laid by damage
        lines, often with one fault, and then called."""
        r = self.rng
        faults = ["most", "length", "family", "number", "twice", "order", "order", "spare"]
        live_fault = r.choice(faults) if self.chance(0.4) else ""
        work_fault = r.choice(faults) if self.chance(0.4) else ""
        count = 0
        if self.chance(0.7):
            count = self.lay_room("live", live_fault)
            self.emit("livecount %d" % count)
        session = self.any_session()
        if self.chance(0.9):
            self.emit("table %d %d 3600 600 7200" % (session, self.number32()))
        if self.chance(0.5):
            self.emit("note %d %d" % (r.choice([session, session, self.any_session()]), self.near_serial()))
        x = r.random()
        phase = "idle"
        if x < 0.45:
            phase = "loading %s %d" % (r.choice(["full", "change"]), session)
        elif x < 0.8:
            phase = r.choice(["mustreset", "askedfull", "askedchange", "stopped 13", "stopped 19 3", "stopped 4 8 7 9"])
        self.emit("phase " + phase)
        if self.chance(0.9 if phase.startswith("loading") else 0.15):
            self.emit("workcount %d" % self.lay_room("work", work_fault))
        if self.chance(0.15):
            part = self.valid_pdu(self.version)
            part = part[:r.randint(1, min(len(part), self.h))]
            self.emit("hold 0 " + part.hex())
            self.emit("held %d" % len(part))
        for _ in range(r.randint(1, 4)):
            r.choice([lambda: self.emit("notify"), lambda: self.ask("full"), lambda: self.ask("change"),
                      lambda: self.feed(self.valid_pdu(self.version)), lambda: self.feed(self.valid_pdu(self.version)),
                      lambda: self.feed(b"")])()
        if self.is_out_of_shape():
            self.start()
        elif self.s.held:
            self.reconnect()

    def storm(self):
        """Many refusals, each on its own connection."""
        r = self.rng
        for _ in range(r.randint(5, 12)):
            if self.chance(0.4):
                self.ask("change" if self.s.table and self.chance(0.6) else "full")
                if self.chance(0.6):
                    self.feed(pdu(self.version, 3, self.s.table[0] if self.s.table else 5))
            x = r.random()
            if x < 0.3:
                data = error_report(r.randrange(2), r.randint(0, 8), r.choice([b"", b"\1\2"]), r.choice(BAD_TEXTS + GOOD_TEXTS),
                                    r.choice([b"", b"\xff"]))
            elif x < 0.45:
                data = self.report(good=False)
            else:
                data = self.odd_pdu()
            self.send_all(data + r.choice([b"", b"\0", data]))
            if self.chance(0.1):
                self.emit("notify")
            if self.phase == "Idle" and self.s.held == 0 and self.chance(0.5):
                continue
            self.reconnect()

    def fill(self):
        """Up to the record limit and over it."""
        r = self.rng
        v = self.version
        self.usual_h = r.choice([32, 8192])
        self.normal_sizes()
        records = {}
        while len(records) < self.limit + 3:
            if records and self.chance(0.5):
                record = self.neighbour(r.choice(self.pool))
            else:
                record = (4, (r.getrandbits(32), 0, 0, 0), 8, 24, r.getrandbits(16))
            records[record] = True
        records = list(records)
        r.shuffle(records)
        self.emit("full 8")
        inside = records[:self.limit]
        data = [pdu(v, 3, 77)] + [prefix(v, x, True) for x in inside]
        ways = r.randrange(7)
        end = end_of_data(v, 77, 0xFFFFFFFF)
        if ways == 0:
            data += [prefix(v, records[self.limit], True)]                         # 18
        elif ways == 1:
            data += [prefix(v, r.choice(inside), True)]                            # 17
        elif ways == 2:
            data += [prefix(v, inside[5], False), prefix(v, records[self.limit], True), end]
        elif ways == 3:
            data += [prefix(v, records[self.limit], False)]                        # 16
        else:
            data += [end]
        self.send_all(b"".join(data))
        if self.phase == "Idle" and self.s.table:
            self.emit("change 12")
            data = [pdu(v, 3, 77)]
            if ways == 4:
                data += [prefix(v, records[self.limit], True)]
            elif ways == 5:
                data += [prefix(v, inside[0], False), prefix(v, records[self.limit], True),
                         prefix(v, inside[0], True)]
            elif ways == 6:
                gone = r.sample(inside, min(9, len(inside)))
                data += [prefix(v, x, False) for x in gone] + [prefix(v, x, True) for x in gone]
                data += [end_of_data(v, 77, 0)]
            else:
                data += [end_of_data(v, 77, 3)]
            self.send_all(b"".join(data))
        self.emit("notify")
        for name, count in (("livecount", self.s.live_count), ("workcount", self.s.work_count)):
            for other in (self.limit, self.limit + 1):
                self.emit("%s %d" % (name, other))
                self.emit(r.choice(["notify", "change 12", "feed -"]))
                self.tail = b""
            self.emit("%s %d" % (name, count))
        if self.is_out_of_shape():
            self.start(v)
        self.feed(b"\1")
        if self.chance(0.5):
            self.reconnect()
            self.emit("full 8")

    def send_all(self, data):
        for piece in self.pieces(data):
            if self.phase == "Stopped":
                return
            self.feed(piece)

    def huge(self):
        """PDUs at the stream's upper end (131,086)."""
        r = self.rng
        self.usual_h = r.choice([131085, 131086, 131200])
        self.normal_sizes()
        self.emit("full 8")
        v = self.version
        data = pdu(v, 3, 9)
        if v == 1 and self.chance(0.5):
            data += pdu(1, 9, 0, bytes(131086 - 8)) + end_of_data(1, 9, 9)
        else:
            inner = 131086 - 16
            data += error_report(v, 3, bytes(inner - 2), b"\xc2\x80")
        self.send_all(data)


def make(seed, index, limit=m.DEFAULT_LIMIT):
    """(script lines, expected lines) of script `index`."""
    attempt = 0
    while True:
        script = Script(seed, index, limit, attempt)
        try:
            script.write()
            return script.lines, script.runner.out
        except m.ScriptError:
            # the script would hold bytes that document 01 leaves open
            attempt += 1


def main(argv):
    args = argv[1:]
    options = {"--first": 0, "--limit": m.DEFAULT_LIMIT}
    for name in options:
        if name in args:
            at = args.index(name)
            options[name] = int(args[at + 1])
            del args[at:at + 2]
    if len(args) not in (3, 4):
        sys.exit(__doc__)
    seed, count = args[0], int(args[1])
    expected = open(args[3], "w") if len(args) == 4 else None
    with open(args[2], "w") as out:
        for index in range(options["--first"], options["--first"] + count):
            lines, answers = make(seed, index, options["--limit"])
            out.write("\n".join(lines) + "\n")
            if expected:
                expected.write("\n".join(answers) + "\n")
    if expected:
        expected.close()


if __name__ == "__main__":
    main(sys.argv)
