#!/usr/bin/env python3
"""What `driver loads` must print, computed by the independent model.

    python3 captures.py [--fast] > STDOUT        compare with tests/driver.d/loads.out

Each history (a capture, or two one after the other) is played to the model's
receiver: start, a full ask, the bytes, and a change ask behind so many bytes.
Where updates end is not taken from the program: it is where the model's feed
says that one finished. The model cuts each history itself, at the places at
which the program does, and feeds it in single bytes; with --fast it plays the
uncut history alone and says yes.
"""

import copy
import os
import sys

import receiver_model as model

DATA = os.path.join(os.path.dirname(os.path.abspath(__file__)), "../captures")
ROOM = 6 * model.DEFAULT_LIMIT
HOLD = 512

# Captures, the receiver's version, the change ask's place (None: no ask), and
# at which places the program cuts.
HISTORIES = (
    (("stayrtr_v1_reset_30",), 1, None, 1),
    (("stayrtr_v0_reset_30",), 0, None, 1),
    (("fort_v1_reset_30_keys",), 1, None, 1),
    (("stayrtr_v1_reset_30", "stayrtr_v1_serial_diff"), 1, 788, 1),
    (("stayrtr_v1_session_reset_notify_serial",), 1, 800, 1),
    (("stayrtr_v1_reset_1000",), 1, None, 251),
    # these stop
    (("fort_v1_unknown_type5",), 1, None, 1),
    (("stayrtr_v0_reset_30",), 1, None, 1),
    (("stayrtr_v1_reset_30", "fort_v1_unknown_type5"), 1, 788, 1),
    (("stayrtr_v0_reset_30", "stayrtr_v1_serial_diff"), 0, 776, 1),
    (("stayrtr_v1_reset_30", "stayrtr_v1_serial_diff"), 1, None, 1),
    (("stayrtr_v1_reset_30", "stayrtr_v1_reset_30"), 1, 788, 1),
    (("fort_v1_reset_30_keys", "stayrtr_v1_serial_diff"), 1, 1034, 1),
)


class Run:
    """A receiver that is played to, and what its feeds took and finished."""

    def __init__(self, version):
        self.receiver = model.Receiver()
        self.live, self.work = [7] * ROOM, [7] * ROOM
        self.hold = bytearray(b"\7" * HOLD)
        self.session, refused = self.receiver.start(version, self.live, self.work, self.hold)
        assert refused is None
        self.taken = self.updates = 0
        self.ask(self.receiver.full_ask)

    def ask(self, call):
        _, refused = call(self.session, self.live, self.work, self.hold, bytearray(12))
        assert refused is None, refused

    def feed(self, piece):
        fed = self.receiver.feed(self.session, self.live, self.work, self.hold, piece)
        assert fed.refused is None
        self.taken += fed.taken
        self.updates += fed.updates

    def play(self, data, start, end, ask):
        """The bytes from start to end, with the change ask where it stands."""
        if ask is not None and start <= ask < end:
            self.feed(data[start:ask])
            self.ask(self.receiver.change_ask)
            start = ask
        self.feed(data[start:end])

    def table(self):
        """The live table, with all the room's numbers."""
        return self.session.table, self.session.live_count, tuple(self.live)

    def all(self):
        return copy.deepcopy(self.session), self.table(), self.taken, self.updates


def table_text(table):
    of, count, room = table
    names = ("session", "serial", "refresh", "retry", "expire")
    said = "none" if of is None else " ".join("%s=%d" % pair for pair in zip(names, of))
    return "%s records=%d sum=%d" % (said, count, model.room_checksum(list(room)))


def end_text(run):
    s = run.session
    phase = "stopped %d" % s.phase[1][0] if s.phase[0] == "Stopped" else model.phase_text(s.phase)
    note = "none" if s.note is None else "%d/%d" % s.note
    return "%s note=%s working=%d held=%d taken=%d updates=%d" % (
        phase, note, s.work_count, s.held, run.taken, run.updates)


def said(is_so):
    return "yes" if is_so else "no"


def table_after(k, ends, fresh):
    """The table of the last update that ended in the first k bytes."""
    table = fresh
    for at, then in ends:
        if at <= k:
            table = then
    return table


def single_bytes(data, version, ask, whole, ends):
    """(same at the end, table whole after each byte)"""
    run, fresh, kept = Run(version), Run(version).table(), True
    for k in range(len(data)):
        run.play(data, k, k + 1, ask)
        kept = kept and run.table() == table_after(k + 1, ends, fresh)
    return run.all() == whole, kept


def cut_in_two(data, version, ask, step, whole, ends):
    same = kept = True
    fresh = Run(version).table()
    for k in range(0, len(data) + 1, step):
        run = Run(version)
        run.play(data, 0, k, ask)
        kept = kept and run.table() == table_after(k, ends, fresh)
        run.play(data, k, len(data), ask)
        same = same and run.all() == whole
        kept = kept and run.table() == table_after(len(data), ends, fresh)
    return same, kept


def history(names, version, ask, step, fast):
    files = [name + ".bin" for name in names]
    data = b"".join(open(os.path.join(DATA, name), "rb").read() for name in files)
    whole = Run(version)
    whole.play(data, 0, len(data), ask)
    ends = list(ends_of(data, version, ask, whole.updates))
    print(", ".join(files))
    places = ["first update ends at %d" % ends[0][0]] if ends else []
    places += ["change ask at %d" % ask] if ask is not None else []
    places += ["second update ends at %d" % ends[1][0]] if len(ends) > 1 else []
    print((" version=%d bytes=%d " % (version, len(data)) + ", ".join(places)).rstrip())
    if ends:
        print(" first table: " + table_text(ends[0][1]))
    print(" last table: " + table_text(whole.table()))
    print(" end: " + end_text(whole))
    for label, count, tried in (
            ("pieces of one byte", len(data),
             lambda: single_bytes(data, version, ask, whole.all(), ends)),
            ("cut in two", len(data) // step + 1,
             lambda: cut_in_two(data, version, ask, step, whole.all(), ends))):
        same, kept = (True, True) if fast else tried()
        print(" %s: %d" % (label, count))
        print(" same at every cut: " + said(same))
        print(" table whole at every cut: " + said(kept))


def ends_of(data, version, ask, updates):
    """Each update: the least number of bytes, in one piece, that finishes it."""
    for n in range(1, updates + 1):
        low, high = 0, len(data)
        while low < high:
            middle = (low + high) // 2
            run = Run(version)
            run.play(data, 0, middle, ask)
            low, high = (low, middle) if run.updates >= n else (middle + 1, high)
        run = Run(version)
        run.play(data, 0, low, ask)
        yield low, run.table()


def main(argv):
    for names, version, ask, step in HISTORIES:
        history(names, version, ask, step, "--fast" in argv)


if __name__ == "__main__":
    main(sys.argv)
