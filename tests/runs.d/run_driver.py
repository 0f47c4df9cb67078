"""The driver (driver.c) of tests/runs: cases as it reads them, its answers, and what stands in memory before a call."""

import collections
import os
import struct
import subprocess
import sys

import run_cases as cases
import run_model as model

ROOT = os.path.dirname(os.path.dirname(os.path.dirname(os.path.realpath(__file__))))
STEPS = {"full": 0, "change": 1, "reconnect": 2, "feed": 3}
# An answer with its faults: Answer's, Read's or Life's fields.
Got = collections.namedtuple("Got", "faults answer")


def die(why):
    print("tests/runs: " + why, file=sys.stderr)
    sys.exit(2)


# ---------------------------------------------------------------------------
# What is lent before a call (as driver.c has it), and the model's answers
# ---------------------------------------------------------------------------

OUT_BEFORE = bytes((i * 167 + 13) % 256 for i in range(256)) * 1024
PATTERN = tuple((i * 2654435761 + 2654435769) % 2 ** 32 | 1 for i in range(2 * model.ROOM))


def before(case):
    """The output of a run; the room and the head of a reading."""
    if isinstance(case, cases.Run):
        return OUT_BEFORE[:case.out]
    return PATTERN[:case.room] if case.fill else (0,) * case.room, tuple(range(1000, 1000 + case.head))


def expected(case, by=model):
    if isinstance(case, cases.Run):
        return by.call(case.version, case.end, case.rooms, before(case))
    return by.read_call(case.text, *before(case))


# ---------------------------------------------------------------------------
# The driver
# ---------------------------------------------------------------------------

def packed(*numbers):
    return struct.pack("<%dQ" % len(numbers), *numbers)


def given(case):
    """A case as the driver reads it."""
    if isinstance(case, cases.Run):
        head, rooms = [int(len(case.rooms) == 2), case.version, len(case.end)], b""
        for lent in (case.rooms if len(case.rooms) == 2 else (model.Room((), 0), *case.rooms)):
            numbers = lent.numbers
            while numbers and numbers[-1] == 0:
                numbers = numbers[:len(numbers) // 2] if not any(numbers[len(numbers) // 2:]) else numbers[:-1]
            head += [len(lent.numbers), len(numbers), lent.count]
            rooms += struct.pack("<%dI" % len(numbers), *numbers)
        return packed(*head, case.out, *case.end) + rooms
    if isinstance(case, cases.Reading):
        return packed(2, len(case.text), len(case.behind), case.room, case.head, case.fill) + case.text + case.behind
    parts = [packed(3, case.version, case.hold, len(case.steps))]
    for kind, *words in case.steps:
        parts.append(packed(STEPS[kind]))
        if kind == "feed":
            parts += [packed(len(words[1]), *words[1]), words[0]]
    return b"".join(parts)


class Answers:
    """The driver's answers, one after another; struct.error where they end."""

    def __init__(self, data):
        self.data, self.at = data, 0

    def take(self, form):
        found = struct.unpack_from("<" + form, self.data, self.at)
        self.at += struct.calcsize("<" + form)
        return found

    def bytes(self, count):
        return self.take("%ds" % count)[0]

    def part(self, letter, stood):
        """A part of the whole length of what stood there."""
        front, zeros, kept = self.take("3Q")
        if front + zeros + kept != len(stood):
            raise struct.error
        found = self.take("%d%s" % (front, letter)) if letter != "B" else self.bytes(front)
        return found + type(stood)([0]) * zeros + stood[len(stood) - kept:]

    def answer(self, case):
        if isinstance(case, cases.Run):
            number, faults, written = self.take("3Q")
            return Got(faults, model.Answer(number, written, self.part("B", before(case))))
        if isinstance(case, cases.Reading):
            number, faults, line = self.take("3Q")
            room, head = before(case)
            return Got(faults, model.Read(number, line, self.part("I", room), self.part("Q", head)))
        told = []
        for kind, *_ in case.steps:
            if kind == "feed":
                told.append(self.take("3Q"))
            elif kind == "reconnect":
                told.append(self.take("Q"))
            else:
                number, query = self.take("Q12s")
                told.append((number, query[:8 if kind == "full" else 12] if number == 0 else b""))
        session = self.take("24Q")
        live, working = self.part("I", (0,) * model.ROOM), self.part("I", (0,) * model.ROOM)
        number, length = self.take("QQ")
        listing = self.bytes(length)
        return Got(0, model.Life(tuple(told), session, live, working, listing if number == 0 else b"listing refused by %d" % number))


def built(folder, name, source, library):
    """A C file's program over the library."""
    program = os.path.join(folder, name)
    script = '. "$0/bin/kit.sh"; kit_find || exit 2; out=$1 source=$2; shift 2; '
    script += '[ $# -gt 0 ] || { kit_archives rtr_c || exit 2; set -- "$0/crates/rtr_c/out/librtr_c.a"; }; kit_cc "$out" "$source" "$@" || exit 2'
    if subprocess.run(["bash", "-c", script, ROOT, program, os.path.join(ROOT, source), *library], stdout=sys.stderr).returncode != 0:
        die("%s could not be built" % source)
    return program


def in_kit(program):
    """Words that run a program under the kit's own loader."""
    found = subprocess.run(["bash", "-c", '. "$0/bin/kit.sh"; kit_find || exit 2; printf "%s\\n" "${RUN[@]}"', ROOT], stdout=subprocess.PIPE, text=True)
    return found.stdout.splitlines() + [program]


class Driver:
    """The driver's file, and its answers to cases."""

    def __init__(self, folder, driver, library, seconds):
        self.folder, self.seconds = folder, seconds
        self.words = in_kit(driver or built(folder, "driver", "tests/runs.d/driver.c", library))

    def run(self, batch):
        """The answers, as many as came, and how it ended."""
        to, back = os.path.join(self.folder, "given"), os.path.join(self.folder, "got")
        with open(to, "wb") as out:
            out.writelines(map(given, batch))
        try:
            with open(to, "rb") as source, open(back, "wb") as out:
                status = subprocess.run(self.words, stdin=source, stdout=out, env={}, timeout=self.seconds).returncode
        except subprocess.TimeoutExpired:
            status = "nothing in %d seconds" % self.seconds
        if status == 2:
            die("the driver could not be run")
        with open(back, "rb") as file:
            answers, data = [], Answers(file.read())
        try:
            for case in batch:
                answers.append(data.answer(case))
        except struct.error:
            pass
        os.remove(to)
        os.remove(back)
        return answers, status
