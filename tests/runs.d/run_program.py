"""bin/rtr-cache for tests/runs: its program alone, built over the same library, and with --program the command itself before bin/rtr-table.

Each situation has words, files, what comes on standard input, and how it must end: the exit status, all of standard output (nothing where the status is not 0), and a part of what is said on
standard error (nothing where it is 0).
"""

import collections
import glob
import os
import subprocess

import diff_model
import run_cases as cases
import run_model as model
from diff_model import listing
from run_cases import OTHER, THREE, USUAL

Situation = collections.namedtuple("Situation", "name words files stdin status out said")
NEXT, ELSEWHERE = USUAL._replace(serial=8, refresh=1), USUAL._replace(session=4661)
# The first call may have to prove and build, which takes some minutes.
SECONDS, BUILDING = 60, 3600


def good(name, words, files, run, stdin=b""):
    return Situation(name, words, files, stdin, 0, run, "")


def bad(name, words, files, status, said, stdin=b""):
    return Situation(name, words, files, stdin, status, b"", said)


def situations():
    one, two = listing(0, USUAL, THREE), listing(13, NEXT, OTHER)
    none, empty, full = listing(19, None, []), listing(0, USUAL, []), listing(0, USUAL, cases.FULL["1024 IPv6"])
    both = {"one.txt": one, "two.txt": two}
    for version, first in ((1, []), (0, ["-0"])):
        yield good("a table, version %d" % version, first + ["one.txt"], both, model.full_run(version, USUAL, THREE))
        yield good("a table behind a stop, version %d" % version, first + ["two.txt"], both, model.full_run(version, NEXT, OTHER))
        yield good("a change, version %d" % version, first + ["one.txt", "two.txt"], both, model.change_run(version, NEXT, THREE, OTHER))
        yield good("a change back, version %d" % version, first + ["two.txt", "one.txt"], both, model.change_run(version, USUAL, OTHER, THREE))
        yield good("one file twice, version %d" % version, first + ["one.txt", "one.txt"], both, model.full_run(version, USUAL, []))
        yield good("a table from standard input, version %d" % version, first + ["-"], {}, model.full_run(version, USUAL, THREE), one)
        yield good("all out and all in, version %d" % version, first + ["one.txt", "two.txt"], {"one.txt": full, "two.txt": listing(0, NEXT, cases.FULL["1024 other IPv6"])},
                   model.change_run(version, NEXT, cases.FULL["1024 IPv6"], cases.FULL["1024 other IPv6"]))
    yield good("the first from standard input", ["-", "two.txt"], both, model.change_run(1, NEXT, THREE, OTHER), one)
    yield good("the second from standard input", ["one.txt", "-"], both, model.change_run(1, NEXT, THREE, OTHER), two)
    yield good("an empty table", ["one.txt"], {"one.txt": empty}, model.full_run(1, USUAL, []))
    yield good("from an empty table", ["one.txt", "two.txt"], {"one.txt": empty, "two.txt": two}, model.full_run(1, NEXT, OTHER))
    yield bad("no table", ["one.txt"], {"one.txt": none}, 1, "no table in 'one.txt'")
    yield bad("no first table", ["one.txt", "two.txt"], {"one.txt": none, "two.txt": two}, 1, "no table in 'one.txt'")
    yield bad("no second table", ["-0", "one.txt", "two.txt"], {"one.txt": one, "two.txt": none}, 1, "no table in 'two.txt'")
    yield bad("other sessions", ["one.txt", "two.txt"], {"one.txt": one, "two.txt": listing(0, ELSEWHERE, OTHER)}, 2, "sessions differ (4660 and 4661)")
    for name, text, line in (("an empty file", b"", 1), ("CR LF", one.replace(b"\n", b"\r\n"), 1), ("without its last byte", one[:-1], 22), ("and a byte", one + b"x", 23), ("a count of 4", one.replace(b"0003", b"0004"), 23),
                             ("its own run", model.full_run(1, USUAL, THREE), 1), ("a megabyte of records", one + diff_model.record_lines(THREE[0]).encode() * 15000, 23)):
        yield bad("no listing: " + name, ["one.txt"], {"one.txt": text}, 2, "'one.txt' is no listing: line %d " % line)
        yield bad("no first listing: " + name, ["one.txt", "two.txt"], {"one.txt": text, "two.txt": b""}, 2, "'one.txt' is no listing: line %d " % line)
        yield bad("no second listing: " + name, ["two.txt", "one.txt"], {"one.txt": text, "two.txt": two}, 2, "'one.txt' is no listing: line %d " % line)
    yield bad("no listing on standard input", ["-"], {}, 2, "'-' is no listing: line 2 ", b"stopped=0\n")
    yield bad("/dev/zero", ["/dev/zero"], {}, 2, "'/dev/zero' is no listing: line 1 ")
    yield bad("a missing file", ["one.txt", "nowhere"], both, 2, "cannot read 'nowhere'")
    yield bad("a folder", ["/"], {}, 2, "cannot read '/'")
    yield bad("both from standard input", ["-", "-"], {}, 2, "can be standard input, not both", one)
    yield bad("no words", [], {}, 2, "one listing")
    yield bad("-0 alone", ["-0"], {}, 2, "one listing")
    yield bad("three files", ["one.txt", "two.txt", "one.txt"], both, 2, "one listing")


class Program:
    """Runs words and tells what differs."""

    def __init__(self, words, folder, tally):
        self.words, self.folder, self.tally, self.tried = words, folder, tally, 0

    def ended(self, situation, out=subprocess.PIPE):
        self.tried += 1
        where = os.path.join(self.folder, "situation %d" % self.tried)
        os.mkdir(where)
        for name, data in situation.files.items():
            with open(os.path.join(where, name), "wb") as file:
                file.write(data)
        words = self.words + situation.words
        try:
            return subprocess.run(words, cwd=where, input=situation.stdin, stdout=out, stderr=subprocess.PIPE, timeout=SECONDS)
        except subprocess.TimeoutExpired:
            return subprocess.CompletedProcess(words, -1, b"", b"it took more than %d seconds" % SECONDS)

    def told(self, situation, done, is_quiet=True):
        found = []
        if done.returncode != situation.status:
            found.append("it ends with %d and must end with %d" % (done.returncode, situation.status))
        if done.stdout is not None and done.stdout != situation.out:
            found.append("it writes %d bytes, %s.., and must write %d, %s.." % (len(done.stdout), done.stdout[:60].hex(), len(situation.out), situation.out[:60].hex()))
        said = done.stderr.decode(errors="replace")
        if situation.said not in said or (is_quiet and situation.status == 0 and said):
            found.append("it says %r" % said[-300:])
        self.tally.count("program", situation.name, found)


def by_program(words, folder, tally, only):
    """The program alone."""
    program = Program(words, folder, tally)
    for situation in situations():
        if only in "program: " + situation.name:
            program.told(situation, program.ended(situation))
    if os.path.exists("/dev/full") and only in "program: a full disk":
        situation = Situation("a full disk", ["one.txt"], {"one.txt": listing(0, USUAL, THREE)}, b"", 2, b"", "cannot write the run")
        with open("/dev/full", "wb") as out:
            program.told(situation, program.ended(situation, out))


def by_command(root, command, folder, tally):
    """bin/rtr-cache itself, and each listing of tests/listings.d that has a table through it and bin/rtr-table."""
    subprocess.run([command, os.path.join(root, "tests", "listings.d", "example.txt")], stdout=subprocess.DEVNULL, timeout=BUILDING)
    program = Program([command], folder, tally)
    for situation in situations():
        program.told(situation, program.ended(situation), is_quiet=False)
    program.told(bad("a word that is none", ["-1", "one.txt"], {"one.txt": b""}, 2, "no such word: -1"), program.ended(bad("", ["-1", "one.txt"], {"one.txt": b""}, 2, "")))
    for path in sorted(glob.glob(os.path.join(root, "tests", "listings.d", "*.txt"))):
        with open(path, "rb") as file:
            text = file.read()
        if diff_model.read_listing(text)[2] is not None:
            run = subprocess.run([command, path], stdout=subprocess.PIPE, timeout=SECONDS).stdout
            again = subprocess.run([os.path.join(root, "bin", "rtr-table")], input=run, stdout=subprocess.PIPE, timeout=BUILDING).stdout
            name = os.path.basename(path)
            tally.count("program", "bin/rtr-table lists %s again" % name, [] if again == b"stopped=0\n" + text.split(b"\n", 1)[1] else ["it lists %r.." % again[:200]])
