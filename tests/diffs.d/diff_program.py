"""tests/diffs --program: bin/rtr-diff and its program on files, and what both print beside what the model prints.

bin/rtr-diff is run with two words and, in a folder with old.txt and new.txt, without any. The program itself (crates/rtr_diff/out/rtr_diff, which bin/rtr-diff has then built) is run
on the stored cases, on endless files with little memory, and on pipes. What is printed on standard output must be the model's, and no file may come or go. The exit status and
standard error are told and not compared: no paper speaks of them.
"""

import collections
import os
import subprocess
import tempfile
import threading
import time

import diff_cases as cases
import diff_model as model
import diff_stored

# The program has some 0.7 MB of its own, and the loader and C's library a few more.
MEMORY_KIB = 32768
# How much more the program may hold with an endless file than with a small one, in KiB.
GROWTH_KIB = 2048
SECONDS = 120


class Files:
    """What stands where a file is named: how it is made, and which bytes the program finds."""

    def __init__(self, folder):
        self.folder, self.made = folder, 0

    def new(self):
        """An empty folder."""
        self.made += 1
        path = os.path.join(self.folder, "files %d" % self.made)
        os.mkdir(path)
        return path

    def put(self, path, what):
        """Makes what is asked for at the path, and says which bytes are found there."""
        kind, data = what if isinstance(what, tuple) else ("file", what)
        if kind == "file":
            with open(path, "wb") as out:
                out.write(data)
        elif kind == "missing":
            return b""
        elif kind == "folder":
            os.mkdir(path)
            return b""
        elif kind == "link":         # to a file elsewhere
            target = os.path.join(self.new(), "a file")
            self.put(target, data)
            os.symlink(target, path)
        elif kind == "chain":        # to a link to a file
            target = os.path.join(self.new(), "a link")
            self.put(target, ("link", data))
            os.symlink(target, path)
        elif kind == "near link":    # to a file beside it, by its bare name
            self.put(path + ".there", data)
            os.symlink(os.path.basename(path) + ".there", path)
        elif kind == "link to":      # to a path of the system's
            os.symlink(data, path)
            return b""
        elif kind == "loop":
            os.symlink(os.path.basename(path), path)
            return b""
        elif kind == "unreadable":
            self.put(path, data)
            os.chmod(path, 0)
            return b""
        return data


def tree(folder):
    """All names below a folder."""
    return sorted(os.path.join(where, name) for where, folders, files in os.walk(folder) for name in folders + files)


class Runs:
    """Runs, and what differs."""

    def __init__(self, root, show):
        self.root, self.show, self.cases, self.differ, self.statuses = root, show, 0, 0, collections.Counter()

    def told(self, name, wanted, ended, printed, said=b""):
        """One run: what had to be printed, how it ended, and what was printed."""
        self.cases += 1
        self.statuses[str(ended)] += 1
        if printed == wanted:
            return
        self.differ += 1
        if self.differ <= self.show:
            at = len(os.path.commonprefix([printed, wanted]))
            print("DIFFERS  " + name)
            print("  it ended with %s and printed %d bytes, where %d are expected; byte %d is the first that differs" % (ended, len(printed), len(wanted), at))
            print("  printed  %r\n  expected %r" % (printed[max(0, at - 100):at + 200], wanted[max(0, at - 100):at + 200]))
            if said:
                print("  on standard error: %r" % said[-500:])

    def run(self, name, wanted, words, folder, seconds=SECONDS):
        began = time.time()
        try:
            done = subprocess.run(words, cwd=folder, stdin=subprocess.DEVNULL, stdout=subprocess.PIPE, stderr=subprocess.PIPE, timeout=seconds)
            self.told(name, wanted, done.returncode, done.stdout, done.stderr)
            return done.stderr
        except subprocess.TimeoutExpired as late:
            self.told(name, wanted, "no end in %d seconds" % (time.time() - began), late.stdout or b"", late.stderr or b"")
            return b""


def pairs(rules):
    """Pairs of files: a name, and what stands where the old and the new one are named."""
    base = cases.bases(rules)
    none, empty, three, other, full = (base[name] for name in ("none", "empty", "three", "other", "1024"))
    yield "two listings", three, other
    yield "the same listing", three, three
    yield "no table and a listing", none, three
    yield "a listing and an empty table", three, empty
    yield "1024 records and no table", full, none
    yield "the longest output", model.listing(19, cases.WIDEST, cases.longest(1024), rules), model.listing(19, cases.WIDEST, cases.longest(1024, 5000), rules)
    yield "an old file with CR LF", three.replace(b"\n", b"\r\n"), other
    yield "a new file without its last line feed", other, three[:-1]
    yield "both wrong", three[:-1], b""
    for which in ("old", "new"):
        for name, what in (
            ("missing", ("missing", b"")), ("empty", b""), ("a folder", ("folder", b"")),
            ("a link", ("link", three)), ("a link to a link", ("chain", three)), ("a link by a bare name", ("near link", three)), ("a link to a cut listing", ("link", three[:100])),
            ("a link to nothing", ("link to", "/nowhere/at/all")), ("a link to itself", ("loop", b"")), ("a link to a folder", ("link to", "/")),
            ("/dev/null", ("link to", "/dev/null")), ("a file under a file", ("link to", "/dev/null/x")), ("a file that cannot be read on", ("link to", "/proc/self/mem")),
        ):
            if what == ("link to", "/proc/self/mem") and not os.path.exists("/proc/self/mem"):
                continue
            yield "%s file is %s" % (which, name), *((what, other) if which == "old" else (other, what))
        if os.geteuid() != 0:
            yield "%s file may not be read" % which, *((("unreadable", three), other) if which == "old" else (other, ("unreadable", three)))
    yield "both missing", ("missing", b""), ("missing", b"")
    yield "the old one missing and the new one wrong", ("missing", b""), three[:-1]
    yield "both folders", ("folder", b""), ("folder", b"")


def endless(rules):
    """Files without an end: what they begin with and what then repeats."""
    base = cases.bases(rules)
    record = model.record_lines(cases.HIGHEST).encode()
    widest = model.listing(19, cases.WIDEST, cases.longest(1024), rules)
    yield "one repeated line", b"", b"stopped=0\n"
    yield "line feeds", b"", b"\n"
    yield "digits", b"", b"1234567890"
    yield "zeros", b"", b"0"
    yield "zero bytes", b"", b"\0"
    yield "a stop and then line feeds", b"stopped=0\n", b"\n"
    yield "a session of digits", b"stopped=0\nsession=", b"1"
    yield "a session of zeros", b"stopped=0\nsession=", b"0"
    yield "a listing and then line feeds", base["three"], b"\n"
    yield "a listing and then zero bytes", base["three"], b"\0"
    yield "the longest listing and then records", widest, record
    yield "the longest listing and then digits", widest, b"9"
    yield "a listing whose last number goes on", base["three"][:-1], b"0"


def long_file(path, start, unit, megabytes):
    """Writes an endless file, and says as much of it as decides the answer: no listing is longer (OP 4.13)."""
    block = unit * (2 ** 20 // len(unit))
    with open(path, "wb") as out:
        out.write(start)
        for _ in range(megabytes):
            out.write(block)
    return start + unit * (200_000 // len(unit))


def by_command(runs, files, command, rules):
    """bin/rtr-diff with two words, and without any in the folder."""
    first = True
    for name, old, new in pairs(rules):
        for ways in ("two words", "no words", "bare names"):
            if ways == "bare names" and (isinstance(old, tuple) or isinstance(new, tuple)):
                continue
            folder = files.new()
            names = {"two words": ("an old file", "a new file"), "no words": ("old.txt", "new.txt"), "bare names": ("-old", "b'\"$x")}[ways]
            wanted = model.diff(*(files.put(os.path.join(folder, path), what) for path, what in zip(names, (old, new))), rules)
            words = {"two words": [os.path.join(folder, path) for path in names], "no words": [], "bare names": ["./" + names[0], names[1]]}[ways]
            before = tree(folder)
            if first:    # proving and building may take long
                runs.run("%s, by %s" % (name, ways), wanted, [command] + words, folder, seconds=7200)
                first = False
            else:
                runs.run("%s, by %s" % (name, ways), wanted, [command] + words, folder, seconds=600)
            runs.told("%s, by %s: files in the folder" % (name, ways), repr(before).encode(), 0, repr(tree(folder)).encode())
    # the same file twice, and each other's names
    folder = files.new()
    text, other = (cases.bases(rules)[x] for x in ("three", "other"))
    for path, what in (("same", text), ("old.txt", text), ("new.txt", other)):
        files.put(os.path.join(folder, path), what)
    runs.run("one file as both", b"", [command, "same", "same"], folder, seconds=600)
    runs.run("new.txt as old and old.txt as new", model.diff(other, text, rules), [command, "new.txt", "old.txt"], folder, seconds=600)


def in_kit(root, binary, before=""):
    """Words that run the program by the kit's loader, in the folder of the run."""
    return ["bash", "-c", '. "$0/bin/kit.sh"; kit_find || exit 2; %s exec "${TIME[@]}" env -i "${RUN[@]}" "$1"' % before, root, binary]


def by_program(runs, files, root, binary, folder_of_stored, before, given, rules):
    """The program alone: stored cases, endless files and pipes."""
    folder = files.new()
    old, new = os.path.join(folder, "old.txt"), os.path.join(folder, "new.txt")
    for case, answer in diff_stored.read(folder_of_stored, before):
        if (case.old_room, case.new_room) == (cases.ROOM, cases.ROOM) and answer.number == 0:
            files.put(old, case.old)
            files.put(new, case.new)
            runs.run("stored, " + case.name, answer.out[:answer.written], in_kit(root, binary), folder)
    # no more memory than for a small file
    limit = "ulimit -v %d;" % MEMORY_KIB
    timed = os.path.exists("/usr/bin/time")
    words = in_kit(root, binary, limit + (" TIME=(/usr/bin/time -f 'held %M');" if timed else " TIME=();"))
    good = cases.bases(rules)["other"]
    small = held = None
    files.put(old, cases.bases(rules)["three"])
    files.put(new, good)
    most = 0
    for name, start, unit in [(None, None, None), *endless(rules)]:
        for which in ("old", "new"):
            if name is None:
                wanted, where = model.diff(cases.bases(rules)["three"], good, rules), "small files, with little memory"
            else:
                text = long_file(old if which == "old" else new, start, unit, given.megabytes)
                files.put(new if which == "old" else old, good)
                wanted = model.diff(*((text, good) if which == "old" else (good, text)), rules)
                where = "%d MB of %s as %s, with little memory" % (given.megabytes, name, which)
            said = runs.run(where, wanted, words, folder)
            if timed:
                held = next((int(line.split()[1]) for line in said.splitlines() if line.startswith(b"held ")), None)
                if held is None:
                    runs.told(where + ": what it held is told", b"told", 0, b"not told", said)
                    continue
                small = held if small is None else small
                most = max(most, held)
                runs.told(where + ": it holds no more", b"no more", 0, b"no more" if held <= small + GROWTH_KIB else b"%d KiB more" % (held - small))
    print("memory: %s, %s" % ("at most %d KiB of addresses" % MEMORY_KIB,
                              "%d KiB held with small files and %d at the most" % (small or 0, most) if timed else "no /usr/bin/time"))
    # endless by nature
    for which, path, beside in (("old", old, new), ("new", new, old)):
        os.remove(path)
        os.symlink("/dev/zero", path)
        files.put(beside, good)
        runs.run("/dev/zero as %s" % which, model.refused(which.encode(), 1), words, folder)
        os.remove(path)
    by_pipe(runs, folder, in_kit(root, binary), rules)


def by_pipe(runs, folder, words, rules):
    """A file that comes in pieces, or without end, through a pipe."""
    base = cases.bases(rules)
    good, full = base["other"], base["1024"]

    def pieces(text, size):
        return [text[i:i + size] for i in range(0, len(text), size)]

    # what it is, its pieces (None: without end), the pause between them, and what is read
    tried = [("a listing in single bytes", pieces(base["three"], 1), 0.0005, base["three"]), ("a full listing in pieces", pieces(full, 1000), 0.001, full),
             ("a listing in slow parts", pieces(base["three"], 100), 0.2, base["three"]), ("a line again and again", None, 0, b"stopped=0\n" * 20000)]
    for which in ("old", "new"):
        for name, parts, pause, text in tried:
            old, new = os.path.join(folder, "old.txt"), os.path.join(folder, "new.txt")
            pipe, beside = (old, new) if which == "old" else (new, old)
            for path in (old, new):
                if os.path.lexists(path):
                    os.remove(path)
            os.mkfifo(pipe)
            with open(beside, "wb") as out:
                out.write(good)

            def write():
                try:
                    with open(pipe, "wb", buffering=0) as out:
                        for part in parts if parts is not None else iter(lambda: b"stopped=0\n" * 1000, None):
                            out.write(part)
                            time.sleep(pause)
                except OSError:    # the program has read enough
                    pass

            writer = threading.Thread(target=write, daemon=True)
            writer.start()
            runs.run("%s through a pipe as %s" % (name, which), model.diff(*((text, good) if which == "old" else (good, text)), rules), words, folder)
            if writer.is_alive():    # a writer that nobody reads is let go
                writer.join(1)
                try:
                    os.close(os.open(pipe, os.O_RDONLY | os.O_NONBLOCK))
                except OSError:
                    pass
                writer.join(5)
            os.remove(pipe)


def main(root, folder_of_stored, before, given, rules):
    command = os.path.abspath(given.command or os.path.join(root, "bin", "rtr-diff"))
    binary = os.path.abspath(given.binary or os.path.join(root, "crates", "rtr_diff", "out", "rtr_diff"))
    if not os.access(command, os.X_OK):
        print("tests/diffs: there is no program %s" % command)
        return 2
    began = time.time()
    runs = Runs(root, given.show)
    with tempfile.TemporaryDirectory() as folder:
        files = Files(folder)
        by_command(runs, files, command, rules)
        print("%d runs and looks by %s in %.0f seconds, %d differ" % (runs.cases, os.path.basename(command), time.time() - began, runs.differ))
        if not os.access(binary, os.X_OK):
            print("tests/diffs: there is no program %s (--binary names another)" % binary)
            return 2
        by_program(runs, files, root, binary, folder_of_stored, before, given, rules)
    print("ended with: " + ", ".join("%s: %d" % x for x in sorted(runs.statuses.items())))
    print("seconds: %.0f" % (time.time() - began))
    print("%d cases, %d differ" % (runs.cases, runs.differ))
    return 1 if runs.differ else 0
