"""The stored cases of tests/diffs: cases.txt, rooms.txt and the listings that they are cut from, all written by `tests/diffs --make`.

A line of cases.txt is a case and its answer, in columns between tabs:

    NAME  OLD  NEW  LENT  NUMBER  WRITTEN  OUT  OLD ROOM  NEW ROOM

A text is a listing of this folder (`three` is three.txt), or `FILE N "BYTES" M`: N bytes of its front, these bytes, and M bytes of its back. `rest` at the end says that
the file's bytes from N on lie behind the text in memory; else line feeds do. LENT is `-`, or the lengths of both rooms and of the output, and what stood in the rooms
(FILLS of diff_cases.py). OUT is what then stands at the output's front; the bytes behind it stay. A room is `zero`, `kept`, `?` where no paper says what it is, or a line
of rooms.txt: its numbers in hex, and zeros behind them.
"""

import os
import struct

import diff_cases as cases
import diff_model as model

PLAIN = bytes(range(33, 127))


def quoted(data):
    return '"%s"' % "".join("\\n" if x == 10 else chr(x) if x in PLAIN and x not in b'"\\' else "\\x%02x" % x for x in data)


def unquoted(word):
    return word[1:-1].encode("ascii").decode("unicode_escape").encode("latin-1")


def common(a, b):
    """How many bytes two texts have in common from the front."""
    return len(os.path.commonprefix([a, b]))


class Store:
    """Cases as words."""

    def __init__(self, rules):
        self.bases, self.rooms = cases.bases(rules), {}
        self.known = {model.room(model.read_listing(base, rules)[3], rules) for base in self.bases.values()}

    def text(self, text, behind):
        found = []
        for name, base in self.bases.items():
            if text == base and behind == cases.BEHIND:
                return name
            front = common(text, base)
            back = min(common(text[::-1], base[::-1]), len(text) - front, len(base) - front)
            bytes_between = quoted(text[front:len(text) - back])
            word = "%s %d %s %d" % (name, front, bytes_between, back)
            if behind == base[front:] and back == 0:
                word += " rest"
            elif behind != cases.BEHIND:
                continue
            found.append(word)
        return min(found, key=len)

    def room(self, part, stood):
        if part is None:
            return "?"
        if not any(part):
            return "zero"
        if part == stood:
            return "kept"
        return self.rooms.setdefault(part, "r%d" % (len(self.rooms) + 1))

    def line(self, case, answer, before):
        old_before, new_before, out_before = before
        usual = cases.case(case.name, case.old, case.new)
        lent = (case.old_room, case.new_room, case.out, case.fill)
        words = [case.name.encode("unicode_escape").decode(), self.text(case.old, case.old_behind), self.text(case.new, case.new_behind)]
        words.append("-" if lent == (usual.old_room, usual.new_room, usual.out, usual.fill) else "%d %d %d %d" % lent)
        words += [str(answer.number), str(answer.written), quoted(answer.out[:answer.written] if answer.number == 0 else b"")]
        words += [self.room(answer.old_room, old_before), self.room(answer.new_room, new_before)]
        return "\t".join(words) + "\n"

    def cost(self, case, answer):
        """About how many bytes a case takes; a room that a stored listing has, which is stored once, is not counted."""
        if max(len(case.old), len(case.new)) > 100_000:
            return 10 ** 6
        parts = [self.text(case.old, case.old_behind), self.text(case.new, case.new_behind), case.name, answer.out[:answer.written] if answer.number == 0 else b""]
        parts += [room.rstrip(b"\0") for room in (answer.old_room, answer.new_room) if room is not None and answer.number != 22 and room not in self.known]
        return sum(map(len, parts))


def write(folder, before, chosen, rules):
    """Writes the chosen cases with their answers, and what they are cut from."""
    store = Store(rules)
    files = {"cases.txt": "".join(store.line(case, answer, before(case)) for case, answer in chosen).encode()}
    rooms = ""
    for part, name in store.rooms.items():
        numbers = struct.unpack("<%dI" % (len(part) // 4), part)
        while numbers[-1] == 0:
            numbers = numbers[:-1]
        rooms += " ".join([name] + ["%x" % n for n in numbers]) + "\n"
    files["rooms.txt"] = rooms.encode()
    for name, base in store.bases.items():
        files[name + ".txt"] = base
    for name, data in files.items():
        with open(os.path.join(folder, name), "wb") as out:
            out.write(data)
    print("%d cases and %d rooms are stored, in %d bytes" % (len(chosen), len(store.rooms), sum(map(len, files.values()))))
    return 0


def is_of(folder, rules):
    """Whether the stored listings are what these rules write."""
    for name, base in cases.bases(rules).items():
        path = os.path.join(folder, name + ".txt")
        if not os.path.exists(path):
            return False
        with open(path, "rb") as file:
            if file.read() != base:
                return False
    return True


def read(folder, before):
    """The stored cases with their answers."""
    bases, rooms = {}, {}
    for name in cases.bases(model.FOUR):
        with open(os.path.join(folder, name + ".txt"), "rb") as file:
            bases[name] = file.read()
    with open(os.path.join(folder, "rooms.txt")) as file:
        for line in file:
            name, *numbers = line.split()
            rooms[name] = struct.pack("<%dI" % cases.ROOM, *[int(n, 16) for n in numbers] + [0] * (cases.ROOM - len(numbers)))

    def text(words):
        name, *words = words.split(" ")
        if not words:
            return bases[name], cases.BEHIND
        base, front, back = bases[name], int(words[0]), int(words[2])
        return base[:front] + unquoted(words[1]) + base[len(base) - back:], base[front:] if words[3:] else cases.BEHIND

    with open(os.path.join(folder, "cases.txt")) as file:
        for line in file:
            name, old, new, lent, number, written, out, old_room, new_room = line.rstrip("\n").split("\t")
            old, old_behind = text(old)
            new, new_behind = text(new)
            case = cases.case(name.encode().decode("unicode_escape"), old, new, old_behind, new_behind)
            if lent != "-":
                case = case._replace(**dict(zip(("old_room", "new_room", "out", "fill"), map(int, lent.split()))))
            *stood, out_before = before(case)
            parts = [{"zero": bytes(len(was)), "kept": was, "?": None}.get(word, rooms.get(word)) for word, was in zip((old_room, new_room), stood)]
            out = unquoted(out)
            yield case, model.Answer(int(number), int(written), out + out_before[len(out):], *parts)
