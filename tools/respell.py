#!/usr/bin/env python3
"""Respells the repository's own names after the port.py of the kit (port/port.py beside START-HERE.md): words in snake case, functions into Type in camel case.

usage: tools/respell.py [TOP]      once, behind port.py, on a checkout as it was before both

It turns .rt and .antt files below crates/, and the edits below crates/*/must-fail and tests/mutants.d. Strings, names of functions of src/ and
exported C names stay: none of them has a capital behind a small letter. Where a name would meet another one that is there already in the same
file, the other one, a lemma about it, gets `_lem` behind it (LEMMAS). Edits are also brought to the clauses' new form, as port.py brings the files.
"""
import os
import re
import sys

# functions into Type
TYPES = {"endStands": "EndStands", "keyStands": "KeyStands", "reportStands": "ReportStands", "kindStands": "KindStands", "ignoredZero": "IgnoredZero",
         "nothingBehind": "NothingBehind", "valuesFit": "ValuesFit", "kindInRule": "KindInRule", "feed-held": "FeedHeld", "full-ask-held": "FullAskHeld",
         "change-ask-held": "ChangeAskHeld", "reconnect-held": "ReconnectHeld", "notify-held": "NotifyHeld", "next-held": "NextHeld", "run-held": "RunHeld"}
# lemmas that had the name of what they are about but for its spelling, by the files that name them
LEMMAS = {
    "by_end": ["rtr_stream/proofs/Calls.antt"],
    "goes_on": ["rtr_receiver/proofs/Stepping.antt"],
    "last_code": ["rtr_codec/proofs/Differ.antt", "rtr_codec/proofs/Text.antt"],
    "left_in": ["rtr_receiver/proofs/Unique.antt"],
    "end_back": ["rtr_round/proofs/ReadBack.antt"],
    "key_back": ["rtr_round/proofs/ReadBack.antt"],
    "no_table": ["rtr_receiver/proofs/Runs.antt"],
    "read_as": ["rtr_codec/proofs/Refused.antt"],
    "cut_word": ["rtr_origin/proofs/Bits.antt", "rtr_origin/proofs/Engine.antt"],
    "stage_at": ["rtr_receiver/proofs/Receives.antt"],
}
WORD = re.compile(r"(?<![\w'-])[A-Za-z_][\w'-]*")
CAMEL = re.compile(r"(?<=[a-z0-9])[A-Z]+")


def respelled(word):
    if word in TYPES:
        return TYPES[word]
    parts = word.split("-")
    return "-".join(CAMEL.sub(lambda m: "_" + m[0].lower(), p) if p[:1].islower() else p for p in parts)


def turned(text):
    return WORD.sub(lambda m: respelled(m[0]), text)


def turned_source(text):
    """The text of a .rt file: strings and characters stay."""
    return "".join(p if p.startswith('"') else turned(p) for p in re.split(r'("(?:[^"\\\n]|\\.)*")', text))


def tight(text):
    """A clause or a definition in the new form: projections without a space, `.old` and `.new` of what is lent."""
    text = re.sub(r"now \((\w+) \.entry\)", r"\1.now", text)
    text = re.sub(r"now \((\w+) \.exit\)", r"\1.new", text)
    text = re.sub(r"\(now (\w+)\)", r"\1.now", text)
    text = re.sub(r"\bnow (\w+)", r"\1.now", text)
    text = re.sub(r"ensures \{ λ (\w+)\. ⌜ (.*) ⌝ \}", lambda m: "ensures { " + re.sub(rf"(?<![\w'.-]){m[1]}(?![\w'-])", "result", m[2]) + " }", text)
    text = re.sub(r"requires \{ ⌜ (.*) ⌝ \}", r"requires { \1 }", text)
    text = text.replace("′", "'")
    text = re.sub(r"«(\w+)»", r"\1", text)
    text = re.sub(r"\bgetD\b|\bget_d\b", "get_or", text)
    while True:
        new = re.sub(r"(?<=[\w')]) \.(?=[a-z0-9])", ".", text)
        if new == text:
            break
        text = new
    # a projection stands tight, so its brackets go: (r.f) to r.f
    return re.sub(r"\(([A-Za-z_][\w']*(?:\.[\w-]+)+)\)", r"\1", text)


def turned_edit(text, rust):
    lines, file = [], ""
    for line in text.split("\n"):
        key, colon, rest = line.partition(":")
        if key == "file":
            file = rest.strip()
        if key in ("old", "new") and (file.endswith(".antt") or "⌜" in rest or "≡" in rest):
            rest = tight(rest)
        lines.append(key + colon + turned(rest) if key in ("old", "new") else turned(line))
    return "\n".join(lines)


def files(top, folder, *ends):
    for at, dirs, names in os.walk(os.path.join(top, folder)):
        dirs[:] = sorted(d for d in dirs if d != "out")
        for name in sorted(names):
            if name.endswith(ends):
                yield os.path.join(at, name)


def main(argv):
    top = argv[0] if argv else os.path.dirname(os.path.dirname(os.path.abspath(__file__)))
    lemmas = {}
    for name, at in LEMMAS.items():
        for f in at:
            lemmas.setdefault(os.path.join(top, "crates", f), []).append(name)
    changed = 0
    for path in [*files(top, "crates", ".antt", ".rt", ".edit"), *files(top, "tests/mutants.d", ".edit")]:
        with open(path, encoding="utf-8") as f:
            old = text = f.read()
        for name in lemmas.get(path, []):
            text = re.sub(rf"(?<![\w'.-]){name}(?![\w'-])", name + "_lem", text)
        if path.endswith(".edit"):
            text = turned_edit(text, path)
        elif path.endswith(".rt"):
            text = turned_source(text)
        else:
            text = turned(text)
        if text != old:
            with open(path, "w", encoding="utf-8") as f:
                f.write(text)
            changed += 1
    print(f"respell: {changed} files")


if __name__ == "__main__":
    main(sys.argv[1:])
