#!/usr/bin/env python3
"""Counts the places that docs/DESIGN-PASS.md speaks of, by the text of crates/*/src/*.rt.

Usage: tools/design_places.py [--list] [COMMIT]
       of the files as they stand, or as COMMIT has them (git show); with --list each place, else a count for each point.
A count by text finds what looks like such a place. What each is, and why one stays, says the page."""
import collections
import os
import re
import subprocess
import sys

TOP = os.path.dirname(os.path.dirname(os.path.abspath(__file__)))
WORDS = [a for a in sys.argv[1:] if not a.startswith("-")]
COMMIT = WORDS[0] if WORDS else ""


def run(*words):
    return subprocess.run(words, cwd=TOP, capture_output=True, text=True, check=True).stdout


def sources():
    """name -> text of each source file"""
    if COMMIT:
        names = run("git", "ls-tree", "-r", "--name-only", COMMIT, "crates").split()
        return {n: run("git", "show", COMMIT + ":" + n) for n in names if re.match(r"crates/\w+/src/\w+\.rt$", n)}
    names = run("git", "ls-files", "crates").split()
    return {n: open(os.path.join(TOP, n), encoding="utf-8").read() for n in names if re.match(r"crates/\w+/src/\w+\.rt$", n)}


def bare(text):
    """the text without comments"""
    return re.sub(r"(?m)//.*$", "", text)


def functions(text):
    """(name, parameters, result, contract, body) of each function"""
    text = bare(text)
    for m in re.finditer(r"(?m)^( *)(?:pub )?(?:unsafe )?(?:extern \"C\" )?fn (\w+)[^(]*\(", text):
        depth, at = 1, m.end()
        while depth:
            depth += {"(": 1, ")": -1}.get(text[at], 0)
            at += 1
        end = re.compile(r"(?m)^%s\}" % m.group(1)).search(text, at)
        start = re.compile(r"(?m)^%s\{|\{$" % m.group(1)).search(text, at)
        stop = end.end() if end else len(text)
        head = text[at:start.start()] if start else ""
        result = re.match(r"\s*->\s*([^\n{]*)", head)
        yield m.group(2), text[m.end():at - 1], result.group(1).strip() if result else "", head, text[start.start():stop] if start else ""


def enums(text):
    for m in re.finditer(r"(?ms)^(?:pub )?enum (\w+) \{\n(.*?)^\}", bare(text)):
        cases = re.findall(r"(?m)^    (\w+)\s*([({]?)", m.group(2))
        yield m.group(1), cases


def structs(text):
    for m in re.finditer(r"(?ms)^(?:pub )?struct (\w+)[^{;]*\{\n(.*?)^\}", bare(text)):
        yield m.group(1), re.findall(r"(?m)^    (?:pub )?(\w+): ([^,]+),", m.group(2))


def main():
    found = collections.defaultdict(list)
    alike = collections.defaultdict(list)
    asked = collections.defaultdict(list)
    together = collections.defaultdict(list)
    for name, text in sorted(sources().items()):
        crate = name.split("/")[1]
        for enum, cases in enums(text):
            full, empty = [c for c, p in cases if p], [c for c, p in cases if not p]
            refuses = [c for c, _ in cases if c in ("Refused", "NotARoom", "NotAReceiver", "NotAStream", "Unread") and not enum.endswith("Error")]
            if not enum.endswith("Error") and (len(cases) == 2 and len(full) == 1 or refuses or set(c for c, _ in cases) == {"Part", "Refused"}):
                found["1 own Option or Result"].append("%s %s { %s }" % (name, enum, ", ".join(c for c, _ in cases)))
        for struct, fields in structs(text):
            flags = [f for f, t in fields if t == "bool"]
            if flags and len(fields) > 1:
                found["1 flag beside a value"].append("%s %s { %s }" % (name, struct, ", ".join(f for f, _ in fields)))
        for m in re.finditer(r"(?m)^\s*(?:while\b.*|loop \{|.*= loop \{)", bare(text)):
            found["3 while or loop"].append("%s:%d %s" % (name, bare(text)[:m.end()].count("\n") + 1, m.group(0).strip()))
        for fn, params, result, contract, body in functions(text):
            if re.match(r"is_same|is_before|is_version|is_alike|default$|from_u\d+$|to_u\d+$|wide\d*$|low\d+$|compare$|put_text$", fn):
                found["4 equality, order, conversion by hand"].append("%s %s" % (name, fn))
            names = [p.strip().split(":")[0].strip() for p in params.split(",") if ":" in p]
            types = {p.strip().split(":")[0].strip(): p.split(":", 1)[1].strip() for p in params.split(",") if ":" in p}
            slices = [n for n, t in types.items() if re.match(r"&(mut )?\[", t)]
            for n in names:
                if re.fullmatch(r"(\w+_)?(count|held|end|n)", n) and types.get(n) == "usize" and slices:
                    found["6 slice with a length beside it"].append("%s %s(%s)" % (name, fn, ", ".join(names)))
                    break
            if len(names) >= 3:
                for i in range(len(names) - 2):
                    together[(crate, tuple(names[i:i + 3]))].append(fn)
            for clause in re.findall(r"(?m)^\s*requires[^{]*\{ (.*) \}\s*$", contract):
                for fact in re.split(r" × ", clause):
                    asked[(crate, fact.strip("() "))].append(fn)
            plain = re.sub(r"\b(u8|u16|u32|u64|usize|V0|V1|\d+|[A-Z]\w*)\b", "_", re.sub(r"\s+", " ", re.sub(r"\b%s\b" % fn, "_", params + result + body)))
            plain = re.sub(r"\b(?:be|low|wide|put|encode|parse|is|list|run|peer)_?\w*\b", "_", plain)
            if len(body) > 60:
                alike[(plain)].append("%s %s" % (name, fn))
            if re.search(r"&(mut )?dyn |Box<dyn|: fn\(", params):
                found["7 dyn or function pointers"].append("%s %s" % (name, fn))
        if not name.endswith("main.rt"):
            found["7 enums of steps"] += ["%s %s" % (name, e) for e, _ in enums(text) if re.fullmatch(r"Doing|Then|Step\w*", e)]
    for group in alike.values():
        if len(group) > 1:
            found["2 functions alike but for names, types and numbers"].append(" = ".join(group))
    for (crate, names), fns in together.items():
        if len(fns) >= 3:
            found["5 three parameters that travel together (3 functions or more)"].append("%s (%s): %d" % (crate, ", ".join(names), len(fns)))
    for (crate, fact), fns in asked.items():
        if len(fns) >= 3:
            found["5 a fact asked by 3 functions or more"].append("%s `%s`: %d" % (crate, fact, len(fns)))
    for point in sorted(found):
        print("%4d  %s" % (len(found[point]), point))
        if "--list" in sys.argv:
            for place in found[point]:
                print("      ", place)


main()
