#!/usr/bin/env python3
"""The last part of docs/DESIGN-PASS.md: each public signature, clause, definition and theorem that differs from COMMIT's, old and new.

Usage: tools/design_changes.py COMMIT
Signatures and clauses are those of public functions, types and traits in crates/*/src/*.rt, definitions those of specs/, theorems the statements in proofs/*.antt that README or docs/ name, each behind the
heads of the modules that it stands in. A line is one of them; imports and comments are left out."""
import os
import re
import subprocess
import sys

TOP = os.path.dirname(os.path.dirname(os.path.abspath(__file__)))


def git(*words):
    return subprocess.run(("git",) + words, cwd=TOP, capture_output=True, text=True).stdout


def signatures(text):
    """each public function's head, on one line, and its clauses; public types and their cases; each with its name"""
    text = re.sub(r"(?m)^\s*//.*\n", "", text)
    out, owner = {}, ""
    for m in re.finditer(r"(?m)^( *)(?:impl(?:<[^>]*>)? (?:\w+(?:<[^>]*>)? for )?(\w+).*\{|(?:pub (?:unsafe )?(?:extern \"C\" )?)?fn (\w+)|pub (?:enum|struct|trait|type) (\w+))", text):
        if m.group(2):
            owner = m.group(2)
            continue
        if m.group(4):
            end = re.compile(r"(?m)^\}" if "trait" in m.group() else r"(?m)^\}|;$").search(text, m.start())
            out["type " + m.group(4)] = " ".join(text[m.start():end.end()].split())
            continue
        if not m.group(1):
            owner = ""
        end = re.compile(r"(?m)^%s\{| \{$" % m.group(1)).search(text, m.end())
        head = text[m.start():end.start() if end else len(text)]
        public = head.lstrip().startswith("pub") or "no_mangle" in text[max(0, m.start() - 30):m.start()]
        lines = re.split(r"(?m)^\s*(?=(?:requires|ensures)\b)", head)
        name = (owner + "::" if owner and m.group(1) else "") + m.group(3)
        if public:
            out["fn " + name] = re.sub(r",? \)", ")", re.sub(r"\( ", "(", " ".join(lines[0].split())))
        for clause in lines[1:] if public else []:
            clause = " ".join(clause.split())
            kind = clause.split("{")[0].strip()
            out["%s of %s" % (kind, name)] = clause
    return out


def definitions(text, statements_only):
    """each definition, or each statement of a theorem behind the heads of the modules that it stands in, on one line"""
    out, name, body, modules, opened, cases = {}, None, [], [], "", False

    def put():
        if name:
            said = " ".join(" ".join(body).split())
            out[name] = re.split(r" %s [^:]*?= | %s = " % (re.escape(name), re.escape(name)), said)[0] if statements_only and not cases else said

    for line in text.split("\n") + ["end : "]:
        indent = len(line) - len(line.lstrip())
        if statements_only and (opened or re.match(r"\s*module _", line)):  # a module's head, which may go over lines
            if not opened:
                modules = [m for m in modules if m[0] < indent] + [(indent, "")]
            opened = (opened + " " + line.strip()).strip()
            if opened.endswith("where"):
                modules[-1] = (modules[-1][0], opened)
                opened = ""
            continue
        if line.lstrip().startswith("--") or re.match(r"\s*(use|pub use|ghost use|unfolding|module|mod|pub mod|open)\b", line):
            continue
        m = re.match(r" *((?:unfoldable|abbrev|pub|irreducible) )*((?:record|data) )?([^\s:({]+)(?:[^=≔]* :(?: |$)|$)", line)
        head = m and (m.group(1) or line.startswith("end")) and (statements_only or indent <= 2)
        if head or not line.strip() and statements_only:
            put()
            name, body = None, []
            if head:
                around = [heads for at, heads in modules if at < indent] if statements_only else []
                name, cases = m.group(3), bool(m.group(2))
                body = [line, *("in " + heads for heads in around)]
        elif name:
            if statements_only and not cases and re.match(r"\s*%s\b.*=" % re.escape(name), line):
                put()
                name, body = None, []
            else:
                body.insert(len(body) - len(around), line)  # the modules' heads stay behind
    return out


def main():
    commit = sys.argv[1]
    papers = git("ls-tree", "-r", "--name-only", commit, "docs", "README.md").split()
    named = set(re.findall(r"[\w.'-]+", " ".join(git("show", commit + ":" + n) for n in papers if n.endswith(".md") and not n.endswith("PORT.md"))))
    old = [n for n in git("ls-tree", "-r", "--name-only", commit, "crates").split() if n.endswith((".rt", ".antt"))]
    new = [n for n in git("ls-files", "crates").split() if n.endswith((".rt", ".antt"))]
    for crate in sorted({n.split("/")[1] for n in old + new}):
        before, after = {}, {}
        for where, names in ((before, old), (after, new)):
            for n in names:
                parts = n.split("/")
                if parts[1] != crate:
                    continue
                text = git("show", commit + ":" + n) if where is before else open(os.path.join(TOP, n), encoding="utf-8").read()
                if parts[2] == "src":
                    found = signatures(text)
                elif parts[2] == "specs":
                    found = definitions(text, False)
                elif len(parts) == 4 and parts[3] not in ("Answers.antt", "Invariants.antt") or parts[3] == "Laws":
                    found = {k: v for k, v in definitions(text, True).items() if k in named and v.startswith(("pub ", "abbrev pub", "unfoldable pub"))}
                else:
                    continue
                for k, v in found.items():
                    where[("/".join(parts[2:]), k)] = v
        changed = [k for k in sorted(set(before) | set(after)) if before.get(k) != after.get(k)]
        if not changed:
            continue
        print("\n### %s\n\n```diff" % crate)
        file = ""
        for k in changed:
            if k[0] != file:
                file = k[0]
                print("@@ %s @@" % file)
            if k in before:
                print("-", before[k])
            if k in after:
                print("+", after[k])
        print("```")


main()
