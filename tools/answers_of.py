#!/usr/bin/env python3
"""Turns a function's Proof.antt of the older Rattle, which answers the goals of `tie`, into Invariants.antt and Answers.antt.

usage: tools/answers_of.py OLD_CRATE NAMES_JSON NEW_CRATE [FUNCTION ..]

NAMES_JSON is what `rt check --generated DIR --old-names` leaves in DIR. What it could not turn is printed.
"""
import json
import os
import re
import sys

NAME = r"[^\W\d][\w₀-₉'-]*"
TRIVIAL = {"search rules", "omega arith", "refl", "tt"}


def norm(s):
    return s.replace("_", "-")


def norm_(s):
    return s.replace("-", "_")


def decls(text):
    """Top-level declarations, each with its lines; indented sections stay whole."""
    out, cur = [], []
    lines = text.split("\n")
    blocks = []
    for l in lines:
        if l.strip() == "":
            if cur:
                blocks.append(cur)
                cur = []
        else:
            cur.append(l)
    if cur:
        blocks.append(cur)
    # a section's blocks are indented: join them to their head
    joined = []
    for b in blocks:
        if joined and all(x.startswith("  ") for x in b) and any(x.startswith("module ") for x in joined[-1]):
            joined[-1] += [""] + b
        else:
            joined.append(list(b))
    return joined


def parse(block):
    """(comment, marks, name, type, unfolding, params, body) of a declaration of one equation, or None."""
    comment = []
    i = 0
    while i < len(block) and block[i].lstrip().startswith("--"):
        comment.append(block[i])
        i += 1
    if i >= len(block):
        return None
    m = re.match(rf"((?:(?:abbrev|unfoldable|pub) )*)({NAME}) : (.*)$", block[i])
    if not m:
        return None
    marks, name, ty = m[1], m[2], m[3]
    i += 1
    while i < len(block) and block[i].startswith("    "):
        ty += "\n" + block[i]
        i += 1
    unf = []
    while i < len(block) and block[i].startswith("unfolding "):
        unf.append(block[i])
        i += 1
    eqs = []
    while i < len(block):
        l = block[i]
        if l.startswith("    ") or l.startswith("  ") or l[:1] in (")", "}", "]"):
            if not eqs:
                return None
            eqs[-1] += "\n" + l
        else:
            eqs.append(l)
        i += 1
    if len(eqs) != 1:
        return dict(comment=comment, marks=marks, name=name, ty=ty, unf=unf, eqs=eqs, params=None, body=None)
    m = re.match(rf"{re.escape(name)}((?: (?:{NAME}|\([^=]*?\)|_))*) =\s?(.*)$", eqs[0], re.S)
    if not m:
        return dict(comment=comment, marks=marks, name=name, ty=ty, unf=unf, eqs=eqs, params=None, body=None)
    params = m[1].split()
    return dict(comment=comment, marks=marks, name=name, ty=ty, unf=unf, eqs=eqs, params=params, body=m[2])


def sub_tokens(text, mapping):
    """Renames variables that stand alone: not behind a dot, not a field's label."""
    def f(m):
        w = m[0]
        if w in mapping:
            rest = text[m.end():m.end() + 3]
            if re.match(r" = |\s*≔", rest) and not re.match(r" = =", rest):
                return w
            return mapping[w]
        return w
    return re.sub(rf"(?<![\w.₀-₉'-]){NAME}", f, text)


CLAUSES = {}


def read_clauses(crates):
    """(crate, function) to the names of its ensures, where it has several."""
    for crate in os.listdir(crates):
        for d, _s, fs in os.walk(os.path.join(crates, crate, "src")):
            for f in fs:
                if f.endswith(".rt"):
                    text = open(os.path.join(d, f), encoding="utf8").read()
                    for m in re.finditer(r"\bfn (\w+)[^{;]*?\)(?: -> [^\n{]*)?\n((?:[ \t]+.*\n)*?)[ \t]*\{\n", text):
                        names = re.findall(r"^\s+ensures (\w+) \{", m[2], re.M)
                        if names:
                            CLAUSES[(crate, m[1])] = names


def split_final(body):
    """The lets in front of a term, and the term."""
    depth, i, lets, start = 0, 0, 0, 0
    stack = []
    last = 0
    for m in re.finditer(r"[(\[{]|[)\]}]|(?<![\w.'-])(?:let|in)(?![\w'-])", body):
        w = m[0]
        if w in "([{":
            depth += 1
        elif w in ")]}":
            depth -= 1
        elif depth == 0 and w == "let":
            stack.append(m.start())
        elif depth == 0 and w == "in" and stack:
            stack.pop()
            if not stack:
                last = m.end()
    return body[:last], body[last:]


def top_commas(inner):
    parts, depth, cur = [], 0, ""
    for ch in inner:
        if ch in "([{":
            depth += 1
        elif ch in ")]}":
            depth -= 1
        if ch == "," and depth == 0:
            parts.append(cur)
            cur = ""
        else:
            cur += ch
    if cur.strip():
        parts.append(cur)
    return parts


def closes(s):
    depth = 0
    for i, ch in enumerate(s):
        depth += ch in "([{"
        depth -= ch in ")]}"
        if depth == 0:
            return i == len(s) - 1
    return False


def by_clause(body, names):
    lets, term = split_final(body)
    s = term.strip()
    if s.startswith("(") and closes(s):
        parts = top_commas(s[1:-1])
        while len(parts) < len(names) and parts[-1].strip().startswith("(") and closes(parts[-1].strip()):
            parts[-1:] = top_commas(parts[-1].strip()[1:-1])
        if len(parts) == len(names):
            return lets + " record {\n" + "".join(f"      {n} = {x.strip()};\n" for n, x in zip(names, parts)) + "    }"
    return lets + f"\n    let promised = {s} in record {{ " + "; ".join(f"{n} = promised.{k}" for k, n in enumerate(names)) + " }"


class Fn:
    def __init__(self, info, path):
        self.info = info
        self.path = path
        self.steps = {}
        self.fields = {}
        self.bad = []
        self.goal = None
        for place, parent, (old, new), fn, fl in info["places"]:
            if old and old not in self.steps:
                self.steps[norm(old)] = new
            for a, b in fl:
                self.fields.setdefault((norm(old), a), b)
        self.called = {}
        for place, parent, (old, new), f, fl in info["places"]:
            if f:
                self.called[norm(old)] = f
        self.arms = {}
        for a in info["arms"]:
            if a:
                for newf, oldstep, oldpath in a[2]:
                    self.arms[(norm(oldstep), tuple(oldpath))] = (a[0], newf)
        self.needs = {norm(o): n for o, n in info["needs"]}
        self.loops = {o: (n, vs, ch) for ((o, n), vs), ch in zip(info["loops"], info["changed"])}

    def after_call(self, f, rest):
        """The fields behind a call: its clauses and what it left by their names."""
        if rest[0] in ("new", "last", "auto") and len(rest) > 1 and f in self.info["params"]:
            k, i = 0, 1
            while i < len(rest) and rest[i] == "1":
                k, i = k + 1, i + 1
            if i < len(rest) and rest[i] == "0" and k < len(self.info["params"][f]):
                return ["auto" if rest[0] == "auto" else "new", self.info["params"][f][k], *rest[i + 1:]]
        parts = f.split("::")
        names = CLAUSES.get((parts[0], parts[-1]))
        if names and len(names) > 1 and rest[0] == "ensures" and len(rest) > 1 and rest[1].isdigit():
            k, i = 0, 1
            while k < len(names) - 1 and i < len(rest) and rest[i] == "1":
                k, i = k + 1, i + 1
            if k < len(names) - 1 and i < len(rest) and rest[i] == "0":
                i += 1
            return ["ensures", names[k], *rest[i:]]
        return rest

    def alias_map(self, text):
        """`.new` and `.ensures` behind a name that a `let` gives a call."""
        for m in list(re.finditer(rf"let ({NAME}) = c(?:\.before)*\.([\w₀-₉'-]+)(\.ensures)? in", text)):
            f = self.called.get(norm(m[2]))
            if not f:
                continue
            pre = ["ensures"] if m[3] else []
            def g(x):
                segs = x[1].split(".")[1:]
                return m[1] + "".join("." + s for s in self.after_call(f, pre + segs)[len(pre):])
            text = text[:m.end()] + re.sub(rf"(?<![\w.'-]){re.escape(m[1])}((?:\.[\w'-]+)+)", g, text[m.end():])
        return text

    def own_match(self, goal):
        """The arm nearest above a goal's place, by its record's own name: what an arm says of the variants behind `_`."""
        i = next((k for k, (o, n) in enumerate(self.info["needs"]) if n == goal), None)
        if i is None or i >= len(self.info["asked_at"]):
            return None
        at = {p[0]: p for p in self.info["places"]}
        place = self.info["asked_at"][i][0]
        while place in at:
            if norm(at[place][2][0]).startswith("match"):
                new = at[place][2][1]
                return f"{new}.{new}-own"
            place = at[place][1]
        return None

    def path_map(self, text):
        """c.before...STEP.x.y to c.NEW.x.y"""
        text = re.sub(r"(?<![\w.'-])(c|call|st)((?:\.before)+)(?![\w-])", r"\1", text)

        def f(m):
            head, segs = m[1], m[2].split(".")[1:]
            if not segs:
                return m[0]
            step = norm(segs[0])
            if re.fullmatch(r"match\d*", step) and len(segs) > 1 and re.match(r"keys|rest", segs[1]) and self.goal:
                own = self.own_match(self.goal)
                if own and own.startswith("in_default"):
                    return ".".join([head, own, *segs[1:]])
                if own:
                    return ".".join([head, own.split(".")[0], "is", *segs[2:]])
            if step == "pre":
                step = segs[0] = "requires"
            if step == "good":
                step = segs[0] = "well-formed"
            if step in ("args", "ranges"):
                return ".".join([head, step, *(s.replace("-", "_") for s in segs[1:])])
            if step in ("requires", "type-inv", "well-formed"):
                return ".".join([head, *segs]).replace("-", "_")
            rest = segs[1:]
            for k in range(len(rest), 0, -1):
                hit = self.arms.get((step, tuple(rest[:k])))
                if hit:
                    return ".".join([head, hit[0], hit[1], *rest[k:]])
            if step not in self.steps and step.endswith("-lem") and step[:-4] in self.steps:
                step = step[:-4]
            f = self.called.get(step)
            if f and rest:
                rest = self.after_call(f, rest)
            new = self.steps.get(step)
            if new is None:
                self.bad.append("step " + segs[0])
                return m[0]
            if rest and (step, rest[0]) in self.fields:
                rest[0] = self.fields[(step, rest[0])]
            return ".".join([head, new, *rest])

        return re.sub(r"(?<![\w.'-])(c)((?:\.[\w₀-₉'-]+)+)", f, text)


def alias_lets(body, aliases):
    """Drops `let a = c.before in` and puts c for a."""
    while True:
        m = re.search(rf"let ({NAME})(?: : [^=]*?)? = (c(?:\.before)*) in\s*", body)
        if not m:
            return body
        body = body[:m.start()] + body[m.end():]
        body = re.sub(rf"(?<![\w.'-]){re.escape(m[1])}(?![\w₀-₉'-])", "c", body)


def given_lets(body):
    """Drops `let x = c.step.given.0 in` and puts the path for x."""
    while True:
        m = re.search(rf"let ({NAME}) = (c(?:\.before)*\.[\w₀-₉'-]+\.given(?:\.\d+)*) in\s*", body)
        if not m:
            return body
        body = body[:m.start()] + body[m.end():]
        body = re.sub(rf"(?<![\w.'-]){re.escape(m[1])}(?![\w₀-₉'-])", m[2], body)


def no_auto(body):
    """What a slice's length is said by an unnamed fact: omega finds it."""
    body = re.sub(r"\n\s*c\.[\w.'-]+\.auto\.\d+,(?=\n)", "", body)
    body = re.sub(r", c\.[\w.'-]+\.auto\.\d+(?=[,)])(?=[^()]*\))", "", body) if "omega (arith" in body else body
    body = re.sub(r"\(arith, c\.[\w.'-]+\.auto\.\d+\)", "arith", body)
    body = re.sub(r"c\.[\w.'-]+\.auto\.\d+", "(omega arith)", body)
    return re.sub(r"omega \(arith\)", "omega arith", body)


def turn(old, info, fname, crate, out):
    text = open(old, encoding="utf8").read()
    blocks = decls(text)
    fn = Fn(info, old)
    head_comment, uses = [], []
    helpers = []  # (name, type, body)
    loose = []    # lemmas that do not speak of c
    answers, invs = [], []
    for b in blocks:
        if b[0].startswith("use ") or (b[0].startswith("--") and len(b) > 1 and any(l.startswith("use ") for l in b)):
            for l in b:
                if l.startswith("use "):
                    if ".Tie as tie" in l or "Statement.{statement}" in l:
                        continue
                    uses.append(l)
                elif l.startswith("--"):
                    head_comment.append(l)
                else:
                    uses[-1] += "\n" + l
            continue
        if all(l.startswith("--") for l in b):
            head_comment += b
            continue
        first = next(l for l in b if not l.startswith("--"))
        m = re.match(r"module _ \((\w+) : tie\.[^)]*\)(.*) where", first)
        if m:
            if m[2].strip():
                fn.bad.append("section " + first)
            par = m[1]
            inner = [l[2:] if l.startswith("  ") else l for l in b[b.index(first) + 1:]]
            for bb in decls("\n".join(inner)):
                p = parse(bb)
                if p and p["body"] is not None and p["params"]:
                    p["body"] = "λ " + " ".join(p["params"]) + ". " + p["body"]
                    p["params"] = []
                if not p or p["body"] is None:
                    fn.bad.append("helper " + bb[0])
                    loose.append("\n".join(bb))
                    continue
                r = lambda t: re.sub(rf"(?<![\w.'-]){par}(?![\w'-])", "c", t)
                helpers.append((p["name"], r(p["ty"]), r(p["body"]), p))
            continue
        p = parse(b)
        if p is None:
            loose.append("\n".join(b))
            if "tie." in "\n".join(b):
                fn.bad.append("block " + b[0][:60])
            continue
        if re.fullmatch(rf"{re.escape(fname)}[-_]spec|.*[-_]spec", p["name"]) and "statement" in p["ty"]:
            continue
        m = re.match(r"tie\.Need-([\w-]+)", p["ty"])
        if m:
            answers.append((m[1], p))
            continue
        if re.match(r"tie\.(invariant|decreases)-", p["ty"]):
            invs.append(p)
            continue
        if "tie." in p["ty"]:
            m = re.match(rf"\((\w+) : tie\.[\w-]+(?: invariant-\w+ decreases-\w+)*\) → (.*)$", p["ty"], re.S) or (re.match(r"(tie\.[\w-]+)", p["ty"]) and None)
            if m and p["body"] is not None and p["params"]:
                par = p["params"][0]
                r = lambda t, par=par: re.sub(rf"(?<![\w.'-]){par}(?![\w'-])", "c", t)
                if len(p["params"]) > 1:
                    p["body"] = "λ " + " ".join(p["params"][1:]) + ". " + p["body"]
                if len(p["params"]) >= 1:
                    helpers.append((p["name"], re.sub(rf"(?<![\w.'-]){m[1]}(?![\w'-])", "c", m[2]), r(p["body"]), p))
                    continue
            fn.bad.append("over tie: " + p["name"])
            loose.append("\n".join(b))
            continue
        loose.append("\n".join(b))
    # bodies
    hs = []
    for name, ty, body, p in helpers:
        body = fn.alias_map(given_lets(alias_lets(body.strip(), None)))
        hs.append((name, re.sub(r"(?<![\w.'-])c((?:\.before)+)(?![\w-])", "c", ty), re.sub(r"(?<![\w.'-])c((?:\.before)+)(?![\w-])", "c", body), p))
    pure = set()

    def helped(body):
        body = re.sub(r"(?<![\w.'-])c((?:\.before)+)(?![\w-])", "c", body)
        while True:
            was = body
            for n in pure:
                body = re.sub(rf"\({re.escape(n)} c\)", "c", body)
                body = re.sub(rf"(?<![\w.'-]){re.escape(n)} c(?![\w'-])", "c", body)
                body = re.sub(rf"(?<![\w.'-]){re.escape(n)}(?=\.)", "c", body)
                body = re.sub(rf"(?<![\w.'-]){re.escape(n)}(?![\w'-])", "c", body)
            body = re.sub(r"\(c\)", "c", body)
            body = re.sub(r"(?<![\w.'-])c((?:\.before)+)(?![\w-])", "c", body)
            body = re.sub(r"(?<![\w.'-])c c(?![\w'.-])", "c", body)
            if was == body:
                break
        for n, t, b, p in hs:
            body = re.sub(rf"\({re.escape(n)} c\)", n, body)
            body = re.sub(rf"(?<![\w.'-]){re.escape(n)} c(?![\w.'-])", n, body)
        return body

    while True:
        more = {n for n, t, b, p in hs if n not in pure and helped(b) == "c"}
        if not more:
            break
        pure |= more

    hs2 = [(n, fn.path_map(helped(t)), fn.path_map(helped(b)), p) for n, t, b, p in hs if n not in pure]

    def with_helpers(body):
        while True:
            was = body
            body = given_lets(alias_lets(helped(body), None))
            if body == was:
                break
        body = fn.path_map(fn.alias_map(body))
        need, todo = set(), [body]
        while todo:
            x = todo.pop()
            for n, t, b, p in hs2:
                if n not in need and re.search(rf"(?<![\w.'-]){re.escape(n)}(?![\w'-])", x):
                    need.add(n)
                    todo += [t, b]
        lets = []
        for n, t, b, p in hs2:
            if n in need:
                lets.append(f"let {n} : {' '.join(t.split())} = {b} in")
        return lets, body

    inv_text, ans_text = [], []
    for p in invs:
        kind, loop = re.match(r"tie\.(invariant|decreases)-([\w-]+)", p["ty"]).groups()
        hit = None
        for o, v in fn.loops.items():
            if norm(o) == norm(loop):
                hit = v
        if hit is None or p["body"] is None:
            fn.bad.append("loop " + loop)
            continue
        new, vs, ch = hit
        want = list(vs) + [v for v, x in zip(vs, ch) if x]
        if len(p["params"]) != len(want):
            fn.bad.append(f"loop params {p['params']} for {want}")
            continue
        mp = {}
        for a, v, k in zip(p["params"], want, range(len(want))):
            if a == "_":
                continue
            i = k < len(vs) and ch[k]
            mp[a] = f"l.initial.{v}" if i else f"l.{v}"
        body = sub_tokens(p["body"], mp)
        c = "\n".join(p["comment"]) + "\n" if p["comment"] else ""
        inv_text.append(f"{c}abbrev pub {kind}-{new} : goal.{kind}-{new}\n" + "".join(u + "\n" for u in p["unf"]) + f"{kind}-{new} l = {body}" if not body.startswith("\n") else f"{c}abbrev pub {kind}-{new} : goal.{kind}-{new}\n{kind}-{new} l ={body}")
    dropped = []
    for goal, p in answers:
        g = norm(goal)
        cands = [g]
        for pre in ("overflow-",):
            if g.startswith(pre):
                cands.append(g[len(pre):])
        new = next((fn.needs[x] for x in cands if x in fn.needs), None)
        if new is None:
            dropped.append(goal)
            continue
        if p["body"] is None:
            fn.bad.append("answer of several equations: " + p["name"])
            ans_text.append("\n".join(p["eqs"]))
            continue
        body = p["body"].strip()
        if body in TRIVIAL and not p["unf"]:
            continue
        more = [x for x in p["params"][1:] if not x.startswith("κs")] if not ("requires" in new and len(p["params"]) == 2 and p["params"][1] in ("κs", "_")) else []
        par = p["params"][0] if p["params"] else "c"
        if par != "c":
            body = re.sub(rf"(?<![\w.'-]){par}(?![\w'-])", "c", body)
        fn.goal = new
        body = alias_lets(body, None)
        body = given_lets(body)
        body = fn.alias_map(body)
        lets, body = with_helpers(body)
        body = body.replace(".type-inv", ".type_inv")
        body2 = re.sub(r"(c\.[\w-]+\.[\w-]+-own\.keys\d+)", r"(opened \1)", body)
        if body2 != body:
            body = body2
            if not any("{opened}" in u for u in uses):
                uses.append("use borrow.Enum.Refused.{opened}")
        body = no_auto(body)
        lets = [no_auto(x) for x in lets]
        own = CLAUSES.get((crate, fname.split(".")[-1]))
        if own and len(own) > 1 and new.startswith("returns"):
            body = by_clause(body, own)
        c = "\n".join(p["comment"]) + "\n" if p["comment"] else ""
        sep = "\n    " if lets or "\n" in body else " "
        b2 = ("\n    ".join(lets) + "\n    " if lets else "") + body
        ans_text.append(f"{c}pub {new} : goal.{new}\n" + "".join(u + "\n" for u in p["unf"]) + f"{new} {' '.join(['c', *more])} ={sep}{b2}")
    idents = set()
    for d, _s, fs in os.walk(os.path.join(out, "src")):
        for f in fs:
            idents |= set(re.findall(r"\b(\w+_\w+):", open(os.path.join(d, f), encoding="utf8").read()))
    fields = lambda x: re.sub(r"(?<=[\w)])\.([a-z]\w*(?:-\w+)+)(?![\w-])", lambda m: "." + norm_(m[1]) if norm_(m[1]) in idents else m[0], x)
    ans_text = [fields(x) for x in ans_text]
    folder = os.path.join(out, "proofs", *fname.split("."))
    os.makedirs(folder, exist_ok=True)
    hc = "\n".join(head_comment)
    gp = f"Rattle.{crate}.proofs.{fname}"
    # lemmas that the invariants name go with them
    named = {}
    for l in loose:
        for m in re.finditer(rf"(?m)^ *((?:(?:abbrev|unfoldable|pub|data|record) )*)({NAME})(?: \{{[^\n]*\}})* :", l):
            named.setdefault(m[2], l)
    word = lambda n, x: re.search(rf"(?<![\w.'-]){re.escape(n)}(?![\w'-])", x)
    shared, todo = [], list(inv_text)
    while todo:
        x = todo.pop()
        for n, l in named.items():
            if l not in shared and word(n, x):
                shared.append(l)
                todo.append(l)
    shared = [l for l in loose if l in shared]
    loose = [l for l in loose if l not in shared]
    exported = [n for n, l in named.items() if l in shared]
    def public(l):
        return re.sub(r"(?m)^(abbrev |unfoldable )?(?!pub )(" + "|".join(map(re.escape, exported)) + r") :", lambda m: (m[1] or "") + "pub " + m[2] + " :", l)
    if inv_text:
        with open(os.path.join(folder, "Invariants.antt"), "w", encoding="utf8") as f:
            f.write((hc + "\n" if hc else "") + "\n".join(uses) + f"\nuse {gp}.Given as goal\n\n" + "\n\n".join([public(l) for l in shared] + inv_text) + "\n")
    if ans_text:
        lo = list(loose)
        from_inv = [n for n in exported if any(word(n, x) for x in lo + ans_text)]
        extra = f"\nuse {gp}.Invariants.{{{', '.join(from_inv)}}}" if from_inv else ""
        with open(os.path.join(folder, "Answers.antt"), "w", encoding="utf8") as f:
            f.write((hc + "\n" if hc and not inv_text else "") + "\n".join(uses) + extra + f"\nuse {gp}.Goals as goal\n\n" + "\n\n".join(lo + ans_text) + "\n")
    elif loose:
        fn.bad.append("loose lemmas and no answers: " + "; ".join(x.split("\n")[0] for x in loose))
    rest = [d for d in dropped if not norm(d).startswith(("same-length", "enum-", "struct-", "slice-", "shared-slice", "mul-", "overflow-mul"))]
    if fn.bad or rest:
        print(f"{crate}.{fname}: {sorted(set(fn.bad))} dropped {rest}")


def main(a):
    old, names, new = a[:3]
    only = set(a[3:])
    j = json.load(open(names))
    read_clauses(os.path.dirname(os.path.normpath(new)))
    crate = os.path.basename(os.path.normpath(new))
    n = 0
    for d, _s, fs in sorted(os.walk(os.path.join(old, "proofs"))):
        if "Proof.antt" not in fs:
            continue
        fname = os.path.relpath(d, os.path.join(old, "proofs")).replace("/", ".")
        if only and fname not in only:
            continue
        p = os.path.join(d, "Proof.antt")
        if "tie.close" not in open(p, encoding="utf8").read():
            print(f"{crate}.{fname}: by hand")
            continue
        info = j.get(f"Rattle-{crate}-proofs.{fname}.Lts")
        if info is None:
            print(f"{crate}.{fname}: no names")
            continue
        turn(p, info, fname, crate, new)
        n += 1
    print(f"{n} turned")


main(sys.argv[1:])
