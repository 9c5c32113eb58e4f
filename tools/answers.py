#!/usr/bin/env python3
"""Turns the walks of a crate, proofs/F/Proof.antt, into Invariants.antt and Answers.antt, as a draft that `rt check` decides.

usage: tools/answers.py CRATE NAMES OLD    NAMES: what `rt check --generated FOLDER --old-names` wrote (names.json), with the
                                           walks still in place; OLD: a folder to which the walks are moved
"""

import json
import os
import re
import sys

WORD = r"[^\s(){}\[\],;.\"|`]+"


def identifiers():
    """The names with an underscore in the sources: a walk of the older form spells them with hyphens."""
    names = set()
    for folder, _, files in os.walk("crates"):
        for f in files:
            if f.endswith(".rt"):
                names |= set(re.findall(r"[a-z]\w*_\w*", open(os.path.join(folder, f), encoding="utf-8").read()))
    return names


RUST = identifiers()


def canon(s):
    s = s.replace("_", "-").lower()
    return re.sub(r"-(?=\d+$)", "", s)


def declarations(text):
    """Header lines, then declarations, each from its signature to the next one's."""
    head, parts, cur = [], [], None
    pending = []
    for line in text.split("\n"):
        starts = re.match(r"^(abbrev |pub |unfoldable )*(" + WORD + r") *(\(|\{|:)", line) and not line.startswith(" ")
        sig = re.match(r"^(?:abbrev |pub |unfoldable )*(" + WORD + r")( [^=]*)? : ", line) or re.match(r"^(?:abbrev |pub |unfoldable )*(" + WORD + r") :$", line)
        if sig and not line.startswith("use ") and not line.startswith("--"):
            cur = [*pending, line]
            pending = []
            parts.append((sig.group(1), cur))
        elif line.startswith("--"):
            pending.append(line)
        elif cur is None:
            head += pending + [line]
            pending = []
        else:
            cur += pending + [line]
            pending = []
    return head, parts


def signature(lines):
    """The type of a declaration, and what stands behind it."""
    k = next(i for i, l in enumerate(lines) if not l.startswith("--"))
    name = re.match(r"^(?:abbrev |pub |unfoldable )*(" + WORD + ")", lines[k]).group(1)
    typ = lines[k].split(" : ", 1)[1] if " : " in lines[k] else ""
    j = k + 1
    while j < len(lines) and lines[j].startswith("    ") and not lines[j].lstrip().startswith("unfolding"):
        typ += " " + lines[j].strip()
        j += 1
    return name, typ, lines[:k], lines[j:]


def balanced(s):
    """Top-level words of an application, with parentheses kept together."""
    out, deep, cur = [], 0, ""
    for ch in s:
        if ch in "([{":
            deep += 1
        if ch in ")]}":
            deep -= 1
        if ch.isspace() and deep == 0:
            if cur:
                out.append(cur)
            cur = ""
        else:
            cur += ch
    if cur:
        out.append(cur)
    return out


def parts_of(spec):
    """What the walk gives for each goal, in the order of the goals."""
    if not spec:
        return []
    flat = " ".join(l.strip() for l in spec[next(i for i, l in enumerate(spec) if " =" in l):])
    m = re.search(r"\(tie\.spec\b(.*)\)\s*$", flat)
    return [a for a in balanced(m.group(1)) if not re.match(r"(invariant|decreases)", a)] if m else []


class Function:
    def __init__(self, names, path):
        self.needs = {}
        self.order = [n for o, n in names["needs"]]
        for o, n in names["needs"]:
            for k in (o, n):
                self.needs.setdefault(canon(k), n)
        self.labels, self.typed = {}, {}
        for p in names["places"]:
            o, n = p[2]
            if o and not (n == o + "-1" and p[3] is None and "known" not in o):
                self.labels[canon(o)] = n
                self.labels.setdefault(canon(n), n)
        for (o, n), vs in names["loops"]:
            self.labels[canon(o)] = n
            self.labels.setdefault(canon(n), n)
        for place, known in zip(names["places"], names["typed"]):
            for var, label in known:
                self.typed[canon(label)] = var
        self.at = {}
        self.loops = {canon(o): (n, vs, ch) for ((o, n), vs), ch in zip(names["loops"], names["changed"])}
        # what an arm of a match is told: the old label and its path, the arm and its field
        self.arms = {}
        for it in names["arms"]:
            for field, old, path in it[2] if it else []:
                self.arms.setdefault(canon(old), []).append((path, it[0], field))
        self.variables = {v for _, vs, _ in self.loops.values() for v in vs}
        self.notes = []

    def place(self, spec):
        """Where the walk has as many parts as there are goals, a part is the answer of the goal at its place."""
        args = parts_of(spec)
        if len(args) == len(self.order):
            self.at = {a: n for a, n in zip(args, self.order) if not a.startswith("(")}

    def need(self, typ, name):
        m = re.match(r"tie\.Need-(" + WORD + ")", typ)
        return self.at.get(name) or self.needs.get(canon(m.group(1))), m.group(1)

    def step(self, m):
        kept, old = m.group(1) or "", m.group(2)
        spelt = old.replace("-", "_")
        if spelt.endswith("_law"):
            old = spelt = spelt[:-4]
        if kept or old in self.variables:
            return f"{kept}.{spelt if spelt in RUST else old}"
        return "." + self.labels.get(canon(old), spelt if spelt in RUST else old)

    def term(self, text):
        # what a reference points to is legal
        def given(m):
            return ".type_inv." + self.typed[canon(m.group(1))] if canon(m.group(1)) in self.typed else m.group(0)

        text = re.sub(r"\.before(?![\w'-])", "", text).replace(".type-inv", ".type_inv")
        text = re.sub(r"not-(?:true|false) _ (?=\(*c\.[\w.'-]*if)", "", text)
        text = re.sub(r"\.((?:shared[-_])?slice[-_]known[-\w]*)\.given", given, text)
        text = re.sub(r"\.([A-Za-z_][\w'-]*)((?:\.[\w'-]+)*)", self.arm, text)
        text = re.sub(r"(\.(?:args|ranges|new|initial|fn|type_inv))?\.([A-Za-z_][\w'-]*)", self.step, text)
        return re.sub(r"λ c κs\.", "λ c.", text)

    def arm(self, m):
        label, path = m.group(1), [p for p in m.group(2).split(".") if p]
        best = None
        for want, arm, field in self.arms.get(canon(label), []):
            if want and path[: len(want)] == want and not field.endswith("-own") and (best is None or len(want) > best[0]):
                best = (len(want), arm, field)
        if best:
            return ".".join(["", best[1], best[2], *path[best[0]:]])
        return m.group(0)

    def short(self, text):
        """Other names of c itself are written as c."""
        while m := re.search(r"^[ ]*let (\w+) = c in[ ]*\n?", text, re.M):
            text = text[:m.start()] + re.sub(r"(?<![\w.'-])" + m.group(1) + r"(?=[.\s,)])(?! [=:])", "c", text[m.end():])
        return text

    def body(self, name, new, lines):
        out = []
        for l in lines:
            m = re.match(r"^" + re.escape(name) + r"((?: [^=]*)?) =(.*)$", l)
            if m:
                args = m.group(1).replace(" κs", "")
                l = f"{new}{args} ={m.group(2)}"
            out.append(l)
        return [self.short(self.term("\n".join(out)))]

    def invariant(self, kind, name, typ, lines):
        m = re.match(r"tie\.(?:invariant|decreases)-(" + WORD + ")", typ)
        loop = self.loops.get(canon(m.group(1)))
        if not loop:
            self.notes.append(f"no loop for {typ}")
            return None
        new, vs, ch = loop
        text = "\n".join(lines)
        m = re.match(r"(?s)(.*?)^" + re.escape(name) + r" ([^=]*?) =(.*)$", text, re.M)
        if not m:
            self.notes.append(f"{name} is not read")
            return None
        before, params, rest = m.group(1), m.group(2).split(), m.group(3)
        want = len(vs) + sum(ch)
        table = {}
        if len(params) == want:
            for p, v, c in zip(params, vs, ch):
                table[p] = ("l.initial." if c else "l.") + v
            for p, v in zip(params[len(vs):], [v for v, c in zip(vs, ch) if c]):
                table[p] = "l." + v
        else:
            self.notes.append(f"{name}: {len(params)} parameters, {want} expected: {vs} {ch}")
        table.pop("_", None)
        rest = re.sub(WORD, lambda m: table.get(m.group(0), m.group(0)) if rest[m.start() - 1] != "." else m.group(0), rest)
        made = f"{kind}-{new}"
        return f"abbrev pub {made} : goal.{made}\n{before}{made} l ={rest}"


def inlined(text, helper, body):
    word = r"(?<![\w.'-])" + re.escape(helper) + r" [a-z]+(?:\.[\w.'-]*)?(?![\w'-])"
    put = " ".join(l.strip() for l in body.split("\n"))
    text = re.sub(r"\(" + word + r"\)", lambda m: "(" + put + ")", text)
    return re.sub(word, lambda m: "(" + put + ")", text)


def imports(head, drop):
    keep = []
    for l in head:
        if l.startswith("use ") and (any(d in l for d in drop)):
            continue
        keep.append(l)
    return keep


def convert(crate, key, names, path, old):
    text = open(path, encoding="utf-8").read()
    fn = Function(names, path)
    stem = key.split(f"Rattle-{crate}-proofs.", 1)[1].rsplit(".Lts", 1)[0]
    head, parts = declarations(text)
    comment = [l for l in head if l.startswith("--")]
    uses = [l for l in imports(head, (".Tie as tie", ".Statement.{statement}")) if l.startswith("use ")]
    inv, ans = [], []
    spec = next((ls for n, ls in parts if n.endswith("-spec") or n.endswith("_spec")), None)
    done, helpers = set(), []
    fn.place(spec)
    for name, lines in parts:
        if name.endswith("-spec") or name.endswith("_spec"):
            continue
        name, typ, notes, rest = signature(lines)
        while rest and not rest[-1].strip():
            rest.pop()
        if typ.startswith("tie.invariant-") or typ.startswith("tie.decreases-"):
            it = fn.invariant(re.match(r"tie\.(invariant|decreases)", typ).group(1), name, typ, rest)
            inv.append("\n".join(notes + [it]) if it else "\n".join("-- TODO " + l for l in lines))
        elif typ.startswith("tie.Need-"):
            new, said = fn.need(typ, name)
            if not new:
                new = "TODO-" + said
            done.add(new)
            ans.append("\n".join(notes + [f"pub {new} : goal.{new}"] + fn.body(name, new, rest)))
        elif re.match(r"\((\w+) : tie\.[^)]*\)", typ):
            # a helper over a state of the walk: its term goes where it is used
            body = "\n".join(rest)
            m = re.match(r"(?s)" + re.escape(name) + r" (\w+)((?: \w+)*) =(.*)$", body)
            term = fn.short(fn.term(m.group(3).replace(m.group(1) + ".", "c."))) if m else "TODO"
            helpers.append((name, f"λ{m.group(2)}. {term}" if m and m.group(2) else term))
        else:
            ans.append(fn.term("\n".join(l for l in lines)).rstrip())
    # what stands inline in the walk
    args = parts_of(spec)
    if len(args) == len(fn.order):
        for a, n in zip(args, fn.order):
            b = re.match(r"\(λ ([^.]*)\. (.*)\)$", a)
            if n not in done and b and b.group(2) != "search rules":
                ans.append(f"pub {n} : goal.{n}\n{n} c = {fn.term(b.group(2))}")
    elif args:
        fn.notes.append(f"{len(args)} parts of the walk, {len(fn.order)} goals: " + " | ".join(a for a in args if "search rules" not in a))
    for helper, body in reversed(helpers):
        ans = [inlined(a, helper, body) for a in ans]
        helpers = [(n, inlined(b, helper, body)) for n, b in helpers]
    folder = os.path.dirname(path)
    module = f"Rattle.{crate}.proofs.{stem}"
    if inv:
        with open(os.path.join(folder, "Invariants.antt"), "w", encoding="utf-8") as f:
            f.write("\n".join(comment + uses + [f"use {module}.Given as goal", ""]) + "\n" + "\n\n".join(inv) + "\n")
    if ans:
        with open(os.path.join(folder, "Answers.antt"), "w", encoding="utf-8") as f:
            f.write("\n".join(comment + uses + [f"use {module}.Goals as goal", ""]) + "\n" + "\n\n".join(ans) + "\n")
    to = os.path.join(old, crate, os.path.relpath(path, os.path.join("crates", crate)))
    os.makedirs(os.path.dirname(to), exist_ok=True)
    os.rename(path, to)
    for n in fn.notes:
        print(f"{stem}: {n}")


def main(crate, names, old):
    table = json.load(open(names))
    seen = set()
    for key, it in table.items():
        if not key.startswith(f"Rattle-{crate}-proofs.") or not key.endswith(".Lts"):
            continue
        stem = key.split(f"Rattle-{crate}-proofs.", 1)[1].rsplit(".Lts", 1)[0]
        path = os.path.join("crates", crate, "proofs", *stem.split("."), "Proof.antt")
        if os.path.exists(path):
            convert(crate, key, it, path, old)
            seen.add(path)
    for folder, _, files in os.walk(os.path.join("crates", crate, "proofs")):
        if "Proof.antt" in files:
            print("left: " + os.path.join(folder, "Proof.antt"))


if __name__ == "__main__":
    main(*sys.argv[1:])
