#!/usr/bin/env python3
"""Brings the names of this repository's definitions and lemmas to snake case.

usage: tools/names.py [--look]     at the top; --look only says which names would fall together

A name is ours where a file of specs/ or proofs/ declares it. Names that a file imports from elsewhere keep their spelling in
that file, as do the names that a function's own proof file answers (proofs/**/Proof.antt, Answers.antt, Invariants.antt).
Functions, exported names, strings, inputs and outputs are not touched: what is renamed has a hyphen or a capital inside.
"""

import collections
import os
import re
import sys

CRATES = "crates"
BREAK = r"[^\s(){}\[\],;.\"|`:]+"
TOKEN = re.compile(BREAK)
ANSWERS = re.compile(r"/[a-z_+][^/]*/(Proof|Answers|Invariants)\.antt$")
# Laws in snake case already that stand beside a definition which would be called the same
LAWS = ("block_refused", "chained_refused", "header_refused", "written_back", "nan_pattern", "ends_by")


def snake(name):
    name = re.sub(r"(?<=[a-z0-9])([A-Z])", r"_\1", name)
    name = re.sub(r"([A-Z]+)([A-Z][a-z])", r"\1_\2", name)
    return name.lower().replace("-", "_")


def ours(name):
    """Whether a name is one that this script writes anew."""
    parts = [p for p in name.split("◌") if p]
    return any(re.search(r"[a-z0-9₀-₉']-|[a-z0-9][A-Z]", p) and p[0].islower() for p in parts)


def renamed(name):
    return "◌".join(snake(p) if p and p[0].islower() else p for p in name.split("◌"))


def table_of(every):
    """Old names to new ones. A law in hyphens that would be called as another name of ours gets `_law` behind it."""
    named = collections.defaultdict(set)
    for n in every:
        named[renamed(n)].add(n)
    table = {n: renamed(n) for n in every if ours(n)}
    for n in table:
        if "-" in n and named[table[n]] != {n}:
            table[n] += "_law"
    table.update({n: n + "_law" for n in LAWS if n in every})
    return table


def files():
    for folder, dirs, names in os.walk(CRATES):
        dirs[:] = sorted(d for d in dirs if d != "out")
        for n in sorted(names):
            if n.endswith((".rt", ".antt", ".edit")):
                yield os.path.join(folder, n)


def code(text):
    """The text without its comments, for the names that it declares."""
    return re.sub(r"--[^\n]*", "", text)


DECLARED = re.compile(r"^\s*(?:pub |abbrev |unfoldable )*([^\s(){}\[\],;.\"|`:]+(?: [^\s(){}\[\],;.\"|`:]+)*?)\s*(?:[({][^=\n]*)?:(?: |$)", re.M)

ALIAS = re.compile(r" as ([^\s(){}\[\],;.\"|`:]+)\s*(?=[,}\n])")


def declared(path, text):
    if not path.endswith(".antt") or ANSWERS.search(path):
        return set()
    names = set()
    for m in DECLARED.finditer(code(text)):
        line = m.group(1)
        if line.startswith("let ") or "=" in line or "→" in line or "λ" in line:
            continue
        names |= set(line.split(" "))
    names |= set(ALIAS.findall(text))
    return names


IMPORT = re.compile(r"^(?:pub )?(?:ghost )?use ([\w.'-]+)\.\{([^}]*)\}", re.M)


def foreign(text, crates):
    names = set()
    for m in IMPORT.finditer(text):
        where = m.group(1).split(".")
        if where[0] == "Rattle" and len(where) > 1 and where[1] in crates:
            continue
        names |= {n.strip().split(" as ")[0] for n in m.group(2).split(",")}
    return names


def operators(table):
    """What stands between the places of an operator is a word of its own where it is used."""
    words = {}
    for old, new in table.items():
        if "◌" in old:
            for a, b in zip(old.split("◌"), new.split("◌")):
                if a and a != b:
                    words[a] = b
    return words


def main(look):
    crates = {l.split(":")[0].split()[0] for l in open("crates.txt") if l.strip() and not l.startswith("#")}
    texts = {p: open(p, encoding="utf-8").read() for p in files()}
    names = set()
    for p, t in texts.items():
        names |= declared(p, t)
    table = table_of(names)
    table.update(operators(table))
    clashes = collections.Counter()
    changed = 0
    for p, t in texts.items():
        kept = foreign(t, crates)
        came = collections.defaultdict(set)

        def put(m):
            old = m.group(0)
            new = table.get(old, old) if old not in kept else old
            came[new].add(old)
            return new

        out = TOKEN.sub(put, t) if not p.endswith(".rt") else rt(t, put)
        for new, olds in came.items():
            if len(olds) > 1:
                clashes[(new, tuple(sorted(olds)))] += 1
                if look:
                    print(f"{p}: {new}: {' '.join(sorted(olds))}")
        if out != t:
            changed += 1
            if not look:
                open(p, "w", encoding="utf-8").write(out)
    if look:
        print(f"{len(table)} names, {changed} files, {len(clashes)} fall together")


def rt(text, put):
    """Of a source file the strings are left alone."""
    return "".join(s if k % 2 else TOKEN.sub(put, s) for k, s in enumerate(re.split(r'(b?"(?:[^"\\\n]|\\.)*")', text)))


if __name__ == "__main__":
    main(sys.argv[1:] == ["--look"])
