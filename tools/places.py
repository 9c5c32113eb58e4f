#!/usr/bin/env python3
"""tools/places.py [COMMIT] [-v]: counts the places of docs/DESIGN-PASS.md in crates/*/src, of a commit or of the checkout.

By the text alone, so what it lists is a place to look at; the page says which of them are changed and which stay. -v lists them.
"""
import collections
import re
import subprocess
import sys

verbose = "-v" in sys.argv
commit = next((a for a in sys.argv[1:] if a != "-v"), None)


def git(*words):
    return subprocess.run(["git", *words], capture_output=True, text=True, check=True).stdout


def sources(pattern):
    """Path and text of each file that the pattern fits."""
    if commit:
        names = git("ls-tree", "-r", "--name-only", commit).split("\n")
    else:
        names = git("ls-files").split("\n")
    for name in sorted(n for n in names if re.fullmatch(pattern, n)):
        yield name, git("show", f"{commit}:{name}") if commit else open(name).read()


def functions(text):
    """Name, head, clauses and body of each function that has a body."""
    for m in re.finditer(r"^( *)(?:#\[[^\n]*\n *)*(?:pub(?:\(crate\))? )?(?:extern \"C\" )?fn (\w+)([^;{]*?)\n?((?:\1    (?:requires|ensures)[^\n]*\n)*)(?:\1| )\{\n(.*?)^\1\}", text, re.M | re.S):
        yield m[2], m[3], m[4], m[5]


def bare(text):
    return re.sub(r"//[^\n]*", "", text)


found = collections.OrderedDict()


def place(point, what):
    found.setdefault(point, []).append(what)


SOURCES = [(name, bare(text)) for name, text in sources(r"crates/\w+/src/.*\.rt")]

for name, text in SOURCES:
    for m in re.finditer(r"\benum (\w+)[^{]*\{(.*?)\n\}", text, re.S):
        cases = re.findall(r"^    (\w+)(.?)", m[2], re.M)
        if re.search(r"^    Refused\(Refusal\)", m[2], re.M):
            place("1a own enums with a case Refused(Refusal)", f"{name} {m[1]}")
        elif len(cases) == 2 and sorted(bool(c[1] in "({ " and c[1]) for c in cases) == [False, True]:
            place("1b own enums of one case with a value and one with none", f"{name} {m[1]}")
    for m in re.finditer(r"^ +(?:pub )?(\w+): bool,", text, re.M):
        if re.fullmatch(r"any|found|unfinished|has_\w+|is_more|valid|some", m[1]):
            place("1c flags with a value beside", f"{name} {m[1]}")
    numbers = re.findall(r"const ([A-Z_]+): usize = (\d+);", text)
    if len(numbers) >= 3 and [int(n) for _, n in numbers[:3]] == [0, 1, 2]:
        for n, _ in numbers:
            place("1d numbers for kinds", f"{name} {n}")
    for line, part in enumerate(text.split("\n"), 1):
        if re.search(r"\bWRONG\b", part) and "use " not in part:
            place("1e a number that stands for none", f"{name}:{line}")

shapes = collections.defaultdict(list)
for name, text in SOURCES:
    crate = name.split("/")[1]
    for fn, head, clauses, body in functions(text):
        plain = re.sub(r"\s+", " ", body).strip()
        if len(plain) < 40:
            continue
        shape = re.sub(r"\b(?!if\b|else\b|while\b|for\b|let\b|mut\b|return\b|match\b|in\b|as\b|loop\b)[A-Za-z_]\w*|\b\d\w*", "x", plain)
        shapes[crate, shape].append(f"{name} {fn}")
for (crate, shape), where in shapes.items():
    if len(where) > 1:
        place("2a functions of one crate whose bodies differ in names and numbers alone", ", ".join(w.split("/", 1)[1] for w in where))
ENDS = r"(?:le|be|u8|u16|u32|u64|u16_le|u32_le|u64_le|u64_be|latin1|utf8|utf16|utf16_le|utf16_be|32|64|unsigned|signed|float|single|double|equal|variable)"
stems = collections.defaultdict(list)
for name, text in SOURCES:
    crate = name.split("/")[1]
    for fn, *_ in functions(text):
        m = re.fullmatch(r"(?:(unsigned|signed|float|single|double|integer)_(\w+)|(\w+?)_" + ENDS + ")", fn)
        if m:
            stems[crate, m[2] or m[3]].append(fn)
for (crate, stem), names in stems.items():
    if len(names) > 1:
        place("2b functions of one crate whose names differ in a type, a width or an order alone", f"{crate}: {', '.join(names)}")

for name, text in SOURCES:
    for line, part in enumerate(text.split("\n"), 1):
        if re.match(r" *(?:'\w+: )?(while\b.*|loop) \{$", part):
            place("3 loops by `while` and `loop`", f"{name}:{line} {part.strip()}")

for name, text in SOURCES:
    for fn, head, clauses, body in functions(text):
        if re.fullmatch(r"no_\w+|empty_\w+", fn):
            place("4a a value of zeros written out", f"{name} {fn}")
        if re.fullmatch(r"\w+_(reply|refused|told|of|given|words)|from_u8|to_u8|refused_reply|flag", fn) and re.search(r"->", head):
            place("4b functions that turn one type into another", f"{name} {fn}")
        if fn.startswith("print_"):
            place("4c printing by hand", f"{name} {fn}")


def conjuncts(clause):
    for part in clause.split(" × "):
        part = part.strip()
        while part.startswith("(") and part.endswith(")"):
            deep = 0
            for i, letter in enumerate(part):
                deep += (letter == "(") - (letter == ")")
                if deep == 0:
                    break
            if i < len(part) - 1:
                break
            part = part[1:-1].strip()
        yield part


facts = collections.defaultdict(set)
travel = collections.defaultdict(set)
for name, text in SOURCES:
    crate = name.split("/")[1]
    for fn, head, clauses, body in functions(text):
        for m in re.finditer(r"requires(?: \w+)? \{ (.*) \}$", clauses, re.M):
            for fact in conjuncts(m[1]):
                facts[fact].add(f"{crate}::{fn}")
        params = re.findall(r"(\w+): ([^,()]+?)(?=,\s|\)|,\n)", re.sub(r"\s+", " ", head.split("->")[0]))
        params = sorted({f"{n}: {t}" for n, t in params if n != "out"})
        for i in range(len(params)):
            for j in range(i):
                travel[crate, params[j], params[i]].add(fn)
for fact, where in sorted(facts.items(), key=lambda x: -len(x[1])):
    if len(where) >= 3:
        place("5a facts that three or more functions ask", f"{len(where)} {fact}: {', '.join(sorted(where))}")
for (crate, a, b), where in sorted(travel.items(), key=lambda x: -len(x[1])):
    if len(where) >= 4 and crate not in ("mf4", "mf4_c"):
        place("5b pairs of parameters that travel together through four or more functions of a crate", f"{crate}: {a}, {b}: {len(where)}")

for name, text in SOURCES:
    for line, part in enumerate(text.split("\n"), 1):
        if re.search(r"let mut \w+ = \[.*; \d+\]", part):
            place("6 fixed arrays filled in part, with a count beside", f"{name}:{line} {part.strip()}")
    for fn, head, clauses, body in functions(text):
        if re.search(r"match kind \{|kind == [A-Z_]+|match step", body) or fn in ("search_on", "begin_search"):
            place("7 a switch on which step to run", f"{name} {fn}")

answers = list(sources(r"crates/\w+/proofs/.*/Answers\.antt"))
for name, text in answers:
    for m in re.finditer(r"^pub ([\w-]+) : goal\.", text, re.M):
        place("8 answers", f"{name} {m[1]}")

for point, places in found.items():
    print(f"{point}: {len(places)}")
    if verbose:
        for p in places:
            print(f"    {p}")
print(f"8 lines of answers: {sum(t.count(chr(10)) for _, t in answers)}, in {len(answers)} files")
