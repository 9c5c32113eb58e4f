"""Compares mf4.h with the source of the library for C, both with the theorems that pin the order of fields and arguments, that
source with the library that it hands on to, and mf4.h with its own scheme of names.

    compare.py BUILD_DIR [COMPILER]    from the repository's root

The version, replies, structs and calls of the source, in the words of C, must be those of the header, one by one: replies
by name and number; fields and arguments by name, type and order; sizes and offsets as a C compiler lays them out. A table,
which the source has as an array, must have each of its words where the struct of C has it. Each struct NAME of the source
must have its theorem NAME_fields and each call NAME its theorem NAME_arguments, with the fields and arguments in that
order. A call of the library for C must have the parameters and the clauses, word for word, of the function of that name in
the library that it hands on to, and its theorem NAME_hands_on, that the two clauses are one. The code in the header's comments must stand in the C tests, which run it. Exit status: 0 if
all agree, 1 if not.
"""

import sys
from pathlib import Path

import scheme
import theorems
from header import Header
from source import Source, Unreadable, replies, version
from words import Words

VERSION = "crates/mf4/src/version.rt"
TESTS = "tests/c"
REFUSALS = "crates/refusals/src/lib.rt"
TABLE = "crates/table/src/layout.rt"
STRUCTS = ["crates/block_replies/src", "crates/replies/src"]
CALLS, HANDED_ON_TO = "crates/mf4_c", "crates/mf4"
FIELDS = ["crates/block_replies/proofs/Structs.antt", "crates/replies/proofs/Structs.antt"]
INCLUDE, HEADER = "include", "include/mf4.h"


def one_by_one(what, in_source, where, there):
    """The differences of the source's dictionary and another's, in words."""
    for name in sorted(in_source.keys() | there.keys()):
        if name not in there:
            yield f"{what} {name} follows from the source and is not in {where}"
        elif name not in in_source:
            yield f"{what} {name} is in {where} and does not follow from the source"
        elif in_source[name] != there[name]:
            yield f"{what} {name}\n    by the source: {in_source[name]}\n    in {where}: {there[name]}"


def declarations(structs):
    return {name: "; ".join(f"{kind} {field}" for field, kind in fields) for name, fields in structs.items()}


def expected_layout(source):
    """What the header's measuring program finds if the compiler lays the structs out as the source has them."""
    layout = {}
    for struct in source.structs:
        places, size = source.layout(struct)
        layout[struct] = f"size {size}"
        layout.update((f"{struct}.{name}", f"offset {at} size {length}") for name, at, length in places)
    return layout


def untried(examples):
    """The code in the header's comments that stands in no test."""
    tests = ["\n".join(line.strip() for line in path.read_text(encoding="utf-8").splitlines())
             for path in Path(TESTS).glob("*.c")]
    for example in examples:
        if not any("\n".join(example) in test for test in tests):
            yield f"code in a comment of {HEADER} is not in {TESTS}: {example[0]} .."


def differences(compiler, build):
    source, table, header = Source([*STRUCTS, f"{CALLS}/src"]), Words(TABLE), Header(HEADER)
    handed_on_to = Source([f"{HANDED_ON_TO}/src"])
    structs, layout = source.structs | table.structs(), expected_layout(source) | table.layout()
    yield from one_by_one("version", version(VERSION), HEADER, header.version)
    yield from one_by_one("reply", replies(REFUSALS), HEADER, header.replies)
    yield from one_by_one("struct", declarations(structs), HEADER, declarations(header.structs))
    yield from one_by_one("the layout of", layout, HEADER, header.measured(compiler, INCLUDE, build))
    yield from one_by_one("call", source.calls, HEADER, header.calls)
    paths = [*FIELDS, f"{HANDED_ON_TO}/proofs/Border.antt"]
    yield from one_by_one("theorem", theorems.expected(source), " and ".join(paths), theorems.stated(paths))
    same = f"{CALLS}/proofs/HandedOn.antt"
    yield from one_by_one("theorem", theorems.handed_on(source), same, theorems.stated_handed_on(same))
    yield from one_by_one("call", source.calls, HANDED_ON_TO, handed_on_to.calls)
    yield from one_by_one("the clauses of", source.clauses, HANDED_ON_TO, handed_on_to.clauses)
    yield from scheme.broken(header)
    yield from untried(header.examples)
    counts = f"{len(header.replies)} replies, {len(header.structs)} structs and {len(header.calls)} calls"
    print(f"header: {counts} compared with the source, the theorems and the scheme; {len(header.examples)} examples tried")


def main():
    build, compiler = sys.argv[1], sys.argv[2] if len(sys.argv) > 2 else "gcc"
    try:
        found = list(differences(compiler, build))
    except Unreadable as unreadable:
        found = [unreadable]
    for difference in found:
        print(f"header: FAILED: {difference}")
    return 1 if found else 0


if __name__ == "__main__":
    sys.exit(main())
