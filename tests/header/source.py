"""The replies, structs and calls for C of the library's own source, in the words of C."""

import re
from pathlib import Path

from scheme import IN_PLACE, LENT_WHOLE

NUMBERS = {"u8": "uint8_t", "u16": "uint16_t", "u32": "uint32_t", "u64": "uint64_t", "i64": "int64_t",
           "f64": "double"}
SIZES = {"uint8_t": 1, "uint16_t": 2, "uint32_t": 4, "uint64_t": 8, "int64_t": 8, "double": 8}

STRUCT = re.compile(r"#\[repr\(C\)\]\s*#\[derive\(Clone, Copy[\w, ]*\)\]\s*pub struct (\w+) \{(.*?)\}", re.S)
CALL = re.compile(r'#\[unsafe\(no_mangle\)\]\s*pub extern "C" fn (\w+)\((.*?)\) -> (\w+)(.*?)\n\{\n', re.S)
MARKED = re.compile(r"#\[(?:repr\(C\)|unsafe\(no_mangle\))\]")
NUMBERED = re.compile(r"pub fn number\(self\) -> u32.*?\n    \}\n", re.S)
VERSION = re.compile(r"^const (MAJOR|MINOR|PATCH): u32 = (\d+);", re.M)
REFUSAL = re.compile(r"Refusal::(\w+)(?:\(_\))? => (\d+),")


class Unreadable(Exception):
    pass


def snake(name):
    return re.sub(r"(?<!^)(?=[A-Z])", "_", name).lower()


def c_type(name):
    if name in NUMBERS:
        return NUMBERS[name]
    if name.startswith("Mf4"):
        return snake(name)
    raise Unreadable(f"no type of C is known for {name}")


def c_arguments(call, name, kind):
    """A slice is a pointer and a count: a length if it is input, also if it is changed in place, and else a room. A table has
    one size, and is a pointer alone."""
    lent = re.fullmatch(r"&(mut )?(?:\[(\w+)\]|(Table))", kind)
    if not lent:
        return [f"{c_type(kind)} {name}"]
    constness = "" if lent[1] else "const "
    if lent[3]:
        return [f"{constness}{LENT_WHOLE} *{name}"]
    ending = "room" if lent[1] and (call, name) not in IN_PLACE else "len"
    return [f"{constness}{c_type(lent[2])} *{name}", f"size_t {name}_{ending}"]


def named(text):
    """The (name, type) pairs of a struct's body or of an argument list."""
    pairs = [part.strip().removeprefix("pub ") for part in text.split(",") if part.strip()]
    return [tuple(word.strip() for word in pair.split(":")) for pair in pairs]


def replies(path):
    """The number of each reply by its name in C: the answer's, and what the source's one enum of refusals numbers."""
    numbered = NUMBERED.findall(Path(path).read_text(encoding="utf-8"))
    refusals = [refusal for body in numbered for refusal in REFUSAL.findall(body)]
    if len(numbered) != 1 or len(refusals) != numbered[0].count("=>"):
        raise Unreadable(f"{path}: the refusals are numbered in another way than this test knows")
    return {"MF4_ANSWER": "0"} | {f"MF4_{snake(name).upper()}": number for name, number in refusals}


def version(path):
    """The three numbers of the version by their names."""
    return dict(VERSION.findall(Path(path).read_text(encoding="utf-8")))


class Source:
    """structs: for each its fields as (name, type). calls: for each its prototype; arguments: their names in the source; clauses:
    what the source promises of it."""

    def __init__(self, folders):
        self.structs, self.calls, self.arguments, self.clauses = {}, {}, {}, {}
        for path in [path for folder in folders for path in sorted(Path(folder).glob("**/*.rt"))]:
            text = re.sub(r"//[^\n]*", "", path.read_text(encoding="utf-8"))
            structs, calls = STRUCT.findall(text), CALL.findall(text)
            if len(MARKED.findall(text)) != len(structs) + len(calls):
                raise Unreadable(f"{path}: a struct or a call is written in another way than this test knows")
            self.structs.update((snake(name), self.fields(body)) for name, body in structs)
            self.calls.update((name, self.prototype(name, given, answer)) for name, given, answer, _ in calls)
            self.arguments.update((name, [argument for argument, _ in named(given)]) for name, given, _, _ in calls)
            self.clauses.update((name, " ".join(clauses.split())) for name, _, _, clauses in calls)

    @staticmethod
    def fields(body):
        return [(name, c_type(kind)) for name, kind in named(body)]

    @staticmethod
    def prototype(name, given, answer):
        arguments = [argument for pair in named(given) for argument in c_arguments(name, *pair)]
        return f"{c_type(answer)} {name}({', '.join(arguments) or 'void'})"

    def alignment(self, kind):
        return SIZES.get(kind) or max(self.alignment(field) for _, field in self.structs[kind])

    def layout(self, struct):
        """The (name, offset, size) of each field, and the struct's own size: each stands at a multiple of its alignment."""
        places, end = [], 0
        for name, kind in self.structs[struct]:
            at = round_up(end, self.alignment(kind))
            size = SIZES.get(kind) or self.layout(kind)[1]
            places.append((name, at, size))
            end = at + size
        return places, round_up(end, self.alignment(struct))


def round_up(number, step):
    return (number + step - 1) // step * step
