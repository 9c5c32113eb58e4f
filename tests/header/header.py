"""The replies, structs, prototypes and comments of mf4.h, and what a C compiler makes of the structs."""

import os
import re
import subprocess
from pathlib import Path

COMMENT = re.compile(r"/\*.*?\*/", re.S)
EXAMPLE = re.compile(r"(?:^ \*     .*\n)+", re.M)
VERSION = re.compile(r"#define MF4_VERSION_(MAJOR|MINOR|PATCH) (\d+)")
LIMIT = re.compile(r"#define (MF4_MAX_\w+) (\d+)")
ENUM = re.compile(r"enum (\w+) \{([^}]*)\}")
NUMBERED = re.compile(r"(MF4_\w+) = (\w+)")
ARRAY = re.compile(r"(\w+)\[(\w+)\]")
STRUCT = re.compile(r"typedef struct (\w+) \{([^}]*)\} \1;")
INLINE = re.compile(r"static inline [^{]*\{.*?\n\}\n", re.S)
PROTOTYPE = re.compile(r"^([\w ]+ \*?(\w+)\([^)]*\));", re.M)

# Replies from here on are those of the header's own helpers.
FIRST_OF_HELPERS = 256


def spaced(text):
    return " ".join(text.split())


class Header:
    """enums: for each the names and their numbers; replies: those of the library. structs: for each its fields as
    (name, type), where an array's name has its limit. limits: by their names. calls: for each its prototype. comments: all in
    one line; examples: the code in them, a line in a string."""

    def __init__(self, path):
        commented = Path(path).read_text(encoding="utf-8")
        text = COMMENT.sub("", commented)
        self.enums = {name: dict(NUMBERED.findall(body)) for name, body in ENUM.findall(text)}
        self.replies = {name: number for name, number in self.enums["mf4_reply"].items() if int(number) < FIRST_OF_HELPERS}
        self.structs = {name: self.fields(body) for name, body in STRUCT.findall(text)}
        self.calls = {name: spaced(prototype) for prototype, name in PROTOTYPE.findall(INLINE.sub("", text))}
        self.comments = spaced(" ".join(COMMENT.findall(commented)).replace("\n *", " "))
        self.examples = [[line.removeprefix(" *").strip() for line in example.splitlines()]
                         for example in EXAMPLE.findall(commented)]
        self.version = dict(VERSION.findall(text))
        self.limits = dict(LIMIT.findall(text))

    @staticmethod
    def fields(body):
        declarations = [declaration.split() for declaration in body.split(";") if declaration.strip()]
        return [(name, kind) for kind, name in declarations]

    def arguments(self, call):
        """The (type, name) of each, where a pointer's type ends in its star."""
        given = self.calls[call].partition("(")[2].rstrip(")")
        names = [] if given == "void" else given.split(", ")
        return [(re.sub(r" ?\w+$", "", argument), re.search(r"\w+$", argument)[0]) for argument in names]

    def members(self, struct):
        """Its fields by name; in place of an array those of each of its structs."""
        for name, kind in self.structs[struct]:
            array = ARRAY.fullmatch(name)
            if array:
                yield from (f"{array[1]}[{index}].{field}" for index in range(int(self.limits[array[2]]))
                            for field in self.members(kind))
            else:
                yield name

    def measuring_program(self):
        """Prints a line for each struct and each of its members: its name, then its place and size."""
        lines = ['#include <stdio.h>', '#include "mf4.h"', "int main(void)", "{"]
        for struct in self.structs:
            lines.append(f'    printf("{struct}=size %zu\\n", sizeof({struct}));')
            for name in self.members(struct):
                measures = f"offsetof({struct}, {name}), sizeof((({struct} *)0)->{name})"
                lines.append(f'    printf("{struct}.{name}=offset %zu size %zu\\n", {measures});')
        return "\n".join(lines + ["    return 0;", "}", ""])

    def measured(self, compiler, include, build):
        """What the compiler makes of the structs, by name."""
        program = Path(build) / "header_measured"
        code = program.with_suffix(".c")
        code.write_text(self.measuring_program(), encoding="utf-8")
        subprocess.run([compiler, "-std=c99", "-Wall", "-Wextra", f"-I{include}", "-o", program, code], check=True)
        emulator = os.environ.get("RUN", "").split()
        printed = subprocess.run([*emulator, program], check=True, capture_output=True, text=True).stdout
        return dict(line.split("=") for line in printed.splitlines())
