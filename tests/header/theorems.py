"""The theorems that pin the border with C: the fields of each struct in their order, each call's arguments in theirs, and that an
export has the clause of the call that it hands on to."""

import re
from pathlib import Path

THEOREM = re.compile(r"^pub (\w+_(?:fields|arguments)) : (.*?)\n\1 ", re.M | re.S)
FIELDS = re.compile(r"\(s : \w+\) → \((\w+)\.struct\)\.as_values s ≡ (.*)")
ARGUMENTS = re.compile(r".* → Allows \d+ (\w+)_kinds\.ps \1_kinds\.r \1\.Learnt κs (.*) y (?:tt|\(.*\)) ≡ \(.*\)")
# The same of the call that is lent structs.
BY_HAND = re.compile(r".* → Says (\w+)\.ended \1_clauses κs (.*) y \(.*\) \(y ≡ .*\)")

HANDS_ON = re.compile(r"^pub (\w+)_hands_on : HandsOn \d+ \1_kinds\.ps \1_kinds\.r"
                      r" \1\.Asked called_\1\.Asked \1\.ensures called_\1\.ensures \1\.Learnt called_\1\.Learnt$", re.M)

# A word of the proof language cannot name an argument there.
NAMED_OTHERWISE = {"record": "bytes"}


def nested(names):
    """The tuple of a theorem: (a, (b, tt))."""
    tuple_of = "tt"
    for name in reversed(list(names)):
        tuple_of = f"({name}, {tuple_of})"
    return tuple_of


def camel(name):
    return re.sub(r"_(\w)", lambda letter: letter[1].upper(), NAMED_OTHERWISE.get(name, name))


def expected(source):
    """For each theorem what it is about, a struct or a call, and the order that it pins."""
    fields = {f"{name}_fields": f"{name} {nested([field for field, _ in fields])}"
              for name, fields in source.structs.items()}
    arguments = {f"{name}_arguments": f"{name} {nested(map(camel, names))}"
                 for name, names in source.arguments.items()}
    return fields | arguments


def stated(paths):
    """The same of the theorem files. A theorem in a form that is not known here is told as it stands."""
    theorems = {}
    text = "\n".join(Path(path).read_text(encoding="utf-8") for path in paths)
    for name, statement in THEOREM.findall(text):
        statement = " ".join(statement.split())
        patterns = [FIELDS] if name.endswith("_fields") else [ARGUMENTS, BY_HAND]
        found = next(filter(None, (pattern.fullmatch(statement) for pattern in patterns)), None)
        theorems[name] = re.sub(r"\bs\.«?(\w+)»?", r"\1", f"{found[1]} {found[2]}") if found else statement
    return theorems


def handed_on(source):
    """For each call, that its export has the clause of the function of that name."""
    return {f"{name}_hands_on": name for name in source.calls}


def stated_handed_on(path):
    """The same of the theorem file."""
    return {f"{name}_hands_on": name for name in HANDS_ON.findall(Path(path).read_text(encoding="utf-8"))}
