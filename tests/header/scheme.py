"""The scheme of names that mf4.h keeps to, and how its comments speak of refusals."""

import re

# What a struct that a call returns begins with.
REPLY_FIRST = [("reply", "uint32_t"), ("told", "uint64_t")]

# A field or an argument whose name ends in one of these words is a count, or the address of what it leads to.
COUNTS = {"nr", "num", "counts"}
ADDRESSES = {"address", "link", "links", "next", "data", "component", "name", "source", "conversion", "unit", "comment"}
# The addresses that a list is written with are an array.
KEPT = {"links"}

# A record that is changed in place is input and output, and has a length.
IN_PLACE = {("mf4_write_value", "record")}

# What is always of one size is lent by a pointer alone.
LENT_WHOLE = "mf4_table"

PREFIXES = {"mf4_reply": "MF4_", "mf4_block_id": "MF4_ID_", "mf4_data_type": "MF4_TYPE_", "mf4_list_flag": "MF4_LIST_",
            "mf4_channel_type": "MF4_CHANNEL_", "mf4_channel_flag": "MF4_CHANNEL_", "mf4_kind": "MF4_KIND_"}

# The numbers of replies that were given once. They are not used again, since an old loader would take one for what it was.
RETIRED = {"1", "14"}

BY_NUMBER_ALONE = re.compile(r"\b(?:refuse|refuses|refused|then|and) with \d+", re.I)
BY_NAME = re.compile(r"\b(MF4_\w+) \((\d+)\)")


def misnamed_struct(name, fields, is_returned):
    """A struct that a call returns ends in _reply and begins with reply and told, and no other does."""
    if name.endswith("_reply") != is_returned:
        yield f"{name} {'is' if is_returned else 'is not'} what a call returns"
    if (fields[:2] == REPLY_FIRST) != is_returned:
        yield f"{name} {'does not begin' if is_returned else 'begins'} with reply and told"


def misnamed_word(where, name):
    last = name.split("_")[-1]
    if last in COUNTS:
        yield f"{where}: {name} should end in _count"
    elif last in ADDRESSES and name not in KEPT:
        yield f"{where}: {name} should end in _addr, or _at in the bytes given"


def misnamed_buffers(call, arguments):
    """Behind a pointer to const, which is input, stands NAME_len, and behind another, which is output, NAME_room; what is lent
    whole has neither."""
    for (kind, name), behind in zip(arguments, arguments[1:] + [("", "nothing")]):
        ending = "len" if kind.startswith("const ") or (call, name) in IN_PLACE else "room"
        is_counted = "*" in kind and LENT_WHOLE not in kind.split()
        if is_counted != (behind == ("size_t", f"{name}_{ending}")):
            rule = "should" if is_counted else "should not"
            yield f"{call}: behind {name} stands {behind[1]}, and {rule} stand size_t {name}_{ending}"


def misnamed_constants(enums):
    for enum in sorted(enums.keys() ^ PREFIXES.keys()):
        yield f"enum {enum} is not both in the header and in the scheme"
    for enum, prefix in PREFIXES.items():
        yield from (f"enum {enum}: {name} should begin with {prefix}" for name in enums.get(enum, [])
                    if not name.startswith(prefix))


def misnumbered(comments, numbers):
    """In comments a refusal stands by its name, with its number behind."""
    yield from (f"a comment has '{found}', without the name" for found in BY_NUMBER_ALONE.findall(comments))
    yield from (f"a comment has {name} ({number})" for name, number in BY_NAME.findall(comments)
                if numbers.get(name) != number)


def used_again(numbers):
    yield from (f"{name} has the number {number}, which was another reply's" for name, number in numbers.items()
                if number in RETIRED)


def broken(header):
    """What breaks the scheme, in words."""
    returned = {prototype.split()[0] for prototype in header.calls.values()}
    for name, fields in header.structs.items():
        yield from misnamed_struct(name, fields, name in returned)
        for field, _ in fields:
            yield from misnamed_word(name, field)
    for call in header.calls:
        arguments = header.arguments(call)
        yield from misnamed_buffers(call, arguments)
        for _, name in arguments:
            yield from misnamed_word(call, name)
    yield from misnamed_constants(header.enums)
    yield from misnumbered(header.comments, header.enums["mf4_reply"])
    yield from used_again(header.enums["mf4_reply"])
