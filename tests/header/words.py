"""The words of a table: for the source an array, of which functions give one word each, and for C a struct."""

import re
from pathlib import Path

from source import Unreadable

SIZE = 8

ARRAY = re.compile(r"^pub type Table = \[u64; (\d+)\];", re.M)
PLACES = re.compile(r"^pub(?:\(crate\))? const TABLE_LIMIT: u64 = (\d+);", re.M)
# A function that gives a word of the table, or one of a place of it: its number, and how far it is to that of the next place.
WORD = re.compile(r"fn (\w+)\(table: &Table(?:, place: u64)?\) -> .*"
                  r"\{\n    (?:\w+\()?table\[(\d+)(?: \+ place as usize \* (\d+))?\]\)?$", re.S)

# What C calls the words that the functions give: those of the table, and those of each fragment.
OF_TABLE = {"count": "fragment_count", "total": "data_length"}
OF_FRAGMENT = {"address_at": "block_addr", "position_at": "data_position"}
FRAGMENTS = ("fragments[MF4_MAX_TABLE_FRAGMENTS]", "mf4_fragment")


def word(name, at):
    return name, f"offset {SIZE * at} size {SIZE}"


class Words:
    """count: how many words there are; places: how many fragments. at: for each function the number of its word, and step: how
    far it is to the next fragment's."""

    def __init__(self, path):
        text = Path(path).read_text(encoding="utf-8")
        counts = [*ARRAY.findall(text), *PLACES.findall(text)]
        found = [match.groups() for function in text.split("\n}\n") for match in WORD.finditer(function)]
        if len(counts) != 2 or sorted(name for name, _, _ in found) != sorted(OF_TABLE | OF_FRAGMENT):
            raise Unreadable(f"{path}: the words of a table are given in another way than this test knows")
        self.count, self.places = map(int, counts)
        self.at = {name: int(at) for name, at, _ in found}
        self.step = {name: int(step or 0) for name, _, step in found}

    def structs(self):
        """As C has them: the words in their order, and behind those of the table the fragments."""
        def in_order(names):
            return [(names[name], "uint64_t") for name in sorted(names, key=self.at.get)]
        return {"mf4_table": [*in_order(OF_TABLE), FRAGMENTS], "mf4_fragment": in_order(OF_FRAGMENT)}

    def layout(self):
        """Where each word stands in the two structs, and how long they are."""
        first, step = min(map(self.at.get, OF_FRAGMENT)), self.step["address_at"]
        layout = {"mf4_table": f"size {SIZE * self.count}", "mf4_fragment": f"size {SIZE * step}"}
        layout.update(word(f"mf4_table.{field}", self.at[name]) for name, field in OF_TABLE.items())
        for name, field in OF_FRAGMENT.items():
            layout.update([word(f"mf4_fragment.{field}", self.at[name] - first)])
            layout.update(word(f"mf4_table.fragments[{place}].{field}", self.at[name] + self.step[name] * place)
                          for place in range(self.places))
        return layout
