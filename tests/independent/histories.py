"""Several calls in turn over one table and one buffer, which stay where they are from the first call to the last.

Between the calls a step may also write into the table, as a program at fault would; and each call takes one of two files.
"""

from typing import NamedTuple

import reference
from reference import Fragment, Table, with_fragment

OPEN, EXTEND, SHORTEN, RECORD, VALUE, WRITE = "oesrvw"


class Step(NamedTuple):
    """what: one of the six above. file: 0 or 1. first, second: the call's numbers, or the place of a word and the word."""
    what: str
    file: int = 0
    first: int = 0
    second: int = 0


class Outcome(NamedTuple):
    """After a step. answer: the struct that the call returned, or None if the step was no call."""
    answer: object
    table: Table
    buffer: bytes


def with_word(table, place, word):
    """As in a table's memory: the count, the length, and then addresses and positions in turn."""
    if place < 2:
        return table._replace(**{Table._fields[place]: word})
    number, field = divmod(place - 2, 2)
    return with_fragment(table, number, table.fragments[number]._replace(**{Fragment._fields[field]: word}))


def outcome_of(step, file, group, channel, table, buffer):
    if step.what == OPEN:
        answer, table = reference.open_table(file, step.first, table)
    elif step.what == EXTEND:
        answer, table = reference.extend_table(file, step.first, table)
    elif step.what == SHORTEN:
        answer, table = reference.shorten_table(table)
    elif step.what == RECORD:
        answer, buffer = reference.table_record(file, table, step.first, step.second, buffer)
    elif step.what == VALUE:
        answer, buffer = reference.table_value(file, table, step.first, step.second, group, channel, buffer)
    else:
        answer, table = None, with_word(table, step.first, step.second)
    return Outcome(answer, table, buffer)


def outcomes(file, other, group, channel, steps, table, buffer):
    """That of each step."""
    found = []
    for step in steps:
        found.append(outcome_of(step, (file, other)[step.file], group, channel, table, buffer))
        table, buffer = found[-1].table, found[-1].buffer
    return found
