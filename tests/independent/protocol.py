"""Cases and results as lines of words, so that a driver in another language can answer the same cases.

A case is a call's name and its arguments in the order of reference.py; or "history", and those of histories.py. As words:

    number      decimal, in a result with its sign if it is below 0
    bytes       x and hex digits; "HEX*COUNT" repeats, "+" joins:  x0102  xa5*100  x01+00*30+02
                an empty slice is "x", or "-" for a NULL pointer with the count 0
    long file   z and a length: a file or a record of that length, of which no byte may be looked at
    numbers     u and decimals with commas between:  u1,2,3   (empty: "u", or "-" for NULL)
    header      4 numbers, channel: 8 numbers, group: 3 numbers, number to be written: 2 numbers, channel block: 31
                numbers, in the order of their C structs
    channels    c and the numbers of each channel, with commas between; channels with "/" between  (empty: "c", or "-")
    table       t and its numbers, in the order of the C struct, with commas between; those that are left out are 0
    steps       s and the steps of a history as histories.py has them, with "/" between:  so0,64,0/r0,1,2

A result is the fields of the C struct as name=number words in the order of mf4.h, a plain answer as answer=number, and
each output buffer afterwards, in turn, as out=x and hex digits, or a table as table=t and its numbers up to the last that
is not 0. That of a history is "history" and then, for each step, the call's result, the table and the buffer.
"""

import itertools
import operator

import histories
import reference
from histories import Step
from reference import Channel, ChannelBlock, Fragment, Group, Header, Number, Table

SHORTEST_REPEAT = 16


class LongFile:
    """A file or a record that is too long to make. The rules reply to it before they look at a byte of it."""

    def __init__(self, length):
        self.length = length

    def __len__(self):
        return self.length

    def __eq__(self, other):
        return isinstance(other, LongFile) and self.length == other.length


NUMBER, BYTES, NUMBERS, CHANNELS, TABLE, STEPS = "number", "bytes", "numbers", "channels", "table", "steps"

# The form of a struct is an empty one, whose fields tell how many numbers it takes.
HEADER, CHANNEL, GROUP, CHANNEL_BLOCK, NUMBER_GIVEN = Header(), Channel(), Group(), ChannelBlock(), Number()

ON_RECORD = (BYTES, NUMBER, CHANNEL)
ON_RECORD_WITH_VALIDITY = (BYTES, GROUP, CHANNEL)
ON_TEXT = (BYTES, BYTES)

CALLS = {
    "version": (reference.version, ()),
    "read_header": (reference.read_header, (BYTES,)),
    "write_header": (reference.write_header, (HEADER, BYTES)),
    "type_code": (reference.type_code, (NUMBER,)),
    "default_bits": (reference.default_bits, (NUMBER,)),
    "read_list": (reference.read_list, (BYTES,)),
    "write_list_equal": (reference.write_list_equal, (NUMBER, NUMBERS, NUMBER, BYTES)),
    "write_list_variable": (reference.write_list_variable, (NUMBER, NUMBERS, NUMBERS, BYTES)),
    "read_channel": (reference.read_channel, (BYTES,)),
    "write_channel": (reference.write_channel, (CHANNEL_BLOCK, BYTES)),
    "decode_value": (reference.decode_value, ON_RECORD),
    "check_validity": (reference.check_validity, ON_RECORD_WITH_VALIDITY),
    "decode_valid_value": (reference.decode_valid_value, ON_RECORD_WITH_VALIDITY),
    "check_validity_unbounded": (reference.check_validity_unbounded, ON_RECORD_WITH_VALIDITY),
    "decode_valid_value_unbounded": (reference.decode_valid_value_unbounded, ON_RECORD_WITH_VALIDITY),
    "decode_double_bits": (reference.decode_double_bits, ON_RECORD),
    "decode_valid_double": (reference.decode_valid_double, ON_RECORD_WITH_VALIDITY),
    "write_value": (reference.write_value, (NUMBER, CHANNEL, NUMBER_GIVEN, BYTES)),
    "first_overlap": (reference.first_overlap, (CHANNELS,)),
    "text_latin1": (reference.text_latin1, ON_TEXT),
    "text_utf8": (reference.text_utf8, ON_TEXT),
    "text_utf16_le": (reference.text_utf16_le, ON_TEXT),
    "text_utf16_be": (reference.text_utf16_be, ON_TEXT),
    "text_by_type": (reference.text_by_type, (NUMBER, BYTES, BYTES)),
    "text_room": (reference.text_room, (NUMBER,)),
    "data_length": (reference.data_length, (BYTES, NUMBER)),
    "read_record": (reference.read_record, (BYTES, NUMBER, NUMBER, NUMBER, BYTES)),
    "record_value": (reference.record_value, (BYTES, NUMBER, NUMBER, NUMBER, GROUP, CHANNEL, BYTES)),
    "report": (reference.report, (BYTES, NUMBER, NUMBER, GROUP, CHANNEL, BYTES)),
    "open_table": (reference.open_table, (BYTES, NUMBER, TABLE)),
    "extend_table": (reference.extend_table, (BYTES, NUMBER, TABLE)),
    "shorten_table": (reference.shorten_table, (TABLE,)),
    "table_record": (reference.table_record, (BYTES, TABLE, NUMBER, NUMBER, BYTES)),
    "table_value": (reference.table_value, (BYTES, TABLE, NUMBER, NUMBER, GROUP, CHANNEL, BYTES)),
    "history": (histories.outcomes, (BYTES, BYTES, GROUP, CHANNEL, STEPS, TABLE, BYTES)),
    "record_payload": (reference.record_payload, (BYTES, NUMBER, NUMBER, NUMBER, GROUP, CHANNEL, BYTES, BYTES)),
}

# ---- cases -------------------------------------------------------------------------------------------------------------


def bytes_word(content):
    if isinstance(content, LongFile):
        return f"z{content.length}"
    if len(content) > SHORTEST_REPEAT and content == content[:1] * len(content):
        return f"x{content[:1].hex()}*{len(content)}"
    return "x" + content.hex()


def bytes_of_word(word):
    if word == "-":
        return b""
    if word.startswith("z"):
        return LongFile(int(word[1:]))
    pieces = []
    for piece in word[1:].split("+"):
        digits, _, count = piece.partition("*")
        pieces.append(bytes.fromhex(digits) * int(count or "1"))
    return b"".join(pieces)


def numbers_word(numbers):
    return "u" + ",".join(map(str, numbers))


def numbers_of_word(word):
    return [int(digits) for digits in word[1:].split(",") if digits]


def channels_word(channels):
    return "c" + "/".join(",".join(map(str, channel)) for channel in channels)


def channels_of_word(word):
    return [Channel(*map(int, channel.split(","))) for channel in word[1:].split("/") if channel]


def table_word(table):
    numbers = [table.fragment_count, table.data_length, *itertools.chain.from_iterable(table.fragments)]
    backwards = list(itertools.dropwhile(operator.not_, reversed(numbers)))
    return "t" + ",".join(map(str, reversed(backwards)))


def table_of_word(word):
    given = numbers_of_word(word)
    count, length, *pairs = given + [0] * (2 + 2 * len(Table().fragments) - len(given))
    return Table(count, length, tuple(map(Fragment, pairs[0::2], pairs[1::2])))


def steps_word(steps):
    return "s" + "/".join(f"{step.what}{step.file},{step.first},{step.second}" for step in steps)


def steps_of_word(word):
    return [Step(step[0], *map(int, step[1:].split(","))) for step in word[1:].split("/") if step]


# For each form that takes one word, how it is written and read; and those whose word is "-" for NULL.
WORDS = {NUMBER: (str, int), BYTES: (bytes_word, bytes_of_word), NUMBERS: (numbers_word, numbers_of_word),
         CHANNELS: (channels_word, channels_of_word), TABLE: (table_word, table_of_word), STEPS: (steps_word, steps_of_word)}
SLICES = (BYTES, NUMBERS, CHANNELS)


def word_of(form, argument, null_if_empty):
    if null_if_empty and form in SLICES and len(argument) == 0:
        return "-"
    return WORDS[form][0](argument)


def struct_words(struct):
    return [word for field in struct for word in (struct_words(field) if isinstance(field, tuple) else [str(field)])]


def struct_of_words(form, words):
    """A struct like the form, of the first words, which it takes away."""
    return type(form)(*(struct_of_words(field, words) if isinstance(field, tuple) else int(words.pop(0)) for field in form))


def case_line(call, arguments, null_if_empty=False):
    words = [call]
    for form, argument in zip(CALLS[call][1], arguments):
        words.extend(struct_words(argument) if isinstance(form, tuple) else [word_of(form, argument, null_if_empty)])
    return " ".join(words)


def case_of_line(line):
    call, *words = line.split()
    arguments = []
    for form in CALLS[call][1]:
        arguments.append(struct_of_words(form, words) if isinstance(form, tuple) else WORDS[form][1](words.pop(0)))
    if words:
        raise ValueError("words left over")
    return call, tuple(arguments)


# ---- results -----------------------------------------------------------------------------------------------------------


def field_words(struct):
    words = []
    for name, field in zip(struct._fields, struct):
        if isinstance(field, tuple):
            words.extend(field_words(field))
        else:
            words.append(f"{name}={field}")
    return words


def word_after(after):
    """A table or a buffer as a call left it."""
    return f"table={table_word(after)}" if isinstance(after, Table) else f"out=x{after.hex()}"


def outcome_words(struct, *afters):
    return (field_words(struct) if struct else []) + [word_after(after) for after in afters]


def result_line(call, arguments):
    result = CALLS[call][0](*arguments)
    if isinstance(result, int):
        return f"answer={result}"
    if isinstance(result, list):
        return " ".join(["history", *(word for outcome in result for word in outcome_words(*outcome))])
    if hasattr(result, "_fields"):
        return " ".join(field_words(result))
    return " ".join(outcome_words(*result))
