"""Every call of mf4.h as a plain function over bytes and whole numbers, written from the rules of the scope document.

It shares no code with the library or with the crate that the library ports. Python's whole numbers never wrap, so "summed
without wrapping" is an ordinary sum here, and "at most 2^64-1" is a min().

A call that can refuse returns a tuple with the fields of its C struct; reply is 0 for an answer. A call with output
buffers returns that tuple and each buffer as it stands afterwards; one that changes a table, the tuple and the table.
"""

import bisect
import itertools
import struct
from typing import NamedTuple

LARGEST = 2**64 - 1
NAN = 0x7FF8000000000000

HEADER_SIZE = 24
LIST_ID = b"##DL"
DATA_ID = b"##DT"
SIGNAL_ID = b"##SD"
CHANNEL_ID = b"##CN"
MOST_FILE_BYTES = 2**40
MOST_LISTS = 256
MOST_FRAGMENTS = 4096
MOST_RECORD_BYTES = 16384
MOST_CHANNELS = 256
MOST_TABLE_FRAGMENTS = 512

# ---- replies -----------------------------------------------------------------------------------------------------------

ANSWER = 0
TOO_FEW_BYTES = 2
OTHER_ID = 3
NO_LINKS = 4
UNWRITABLE_LIST = 5
NO_ROOM = 6
FILE_TOO_LONG = 7
TOO_MANY_LISTS = 8
TOO_MANY_FRAGMENTS = 9
LIST_DISAGREES = 10
NO_BLOCK_THERE = 11
BAD_DATA_BLOCK = 12
UNTRUE_DECLARATION = 13
BAD_RECORD_SIZE = 15
NO_SUCH_RECORD = 16
TOO_FEW_LINKS = 17
NO_BITS = 18
BAD_BIT_OFFSET = 19
INTEGER_TOO_WIDE = 20
FIELD_OUTSIDE = 21
BAD_FLOAT_WIDTH = 22
PAYLOAD_OUTSIDE = 23
DOES_NOT_FIT = 24
OTHER_KIND = 25
TOO_MANY_CHANNELS = 26
NO_FIXED_NUMBER = 27
OTHER_LENGTH = 28
BIT_OUTSIDE = 29
TABLE_FULL = 30
TABLE_EMPTY = 31
BAD_TABLE = 32
NO_NUMBER_CHANNEL = 33
NO_POSITION = 35
NO_TEXT_TYPE = 256  # of a helper of mf4.h, not of the library

# A field is refused with one of these, the first that holds.
FIELD_REFUSALS = (NO_BITS, BAD_BIT_OFFSET, INTEGER_TOO_WIDE, FIELD_OUTSIDE, BAD_FLOAT_WIDTH)


class Refusal(Exception):
    def __init__(self, number, told=0):
        super().__init__(number, told)
        self.number = number
        self.told = min(told, LARGEST)


def refuse_if(condition, number, told=0):
    if condition:
        raise Refusal(number, told)


# ---- the structs of mf4.h ----------------------------------------------------------------------------------------------


class Header(NamedTuple):
    id: int = 0
    reserved0: int = 0
    block_len: int = 0
    link_count: int = 0


class HeaderReply(NamedTuple):
    reply: int = ANSWER
    told: int = 0
    header: Header = Header()


class Written(NamedTuple):
    reply: int = ANSWER
    told: int = 0
    count: int = 0


class Done(NamedTuple):
    """Of a call that answers nothing else."""
    reply: int = ANSWER
    told: int = 0


class ListReply(NamedTuple):
    reply: int = ANSWER
    told: int = 0
    header: Header = Header()
    next_addr: int = 0
    data_links_at: int = 0
    data_link_count: int = 0
    flags: int = 0
    reserved1: int = 0
    data_block_count: int = 0
    rest_at: int = 0
    rest_count: int = 0


class Channel(NamedTuple):
    data_type: int = 0
    channel_type: int = 0
    bit_offset: int = 0
    byte_offset: int = 0
    bit_count: int = 0
    flags: int = 0
    pos_invalidation_bit: int = 0
    data_addr: int = 0


class Group(NamedTuple):
    record_id_size: int = 0
    data_bytes: int = 0
    invalidation_bytes: int = 0


class ChannelBlock(NamedTuple):
    """The six limits are the bits of doubles."""
    header: Header = Header()
    next_ch_addr: int = 0
    component_addr: int = 0
    name_addr: int = 0
    source_addr: int = 0
    conversion_addr: int = 0
    unit_addr: int = 0
    comment_addr: int = 0
    more_links_at: int = 0
    more_link_count: int = 0
    channel: Channel = Channel()
    sync_type: int = 0
    precision: int = 0
    reserved1: int = 0
    attachment_count: int = 0
    min_raw_value: int = 0
    max_raw_value: int = 0
    lower_limit: int = 0
    upper_limit: int = 0
    lower_ext_limit: int = 0
    upper_ext_limit: int = 0


class ChannelReply(NamedTuple):
    reply: int = ANSWER
    told: int = 0
    block: ChannelBlock = ChannelBlock()


class Value(NamedTuple):
    """number: an unsigned integer, the two's complement of a signed one, or a double's bits."""
    reply: int = ANSWER
    told: int = 0
    kind: int = 0
    number: int = 0
    at: int = 0
    length: int = 0


class Validity(NamedTuple):
    reply: int = ANSWER
    told: int = 0
    is_valid: int = 0


class ValidValue(NamedTuple):
    reply: int = ANSWER
    told: int = 0
    kind: int = 0
    is_valid: int = 0
    number: int = 0
    at: int = 0
    length: int = 0


class Number(NamedTuple):
    """What is to be written, as Value has it."""
    kind: int = 0
    number: int = 0


class Overlap(NamedTuple):
    reply: int = ANSWER
    told: int = 0
    found: int = 0
    first: int = 0
    second: int = 0


class Payload(NamedTuple):
    """at: a place in the payload's own buffer."""
    reply: int = ANSWER
    told: int = 0
    kind: int = 0
    is_valid: int = 0
    number: int = 0
    at: int = 0
    length: int = 0
    payload_length: int = 0


class Text(NamedTuple):
    reply: int = ANSWER
    told: int = 0
    count: int = 0
    damaged: int = 0


class Length(NamedTuple):
    reply: int = ANSWER
    told: int = 0
    length: int = 0


class Point(NamedTuple):
    """A record's number, and a double's bits."""
    number: int = 0
    value: int = 0


class Report(NamedTuple):
    """sum_high: signed."""
    reply: int = ANSWER
    told: int = 0
    records: int = 0
    valid: int = 0
    invalid: int = 0
    without_value: int = 0
    nan: int = 0
    has_doubles: int = 0
    first: Point = Point()
    last: Point = Point()
    smallest: Point = Point()
    largest: Point = Point()
    sum_high: int = 0
    sum_low: int = 0


class Fragment(NamedTuple):
    block_addr: int = 0
    data_position: int = 0


class Table(NamedTuple):
    """With all of its fragments, in use or not."""
    fragment_count: int = 0
    data_length: int = 0
    fragments: tuple = (Fragment(),) * MOST_TABLE_FRAGMENTS


# ---- the version -------------------------------------------------------------------------------------------------------

MAJOR, MINOR, PATCH = 0, 6, 1


def version():
    return MAJOR * 10000 + MINOR * 100 + PATCH


# ---- bytes -------------------------------------------------------------------------------------------------------------


def little(block, place, size):
    return int.from_bytes(block[place:place + size], "little")


def little_bytes(number, size):
    return number.to_bytes(size, "little")


def placed(content, out):
    """The output buffer once the content stands at its start; refused with 6 if it does not fit."""
    refuse_if(len(content) > len(out), NO_ROOM, len(content))
    return content + out[len(content):]


# ---- block headers -----------------------------------------------------------------------------------------------------

HEADER_FIELDS = struct.Struct("<IIQQ")


def header_of(block):
    refuse_if(len(block) < HEADER_SIZE, TOO_FEW_BYTES, HEADER_SIZE)
    return Header(*HEADER_FIELDS.unpack_from(block))


def header_bytes(header):
    return HEADER_FIELDS.pack(*header)


def read_header(block):
    try:
        return HeaderReply(header=header_of(block))
    except Refusal as refusal:
        return HeaderReply(refusal.number, refusal.told)


def write_header(header, out):
    try:
        return Written(count=HEADER_SIZE), placed(header_bytes(header), out)
    except Refusal as refusal:
        return Written(refusal.number, refusal.told), out


# ---- data types --------------------------------------------------------------------------------------------------------

UNSIGNED_LE, UNSIGNED_BE, SIGNED_LE, SIGNED_BE, FLOAT_LE, FLOAT_BE = range(6)
LATIN1, UTF8, UTF16_LE, UTF16_BE = range(6, 10)
BYTE_ARRAY, MIME_SAMPLE, MIME_STREAM = range(10, 13)
CANOPEN_DATE, CANOPEN_TIME = range(13, 15)
COMPLEX_LE, COMPLEX_BE = range(15, 17)

INTEGERS = (UNSIGNED_LE, UNSIGNED_BE, SIGNED_LE, SIGNED_BE)
FLOATS = (FLOAT_LE, FLOAT_BE)
NUMBERS = INTEGERS + FLOATS
BIG_ENDIAN_NUMBERS = (UNSIGNED_BE, SIGNED_BE, FLOAT_BE)
TEXTS = (LATIN1, UTF8, UTF16_LE, UTF16_BE)
PLAIN_BYTES = (BYTE_ARRAY, MIME_SAMPLE, MIME_STREAM)


def type_code(code):
    return code  # a code above COMPLEX_BE is an unknown type, which keeps it


def default_bits(code):
    if code in NUMBERS:
        return 32
    if code in (CANOPEN_DATE, CANOPEN_TIME, COMPLEX_LE, COMPLEX_BE):
        return 64
    return 8


# ---- data lists --------------------------------------------------------------------------------------------------------


def list_of(block):
    header = header_of(block)
    refuse_if(little_bytes(header.id, 4) != LIST_ID, OTHER_ID)
    refuse_if(header.link_count == 0, NO_LINKS)
    after_links = HEADER_SIZE + 8 * header.link_count
    rest_at = after_links + 8
    refuse_if(len(block) < rest_at, TOO_FEW_BYTES, rest_at)
    flags = block[after_links]
    data_block_count = little(block, after_links + 4, 4)
    rest_count = 1 if flags & 1 else data_block_count
    refuse_if(len(block) < rest_at + 8 * rest_count, TOO_FEW_BYTES, rest_at + 8 * rest_count)
    return ListReply(
        header=header,
        next_addr=little(block, HEADER_SIZE, 8),
        data_links_at=HEADER_SIZE + 8,
        data_link_count=header.link_count - 1,  # the first link of the block is the next list
        flags=flags,
        reserved1=little(block, after_links + 1, 3),
        data_block_count=data_block_count,
        rest_at=rest_at,
        rest_count=rest_count)


def read_list(block):
    try:
        return list_of(block)
    except Refusal as refusal:
        return ListReply(refusal.number, refusal.told)


def list_bytes(next_list, links, flags, rest):
    size = HEADER_SIZE + 8 + 8 * len(links) + 8 + 8 * len(rest)
    header = Header(int.from_bytes(LIST_ID, "little"), 0, size, 1 + len(links))
    flags_and_count = bytes([flags, 0, 0, 0]) + little_bytes(len(links), 4)
    return (header_bytes(header) + little_bytes(next_list, 8) + b"".join(little_bytes(link, 8) for link in links)
            + flags_and_count + b"".join(little_bytes(number, 8) for number in rest))


def write_list(unwritable, next_list, links, flags, rest, out):
    try:
        refuse_if(unwritable, UNWRITABLE_LIST)
        content = list_bytes(next_list, links, flags, rest)
        return Written(count=len(content)), placed(content, out)
    except Refusal as refusal:
        return Written(refusal.number, refusal.told), out


def write_list_equal(next_list, links, length, out):
    return write_list(len(links) > MOST_FRAGMENTS, next_list, links, 1, [length], out)


def write_list_variable(next_list, links, offsets, out):
    unwritable = len(links) > MOST_FRAGMENTS or len(links) != len(offsets)
    return write_list(unwritable, next_list, links, 0, offsets, out)


# ---- channel blocks ----------------------------------------------------------------------------------------------------

# What stands behind the header, and behind the last link, in turn: the name in the C struct and the bytes.
CHANNEL_LINKS = tuple((name, 8) for name in (
    "next_ch_addr", "component_addr", "name_addr", "source_addr", "conversion_addr", "data_addr", "unit_addr",
    "comment_addr"))
CHANNEL_FIELDS = (
    ("channel_type", 1), ("sync_type", 1), ("data_type", 1), ("bit_offset", 1),
    ("byte_offset", 4), ("bit_count", 4), ("flags", 4), ("pos_invalidation_bit", 4),
    ("precision", 1), ("reserved1", 1), ("attachment_count", 2),
    ("min_raw_value", 8), ("max_raw_value", 8), ("lower_limit", 8), ("upper_limit", 8),
    ("lower_ext_limit", 8), ("upper_ext_limit", 8))


def size_of(row):
    return sum(size for _, size in row)


def row_at(block, place, row):
    """The numbers of a row by name."""
    numbers = {}
    for name, size in row:
        numbers[name] = little(block, place, size)
        place += size
    return numbers


def row_bytes(numbers, row):
    return b"".join(little_bytes(numbers[name], size) for name, size in row)


def channel_block_of(block):
    header = header_of(block)
    refuse_if(little_bytes(header.id, 4) != CHANNEL_ID, OTHER_ID)
    refuse_if(header.link_count < len(CHANNEL_LINKS), TOO_FEW_LINKS)
    fields_at = HEADER_SIZE + 8 * header.link_count
    size = fields_at + size_of(CHANNEL_FIELDS)
    refuse_if(len(block) < size, TOO_FEW_BYTES, size)
    numbers = row_at(block, HEADER_SIZE, CHANNEL_LINKS) | row_at(block, fields_at, CHANNEL_FIELDS)
    channel = Channel(**{name: numbers.pop(name) for name in Channel._fields})
    return ChannelBlock(
        header=header,
        more_links_at=HEADER_SIZE + size_of(CHANNEL_LINKS),
        more_link_count=header.link_count - len(CHANNEL_LINKS),
        channel=channel,
        **numbers)


def read_channel(block):
    try:
        return ChannelReply(block=channel_block_of(block))
    except Refusal as refusal:
        return ChannelReply(refusal.number, refusal.told)


def channel_block_bytes(block):
    numbers = block._asdict() | block.channel._asdict()
    numbers.update(reserved1=0, attachment_count=0)
    behind_header = row_bytes(numbers, CHANNEL_LINKS) + row_bytes(numbers, CHANNEL_FIELDS)
    size = HEADER_SIZE + len(behind_header)
    return header_bytes(Header(int.from_bytes(CHANNEL_ID, "little"), 0, size, len(CHANNEL_LINKS))) + behind_header


def write_channel(block, out):
    try:
        content = channel_block_bytes(block)
        return Written(count=len(content)), placed(content, out)
    except Refusal as refusal:
        return Written(refusal.number, refusal.told), out


# ---- doubles -----------------------------------------------------------------------------------------------------------


def nearest_double(number):
    """The bits of the double nearest to a whole number, ties to the even significand."""
    if number == 0:
        return 0
    sign, size = (1 if number < 0 else 0), abs(number)
    exponent = size.bit_length() - 1  # 2^exponent <= size < 2^(exponent + 1)
    surplus = exponent - 52
    if surplus <= 0:
        significand = size << -surplus
    else:
        significand, rest = divmod(size, 2**surplus)
        half = 2**(surplus - 1)
        if rest > half or (rest == half and significand % 2 == 1):
            significand += 1
        if significand == 2**53:
            significand, exponent = 2**52, exponent + 1
    return sign << 63 | (exponent + 1023) << 52 | (significand - 2**52)


def widened(single):
    """The bits of the double that is equal to a 32-bit float; every NaN becomes the one NaN."""
    sign, exponent, fraction = single >> 31, single >> 23 & 0xFF, single & 0x7FFFFF
    if exponent == 0xFF:
        return NAN if fraction else sign << 63 | 0x7FF << 52
    if exponent:
        return sign << 63 | (exponent - 127 + 1023) << 52 | fraction << 29
    if fraction == 0:
        return sign << 63
    top = fraction.bit_length() - 1  # the value is fraction * 2^-149, and a double has room to make it normal
    return sign << 63 | (top - 149 + 1023) << 52 | ((fraction << (52 - top)) - 2**52)


INFINITE_SINGLE = 0x7F800000
NAN_SINGLE = 0x7FC00000


def narrowed(double):
    """The 32-bit float that widens to a double's bits, or None. Those from 0 to infinity widen in their own order, so it is
    looked for among them."""
    if double == NAN:
        return NAN_SINGLE
    sign, size = double >> 63, double % 2**63
    single = bisect.bisect_left(range(INFINITE_SINGLE), size, key=widened)
    return sign << 31 | single if widened(single) == size else None


# ---- a value from a record ---------------------------------------------------------------------------------------------

UNSIGNED_KIND, SIGNED_KIND, DOUBLE_KIND, TEXT_KIND, BYTES_KIND, SAMPLE_KIND, STREAM_KIND, UNKNOWN_KIND = range(1, 9)
KIND_OF_PLAIN_BYTES = {BYTE_ARRAY: BYTES_KIND, MIME_SAMPLE: SAMPLE_KIND, MIME_STREAM: STREAM_KIND}


def is_variable_length(channel):
    return channel.channel_type == 1 and channel.data_addr != 0


def span_of(channel):
    if channel.data_type in TEXTS + PLAIN_BYTES:
        return channel.bit_count // 8  # the bit offset plays no part
    return max(1, (channel.bit_offset + channel.bit_count + 7) // 8)


def place_and_span(record, id_size, channel):
    """Where the bytes of the field stand in the record or payload, and how many they are; refused if it has not as many."""
    if not is_variable_length(channel):
        place, span = id_size + channel.byte_offset, span_of(channel)
    elif channel.data_type in NUMBERS:
        place, span = 0, span_of(channel)
    else:
        place, span = 0, len(record)
    refuse_if(place + span > len(record), FIELD_OUTSIDE, place + span)
    return place, span


def check_number_shape(channel):
    """All that a number is refused for before its place is looked at."""
    refuse_if(channel.bit_count == 0, NO_BITS)
    refuse_if(channel.bit_offset > 7, BAD_BIT_OFFSET)
    refuse_if(channel.data_type in INTEGERS and channel.bit_count > 64, INTEGER_TOO_WIDE)


def number_of(span_bytes, channel):
    order = "big" if channel.data_type in BIG_ENDIAN_NUMBERS else "little"
    field = int.from_bytes(span_bytes, order) // 2**channel.bit_offset % 2**channel.bit_count
    if channel.data_type in (UNSIGNED_LE, UNSIGNED_BE):
        return Value(kind=UNSIGNED_KIND, number=field)
    if channel.data_type in (SIGNED_LE, SIGNED_BE):
        is_negative = field >= 2**(channel.bit_count - 1)
        return Value(kind=SIGNED_KIND, number=(field - 2**channel.bit_count if is_negative else field) % 2**64)
    return Value(kind=DOUBLE_KIND, number=widened(field) if channel.bit_count == 32 else field)


def signed_of(number):
    """The value of a number of the signed kind."""
    return number - 2**64 if number >= 2**63 else number


def length_up_to_stop(field, encoding):
    """How many bytes of a text's field stand before its stop."""
    if encoding in (LATIN1, UTF8):
        return field.index(0) if 0 in field else len(field)
    units = [field[i:i + 2] for i in range(0, len(field) - 1, 2)]  # an odd last byte is dropped
    return 2 * (units.index(b"\0\0") if b"\0\0" in units else len(units))


def value_of(record, id_size, channel):
    if channel.data_type in NUMBERS:
        check_number_shape(channel)
    place, span = place_and_span(record, id_size, channel)
    refuse_if(channel.data_type in FLOATS and channel.bit_count not in (32, 64), BAD_FLOAT_WIDTH)
    field = record[place:place + span]
    if channel.data_type in NUMBERS:
        return number_of(field, channel)
    if channel.data_type in TEXTS:
        return Value(kind=TEXT_KIND, at=place, length=length_up_to_stop(field, channel.data_type))
    if channel.data_type in PLAIN_BYTES:
        return Value(kind=KIND_OF_PLAIN_BYTES[channel.data_type], at=place, length=span)
    return Value(kind=UNKNOWN_KIND)


def decode_value(record, id_size, channel):
    try:
        return value_of(record, id_size, channel)
    except Refusal as refusal:
        return Value(refusal.number, told=refusal.told)


def validity_of(record, group, channel):
    """In a whole record of the group, whose last bytes are the invalidation bytes."""
    before = group.record_id_size + group.data_bytes
    refuse_if(len(record) != before + group.invalidation_bytes, OTHER_LENGTH)
    is_all_invalid, has_bit = channel.flags % 2 == 1, channel.flags // 2 % 2 == 1
    if is_all_invalid or not has_bit:
        return 0 if is_all_invalid else 1
    refuse_if(channel.pos_invalidation_bit >= 8 * group.invalidation_bytes, BIT_OUTSIDE)
    invalidation_bits = int.from_bytes(record[before:], "little")
    return 1 - invalidation_bits // 2**channel.pos_invalidation_bit % 2


def check_validity(record, group, channel):
    try:
        return Validity(is_valid=validity_of(record, group, channel))
    except Refusal as refusal:
        return Validity(refusal.number, refusal.told)


def decode_valid_value(record, group, channel):
    try:
        value = value_of(record, group.record_id_size, channel)
        return ValidValue(**value._asdict(), is_valid=validity_of(record, group, channel))
    except Refusal as refusal:
        return ValidValue(refusal.number, told=refusal.told)


def check_validity_unbounded(record, group, channel):
    """Where the invalidation bytes have no end, and a bit that is not in the record is clear."""
    if channel.flags & 1:
        return 0
    if not channel.flags & 2:
        return 1
    place = group.record_id_size + group.data_bytes + channel.pos_invalidation_bit // 8
    if place >= len(record):
        return 1
    return 0 if record[place] >> channel.pos_invalidation_bit % 8 & 1 else 1


def decode_valid_value_unbounded(record, group, channel):
    value = decode_value(record, group.record_id_size, channel)
    is_valid = check_validity_unbounded(record, group, channel) if value.reply == ANSWER else 0
    return ValidValue(**value._asdict(), is_valid=is_valid)


def decode_double_bits(record, id_size, channel):
    if is_variable_length(channel):
        return NAN  # even where the payload holds a number
    return double_in(decode_value(record, id_size, channel))


def double_in(value):
    """The bits of a value as a double."""
    if value.kind == UNSIGNED_KIND:
        return nearest_double(value.number)
    if value.kind == SIGNED_KIND:
        return nearest_double(signed_of(value.number))
    if value.kind == DOUBLE_KIND:
        return value.number
    return NAN


def decode_valid_double(record, group, channel):
    """The bits of what mf4.h's own function gives."""
    is_valid = check_validity(record, group, channel).is_valid
    return decode_double_bits(record, group.record_id_size, channel) if is_valid else NAN


# ---- a number written into a record ------------------------------------------------------------------------------------

KIND_OF_NUMBER = {UNSIGNED_LE: UNSIGNED_KIND, UNSIGNED_BE: UNSIGNED_KIND, SIGNED_LE: SIGNED_KIND, SIGNED_BE: SIGNED_KIND,
                  FLOAT_LE: DOUBLE_KIND, FLOAT_BE: DOUBLE_KIND}


def bit_places(channel):
    """Where the bits of a number's field stand behind the record id, the lowest first, as pairs of a byte and its bit."""
    span = span_of(channel)
    places = []
    for k in range(channel.bit_offset, channel.bit_offset + channel.bit_count):
        byte = span - 1 - k // 8 if channel.data_type in BIG_ENDIAN_NUMBERS else k // 8
        places.append((channel.byte_offset + byte, k % 8))
    return places


def signed_field(number, bit_count):
    """The two's complement of so many bits."""
    half = 2**(bit_count - 1)
    refuse_if(not -half <= number < half, DOES_NOT_FIT)
    return number if number >= 0 else number + 2 * half


def field_given(channel, number):
    """The field's bits, as one number, that stand for the number given."""
    refuse_if(is_variable_length(channel) or number.kind != KIND_OF_NUMBER.get(channel.data_type), OTHER_KIND)
    if number.kind == SIGNED_KIND:
        return signed_field(signed_of(number.number), channel.bit_count)
    field = number.number
    if number.kind == DOUBLE_KIND and channel.bit_count == 32:
        field = narrowed(number.number)
    refuse_if(field is None or field >= 2**channel.bit_count, DOES_NOT_FIT)
    return field


def record_with(record, id_size, channel, field):
    """The record with the field's bits set one by one."""
    after = bytearray(record)
    for k, (byte, bit) in enumerate(bit_places(channel)):
        without = after[id_size + byte] & ~(1 << bit)
        after[id_size + byte] = without | (field >> k & 1) << bit
    return bytes(after)


def write_value(id_size, channel, number, record):
    try:
        value_of(record, id_size, channel)  # whatever decoding refuses is refused here
        return Done(), record_with(record, id_size, channel, field_given(channel, number))
    except Refusal as refusal:
        return Done(refusal.number, refusal.told), record


# ---- fields that overlap -----------------------------------------------------------------------------------------------


def is_fixed_number(channel):
    if channel.data_type not in NUMBERS or is_variable_length(channel):
        return False
    if channel.bit_count == 0 or channel.bit_offset > 7:
        return False
    return channel.bit_count in (32, 64) if channel.data_type in FLOATS else channel.bit_count <= 64


def overlap_of(channels):
    refuse_if(len(channels) > MOST_CHANNELS, TOO_MANY_CHANNELS)
    for place, channel in enumerate(channels):
        refuse_if(not is_fixed_number(channel), NO_FIXED_NUMBER, place)
    bits = [set(bit_places(channel)) for channel in channels]
    for first in range(len(bits)):
        for second in range(first + 1, len(bits)):
            if bits[first] & bits[second]:
                return Overlap(found=1, first=first, second=second)
    return Overlap()


def first_overlap(channels):
    try:
        return overlap_of(channels)
    except Refusal as refusal:
        return Overlap(refusal.number, refusal.told)


# ---- texts -------------------------------------------------------------------------------------------------------------

TAIL = (0x80, 0xBF)

# The Unicode Standard, table 3-7, "Well-Formed UTF-8 Byte Sequences": the first byte, then the bytes behind it.
WELL_FORMED_UTF8 = (
    ((0x00, 0x7F), ()),
    ((0xC2, 0xDF), (TAIL,)),
    ((0xE0, 0xE0), ((0xA0, 0xBF), TAIL)),
    ((0xE1, 0xEC), (TAIL, TAIL)),
    ((0xED, 0xED), ((0x80, 0x9F), TAIL)),
    ((0xEE, 0xEF), (TAIL, TAIL)),
    ((0xF0, 0xF0), ((0x90, 0xBF), TAIL, TAIL)),
    ((0xF1, 0xF3), (TAIL, TAIL, TAIL)),
    ((0xF4, 0xF4), ((0x80, 0x8F), TAIL, TAIL)),
)

# What the first byte gives to the scalar value, by the number of bytes behind it (table 3-6).
FIRST_BYTE_MASK = (0x7F, 0x1F, 0x0F, 0x07)


class Damaged(Exception):
    pass


def tails_after(first):
    for (low, high), tails in WELL_FORMED_UTF8:
        if low <= first <= high:
            return tails
    raise Damaged


def scalars_of_latin1(text):
    return list(text)


def scalars_of_utf8(text):
    scalars, place = [], 0
    while place < len(text):
        tails = tails_after(text[place])
        behind = text[place + 1:place + 1 + len(tails)]
        if len(behind) < len(tails) or not all(low <= byte <= high for byte, (low, high) in zip(behind, tails)):
            raise Damaged
        scalar = text[place] & FIRST_BYTE_MASK[len(tails)]
        for byte in behind:
            scalar = scalar * 64 + (byte & 0x3F)
        scalars.append(scalar)
        place += 1 + len(tails)
    return scalars


def scalars_of_utf16(units):
    """Table 3-5: a unit outside D800..DFFF is itself; a high surrogate needs a low one behind it."""
    scalars, place = [], 0
    while place < len(units):
        unit = units[place]
        if not 0xD800 <= unit <= 0xDFFF:
            scalars.append(unit)
            place += 1
        elif unit <= 0xDBFF and place + 1 < len(units) and 0xDC00 <= units[place + 1] <= 0xDFFF:
            scalars.append(0x10000 + (unit - 0xD800) * 0x400 + (units[place + 1] - 0xDC00))
            place += 2
        else:
            raise Damaged
    return scalars


def units_of(text, order):
    return [int.from_bytes(text[i:i + 2], order) for i in range(0, len(text), 2)]


def utf8_of_scalar(scalar):
    """Table 3-6, "UTF-8 Bit Distribution"."""
    if scalar < 0x80:
        return bytes([scalar])
    if scalar < 0x800:
        return bytes([0xC0 | scalar >> 6, 0x80 | scalar & 0x3F])
    if scalar < 0x10000:
        return bytes([0xE0 | scalar >> 12, 0x80 | scalar >> 6 & 0x3F, 0x80 | scalar & 0x3F])
    return bytes([0xF0 | scalar >> 18, 0x80 | scalar >> 12 & 0x3F, 0x80 | scalar >> 6 & 0x3F, 0x80 | scalar & 0x3F])


# For each encoding: the scalar values of a text that ends at its stop, and what is written for damaged text.
ENCODINGS = {
    LATIN1: (scalars_of_latin1, None),
    UTF8: (scalars_of_utf8, b"<Invalid UTF8>"),
    UTF16_LE: (lambda text: scalars_of_utf16(units_of(text, "little")), b"<Invalid UTF16LE>"),
    UTF16_BE: (lambda text: scalars_of_utf16(units_of(text, "big")), b"<Invalid UTF16BE>"),
}


def text_as_utf8(text, encoding, out):
    scalars_of, placeholder = ENCODINGS[encoding]
    up_to_stop = text[:length_up_to_stop(text, encoding)]
    try:
        content, damaged = b"".join(utf8_of_scalar(scalar) for scalar in scalars_of(up_to_stop)), 0
    except Damaged:
        content, damaged = placeholder, 1
    try:
        return Text(count=len(content), damaged=damaged), placed(content, out)
    except Refusal as refusal:
        return Text(refusal.number, refusal.told), out


def text_latin1(text, out):
    return text_as_utf8(text, LATIN1, out)


def text_utf8(text, out):
    return text_as_utf8(text, UTF8, out)


def text_utf16_le(text, out):
    return text_as_utf8(text, UTF16_LE, out)


def text_utf16_be(text, out):
    return text_as_utf8(text, UTF16_BE, out)


def text_by_type(data_type, text, out):
    if data_type not in TEXTS:
        return Text(NO_TEXT_TYPE), out
    return text_as_utf8(text, data_type, out)


def text_room(length):
    return min(max(2 * length, 17), LARGEST)


# ---- from chain to record ----------------------------------------------------------------------------------------------


def check_file_length(file):
    refuse_if(len(file) > MOST_FILE_BYTES, FILE_TOO_LONG)


def is_no_block_address(file, address):
    return address == 0 or address + HEADER_SIZE > len(file)


def numbers_at(block, place, count):
    return [little(block, place + 8 * i, 8) for i in range(count)]


class ChainList(NamedTuple):
    """A list of a chain. declared: its one length, or an offset for each link."""
    next: int
    links: list
    has_one_length: bool
    declared: list


def chain_list_at(file, address):
    """The list at an address. Its slice runs from there to the end of the file."""
    refuse_if(is_no_block_address(file, address), NO_BLOCK_THERE)
    block = file[address:]
    read = list_of(block)
    fields_take = read.rest_at + 8 * read.rest_count
    refuse_if(read.data_block_count != read.data_link_count or read.header.block_len < fields_take, LIST_DISAGREES)
    return ChainList(
        next=read.next_addr,
        links=numbers_at(block, read.data_links_at, read.data_link_count),
        has_one_length=bool(read.flags & 1),  # the other bits play no part
        declared=numbers_at(block, read.rest_at, read.rest_count))


def is_last_of_chain(chain_list):
    return chain_list.next == 0


def fits_first(chain_list, first):
    """Whether a list has the form, length and count of its chain's first list; only the last list may count fewer."""
    if chain_list.has_one_length != first.has_one_length:
        return False
    if not first.has_one_length:
        return True  # each offset is held against the data, and counts are free
    count, first_count = len(chain_list.links), len(first.links)
    is_count_kept = count == first_count or (is_last_of_chain(chain_list) and count < first_count)
    return chain_list.declared == first.declared and is_count_kept


def fragment_at(file, address, data_id):
    """A fragment's data: its block after the first 24 bytes."""
    refuse_if(is_no_block_address(file, address), NO_BLOCK_THERE)
    header = header_of(file[address:address + HEADER_SIZE])
    end = address + header.block_len
    is_sound = (little_bytes(header.id, 4) == data_id and header.link_count == 0
                and header.block_len >= HEADER_SIZE and end <= len(file))
    refuse_if(not is_sound, BAD_DATA_BLOCK)
    return file[address + HEADER_SIZE:end]


def is_declared_truly(chain_list, index, data_before, data):
    """What a list says of its fragment number `index`, against the fragment."""
    if not chain_list.has_one_length:
        return chain_list.declared[index] == data_before
    length = chain_list.declared[0]
    may_be_short = is_last_of_chain(chain_list) and index == len(chain_list.links) - 1
    return len(data) == length or (may_be_short and len(data) < length)


def fragments_of_chain(file, start, data_id=DATA_ID):
    """The address and the data of each fragment, in chain order; refused with 7 first.

    The fragments are blocks of one id. The lists that link them are ##DL blocks, whatever that id is.
    Only a next link of 0 ends the chain: a list that links back to itself is read again, until a limit is passed.
    """
    check_file_length(file)
    found, joined_size = [], 0
    lists, fragments, address, first = 0, 0, start, None
    while True:
        refuse_if(lists == MOST_LISTS, TOO_MANY_LISTS)
        chain_list = chain_list_at(file, address)
        first = first or chain_list
        lists += 1
        fragments += len(chain_list.links)
        refuse_if(fragments > MOST_FRAGMENTS, TOO_MANY_FRAGMENTS)
        refuse_if(not fits_first(chain_list, first), UNTRUE_DECLARATION)
        for index, link in enumerate(chain_list.links):
            data = fragment_at(file, link, data_id)
            refuse_if(not is_declared_truly(chain_list, index, joined_size, data), UNTRUE_DECLARATION)
            found.append((link, data))
            joined_size += len(data)
        if is_last_of_chain(chain_list):
            return found
        address = chain_list.next


def joined_data(file, start, data_id=DATA_ID):
    return b"".join(data for _, data in fragments_of_chain(file, start, data_id))


def data_length(file, start):
    try:
        return Length(length=len(joined_data(file, start)))
    except Refusal as refusal:
        return Length(refusal.number, refusal.told)


def check_record_size(record_size, buffer_size):
    refuse_if(record_size == 0 or record_size > MOST_RECORD_BYTES or buffer_size < record_size, BAD_RECORD_SIZE)


def record_place(number, record_size, joined_size):
    """Where a record stands in so many bytes of joined data."""
    end = (number + 1) * record_size
    refuse_if(end > joined_size, NO_SUCH_RECORD)
    return slice(end - record_size, end)


def record_of(file, start, number, record_size, buffer_size):
    check_record_size(record_size, buffer_size)
    joined = joined_data(file, start)
    return joined[record_place(number, record_size, len(joined))]


def read_record(file, start, number, record_size, buffer):
    try:
        return Done(), placed(record_of(file, start, number, record_size, len(buffer)), buffer)
    except Refusal as refusal:
        return Done(refusal.number, refusal.told), buffer


def value_fetched(fetched, buffer, record_size, group, channel):
    """The field is read from the record's bytes alone, and the record stays even if its field or its length is refused."""
    if fetched.reply != ANSWER:
        return ValidValue(fetched.reply, told=fetched.told), buffer
    return decode_valid_value(buffer[:record_size], group, channel), buffer


def record_value(file, start, number, record_size, group, channel, buffer):
    return value_fetched(*read_record(file, start, number, record_size, buffer), record_size, group, channel)


# ---- one channel over all records --------------------------------------------------------------------------------------


def float_of(bits):
    """Python compares these as the rules say: the two zeros are equal, and a NaN is not even equal to itself."""
    return struct.unpack("<d", struct.pack("<Q", bits))[0]


def is_nan(bits):
    return float_of(bits) != float_of(bits)


def integer_in(value):
    """What a value adds to the sum."""
    if value.kind == DOUBLE_KIND:
        return 0
    return signed_of(value.number) if value.kind == SIGNED_KIND else value.number


def outermost(points):
    """The four fields of a report. min() and max() keep the first of equal ones."""
    def as_float(point):
        return float_of(point.value)
    if not points:
        return {}
    return {"has_doubles": 1, "first": points[0], "last": points[-1], "smallest": min(points, key=as_float),
            "largest": max(points, key=as_float)}


def report_of(values):
    """Of the values of all records in turn, each with its validity, or refused."""
    refused = [value for value in values if value.reply != ANSWER]
    valid = [(number, value) for number, value in enumerate(values) if value.is_valid]
    doubles = [Point(number, double_in(value)) for number, value in valid]
    total = sum(integer_in(value) for _, value in valid)
    return Report(
        records=len(values),
        valid=len(valid),
        invalid=len(values) - len(valid) - len(refused),
        without_value=len(refused),
        nan=sum(is_nan(point.value) for point in doubles),
        **outermost([point for point in doubles if not is_nan(point.value)]),
        sum_high=total // 2**64,
        sum_low=total % 2**64)


def report(file, start, record_size, group, channel, buffer):
    """A record of that size is asked once for 28 and 29, even if there is none: its bytes play no part in them."""
    try:
        check_record_size(record_size, len(buffer))
        joined = joined_data(file, start)
        refuse_if(channel.data_type not in NUMBERS or is_variable_length(channel), NO_NUMBER_CHANNEL)
        validity_of(bytes(record_size), group, channel)
        records = [joined[end - record_size:end] for end in range(record_size, len(joined) + 1, record_size)]
        after = placed(records[-1], buffer) if records else buffer
        return report_of([decode_valid_value(record, group, channel) for record in records]), after
    except Refusal as refusal:
        return Report(refusal.number, refusal.told), buffer


# ---- from table to record ----------------------------------------------------------------------------------------------


def table_of(fragments):
    """The table of fragments, each an address and its data, in which all else is 0."""
    ends = list(itertools.accumulate((len(data) for _, data in fragments), initial=0))
    used = [Fragment(address, position) for (address, _), position in zip(fragments, ends)]
    return Table(len(used), ends[-1], (*used, *Table().fragments[len(used):]))


def with_fragment(table, place, fragment):
    return table._replace(fragments=(*table.fragments[:place], fragment, *table.fragments[place + 1:]))


def borders_of(table):
    """Where the data of each fragment in use begins in the joined data, and at last where all of it ends."""
    return [fragment.data_position for fragment in table.fragments[:table.fragment_count]] + [table.data_length]


def check_table(table):
    """What can be seen without the file. Where no fragment is in use, the end is the only border, and is the beginning too."""
    refuse_if(table.fragment_count > MOST_TABLE_FRAGMENTS, BAD_TABLE)
    borders = borders_of(table)
    refuse_if(borders[0] != 0 or borders != sorted(borders), BAD_TABLE)


def data_places(file, table):
    """Where the data of each fragment in use stands in the file; refused with 7 first, then with 32."""
    check_file_length(file)
    check_table(table)
    borders, places = borders_of(table), []
    for fragment, begin, end in zip(table.fragments, borders, borders[1:]):
        address = fragment.block_addr + HEADER_SIZE
        places.append(slice(address, address + end - begin))
    refuse_if(any(place.stop > len(file) for place in places), BAD_TABLE)
    return places


def open_table(file, start, table):
    try:
        fragments = fragments_of_chain(file, start)
        refuse_if(len(fragments) > MOST_TABLE_FRAGMENTS, TABLE_FULL)
        return Done(), table_of(fragments)
    except Refusal as refusal:
        return Done(refusal.number, refusal.told), table


def extend_table(file, block_addr, table):
    try:
        data_places(file, table)
        data, place = fragment_at(file, block_addr, DATA_ID), table.fragment_count
        refuse_if(place == MOST_TABLE_FRAGMENTS, TABLE_FULL)
        longer = with_fragment(table, place, Fragment(block_addr, table.data_length))
        return Done(), longer._replace(fragment_count=place + 1, data_length=table.data_length + len(data))
    except Refusal as refusal:
        return Done(refusal.number, refusal.told), table


def shorten_table(table):
    try:
        check_table(table)
        refuse_if(table.fragment_count == 0, TABLE_EMPTY)
        place = table.fragment_count - 1
        shorter = with_fragment(table, place, Fragment())
        return Done(), shorter._replace(fragment_count=place, data_length=table.fragments[place].data_position)
    except Refusal as refusal:
        return Done(refusal.number, refusal.told), table


def record_by_table(file, table, number, record_size, buffer_size):
    """The headers are not read again, and no byte of the file is, if the record is not there."""
    check_record_size(record_size, buffer_size)
    places = data_places(file, table)
    wanted = record_place(number, record_size, table.data_length)
    return b"".join(file[place] for place in places)[wanted]


def table_record(file, table, number, record_size, buffer):
    try:
        return Done(), placed(record_by_table(file, table, number, record_size, len(buffer)), buffer)
    except Refusal as refusal:
        return Done(refusal.number, refusal.told), buffer


def table_value(file, table, number, record_size, group, channel, buffer):
    return value_fetched(*table_record(file, table, number, record_size, buffer), record_size, group, channel)


# ---- from record to payload --------------------------------------------------------------------------------------------

POSITION_SIZE, PAYLOAD_LENGTH_SIZE = 8, 4


def holds_position(channel):
    """Whether the channel's field in the record is eight whole bytes that tell where its payload stands."""
    return is_variable_length(channel) and channel.bit_offset == 0 and channel.bit_count == 8 * POSITION_SIZE


def position_of(record, id_size, channel):
    """Little-endian for every data type, since that is the payload's."""
    place = id_size + channel.byte_offset
    refuse_if(place + POSITION_SIZE > len(record), FIELD_OUTSIDE, place + POSITION_SIZE)
    return little(record, place, POSITION_SIZE)


def payload_at(joined, position):
    """The bytes behind the length that stands at a position of the joined data."""
    begin = position + PAYLOAD_LENGTH_SIZE
    refuse_if(begin > len(joined), PAYLOAD_OUTSIDE)
    end = begin + little(joined, position, PAYLOAD_LENGTH_SIZE)
    refuse_if(end > len(joined), PAYLOAD_OUTSIDE)
    return joined[begin:end]


def record_payload(file, start, number, record_size, group, channel, record, payload):
    """The two buffers change in turn, so that what was fetched before a refusal stays."""
    try:
        refuse_if(not holds_position(channel), NO_POSITION)
        fetched = record_of(file, start, number, record_size, len(record))
        record = placed(fetched, record)
        position = position_of(fetched, group.record_id_size, channel)
        content = payload_at(joined_data(file, channel.data_addr, SIGNAL_ID), position)
        payload = placed(content, payload)
        value = value_of(content, group.record_id_size, channel)
        is_valid = check_validity_unbounded(fetched, group, channel)
        return Payload(**value._asdict(), payload_length=len(content), is_valid=is_valid), record, payload
    except Refusal as refusal:
        return Payload(refusal.number, told=refusal.told), record, payload
