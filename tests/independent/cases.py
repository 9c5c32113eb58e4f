"""Cases for every call, the same ones for the same seed: first the boundaries in turn, then random ones without end.

A case is (call, arguments), with the arguments as reference.py takes them, or for a history histories.py.
"""

import itertools
import random
import struct

from histories import EXTEND, OPEN, RECORD, SHORTEN, VALUE, WRITE, Step, with_word
from protocol import LongFile
from reference import (NAN, Channel, ChannelBlock, Fragment, Group, Header, Number, Table, borders_of, decode_value,
                       open_table, table_of)

U8 = 2**8 - 1
U16 = 2**16 - 1
U32 = 2**32 - 1
U64 = 2**64 - 1

TYPE_CODES = list(range(21)) + [255]
BIT_OFFSETS = list(range(9)) + [255]
BIT_COUNTS = list(range(71)) + [U32]
ID_SIZES = list(range(10))
HUGE_ID_SIZES = [2**32 - 1, 2**32, 2**63, 2**64 - 2**32, U64 - 9, U64 - 1, U64]
NUMBER_TYPES = range(6)
TEXT_CALLS = {"text_latin1": "latin-1", "text_utf8": "utf-8", "text_utf16_le": "utf-16-le", "text_utf16_be": "utf-16-be"}


def edge_number(rng, most):
    """A number of a field that holds up to `most`: often small or near the end."""
    return rng.choice([0, 1, 2, rng.randint(0, 40), most // 2, most // 2 + 1, most - 1, most, rng.randint(0, most)])


def some_bytes(rng, length):
    """Random bytes, now and then all zeros or all ones."""
    return rng.choice([bytes(length), b"\xff" * length] + 6 * [rng.randbytes(length)])


def out_sizes(needed):
    """Empty, one short, exact, larger."""
    return sorted({0, max(0, needed - 1), needed, needed + 1, needed + 9})


def out_buffer(rng, size):
    return rng.choice([b"\xa5" * size, rng.randbytes(size)])


# ---- headers and types -------------------------------------------------------------------------------------------------


def random_header(rng):
    return Header(edge_number(rng, U32), edge_number(rng, U32), edge_number(rng, U64), edge_number(rng, U64))


def header_boundaries(rng):
    for length in range(50):
        yield "read_header", (some_bytes(rng, length),)
        yield "write_header", (random_header(rng), out_buffer(rng, length))
    for fill in (0x00, 0x23, 0x80, 0xFF):
        yield "read_header", (bytes([fill]) * 24,)
    yield "write_header", (Header(U32, U32, U64, U64), bytes(24))


def random_header_case(rng):
    length = rng.choice([0, 1, 22, 23, 24, 25, rng.randint(0, 60)])
    if rng.random() < 0.5:
        return "read_header", (some_bytes(rng, length),)
    return "write_header", (random_header(rng), out_buffer(rng, length))


def version_boundaries(_rng):
    yield "version", ()


def type_boundaries(_rng):
    for code in range(256):
        yield "type_code", (code,)
        yield "default_bits", (code,)


# ---- data lists --------------------------------------------------------------------------------------------------------


def list_block(fields):
    """The bytes of a list from its fields, however wrong they are."""
    return (fields["id"] + fields["reserved0"].to_bytes(4, "little") + fields["block_len"].to_bytes(8, "little")
            + fields["link_count"].to_bytes(8, "little") + fields["next"].to_bytes(8, "little")
            + b"".join(link.to_bytes(8, "little") for link in fields["links"])
            + bytes([fields["flags"]]) + fields["reserved1"].to_bytes(3, "little")
            + fields["count"].to_bytes(4, "little") + b"".join(number.to_bytes(8, "little") for number in fields["rest"]))


def list_fields(next_list, links, flags, rest):
    """A list in which everything agrees."""
    return {"id": b"##DL", "reserved0": 0, "block_len": 40 + 8 * len(links) + 8 * len(rest), "link_count": len(links) + 1,
            "next": next_list, "links": links, "flags": flags, "reserved1": 0, "count": len(links), "rest": rest}


def random_list_fields(rng, links_count):
    flags = rng.choice([0, 0, 1, 1, 2, 3, 254, 255])
    rest = [edge_number(rng, U64) for _ in range(1 if flags & 1 else links_count)]
    fields = list_fields(edge_number(rng, U64), [edge_number(rng, U64) for _ in range(links_count)], flags, rest)
    if rng.random() < 0.3:
        fields.update(reserved0=edge_number(rng, U32), reserved1=edge_number(rng, 2**24 - 1),
                      block_len=edge_number(rng, U64))
    return fields


def list_read_boundaries(rng):
    for links_count, flags, surplus in itertools.product(range(4), (0, 1, 2, 3, 255), (-1, 0, 1, 2, U32)):
        fields = random_list_fields(rng, links_count)
        fields["flags"] = flags
        fields["count"] = min(U32, max(0, links_count + surplus))
        fields["rest"] = [edge_number(rng, U64) for _ in range(max(1, min(fields["count"], 6)))]
        block = list_block(fields)
        after_links = 32 + 8 * links_count
        rest_at = after_links + 8
        for boundary in {0, 24, 32, after_links, rest_at, rest_at + 8, rest_at + 8 * fields["count"]}:
            for length in (boundary - 1, boundary, boundary + 1):
                if 0 <= length <= len(block):
                    yield "read_list", (block[:length],)
        yield "read_list", (block + rng.randbytes(5),)


def list_id_and_link_boundaries(rng):
    for wrong in (b"##DT", b"##dl", b"DL##", bytes(4), b"\xff\xff\xff\xff", b"#\xc3DL", b" #DL", b"# DL", b"##EL", b"##DM"):
        fields = random_list_fields(rng, 1)
        fields["id"] = wrong
        yield "read_list", (list_block(fields),)
        yield "read_list", (list_block(fields)[:23],)  # too few bytes comes before another id
        fields["link_count"] = 0
        yield "read_list", (list_block(fields),)  # another id comes before no links
    # 8 bytes a link pass 2^64 from 2^61 - 4 links on, and would wrap to small sums.
    around_wrapping = [2**61 + i for i in range(-8, 9)]
    others = [0, 1, 2, 3, 4, 5, 6, 2**32 - 1, 2**32, 2**60, 2**62, 2**62 + 1, 2**63 - 1, 2**63, 2**63 + 1, U64 - 1, U64]
    for link_count in around_wrapping + others:
        for length in (24, 31, 32, 40, 56):
            fields = random_list_fields(rng, 2)
            fields["link_count"] = link_count
            yield "read_list", (list_block(fields)[:length],)


def list_write_boundaries(rng):
    for links_count in (0, 1, 2, 3, 5):
        links = [edge_number(rng, U64) for _ in range(links_count)]
        for size in out_sizes(48 + 8 * links_count):
            yield "write_list_equal", (edge_number(rng, U64), links, edge_number(rng, U64), out_buffer(rng, size))
        for offsets_count in {max(0, links_count - 1), links_count, links_count + 1}:
            offsets = [edge_number(rng, U64) for _ in range(offsets_count)]
            for size in out_sizes(40 + 16 * links_count):
                yield "write_list_variable", (edge_number(rng, U64), links, offsets, out_buffer(rng, size))
    for links_count in (4095, 4096, 4097):
        links = [rng.getrandbits(64) for _ in range(links_count)]
        for size in (0, 47 + 8 * links_count, 48 + 8 * links_count):
            yield "write_list_equal", (rng.getrandbits(64), links, rng.getrandbits(64), bytes(size))
        for size in (0, 39 + 16 * links_count, 41 + 16 * links_count):
            yield "write_list_variable", (rng.getrandbits(64), links, links[::-1], bytes(size))
    yield "write_list_variable", (0, list(range(4096)), list(range(4097)), bytes(70000))
    yield "write_list_variable", (0, list(range(4096)), list(range(4095)), bytes(70000))


def random_list_case(rng):
    links_count = rng.choice([0, 1, 2, 3, 4, rng.randint(0, 20)])
    fields = random_list_fields(rng, links_count)
    choice = rng.random()
    if choice < 0.5:
        if rng.random() < 0.2:
            fields[rng.choice(["link_count", "next"])] = edge_number(rng, U64)
        if rng.random() < 0.2:
            fields["count"] = rng.choice([0, links_count + 1, edge_number(rng, U32)])
        if rng.random() < 0.1:
            fields["id"] = rng.choice([b"##DT", b"##CN", rng.randbytes(4)])
        block = list_block(fields)
        cut = rng.choice([len(block), len(block), rng.randint(0, len(block))])
        return "read_list", ((block + rng.randbytes(rng.choice([0, 0, 3])))[:cut],)
    if choice < 0.75:
        size = rng.choice(out_sizes(48 + 8 * links_count))
        return "write_list_equal", (fields["next"], fields["links"], edge_number(rng, U64), out_buffer(rng, size))
    size = rng.choice(out_sizes(40 + 16 * links_count))
    offsets = [edge_number(rng, U64) for _ in range(rng.choice([links_count] * 6 + [links_count + 1, 0]))]
    return "write_list_variable", (fields["next"], fields["links"], offsets, out_buffer(rng, size))


# ---- values ------------------------------------------------------------------------------------------------------------


def span_size(channel):
    """About how many bytes the field takes; only to choose where records end."""
    if 6 <= channel.data_type <= 12:
        return min(channel.bit_count, 4096) // 8
    return max(1, (channel.bit_offset + min(channel.bit_count, 4096) + 7) // 8)


def whole_group(record_size, id_size=0, invalidation_bytes=0):
    """One whose records have that size."""
    return Group(id_size, record_size - id_size - invalidation_bytes, invalidation_bytes)


def any_group(rng, record_size, id_size):
    return Group(id_size, rng.choice([0, 1, record_size, edge_number(rng, U32)]), edge_number(rng, U32))


def some_group(rng, record_size, id_size):
    """Mostly one whose records have that size, at times a byte less or more."""
    wanted = record_size + rng.choice([0] * 14 + [-1, 1])
    if wanted < id_size or rng.random() < 0.1:
        return any_group(rng, record_size, id_size)
    behind_id = wanted - id_size
    invalidation_bytes = rng.choice([0, 1, 1, 2, 3, behind_id, rng.randint(0, behind_id)])
    return whole_group(wanted, id_size, min(invalidation_bytes, behind_id))


def around_bits(rng, invalidation_bytes):
    """Positions of bits, mostly among those of so many bytes, also the last of them and the first behind."""
    end = 8 * invalidation_bytes
    inside = [rng.randint(0, max(0, end - 1)) for _ in range(4)]
    return [min(U32, position) for position in inside + [max(0, end - 1), end, end + rng.randint(1, 9)]]


def with_validity(rng, channel, record_size, invalidation_bytes):
    """The channel with flags and a position that often falls inside the invalidation bytes, or else inside the record."""
    others = [rng.randint(0, 8 * record_size + 16), rng.randint(0, 70), edge_number(rng, U32)]
    position = rng.choice(around_bits(rng, invalidation_bytes) + others)
    return channel._replace(flags=rng.choice([0, 1, 2, 2, 2, 3, 4, 6, U32 - 1, U32]), pos_invalidation_bit=position)


CALLS_WITH_VALUE = ("decode_value", "decode_valid_value", "decode_valid_value_unbounded")
CALLS_WITH_DOUBLE = ("decode_double_bits", "decode_valid_double")
VALUE_CALLS = CALLS_WITH_VALUE + CALLS_WITH_DOUBLE
CALLS_WITHOUT_GROUP = ("decode_value", "decode_double_bits")


def group_for(rng, call, record_size, id_size):
    """A call that knows where the invalidation bytes end gets a group that mostly fits."""
    return (any_group if call.endswith("_unbounded") else some_group)(rng, record_size, id_size)


def value_cases(rng, record, id_size, channel, calls=VALUE_CALLS):
    for call in calls:
        if call in CALLS_WITHOUT_GROUP:
            yield call, (record, id_size, channel)
        else:
            group = group_for(rng, call, len(record), id_size)
            yield call, (record, group, with_validity(rng, channel, len(record), group.invalidation_bytes))


def as_payload(rng, channel):
    """The channel as one of variable length: its id size and byte offset then play no part."""
    return channel._replace(channel_type=1, data_addr=rng.choice([1, 8, U64]), byte_offset=edge_number(rng, U32))


def field_boundaries(rng):
    """Every type, bit offset and bit count; the record ends with the field, or one byte before or behind its end."""
    for data_type, bit_offset, bit_count in itertools.product(TYPE_CODES, BIT_OFFSETS, BIT_COUNTS):
        id_size, byte_offset = rng.choice([(0, 0), (0, 1), (1, 0), (rng.choice(ID_SIZES), rng.randint(0, 3))])
        channel = Channel(data_type, rng.choice([0, 2, 255]), bit_offset, byte_offset, bit_count)
        end = id_size + byte_offset + span_size(channel)
        whole = some_bytes(rng, end)
        for case in value_cases(rng, whole, id_size, channel):
            yield case
        other = whole[:-1] if rng.random() < 0.6 else whole + rng.randbytes(1)
        calls = [rng.choice(["decode_value", *VALUE_CALLS])]
        yield from value_cases(rng, other, id_size, channel, calls)
        payload = rng.randbytes(max(0, span_size(channel) + rng.choice([-1, 0, 0, 1, 7])))
        yield from value_cases(rng, payload, edge_number(rng, U64), as_payload(rng, channel), calls)


def type_field_boundaries(rng):
    """Every code, those of all unknown types among them: in a record, past its end, and as a payload."""
    for code in range(256):
        channel = Channel(code, rng.choice([0, 2, 255]), 0, 1, 32)
        for length in (5, 4):
            yield from value_cases(rng, some_bytes(rng, length), 0, channel)
        yield from value_cases(rng, some_bytes(rng, 4), edge_number(rng, U64), as_payload(rng, channel))
        yield "decode_valid_value", (some_bytes(rng, 5), whole_group(5), channel)


def place_boundaries(rng):
    """Fields at, one before and one past the record's end, with every id size and sums that pass 2^64."""
    for data_type, id_size in itertools.product(TYPE_CODES, ID_SIZES + HUGE_ID_SIZES):
        for bit_count, record_size in ((8, 12), (7, 12), (64, 16), (32, 0), (0, 9), (0, 0)):
            channel = Channel(data_type, 0, 0, 0, bit_count)
            at_end = record_size - id_size - span_size(channel)
            at_most = U64 - id_size - span_size(channel)  # the largest sum that can be told
            past = {at_most - 1, at_most, at_most + 1, 2**64 - id_size, 2**64 - id_size + 1, U32}
            for byte_offset in {at_end - 1, at_end, at_end + 1, at_end + 2} | past:
                if 0 <= byte_offset <= U32:
                    record = some_bytes(rng, record_size)
                    calls = [rng.choice(VALUE_CALLS)]
                    yield from value_cases(rng, record, id_size, channel._replace(byte_offset=byte_offset), calls)


def refusal_boundaries(rng):
    """Each cause of a field's refusal beside each other one: in a record that is empty, a byte short or long enough, behind
    an id with which the bytes needed pass 2^64, and in a payload."""
    widths = (0, 1, 16, 31, 32, 33, 63, 64, 65, 128, U32)
    for data_type, bit_offset, bit_count in itertools.product(TYPE_CODES, (0, 1, 7, 8, 9, 255), widths):
        id_size, byte_offset = rng.choice(ID_SIZES), rng.randint(0, 9)
        channel = Channel(data_type, rng.choice([0, 2]), bit_offset, byte_offset, bit_count)
        span = span_size(channel)
        needed = id_size + byte_offset + span
        calls = [*CALLS_WITH_VALUE, rng.choice(CALLS_WITH_DOUBLE)]
        for length in (0, max(0, needed - 1), needed):
            yield from value_cases(rng, some_bytes(rng, length), id_size, channel, calls)
        far = channel._replace(byte_offset=rng.choice([0, byte_offset, U32]))
        yield from value_cases(rng, some_bytes(rng, needed), rng.choice(HUGE_ID_SIZES), far, calls)
        payload = some_bytes(rng, rng.choice([0, max(0, span - 1), span]))
        yield from value_cases(rng, payload, edge_number(rng, U64), as_payload(rng, channel), calls)


def payload_boundaries(rng):
    """Channel types and data links that do and do not make a channel one of variable length."""
    for data_type, channel_type, data in itertools.product(TYPE_CODES, (0, 1, 2, 255), (0, 1, 2**32, U64)):
        for length in (0, 1, 2, 4, 8, 9):
            channel = Channel(data_type, channel_type, rng.choice([0, 0, 4, 8]), rng.choice([0, 0, 1, U32]),
                              rng.choice([0, 8, 16, 32, 32, 64, 65]), data_addr=data)
            calls = [rng.choice(VALUE_CALLS)]
            yield from value_cases(rng, some_bytes(rng, length), rng.choice([0, 0, 1, U64]), channel, calls)


def text_field_boundaries(rng):
    """Stops early, late and nowhere, in records and payloads of odd and even sizes."""
    for data_type, size, stop in itertools.product(range(6, 10), range(7), range(8)):
        field = bytearray(rng.choice([b"AB", b"A\0", b"\0A", b"\xd8\0", b"\xff\xfe"]) * 4)[:size]
        field[stop:stop + 2] = bytes(len(field[stop:stop + 2]))
        for before, behind in ((0, 0), (1, 0), (0, 3), (3, 1)):
            record = rng.randbytes(before) + bytes(field) + rng.randbytes(behind)
            channel = Channel(data_type, 0, rng.choice([0, 3, 255]), before, 8 * size + rng.choice([0, 7]))
            yield "decode_value", (record, 0, channel)
            yield "decode_value", (bytes(field), 5, as_payload(rng, channel))


def validity_channel(rng, flags, position):
    """Of any type, since only the flags and the position play a part."""
    return Channel(rng.choice(TYPE_CODES), rng.choice([0, 1]), 0, 0, 8, flags, position, rng.choice([0, 9]))


def validity_boundaries(rng):
    """Invalidation bytes that have no end but the record's, however many the group has."""
    def asked(record, id_size, data_bytes, channel):
        return "check_validity_unbounded", (record, Group(id_size, data_bytes, edge_number(rng, U32)), channel)

    positions = (0, 1, 7, 8, 9, 15, 16, 24, U32)
    for flags, position, id_size in itertools.product((0, 1, 2, 3, 4, U32 - 1), positions, (0, 1, 2)):
        for data_bytes in (0, 1, 2):
            yield asked(some_bytes(rng, rng.randint(0, 6)), id_size, data_bytes, validity_channel(rng, flags, position))
    for id_size, data_bytes, record_size in itertools.product(HUGE_ID_SIZES, (0, 1, 2, 9, 10, U32), (0, 1, 4, 16)):
        for position in (0, 8, 16, 64, 80, U32):  # sums at 2^64 and a little past it
            yield asked(b"\xff" * record_size, id_size, data_bytes, Channel(flags=2, pos_invalidation_bit=position))
    for size in range(1, 5):  # the byte at, one before and one past the record's end
        for position in range(8 * size + 9):
            record = rng.randbytes(size + 1)
            yield asked(record, 1, 0, Channel(flags=2, pos_invalidation_bit=position))
            lower = Channel(flags=2, pos_invalidation_bit=position - position // 16 * 8)
            yield asked(record, 0, size, lower)


# ---- where the invalidation bytes end

ALL_FLAGS = (0, 1, 2, 3, 4, 5, 6, 7, U32 - 3, U32 - 2, U32 - 1, U32)
# Those with which the bit plays no part, and those with which it tells.
BLIND_FLAGS, BIT_FLAGS = (0, 1, 3, U32 - 3, U32), (2, U32 - 1)


def area_cases(rng, record, group, flags, position):
    """The validity alone, with a field that is answered or refused as it comes, and with a payload that is answered."""
    channel = validity_channel(rng, flags, position)
    payload = as_payload(rng, channel._replace(data_type=rng.choice(TYPE_CODES[6:])))
    yield "check_validity", (record, group, channel)
    yield rng.choice(["decode_valid_value", "decode_valid_value", "decode_valid_double"]), (record, group, channel)
    yield "decode_valid_value", (record, group, payload)


def end_positions(invalidation_bytes):
    """The first bit, those around the end of so many bytes, of one less and of one more, and the last of all."""
    near = {8 * invalidation_bytes + step for step in (-9, -8, -7, -1, 0, 1, 7, 8)}
    return sorted(position for position in near | {0, U32} if 0 <= position <= U32)


def area_boundaries(rng):
    """Every length around the sum with every flag, and every position around the last bit."""
    for id_size, data_bytes, invalidation_bytes in itertools.product((0, 1, 3), (0, 1, 2, 9), (0, 1, 2, 3)):
        group = Group(id_size, data_bytes, invalidation_bytes)
        size = sum(group)
        positions = end_positions(invalidation_bytes)
        for length, flags in itertools.product(range(max(0, size - 2), size + 3), ALL_FLAGS):
            yield from area_cases(rng, some_bytes(rng, length), group, flags, rng.choice(positions))
        for position, flags in itertools.product(positions, ALL_FLAGS):
            yield from area_cases(rng, some_bytes(rng, size), group, flags, position)


def area_bit_boundaries(rng):
    """One bit set in a record of zeros, or clear in one of ones: each bit of the invalidation bytes is its own, and no other
    bit of the record plays a part."""
    for id_size, data_bytes, invalidation_bytes in itertools.product((0, 1), (0, 1, 2), (1, 2, 3)):
        group = Group(id_size, data_bytes, invalidation_bytes)
        size = sum(group)
        for bit, position in itertools.product(range(8 * size), range(8 * invalidation_bytes)):
            ones = (2**bit).to_bytes(size, "little")
            record = rng.choice([ones, bytes(byte ^ 0xFF for byte in ones)])
            yield "check_validity", (record, group, Channel(flags=2, pos_invalidation_bit=position))


def far_groups():
    """With sums below, at and past 2^32, 2^33 and 2^64."""
    ends = (0, 1, 2, 5, 2**29 - 1, 2**29, U32 - 1, U32)
    for data_bytes, invalidation_bytes in itertools.product(ends, repeat=2):
        behind_id = data_bytes + invalidation_bytes
        around = {2**64 - behind_id + step for step in (-2, -1, 0, 1, 2, 5)} | {2**63 - 1 - behind_id}
        for id_size in sorted(around | {0, 3, *HUGE_ID_SIZES}):
            if 0 <= id_size <= U64:
                yield Group(id_size, data_bytes, invalidation_bytes)


def long_record_case(rng, length, group):
    """Asked so that no byte of it is needed: of another length, or with a bit that is outside or plays no part."""
    end = 8 * group.invalidation_bytes
    position = min(U32, end + rng.choice([0, 1, 7]))
    is_refused = length != sum(group) or position >= end
    flags = rng.choice(BLIND_FLAGS + BIT_FLAGS if is_refused else BLIND_FLAGS)
    return "check_validity", (LongFile(length), group, validity_channel(rng, flags, position))


def far_sum_boundaries(rng):
    """Lengths at the exact sum, beside it, and at those that it would wrap to."""
    for group in far_groups():
        size = sum(group)
        for length in sorted({size + step for step in (-1, 0, 1)} | {size % 2**64, size % 2**32, size % 2**33, 0, 7}):
            if 0 <= length <= 40:
                yield from area_cases(rng, some_bytes(rng, length), group, rng.choice(ALL_FLAGS), edge_number(rng, U32))
            elif 0 <= length < 2**63:
                yield long_record_case(rng, length, group)


def area_order_boundaries(rng):
    """What refuses the value comes before another length, and that before a bit outside: each beside each other one."""
    widths = (0, 1, 16, 31, 32, 64, 65, U32)
    for data_type, bit_offset, bit_count in itertools.product(TYPE_CODES, (0, 7, 8), widths):
        channel = Channel(data_type, rng.choice([0, 2]), bit_offset, rng.randint(0, 9), bit_count, rng.choice(BIT_FLAGS))
        id_size, invalidation_bytes = rng.choice(ID_SIZES), rng.randint(1, 3)
        needed = id_size + channel.byte_offset + span_size(channel)
        least = id_size + invalidation_bytes
        for length, step, is_outside in itertools.product((needed - 1, needed, needed + 3), (-1, 0, 1), (0, 1)):
            group = whole_group(max(least, length + step), id_size, invalidation_bytes)
            marked = channel._replace(pos_invalidation_bit=8 * invalidation_bytes - 1 + is_outside)
            asked = rng.choice([marked, marked, as_payload(rng, marked)])
            yield "decode_valid_value", (some_bytes(rng, max(0, length)), group, asked)


def random_area_case(rng):
    """A record that mostly is of its group, with any flags and a bit around the end of the invalidation bytes."""
    group = Group(rng.choice([0, 0, 1, 2, 8]), rng.randint(0, 9), rng.choice([0, 1, 1, 2, 3, 8]))
    record = some_bytes(rng, max(0, sum(group) + rng.choice([0] * 8 + [-1, 1])))
    position = rng.choice(around_bits(rng, group.invalidation_bytes))
    return rng.choice(list(area_cases(rng, record, group, rng.choice(ALL_FLAGS + BIT_FLAGS), position)))


def bits_in_record(rng, field, bit_count, bit_offset, is_big):
    """Bytes that hold a field at a bit offset, with random bits around it."""
    size = (bit_offset + bit_count + 7) // 8
    number = rng.getrandbits(8 * size)
    number &= ~((2**bit_count - 1) << bit_offset)
    number |= field << bit_offset
    return number.to_bytes(size, "big" if is_big else "little")


def hard_significands(rng):
    """Significands of 53 bits: the ends, and random ones, even and odd."""
    random_one = 2**52 | rng.getrandbits(52)
    return [2**52, 2**52 + 1, 2**53 - 2, 2**53 - 1, random_one & ~1, random_one | 1]


def tie_boundaries(rng):
    """Integers halfway between two doubles, and one to each side, at every width that has them."""
    for bit_count, data_type in itertools.product(range(54, 65), range(4)):
        is_signed = data_type in (2, 3)
        surplus = bit_count - 53 - is_signed
        for significand, near in itertools.product(hard_significands(rng), (-1, 0, 1)):
            if surplus > 0:
                number = (significand << surplus) + 2**(surplus - 1) + near
                for field in (number, -number % 2**bit_count) if is_signed else (number,):
                    yield number_case(rng, data_type, bit_count, rng.randint(0, 7), field % 2**bit_count,
                                      "decode_double_bits")


def hard_integer(rng, bit_count):
    """Integers near powers of two, near halfway between doubles, or just random, as a field's bits."""
    top = rng.choice([rng.randint(0, bit_count), rng.randint(min(53, bit_count), bit_count)])
    kind = rng.random()
    if kind < 0.3:
        number = 2**top + rng.randint(-3, 3)
    elif kind < 0.8:
        surplus = max(0, top - 53)
        significand = rng.choice(hard_significands(rng))
        number = (significand << surplus) + 2**surplus // 2 + rng.choice([-1, 0, 0, 0, 1])
    else:
        number = rng.getrandbits(bit_count)
    return rng.choice([1, 1, -1]) * number % 2**bit_count


HARD_SINGLES = [0, 1, 2, 3, 0x400000, 0x7FFFFE, 0x7FFFFF, 0x800000, 0x800001, 0x3F800000, 0x3F800001, 0x7F7FFFFF, 0x7F800000,
                0x7F800001, 0x7FBFFFFF, 0x7FC00000, 0x7FC00001, 0x7FFFFFFF]
HARD_DOUBLES = [0, 1, 2**52 - 1, 2**52, 0x3FF0000000000000, 0x7FEFFFFFFFFFFFFF, 0x7FF0000000000000, 0x7FF0000000000001,
                0x7FF7FFFFFFFFFFFF, 0x7FF8000000000000, 0x7FF8000000000001, 0x7FFFFFFFFFFFFFFF]


def hard_float(rng, bit_count):
    sign = rng.getrandbits(1) << (bit_count - 1)
    if rng.random() < 0.3:
        return rng.getrandbits(bit_count)
    if bit_count == 32:
        return sign | rng.choice(HARD_SINGLES + [rng.getrandbits(rng.randint(1, 23))])
    return sign | rng.choice(HARD_DOUBLES)


def number_case(rng, data_type, bit_count, bit_offset, field, call=None):
    record = bits_in_record(rng, field, bit_count, bit_offset, data_type in (1, 3, 5))
    before, behind = rng.choice([(0, 0), (2, 0), (0, 2), (1, 3)])
    channel = Channel(data_type, 0, bit_offset, before, bit_count)
    call = call or rng.choice(["decode_value", "decode_double_bits", "decode_double_bits"])
    return call, (rng.randbytes(before) + record + rng.randbytes(behind), 0, channel)


def number_boundaries(rng):
    for bit_offset, sign in itertools.product(range(8), (0, 1)):
        for data_type in (4, 5):
            for field in HARD_SINGLES:
                yield number_case(rng, data_type, 32, bit_offset, sign << 31 | field)
            for field in HARD_DOUBLES:
                yield number_case(rng, data_type, 64, bit_offset, sign << 63 | field)
    for data_type, bit_count, near in itertools.product(range(4), range(50, 65), (-2, -1, 0, 1, 2)):
        for field in (2**(bit_count - 1) + near, 2**bit_count - 4 + near, 2**53 + near, 2**54 + near):
            yield number_case(rng, data_type, bit_count, rng.randint(0, 7), field % 2**bit_count)
    yield from tie_boundaries(rng)


def random_number_case(rng):
    data_type = rng.choice(list(NUMBER_TYPES))
    if data_type in (4, 5):
        bit_count = rng.choice([32, 64])
        return number_case(rng, data_type, bit_count, rng.randint(0, 7), hard_float(rng, bit_count))
    bit_count = rng.choice([rng.randint(1, 64), rng.randint(53, 64), 64])
    return number_case(rng, data_type, bit_count, rng.randint(0, 7), hard_integer(rng, bit_count))


def random_channel(rng, record_size, group):
    data_type = rng.choice(TYPE_CODES[:13] * 3 + TYPE_CODES + [rng.randint(17, 255)])
    bit_count = rng.choice([8, 16, 32, 64, rng.randint(0, 70), 8 * rng.randint(0, 12), 8 * record_size,
                            edge_number(rng, U32)])
    channel = Channel(data_type, rng.choice([0, 0, 0, 1, 2, 255]), rng.choice([0, 0, 0, 4, rng.randint(0, 9), 255]), 0,
                      bit_count, data_addr=rng.choice([0, 0, 0, 1, U64]))
    last = max(0, record_size - span_size(channel) - min(group.record_id_size, 9))
    byte_offset = rng.choice([0, last, last, rng.randint(0, last), rng.randint(0, last), last + 1, edge_number(rng, U32)])
    return with_validity(rng, channel._replace(byte_offset=byte_offset), record_size, group.invalidation_bytes)


def random_value_case(rng):
    if rng.random() < 0.4:
        return random_number_case(rng)
    record = some_bytes(rng, rng.choice([0, 1, 2, 8, 9, rng.randint(0, 24), rng.randint(0, 24)]))
    id_size = rng.choice([0, 0, 0, 1, 2, 8, rng.choice(ID_SIZES), rng.choice(HUGE_ID_SIZES)])
    call = rng.choice(["check_validity", "check_validity_unbounded", *VALUE_CALLS])
    group = group_for(rng, call, len(record), id_size)
    channel = random_channel(rng, len(record), group)
    return call, (record, id_size if call in CALLS_WITHOUT_GROUP else group, channel)


# ---- numbers written into a record -------------------------------------------------------------------------------------

UNSIGNED_KIND, SIGNED_KIND, DOUBLE_KIND = 1, 2, 3
NUMBER_KINDS = (UNSIGNED_KIND, SIGNED_KIND, DOUBLE_KIND)
OTHER_KINDS = (0, 4, 5, 6, 7, 8, 9, 255, 256, 257, 258, 259, 2**31, U32)


def kind_of_type(data_type):
    """The kind that a type of number takes."""
    return NUMBER_KINDS[data_type // 2]


def write_case(rng, channel, number, id_size=0, room=None):
    """Into a record of random bytes that ends with the field, or some bytes behind it; room: what the field gets."""
    room = span_size(channel) if room is None else room
    behind = rng.choice([0, 0, 1, 3])
    return "write_value", (id_size, channel, number, some_bytes(rng, id_size + channel.byte_offset + room + behind))


def placed_channel(rng, data_type, bit_count, bit_offset):
    """With a place in the record, and what plays no part in it."""
    channel = Channel(data_type, rng.choice([0, 0, 2, 255]), bit_offset, rng.choice([0, 0, 1, 2, 5]), bit_count,
                      rng.choice([0, 1, 2, 3, U32]), edge_number(rng, U32), 0)
    return channel._replace(channel_type=1) if rng.random() < 0.2 else channel._replace(data_addr=rng.choice([0, 0, 9, U64]))


def border_numbers(data_type, bit_count):
    """The ends of what a width holds, and the first numbers behind them, as far as 64 bits go."""
    if data_type < 2:
        numbers = {0, 1, 2**(bit_count - 1), 2**bit_count - 1, 2**bit_count, 2**bit_count + 1, U64}
        return sorted(number for number in numbers if number <= U64)
    half = 2**(bit_count - 1)
    numbers = {-half - 1, -half, -half + 1, -1, 0, 1, half - 1, half, half + 1, -2**63, 2**63 - 1, 2 * half - 1}
    return sorted(number % 2**64 for number in numbers if -2**63 <= number < 2**63)


def write_width_boundaries(rng):
    """Every width, bit offset and type of integer, at the borders of what it holds; nine bytes among the spans."""
    for bit_count, bit_offset, data_type in itertools.product(range(1, 65), range(8), range(4)):
        for number in border_numbers(data_type, bit_count):
            channel = placed_channel(rng, data_type, bit_count, bit_offset)
            yield write_case(rng, channel, Number(kind_of_type(data_type), number), rng.choice([0, 0, 1, 2, 8]))


def write_bit_boundaries(rng):
    """One bit set, or one not set, in a record of zeros and in one of ones: each bit lands in its own place alone."""
    for bit_count, bit_offset, data_type in itertools.product((1, 7, 8, 9, 12, 31, 57, 64), (0, 3, 4, 7), range(6)):
        if data_type < 4 or bit_count == 64:
            channel = Channel(data_type, 0, bit_offset, 1, bit_count)
            size = span_size(channel) + 2
            for bit in range(bit_count - (data_type in (2, 3))):
                number = Number(kind_of_type(data_type), 2**bit)
                yield "write_value", (0, channel, number, bytes(size))
                yield "write_value", (0, channel, number, b"\xff" * size)


def write_same_boundaries(rng):
    """What a field holds, written over itself: hard numbers, and every width, bit offset and type of integer."""
    shapes = itertools.product(range(1, 65), range(8), range(4))
    integers = (number_case(rng, data_type, bit_count, bit_offset, hard_integer(rng, bit_count))
                for bit_count, bit_offset, data_type in shapes)
    for _call, (record, id_size, channel) in itertools.chain(number_boundaries(rng), integers):
        read = decode_value(record, id_size, channel)
        yield "write_value", (id_size, channel, Number(read.kind, read.number), record)


def doubles_of_singles():
    """The bits of the doubles that hard singles widen to, without the NaNs."""
    for single in HARD_SINGLES + [0x00800002, 0x01000000, 0x4B7FFFFF, 0x7F000000, 0x00400001, 0x33800000, 0xC2F]:
        if single <= 0x7F800000:
            yield struct.unpack("<Q", struct.pack("<d", struct.unpack("<f", struct.pack("<I", single))[0]))[0]


# The smallest single and half of it, the largest that is no infinity, and the one halfway to what would be the next.
SMALLEST, LARGEST = 0x36A0000000000000, 0x47EFFFFFE0000000
TIES = [SMALLEST - 2**52, SMALLEST + 2**51, LARGEST + 2**28, 0x3FF0000010000000, 0x3FF0000030000000, 0x3810000000000000 - 2**29]


def hard_narrowings():
    """Doubles that a single holds, those beside them, ties, and NaNs."""
    exact = sorted(set(doubles_of_singles()))
    near = {size + step for size in exact for step in (-2**29, -2**28, -1, 0, 1, 2**28, 2**29)}
    return sorted(size for size in near | set(TIES) | {tie + step for tie in TIES for step in (-1, 1)} | set(HARD_DOUBLES)
                  | {0x7FF8000000000000 + step for step in (-1, 1, 2**29)} | {0x7FF0000020000000, 0x7FF4000000000000}
                  if 0 <= size < 2**63)


def write_float_boundaries(rng):
    sizes = hard_narrowings()
    for data_type, sign, bit_offset, size in itertools.product((4, 5), (0, 2**63), (0, 1, 4, 7), sizes):
        channel = placed_channel(rng, data_type, 32, bit_offset)
        yield write_case(rng, channel, Number(DOUBLE_KIND, sign | size))
        if bit_offset in (0, 7):
            yield write_case(rng, channel._replace(bit_count=64), Number(DOUBLE_KIND, sign | size))


def write_kind_boundaries(rng):
    """Every code of a type with every kind that is a number, and some that are none."""
    for code in range(256):
        for kind in NUMBER_KINDS + (rng.choice(OTHER_KINDS),):
            for bit_count in (32, 64, 8):
                channel = placed_channel(rng, code, bit_count, 0)
                number = rng.choice([0, 1, 2**bit_count % 2**64, U64, 0x3FF0000000000000, NAN])
                yield write_case(rng, channel, Number(kind, number), room=rng.choice([None, 8]))
    for code, kind in itertools.product(range(18), OTHER_KINDS):
        yield write_case(rng, placed_channel(rng, code, 32, 0), Number(kind, rng.choice([0, U64])))


def write_refusal_boundaries(rng):
    """What decoding refuses comes first, then another kind, then what does not fit: each beside each other one, in a record
    that is empty, a byte short or long enough, behind an id with which the bytes needed pass 2^64, and in a payload."""
    widths = (0, 1, 16, 31, 32, 33, 63, 64, 65, 128, U32)
    for data_type, bit_offset, bit_count in itertools.product(TYPE_CODES, (0, 1, 7, 8, 9, 255), widths):
        id_size, byte_offset = rng.choice(ID_SIZES), rng.randint(0, 9)
        channel = Channel(data_type, rng.choice([0, 2]), bit_offset, byte_offset, bit_count)
        span = span_size(channel)
        needed = id_size + byte_offset + span
        for kind in (kind_of_type(min(data_type, 5)), rng.choice(NUMBER_KINDS + OTHER_KINDS)):
            number = Number(kind, rng.choice([0, 1, 2**63, U64, 0x3FF0000000000001]))
            for length in (0, max(0, needed - 1), needed):
                yield "write_value", (id_size, channel, number, some_bytes(rng, length))
            far = channel._replace(byte_offset=rng.choice([0, byte_offset, U32]))
            yield "write_value", (rng.choice(HUGE_ID_SIZES), far, number, some_bytes(rng, needed))
            payload = some_bytes(rng, rng.choice([0, max(0, span - 1), span]))
            yield "write_value", (edge_number(rng, U64), as_payload(rng, channel), number, payload)


def write_place_boundaries(rng):
    """Records that end with the field or one byte before it, with every id size and sums that pass 2^64."""
    for data_type, id_size in itertools.product((0, 1, 2, 3, 4, 5, 7, 10, 13, 17), ID_SIZES + HUGE_ID_SIZES):
        for bit_count, bit_offset, record_size in ((8, 0, 12), (64, 4, 18), (32, 7, 14), (32, 0, 0)):
            channel = Channel(data_type, 0, bit_offset, 0, bit_count)
            at_end = record_size - id_size - span_size(channel)
            at_most = U64 - id_size - span_size(channel)
            for byte_offset in {at_end - 1, at_end, at_end + 1, at_most - 1, at_most, at_most + 1, 2**64 - id_size, U32}:
                if 0 <= byte_offset <= U32:
                    number = Number(kind_of_type(min(data_type, 5)), rng.choice([0, 1, 127]))
                    yield "write_value", (id_size, channel._replace(byte_offset=byte_offset), number,
                                          some_bytes(rng, record_size))


def write_payload_boundaries(rng):
    """Channel types and data links that do and do not make a channel one of variable length."""
    for data_type, channel_type, data in itertools.product(TYPE_CODES, (0, 1, 2, 255), (0, 1, 2**32, U64)):
        for length in (0, 1, 4, 8, 9):
            channel = Channel(data_type, channel_type, rng.choice([0, 0, 4, 8]), rng.choice([0, 0, 1, U32]),
                              rng.choice([0, 8, 16, 32, 32, 64, 65]), data_addr=data)
            number = Number(rng.choice([kind_of_type(min(data_type, 5)), rng.choice(NUMBER_KINDS)]), rng.choice([0, 1, U64]))
            yield "write_value", (rng.choice([0, 0, 1, U64]), channel, number, some_bytes(rng, length))


def random_number_given(rng, channel):
    """Mostly of the channel's kind, and mostly one that fits or nearly so."""
    kind = kind_of_type(channel.data_type) if channel.data_type < 6 and rng.random() < 0.9 else rng.choice(
        NUMBER_KINDS + OTHER_KINDS)
    bit_count = min(max(channel.bit_count, 1), 64)
    if kind == DOUBLE_KIND:
        return Number(kind, rng.choice([rng.getrandbits(64), rng.getrandbits(35) << 29, rng.choice(hard_narrowings()),
                                        rng.getrandbits(1) << 63 | rng.randint(0x369, 0x381) << 52 | rng.getrandbits(23) << 29,
                                        hard_float(rng, 64)]))
    field = hard_integer(rng, bit_count)
    if kind == SIGNED_KIND and field >= 2**(bit_count - 1):
        field -= 2**bit_count
    return Number(kind, rng.choice([field] * 6 + [field + 2**bit_count, edge_number(rng, U64)]) % 2**64)


def random_write_case(rng):
    if rng.random() < 0.6:
        data_type = rng.choice(list(NUMBER_TYPES))
        bit_count = rng.choice([32, 32, 64]) if data_type > 3 else rng.choice([rng.randint(1, 64), 64])
        channel = placed_channel(rng, data_type, bit_count, rng.randint(0, 7))
        return write_case(rng, channel, random_number_given(rng, channel), rng.choice([0, 0, 1, 2, 8]))
    record = some_bytes(rng, rng.choice([0, 1, 2, 8, 9, rng.randint(0, 24)]))
    id_size = rng.choice([0, 0, 0, 1, 2, 8, rng.choice(ID_SIZES), rng.choice(HUGE_ID_SIZES)])
    channel = random_channel(rng, len(record), Group(id_size))
    return "write_value", (id_size, channel, random_number_given(rng, channel), record)


# ---- fields that overlap -----------------------------------------------------------------------------------------------


def fixed_channel(rng, byte_offset, data_type=None, bit_offset=None, bit_count=None):
    """A fixed number there; what plays no part in its place is anything."""
    data_type = rng.choice(list(NUMBER_TYPES)) if data_type is None else data_type
    if bit_count is None:
        bit_count = rng.choice([32, 64]) if data_type > 3 else rng.choice([1, 1, 2, 4, 7, 8, 9, 12, 16, rng.randint(1, 64), 64])
    channel_type, data = rng.choice([(0, 0), (0, 0), (1, 0), (2, 7), (255, U64), (0, 1)])
    return Channel(data_type, channel_type, rng.randint(0, 7) if bit_offset is None else bit_offset, byte_offset, bit_count,
                   rng.choice([0, 1, 2, 3, U32]), edge_number(rng, U32), data)


def no_fixed_numbers(rng):
    """One of each cause for which an entry is no fixed number."""
    fixed = fixed_channel(rng, 0, data_type=rng.randint(0, 3))
    floating = fixed_channel(rng, 0, data_type=rng.choice([4, 5]))
    return [fixed._replace(bit_count=0), floating._replace(bit_count=0), fixed._replace(bit_offset=rng.choice([8, 9, 255])),
            floating._replace(bit_offset=8), fixed._replace(bit_count=65), fixed._replace(bit_count=U32),
            *(floating._replace(bit_count=width) for width in (1, 16, 31, 33, 63, 65, 128, U32)),
            fixed._replace(channel_type=1, data_addr=rng.choice([1, U64])), floating._replace(channel_type=1, data_addr=8),
            *(fixed._replace(data_type=code, bit_count=rng.choice([8, 32, 64])) for code in TYPE_CODES if code > 5)]


def side_by_side(count, byte_offset=0):
    """Single bits, one behind the other, so that no two share one."""
    return [Channel(k % 4, 0, k % 8, byte_offset + k // 8, 1) for k in range(count)]


def overlap_pair_boundaries(rng):
    """Two fields of every order and bit offset, up to nine bytes apart."""
    for types in itertools.product((0, 1), repeat=2):
        for first_offset, second_offset, apart in itertools.product(range(8), range(8), range(-9, 10)):
            at = rng.choice([9, 9, 100, U32 - 9])
            first = fixed_channel(rng, at, rng.choice([types[0], types[0] + 2]), first_offset)
            second = fixed_channel(rng, at + apart, rng.choice([types[1], types[1] + 2]), second_offset)
            yield "first_overlap", ([first, second],)
    for data_type, other_type in itertools.product(range(6), repeat=2):
        for apart in range(-9, 10):  # floats beside all others
            yield "first_overlap", ([fixed_channel(rng, 20, data_type), fixed_channel(rng, 20 + apart, other_type)],)


def overlap_bit_boundaries(rng):
    """A field beside a single bit, at each bit of the bytes around it: the field's bits, and no others, are a pair."""
    for data_type, bit_offset, bit_count in itertools.product(range(6), (0, 1, 4, 7), (1, 4, 8, 12, 23, 32, 57, 60, 64)):
        if data_type < 4 or bit_count in (32, 64):
            field = Channel(data_type, 0, bit_offset, 1, bit_count)
            for bit in range(8 * (span_size(field) + 2)):
                single = Channel(rng.choice([0, 1, 2, 3]), 0, bit % 8, bit // 8, 1)
                yield "first_overlap", (rng.choice([[field, single], [single, field]]),)


def overlap_list_boundaries(rng):
    """Which pair is told where there are several, and how long a list may be."""
    same = fixed_channel(rng, 3, 0, 0, 8)
    for count in (*range(9), 255, 256, 257, 258, 300):
        yield "first_overlap", ([same] * count,)
        apart = side_by_side(count)
        yield "first_overlap", (apart,)
        yield "first_overlap", (apart[::-1],)
        for bad in no_fixed_numbers(rng)[:: 9 if count > 8 else 1]:
            for place in {0, 1, count // 2, count - 1} & set(range(count)):
                for entries in (apart, [same] * count):
                    yield "first_overlap", (entries[:place] + [bad] + entries[place + 1:],)
    for count in (2, 3, 5, 256):
        for first, second in {(0, 1), (0, count - 1), (count - 2, count - 1), (count // 2 - 1, count - 1)}:
            if first < second:
                entries = side_by_side(count)
                entries[second] = entries[first]
                yield "first_overlap", (entries,)


def overlap_order_boundaries(rng):
    """Of several pairs that with the smallest first, and of these that with the smallest second."""
    for count in range(3, 8):
        pairs = list(itertools.combinations(range(count), 2))
        for _ in range(120):
            chosen = rng.sample(pairs, rng.randint(1, min(5, len(pairs))))
            entries = []
            for entry in range(count):  # byte k is in both fields of pair k; a field runs from its first byte to its last
                shared = [k for k, pair in enumerate(chosen) if entry in pair] or [20 + entry]
                entries.append(Channel(rng.choice([0, 1]), 0, 0, shared[0], 8 * (shared[-1] - shared[0] + 1)))
            yield "first_overlap", (entries,)


def overlap_place_boundaries(rng):
    """Fields at the last byte offsets, whose bytes go on behind 2^32, beside those there and those at the front."""
    for apart, data_type, other_type in itertools.product(range(10), range(6), range(6)):
        last = fixed_channel(rng, U32 - rng.randint(0, 9), data_type)
        yield "first_overlap", ([last, fixed_channel(rng, apart, other_type)],)
        yield "first_overlap", ([fixed_channel(rng, apart, other_type), last],)
        yield "first_overlap", ([last, fixed_channel(rng, U32 - apart, other_type)],)
    for entries in (side_by_side(256, U32 - 31), side_by_side(256, U32 - 31)[::-1]):
        yield "first_overlap", (entries,)


def random_overlap_case(rng):
    room = rng.choice([3, 10, 40, 200])
    start = rng.choice([0, 0, 0, 7, 2**16, U32 - 200])
    entries = [fixed_channel(rng, start + rng.randint(0, room)) for _ in range(rng.choice([2, 2, 3, 4, rng.randint(0, 20)]))]
    if rng.random() < 0.3:
        entries = side_by_side(rng.randint(0, 260), start)[:256 + rng.choice([0, 0, 4])]
        if entries and rng.random() < 0.5:
            entries[rng.randrange(len(entries))] = fixed_channel(rng, start + rng.randint(0, 32))
    if entries and rng.random() < 0.15:
        entries[rng.randrange(len(entries))] = rng.choice(no_fixed_numbers(rng))
    return "first_overlap", (entries,)


# ---- channel blocks ----------------------------------------------------------------------------------------------------

# Behind all the links, 72 bytes; the last six numbers are doubles, as bits.
CHANNEL_FIELDS = struct.Struct("<4B 4I 2B H 6Q")
LIMITS_FROM = 11
TYPE_PLACE, RESERVED_PLACE, ATTACHMENTS_PLACE = 2, 9, 10


def channel_block(fields):
    """The bytes of a channel block from its fields, however wrong they are."""
    header = struct.pack("<4s I 2Q", fields["id"], fields["reserved0"], fields["block_len"], fields["link_count"])
    links = struct.pack(f"<{len(fields['links'])}Q", *fields["links"])
    return header + links + CHANNEL_FIELDS.pack(*fields["rest"])


def hard_limit(rng):
    """A double's bits, often a NaN of some kind."""
    return rng.choice([rng.getrandbits(64), hard_float(rng, 64), rng.choice([0x7FF, 0xFFF]) << 52 | rng.getrandbits(52)])


def channel_fields(rng, links_count):
    """A block in which everything agrees."""
    kinds = [rng.choice([0, 1, edge_number(rng, U8)]), edge_number(rng, U8), rng.choice(TYPE_CODES), edge_number(rng, U8)]
    places = [edge_number(rng, U32) for _ in range(4)]
    behind = [edge_number(rng, U8), 0, links_count - 8]
    return {"id": b"##CN", "reserved0": 0, "block_len": 96 + 8 * links_count, "link_count": links_count,
            "links": [edge_number(rng, U64) for _ in range(links_count)],
            "rest": kinds + places + behind + [hard_limit(rng) for _ in range(6)]}


def random_channel_fields(rng, links_count):
    fields = channel_fields(rng, links_count)
    if rng.random() < 0.5:
        fields.update(reserved0=edge_number(rng, U32), block_len=edge_number(rng, U64))
        fields["rest"][RESERVED_PLACE] = edge_number(rng, U8)
        fields["rest"][ATTACHMENTS_PLACE] = edge_number(rng, U16)
        fields["rest"][TYPE_PLACE] = rng.getrandbits(8)
    return fields


def random_channel_block(rng):
    links = [edge_number(rng, U64) for _ in range(9)]
    kinds = [edge_number(rng, U8), edge_number(rng, U8), edge_number(rng, U8), edge_number(rng, U16)]
    channel = Channel(rng.choice(TYPE_CODES + [rng.getrandbits(8)]), edge_number(rng, U8), edge_number(rng, U8),
                      *(edge_number(rng, U32) for _ in range(4)), edge_number(rng, U64))
    return ChannelBlock(random_header(rng), *links, channel, *kinds, *(hard_limit(rng) for _ in range(6)))


def counting_channel_block():
    """Each byte of each field another one, so that two which change places show."""
    numbers = itertools.count(1)

    def field(size):
        return int.from_bytes(bytes(next(numbers) % 256 for _ in range(size)), "little")

    header = Header(field(4), field(4), field(8), field(8))
    links = [field(8) for _ in range(9)]
    channel = Channel(*map(field, (1, 1, 1, 4, 4, 4, 4, 8)))._replace(data_type=5)
    return ChannelBlock(header, *links, channel, *map(field, (1, 1, 1, 2, 8, 8, 8, 8, 8, 8)))


def channel_read_boundaries(rng):
    """Blocks of 8 links and more, cut at each length or around each border."""
    for links_count in (8, 9, 10, 12, 20, 40):
        size = 96 + 8 * links_count
        block = channel_block(random_channel_fields(rng, links_count)) + rng.randbytes(12)
        borders = (0, 24, 88, 88 + 72, 24 + 8 * links_count, size - 48, size, size + 10)
        near = {border + i for border in borders for i in range(-2, 3)}
        for length in range(size + 11) if links_count < 10 else sorted(near):
            if 0 <= length <= len(block):
                yield "read_channel", (block[:length],)
    for links_count, block_len, attachments in itertools.product((8, 9, 11), (0, 1, 24, 159, 160, 168, U64), (0, 1, 3, U16)):
        fields = channel_fields(rng, links_count)
        fields["block_len"] = block_len
        fields["rest"][ATTACHMENTS_PLACE] = attachments
        yield "read_channel", (channel_block(fields),)
    for fill in (0x00, 0xFF):
        header = channel_block(channel_fields(rng, 8))[:24]
        yield "read_channel", (header + bytes([fill]) * 136,)


def channel_id_and_link_boundaries(rng):
    for wrong in (b"##CG", b"##cn", b"CN##", bytes(4), b"\xff\xff\xff\xff", b"#\xc3CN", b" #CN", b"# CN", b"##DN", b"##CM",
                  b"##DL"):
        for link_count in (0, 7, 8, 9, 2**61 + 8, U64):
            fields = random_channel_fields(rng, 8)
            fields.update(id=wrong, link_count=link_count)
            for length in (160, 24, 23):  # too few bytes for a header comes before another id, and that before its links
                yield "read_channel", (channel_block(fields)[:length],)
    # 8 bytes a link pass 2^64 from 2^61 - 12 links on, and would wrap to the sizes of a few links.
    around_wrapping = [2**61 * turns + i for turns in range(1, 8) for i in range(-14, 13)]
    others = [2**32 - 1, 2**32, 2**32 + 7, 2**32 + 8, 2**32 + 9, 2**60, 2**61 - 100, U64 - 12, U64 - 11, U64 - 1, U64]
    for link_count in list(range(20)) + around_wrapping + others:
        for length in (23, 24, 31, 88, 96, 152, 159, 160, 168, 200):
            fields = random_channel_fields(rng, 13)
            fields["link_count"] = link_count
            yield "read_channel", (channel_block(fields)[:length],)


def channel_type_boundaries(rng):
    """Every code, those of all unknown types among them: read in blocks of 8 links and of 9, and written."""
    for code in range(256):
        for links_count in (8, 9):
            fields = channel_fields(rng, links_count)
            fields["rest"][TYPE_PLACE] = code
            yield "read_channel", (channel_block(fields),)
        block = random_channel_block(rng)
        yield "write_channel", (block._replace(channel=block.channel._replace(data_type=code)), out_buffer(rng, 160))


def channel_limit_boundaries(rng):
    """NaNs, infinities and zeros in each of the six limits."""
    for place, pattern, sign in itertools.product(range(6), HARD_DOUBLES, (0, 2**63)):
        fields = channel_fields(rng, 8)
        fields["rest"][LIMITS_FROM + place] = sign | pattern
        yield "read_channel", (channel_block(fields),)
        name = ChannelBlock._fields[-6 + place]
        yield "write_channel", (random_channel_block(rng)._replace(**{name: sign | pattern}), out_buffer(rng, 160))


def channel_write_boundaries(rng):
    counting = counting_channel_block()
    for size in list(range(170)) + [200, 1000]:
        yield "write_channel", (counting, out_buffer(rng, size))
        yield "write_channel", (random_channel_block(rng), out_buffer(rng, size))
    for number in (0, 1, U8, U16, U32, U64):  # what is not looked at
        unseen = counting._replace(header=Header(number % 2**32, number % 2**32, number, number), more_links_at=number,
                                   more_link_count=number, reserved1=number % 2**8, attachment_count=number % 2**16)
        for size in out_sizes(160):
            yield "write_channel", (unseen, out_buffer(rng, size))
    for name in ChannelBlock._fields:  # one field alone
        if name not in ("header", "channel"):
            most = {"sync_type": U8, "precision": U8, "reserved1": U8, "attachment_count": U16}.get(name, U64)
            yield "write_channel", (ChannelBlock()._replace(**{name: most}), bytes(160))
    for name, most in zip(Channel._fields, (U8, U8, U8, U32, U32, U32, U32, U64)):
        yield "write_channel", (ChannelBlock(channel=Channel()._replace(**{name: most})), bytes(160))


def random_channel_block_case(rng):
    if rng.random() < 0.4:
        return "write_channel", (random_channel_block(rng), out_buffer(rng, rng.choice(out_sizes(160) + [160, 161])))
    links_count = rng.choice([8, 8, 8, 9, 10, 12, rng.randint(0, 30)])
    fields = random_channel_fields(rng, max(8, links_count))
    if rng.random() < 0.2:
        fields["link_count"] = rng.choice([links_count, edge_number(rng, U64), rng.randint(0, 30),
                                         2**61 * rng.randint(1, 7) + rng.randint(-20, 20)])
    if rng.random() < 0.1:
        fields["id"] = rng.choice([b"##CG", b"##DL", rng.randbytes(4)])
    block = channel_block(fields)
    cut = rng.choice([len(block), len(block), len(block), len(block) - 1, rng.randint(0, len(block))])
    return "read_channel", (block[:cut] + rng.randbytes(rng.choice([0, 0, 3])),)


# ---- texts -------------------------------------------------------------------------------------------------------------

HARD_CHARACTERS = [0x01, 0x41, 0x7F, 0x80, 0x9F, 0xA0, 0xE9, 0xFF, 0x100, 0x7FF, 0x800, 0xFFF, 0x1000, 0xCFFF, 0xD000, 0xD7FF,
                   0xE000, 0xFEFF, 0xFFFD, 0xFFFE, 0xFFFF, 0x10000, 0x1F600, 0x3FFFF, 0x40000, 0xFFFFF, 0x100000, 0x10FFFF]
HARD_FIRST_BYTES = [0x41, 0x7F, 0x80, 0xBF, 0xC0, 0xC1, 0xC2, 0xDF, 0xE0, 0xE1, 0xEC, 0xED, 0xEE, 0xEF, 0xF0, 0xF1, 0xF3, 0xF4,
                    0xF5, 0xF7, 0xF8, 0xFB, 0xFC, 0xFE, 0xFF]
HARD_SECOND_BYTES = [0x00, 0x41, 0x7F, 0x80, 0x8F, 0x90, 0x9F, 0xA0, 0xBF, 0xC0, 0xC2, 0xFF]
HARD_UNITS = [0x0000, 0x0001, 0x0041, 0x0100, 0x00D8, 0x007F, 0x0080, 0x07FF, 0x0800, 0xD7FF, 0xD800, 0xD83D, 0xDBFF, 0xDC00,
              0xDE00, 0xDFFF, 0xE000, 0xFFFF]
PLACEHOLDERS = ["<Invalid UTF8>", "<Invalid UTF16LE>", "<Invalid UTF16BE>"]


def random_text(rng, encoding):
    most = 0xFF if encoding == "latin-1" else 0x10FFFF
    scalars = [rng.choice(HARD_CHARACTERS + [rng.randint(0x20, 0x7E)] * 12) for _ in range(rng.choice([0, 1, 2, 5, 12]))]
    return "".join(chr(scalar) for scalar in scalars if scalar <= most).encode(encoding)


def damaged_text(rng, text):
    """The text with a byte changed, dropped, added, or a NUL put in."""
    text = bytearray(text)
    place = rng.randint(0, len(text))
    kind = rng.randint(0, 5)
    if kind == 0:
        text[place:place + 1] = bytes([rng.choice(HARD_FIRST_BYTES + HARD_SECOND_BYTES)])
    elif kind == 1:
        del text[place:place + 1]
    elif kind == 2:
        del text[place:]
    elif kind == 3:
        text[place:place] = rng.choice([b"\0", b"\0\0", b"\0\0\0"])
    elif kind == 4:
        text[place:place] = rng.choice([b"\xed\xa0\x80", b"\xc0\x80", b"\xf4\x90\x80\x80", b"\xd8\0", b"\0\xdc", b"\xff"])
    else:
        text += rng.choice([b"\0 left behind", b"\0\0left behind", b"\0"])
    return bytes(text)


def about_written(text, call):
    """About how many bytes the text takes as UTF-8; only to choose output buffers around it."""
    encoding = TEXT_CALLS[call]
    if "16" in encoding:
        text = text[:len(text) // 2 * 2]
    try:
        return len(text.decode(encoding).split("\0")[0].encode())
    except UnicodeDecodeError:
        return 14 if encoding == "utf-8" else 17


def text_boundaries(rng):
    for call in ("text_latin1", "text_utf8"):
        for byte in range(256):
            text = bytes([byte])
            yield call, (text, out_buffer(rng, about_written(text, call)))
            yield call, (b"A" + text + b"B", out_buffer(rng, 20))
    endings = (b"", b"\x80", b"\xbf\x80", b"A\x80", b"\xbfA")
    for first, second, tails in itertools.product(HARD_FIRST_BYTES, HARD_SECOND_BYTES, endings):
        before = rng.choice([b"", b"A", b"\xc3\xa9"])
        yield "text_utf8", (before + bytes([first, second]) + tails, out_buffer(rng, 24))
        yield "text_utf8", (before + bytes([first]), out_buffer(rng, 24))
    for order, call in (("little", "text_utf16_le"), ("big", "text_utf16_be")):
        for first, second, odd in itertools.product(HARD_UNITS, HARD_UNITS, (b"", b"B")):
            text = first.to_bytes(2, order) + second.to_bytes(2, order) + odd
            yield call, (text, out_buffer(rng, 24))
            yield call, (text + text, out_buffer(rng, 17))
        for unit in HARD_UNITS:
            yield call, (unit.to_bytes(2, order), out_buffer(rng, 17))
            yield call, (unit.to_bytes(2, order)[:1], out_buffer(rng, 17))
    for call, encoding in TEXT_CALLS.items():
        texts = [b"", b"\0", b"\0\0", b"A\0left", b"\0A\0B", "PX1".encode(encoding), b"\xff", b"\xd8\x00", b"\x00\xd8"]
        texts += [placeholder.encode(encoding) for placeholder in PLACEHOLDERS]
        texts += [chr(scalar).encode(encoding) for scalar in HARD_CHARACTERS if encoding != "latin-1" or scalar <= 0xFF]
        for text in texts:
            needed = about_written(text, call)
            for size in out_sizes(needed) + [13, 14, 15, 16, 17, 18]:
                yield call, (text, out_buffer(rng, size))


def text_helper_boundaries(rng):
    """The call by a type's code, also of types that are no text, and the room that always suffices."""
    for code in range(256):
        for text in (b"", b"A", b"\xe9\x00", b"\xd8\x00\xd8\x00"):
            for size in (0, 1, 17):
                yield "text_by_type", (code, text, out_buffer(rng, size))
    for length in (*range(20), 2**32, 2**63 - 2, 2**63 - 1, 2**63, 2**63 + 1, U64 - 1, U64):
        yield "text_room", (length,)


def random_text_case(rng):
    call = rng.choice(list(TEXT_CALLS))
    kind = rng.random()
    if kind < 0.1:
        text = rng.randbytes(rng.randint(0, 12))
    elif kind < 0.15:
        text = "".join(rng.choice(PLACEHOLDERS)).encode(TEXT_CALLS[call])
    elif kind < 0.2:
        text = bytes(rng.choice(HARD_FIRST_BYTES + HARD_SECOND_BYTES) for _ in range(rng.randint(1, 6)))
    else:
        text = random_text(rng, TEXT_CALLS[call])
    if rng.random() < 0.5:
        text = damaged_text(rng, text)
    size = rng.choice(out_sizes(about_written(text, call)) + [0, 14, 17, 40])
    return call, (text, out_buffer(rng, size))


# ---- files with chains -------------------------------------------------------------------------------------------------


def data_block(fields):
    return (fields["id"] + fields["reserved0"].to_bytes(4, "little") + fields["block_len"].to_bytes(8, "little")
            + fields["link_count"].to_bytes(8, "little") + fields["data"])


DATA_ID, SIGNAL_ID = b"##DT", b"##SD"


def data_fields(data, data_id=DATA_ID):
    """A data block in which everything agrees."""
    return {"id": data_id, "reserved0": 0, "block_len": 24 + len(data), "link_count": 0, "data": data}


class Chain:
    """A file with a chain, whole where its plan allows that, and open to damage before its bytes are made.

    blocks: the data of each data block. plan: for each list, the numbers of the blocks that it links.
    is_equal: whether the lists have one length, `length` if it is given, or offsets.
    other_form: the number of a list that has the other form all the same. data_id: the kind of the data blocks.
    """

    def __init__(self, rng, blocks, plan, is_equal=False, length=None, other_form=None, front=None, gap=3, data_id=DATA_ID):
        self.rng = rng
        self.plan = plan
        self.forms = [is_equal != (index == other_form) for index in range(len(plan))]
        self.joined = b"".join(blocks[number] for numbers in plan for number in numbers)
        self.length = self.one_length(blocks) if length is None else length
        sizes = [24 + len(data) for data in blocks]
        sizes += [40 + 8 * len(numbers) + 8 * (1 if has_one_length else len(numbers))
                  for numbers, has_one_length in zip(plan, self.forms)]
        self.places, self.end = self.lay_out(sizes, rng.choice([24, 64, 1]) if front is None else front, gap)
        self.data_places, self.list_places = self.places[:len(blocks)], self.places[len(blocks):]
        self.datas = [data_fields(data, data_id) for data in blocks]
        self.lists = self.make_lists(blocks)
        self.start = self.list_places[0]
        self.tail = rng.choice([0, 0, 5, 24, 40])

    def lay_out(self, sizes, front, gap):
        """A place for each block, in any order, with gaps."""
        places, end = [0] * len(sizes), front
        for number in self.rng.sample(range(len(sizes)), len(sizes)):
            places[number] = end + self.rng.choice([0, 0, self.rng.randint(0, gap)])
            end = places[number] + sizes[number]
        return places, end

    def one_length(self, blocks):
        """The length of every fragment; the last list's last may be shorter, so an only one may be much shorter."""
        lengths = [len(blocks[number]) for numbers in self.plan for number in numbers]
        if not lengths:
            return self.rng.choice([0, 1, U64])
        may_be_short = len(lengths) == 1 and self.plan[-1]
        return lengths[0] + (self.rng.choice([0, 0, 1, 1000]) if may_be_short else 0)

    def make_lists(self, blocks):
        lists, before = [], 0
        for index, (numbers, has_one_length) in enumerate(zip(self.plan, self.forms)):
            next_list = self.list_places[index + 1] if index + 1 < len(self.plan) else 0
            offsets = []
            for number in numbers:
                offsets.append(before)
                before += len(blocks[number])
            links = [self.data_places[number] for number in numbers]
            flags = has_one_length | self.rng.choice([0, 0, 0, 2, 0xFE])  # the other bits play no part
            lists.append(list_fields(next_list, links, flags, [self.length] if has_one_length else offsets))
        return lists

    def file(self):
        content = bytearray(self.rng.randbytes(self.end + self.tail))
        for place, fields in zip(self.data_places, self.datas):
            block = data_block(fields)
            content[place:place + len(block)] = block
        for place, fields in zip(self.list_places, self.lists):
            block = list_block(fields)
            content[place:place + len(block)] = block
        return bytes(content)


def random_counts(rng, is_equal, most_lists=4, most_fragments=4):
    """How many fragments each list has; with one length all have as many, but for the last, which may have fewer."""
    counts = [rng.choice([0, 1, 2, 3, rng.randint(0, most_fragments)])
              for _ in range(rng.choice([1, 1, 2, 3, rng.randint(1, most_lists)]))]
    return [max(counts)] * (len(counts) - 1) + counts[-1:] if is_equal else counts


def random_chain(rng, most_bytes=12):
    """Lists of either form; empty fragments, and blocks that are listed more than once."""
    is_equal = rng.random() < 0.5
    length = rng.choice([0, 1, 2, 4, rng.randint(0, most_bytes)])
    blocks, plan = [], []
    for count in random_counts(rng, is_equal):
        numbers = []
        for _ in range(count):
            if blocks and rng.random() < 0.2:
                numbers.append(rng.randrange(len(blocks)))
            else:
                numbers.append(len(blocks))
                blocks.append(rng.randbytes(length if is_equal else rng.choice([0, 1, 2, 3, rng.randint(0, most_bytes)])))
        plan.append(numbers)
    if is_equal and plan[-1] and rng.random() < 0.4:
        plan[-1][-1] = len(blocks)
        blocks.append(rng.randbytes(rng.randint(0, length)))
    return Chain(rng, blocks, plan, is_equal)


FULL = 3  # the one length of a counted chain


def counted_chain(rng, counts, is_equal=True, lengths=None, other_form=None):
    """Lists of so many fragments each, every fragment a block of its own and full, but for the lengths given by place."""
    numbers = iter(range(sum(counts)))
    plan = [list(itertools.islice(numbers, count)) for count in counts]
    blocks = [rng.randbytes((lengths or {}).get(place, FULL)) for place in range(sum(counts))]
    return Chain(rng, blocks, plan, is_equal, FULL, other_form)


def random_misfit(rng):
    """A chain that may lack what its lists should share: any counts, perhaps a list of the other form, an odd fragment."""
    counts = random_counts(rng, is_equal=False)
    other_form = rng.choice([None, None, rng.randrange(len(counts))])
    odd = {rng.randint(0, sum(counts)): rng.randint(0, FULL + 1)}
    return counted_chain(rng, counts, rng.random() < 0.7, odd, other_form)


def with_length(chain, index, length):
    """The chain with a list that declares another length."""
    chain.lists[index]["rest"] = [length]
    return chain


def looped(chain, index=0):
    """The chain with its last list linked back to an earlier one, or to itself."""
    chain.lists[-1]["next"] = chain.list_places[index]
    return chain


def edge_addresses(rng, chain):
    length = chain.end + chain.tail
    near_end = [length - 25, length - 24, length - 23, length - 1, length, length + 1]  # a chain's file has 41 bytes or more
    inside = [rng.choice(chain.places), rng.choice(chain.list_places), rng.choice(chain.places) + 1, rng.randint(0, length)]
    return [0, 1] + near_end + [2**63, U64 - 23, U64] + inside


def edge_lengths(rng, chain, place):
    """Block lengths around 0, 24 and what is left of the file."""
    left = chain.end + chain.tail - place
    wrapping = [2**63, 2**64 - place, min(U64, 2**64 - place + 30), U64]
    return [0, 1, 23, 24, 25, left - 1, left, left + 1, rng.randint(0, left + 9)] + wrapping


LIST_DAMAGES = ["id", "link_count", "count", "block_len", "next", "flags", "reserved", "fewer"] + 2 * ["links"] + 3 * ["rest"]


def damage_list(rng, chain, index=None, name=None):
    """Damages one list, any if none is given, in one way."""
    index = rng.randrange(len(chain.lists)) if index is None else index
    fields, place = chain.lists[index], chain.list_places[index]
    name = name or rng.choice(LIST_DAMAGES)
    if name == "id":
        fields["id"] = rng.choice([b"##DT", b"##dl", b"##HL", rng.randbytes(4)])
    elif name == "link_count":
        near = len(fields["links"]) + 1
        fields["link_count"] = rng.choice([0, near - 1, near + 1, near + 2, 2**61 - 4, 2**61, 2**61 + near, 2**63, U64])
    elif name == "count":
        fields["count"] = rng.choice([0, max(0, fields["count"] - 1), min(U32, fields["count"] + 1), U32, 2**29])
    elif name == "block_len":
        right = len(list_block(fields))
        fields["block_len"] = rng.choice([0, 24, right - 1, right - 8, right + 1, 2**63, U64, 2**32 + 8]
                                         + edge_lengths(rng, chain, place))
    elif name == "next":
        fields["next"] = rng.choice([place] + edge_addresses(rng, chain))
    elif name in ("links", "rest"):
        if fields[name]:
            at = rng.randrange(len(fields[name]))
            right = fields[name][at]
            near = [max(0, right - 1), right + 1, 0, U64, 2**63, right + 2**32]
            fields[name][at] = min(U64, rng.choice(edge_addresses(rng, chain) if name == "links" else near))
    elif name == "flags":
        fields["flags"] ^= rng.choice([1, 1, 2, 4, 0xFE, 0xFF])
    elif name == "fewer":  # a fragment less, in which everything agrees
        rest = fields["rest"] if fields["flags"] & 1 else fields["rest"][:-1]
        fields.update(list_fields(fields["next"], fields["links"][:-1], fields["flags"], rest))
    else:
        fields.update(reserved0=rng.getrandbits(32), reserved1=rng.getrandbits(24))


def damage_data(rng, chain, index=None):
    if not chain.datas:
        return
    index = rng.randrange(len(chain.datas)) if index is None else index
    fields, place = chain.datas[index], chain.data_places[index]
    name = rng.choice(["id", "link_count", "block_len", "block_len", "block_len", "reserved0"])
    if name == "id":
        other_kind = SIGNAL_ID if fields["id"] == DATA_ID else DATA_ID
        fields["id"] = rng.choice([b"##DL", b"##DZ", b"##dt", other_kind, rng.randbytes(4)])
    elif name == "link_count":
        fields["link_count"] = rng.choice([1, 2**32, U64])
    elif name == "block_len":
        near = len(data_block(fields))
        fields["block_len"] = rng.choice([near - 1, near + 1, near + 2**32] + edge_lengths(rng, chain, place))
    else:
        fields["reserved0"] = rng.getrandbits(32)


def damaged_file(rng, file):
    """Cut, lengthened, or with a byte or a bit changed."""
    kind = rng.randint(0, 4)
    if kind == 0:
        return file[:rng.randint(0, len(file))]
    if kind == 1:
        return file + rng.randbytes(rng.randint(1, 30))
    if kind == 2:
        return file[:max(0, len(file) - rng.randint(1, 26))]
    content = bytearray(file)
    place = rng.randrange(len(content))
    content[place] = rng.getrandbits(8) if kind == 3 else content[place] ^ (1 << rng.randint(0, 7))
    return bytes(content)


def record_numbers(rng, joined_size, record_size):
    """First, last, one past, far past, and numbers whose place would wrap into the data."""
    size = max(1, record_size)
    last = max(0, joined_size // size - 1)
    inside = [0, last] + [rng.randint(0, last) for _ in range(3)]
    beyond = [last + 1, last + 2, 2**64 // size % 2**64, min(U64, 2**64 // size + 1), 2**63 // size, 2**63, U64]
    return 4 * inside + beyond


def record_buffer(rng, size):
    room = rng.choice([size] * 30 + [size + 1, size + 7, max(0, size - 1), 0])
    return out_buffer(rng, min(room, 16390))


def record_query(rng, joined_size, record_size=None, number=None):
    """Asks for a record, or for a channel's value in it: a call, and what it is given beside the file and the start."""
    if record_size is None:
        fitting = rng.randint(1, min(12, joined_size)) if joined_size else 1
        record_size = rng.choice([1, 2, 3, 16, rng.randint(1, 12)] + 5 * [fitting])
    if number is None:
        number = rng.choice(record_numbers(rng, joined_size, record_size))
    buffer = record_buffer(rng, min(record_size, 20000))
    if rng.random() < 0.5:
        return "read_record", (number, record_size, buffer)
    id_size = rng.choice([0, 0, 0, 1, 2, rng.choice(ID_SIZES), U64])
    group = some_group(rng, min(record_size, 20000), id_size)
    channel = random_channel(rng, min(record_size, 40), group)
    return "record_value", (number, record_size, group, channel, buffer)


def chain_query(rng, file, start, joined_size, record_size=None, number=None):
    """Asks a file for its table, for the length of its joined data, for a record, or for a channel's value in it."""
    choice = rng.random()
    if choice < 0.1:
        return "open_table", (file, start, some_table(rng))
    if choice < 0.3:
        return "data_length", (file, start)
    call, asked = record_query(rng, joined_size, record_size, number)
    return call, (file, start, *asked)


def random_chain_case(rng):
    chain = random_chain(rng) if rng.random() < 0.9 else random_misfit(rng)
    for _ in range(rng.choice([0, 0, 0, 1, 1, 1, 2])):
        rng.choice([damage_list, damage_data])(rng, chain)
    file = chain.file()
    if rng.random() < 0.15:
        file = damaged_file(rng, file)
    start = chain.start if rng.random() < 0.93 else rng.choice(edge_addresses(rng, chain))
    record_size = rng.choice([None] * 60 + [0, 16384, 16385, 2**32 + 1, U64])
    return chain_query(rng, file, start, len(chain.joined), record_size)


def first_record(chain, size=1):
    return "read_record", (chain.file(), chain.start, 0, size, bytes(size))


def every_record(rng, chain, sizes):
    """Each record of a chain, and one past the last."""
    file = chain.file()
    for size in sizes:
        for number in range(len(chain.joined) // size + 2):
            yield "read_record", (file, chain.start, number, size, out_buffer(rng, size + number % 2))


def cut_boundaries(rng):
    """The same joined data cut in several ways, each record asked for; also the file cut at each length."""
    data = bytes(range(1, 13))
    cuts = [[12], [3, 0, 9], [1] * 12, [0, 12, 0], [6, 6], [4, 4, 4], [5, 5, 2], [0, 0, 12], [11, 1]]
    for lengths in cuts:
        ends = list(itertools.accumulate(lengths))
        blocks = [data[end - length:end] for end, length in zip(ends, lengths)]
        numbers = list(range(len(blocks)))
        split, middle, one_each = rng.randint(0, len(numbers)), (len(numbers) + 1) // 2, [[number] for number in numbers]
        plans = [([numbers], False), ([numbers[:split], numbers[split:]], False), (one_each, False), ([[], numbers, []], False)]
        if len(set(lengths[:-1])) <= 1 and lengths[-1] <= lengths[0]:
            plans += [([numbers], True), ([numbers[:middle], numbers[middle:]], True), (one_each, True)]
        for plan, is_equal in plans:
            yield from every_record(rng, Chain(rng, blocks, plan, is_equal), (1, 2, 5, 12, 13))
    for plan, is_equal in (([[0, 1]], True), ([[0], [1]], True), ([[0], [1, 2]], False)):
        chain = Chain(rng, [data[:6], data[6:], b""], plan, is_equal)
        file = chain.file()
        for length in range(len(file)):
            yield "read_record", (file[:length], chain.start, 1, 4, out_buffer(rng, 4))


def query_boundaries(rng):
    """Starts, record sizes, numbers and buffers around their ends, on one sound file."""
    chain = Chain(rng, [b"\1\2\3", b"", b"\4\5\6"], [[0, 1, 2]], front=64)
    file = chain.file()
    for start in sorted({address for address in edge_addresses(rng, chain)} | {len(file) - 24, len(file) - 23}):
        yield "read_record", (file, start, 0, 2, bytes(2))
    for size in (0, 1, 2, 3, 5, 6, 7, 16, 16383, 16384, 16385, 2**32, 2**32 + 2, 2**63, U64):
        for number in (0, 1, 2, 3, 5, 6, 2**63, 2**64 // max(1, size) % 2**64, U64 - 1, U64):
            for room in {0, max(0, size - 1), size, size + 1}:
                yield "read_record", (file, chain.start, number, size, b"\x5a" * min(room, 16390))
    for length in (0, 1, 23, 24, 25, 40):
        for start in (0, 1, length - 24, length - 23, length):
            if start >= 0:
                yield "read_record", (rng.randbytes(length), start, 0, 1, bytes(1))
    yield from last_bytes_boundaries(rng)


def last_bytes_boundaries(rng):
    """An empty data block, or the header of a list, in the file's last 24 bytes, and with a byte less."""
    first, last = data_block(data_fields(b"\1\2")), data_block(data_fields(b""))
    start = 64 + len(first)
    for flags, rest in ((0, [0, 2]), (1, [2])):
        last_place = start + 56 + 8 * len(rest)
        fields = list_fields(0, [64, last_place], flags, rest)
        file = bytes(64) + first + list_block(fields) + last
        for length in range(len(file) - 26, len(file) + 1):
            yield "read_record", (file[:length], start, 0, 2, bytes(2))
            yield "read_record", ((file + bytes(3))[:length + 2], start, 1, 2, bytes(2))
    for link_count, cut in itertools.product((0, 1, 2, 2**61, U64), (0, 1)):
        header = list_block(list_fields(0, [], 0, []))[:16] + link_count.to_bytes(8, "little")
        file = rng.randbytes(30) + header
        yield "read_record", (file[:len(file) - cut], 30, 0, 1, bytes(1))


def long_file_boundaries(rng):
    """Longer than 2^40 bytes, or just 2^40 with a start that leads nowhere: answered without a look at the file."""
    for length in (2**40, 2**40 + 1, 2**40 + 2, 2**41, 2**62):
        for start in (0, 2**40 - 23, 2**40 - 22, U64):
            if length == 2**40 or start == 0:
                for size, room in ((1, 1), (0, 1), (16384, 16384), (16385, 16385), (2, 1)):
                    yield "read_record", (LongFile(length), start, 0, size, out_buffer(rng, room))
                channel = Channel(0, 0, 0, 0, 8)
                yield "record_value", (LongFile(length), start, 0, 1, whole_group(1), channel, out_buffer(rng, 1))


def loop_boundaries(rng):
    """Lists that link back: only a limit ends them, and 17 fragments pass 4,096 with the 241st reading of the list."""
    for fragments, is_equal, data in itertools.product((0, 1, 2, 15, 16, 17, 18), (True, False), (b"", b"\7")):
        yield first_record(looped(Chain(rng, [data], [[0] * fragments], is_equal, len(data))))
    for fragments in (1, 16, 17):
        yield first_record(looped(Chain(rng, [b"\7", b"\x08"], [[0] * fragments, [1] * fragments], is_equal=True)))
    for fragments, is_equal in itertools.product((1, 31, 32, 33, 40), (True, False)):
        yield first_record(looped(Chain(rng, [b""], [[0] * fragments, [0]], is_equal, 0)))
    for plan, is_equal in itertools.product(([[0], [0], [0]], [[0], [], [0]]), (True, False)):
        yield first_record(looped(Chain(rng, [b""], plan, is_equal, 0), 1))
    yield first_record(looped(Chain(rng, [b"\7"], [[0]], is_equal=True, length=2)))  # no list is the last, so none may be short


def order_boundaries(rng):
    """Two faults at once: the one that comes first in the order is told."""
    for _ in range(400):
        chain = Chain(rng, [b"\1\2\3\4", b"\5\6\7\x08", b"\x09"], [[0, 1], [0, 2]], is_equal=rng.random() < 0.5)
        for _ in range(2):
            rng.choice([damage_list, damage_list, damage_data])(rng, chain)
        yield chain_query(rng, chain.file(), chain.start, len(chain.joined), rng.choice([1, 2, 3]), rng.choice([0, 1, 5]))


def list_limit_boundaries(rng):
    """256 and 257 lists, with a fault beyond the limit too."""
    shapes = ((256, 1), (257, 1), (256, 0), (257, 0), (255, 1), (256, 16), (257, 16))
    for (lists, per_list), is_equal in itertools.product(shapes, (True, False)):
        blocks = [bytes([1, 2]), b"", bytes([3])]
        plan = [[0 if is_equal else rng.randrange(3) for _ in range(per_list)] for _ in range(lists)]
        chain = Chain(rng, blocks, plan, is_equal, gap=0)
        file = chain.file()
        for number in (0, max(0, len(chain.joined) - 1), len(chain.joined)):
            yield "read_record", (file, chain.start, number, 1, bytes(1))
        if lists == 256:
            for bad_next in (1, 7, U64, chain.end + 100):  # the 257th list is refused before its address is looked at
                chain.lists[255]["next"] = bad_next
                yield first_record(chain)
            chain.lists[255].update(next=0, link_count=0)
            yield first_record(chain)
        if lists == 257 and is_equal:  # a list that does not fit the first, behind the limit and as the last before it
            for index in (256, 255):
                yield first_record(with_length(chain, index, chain.length ^ 1))


def fragment_limit_boundaries(rng):
    """4,096 and 4,097 fragments, with a fault beyond the limit too."""
    for counts in ((4096,), (4097,), (4095, 1), (4095, 2), (4096, 0), (4096, 1), (1, 4095), (1, 4096), (2000, 2000, 96),
                   (2000, 2000, 97)):
        for is_equal in (True, False):
            chain = Chain(rng, [b"\1\2\3"], [[0] * count for count in counts], is_equal, gap=0)
            file = chain.file()
            last = len(chain.joined) // 2 - 1
            for number in (last, last + 1):
                yield "read_record", (file, chain.start, number, 2, bytes(2))
        if sum(counts) > 4096:  # too many fragments comes before a fragment's faults, but behind those of earlier lists
            chain.lists[-1]["links"][0] = 0
            yield first_record(chain, 2)
            chain.lists[0]["links"][0] = 0
            yield first_record(chain, 2)
            if len(counts) == 1:  # a list that disagrees with itself comes before too many fragments
                chain.lists[0]["block_len"] -= 1
                yield first_record(chain, 2)
                chain.lists[0].update(block_len=U64, count=4095)
                yield first_record(chain, 2)


def crowded_breach_boundaries(rng):
    """A list that does not fit the first, among 4,096 fragments and more: an untrue count and too many come before it."""
    for counts in ((4095, 1), (4095, 2), (2048, 2048), (2048, 2049), (2048, 2048, 1), (1, 4095), (1, 4096)):
        blocks, plan = [b"\1\2\3"], [[0] * count for count in counts]
        other_form = Chain(rng, blocks, plan, is_equal=True, other_form=1, gap=0)
        other_length = with_length(Chain(rng, blocks, plan, is_equal=True, gap=0), 1, 4)
        for chain in (other_form, other_length):
            yield first_record(chain)
            chain.lists[1]["count"] -= 1
            yield first_record(chain)


def limit_boundaries(rng):
    yield from list_limit_boundaries(rng)
    yield from fragment_limit_boundaries(rng)
    yield from crowded_breach_boundaries(rng)


# How many fragments each list has: as one length allows it, and as only offsets do.
FITTING_COUNTS = ((0,), (1,), (3,), (0, 0, 0), (1, 0), (1, 1), (2, 1), (2, 2, 0), (2, 2, 1), (2, 2, 2), (1, 1, 1, 1))
FREE_COUNTS = ((0, 2), (1, 2), (2, 1, 0), (1, 3, 2), (0, 2, 0, 1))


def form_boundaries(rng):
    """Whole chains of both forms, each record asked for; with one length the last fragment is full, short or empty."""
    for counts in FITTING_COUNTS:
        for last in (FULL, FULL - 1, 0) if counts[-1] else (FULL,):
            yield from every_record(rng, counted_chain(rng, counts, lengths={sum(counts) - 1: last}), (1, 2))
    for counts in FITTING_COUNTS + FREE_COUNTS:
        lengths = {place: rng.randint(0, FULL + 1) for place in range(sum(counts))}
        yield from every_record(rng, counted_chain(rng, counts, is_equal=False, lengths=lengths), (1, 2))


def list_breaches(rng, counts):
    """Chains of which one list does not fit the first, in its form, its length or its count; and the list's number."""
    for index in range(1, len(counts)):
        for is_equal in (True, False):
            yield counted_chain(rng, counts, is_equal, other_form=index), index
        places = range(sum(counts[:index]), sum(counts[:index + 1]))
        for length in (0, FULL - 1, FULL + 1):
            for lengths in (None, dict.fromkeys(places, length)):  # the list's own fragments are of that length too, or not
                yield with_length(counted_chain(rng, counts, lengths=lengths), index, length), index
        is_last = index == len(counts) - 1
        for count in range(counts[0] + 2):
            if count > counts[0] or (count < counts[0] and not is_last):
                yield counted_chain(rng, (*counts[:index], count, *counts[index + 1:])), index


def fragment_breaches(rng, counts):
    """Chains of which one fragment passes the one length, or is short where it may not be; and its list's number."""
    lists = [index for index, count in enumerate(counts) for _ in range(count)]
    for place, index in enumerate(lists):
        may_be_short = index == len(counts) - 1 and place == len(lists) - 1
        for length in (FULL + 1,) if may_be_short else (0, FULL - 1, FULL + 1):
            yield counted_chain(rng, counts, lengths={place: length}), index


def breaches(rng):
    """Chains that are whole but for one breach of what their lists should share; and the number of the list that shows it."""
    for counts in FITTING_COUNTS:
        yield from list_breaches(rng, counts)
        yield from fragment_breaches(rng, counts)


def breach_boundaries(rng):
    """Each breach alone, and beside another fault in its list or in the one before."""
    for fault in (None, "data", "id", "link_count", "count", "block_len", "next", "links"):
        for chain, index in breaches(rng):
            at = rng.choice([index, max(0, index - 1)])
            if fault == "data" and chain.plan[at]:
                damage_data(rng, chain, rng.choice(chain.plan[at]))
            elif fault in LIST_DAMAGES:
                damage_list(rng, chain, at, fault)
            yield first_record(chain)


def large_record_boundaries(rng):
    for lengths in ((16384,), (16384, 16384), (10000, 10000, 10000), (16383,), (1, 16384), (16385,)):
        chain = Chain(rng, [rng.randbytes(length) for length in lengths], [list(range(len(lengths)))])
        file = chain.file()
        for number, size, room in ((0, 16384, 16384), (1, 16384, 16384), (0, 16384, 16383), (0, 16385, 16385),
                                   (0, 16383, 16390)):
            yield "read_record", (file, chain.start, number, size, bytes(room))
        channel = Channel(0, 0, 4, 16384 - 9, 64, 2, 131071)
        for group in (Group(0, 0, 16384), Group(0, 1, 16383), Group(0, 0, 16383), Group(1, 0, 16383)):
            yield "record_value", (file, chain.start, 0, 16384, group, channel, bytes(16384))


def record_value_boundaries(rng):
    """A record that is fetched and its field refused; ids, validity bits and fields at the record's ends."""
    chain = Chain(rng, [b"\1\x34", b"\x12\0\2\2", b"\x34\x12\xff", b"\xff\xff"], [[0, 1], [2, 3]])
    file = chain.file()
    for data_type, byte_offset, bit_count in itertools.product(TYPE_CODES, (0, 1, 2, 3, 4, 5, 6), (0, 7, 8, 16, 32, 65)):
        channel = Channel(data_type, 0, 0, byte_offset, bit_count, rng.choice([0, 1, 2, 2, 3]), rng.randint(0, 40))
        number, room = rng.choice([(0, 5), (1, 5), (1, 9), (2, 5), (0, 4)])
        group = whole_group(5, rng.choice([0, 1]), rng.choice([0, 1, 2]))
        yield "record_value", (file, chain.start, number, 5, group, channel, b"\xee" * room)
        if byte_offset == 0:
            yield "record_value", (file, chain.start, number, 5, Group(1, 2, 2), as_payload(rng, channel), b"\xee" * room)


def record_refusal_boundaries(rng):
    """Each cause of a field's refusal in a record that is fetched, which then stays in the buffer."""
    chain = Chain(rng, [b"\1\x34\x12", b"\0\2\x3f\x80\0\0\1"], [[0, 1]])
    file = chain.file()
    widths = (0, 1, 16, 24, 32, 33, 64, 65, U32)
    for data_type, bit_offset, bit_count in itertools.product(NUMBER_TYPES, (0, 7, 8, 255), widths):
        for number, id_size in itertools.product((0, 1), (0, 1, rng.choice(HUGE_ID_SIZES))):
            channel = Channel(data_type, 0, bit_offset, rng.choice([0, 0, 1, 5, U32]), bit_count, rng.choice([0, 1, 2]))
            buffer, group = out_buffer(rng, rng.choice([5, 9])), some_group(rng, 5, id_size)
            yield "record_value", (file, chain.start, number, 5, group, channel, buffer)
            if id_size == 0:
                yield "record_value", (file, chain.start, number, 5, group, as_payload(rng, channel), buffer)


def record_area_boundaries(rng):
    """A record of five bytes, mostly as its group has it, with a bit around the end of the invalidation bytes. What is refused
    here stays in the buffer; that a record is not fetched is told first."""
    chain = Chain(rng, [b"\1\x34\x12", b"\0\2\x3f\x80\0\0\1"], [[0, 1]])
    file = chain.file()
    for size, flags, step in itertools.product((1, 4, 5, 5, 5, 6), ALL_FLAGS, (-9, -1, 0, 1, U32)):
        for number, id_size, room in ((0, 0, 5), (1, 1, 9), (2, 0, 5), (0, 0, 4)):
            invalidation_bytes = rng.randint(0, min(3, max(0, size - id_size)))
            group = whole_group(max(size, id_size + invalidation_bytes), id_size, invalidation_bytes)
            channel = Channel(0, 0, 0, 0, 8, flags, min(U32, max(0, 8 * invalidation_bytes + step)))
            yield "record_value", (file, chain.start, number, 5, group, channel, out_buffer(rng, room))
            yield "record_value", (file, chain.start, number, 5, group, as_payload(rng, channel), out_buffer(rng, room))
    for group in far_groups():
        if sum(group) % 2**64 == 5 or sum(group) % 2**32 == 5:
            yield "record_value", (file, chain.start, 0, 5, group, as_payload(rng, Channel(10)), out_buffer(rng, 5))


# ---- one channel over all records --------------------------------------------------------------------------------------


def records_with(rng, fields, group, channel):
    """A record for each of the fields, with any bits around it."""
    place, records = group.record_id_size + channel.byte_offset, b""
    for field in fields:
        content = bits_in_record(rng, field, channel.bit_count, channel.bit_offset, channel.data_type in (1, 3, 5))
        record = some_bytes(rng, sum(group))
        records += record[:place] + content + record[place + len(content):]
    return records


def reported(rng, data, group, channel, most=None, room=None):
    """A report of joined data that is cut anywhere, behind which there may be a part of a record."""
    size = sum(group)
    data += rng.randbytes(rng.choice([0, 0, 1, size - 1]))
    chain = cut_chain(rng, data, DATA_ID, most=most or rng.choice([1, 2, 5, size, size + 1, 3 * size, 100]))
    buffer = out_buffer(rng, size + rng.choice([0, 0, 1, 9]) if room is None else room)
    return "report", (chain.file(), chain.start, size, group, channel, buffer)


def report_case(rng, fields, data_type, bit_count, bit_offset=None, flags=None, around=None):
    """A report of these fields in turn. around: the bytes of the id, before the field, behind it and of invalidation bits."""
    bit_offset = rng.randint(0, 7) if bit_offset is None else bit_offset
    id_size, before, behind, invalidation_bytes = around or rng.choice(
        [(0, 0, 0, 0), (0, 0, 0, 1), (1, 0, 0, 0), (0, 2, 0, 1), (0, 0, 1, 0), (2, 1, 3, 2), (8, 0, 9, 1), (0, 9, 0, 0)])
    flags = rng.choice([0, 0, 0, 4] + [2, 2, 2, 6, 1, 3] * (invalidation_bytes > 0)) if flags is None else flags
    channel = Channel(data_type, rng.choice([0, 0, 1, 2, 255]), bit_offset, before, bit_count, flags,
                      rng.randrange(8 * invalidation_bytes) if invalidation_bytes else 0)
    group = Group(id_size, before + (bit_offset + bit_count + 7) // 8 + behind, invalidation_bytes)
    return reported(rng, records_with(rng, fields, group, channel), group, channel)


def hard_fields(rng, bit_count):
    """Those of an integer at the ends of its range as unsigned and as signed, some of them more than once."""
    ends = [0, 1, 2**bit_count - 1, 2**(bit_count - 1), 2**(bit_count - 1) - 1, hard_integer(rng, bit_count)]
    return [rng.choice(ends) % 2**bit_count for _ in range(rng.choice([0, 1, 2, 3, 5, 9]))]


def report_width_boundaries(rng):
    """Each width at each bit offset, so over nine bytes too, in both orders, with and without a sign."""
    for data_type, bit_count, bit_offset in itertools.product(range(4), range(1, 65), range(8)):
        yield report_case(rng, hard_fields(rng, bit_count), data_type, bit_count, bit_offset)
    for data_type, bit_count, bit_offset in itertools.product((4, 5), (32, 64), range(8)):
        yield report_case(rng, [hard_float(rng, bit_count) for _ in range(6)], data_type, bit_count, bit_offset)


def report_short_boundaries(rng):
    """Records of one to nine bytes, with a field at each of their places, up to the end or of one bit; as many records as one
    fragment can have, and as many fragments as a record."""
    for size, data_type, most in itertools.product(range(1, 10), range(4), (1, 2, 3, 7, 8, 9, 64)):
        for place in range(size):
            channel = Channel(data_type, 0, 0, place, min(64, rng.choice([1, 8 * (size - place)])))
            group = Group(0, size)
            data = records_with(rng, hard_fields(rng, channel.bit_count), group, channel)
            yield reported(rng, data, group, channel, most)


# Of 32 bits and of 64: the zeros, a number and its negative, the infinities, the smallest, and a NaN of either sign.
REPORTED_FLOATS = {32: (0, 2**31, 0x3F800000, 0xBF800000, 0x7F800000, 0xFF800000, 1, 0x7FC00000, 0xFFC00001),
                   64: (0, 2**63, 0x3FF << 52, 0xBFF << 52, 0x7FF << 52, 0xFFF << 52, 1, 0x7FF8 << 48, 0xFFF0000000000001)}


def report_float_boundaries(rng):
    """Three floats in every order, with each more than once."""
    for bit_count, floats in REPORTED_FLOATS.items():
        for fields in itertools.product(floats, repeat=3):
            yield report_case(rng, fields, rng.choice([4, 5]), bit_count, rng.choice([0, 0, rng.randint(1, 7)]), flags=0)
    for count, pattern in itertools.product((0, 1, 2), (0x7FF0000000000001, 0xFFF8 << 48)):  # NaN alone
        yield report_case(rng, [pattern] * count, 4, 64)


def report_rounding_boundaries(rng):
    """Integers over 2^53, of which several are one double, in every order: equal as doubles, and not in the sum."""
    for data_type, bit_count in itertools.product(range(4), (55, 63, 64)):
        near = [2**53 + step for step in (-1, 0, 1, 2)]
        high = [2**(bit_count - 1) - step for step in (0, 1, 2, 1024)]
        for numbers in (near, high, [-number for number in near], [-number for number in high], near[:2] + high[:2]):
            for fields in itertools.permutations([number % 2**bit_count for number in numbers], 3):
                yield report_case(rng, fields, data_type, bit_count, flags=0)


def report_sum_boundaries(rng):
    """Sums that carry into the high word and borrow from it, in one step and back."""
    for data_type, fields in itertools.product(range(4), (
            [U64] * 2, [U64, 1], [U64, 0], [2**63] * 2, [2**63] * 3, [2**63 - 1] * 3, [U64] * 40, [2**63] * 40,
            [1, 2**63, 2**63], [2**63 - 1, 1, U64], [0, U64, 1], [U64, U64, 1, 1], [2**63, 2**63 - 1, 2**63, 2**63 - 1])):
        yield report_case(rng, fields, data_type, 64, rng.choice([0, 5]), flags=0)
        yield report_case(rng, fields, data_type, 64, rng.choice([0, 5]), flags=2, around=(0, 0, 0, 1))
    for data_type, bit_count in itertools.product(range(4), (1, 8, 63)):
        yield report_case(rng, [2**bit_count - 1] * 20, data_type, bit_count, flags=0)


def report_validity_boundaries(rng):
    """Each pattern of valid records among four, by a bit that is any of the invalidation bytes."""
    for valid, position, data_type in itertools.product(range(16), (0, 3, 7, 8, 15), (0, 3, 4)):
        group, channel = Group(1, 8, 2), Channel(data_type, 0, 0, 0, 64, 2, position)
        records = records_with(rng, [hard_float(rng, 64) for _ in range(4)], group, channel)
        data = bytearray(records)
        for number in range(4):
            bit = 1 << position % 8
            place = 11 * number + 9 + position // 8
            data[place] = data[place] & ~bit if valid >> number & 1 else data[place] | bit
        yield reported(rng, bytes(data), group, channel)
    for flags, count in itertools.product(ALL_FLAGS, (0, 1, 3)):
        yield report_case(rng, [7] * count, 0, 8, 0, flags, (0, 0, 0, 1))


def no_values():
    """Numbers that have no value in a record of four bytes: one of each cause, and two."""
    return (Channel(0), Channel(4), Channel(1, bit_offset=8, bit_count=8), Channel(2, bit_offset=255, bit_count=65),
            Channel(3, bit_count=65), Channel(0, bit_count=U32), Channel(0, byte_offset=4, bit_count=8),
            Channel(0, byte_offset=U32, bit_count=64), Channel(5, byte_offset=1, bit_count=32), Channel(4, bit_count=16),
            Channel(5, bit_count=31), Channel(4, bit_offset=1, bit_count=32))


def report_refusal_boundaries(rng):
    """Channels without a value, with any flags; channels that are no fixed numbers; and both beside another length and a bit that
    is outside."""
    others = [Channel(code, kind, 0, 0, 8, data_addr=data) for code, kind, data in itertools.product(
        TYPE_CODES, (0, 1, 2), (0, 9))]
    for channel, count in itertools.product((*no_values(), *others), (0, 1, 3)):
        data = rng.randbytes(4 * count)
        for flags, position in ((0, 8), (1, 8), (2, 7), (2, 8), (3, 8)):
            asked = channel._replace(flags=flags, pos_invalidation_bit=position)
            yield reported(rng, data, Group(0, 3, 1), asked)
            call, arguments = reported(rng, data, Group(0, 3, 1), asked)
            yield call, (*arguments[:3], rng.choice([Group(0, 4, 1), Group(0, 2, 1), Group(U64, 5, 0)]), *arguments[4:])


def report_area_boundaries(rng):
    """Sizes around the group's, flags, and positions around the end of the invalidation bytes; with records and without."""
    for size, flags, step in itertools.product((1, 4, 5, 5, 6), ALL_FLAGS, (-9, -1, 0, 1, U32)):
        invalidation_bytes = rng.randint(0, min(3, size))
        channel = Channel(rng.choice([0, 2]), 0, 0, 0, 8, flags, min(U32, max(0, 8 * invalidation_bytes + step)))
        call, arguments = reported(rng, rng.randbytes(rng.choice([0, 4, 5, 16])), Group(0, 5), channel)
        yield call, (*arguments[:3], whole_group(size, 0, invalidation_bytes), *arguments[4:])
    for group in far_groups():
        if sum(group) % 2**64 == 5 or sum(group) % 2**32 == 5:
            call, arguments = reported(rng, bytes(10), Group(0, 5), Channel(bit_count=8))
            yield call, (*arguments[:3], group, *arguments[4:])


def report_order_boundaries(rng):
    """A bad record size, a file that is too long, a chain that is refused, no fixed number, another length, a bit outside, no
    value: each beside each other one."""
    channels = (Channel(bit_count=8), Channel(6, bit_count=8), as_payload(rng, Channel(bit_count=8)), Channel(bit_count=0))
    groups = (Group(0, 4), Group(0, 5), Group(0, 3, 1))
    sizes = ((4, 4), (4, 9), (0, 4), (4, 3), (4, 0), (16385, 16385), (U64, 4))
    for channel, group, flags, (size, room) in itertools.product(channels, groups, (0, 2), sizes):
        for fault in (None, "chain", "file", "both"):
            chain = cut_chain(rng, rng.randbytes(11), DATA_ID)
            if fault in ("chain", "both"):
                broken_chain(rng, chain)
            file = LongFile(2**40 + 1) if fault in ("file", "both") else chain.file()
            asked = channel._replace(flags=flags, pos_invalidation_bit=8)
            yield "report", (file, chain.start, size, group, asked, out_buffer(rng, room))


def report_size_boundaries(rng):
    """The longest record, alone and twice, with a field and a bit at its end; data that is a byte shorter; more than 4,000
    fragments; and records that fragments without data cut."""
    for length in (16384, 16383, 2 * 16384):
        channel = Channel(rng.choice([0, 3]), 0, 4, 16384 - 10, 64, 2, 7)
        chain = cut_chain(rng, rng.randbytes(length), DATA_ID, most=10000)
        for size, room in ((16384, 16384), (16384, 16383), (16384, 16390), (16385, 16390)):
            yield "report", (chain.file(), chain.start, size, Group(0, 16383, 1), channel, bytes(room))
    for count, size in itertools.product((1, 4095, 4096, 4097), (1, 2, 5)):
        chain = Chain(rng, [b"\1\2\xff"], [[0] * count], is_equal=True, gap=0)
        yield "report", (chain.file(), chain.start, size, Group(0, size), Channel(2, bit_count=8), out_buffer(rng, size))
    for counts, lengths in (((4,), (0, 1, 0, 2)), ((2, 2), (3, 0, 0, 1)), ((3, 0, 2), (0, 0, 5, 0, 1)), ((0,), ()), ((2,), (0, 0))):
        chain = counted_chain(rng, counts, False, dict(enumerate(lengths)))
        for size in (1, 2, 3, 7):
            yield "report", (chain.file(), chain.start, size, Group(0, size), Channel(bit_count=8), out_buffer(rng, size))


def random_report_case(rng):
    """Any chain, at times damaged, and a channel in its records that mostly is a number."""
    chain = random_chain(rng, 20)
    for _ in range(rng.choice([0, 0, 0, 0, 0, 1])):
        rng.choice([damage_list, damage_data])(rng, chain)
    size = rng.choice([1, 2, 3, 4, 5, 8, 9, 16, rng.randint(1, 20)])
    group = some_group(rng, size, rng.choice([0, 0, 0, 1]))
    channel = random_channel(rng, size, group)._replace(data_type=rng.choice([0, 1, 2, 3, 4, 5, rng.choice(TYPE_CODES)]))
    if rng.random() < 0.6:  # one that is not refused
        channel = channel._replace(byte_offset=0, bit_offset=0, bit_count=min(64, 8 * (size - group.record_id_size) or 8))
    return "report", (chain.file(), chain.start, size, group, channel, record_buffer(rng, size))


# ---- files with payloads -----------------------------------------------------------------------------------------------


def shared_out(rng, count, is_equal):
    """So many blocks as a plan of lists: with one length as many in each but the last, else as it comes, in some none."""
    numbers = list(range(count))
    if is_equal:
        per_list = rng.choice([1, 2, 3, max(1, count)])
        return [numbers[at:at + per_list] for at in range(0, count, per_list)] or [[]]
    ends = sorted(rng.choices(range(count + 1), k=rng.choice([0, 1, 2])))
    return [numbers[low:high] for low, high in zip([0] + ends, ends + [count])]


def cut_chain(rng, data, data_id, front=None, is_equal=None, most=5):
    """A chain with this joined data, whose fragments have so many bytes, or with offsets up to so many."""
    is_equal = rng.random() < 0.5 if is_equal is None else is_equal
    blocks = []
    while data:
        size = most if is_equal else rng.randint(0, most)
        blocks.append(data[:size])
        data = data[size:]
    return Chain(rng, blocks, shared_out(rng, len(blocks), is_equal), is_equal, front=front, data_id=data_id)


def file_of(chains):
    """One file with all these chains, each laid out behind the end of the one before."""
    file = b""
    for chain in chains:
        file += chain.file()[len(file):]
    return file


def stream_of(payloads):
    """Payloads one behind the other, each behind its length; and the place of each."""
    stream, positions = b"", []
    for payload in payloads:
        positions.append(len(stream))
        stream += len(payload).to_bytes(4, "little") + payload
    return stream, positions


def hard_payload(rng, length):
    """Random bytes, or such as hold the stop of a text in one encoding and not in another."""
    pattern = rng.choice([b"AB", b"A\0", b"\0A", b"AB\0\0", b"A\0\0B", b"\xd8\0", b"\xff\xfe"])
    return rng.choice([(pattern * length)[:length], some_bytes(rng, length)])


class PayloadCall:
    """A call for a payload that is answered, or refused for its payload alone, and open to faults before its file is made.

    stream: the joined data of the payloads. positions: what each record holds, behind an id and `before` bytes, all zeros,
    and in front of the bytes `behind`, where the invalidation bits are. cut: how the chain of payloads is cut.
    """

    def __init__(self, rng, stream, positions, data_type=10, id_size=None, before=None, behind=None, **cut):
        self.rng, self.stream, self.positions = rng, stream, positions
        self.id_size = rng.choice([0, 0, 1, 2, 8]) if id_size is None else id_size
        before = rng.choice([0, 0, 1, 5]) if before is None else before
        behind = rng.randbytes(rng.choice([0, 0, 1, 3])) if behind is None else behind
        self.record_size = self.id_size + before + 8 + len(behind)
        self.data_bytes, self.invalidation_bytes = before + 8, len(behind)
        records = b"".join(bytes(self.id_size + before) + position.to_bytes(8, "little") + behind for position in positions)
        self.lay_out(records + rng.randbytes(rng.choice([0, 0, 1, 7])), cut)
        self.long_file = None
        self.start = self.records.start
        self.channel = Channel(data_type, 1, 0, before, 64, data_addr=self.payloads.start)
        self.record = self.filled(self.record_size + rng.choice([0, 0, 9]))
        self.ask(0, rng.choice([0, 0, 1, 9]))

    def lay_out(self, records, cut):
        """The two chains in either order."""
        if self.rng.random() < 0.5:
            self.records = cut_chain(self.rng, records, DATA_ID)
            self.payloads = cut_chain(self.rng, self.stream, SIGNAL_ID, self.records.end + self.records.tail, **cut)
        else:
            self.payloads = cut_chain(self.rng, self.stream, SIGNAL_ID, **cut)
            self.records = cut_chain(self.rng, records, DATA_ID, self.payloads.end + self.payloads.tail)

    def filled(self, size):
        """A buffer whose bytes do not look like what is fetched into it."""
        return self.rng.choice([bytes(size), b"\xa5" * size])

    def ask(self, number, surplus=0):
        """Asks for the payload of that record, with about so many bytes of room more than it has."""
        place = self.positions[number]
        length = int.from_bytes(self.stream[place:place + 4], "little")
        self.number = number
        self.payload = self.filled(max(0, min(length, len(self.stream)) + surplus))

    def file(self):
        return self.long_file or file_of(sorted((self.records, self.payloads), key=lambda chain: chain.end))

    def case(self):
        group = Group(self.id_size, self.data_bytes, self.invalidation_bytes)
        return "record_payload", (self.file(), self.start, self.number, self.record_size, group, self.channel, self.record,
                                  self.payload)


def payload_cut_boundaries(rng):
    """Payloads in fragments of 0 to 5 bytes, which cut lengths and bytes everywhere; also files cut at each length."""
    stream, positions = stream_of([rng.randbytes(length) for length in (3, 0, 9, 1, 0, 8, 4, 5)])
    for is_equal, most, _ in itertools.product((True, False), range(1, 6), range(4)):
        call = PayloadCall(rng, stream, positions, is_equal=is_equal, most=most)
        for number in range(len(positions)):
            call.ask(number, rng.choice([0, 1]))
            yield call.case()
    for _ in range(4):
        name, (file, *arguments) = PayloadCall(rng, stream[:7], [0]).case()
        for length in range(len(file)):
            yield name, (file[:length], *arguments)


def payload_places(total):
    """Positions and lengths around the end of so many bytes of joined data, and some whose sums would wrap."""
    near = [total + i for i in range(-10, 3)]
    far = [2**32 - 4, 2**32, 2**32 + total - 4, 2**63 - 1, 2**63, 2**64 - total - 4] + [U64 - i for i in range(10)]
    for position in sorted({0, *near, *far}):
        left = total - position - 4
        wrapping = {2**16 + left, 2**31, 2**32 - position - 5, 2**32 - position - 4, U32}
        lengths = {0, left - 1, left, left + 1, left + 4} | wrapping
        for length in sorted(lengths) if left >= 0 else [0]:
            if 0 <= position <= U64 and 0 <= length <= U32:
                yield position, length


def payload_place_boundaries(rng):
    for total in (0, 1, 3, 4, 5, 8, 12, 13, 30):
        for position, length in payload_places(total):
            stream = rng.randbytes(total)
            if position + 4 <= total:
                stream = stream[:position] + length.to_bytes(4, "little") + stream[position + 4:]
            yield PayloadCall(rng, stream, [position], rng.choice([7, 10])).case()


def payload_type_boundaries(rng):
    """Every type with payloads of 0 to 20 bytes, in buffers of as many bytes and of more, which are no part of them."""
    for data_type, length in itertools.product(TYPE_CODES, range(21)):
        for surplus in (0, 9):
            stream, positions = stream_of([rng.randbytes(rng.randint(1, 9)), hard_payload(rng, length)])
            call = PayloadCall(rng, stream + rng.randbytes(2), positions, data_type)
            call.ask(1, surplus)
            yield call.case()


def payload_validity_boundaries(rng):
    """Flags and bits inside the record and behind it, where the payload and what is behind the record tell the contrary; how
    many invalidation bytes the group has plays no part."""
    bits = (0, 1, 7, 8, 15, 16, 23, 24, 25, 32, 64, 100, U32)
    for flags, bit, fill, surplus in itertools.product((0, 1, 2, 3, 4, 6, U32 - 1), bits, (b"\0", b"\xff"), (0, 20)):
        contrary = b"\xff" if fill == b"\0" else b"\0"
        stream, positions = stream_of([b"", contrary * 40])
        call = PayloadCall(rng, stream, positions, rng.choice([0, 3, 4, 8, 10, 16]), behind=fill * 3)
        call.ask(1, rng.choice([0, 5]))
        call.record = contrary * (call.record_size + surplus)
        call.data_bytes = rng.choice([call.data_bytes] * 3 + [0, call.record_size, U32])
        call.invalidation_bytes = rng.choice([3, 0, 1, 2, U32])
        call.channel = call.channel._replace(flags=flags, pos_invalidation_bit=bit)
        yield call.case()


def position_field_boundaries(rng):
    """The position at, before and past the record's end, with every id size and sums that pass 2^64. All else is zeros, so
    that a position read elsewhere is another one."""
    stream, positions = stream_of([b"\1", b"\2\3"])
    for id_size, surplus in itertools.product(ID_SIZES + HUGE_ID_SIZES, (0, 9)):
        for before, behind in ((0, 0), (3, 0), (2, 2)):
            call = PayloadCall(rng, stream, positions[1:], rng.choice([7, 10]), rng.choice(ID_SIZES), before, bytes(behind))
            call.id_size, call.record, call.payload = id_size, bytes(call.record_size + surplus), bytes(2)
            at_end = call.record_size - id_size - 8
            at_most = U64 - id_size - 8  # its end is the largest that can be told
            near = {at_end + i for i in (-1, 0, 1, 2, 7, 8, 9)} | {at_most + i for i in (-1, 0, 1, 2, 8, 9)}
            for byte_offset in sorted(near | {before, U32}):
                if 0 <= byte_offset <= U32:
                    call.channel = call.channel._replace(byte_offset=byte_offset, data_type=rng.choice(TYPE_CODES[6:]))
                    yield call.case()


def payload_link_boundaries(rng):
    """Starts and data links at each block of either chain, so that a chain of the one kind is read as one of the other."""
    for _ in range(5):
        call = PayloadCall(rng, *stream_of([rng.randbytes(4), rng.randbytes(9)]))
        places = {*call.records.places, *call.payloads.places}
        addresses = sorted(places | {place + 1 for place in places} | set(edge_addresses(rng, call.payloads)))
        start, link = call.start, call.channel.data_addr
        for address in addresses:
            call.start, call.channel = start, call.channel._replace(data_addr=address)
            yield call.case()
            call.start, call.channel = address, call.channel._replace(data_addr=link)
            yield call.case()
        call.start, call.channel = link, call.channel._replace(data_addr=start)
        yield call.case()


def payload_buffer_boundaries(rng):
    """Buffers of the record and of the payload, each empty, a byte short, of just the size and longer."""
    for length, data_type in itertools.product((0, 1, 7, 8, 9, 20), (0, 5, 6, 9, 12, 13)):
        call = PayloadCall(rng, *stream_of([rng.randbytes(length)]), data_type)
        for record_room, payload_room in itertools.product(out_sizes(call.record_size), out_sizes(length)):
            call.record, call.payload = out_buffer(rng, record_room), out_buffer(rng, payload_room)
            yield call.case()


def large_payload_boundaries(rng):
    """A payload is not bound to the limit of a record, nor its length to two bytes."""
    for length in (16384, 16385, 65535, 65536, 70000):
        most = rng.choice([999, 16384, 80000])
        call = PayloadCall(rng, *stream_of([rng.randbytes(length)]), rng.choice([6, 10]), most=most)
        for surplus in (-1, 0):
            call.ask(0, surplus)
            yield call.case()


# ---- faults of a call for a payload, in the order in which they are told

# The records of a call that can have each of them: one whose payload is too short for a number, and those whose payload is
# outside the joined data.
SHORT_RECORD, OUTSIDE_RECORDS = 1, (2, 3, 4)


def other_channel(rng, call):
    """Not of variable length, or its field no eight whole bytes."""
    field, numbers = rng.choice([("channel_type", (0, 2, 255)), ("data_addr", (0,)), ("bit_offset", (1, 7, 8, 255)),
                                 ("bit_count", (0, 1, 32, 63, 65, 128, 64 + 2**8, 64 + 2**16, U32))])
    call.channel = call.channel._replace(**{field: rng.choice(numbers)})


def bad_record_size(rng, call):
    size, room = rng.choice([(0, len(call.record)), (16385, 16385), (U64, len(call.record)),
                             (call.record_size, call.record_size - 1), (call.record_size, 0)])
    call.record_size, call.record = size, out_buffer(rng, room)


def too_long_file(rng, call):
    call.long_file = LongFile(2**40 + rng.choice([1, 2, 2**40]))


def broken_chain(rng, chain):
    """A damage for which the chain is refused, whatever its form."""
    fields = rng.choice([fields for fields in chain.lists if fields["links"]])
    data, last = rng.choice(chain.datas), chain.lists[-1]
    struck, damage = rng.choice([
        (fields, {"id": rng.choice([DATA_ID, SIGNAL_ID])}), (fields, {"link_count": rng.choice([0, 2**61, U64])}),
        (fields, {"count": fields["count"] - 1}), (fields, {"block_len": 47}),
        (fields, {"links": [0, *fields["links"][1:]]}), (last, {"next": U64}),
        (data, {"id": DATA_ID if data["id"] == SIGNAL_ID else SIGNAL_ID}), (data, {"link_count": 1}),
        (data, {"block_len": rng.choice([0, 23, 2**63, U64])})])
    struck.update(damage)


def broken_records(rng, call):
    broken_chain(rng, call.records)


def no_such_record(rng, call):
    call.number = rng.choice([len(call.positions), 2**61, 2**63, U64])


def position_outside(rng, call):
    past = call.record_size - call.id_size - 7
    if rng.random() < 0.5:
        call.channel = call.channel._replace(byte_offset=rng.choice([max(0, past), max(0, past) + 7, U32]))
    else:
        call.id_size = rng.choice([call.record_size, *HUGE_ID_SIZES])


def broken_payloads(rng, call):
    broken_chain(rng, call.payloads)


def payload_outside(rng, call):
    call.number = rng.choice(OUTSIDE_RECORDS)


def no_room(_rng, call):
    call.payload = call.payload[:2]


def short_number(rng, call):
    call.number = SHORT_RECORD
    call.channel = call.channel._replace(data_type=rng.choice(list(NUMBER_TYPES)))


PAYLOAD_FAULTS = (other_channel, bad_record_size, too_long_file, broken_records, no_such_record, position_outside,
                  broken_payloads, payload_outside, no_room, short_number)


def faulty_call(rng, faults):
    """A call with all these faults. What is told later is done first, so that it does not undo what is told."""
    stream, positions = stream_of([rng.randbytes(12), rng.randbytes(rng.randint(3, 7)), rng.randbytes(5)])
    stream = stream[:-1]  # so that the third payload is outside
    positions += [len(stream) - 3, rng.choice([2**63, U64 - 3, U64])]
    call = PayloadCall(rng, stream, positions, rng.choice(TYPE_CODES))
    for fault in reversed(PAYLOAD_FAULTS):
        if fault in faults:
            fault(rng, call)
    return call


def payload_order_boundaries(rng):
    """Each set of faults once, and each pair of them often: the one that comes first is told."""
    for count in range(len(PAYLOAD_FAULTS) + 1):
        for faults in itertools.combinations(PAYLOAD_FAULTS, count):
            for _ in range(12 if count <= 2 else 1):
                yield faulty_call(rng, faults).case()


# ---- chains of the one kind as chains of the other


def with_kinds_swapped(file):
    """##SD blocks for ##DT blocks, and the other way round."""
    return DATA_ID.join(part.replace(DATA_ID, SIGNAL_ID) for part in file.split(SIGNAL_ID))


def with_record_behind(file):
    """The file with a chain behind it whose one record is of eight zeros; and where that chain starts."""
    start = len(file)
    fields = list_fields(0, [start + 56], 0, [0])
    return file + list_block(fields) + data_block(data_fields(bytes(8))), start


def as_either_chain(file, start, number, record_size, buffer):
    """A chain that was asked for a record, as the first chain of a call for a payload, and as the second one."""
    channel = Channel(10, 1, bit_count=64, data_addr=start or 1)  # 0 would be no link
    yield "record_payload", (file, start, number, record_size, Group(), channel, buffer, bytes(4))
    if not isinstance(file, LongFile):
        both, records = with_record_behind(with_kinds_swapped(file))
        yield "record_payload", (both, records, 0, 8, Group(), channel, b"\xa5" * 8, bytes(4))


def asked_by_every_call(chain_cases):
    """The same cases; and each chain that is asked for records is also asked once for its length, its table, a value, a report
    and payloads."""
    asked = None
    for call, arguments in chain_cases:
        yield call, arguments
        if call == "read_record" and arguments[:2] != asked:
            asked = arguments[:2]
            yield "data_length", asked
            yield "open_table", (*asked, SMALL_TABLE)
            group, channel = Group(0, min(arguments[3], U32)), Channel(bit_count=8)
            yield "record_value", (*arguments[:4], group, channel, arguments[4])
            yield "report", (*asked, arguments[3], group, channel, arguments[4])
            yield from as_either_chain(*arguments)


def random_payload_call(rng):
    """Payloads of a few bytes, and positions of which some lead elsewhere."""
    stream, positions = stream_of([hard_payload(rng, rng.choice([0, 1, 7, 8, 9, rng.randint(0, 20)]))
                                   for _ in range(rng.randint(0, 4))])
    stream += rng.randbytes(rng.choice([0, 0, 1, 4, 9]))
    near = len(stream) + rng.randint(-9, 2)
    positions.append(rng.choice([rng.randint(0, len(stream)), max(0, near), edge_number(rng, U64)]))
    call = PayloadCall(rng, stream, positions, rng.choice(TYPE_CODES + [10, 7, 8, rng.randint(17, 255)]),
                       is_equal=rng.random() < 0.5, most=rng.randint(1, 9))
    call.ask(rng.randrange(len(positions)), rng.choice([0, 0, 0, 1, 9, -1]))
    call.channel = with_validity(rng, call.channel, call.record_size, call.invalidation_bytes)
    call.data_bytes = rng.choice([call.data_bytes] * 3 + [0, edge_number(rng, U32)])
    call.invalidation_bytes = rng.choice([call.invalidation_bytes] * 3 + [0, edge_number(rng, U32)])
    return call


def random_payload_case(rng):
    if rng.random() < 0.2:
        return faulty_call(rng, rng.sample(PAYLOAD_FAULTS, rng.choice([0, 1, 1, 2]))).case()
    call = random_payload_call(rng)
    for _ in range(rng.choice([0, 0, 0, 0, 1, 1, 2])):
        rng.choice([damage_list, damage_data])(rng, rng.choice([call.records, call.payloads, call.payloads]))
    if rng.random() < 0.1:
        call.channel = call.channel._replace(data_addr=rng.choice(edge_addresses(rng, call.payloads)))
    name, (file, *arguments) = call.case()
    return name, (damaged_file(rng, file) if rng.random() < 0.1 else file, *arguments)


# ---- tables ------------------------------------------------------------------------------------------------------------

MOST_PLACES = 512
SMALL_TABLE = table_of([(5, bytes(7)), (3, bytes(2))])


def with_junk(rng, table):
    """The table with numbers in its unused places: in none, in the first, the last and one between, or in all."""
    unused = range(table.fragment_count, MOST_PLACES)
    if not unused:
        return table
    fragments = list(table.fragments)
    for place in rng.choice([(), (unused[0], rng.choice(unused), unused[-1]), unused]):
        fragments[place] = Fragment(place, U64 - place)
    return table._replace(fragments=tuple(fragments))


def some_table(rng):
    """What may stand where a table is to be made."""
    junk = with_junk(rng, Table())._replace(fragment_count=edge_number(rng, U64), data_length=edge_number(rng, U64))
    return rng.choice([Table(), SMALL_TABLE, junk])


def table_of_chain(chain):
    """As opening it gives the table, where the chain is whole."""
    return table_of([(chain.data_places[number], chain.datas[number]["data"]) for numbers in chain.plan for number in numbers])


def scattered_table(rng, file_size, lengths):
    """Of fragments of these lengths anywhere in a file, since their headers are not read again."""
    return table_of([(rng.randint(0, file_size - 24 - length), bytes(length)) for length in lengths])


def short_lengths(rng, count):
    return [rng.choice([0, 0, 1, 2, 3]) for _ in range(count)]


def file_with_block(rng, size):
    """So many bytes and then a data block; and its address."""
    return rng.randbytes(size) + data_block(data_fields(b"\1\2\3")), size


THROUGH_TABLE = {"read_record": "table_record", "record_value": "table_value"}


def table_query(rng, file, table, joined_size, record_size=None):
    call, asked = record_query(rng, joined_size, record_size)
    return THROUGH_TABLE[call], (file, table, *asked)


def through_tables(chain_cases):
    """The same fetches through the tables of their chains, as far as these are opened."""
    for call, (file, start, *asked) in chain_cases:
        if call in THROUGH_TABLE:
            opened, table = open_table(file, start, Table())
            if opened.reply == 0:
                yield THROUGH_TABLE[call], (file, table, *asked)


def table_fetch_boundaries(rng):
    """Of the fetches through chains all that need a large record, and of the others every fifth."""
    yield from through_tables(large_record_boundaries(rng))
    for boundaries in (cut_boundaries, query_boundaries, form_boundaries, record_value_boundaries, record_refusal_boundaries,
                       record_area_boundaries):
        yield from through_tables(itertools.islice(boundaries(rng), 0, None, 5))


def open_limit_boundaries(rng):
    """Chains of about 512 fragments. One that is refused at its last, or behind it, is not refused for their number."""
    for counts, is_equal in itertools.product(((511,), (512,), (513,), (256, 256), (256, 257), (512, 0), (512, 1)),
                                              (True, False)):
        chains = [counted_chain(rng, counts, is_equal) for _ in range(5)]
        chains[1].datas[-1]["id"] = SIGNAL_ID
        chains[2].lists[-1]["next"] = U64
        chains[3].lists[-1]["block_len"] -= 1
        chains[4].lists[0]["rest"][-1] += 1
        for chain in chains:
            yield "open_table", (chain.file(), chain.start, some_table(rng))


def numbers_of_records(rng, count, most):
    """The numbers of so many records and the one behind, or of more than `most` some of them, the first and last too."""
    if count <= most:
        return range(count + 1)
    return sorted({0, count - 1, count, *(rng.randrange(count) for _ in range(4))})


def many_fragment_boundaries(rng):
    """Records of tables with any number of fragments, and all their data as one record."""
    file = rng.randbytes(700)
    for count in (*range(10), 15, 16, 17, 255, 256, 257, 511, 512):
        table = with_junk(rng, scattered_table(rng, len(file), short_lengths(rng, count)))
        for size in (1, 2, 7, max(1, table.data_length)):
            for number in numbers_of_records(rng, table.data_length // size, most=30):
                yield "table_record", (file, table, number, size, out_buffer(rng, size + number % 2))
    for place in (0, 1, 2, 254, 255, 256, 257, 510, 511):  # all other fragments are empty
        table = scattered_table(rng, len(file), [3 * (number == place) for number in range(MOST_PLACES)])
        yield "table_record", (file, table, rng.randint(0, 2), 1, bytes(1))


# ---- damaged tables


def around(*numbers):
    """Each number, the one before it and the one behind it, if they have 64 bits."""
    return sorted(number + step for number in set(numbers) for step in (-1, 0, 1) if 0 <= number + step <= U64)


def edge_lengths_of_data(address, file_size):
    """Lengths with which a fragment ends at the file's end, or where a sum would wrap to 0 or to the file's end."""
    return (file_size - 24 - address, 2**64 - 24 - address, 2**64 - 24 - address + file_size)


def edge_words(table, file_size, places=None):
    """The place of each word in use, and words around those with which the table is no longer right. places: the fragments
    that are asked for, if not all."""
    borders, count = borders_of(table), table.fragment_count
    last = table.fragments[max(0, count - 1)]
    ends = [last.data_position + length for length in edge_lengths_of_data(last.block_addr, file_size)]
    yield 0, around(0, count, MOST_PLACES, 2**32 + count, U64)
    yield 1, around(0, *borders[-2:], *ends, U64)
    for place in range(count) if places is None else places:
        begin, end = borders[place:place + 2]
        data = end - begin
        yield 2 + 2 * place, around(0, file_size, file_size - 24, file_size - 24 - data, 2**64 - 24 - data, U64)
        yield 3 + 2 * place, around(0, borders[max(0, place - 1)], begin, end, borders[-1], U64)


def damaged_table(rng, table, file_size):
    place, words = rng.choice(list(edge_words(table, file_size)))
    return with_word(table, place, rng.choice(words))


def asked_of_table(rng, file, table, address, joined_size):
    """The call that is given the table alone, and one of those that are given the file too."""
    yield "shorten_table", (table,)
    if rng.random() < 0.4:
        yield "extend_table", (file, address, table)
    else:
        yield table_query(rng, file, table, joined_size, rng.choice([1, 1, 2, 3]))


TABLE_SHAPES = ([], [5], [0], [3, 0], [0, 3], [2, 0, 3], [3, 4, 5], [0, 0, 0], [1, 0, 0, 2, 0])


def table_damage_boundaries(rng):
    """Each word that is in use changed alone, in tables of fragments of several lengths."""
    for lengths in TABLE_SHAPES:
        chain = Chain(rng, [*(rng.randbytes(length) for length in lengths), b"\1"], [list(range(len(lengths)))])
        file, table = chain.file(), with_junk(rng, table_of_chain(chain))
        for place, words in edge_words(table, len(file)):
            for word in words:
                damaged = with_word(table, place, word)
                yield from asked_of_table(rng, file, damaged, chain.data_places[-1], table.data_length)


def full_table_boundaries(rng):
    """Tables that are full, or nearly: one fragment more, one less, and a word changed in the first, middle and last."""
    file, address = file_with_block(rng, 600)
    for count in (510, 511, 512):
        table = scattered_table(rng, len(file), short_lengths(rng, count))
        yield "extend_table", (file, address, table)
        yield "shorten_table", (table,)
        for place, words in edge_words(table, len(file), (0, 1, 255, count - 2, count - 1)):
            for word in rng.sample(words, 4):
                yield from asked_of_table(rng, file, with_word(table, place, word), address, table.data_length)


def long_table_boundaries(rng):
    """The longest file and longer ones, with fragments that end at 2^40 or beside it. No byte is looked at, since the record
    is not there, and there is no block at the address."""
    longest = 2**40 - 24  # of a fragment's data
    ends = [(address, data) for data in (0, 1, 9, 2**39) for address in around(longest - data)]
    for (address, data), size in itertools.product(ends + [(0, data) for data in around(longest)], around(2**40 + 1)):
        table = Table(1, data, (Fragment(address), *Table().fragments[1:]))
        yield "table_record", (LongFile(size), table, data, 1, out_buffer(rng, rng.choice([0, 1, 9])))
        yield "extend_table", (LongFile(size), rng.choice([0, 2**40 - 23, U64]), table)
    fragments = tuple(Fragment(0, place * longest) for place in range(MOST_PLACES))
    for total in around(MOST_PLACES * longest):
        table = Table(MOST_PLACES, total, fragments)
        yield "table_record", (LongFile(2**40), table, MOST_PLACES * longest // 16384, 16384, bytes(16384))


def extend_boundaries(rng):
    """Addresses of blocks, beside them and around the file's end; blocks that are damaged, and one that the file cuts off."""
    for _ in range(40):
        chain = Chain(rng, [b"\1\2\3", b"", rng.randbytes(9)], [[0]])
        table = with_junk(rng, rng.choice([Table(), table_of_chain(chain)]))
        file = chain.file()
        for address in rng.sample(edge_addresses(rng, chain) + chain.places, 4):
            yield "extend_table", (file, address, table)
        damage_data(rng, chain, 2)
        yield "extend_table", (chain.file(), chain.data_places[2], table)
    file, address = file_with_block(rng, 60)
    for length in range(address, len(file) + 1):
        yield "extend_table", (file[:length], address, table_of([(30, b"\1\2")]))


# ---- faults of a call with a table, beside each other


def extend_order_boundaries(rng):
    """A file that is too long, a bad table, no block or a bad one at the address, and no place left."""
    file, address = file_with_block(rng, 600)
    small, full = (scattered_table(rng, len(file), lengths) for lengths in ([2, 0, 1], short_lengths(rng, MOST_PLACES)))
    tables = (small, full, small._replace(fragment_count=4), full._replace(data_length=U64), full._replace(fragment_count=513))
    addresses = (address, 0, address + 4, U64, address - 1, address - 24)
    for given, table, place in itertools.product((file, LongFile(2**40 + 1)), tables, addresses):
        yield "extend_table", (given, place, table)


def field_faults():
    """Channels that are answered or refused with each reply, in a record of four bytes; and groups."""
    channels = (Channel(bit_count=8), Channel(bit_count=0), Channel(bit_offset=8, bit_count=8), Channel(bit_count=65),
                Channel(byte_offset=4, bit_count=8), Channel(4, bit_count=16))
    for channel, flags, group in itertools.product(channels, (0, 2), (Group(0, 4), Group(0, 3), Group(0, 3, 1))):
        yield group, channel._replace(flags=flags, pos_invalidation_bit=8)


def fetch_order_boundaries(rng):
    """A bad record size, a file that is too long, a bad table, no such record; and then what refuses a field."""
    file, _address = file_with_block(rng, 600)
    table = scattered_table(rng, len(file), [3, 0, 2, 5])
    sizes = ((4, 4), (4, 9), (0, 4), (4, 3), (16385, 16385))
    for given, (size, room), asked, number in itertools.product(
            (file, LongFile(2**40 + 1)), sizes, (table, table._replace(fragment_count=5)), (0, 1, 2, U64)):
        yield "table_record", (given, asked, number, size, out_buffer(rng, room))
        for group, channel in field_faults() if given is file and number == 1 else [(Group(0, 3), Channel())]:
            yield "table_value", (given, asked, number, size, group, channel, out_buffer(rng, room))


# ---- histories of a table


def history_case(rng, file, other, steps, table=Table()):
    """With a channel that is mostly answered in records of two bytes, and a buffer of five."""
    group = some_group(rng, 2, 0)
    channel = with_validity(rng, Channel(rng.choice([0, 0, 3, 10]), bit_count=rng.choice([8, 16, 16, 24])), 2, 0)
    return "history", (file, other, group, channel, steps, table, out_buffer(rng, 5))


def short_history_boundaries(rng):
    """Every history of four operations, and then two fetches. The third block is in no list."""
    chain = Chain(rng, [b"\1\2\3", b"", b"\4\5"], [[0, 1]])
    file = chain.file()
    operations = [Step(OPEN, 0, chain.start), Step(SHORTEN), *(Step(EXTEND, 0, place) for place in chain.data_places[1:])]
    for steps in itertools.product(operations, repeat=4):
        yield history_case(rng, file, b"", [*steps, Step(RECORD, 0, 0, 3), Step(VALUE, 0, 1, 2)], with_junk(rng, Table()))


def full_history_boundaries(rng):
    """From the empty table over the full one to the empty one again, a step further than it goes on both sides; and around
    the full one to and fro."""
    file, address = file_with_block(rng, 600)
    extend, shorten, fetch = Step(EXTEND, 0, address), Step(SHORTEN), Step(RECORD, 0, 511, 3)
    yield history_case(rng, file, b"", [extend] * 513 + [fetch] + [shorten] * 513)
    for count in (510, 511, 512):
        table = scattered_table(rng, len(file), short_lengths(rng, count))
        yield history_case(rng, file, b"", [extend] * 3 + [fetch, shorten, shorten, fetch] + [extend] * 3, table)


def other_file(rng, file):
    """One for which the table was not made: cut or changed, or other bytes throughout, headers too."""
    return rng.choice([damaged_file(rng, file), file[:rng.randint(0, len(file))], rng.randbytes(len(file))])


def random_write(rng, file_size):
    """Into a word that is in use, or behind those."""
    place = rng.choice([0, 1, rng.randint(2, 9), rng.randint(2, 9), rng.randint(20, 1025), 1025])
    return Step(WRITE, 0, place, rng.choice([0, 1, rng.randint(0, 9), rng.randint(0, file_size), edge_number(rng, U64)]))


def random_step(rng, chain, file_size):
    what = rng.choice([OPEN] * 3 + [EXTEND] * 6 + [SHORTEN] * 3 + [RECORD] * 4 + [VALUE] * 3 + [WRITE])
    if what == SHORTEN:
        return Step(what)
    if what == WRITE:
        return random_write(rng, file_size)
    file = rng.choice([0] * 6 + [1])
    if what in (RECORD, VALUE):
        number = rng.choice([0, 1, 2, rng.randint(0, 9), edge_number(rng, U64)])
        return Step(what, file, number, rng.choice([1, 2, 2, 2, 3, 6]))
    places = [chain.start] if what == OPEN else chain.data_places
    return Step(what, file, rng.choice([*places * 8, *edge_addresses(rng, chain)]))


def random_history(rng):
    chain = random_chain(rng)
    file = chain.file()
    steps = [random_step(rng, chain, len(file)) for _ in range(rng.randint(1, 12))]
    return history_case(rng, file, other_file(rng, file), steps, rng.choice([Table(), some_table(rng)]))


def random_history_boundaries(rng):
    """With writes into the table, another file and refused calls among them."""
    for _ in range(200):
        yield random_history(rng)


def random_table_case(rng):
    """A table of a chain or of fragments anywhere, at times damaged or of another file, and a call that takes it."""
    chain = random_chain(rng)
    file = chain.file()
    lengths = short_lengths(rng, rng.choice([0, 1, 2, 3, rng.randint(0, 20)]))
    table = with_junk(rng, rng.choice([table_of_chain(chain), scattered_table(rng, len(file), lengths)]))
    joined_size = table.data_length
    if rng.random() < 0.3:
        table = damaged_table(rng, table, len(file))
    if rng.random() < 0.2:
        file = other_file(rng, file)
    if rng.random() < 0.4:
        return table_query(rng, file, table, joined_size)
    address = rng.choice([*chain.data_places * 4, *edge_addresses(rng, chain)])
    return rng.choice([("extend_table", (file, address, table)), ("shorten_table", (table,))])


# ---- all of them -------------------------------------------------------------------------------------------------------

BOUNDARIES = (version_boundaries,
              header_boundaries, type_boundaries, list_read_boundaries, list_id_and_link_boundaries, list_write_boundaries,
              channel_read_boundaries, channel_id_and_link_boundaries, channel_type_boundaries, channel_limit_boundaries,
              channel_write_boundaries, field_boundaries, type_field_boundaries, place_boundaries, refusal_boundaries,
              payload_boundaries, text_field_boundaries, validity_boundaries, area_boundaries, area_bit_boundaries,
              far_sum_boundaries, area_order_boundaries, number_boundaries, text_boundaries,
              text_helper_boundaries, write_width_boundaries, write_bit_boundaries, write_same_boundaries,
              write_float_boundaries, write_kind_boundaries, write_refusal_boundaries, write_place_boundaries,
              write_payload_boundaries, overlap_pair_boundaries, overlap_bit_boundaries, overlap_list_boundaries,
              overlap_order_boundaries, overlap_place_boundaries)

CHAIN_BOUNDARIES = (cut_boundaries, query_boundaries, long_file_boundaries, loop_boundaries, order_boundaries,
                    limit_boundaries, form_boundaries, breach_boundaries, large_record_boundaries, record_value_boundaries,
                    record_refusal_boundaries, record_area_boundaries)

PAYLOAD_BOUNDARIES = (payload_cut_boundaries, payload_place_boundaries, payload_type_boundaries,
                      payload_validity_boundaries, position_field_boundaries, payload_link_boundaries,
                      payload_buffer_boundaries, large_payload_boundaries, payload_order_boundaries)

REPORT_BOUNDARIES = (report_width_boundaries, report_short_boundaries, report_float_boundaries, report_rounding_boundaries,
                     report_sum_boundaries, report_validity_boundaries, report_refusal_boundaries, report_area_boundaries,
                     report_order_boundaries, report_size_boundaries)

TABLE_BOUNDARIES = (open_limit_boundaries, table_fetch_boundaries, many_fragment_boundaries, table_damage_boundaries,
                    full_table_boundaries, long_table_boundaries, extend_boundaries, extend_order_boundaries,
                    fetch_order_boundaries, short_history_boundaries, full_history_boundaries, random_history_boundaries)

RANDOM_CASES = ([random_header_case] + [random_list_case] * 2 + [random_channel_block_case] * 2 + [random_value_case] * 6
                + [random_area_case] * 2 + [random_write_case] * 4 + [random_overlap_case] * 2 + [random_text_case] * 4
                + [random_chain_case] * 5 + [random_payload_case] * 4 + [random_table_case] * 2 + [random_history]
                + [random_report_case] * 4)

# The replies of each call that has any, which the boundary cases reach.
FIELD_REPLIES = {0, 18, 19, 20, 21, 22}
AREA_REPLIES = {0, 28, 29}
CHAIN_REPLIES = {0, 2, 3, 4, 7, 8, 9, 10, 11, 12, 13}
TABLE_FETCH_REPLIES = {0, 7, 15, 16, 32}
REPLIES = {
    "read_header": {0, 2},
    "write_header": {0, 6},
    "read_list": {0, 2, 3, 4},
    "write_list_equal": {0, 5, 6},
    "write_list_variable": {0, 5, 6},
    "read_channel": {0, 2, 3, 17},
    "write_channel": {0, 6},
    "decode_value": FIELD_REPLIES,
    "check_validity": AREA_REPLIES,
    "decode_valid_value": FIELD_REPLIES | AREA_REPLIES,
    "decode_valid_value_unbounded": FIELD_REPLIES,
    "write_value": FIELD_REPLIES | {24, 25},
    "first_overlap": {0, 26, 27},
    **{call: {0, 6} for call in TEXT_CALLS},
    "text_by_type": {0, 6, 256},
    "data_length": CHAIN_REPLIES,
    "read_record": CHAIN_REPLIES | {15, 16},
    "record_value": CHAIN_REPLIES | FIELD_REPLIES | AREA_REPLIES | {15, 16},
    "report": CHAIN_REPLIES | AREA_REPLIES | {15, 33},
    "open_table": CHAIN_REPLIES | {30},
    "extend_table": {0, 7, 11, 12, 30, 32},
    "shorten_table": {0, 31, 32},
    "table_record": TABLE_FETCH_REPLIES,
    "table_value": TABLE_FETCH_REPLIES | FIELD_REPLIES | AREA_REPLIES,
    "record_payload": CHAIN_REPLIES | {6, 15, 16, 21, 23, 35},
}


def boundary_cases(seed):
    for boundaries in BOUNDARIES + PAYLOAD_BOUNDARIES + TABLE_BOUNDARIES + REPORT_BOUNDARIES:
        yield from boundaries(random.Random(f"{seed} {boundaries.__name__}"))
    for boundaries in CHAIN_BOUNDARIES:
        yield from asked_by_every_call(boundaries(random.Random(f"{seed} {boundaries.__name__}")))


def random_cases(seed):
    rng = random.Random(f"{seed} random")
    while True:
        yield rng.choice(RANDOM_CASES)(rng)
