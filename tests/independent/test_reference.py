"""Tests of reference.py: the rules' examples, Python's own float() and codecs, and vectors from outside."""

import codecs
import collections
import itertools
import random
import struct
import sys
from fractions import Fraction

import cases
import histories
import protocol
import reference as r
from reference import Channel, Group, Header, Number, Value

failures = 0


def check(name, found, wanted):
    global failures
    if found != wanted:
        failures += 1
        print(f"FAILED {name}: found {found!r}, wanted {wanted!r}")


def section(name, test):
    before = failures
    test()
    if failures == before:
        print(f"ok {name}")


def hexed(digits):
    return bytes.fromhex(digits)


def field(data_type, bit_count, bit_offset=0, byte_offset=0, **others):
    return Channel(data_type, 0, bit_offset, byte_offset, bit_count, **others)


def unsigned(record, channel):
    return value(record, channel).number


def signed(record, channel):
    return r.signed_of(value(record, channel).number)


def value(record, channel):
    answer = r.decode_value(record, 0, channel)
    check(f"{channel} is answered", (answer.reply, answer.told), (0, 0))
    return answer


def double_of(bits):
    return struct.unpack("<d", struct.pack("<Q", bits))[0]


def bits_of(double):
    return struct.unpack("<Q", struct.pack("<d", double))[0]


def refused(reply, told=0):
    return Value(reply, told=told)


# ---- the rules' examples -------------------------------------------------------------------------------------------


def example_integers():
    record = hexed("34 12")
    check("unsigned LE", value(record, field(r.UNSIGNED_LE, 16)), Value(kind=r.UNSIGNED_KIND, number=4660))
    check("unsigned BE", value(record, field(r.UNSIGNED_BE, 16)), Value(kind=r.UNSIGNED_KIND, number=13330))
    check("8 bits from bit 4 LE", unsigned(record, field(r.UNSIGNED_LE, 8, 4)), 35)
    check("8 bits from bit 4 BE", unsigned(record, field(r.UNSIGNED_BE, 8, 4)), 65)
    for digits, wanted in (("F0", -1), ("80", -8), ("70", 7)):
        for data_type in (r.SIGNED_LE, r.SIGNED_BE):
            check(f"signed 4 bits of {digits}", signed(hexed(digits), field(data_type, 4, 4)), wanted)
    check("signed 1 bit", signed(hexed("01"), field(r.SIGNED_LE, 1)), -1)
    nine = bytes(8) + b"\x0f"
    check("64 bits in 9 bytes", value(nine, field(r.SIGNED_LE, 64, 4)),
          Value(kind=r.SIGNED_KIND, number=2**64 - 1152921504606846976))
    check("64 bits in 8 bytes", r.decode_value(nine[:8], 0, field(r.SIGNED_LE, 64, 4)), refused(21, 9))


def example_floats():
    check("1.0", value(hexed("00 00 80 3F"), field(r.FLOAT_LE, 32)), Value(kind=r.DOUBLE_KIND, number=bits_of(1.0)))
    check("smallest single", value(hexed("01 00 00 00"), field(r.FLOAT_LE, 32)),
          Value(kind=r.DOUBLE_KIND, number=0x36A0000000000000))
    check("float of 16 bits", r.decode_value(hexed("00 00 80 3F"), 0, field(r.FLOAT_LE, 16)), refused(22))


def example_doubles():
    for number, wanted in ((9007199254740993, 9007199254740992), (9007199254740995, 9007199254740996)):
        bits = r.decode_double_bits(number.to_bytes(8, "little"), 0, field(r.UNSIGNED_LE, 64))
        check(f"{number} as a double", double_of(bits), float(wanted))


def example_texts():
    serial = hexed("50 58 31 00 39")
    check("Latin-1 stops at NUL", value(serial, field(r.LATIN1, 40)), Value(kind=r.TEXT_KIND, at=0, length=3))
    for data_type in r.TEXTS:
        check("7 bits at the end", value(b"ab", field(data_type, 7, 0, 2)), Value(kind=r.TEXT_KIND, at=2, length=0))
        check("7 bits past the end", r.decode_value(b"ab", 0, field(data_type, 7, 0, 3)), refused(21, 3))
    check("UTF-16 with an odd byte", r.text_utf16_le(hexed("41 00 42"), b"...."), (r.Text(count=1), b"A..."))
    check("half a pair", r.text_utf16_le(hexed("00 D8"), b"." * 18), (r.Text(count=17, damaged=1), b"<Invalid UTF16LE>."))
    check("Latin-1 as UTF-8", r.text_latin1(hexed("E9"), b"..."), (r.Text(count=2), hexed("C3 A9") + b"."))


def example_refusals():
    check("a float of 65 bits in nothing", r.decode_value(b"", 0, field(r.FLOAT_LE, 65)), refused(21, 9))
    check("a float of 65 bits", r.decode_value(bytes(9), 0, field(r.FLOAT_LE, 65)), refused(22))
    check("behind an id of 2", r.decode_value(bytes(6), 2, field(r.UNSIGNED_LE, 16, 0, 3)), refused(21, 7))
    check("24 bits of a payload of 2 bytes", r.decode_value(bytes(2), 9, Channel(r.SIGNED_BE, 1, 0, 5, 24, data_addr=7)),
          refused(21, 3))
    date = field(r.CANOPEN_DATE, 0, 9)
    check("a date of no bits in 2 bytes", r.decode_value(bytes(2), 0, date), Value(kind=r.UNKNOWN_KIND))
    check("a date of no bits in 1 byte", r.decode_value(bytes(1), 0, date), refused(21, 2))
    check("a text of no bits", r.decode_value(bytes(1), 0, field(r.LATIN1, 0, 9)), Value(kind=r.TEXT_KIND))
    for length in (0, 1, 8, 9, 20):
        check(f"65 bits in {length} bytes", r.decode_value(bytes(length), 0, field(r.UNSIGNED_LE, 65)), refused(20))


def marked(flags, position):
    return field(r.UNSIGNED_LE, 16, flags=flags, pos_invalidation_bit=position)


def validity(reply, is_valid, record, group, channel):
    """What is asked of a record of 4660, alone and with the value."""
    check(f"{channel} in {group}", r.check_validity(record, group, channel), r.Validity(reply, 0, is_valid))
    both = r.ValidValue(kind=r.UNSIGNED_KIND, number=4660, is_valid=is_valid) if reply == 0 else r.ValidValue(reply)
    check("both", r.decode_valid_value(record, group, channel), both)


def example_validity():
    record, group = hexed("34 12 00 02"), Group(0, 2, 2)
    for flags, position, reply, is_valid in ((2, 9, 0, 0), (2, 8, 0, 1), (2, 15, 0, 1), (2, 16, 29, 0), (3, 9, 0, 0),
                                             (3, 16, 0, 0), (0, 9, 0, 1), (0, 16, 0, 1), (1, 16, 0, 0), (6, 16, 29, 0)):
        validity(reply, is_valid, record, group, marked(flags, position))
        for other in (Group(0, 2, 1), Group(0, 2, 3), Group(0, 2), Group(1, 2, 2), Group(0, 3, 2)):
            validity(28, 0, record, other, marked(flags, position))
    next_record = hexed("34 12 00 ff ff ff")
    validity(28, 0, next_record, Group(0, 2, 1), marked(2, 24))
    validity(29, 0, next_record[:3], Group(0, 2, 1), marked(2, 24))
    check("the next record's bit", r.check_validity_unbounded(next_record, Group(0, 2, 1), marked(2, 24)), 0)


def example_unbounded_validity():
    record = hexed("34 12 00 02")
    for flags, position, wanted in ((2, 9, 0), (2, 16, 1), (3, 9, 0), (3, 16, 0), (0, 9, 1), (1, 16, 0)):
        channel = marked(flags, position)
        for group in (Group(0, 2), Group(0, 2, 2), Group(0, 2, 2**32 - 1)):
            check(f"{channel} in {group}", r.check_validity_unbounded(record, group, channel), wanted)
            check("both", r.decode_valid_value_unbounded(record, group, channel),
                  r.ValidValue(kind=r.UNSIGNED_KIND, number=4660, is_valid=wanted))


def example_lists():
    def one_link(flags, link_count=1):
        sizes = (40).to_bytes(8, "little") + link_count.to_bytes(8, "little")
        return b"##DL" + bytes(4) + sizes + bytes(8) + bytes([flags]) + bytes(7)

    id_number = int.from_bytes(b"##DL", "little")
    check("one link, no blocks", r.read_list(one_link(0)),
          r.ListReply(header=Header(id_number, 0, 40, 1), data_links_at=32, data_link_count=0, rest_at=40,
                      rest_count=0))
    check("one length", r.read_list(one_link(1)), r.ListReply(2, 48))
    check("very many links", r.read_list(one_link(0, 2**64 - 1)), r.ListReply(2, 18446744073709551615))
    equal, equal_bytes = r.write_list_equal(0, [100, 200], 5, bytes(100))
    variable, variable_bytes = r.write_list_variable(0, [100, 200], [0, 5], bytes(100))
    check("two links with one length", equal, r.Written(count=64))
    check("two links with offsets", variable, r.Written(count=72))
    check("one length, in bytes", equal_bytes[:64],
          hexed("23 23 44 4c 00000000 4000000000000000 0300000000000000 0000000000000000 6400000000000000 c800000000000000"
                "01 000000 02000000 0500000000000000"))
    check("offsets, in bytes", variable_bytes[:72],
          hexed("23 23 44 4c 00000000 4800000000000000 0300000000000000 0000000000000000 6400000000000000 c800000000000000"
                "00 000000 02000000 0000000000000000 0500000000000000"))


LINKS_IN_HEX = ("1000000000000000 2000000000000000 3000000000000000 4000000000000000"
                "5000000000000000 6000000000000000 7000000000000000 8000000000000000")
FIELDS_IN_HEX = ("01 02 03 04 05000000 06000000 07000000 08000000 09 0a 0b0c"
                 "0d00000000000000 0e00000000000000 0f00000000000000 000000000000f07f 000000000000f8ff 010000000000f07f")
CHANNEL_IN_NUMBERS = r.ChannelBlock(
    header=Header(int.from_bytes(b"##CN", "little"), 0x99, 1, 8), next_ch_addr=0x10, component_addr=0x20, name_addr=0x30,
    source_addr=0x40, conversion_addr=0x50, unit_addr=0x70, comment_addr=0x80, more_links_at=88, more_link_count=0,
    channel=Channel(data_type=3, channel_type=1, bit_offset=4, byte_offset=5, bit_count=6, flags=7, pos_invalidation_bit=8,
                    data_addr=0x60),
    sync_type=2, precision=9, reserved1=10, attachment_count=0x0C0B, min_raw_value=13, max_raw_value=14, lower_limit=15,
    upper_limit=0x7FF0000000000000, lower_ext_limit=0xFFF8000000000000, upper_ext_limit=0x7FF0000000000001)


def channel_in_hex(link_count=8, more_links="", start="23 23 43 4e 99000000 0100000000000000"):
    return hexed(start) + link_count.to_bytes(8, "little") + hexed(LINKS_IN_HEX + more_links + FIELDS_IN_HEX)


def example_channels():
    block = channel_in_hex()
    check("a block of 160 bytes", len(block), 160)
    check("block length 1 in 160 bytes", r.read_channel(block), r.ChannelReply(block=CHANNEL_IN_NUMBERS))
    check("bytes behind", r.read_channel(block + b"\7"), r.ChannelReply(block=CHANNEL_IN_NUMBERS))
    nine = CHANNEL_IN_NUMBERS._replace(header=CHANNEL_IN_NUMBERS.header._replace(link_count=9), more_link_count=1)
    check("9 links in 168 bytes", r.read_channel(channel_in_hex(9, "ffffffffffffffff")), r.ChannelReply(block=nine))
    check("9 links in 160 bytes", r.read_channel(channel_in_hex(9)), r.ChannelReply(2, 168))
    check("8 links in 159 bytes", r.read_channel(block[:159]), r.ChannelReply(2, 160))
    check("7 links", r.read_channel(channel_in_hex(7)), r.ChannelReply(17))
    check("very many links", r.read_channel(channel_in_hex(2**64 - 1)), r.ChannelReply(2, 18446744073709551615))
    check("written", r.write_channel(CHANNEL_IN_NUMBERS, bytes(163)),
          (r.Written(count=160), hexed("23 23 43 4e 00000000 a000000000000000 0800000000000000") + hexed(LINKS_IN_HEX)
           + hexed(FIELDS_IN_HEX.replace("0a 0b0c", "00 0000")) + bytes(3)))
    check("no room", r.write_channel(CHANNEL_IN_NUMBERS, b"\7" * 159), (r.Written(6, 160), b"\7" * 159))


# A text of no bytes, for which every record has room, and the last bit of the first invalidation byte.
TEXT_WITH_BIT = field(r.UTF8, 0, flags=2, pos_invalidation_bit=7)


def example_chain():
    data = hexed("01 02 03 04 05 06")
    rng = random.Random(1)
    cut = cases.Chain(rng, [data[:3], b"", data[3:]], [[0, 1, 2]])
    uncut = cases.Chain(rng, [data], [[0]], is_equal=True)
    for chain in (cut, uncut):
        check("record 1", r.read_record(chain.file(), chain.start, 1, 2, b"..."), (r.Done(), hexed("03 04") + b"."))
        check("record 3", r.read_record(chain.file(), chain.start, 3, 2, b".."), (r.Done(16), b".."))
        check("field of record 1",
              r.record_value(chain.file(), chain.start, 1, 2, Group(0, 2), field(r.UNSIGNED_LE, 16), b".."),
              (r.ValidValue(kind=r.UNSIGNED_KIND, number=0x0403, is_valid=1), hexed("03 04")))
        check("refused field of record 1", r.record_value(chain.file(), chain.start, 1, 2, Group(1, 2), field(0, 16), b".."),
              (r.ValidValue(21, told=3), hexed("03 04")))
        for group, wanted in (
                (Group(0, 1), r.ValidValue(28)), (Group(0, 2, 1), r.ValidValue(28)), (Group(1, 2), r.ValidValue(28)),
                (Group(0, 2), r.ValidValue(29)), (Group(0, 1, 1), r.ValidValue(kind=r.TEXT_KIND, is_valid=1))):
            check(f"record 1 in {group}", r.record_value(chain.file(), chain.start, 1, 2, group, TEXT_WITH_BIT, b".."),
                  (wanted, hexed("03 04")))


def reported(data, size, group, channel, room=b"." * 9):
    """Of joined data in fragments of five bytes."""
    chain = cases.cut_chain(random.Random(2), data, cases.DATA_ID, is_equal=True, most=5)
    return r.report(chain.file(), chain.start, size, group, channel, room)


def points(**numbered):
    return {name: r.Point(number, bits_of(double)) for name, (number, double) in numbered.items()}


def example_reports():
    pumped = hexed("0500 00  0300 00  0900 01  0300 00  0700 00") + b"\xff\xff"
    level = field(r.UNSIGNED_LE, 16, flags=2)
    found = points(first=(0, 5.0), last=(4, 7.0), smallest=(1, 3.0), largest=(4, 7.0))
    check("five records, the third invalid", reported(pumped, 3, Group(0, 2, 1), level),
          (r.Report(records=5, valid=4, invalid=1, has_doubles=1, **found, sum_low=18), hexed("0700 00") + b"." * 6))
    check("all invalid", reported(pumped, 3, Group(0, 2, 1), level._replace(flags=1)),
          (r.Report(records=5, invalid=5), hexed("0700 00") + b"." * 6))
    check("no value", reported(pumped, 3, Group(0, 2, 1), level._replace(byte_offset=2)),
          (r.Report(records=5, without_value=5), hexed("0700 00") + b"." * 6))
    check("no record", reported(pumped[:2], 3, Group(0, 2, 1), level), (r.Report(), b"." * 9))
    for wanted, channel, group in ((33, field(r.UTF8, 16), Group()), (28, level, Group(0, 2)), (29, level, Group(0, 3)),
                                   (33, level._replace(channel_type=1, data_addr=8), Group())):
        for data in (pumped, b""):
            check(f"refused with {wanted}", reported(data, 3, group, channel), (r.Report(wanted), b"." * 9))


def example_reported_doubles():
    def of_doubles(*doubles):
        return reported(struct.pack(f"<{len(doubles)}d", *doubles), 8, Group(0, 8), field(r.FLOAT_LE, 64))[0]
    nan = float("nan")
    zeros = points(first=(1, -0.0), last=(3, 0.0), smallest=(1, -0.0), largest=(1, -0.0))
    check("both zeros, and NaN", of_doubles(nan, -0.0, -nan, 0.0), r.Report(records=4, valid=4, nan=2, has_doubles=1, **zeros))
    check("NaN alone", of_doubles(nan), r.Report(records=1, valid=1, nan=1))
    large = 2**53 + 1
    equal = points(first=(0, 2.0**53), last=(1, 2.0**53), smallest=(0, 2.0**53), largest=(0, 2.0**53))
    check("integers that are one double", reported(struct.pack("<2Q", large, 2**53), 8, Group(0, 8), field(0, 64))[0],
          r.Report(records=2, valid=2, has_doubles=1, **equal, sum_low=2**54 + 1))
    for data_type, high, low in ((r.UNSIGNED_LE, 1, 2**64 - 2), (r.SIGNED_LE, -1, 2**64 - 2)):
        line = reported(b"\xff" * 16, 8, Group(0, 8), field(data_type, 64))[0]
        check(f"the sum of two of type {data_type}", (line.sum_high, line.sum_low), (high, low))


# At 8 a list of two blocks, the one at 80 with three bytes and the one at 107 with none; at 131 a block of two bytes that is
# in no list.
TABLE_FILE = hexed(
    "0000000000000000"
    "23 23 44 4c 00000000 4800000000000000 0300000000000000 0000000000000000 5000000000000000 6b00000000000000"
    "00 000000 02000000 0000000000000000 0300000000000000"
    "23 23 44 54 00000000 1b00000000000000 0000000000000000 010203"
    "23 23 44 54 00000000 1800000000000000 0000000000000000"
    "23 23 44 54 00000000 1a00000000000000 0000000000000000 0405")


def table(count, length, *pairs):
    """All that is not given is 0."""
    fragments = [r.Fragment(*pair) for pair in pairs]
    return r.Table(count, length, (*fragments, *[r.Fragment(0, 0)] * (512 - len(fragments))))


OPENED = table(2, 3, (80, 0), (107, 3))
EXTENDED = table(3, 5, (80, 0), (107, 3), (131, 3))
FILLED = r.Table(9, 9, (r.Fragment(9, 9),) * 512)


def example_tables():
    for before in (r.Table(), EXTENDED, FILLED):
        check("opened", r.open_table(TABLE_FILE, 8, before), (r.Done(), OPENED))
        check("not opened", r.open_table(TABLE_FILE, 80, before), (r.Done(3), before))
    check("extended", r.extend_table(TABLE_FILE, 131, OPENED), (r.Done(), EXTENDED))
    check("shortened", r.shorten_table(EXTENDED), (r.Done(), OPENED))
    check("a block again", r.extend_table(TABLE_FILE, 80, OPENED), (r.Done(), table(3, 6, (80, 0), (107, 3), (80, 3))))
    single = table(1, 2, (131, 0))
    check("a single block", r.extend_table(TABLE_FILE, 131, r.Table()), (r.Done(), single))
    check("no block is left", r.shorten_table(single), (r.Done(), r.Table()))
    check("nothing to shorten", r.shorten_table(r.Table()), (r.Done(31), r.Table()))
    for wrong, reply in ((8, 12), (0, 11), (134, 11), (133, 12)):
        check(f"no ##DT block at {wrong}", r.extend_table(TABLE_FILE, wrong, OPENED), (r.Done(reply), OPENED))
    for given, number, wanted in ((EXTENDED, 0, "01 02"), (EXTENDED, 1, "03 04"), (single, 0, "04 05"), (OPENED, 0, "01 02")):
        check(f"record {number}", r.table_record(TABLE_FILE, given, number, 2, b"..."), (r.Done(), hexed(wanted) + b"."))
    for given, number in ((EXTENDED, 2), (EXTENDED, 2**63), (OPENED, 1), (single, 1), (r.Table(), 0)):
        check(f"no record {number}", r.table_record(TABLE_FILE, given, number, 2, b"..."), (r.Done(16), b"..."))
    check("another file", r.table_record(bytes(range(157)), EXTENDED, 1, 2, b".."), (r.Done(), bytes([106, 155])))
    check("a shorter file", r.table_record(TABLE_FILE[:-1], EXTENDED, 0, 2, b".."), (r.Done(32), b".."))


def example_table_values():
    for group, channel, wanted in (
            (Group(0, 2), field(r.UNSIGNED_LE, 16), r.ValidValue(kind=r.UNSIGNED_KIND, number=0x0403, is_valid=1)),
            (Group(0, 2), field(r.UNSIGNED_LE, 0), r.ValidValue(18)), (Group(1, 1), field(0, 16), r.ValidValue(21, told=3)),
            (Group(0, 1), TEXT_WITH_BIT, r.ValidValue(28)), (Group(0, 2), TEXT_WITH_BIT, r.ValidValue(29)),
            (Group(0, 1, 1), TEXT_WITH_BIT, r.ValidValue(kind=r.TEXT_KIND, is_valid=1))):
        check(f"{channel} in {group}", r.table_value(TABLE_FILE, EXTENDED, 1, 2, group, channel, b"..."),
              (wanted, hexed("03 04") + b"."))
    for given, number, reply in ((EXTENDED, 2, 16), (EXTENDED._replace(data_length=6), 0, 32)):
        check(f"no record {number}", r.table_value(TABLE_FILE, given, number, 2, Group(0, 2), field(0, 16), b"..."),
              (r.ValidValue(reply), b"..."))


# At 8 a list of records, whose block at 64 has three of them; at 115 a list of payloads, whose blocks at 187 and 216 have
# the payloads abc, which is cut, one that is empty and one of eight bytes.
PAYLOAD_FILE = hexed(
    "0000000000000000"
    "23 23 44 4c 00000000 3800000000000000 0200000000000000 0000000000000000 4000000000000000"
    "00 000000 01000000 0000000000000000"
    "23 23 44 54 00000000 3300000000000000 0000000000000000"
    "0000000000000000 00 0700000000000000 01 0b00000000000000 00"
    "23 23 44 4c 00000000 4800000000000000 0300000000000000 0000000000000000 bb00000000000000 d800000000000000"
    "00 000000 02000000 0000000000000000 0500000000000000"
    "23 23 53 44 00000000 1d00000000000000 0000000000000000 03000000 61"
    "23 23 53 44 00000000 2a00000000000000 0000000000000000 6263 00000000 08000000 0201000000000000")
FIRST_POSITION_AT, LAST_LENGTH_AT = 88, 246
POSITION = Channel(r.UTF8, 1, 0, 0, 64, flags=2, data_addr=115)


def changed(place, digits):
    """The file with other bytes at a place."""
    content = hexed(digits)
    return PAYLOAD_FILE[:place] + content + PAYLOAD_FILE[place + len(content):]


def payload(number, channel=POSITION, record=b"." * 9, room=b"." * 9, file=PAYLOAD_FILE):
    return r.record_payload(file, 8, number, 9, Group(0, 8), channel, record, room)


def example_payloads():
    records = [hexed("0000000000000000 00"), hexed("0700000000000000 01"), hexed("0b00000000000000 00")]
    text = r.Payload(kind=r.TEXT_KIND, length=3, payload_length=3, is_valid=1)
    check("a text", payload(0), (text, records[0], b"abc......"))
    check("an empty text of an invalid record", payload(1), (r.Payload(kind=r.TEXT_KIND), records[1], b"." * 9))
    for data_type, number in ((r.UNSIGNED_LE, 0x0102), (r.UNSIGNED_BE, 0x0201000000000000)):
        check(f"a number of type {data_type}", payload(2, POSITION._replace(data_type=data_type)),
              (r.Payload(kind=r.UNSIGNED_KIND, number=number, payload_length=8, is_valid=1), records[2],
               hexed("0201000000000000") + b"."))
    check("no number", payload(0, POSITION._replace(data_type=r.FLOAT_LE)),
          (r.Payload(21, told=8), records[0], b"abc......"))
    check("no room", payload(0, room=b".."), (r.Payload(6, told=3), records[0], b".."))
    check("no room is needed", payload(1, room=b""), (r.Payload(kind=r.TEXT_KIND), records[1], b""))
    check("a length outside", payload(0, file=changed(FIRST_POSITION_AT, "14")),
          (r.Payload(23), hexed("1400000000000000 00"), b"." * 9))
    check("a payload outside", payload(2, file=changed(LAST_LENGTH_AT, "09")), (r.Payload(23), records[2], b"." * 9))
    check("a position outside", payload(0, POSITION._replace(byte_offset=2)),
          (r.Payload(21, told=10), records[0], b"." * 9))
    check("a single block", payload(0, POSITION._replace(data_addr=187)), (r.Payload(3), records[0], b"." * 9))
    check("the other chain", payload(0, POSITION._replace(data_addr=8)), (r.Payload(12), records[0], b"." * 9))
    check("no such record", payload(3), (r.Payload(16), b"." * 9, b"." * 9))
    check("no room for the record", payload(0, record=b"." * 8), (r.Payload(15), b"." * 8, b"." * 9))
    check("no position", payload(0, POSITION._replace(bit_count=32)), (r.Payload(35), b"." * 9, b"." * 9))


def written(number, record, channel, id_size=0):
    """The record after a write, which is answered."""
    reply, after = r.write_value(id_size, channel, number, record)
    check(f"{channel} is written", reply, r.Done())
    return after


def unwritten(reply, number, record, channel, told=0, id_size=0):
    check(f"{number} in {channel}", r.write_value(id_size, channel, number, record), (r.Done(reply, told), record))


UNSIGNED, SIGNED, DOUBLE = (lambda number, kind=kind: Number(kind, number % 2**64) for kind in (1, 2, 3))


def example_written():
    check("16 bits LE", written(UNSIGNED(4660), b"...", field(r.UNSIGNED_LE, 16)), hexed("34 12") + b".")
    check("16 bits BE", written(UNSIGNED(4660), b"...", field(r.UNSIGNED_BE, 16, 0, 1)), b"." + hexed("12 34"))
    check("8 bits from bit 4 LE", written(UNSIGNED(0xAB), hexed("12 34"), field(r.UNSIGNED_LE, 8, 4)), hexed("B2 3A"))
    check("8 bits from bit 4 BE", written(UNSIGNED(0xAB), hexed("12 34"), field(r.UNSIGNED_BE, 8, 4)), hexed("1A B4"))
    check("-1 in 4 bits", written(SIGNED(-1), hexed("0F"), field(r.SIGNED_LE, 4, 4)), hexed("FF"))
    check("-8 in 4 bits", written(SIGNED(-8), hexed("7F"), field(r.SIGNED_BE, 4, 4)), hexed("8F"))
    check("64 bits in 9 bytes", written(UNSIGNED(2**64 - 1), hexed("05") + bytes(7) + hexed("A0"), field(0, 64, 4)),
          hexed("F5") + b"\xff" * 7 + hexed("AF"))
    check("1.0", written(DOUBLE(bits_of(1.0)), bytes(4), field(r.FLOAT_BE, 32)), hexed("3F 80 00 00"))
    check("-0", written(DOUBLE(2**63), bytes(4), field(r.FLOAT_LE, 32)), hexed("00 00 00 80"))
    check("the NaN", written(DOUBLE(r.NAN), bytes(4), field(r.FLOAT_LE, 32)), hexed("00 00 C0 7F"))
    check("smallest single", written(DOUBLE(0x36A0000000000000), bytes(4), field(r.FLOAT_LE, 32)), hexed("01 00 00 00"))
    for bits in (0x3690000000000000, 0x3FF0000010000000, 0x7FF8000000000001, r.NAN + 2**63, 0x47F0000000000000, 1):
        unwritten(24, DOUBLE(bits), bytes(4), field(r.FLOAT_LE, 32))
        check("as 64 bits", written(DOUBLE(bits), bytes(8), field(r.FLOAT_LE, 64)), bits.to_bytes(8, "little"))
    unwritten(24, UNSIGNED(256), b".", field(r.UNSIGNED_LE, 8))
    unwritten(24, SIGNED(8), b".", field(r.SIGNED_LE, 4))
    unwritten(24, SIGNED(-9), b".", field(r.SIGNED_LE, 4))
    unwritten(25, SIGNED(1), b".", field(r.UNSIGNED_LE, 8))
    unwritten(25, UNSIGNED(1), bytes(4), field(r.FLOAT_LE, 32))
    unwritten(22, UNSIGNED(1), bytes(4), field(r.FLOAT_LE, 16))
    unwritten(21, Number(0), b"..", field(r.UTF8, 24), told=3)
    unwritten(25, Number(1), b"...", field(r.UTF8, 24))
    unwritten(25, UNSIGNED(1), b".", Channel(r.UNSIGNED_LE, 1, 0, 99, 8, data_addr=7), id_size=5)
    unwritten(21, UNSIGNED(1), b"", Channel(r.UNSIGNED_LE, 1, 0, 99, 8, data_addr=7), told=1, id_size=5)
    check("no data link", written(UNSIGNED(7), b".", Channel(r.UNSIGNED_LE, 1, 0, 0, 8)), b"\7")


def overlap(*channels):
    return r.first_overlap(list(channels))


def example_overlaps():
    twelve = field(r.UNSIGNED_BE, 12)
    check("12 bits BE beside the upper half of byte 0", overlap(twelve, field(0, 4, 4)), r.Overlap())
    check("12 bits BE on the upper half of byte 1", overlap(twelve, field(0, 4, 4, 1)), r.Overlap(found=1, second=1))
    check("12 bits LE on the upper half of byte 0", overlap(field(0, 12), field(0, 4, 4)), r.Overlap(found=1, second=1))
    check("12 bits LE beside the upper half of byte 1", overlap(field(0, 12), field(0, 4, 4, 1)), r.Overlap())
    byte = field(r.UNSIGNED_LE, 8)
    check("none", overlap(), r.Overlap())
    check("one", overlap(byte), r.Overlap())
    check("the second of several", overlap(field(0, 8, 0, 5), byte, field(0, 8, 0, 9), byte, byte),
          r.Overlap(found=1, first=1, second=3))
    check("behind 2^32", overlap(field(0, 64, 0, 2**32 - 1), field(0, 8)), r.Overlap())
    check("256", overlap(*(field(0, 1, k % 8, k // 8) for k in range(256))), r.Overlap())
    check("257", overlap(*[field(0, 0)] * 257), r.Overlap(26))
    for bad in (field(0, 0), field(0, 8, 8), field(2, 65), field(4, 16), field(r.UTF8, 8), Channel(0, 1, 0, 0, 8, data_addr=1)):
        check(f"{bad} is no fixed number", overlap(byte, byte, bad, bad), r.Overlap(27, 2))


# ---- rules without an example ------------------------------------------------------------------------------------------


def rules_of_types():
    check("codes", [r.type_code(code) for code in range(256)], list(range(256)))
    check("default bits", [r.default_bits(code) for code in range(256)], [32] * 6 + [8] * 7 + [64] * 4 + [8] * 239)


def code_given(call, arguments):
    """The code of the type in a case."""
    if call == "read_channel":
        return arguments[0][-70]  # of the 72 bytes behind all links the third
    if call == "write_channel":
        return arguments[0].channel.data_type
    return arguments[-1].data_type if isinstance(arguments[-1], Channel) else arguments[0]


def cases_of_types():
    """The cases reach each code in each of these calls, with an answer."""
    reached = collections.defaultdict(set)
    for boundaries in (cases.type_boundaries, cases.type_field_boundaries, cases.channel_type_boundaries):
        for call, arguments in boundaries(random.Random(18)):
            first = protocol.result_line(call, arguments).split()[0]
            if first == "reply=0" or first.startswith("answer="):
                reached[call].add(code_given(call, arguments))
    calls = ("type_code", "default_bits", "decode_value", "decode_valid_value", "decode_valid_value_unbounded",
             "decode_double_bits", "decode_valid_double", "read_channel", "write_channel")
    check("codes reached", {call: len(codes) for call, codes in reached.items()}, dict.fromkeys(calls, 256))


def rules_of_headers():
    block = hexed("ff23c344 01020304 0500000000000080 0600000000000000 99")
    answer = r.read_header(block)
    check("header", answer, r.HeaderReply(header=Header(0x44C323FF, 0x04030201, 2**63 + 5, 6)))
    check("short header", r.read_header(block[:23]), r.HeaderReply(2, 24))
    check("header back", r.write_header(answer.header, bytes(26)), (r.Written(count=24), block[:24] + bytes(2)))
    check("no room", r.write_header(answer.header, b"\7" * 23), (r.Written(6, 24), b"\7" * 23))


def rules_of_writing():
    for links, offsets in (([1], []), ([], [1]), ([0] * 4097, [0] * 4097)):
        check("unwritable before no room", r.write_list_variable(0, links, offsets, b""), (r.Written(5), b""))
    check("too many links", r.write_list_equal(0, [0] * 4097, 0, b""), (r.Written(5), b""))
    check("no room", r.write_list_equal(0, [0] * 4096, 0, b"\7"), (r.Written(6, 48 + 8 * 4096), b"\7"))
    rng = random.Random(2)
    for _ in range(300):
        links = [rng.getrandbits(64) for _ in range(rng.randint(0, 6))]
        offsets = [rng.getrandbits(64) for _ in links]
        next_list = rng.getrandbits(64)
        written, out = r.write_list_variable(next_list, links, offsets, bytes(200))
        read = r.read_list(out[:written.count])
        check("what was written reads back",
              (read.reply, read.next_addr, read.flags, read.data_block_count, read.header.block_len),
              (0, next_list, 0, len(links), written.count))
        check("its links", r.numbers_at(out, read.data_links_at, read.data_link_count), links)
        check("its offsets", r.numbers_at(out, read.rest_at, read.rest_count), offsets)


def rules_of_channels():
    block = channel_in_hex()
    for length in range(160):
        check(f"{length} bytes", r.read_channel(block[:length]), r.ChannelReply(2, 24 if length < 24 else 160))
    for link_count in range(8):
        check("too few links", r.read_channel(channel_in_hex(link_count)[:24]), r.ChannelReply(17))
    for link_count, told in ((9, 168), (2**61 - 13, 2**64 - 8), (2**61 - 12, 2**64 - 1), (2**61 + 8, 2**64 - 1)):
        check(f"{link_count} links", r.read_channel(channel_in_hex(link_count)), r.ChannelReply(2, told))
    other = "23 23 43 47 99000000 0100000000000000"
    check("another id before too few links", r.read_channel(channel_in_hex(0, start=other)), r.ChannelReply(3))
    check("too few bytes before another id", r.read_channel(channel_in_hex(0, start=other)[:23]), r.ChannelReply(2, 24))
    plain = r.write_channel(CHANNEL_IN_NUMBERS, bytes(160))[1]
    for code in range(256):
        read = r.read_channel(block[:90] + bytes([code]) + block[91:]).block
        described = CHANNEL_IN_NUMBERS.channel._replace(data_type=code)
        check(f"type {code} read", read, CHANNEL_IN_NUMBERS._replace(channel=described))
        check(f"type {code} written", r.write_channel(read, bytes(160))[1], plain[:90] + bytes([code]) + plain[91:])
        is_unknown = r.decode_value(bytes(8), 0, read.channel).kind == r.UNKNOWN_KIND
        check(f"type {code} without decoding", is_unknown, code > r.MIME_STREAM)


def rules_of_values():
    payload = Channel(r.UNSIGNED_LE, 1, 4, 99, 8, data_addr=7)
    check("payload number", r.decode_value(hexed("34 12"), 2**64 - 1, payload),
          Value(kind=r.UNSIGNED_KIND, number=0x23))
    check("payload number too short", r.decode_value(hexed("34"), 0, payload), refused(21, 2))
    check("payload as a double", r.decode_double_bits(hexed("34 12"), 0, payload), r.NAN)
    check("payload text", r.decode_value(b"abc", 5, payload._replace(data_type=r.UTF8, bit_count=0)),
          Value(kind=r.TEXT_KIND, at=0, length=3))
    check("no payload without a data link", r.decode_value(b"abc", 5, payload._replace(data_addr=0)), refused(21, 106))
    check("unknown type", r.decode_value(b"a", 0, field(99, 0)), Value(kind=r.UNKNOWN_KIND))
    check("unknown type past the end", r.decode_value(b"", 0, field(99, 0)), refused(21, 1))
    check("64-bit NaN keeps its bits", value(hexed("01 00 00 00 00 00 f0 7f"), field(r.FLOAT_LE, 64)).number,
          0x7FF0000000000001)
    check("32-bit NaN", value(hexed("ff ff ff ff"), field(r.FLOAT_LE, 32)).number, r.NAN)
    check("text as a double", r.decode_double_bits(b"1", 0, field(r.UTF8, 8)), r.NAN)


VALID = r.Validity(is_valid=1)


def rules_of_refusals():
    """The first cause that holds, in the order of the rules, whatever the length of the group's records; beside it the one
    NaN, and the validity alone."""
    def asked(wanted, record, id_size, channel):
        check(f"{channel} in {len(record)} bytes", r.decode_value(record, id_size, channel), wanted)
        group = Group(id_size, max(0, len(record) - id_size))
        for other in (group, group._replace(invalidation_bytes=1)):
            check("with validity", r.decode_valid_value(record, other, channel), r.ValidValue(wanted.reply, wanted.told))
            check("unbounded", r.decode_valid_value_unbounded(record, other, channel), r.ValidValue(wanted.reply, wanted.told))
        check("as a double", r.decode_double_bits(record, id_size, channel), r.NAN)
        check("as a valid double", r.decode_valid_double(record, group, channel), r.NAN)
        check("validity alone", r.check_validity_unbounded(record, group, channel), 1)
        check("of a group", r.check_validity(record, group, channel), r.Validity(28) if sum(group) > len(record) else VALID)

    for data_type in r.NUMBERS:
        for record in (b"", bytes(20)):
            asked(refused(18), record, 0, field(data_type, 0))
            asked(refused(18), record, 0, field(data_type, 0, 8))
            for bits in (1, 16, 32, 64, 65, 2**32 - 1):
                asked(refused(19), record, 2**64 - 1, field(data_type, bits, 8))
        asked(refused(21, 1), b"", 0, field(data_type, 1, 7))
        asked(refused(21, 9), bytes(8), 0, field(data_type, 64, 7))
    for data_type in r.INTEGERS:
        asked(refused(20), b"", 2**64 - 1, field(data_type, 65, 7))
        asked(refused(20), bytes(20), 0, field(data_type, 2**32 - 1))
    for data_type in r.FLOATS:
        asked(refused(21, 2), bytes(1), 0, field(data_type, 16))
        for bits in (1, 16, 31, 33, 63, 65, 128):
            asked(refused(22), bytes(20), 0, field(data_type, bits, 7))
    for data_type in set(range(256)) - set(r.NUMBERS):
        check("no number", r.decode_value(bytes(70), 1, field(data_type, 0, 255)).reply, 0)
        check("no number, wide", r.decode_value(bytes(70), 1, field(data_type, 65, 8)).reply, 0)
        asked(refused(21, 8), bytes(7), 2, field(data_type, 24, 0, 3))
        check("a payload", r.decode_value(b"", 2**64 - 1, Channel(data_type, 1, 255, 9, 2**32 - 1, data_addr=7)).reply, 0)


def rules_of_told_bytes():
    """Start and span summed without wrapping, and told as 2^64 - 1 where that is passed."""
    for id_size, byte_offset, bits, told in (
            (2**64 - 3, 0, 8, 2**64 - 2), (2**64 - 2, 0, 8, 2**64 - 1), (2**64 - 1, 0, 8, 2**64 - 1),
            (2**64 - 1, 1, 8, 2**64 - 1), (2**64 - 1, 2**32 - 1, 64, 2**64 - 1), (2**64 - 2**32, 2**32 - 1, 8, 2**64 - 1),
            (2**64 - 2**32 - 1, 2**32 - 1, 8, 2**64 - 1), (2**64 - 2**32 - 2, 2**32 - 1, 8, 2**64 - 2),
            (2**32 - 1, 2**32 - 1, 8, 2**33 - 1), (0, 2**32 - 1, 64, 2**32 + 7)):
        for data_type in (r.UNSIGNED_LE, r.SIGNED_BE, r.LATIN1, r.BYTE_ARRAY, r.CANOPEN_DATE, 99):
            check(f"told behind {id_size} and {byte_offset}",
                  r.decode_value(b"abc", id_size, field(data_type, bits, 0, byte_offset)), refused(21, told))
    check("bits that sum past 2^32", r.decode_value(b"", 0, field(r.FLOAT_LE, 2**32 - 1, 7)), refused(21, 2**29 + 1))
    check("a text's whole bytes", r.decode_value(b"", 0, field(r.UTF8, 2**32 - 1, 7)), refused(21, 2**29 - 1))


def cases_of_refusals():
    """The cases reach each cause often, in records that are fetched too, and sums that are told as 2^64 - 1."""
    reached = collections.Counter()
    for boundaries in (cases.refusal_boundaries, cases.record_refusal_boundaries):
        for call, arguments in boundaries(random.Random(12)):
            if call not in ("decode_double_bits", "decode_valid_double"):
                result = protocol.CALLS[call][0](*arguments)
                value = result[0] if call == "record_value" else result
                reached[call, value.reply] += 1
                reached[call, "2^64 - 1"] += value.told == 2**64 - 1
    for call in ("decode_value", "decode_valid_value", "decode_valid_value_unbounded", "record_value"):
        for what in (*r.FIELD_REFUSALS, "2^64 - 1"):
            check(f"{call} {what} is reached often", reached[call, what] >= 20, True)


def rules_of_sums():
    """The length against a sum that never wraps, whatever the flags."""
    for group, length, reply in (
            (Group(), 0, 0), (Group(), 1, 28), (Group(1, 2, 3), 6, 0), (Group(1, 2, 3), 5, 28), (Group(1, 2, 3), 7, 28),
            (Group(2**64 - 1, 1), 0, 28), (Group(2**64 - 1, 0, 1), 0, 28), (Group(2**64 - 1, 2, 2), 3, 28),
            (Group(2**64 - 2**32, 2**32 - 1, 1), 0, 28), (Group(0, 2**32 - 1, 5), 4, 28), (Group(2**32, 2, 2), 4, 28),
            (Group(2**63, 4), 4, 28)):
        for flags in cases.BLIND_FLAGS:
            is_valid = int(reply == 0 and flags % 2 == 0)
            check(f"{length} bytes in {group}", r.check_validity(bytes(length), group, marked(flags, 2**32 - 1)),
                  r.Validity(reply, 0, is_valid))
        for flags in cases.BIT_FLAGS:
            check(f"{length} bytes in {group}, and a bit outside",
                  r.check_validity(bytes(length), group, marked(flags, 2**32 - 1)), r.Validity(reply or 29))
    largest = Group(2**63 - 2**33, 2**32 - 1, 2**32 - 1)
    for step, wanted in ((-1, r.Validity(28)), (0, VALID), (1, r.Validity(28))):
        check("a long record", r.check_validity(protocol.LongFile(sum(largest) + step), largest, marked(0, 0)), wanted)


def python_areas():
    """The bit in a string of the invalidation bits. Where there is an answer, both readings have the same one."""
    rng = random.Random(25)
    seen = collections.Counter()
    for _ in range(6000):
        _call, (record, group, channel) = cases.random_area_case(rng)
        bits = "".join(f"{byte:08b}"[::-1] for byte in record[len(record) - group.invalidation_bytes:])
        if len(record) != sum(group):
            wanted = r.Validity(28)
        elif channel.flags % 4 == 2 and channel.pos_invalidation_bit >= len(bits):
            wanted = r.Validity(29)
        elif channel.flags % 4 == 2:
            wanted = r.Validity(is_valid="10".index(bits[channel.pos_invalidation_bit]))
        else:
            wanted = r.Validity(is_valid=1 - channel.flags % 2)
        seen[wanted] += 1
        check(f"{channel} in {group} of {record.hex()}", r.check_validity(record, group, channel), wanted)
        if wanted.reply == 0:
            check("the other reading", r.check_validity_unbounded(record, group, channel), wanted.is_valid)
            check("its value", r.decode_valid_value_unbounded(record, group, channel),
                  r.decode_valid_value(record, group, channel))
    check("each is seen often", len(seen) == 4 and min(seen.values()) >= 300, True)


def cases_of_areas():
    """The cases reach both refusals and answers often, in each call that has them, and sums that pass 2^64; and what refuses
    the value beside each of the two."""
    reached = collections.Counter()
    for boundaries in (cases.area_boundaries, cases.far_sum_boundaries, cases.area_order_boundaries,
                       cases.record_area_boundaries):
        for call, arguments in boundaries(random.Random(26)):
            result = protocol.CALLS[call][0](*arguments)
            if call == "decode_valid_double":
                continue
            reply = result[0].reply if call == "record_value" else result.reply
            group, channel = arguments[-3:-1] if call == "record_value" else arguments[1:]
            reached[call, reply] += 1
            reached[call, "2^64"] += sum(group) >= 2**64
            if call == "decode_valid_value" and reply in r.FIELD_REFUSALS:
                reached[reply, r.check_validity(arguments[0], group, channel).reply] += 1
    for call in ("check_validity", "decode_valid_value", "record_value"):
        for what in (0, 28, 29, "2^64"):
            check(f"{call} {what} is reached often", reached[call, what] >= 50, True)
    for first, second in itertools.product(r.FIELD_REFUSALS, (28, 29)):
        check(f"{first} before {second} is reached often", reached[first, second] >= 20, True)


def rules_of_text_helpers():
    for code, call in zip(r.TEXTS, (r.text_latin1, r.text_utf8, r.text_utf16_le, r.text_utf16_be)):
        check(f"text of type {code}", r.text_by_type(code, b"\xe9A", bytes(17)), call(b"\xe9A", bytes(17)))
    for code in set(range(256)) - set(r.TEXTS):
        check(f"no text of type {code}", r.text_by_type(code, b"A", b"."), (r.Text(256), b"."))
    check("room", [r.text_room(length) for length in (0, 8, 9, 2**63 - 1, 2**63)], [17, 17, 18, 2**64 - 2, 2**64 - 1])
    for call, (text, _out) in cases.text_boundaries(random.Random(10)):
        check(f"room of {call} {text.hex()}", getattr(r, call)(text, bytes(r.text_room(len(text))))[0].reply, 0)


def no_fault(_chain):
    pass


def in_list(index, **fields):
    return lambda chain: chain.lists[index].update(fields)


def in_data(index, **fields):
    return lambda chain: chain.datas[index].update(fields)


def rules_of_chains():
    """Each refusal alone, on a file that is sound but for one fault."""
    def asked(fault, number=0, size=1, room=1, start=None, is_equal=False):
        chain = cases.Chain(random.Random(3), [b"\1\2", b"\3\4", b"\5"], [[0, 1], [2]], is_equal)
        fault(chain)
        file, asked_start = chain.file(), chain.start if start is None else start
        fetched = r.read_record(file, asked_start, number, size, bytes(room))[0]
        length = r.data_length(file, asked_start)
        if fetched.reply in (0, 16):
            check("length of an accepted chain", length, r.Length(length=5))
        elif fetched.reply != 15:
            check("length of a refused chain", length, r.Length(*fetched))
        return tuple(fetched)

    check("sound", asked(no_fault), (0, 0))
    check("record size 0", asked(no_fault, size=0), (15, 0))
    check("record size 16385", asked(no_fault, size=16385, room=16385), (15, 0))
    check("buffer one short", asked(no_fault, size=2, room=1), (15, 0))
    check("start 0", asked(no_fault, start=0), (11, 0))
    check("start past 2^63", asked(no_fault, start=2**64 - 1), (11, 0))
    check("list id", asked(in_list(1, id=b"##DT")), (3, 0))
    check("list without links", asked(in_list(1, link_count=0)), (4, 0))
    check("list with too many links", asked(in_list(0, link_count=2**61)), (2, 2**64 - 1))
    check("count", asked(in_list(0, count=1)), (10, 0))
    check("block length", asked(in_list(0, block_len=71)), (10, 0))
    check("block length may be more", asked(in_list(0, block_len=2**64 - 1)), (0, 0))
    check("next", asked(in_list(1, next=2**64 - 24)), (11, 0))
    check("data link", asked(in_list(0, links=[0, 0])), (11, 0))
    check("data id", asked(in_data(2, id=b"##DL")), (12, 0))
    check("data links", asked(in_data(0, link_count=1)), (12, 0))
    check("data length 23", asked(in_data(0, block_len=23)), (12, 0))
    check("data past the file", asked(in_data(0, block_len=2**64 - 1)), (12, 0))
    check("offset", asked(in_list(1, rest=[5])), (13, 0))
    check("sound with one length", asked(no_fault, is_equal=True), (0, 0))
    check("one length", asked(in_list(0, rest=[3]), is_equal=True), (13, 0))
    check("another length", asked(in_list(1, rest=[1]), is_equal=True), (13, 0))
    check("past the data", asked(no_fault, number=5), (16, 0))
    check("number that would wrap", asked(no_fault, number=2**63, size=2, room=2), (16, 0))


def rules_of_long_files():
    check("long file", r.read_record(protocol.LongFile(2**40 + 1), 0, 0, 1, bytes(1))[0], r.Done(7))
    check("longest file", r.read_record(protocol.LongFile(2**40), 0, 0, 1, bytes(1))[0], r.Done(11))
    check("length of a long file", r.data_length(protocol.LongFile(2**40 + 1), 0), r.Length(7))
    check("length of the longest file", r.data_length(protocol.LongFile(2**40), 0), r.Length(11))


def reply_to(counts, fault=no_fault, **how):
    """The length of a chain whose lists have so many fragments, each of 3 bytes but for the lengths given by place."""
    chain = cases.counted_chain(random.Random(13), counts, **how)
    fault(chain)
    return r.data_length(chain.file(), chain.start)


def rules_of_whole_forms():
    """What the lists of a chain may have in common, and what they need not."""
    for counts, length in (((2, 2, 1), 15), ((2, 2, 2), 18), ((2, 2, 0), 12), ((1, 1), 6), ((3,), 9), ((0, 0), 0), ((0,), 0)):
        check(f"one length, {counts}", reply_to(counts), r.Length(length=length))
    for counts, lengths, length in (((3,), {2: 1}, 7), ((1,), {0: 0}, 0), ((2, 2), {3: 2}, 11), ((2, 2, 1), {4: 0}, 12)):
        check(f"a short last fragment, {counts}", reply_to(counts, lengths=lengths), r.Length(length=length))
    for counts, length in (((2, 1, 0), 9), ((1, 2), 9), ((0, 1), 3), ((0, 2, 1), 9), ((2, 2, 3), 21)):
        check(f"offsets, {counts}", reply_to(counts, is_equal=False), r.Length(length=length))
    check("offsets, any lengths", reply_to((2, 2), is_equal=False, lengths={0: 0, 1: 5, 3: 1}), r.Length(length=9))
    for flags in (3, 0xFF):
        check(f"one length, flags {flags}", reply_to((1, 1), in_list(1, flags=flags)), r.Length(length=6))
    for flags in (2, 0xFE):
        check(f"offsets, flags {flags}", reply_to((1, 1), in_list(1, flags=flags), is_equal=False), r.Length(length=6))


def rules_of_untrue_lists():
    """A list that does not fit the first is refused behind the fragments of the lists before it, and before its own."""
    for counts in ((2, 1, 0), (1, 2), (2, 2, 3), (2, 1, 2), (2, 3, 2), (1, 0, 1), (0, 1), (0, 0, 1), (0, 1, 0)):
        check(f"counts {counts}", reply_to(counts), r.Length(13))
    for is_equal in (True, False):
        for index in (0, 1, 2):
            check(f"another form in list {index}", reply_to((2, 2, 2), is_equal=is_equal, other_form=index), r.Length(13))
        check("another form without fragments", reply_to((2, 0), is_equal=is_equal, other_form=1), r.Length(13))
        check("another form and a link of 0", reply_to((2, 1), in_list(1, links=[0]), is_equal=is_equal, other_form=1),
              r.Length(13))
    for length in (0, 2, 4, 2**64 - 1):
        for counts, index in (((2, 2, 2), 1), ((2, 2, 2), 2), ((2, 2, 1), 2), ((2, 2, 0), 2), ((0, 0), 1)):
            check(f"length {length} in list {index} of {counts}", reply_to(counts, in_list(index, rest=[length])), r.Length(13))
    for counts in ((2, 2), (2, 2, 2), (2, 1)):
        check(f"a length of 2 that list 1 of {counts} keeps",
              reply_to(counts, in_list(1, rest=[2]), lengths={2: 2, 3: 2}), r.Length(13))
    check("counts 2, 1 and no list behind", reply_to((2, 1, 0), in_list(1, next=2**64 - 1)), r.Length(13))
    check("counts 2, 1, 0 and a bad third list", reply_to((2, 1, 0), in_list(2, id=b"##DT")), r.Length(13))
    check("counts 2, 1, 0 and a bad fragment in list 1", reply_to((2, 1, 0), in_data(2, id=b"##DZ")), r.Length(13))
    check("counts 2, 1, 0 and a bad fragment in list 0", reply_to((2, 1, 0), in_data(1, id=b"##DZ")), r.Length(12))
    check("another length and a link of 0", reply_to((2, 1), in_list(1, rest=[4], links=[0])), r.Length(13))
    check("counts 1, 2 and an untrue count", reply_to((1, 2), in_list(1, count=1)), r.Length(10))
    check("another length and an untrue count", reply_to((2, 2), in_list(1, rest=[4], count=3)), r.Length(10))
    check("another length and a short block", reply_to((2, 2), in_list(1, rest=[4], block_len=63)), r.Length(10))
    check("another length, 4,096 fragments", reply_to((4095, 1), in_list(1, rest=[4])), r.Length(13))
    check("another length, 4,097 fragments", reply_to((4095, 2), in_list(1, rest=[4])), r.Length(9))


def rules_of_untrue_fragments():
    """Only the last fragment of the last list may be short, and none may pass the one length."""
    for counts, place in (((3,), 0), ((3,), 1), ((2, 2), 0), ((2, 2), 1), ((2, 2), 2), ((2, 2, 1), 3), ((2, 0), 1),
                          ((1, 0), 0)):
        for length in (0, 2):
            check(f"fragment {place} of {counts} short", reply_to(counts, lengths={place: length}), r.Length(13))
    for counts, place in (((3,), 0), ((3,), 2), ((1,), 0), ((2, 2), 1), ((2, 2), 3), ((2, 1), 2), ((2, 0), 1)):
        check(f"fragment {place} of {counts} long", reply_to(counts, lengths={place: 4}), r.Length(13))
    short = {1: 2}
    check("a short fragment and no list behind", reply_to((2, 2), in_list(0, next=2**64 - 1), lengths=short), r.Length(13))
    check("full fragments and no list behind", reply_to((2, 2), in_list(0, next=2**64 - 1)), r.Length(11))
    check("a short fragment and a bad second list", reply_to((2, 2), in_list(1, id=b"##DT"), lengths=short), r.Length(13))
    check("a short fragment with another id", reply_to((2, 2), in_data(1, id=b"##DZ"), lengths=short), r.Length(12))
    check("a short fragment behind another id", reply_to((2, 2), in_data(0, id=b"##DZ"), lengths=short), r.Length(12))


def rules_of_loops():
    """A list that names itself fits itself, and is never the last."""
    def looped(counts, index=0, **how):
        return reply_to(counts, lambda chain: cases.looped(chain, index), **how)

    check("256 lists", looped((16,)), r.Length(8))
    check("4,096 fragments", looped((17,)), r.Length(9))
    check("no fragments", looped((0,)), r.Length(8))
    check("a short last fragment", looped((2,), lengths={1: 2}), r.Length(13))
    check("offsets that are not so the second time", looped((2,), is_equal=False), r.Length(13))
    check("offsets without data", looped((2, 1, 0), is_equal=False, lengths={0: 0, 1: 0, 2: 0}), r.Length(8))
    check("back to the first", looped((2, 2)), r.Length(8))
    check("back to the second", looped((2, 2), 1), r.Length(8))
    check("fewer in the list that links back", looped((2, 1)), r.Length(13))


def cases_of_forms():
    """The whole chains are whole, in both forms and often of several lists, and each breach alone is seen."""
    rng = random.Random(14)
    seen, reached = collections.Counter(), collections.Counter()
    for _ in range(800):
        chain = cases.random_chain(rng)
        check("a random chain", r.data_length(chain.file(), chain.start), r.Length(length=len(chain.joined)))
        seen[chain.forms[0], len(chain.lists) > 1] += 1
    check("forms and lists are seen often", len(seen) == 4 and min(seen.values()) >= 100, True)
    for _call, (file, start, *_) in cases.form_boundaries(rng):
        check("a whole chain", r.data_length(file, start).reply, 0)
    for chain, _index in cases.breaches(rng):
        check("a breach alone", r.data_length(chain.file(), chain.start), r.Length(13))
    for boundaries in (cases.breach_boundaries, cases.crowded_breach_boundaries):
        for _call, (file, start, *_) in boundaries(rng):
            reached[boundaries, r.data_length(file, start).reply] += 1
    for reply in (3, 10, 11, 12, 13):
        check(f"{reply} beside a breach is reached often", reached[cases.breach_boundaries, reply] >= 20, True)
    for reply in (9, 10, 13):
        check(f"{reply} among many fragments is reached", reached[cases.crowded_breach_boundaries, reply] >= 4, True)


def rules_of_positions():
    """Which channels hold a position, and where it stands."""
    for other in ({"channel_type": 0}, {"channel_type": 2}, {"data_addr": 0}, {"bit_offset": 1}, {"bit_offset": 8},
                  {"bit_count": 0}, {"bit_count": 63}, {"bit_count": 65}, {"bit_count": 320}):
        channel = POSITION._replace(**other)
        check(f"no position with {other}", payload(0, channel), (r.Payload(35), b"." * 9, b"." * 9))
        check(f"{other} before all else", r.record_payload(b"", 0, 9, 0, Group(9), channel, b"", b"")[0], r.Payload(35))
    record = bytes(range(12))
    for data_type in r.NUMBERS + r.TEXTS + (r.COMPLEX_BE, 99):
        channel = POSITION._replace(data_type=data_type, byte_offset=3)
        check(f"position for type {data_type}", r.position_of(record, 1, channel), 0x0B0A090807060504)
    for id_size, byte_offset, told in (
            (2, 3, 13), (5, 0, 13), (0, 5, 13), (12, 0, 20), (0, 2**32 - 1, 2**32 + 7), (2**64 - 9, 0, 2**64 - 1),
            (2**64 - 10, 0, 2**64 - 2), (2**64 - 1, 2**32 - 1, 2**64 - 1)):
        channel = POSITION._replace(byte_offset=byte_offset)
        asked = r.record_payload(PAYLOAD_FILE, 8, 0, 12, Group(id_size), channel, bytes(12), b"")
        check(f"position behind {id_size} and {byte_offset}", asked[0], r.Payload(21, told=told))


def rules_of_places():
    """Where a payload and its length end, in sums that never wrap."""
    joined = hexed("02000000 6162" "00000000" "ffffffff")
    for position, wanted in ((0, b"ab"), (6, b""), (2, None), (10, None), (11, None), (12, None), (14, None), (2**32, None),
                             (2**64 - 4, None), (2**64 - 1, None)):
        try:
            found = r.payload_at(joined, position)
        except r.Refusal as refusal:
            found = None
            check(f"refused at {position}", (refusal.number, refusal.told), (23, 0))
        check(f"payload at {position}", found, wanted)


FAULT_REPLIES = {
    cases.other_channel: {35}, cases.bad_record_size: {15}, cases.too_long_file: {7},
    cases.broken_records: cases.CHAIN_REPLIES - {0, 7}, cases.no_such_record: {16}, cases.position_outside: {21},
    cases.broken_payloads: cases.CHAIN_REPLIES - {0, 7}, cases.payload_outside: {23}, cases.no_room: {6},
    cases.short_number: {21}}


def rules_of_order():
    """Of any faults the first is told; and what was fetched before it stays, and nothing else is written."""
    rng = random.Random(15)
    order = list(FAULT_REPLIES)
    check("all faults", tuple(order), cases.PAYLOAD_FAULTS)
    for count in range(len(order) + 1):
        for faults in itertools.combinations(order, count):
            _name, arguments = cases.faulty_call(rng, faults).case()
            answer, record, payload_after = r.record_payload(*arguments)
            first = order.index(faults[0]) if faults else len(order)
            check(f"first of {faults}", answer.reply in (FAULT_REPLIES[faults[0]] if faults else {0}), True)
            check(f"record left by {faults}", record != arguments[6], first > order.index(cases.no_such_record))
            check(f"payload left by {faults}", payload_after != arguments[7], first > order.index(cases.no_room))
            check(f"bytes behind {faults}", record[arguments[3]:], arguments[6][arguments[3]:])


def cases_of_payloads():
    """The cases reach each reply of either chain, told apart by whether a record was fetched, and each other one often."""
    reached = collections.Counter()
    chains = (cases.order_boundaries, cases.loop_boundaries, cases.breach_boundaries)
    asked = [cases.asked_by_every_call(boundaries(random.Random(16))) for boundaries in chains]
    asked += [boundaries(random.Random(17)) for boundaries in cases.PAYLOAD_BOUNDARIES]
    for call, arguments in itertools.chain(*asked):
        if call == "record_payload":
            answer, record, _payload = r.record_payload(*arguments)
            reached[record != arguments[6], answer.reply] += 1
    for is_fetched, replies in ((False, (15, 16, 35)), (True, (0, 6, 21, 23))):
        for reply in replies:
            check(f"{reply} is reached often", reached[is_fetched, reply] >= 50, True)
    for reply in cases.CHAIN_REPLIES - {0, 7}:
        check(f"{reply} of the records' chain is reached", reached[False, reply] >= 8, True)
        check(f"{reply} of the payloads' chain is reached", reached[True, reply] >= 8, True)


# The words of the table of three fragments, each changed alone: its place, the word, and whether the table can be right
# without the file and with it. The file has 157 bytes.
CHANGED_WORDS = (
    (0, 3, True, True), (0, 2, True, True), (0, 0, False, False), (0, 4, False, False), (0, 512, False, False),
    (0, 513, False, False), (0, 2**32 + 3, False, False), (0, 2**64 - 1, False, False),
    (1, 4, True, True), (1, 3, True, True), (1, 2, False, False), (1, 0, False, False), (1, 6, True, False),
    (1, 2**64 - 1, True, False), (1, 2**64 - 152, True, False),
    (3, 1, False, False), (3, 2**64 - 1, False, False),
    (5, 0, True, True), (5, 2, True, True), (5, 4, False, False), (5, 2**64 - 1, False, False),
    (7, 2, False, False), (7, 5, True, True), (7, 6, False, False), (7, 0, False, False),
    (2, 0, True, True), (2, 130, True, True), (2, 131, True, False), (2, 2**64 - 27, True, False), (2, 2**64 - 1, True, False),
    (4, 0, True, True), (4, 133, True, True), (4, 134, True, False), (4, 2**64 - 24, True, False), (4, 2**64 - 1, True, False),
    (6, 0, True, True), (6, 80, True, True), (6, 131, True, True), (6, 132, True, False), (6, 2**64 - 26, True, False),
    (8, 7, True, True), (9, 1, True, True), (1024, 2**64 - 1, True, True), (1025, 2**64 - 1, True, True))


def rules_of_bad_tables():
    for place, word, is_right_alone, is_right in CHANGED_WORDS:
        changed_table = histories.with_word(EXTENDED, place, word)
        done, after = r.shorten_table(changed_table)
        check(f"word {place} as {word}, without the file", done, r.Done(0 if is_right_alone else 32))
        check("it stays", after == changed_table, not is_right_alone)
        reply = 0 if is_right else 32
        check(f"word {place} as {word}", r.table_record(TABLE_FILE, changed_table, 0, 1, b".")[0], r.Done(reply))
        done, after = r.extend_table(TABLE_FILE, 131, changed_table)
        check(f"word {place} as {word}, extended", done, r.Done(reply))
        check("it stays", after == changed_table, not is_right)
    for fragments in (r.Table().fragments, FILLED.fragments):
        for length, reply, fetched in ((0, 31, 16), (1, 32, 32), (2**64 - 1, 32, 32)):
            empty = r.Table(0, length, fragments)
            check(f"empty with {length}", r.shorten_table(empty), (r.Done(reply), empty))
            check(f"empty with {length}, fetched", r.table_record(b"", empty, 0, 1, b"."), (r.Done(fetched), b"."))
    check("fragments without data", r.table_record(bytes(24), table(3, 0, (0, 0), (0, 0), (0, 0)), 0, 1, b".")[0], r.Done(16))


def rules_of_unused_places():
    """Opening clears them all. One more fragment is stored and one cleared, and no other place changes."""
    junk = [(9, 9)] * 509
    crowded = table(3, 5, (80, 0), (107, 3), (131, 3), *junk)
    check("extended", r.extend_table(TABLE_FILE, 80, crowded),
          (r.Done(), table(4, 8, (80, 0), (107, 3), (131, 3), (80, 5), *junk[1:])))
    check("shortened", r.shorten_table(crowded), (r.Done(), table(2, 3, (80, 0), (107, 3), (0, 0), *junk)))
    check("opened", r.open_table(TABLE_FILE, 8, crowded), (r.Done(), OPENED))
    check("fetched", r.table_record(TABLE_FILE, crowded, 1, 2, b"..")[1], hexed("03 04"))


def of_blocks(count):
    """A table in which the block of three bytes is so often."""
    return table(count, 3 * count, *((80, 3 * place) for place in range(count)))


def rules_of_full_tables():
    check("511 and one", r.extend_table(TABLE_FILE, 80, of_blocks(511)), (r.Done(), of_blocks(512)))
    check("512 and one", r.extend_table(TABLE_FILE, 80, of_blocks(512)), (r.Done(30), of_blocks(512)))
    check("512 less one", r.shorten_table(of_blocks(512)), (r.Done(), of_blocks(511)))
    check("the last record", r.table_record(TABLE_FILE, of_blocks(512), 511, 3, b"..."), (r.Done(), hexed("01 02 03")))
    check("one further", r.table_record(TABLE_FILE, of_blocks(512), 512, 3, b"..."), (r.Done(16), b"..."))
    for counts, fault, reply in (
            ((512,), no_fault, 0), ((513,), no_fault, 30), ((256, 256), no_fault, 0), ((256, 257), no_fault, 30),
            ((512, 0), no_fault, 0), ((512, 1), no_fault, 30), ((4096,), no_fault, 30), ((4097,), no_fault, 9),
            ((513,), in_data(512, id=b"##SD"), 12), ((512, 2), in_list(1, links=[0, 0]), 11),
            ((513, 0), in_list(1, id=b"##DT"), 3), ((513,), in_list(0, next=2**64 - 1), 11)):
        chain = cases.counted_chain(random.Random(27), counts, False)
        fault(chain)
        done, after = r.open_table(chain.file(), chain.start, FILLED)
        check(f"{counts} opened", (done, after.fragment_count), (r.Done(reply), 9 if reply else sum(counts)))


def rules_of_extension_order():
    """Of any faults the first is told, and the table stays."""
    for faults in itertools.product((False, True), repeat=5):
        is_long, is_bad, is_nowhere, is_no_block, is_full = faults
        given = of_blocks(512 if is_full else 2)
        given = given._replace(data_length=2**64 - 1) if is_bad else given
        address = 0 if is_nowhere else 8 if is_no_block else 80
        done, after = r.extend_table(protocol.LongFile(2**40 + 1) if is_long else TABLE_FILE, address, given)
        check(f"first of {faults}", done.reply, next(itertools.compress((7, 32, 11, 12, 30), faults), 0))
        check(f"table after {faults}", after == given, any(faults))


def rules_of_fetch_order():
    """As with an extension; and once a record is fetched it stays, whatever of its field is refused."""
    fields = (field(0, 8), field(0, 0), field(0, 8, 8), field(0, 65), field(0, 24), field(4, 16))
    for faults in itertools.product((False, True), repeat=4):
        is_bad_size, is_long, is_bad, is_no_record = faults
        file = protocol.LongFile(2**40 + 1) if is_long else TABLE_FILE
        given = of_blocks(2)._replace(fragment_count=513) if is_bad else of_blocks(2)
        asked = (file, given, 3 if is_no_record else 2, 2)
        before = b"." if is_bad_size else b"..."
        reply = next(itertools.compress((15, 7, 32, 16), faults), 0)
        after = before if reply else hexed("02 03") + b"."
        check(f"first of {faults}", r.table_record(*asked, before), (r.Done(reply), after))
        for channel, refusal in zip(fields, (0, 18, 19, 20, 21, 22)):
            for group, flags, later in ((Group(0, 2), 0, 0), (Group(0, 1), 2, 28), (Group(0, 2), 2, 29)):
                found = r.table_value(*asked, group, channel._replace(flags=flags), before)
                check(f"{channel} behind {faults}", (found[0].reply, found[1]), (reply or refusal or later, after))


def cases_of_tables():
    """The cases reach each reply of each call often, and each word that is in use is made wrong and left right."""
    reached = collections.Counter()
    for boundaries in cases.TABLE_BOUNDARIES:
        for call, arguments in boundaries(random.Random(28)):
            if call != "history":
                reached[call, protocol.CALLS[call][0](*arguments)[0].reply] += 1
    often = {call: cases.REPLIES[call] for call in ("extend_table", "shorten_table", "table_record", "table_value")}
    for call, replies in {"open_table": {0, 10, 11, 12, 13, 30}, **often}.items():
        for reply in replies:
            check(f"{call} {reply} is reached often", reached[call, reply] >= 5, True)
    for place, words in cases.edge_words(EXTENDED, len(TABLE_FILE)):
        changed_tables = [histories.with_word(EXTENDED, place, word) for word in words]
        is_address = place >= 2 and place % 2 == 0
        check(f"word {place}, without the file", {r.shorten_table(given)[0].reply for given in changed_tables},
              {0} if is_address else {0, 32})
        check(f"word {place}", {r.table_record(TABLE_FILE, given, 0, 1, b".")[0].reply for given in changed_tables}, {0, 32})


HISTORY_REPLIES = {histories.OPEN: (0, 3, 11), histories.EXTEND: (0, 11, 12, 30, 32), histories.SHORTEN: (0, 31, 32),
                   histories.RECORD: (0, 15, 16, 32), histories.VALUE: (0, 15, 16, 21, 28, 32), histories.WRITE: (None,)}


def cases_of_histories():
    """The histories reach each reply of each call often, and fetch records that the other file has otherwise."""
    reached, others = collections.Counter(), 0
    for boundaries in (cases.short_history_boundaries, cases.full_history_boundaries, cases.random_history_boundaries):
        for _call, (file, *rest) in boundaries(random.Random(30)):
            for step, outcome in zip(rest[3], histories.outcomes(file, *rest)):
                reached[step.what, outcome.answer and outcome.answer.reply] += 1
                if step.what == histories.RECORD and step.file == 1 and outcome.answer.reply == 0:
                    others += outcome.buffer != r.table_record(file, outcome.table, step.first, step.second, outcome.buffer)[1]
    for what, replies in HISTORY_REPLIES.items():
        for reply in replies:
            check(f"{what} {reply} is reached often", reached[what, reply] >= 10, True)
    check("records of the other file are fetched", others >= 3, True)


# ---- vectors from outside ----------------------------------------------------------------------------------------------


def outside_doubles():
    for number, bits in ((2**53 + 1, 0x4340000000000000), (2**53 + 2, 0x4340000000000001), (2**53 + 3, 0x4340000000000002),
                         (2**64 - 1, 0x43F0000000000000), (2**63, 0x43E0000000000000), (-2**63, 0xC3E0000000000000),
                         (2**63 - 1, 0x43E0000000000000), (2**54 - 1, 0x4350000000000000), (2**53 - 1, 0x433FFFFFFFFFFFFF),
                         (2**64 - 1024, 0x43F0000000000000), (2**64 - 1025, 0x43EFFFFFFFFFFFFF), (0, 0),
                         (1, 0x3FF0000000000000), (-1, 0xBFF0000000000000)):
        check(f"nearest to {number}", hex(r.nearest_double(number)), hex(bits))
    for single, bits in ((0x00000000, 0), (0x80000000, 2**63), (0x3F800000, 0x3FF0000000000000), (0x00800000, 0x3810000000000000),
                         (0x007FFFFF, 0x380FFFFFC0000000), (0x7F7FFFFF, 0x47EFFFFFE0000000), (0x7F800000, 0x7FF0000000000000),
                         (0xFF800000, 0xFFF0000000000000), (0x7F800001, r.NAN), (0xFFC00000, r.NAN), (0xFFFFFFFF, r.NAN)):
        check(f"single {single:#x}", hex(r.widened(single)), hex(bits))


def outside_unicode():
    damaged = ["C0 AF", "E0 80 BF", "F0 81 82 41",  # table 3-8: non-shortest forms
               "ED A0 80", "ED BF BF", "ED AF 41",  # table 3-9: surrogates
               "F4 91 92 93", "FF 41", "80 BF 42",  # table 3-10: other ill-formed sequences
               "E1 80 E2 F0 91 92 F1 BF 41",  # table 3-11: truncated sequences
               "C2", "E0 A0", "F0 90 80", "F4 90 80 80", "F5 80 80 80", "C1 BF", "F0 8F BF BF", "FE", "C3 28"]
    for digits in damaged:
        check(f"UTF-8 {digits}", r.text_utf8(hexed(digits), bytes(14)), (r.Text(count=14, damaged=1), b"<Invalid UTF8>"))
    whole = ["4D D0 B0 E4 BA 8C F0 90 8C 82", "C2 80", "DF BF", "E0 A0 80", "ED 9F BF", "EE 80 80", "EF BF BF", "F0 90 80 80",
             "F4 8F BF BF"]
    for digits in whole:
        text = hexed(digits)
        check(f"UTF-8 {digits}", r.text_utf8(text, bytes(len(text))), (r.Text(count=len(text)), text))
    check("table 3-4 UTF-16", r.text_utf16_be(hexed("004D 0430 4E8C D800DF02"), bytes(10)),
          (r.Text(count=10), hexed("4D D0 B0 E4 BA 8C F0 90 8C 82")))
    check("NUL before the damage", r.text_utf8(hexed("41 00 FF"), b".."), (r.Text(count=1), b"A."))
    check("zero unit before the damage", r.text_utf16_be(hexed("0041 0000 D800"), b".."), (r.Text(count=1), b"A."))
    check("zero bytes across units", r.text_utf16_be(hexed("4100 0041"), bytes(4)), (r.Text(count=4), hexed("E4 84 80 41")))
    check("spelled placeholder", r.text_utf8(b"<Invalid UTF8>", bytes(14)), (r.Text(count=14), b"<Invalid UTF8>"))
    check("no room for the placeholder", r.text_utf8(b"\xff", bytes(13)), (r.Text(6, 14), bytes(13)))


# ---- Python's own conversions ------------------------------------------------------------------------------------------


def python_floats():
    rng = random.Random(4)
    for _ in range(8000):
        number = cases.hard_integer(rng, 64) * rng.choice([1, -1])
        check(f"float({number})", r.nearest_double(number), bits_of(float(number)))
    for _ in range(3000):  # nearest, by exact distances to the two neighbours
        number = cases.hard_integer(rng, 64)
        bits = r.nearest_double(number)
        distance = abs(Fraction(double_of(bits)) - number)
        for other in ([bits - 1] if bits else []) + [bits + 1]:
            other_distance = abs(Fraction(double_of(other)) - number)
            is_nearest = distance < other_distance or (distance == other_distance and bits % 2 == 0)
            check(f"nothing nearer to {number}", is_nearest, True)
    for _ in range(8000):
        single = cases.hard_float(rng, 32)
        as_float = struct.unpack("<f", struct.pack("<I", single))[0]
        check(f"single {single:#x}", r.widened(single), r.NAN if as_float != as_float else bits_of(as_float))


def python_integers():
    """Fields read bit by bit from a string of the span's bits."""
    rng = random.Random(5)
    for _ in range(4000):
        bit_count, bit_offset, data_type = rng.randint(1, 64), rng.randint(0, 7), rng.randint(0, 3)
        record = rng.randbytes((bit_offset + bit_count + 7) // 8)
        ordered = record if data_type in (1, 3) else record[::-1]
        digits = "".join(f"{byte:08b}" for byte in ordered)
        digits = digits[len(digits) - bit_offset - bit_count:len(digits) - bit_offset]
        wanted = int(digits, 2)
        if data_type in (2, 3) and digits[0] == "1":
            wanted = -int("".join("10"[int(digit)] for digit in digits), 2) - 1
        read = signed if data_type in (2, 3) else unsigned
        check(f"{record.hex()} {data_type} {bit_offset} {bit_count}", read(record, field(data_type, bit_count, bit_offset)),
              wanted)


def python_written():
    """What was written reads back. The bytes in front of the field's and behind them stay, and of its own the bits beside it."""
    rng = random.Random(21)
    answered = 0
    for _ in range(6000):
        _, (id_size, channel, number, record) = cases.random_write_case(rng)
        reply, after = r.write_value(id_size, channel, number, record)
        if reply.reply != 0:
            check("refused", after, record)
            continue
        answered += 1
        read = r.decode_value(after, id_size, channel)
        check(f"{number} in {channel}", (read.kind, read.number), (number.kind, number.number))
        span, at = r.span_of(channel), id_size + channel.byte_offset
        order = "big" if channel.data_type % 2 else "little"
        check("in front and behind", (after[:at], after[at + span:]), (record[:at], record[at + span:]))
        kept = ~((2**channel.bit_count - 1) << channel.bit_offset)
        check("beside", *(int.from_bytes(bytes_of[at:at + span], order) & kept for bytes_of in (after, record)))
    check("mostly answered", answered > 2000, True)


def python_written_over():
    """What was decoded, written over itself, changes no byte; but of 32 bits every NaN becomes the one, set here by shifts."""
    nans = 0
    for _call, (id_size, channel, number, record) in cases.write_same_boundaries(random.Random(24)):
        wanted = record
        if channel.bit_count == 32 and number == DOUBLE(r.NAN):
            span, at = r.span_of(channel), id_size + channel.byte_offset
            order = "big" if channel.data_type % 2 else "little"
            beside = int.from_bytes(record[at:at + span], order) & ~(0xFFFFFFFF << channel.bit_offset)
            whole = beside | 0x7FC00000 << channel.bit_offset
            wanted = record[:at] + whole.to_bytes(span, order) + record[at + span:]
            nans += wanted != record
        check(f"{number} over itself in {channel}", written(number, record, channel, id_size), wanted)
    check("other NaNs are among them", nans > 100, True)


def python_narrowed():
    """A double goes into 32 bits where packing it there and unpacking it gives the same bits back."""
    rng = random.Random(22)
    for bits in itertools.chain(cases.hard_narrowings(), (rng.getrandbits(64) for _ in range(2000)),
                                (rng.getrandbits(35) << 29 for _ in range(4000))):
        for pattern in (bits, bits ^ 2**63):
            value = double_of(pattern)
            try:
                packed = struct.pack("<f", value)
                wanted = struct.unpack("<I", packed)[0] if bits_of(struct.unpack("<f", packed)[0]) == pattern else None
            except OverflowError:
                wanted = None
            if value != value:
                wanted = 0x7FC00000 if pattern == r.NAN else None
            check(f"{pattern:#x} narrowed", r.narrowed(pattern), wanted)


def spread(channel):
    """The field's bits as one number with a bit for each of the record's, by shifts and byte orders."""
    span = r.span_of(channel)
    ones = ((2**channel.bit_count - 1) << channel.bit_offset).to_bytes(span, "big" if channel.data_type % 2 else "little")
    return int.from_bytes(ones, "little") << 8 * channel.byte_offset


def python_overlaps():
    rng = random.Random(23)
    for _ in range(3000):
        channels = [cases.fixed_channel(rng, rng.randint(0, 30)) for _ in range(rng.randint(0, 7))]
        fields = [spread(channel) for channel in channels]
        pairs = [pair for pair in itertools.combinations(range(len(fields)), 2) if fields[pair[0]] & fields[pair[1]]]
        check(f"{channels}", r.first_overlap(channels), r.Overlap(0, 0, 1, *min(pairs)) if pairs else r.Overlap())


def python_structs():
    """Channel blocks as the struct module packs them, and packs them again from what was read."""
    rng = random.Random(11)
    for _ in range(3000):
        links_count = rng.choice([8, 9, 12])
        fields = cases.random_channel_fields(rng, links_count)
        read = r.read_channel(cases.channel_block(fields)).block
        c = read.channel
        links = [read.next_ch_addr, read.component_addr, read.name_addr, read.source_addr, read.conversion_addr, c.data_addr,
                 read.unit_addr, read.comment_addr]
        check("links", links, fields["links"][:8])
        check("more links", (read.more_links_at, read.more_link_count), (88, links_count - 8))
        row = [c.channel_type, read.sync_type, c.data_type, c.bit_offset, c.byte_offset, c.bit_count, c.flags,
               c.pos_invalidation_bit, read.precision, read.reserved1, read.attachment_count, *read[-6:]]
        check("fields", row, fields["rest"])
        again = struct.pack("<4sIQQ8Q4B4I2BH6Q", b"##CN", 0, 160, 8, *links, *row[:9], 0, 0, *row[11:])
        check("written again", r.write_channel(read, bytes(161)), (r.Written(count=160), again + bytes(1)))
        check("read again", r.read_channel(again).block.channel, c)


def python_text(text, call):
    """The same rules with Python's strict codecs."""
    encoding, placeholder = {
        "text_latin1": ("latin-1", None), "text_utf8": ("utf-8", b"<Invalid UTF8>"),
        "text_utf16_le": ("utf-16-le", b"<Invalid UTF16LE>"), "text_utf16_be": ("utf-16-be", b"<Invalid UTF16BE>")}[call]
    if "16" in encoding:
        units = [text[i:i + 2] for i in range(0, len(text) // 2 * 2, 2)]
        text = b"".join(units[:units.index(bytes(2))] if bytes(2) in units else units)
    else:
        text = text.split(b"\0")[0]
    try:
        return codecs.decode(text, encoding, "strict").encode("utf-8"), 0
    except UnicodeDecodeError:
        return placeholder, 1


def python_codecs():
    rng = random.Random(6)
    for _ in range(8000):
        call, (text, _out) = cases.random_text_case(rng)
        content, damaged = python_text(text, call)
        answer, out = getattr(r, call)(text, bytes(100))
        wanted = (r.Text(count=len(content), damaged=damaged), content + bytes(100 - len(content)))
        check(f"{call} {text.hex()}", (answer, out), wanted)
    for call, (text, _out) in cases.text_boundaries(rng):
        content, damaged = python_text(text, call)
        check(f"{call} {text.hex()}", getattr(r, call)(text, bytes(100))[0], r.Text(count=len(content), damaged=damaged))


def joined_equal_chains():
    """Files that cut the same joined bytes differently give the same answers, and those are the joined bytes."""
    rng = random.Random(7)
    for _ in range(300):
        data = rng.randbytes(rng.randint(0, 20))
        number, size = rng.randint(0, 8), rng.randint(1, 6)
        record = data[number * size:(number + 1) * size]
        wanted = (r.Done(), record + b".") if len(record) == size else (r.Done(16), b"." * (size + 1))
        for _ in range(3):
            places = sorted(rng.randint(0, len(data)) for _ in range(rng.randint(0, 4)))
            blocks = [data[low:high] for low, high in zip([0] + places, places + [len(data)])]
            split = rng.randint(0, len(blocks))
            chain = cases.Chain(rng, blocks, [list(range(split)), list(range(split, len(blocks)))])
            check("record", r.read_record(chain.file(), chain.start, number, size, b"." * (size + 1)), wanted)
            check("length", r.data_length(chain.file(), chain.start), r.Length(length=len(data)))


def opened_as_chains():
    """Just after opening, a fetch through the table is the one through the chain; and what refuses the chain refuses its
    table."""
    rng = random.Random(31)
    for _ in range(400):
        chain = rng.choice([cases.random_chain, cases.random_misfit])(rng)
        file, length = chain.file(), len(chain.joined)
        opened, made = r.open_table(file, chain.start, FILLED)
        check("opened", opened, r.Done(*r.data_length(file, chain.start)[:2]))
        for _ in range(3 if opened.reply == 0 else 0):
            call, asked = cases.record_query(rng, length)
            check(f"{call} through a table", getattr(r, cases.THROUGH_TABLE[call])(file, made, *asked),
                  getattr(r, call)(file, chain.start, *asked))


def afresh(file, addresses):
    """The table of blocks, and their joined data, by the lengths that the struct module finds."""
    lengths = [struct.unpack_from("<Q", file, address + 8)[0] - 24 for address in addresses]
    pairs = [(address, sum(lengths[:place])) for place, address in enumerate(addresses)]
    joined = b"".join(file[address + 24:address + 24 + length] for address, length in zip(addresses, lengths))
    return table(len(pairs), len(joined), *pairs), joined


def operation(rng, chain, file, given, left):
    """One operation, refused at times: the table behind it, and the addresses of the blocks that are left."""
    what = rng.choice([r.open_table, r.extend_table, r.extend_table, r.shorten_table])
    if what == r.shorten_table:
        done, after = r.shorten_table(given)
        check("shortened", done, r.Done(0 if left else 31))
        return after, left[:-1]
    sound = [chain.start] if what == r.open_table else chain.data_places
    address = rng.choice([*sound, *sound, 0, len(file) - 24, 2**64 - 1])
    done, after = what(file, address, given)
    check(f"{what} at {address}", done.reply == 0, address in sound)
    if done.reply:
        return after, left
    chained = [chain.data_places[number] for numbers in chain.plan for number in numbers]
    return after, chained if what == r.open_table else [*left, address]


def histories_afresh():
    """After any history the table is the one that is worked out afresh from the blocks that are left, and so are records."""
    rng = random.Random(32)
    for _ in range(120):
        chain = cases.random_chain(rng)
        file, given, left = chain.file(), r.Table(), []
        for _ in range(rng.randint(1, 9)):
            given, left = operation(rng, chain, file, given, left)
            wanted, joined = afresh(file, left)
            check(f"table of {left}", given, wanted)
            size, number = rng.randint(1, 4), rng.randint(0, 4)
            record = joined[number * size:(number + 1) * size]
            check(f"record {number} of {left}", r.table_record(file, given, number, size, b"...."),
                  (r.Done(), record + b"...."[size:]) if len(record) == size else (r.Done(16), b"...."))


def values_of(arguments):
    """Of each record: its number, whether it is valid, and its value as a fraction or an infinity, or None; and the summand."""
    file, start, size, group, channel, buffer = arguments
    for number in itertools.count():
        value, buffer = r.record_value(file, start, number, size, group, channel, buffer)
        if value.reply == 16:
            return
        bits = r.decode_double_bits(buffer[:size], group.record_id_size, channel)
        double = double_of(bits)
        exact = None if double != double else double if abs(double) == float("inf") else Fraction(double)
        summand = 0 if value.kind == r.DOUBLE_KIND else r.signed_of(value.number) if value.kind == r.SIGNED_KIND else value.number
        yield value, number, exact, summand


def check_outermost(name, line, numbers):
    """Each is one of the numbers, none is further out, and none that is equal stands before it."""
    fractions = dict(numbers)
    check(f"{name}: first and last", (line.first.number, line.last.number), (numbers[0][0], numbers[-1][0]))
    for point, is_further in ((line.smallest, lambda a, b: a < b), (line.largest, lambda a, b: a > b)):
        found = fractions.get(point.number)
        check(f"{name}: its value", double_of(point.value), None if found is None else float(found))
        check(f"{name}: none is further", any(is_further(other, found) for other in fractions.values()), False)
        check(f"{name}: none before is equal", any(fractions[n] == found for n in fractions if n < point.number), False)


def reports_of_records():
    """Each report that is answered against fetches of its records, one by one."""
    rng, seen = random.Random(41), collections.Counter()
    random_ones = (cases.random_report_case(rng) for _ in range(3000))
    boundaries = itertools.chain.from_iterable(boundary(rng) for boundary in cases.REPORT_BOUNDARIES[:6])
    for _call, arguments in itertools.chain(itertools.islice(boundaries, 0, None, 3), random_ones):
        line, after = r.report(*arguments)
        if line.reply != 0:
            check("a refused report", after, arguments[-1])
            continue
        values = list(values_of(arguments))
        valid = [(number, exact, summand) for value, number, exact, summand in values if value.is_valid]
        numbers = [(number, exact) for number, exact, _ in valid if exact is not None]
        name = protocol.case_line("report", arguments)
        check(name, (line.records, line.valid, line.nan), (len(values), len(valid), len(valid) - len(numbers)))
        check(f"{name}: all", line.valid + line.invalid + line.without_value, line.records)
        check(f"{name}: without", line.without_value, sum(value.reply != 0 for value, *_ in values))
        check(f"{name}: the sum", line.sum_high * 2**64 + line.sum_low, sum(summand for *_, summand in valid))
        if numbers:
            check_outermost(name, line, numbers)
        else:
            check(f"{name}: none", line[7:12], (0, *[r.Point()] * 4))
        seen.update({"invalid": line.invalid > 0, "none": not numbers, "nan": line.nan > 0, "without": line.without_value > 0,
                     "high": line.sum_high > 0, "below 0": line.sum_high < 0, "no record": line.records == 0})
    check("each kind of line is seen often", min(seen.values()) >= 50, True)


def joined_equal_payloads():
    """Files that cut the same records and the same payloads differently give the same answers, in the bytes that the struct
    module finds."""
    rng = random.Random(18)
    for _ in range(300):
        call = cases.random_payload_call(rng)
        position, room = call.positions[call.number], bytes(len(call.stream))
        outcomes = set()
        for _ in range(3):
            cut = cases.PayloadCall(rng, call.stream, call.positions, is_equal=rng.random() < 0.5, most=rng.randint(1, 6),
                                    id_size=0, before=0, behind=b"")
            outcomes.add(r.record_payload(cut.file(), cut.start, call.number, 8, Group(0, 8), cut.channel, bytes(8), room))
        try:
            (length,) = struct.unpack_from("<I", call.stream, position)
            (content,) = struct.unpack_from(f"<{length}s", call.stream, position + 4)
            wanted = r.Payload(kind=r.BYTES_KIND, length=length, payload_length=length, is_valid=1)
        except (struct.error, OverflowError):
            content, wanted = b"", r.Payload(23)
        check(f"payload at {position}", outcomes,
              {(wanted, struct.pack("<Q", position), content + room[len(content):])})


def lines_read_back():
    rng = random.Random(8)
    for _, (call, arguments) in zip(range(3000), cases.random_cases(9)):
        line = protocol.case_line(call, arguments, rng.random() < 0.5)
        check(line, protocol.case_of_line(line), (call, arguments))
    check("joined pieces", protocol.bytes_of_word("x01+00*3+0203*2"), hexed("01 000000 02030203"))


def main():
    section("example: integers", example_integers)
    section("example: floats", example_floats)
    section("example: doubles", example_doubles)
    section("example: texts", example_texts)
    section("example: refusals of a field", example_refusals)
    section("example: validity", example_validity)
    section("example: validity without an end", example_unbounded_validity)
    section("example: lists", example_lists)
    section("example: channels", example_channels)
    section("example: chain", example_chain)
    section("example: reports", example_reports)
    section("example: doubles of a report", example_reported_doubles)
    section("example: tables", example_tables)
    section("example: values through a table", example_table_values)
    section("example: payloads", example_payloads)
    section("example: numbers written", example_written)
    section("example: fields that overlap", example_overlaps)
    section("rules of types", rules_of_types)
    section("cases of types", cases_of_types)
    section("rules of headers", rules_of_headers)
    section("rules of writing lists", rules_of_writing)
    section("rules of channels", rules_of_channels)
    section("rules of values", rules_of_values)
    section("rules of a field's refusals", rules_of_refusals)
    section("rules of the bytes told", rules_of_told_bytes)
    section("cases of a field's refusals", cases_of_refusals)
    section("rules of a record's length", rules_of_sums)
    section("cases of a record's length and bit", cases_of_areas)
    section("rules of the helpers for texts", rules_of_text_helpers)
    section("rules of chains", rules_of_chains)
    section("rules of long files", rules_of_long_files)
    section("rules of the form of a chain", rules_of_whole_forms)
    section("rules of lists that do not fit", rules_of_untrue_lists)
    section("rules of fragments that do not fit", rules_of_untrue_fragments)
    section("rules of loops", rules_of_loops)
    section("cases of the form of a chain", cases_of_forms)
    section("rules of positions", rules_of_positions)
    section("rules of a payload's place", rules_of_places)
    section("rules of the order", rules_of_order)
    section("cases of payloads", cases_of_payloads)
    section("rules of bad tables", rules_of_bad_tables)
    section("rules of unused places", rules_of_unused_places)
    section("rules of full tables", rules_of_full_tables)
    section("rules of the order of an extension", rules_of_extension_order)
    section("rules of the order of a fetch", rules_of_fetch_order)
    section("cases of tables", cases_of_tables)
    section("cases of histories", cases_of_histories)
    section("IEEE 754 vectors", outside_doubles)
    section("Unicode vectors", outside_unicode)
    section("against float() and struct", python_floats)
    section("against bit strings", python_integers)
    section("against strings of invalidation bits", python_areas)
    section("against what reads back", python_written)
    section("against what stood there", python_written_over)
    section("against packed floats", python_narrowed)
    section("against shifted masks", python_overlaps)
    section("against packed structs", python_structs)
    section("against Python's codecs", python_codecs)
    section("chains with the same joined bytes", joined_equal_chains)
    section("payloads with the same joined bytes", joined_equal_payloads)
    section("reports of records, one by one", reports_of_records)
    section("tables as their chains", opened_as_chains)
    section("histories of tables, afresh", histories_afresh)
    section("lines read back", lines_read_back)
    return 1 if failures else 0


if __name__ == "__main__":
    sys.exit(main())
