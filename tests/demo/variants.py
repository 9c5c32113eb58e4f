"""Writes variants of the demo's log, each for one test of tests/demo/run.

    variants.py LOG FOLDER
"""

import os
import struct
import sys

import legal

MAX_LENGTH, VIRTUAL = 5, 6
SERIAL, HOURS, OIL = 1, 2, 3


def put(data, at, number, size):
    data[at:at + size] = number.to_bytes(size, "little")


def visited(data):
    log = legal.Log(bytes(data))
    log.visit(64, "HD")
    return log


def addresses(data, kind):
    return [address for address, block in sorted(visited(data).blocks.items()) if block[0] == kind]


def add_block(data, kind, links, rest):
    """A block behind all others; gives its address."""
    data += bytes(-len(data) % 8)
    address, length = len(data), 24 + 8 * len(links) + len(rest)
    data += struct.pack(f"<4s4xQQ{len(links)}Q", b"##" + kind.encode(), length, len(links), *links) + rest
    return address


def no_link(data):
    """The first data link of the first list is 0."""
    put(data, addresses(data, "DL")[0] + 32, 0, 8)


def no_size(data):
    """Records have neither data bytes nor invalidation bytes."""
    put(data, addresses(data, "CG")[0] + 96, 0, 8)


def unsorted(data):
    """A second channel group follows the first."""
    group = addresses(data, "CG")[0]
    put(data, group + 24, group, 8)


def types(data):
    """The serial is of maximum length, and hours have no field."""
    for channel, kind in (SERIAL, MAX_LENGTH), (HOURS, VIRTUAL):
        put(data, addresses(data, "CN")[channel] + 88, kind, 1)


def bit_outside(data):
    """The oil's invalidation bit is the first one behind the group's invalidation bytes."""
    put(data, addresses(data, "CN")[OIL] + 104, 8, 4)


def single(data):
    """The records, the sites and the remarks each in a single block, without a list."""
    log = visited(data)
    for kind, link, data_kind in ("DG", 2, "DT"), ("CN", 5, "SD"):
        for address in addresses(data, kind):
            target = log.blocks[address][2][link]
            if target:
                block = add_block(data, data_kind, [], legal.joined_data(log, target, data_kind))
                put(data, address + 24 + 8 * link, block, 8)


def loop(data):
    """The last channel links the first as its next."""
    channels = addresses(data, "CN")
    put(data, channels[-1] + 24, channels[0], 8)


def long(data):
    """Single blocks, behind more bytes than a reader takes at a time."""
    data += bytes(200_000)
    single(data)


def cut_single(data):
    """The last byte of the last single block is missing."""
    single(data)
    del data[-1:]


def in_blocks(data, count):
    """The records in so many blocks, a byte in each as far as they go, and one list with offsets; gives its address."""
    log, group = visited(data), addresses(data, "DG")[0]
    joined = legal.joined_data(log, log.blocks[group][2][2], "DT")
    links = [add_block(data, "DT", [], joined[number:][:1]) for number in range(count)]
    offsets = [min(number, len(joined)) for number in range(count)]
    rest = struct.pack(f"<B3xI{count}Q", 0, count, *offsets)
    chain = add_block(data, "DL", [0, *links], rest)
    put(data, group + 40, chain, 8)
    return chain


def full_table(data):
    """As many blocks as a table holds."""
    in_blocks(data, 512)


def many_blocks(data):
    """One block more."""
    in_blocks(data, 513)


def many_and_bad(data):
    """One block more, and the link to it is 0."""
    put(data, in_blocks(data, 513) + 32 + 8 * 512, 0, 8)


def main():
    with open(sys.argv[1], "rb") as file:
        good = file.read()
    changes = (no_link, no_size, unsorted, types, bit_outside, single, loop, long, cut_single, full_table, many_blocks,
               many_and_bad)
    for change in changes:
        data = bytearray(good)
        change(data)
        with open(os.path.join(sys.argv[2], change.__name__ + ".mf4"), "wb") as file:
            file.write(data)


if __name__ == "__main__":
    main()
