"""Checks that a log is a legal MDF 4.1 file, by the block tables of ASAM MDF 4.1 and by nothing of the library's.

    legal.py LOG RECORDS

Every block stands at a multiple of 8, has the links and the length of its kind, and follows the one before it with zeros
between; every link leads to a block of the kind that it should; what the standard demands is there; and the records are, byte by
byte, those that the file RECORDS has in hex, one to a line. Exit status: 0 if so, 1 if not, with what a legal log would have.
"""

import struct
import sys
import xml.etree.ElementTree

# Of each kind: what its links may lead to, with a + where there must be something, and the bytes of its fields. The links of
# a list and the fields of a conversion depend on what they count.
TEXT = "TX MD"
KINDS = {
    "HD": (["DG", "+FH", "CH", "AT", "EV", "MD"], 32),
    "FH": (["FH", "+MD"], 16),
    "DG": (["DG", "CG", "DT DL HL DZ", TEXT], 8),
    "CG": (["CG", "CN", "TX", "SI", "SR", TEXT], 32),
    "CN": (["CN", "CN CA", "+TX", "SI", "CC", "SD DL HL CG DZ", TEXT, TEXT], 72),
    "CC": (["TX", TEXT, TEXT, "CC"], 24),
}
# Where in its fields a kind has reserved bytes, which are 0.
RESERVED = {"HD": slice(15, 16), "FH": slice(13, 16), "DG": slice(1, 8), "CG": slice(20, 24), "CN": slice(21, 22),
            "DL": slice(1, 4)}
# Channel types and sync types that the log has: a master is one of time, and others are none.
MASTER, VARIABLE_LENGTH = 2, 1
SYNC_TYPES = {0: 0, VARIABLE_LENGTH: 0, MASTER: 1}
# The type of a linear conversion, and how many values it has.
LINEAR = 1, 2
# The data types of texts that the log has, and their encodings.
ENCODINGS = {6: "latin-1", 7: "utf-8"}
NAMESPACE = "{http://www.asam.net/mdf/v4}"


class Illegal(Exception):
    pass


def demand(holds, what):
    if not holds:
        raise Illegal(what)


class Log:
    def __init__(self, data):
        self.data = data
        self.blocks = {}  # address: kind, length, links, fields

    def number(self, at, size):
        demand(at + size <= len(self.data), f"{size} bytes at {at}")
        return int.from_bytes(self.data[at:at + size], "little")

    def visit(self, address, wanted):
        """Reads the block there and all that it links; wanted: the kinds that may stand there."""
        demand(address % 8 == 0, f"a multiple of 8 in place of {address}")
        kind = self.data[address + 2:address + 4].decode("latin-1")
        demand(self.data[address:address + 2] == b"##" and kind in wanted.split(), f"{wanted} at {address}, not {kind}")
        if address in self.blocks:
            return
        length, count = self.number(address + 8, 8), self.number(address + 16, 8)
        demand(self.number(address + 4, 4) == 0, f"a zero behind the id at {address}")
        demand(24 + 8 * count <= length <= len(self.data) - address, f"a block of another length at {address}")
        links = [self.number(address + 24 + 8 * i, 8) for i in range(count)]
        self.blocks[address] = kind, length, links, self.data[address + 24 + 8 * count:address + length]
        for link, target in zip(links, self.targets(address, kind, length, count)):
            demand(link != 0 or "+" not in target, f"a link to {target} in the block at {address}")
            if link != 0:
                self.visit(link, target.strip("+"))

    def targets(self, address, kind, length, count):
        if kind == "DL":
            return ["DL"] + ["+DT SD RD DZ"] * (count - 1)
        targets, fields = KINDS.get(kind, ([], length - 24))
        if kind == "CC":
            fields += 8 * self.number(address + 24 + 8 * count + 6, 2)
        demand(count == len(targets) and length == 24 + 8 * count + fields, f"the size of a {kind} block at {address}")
        return targets

    def of_kind(self, kind):
        return [block for _, block in sorted(self.blocks.items()) if block[0] == kind]

    def only(self, kind):
        demand(len(self.of_kind(kind)) == 1, f"one {kind} block")
        return self.of_kind(kind)[0]


def check_identification(log):
    demand(log.data[:16] == b"MDF     4.10    ", "the identification's texts")
    demand(log.number(28, 2) == 410, "version 410")
    demand(not any(log.data[24:28]) and not any(log.data[30:64]), "zeros in the identification")


def check_places(log):
    """No block overlaps another, nothing but zeros stands between them, and what is reserved is 0."""
    end = 64
    for address, (kind, length, _, fields) in sorted(log.blocks.items()):
        demand(end <= address < end + 8 and not any(log.data[end:address]), f"{kind} at {address}, behind {end}")
        demand(not any(fields[RESERVED.get(kind, slice(0))]), f"zeros where {kind} at {address} has reserved bytes")
        end = address + length
    demand(end == len(log.data), "a last block at the file's end")


def check_texts(log):
    for kind, length, _, fields in log.of_kind("TX") + log.of_kind("MD"):
        text, nul, rest = fields.partition(b"\0")
        demand(length % 8 == 0 and nul and not any(rest), f"the end of the text {text}")
        text.decode("utf-8")
    for _, _, links, _ in log.of_kind("FH"):
        comment = xml.etree.ElementTree.fromstring(log.blocks[links[1]][3].rstrip(b"\0").decode())
        tags = [child.tag.replace(NAMESPACE, "") for child in comment]
        demand(comment.tag == NAMESPACE + "FHcomment", "a history's comment")
        demand(tags == ["TX", "tool_id", "tool_vendor", "tool_version"], "what a history's comment must tell")


def check_channels(log):
    data_bytes, invalidation_bytes = struct.unpack_from("<II", log.only("CG")[3], 24)
    for _, _, links, fields in log.of_kind("CN"):
        kind, sync, data_type, bit, byte, bits, flags, invalid = struct.unpack_from("<BBBBIIII", fields)
        demand(SYNC_TYPES.get(kind) == sync, "a channel's type, with its sync type")
        demand(data_type <= 16 and bit < 8 and 8 * byte + bit + bits <= 8 * data_bytes, "a channel's place")
        demand(bool(links[5]) == (kind == VARIABLE_LENGTH), "payloads for channels of any length alone")
        demand(kind != VARIABLE_LENGTH or (bit, bits) == (0, 64), "a position of 64 bits")
        demand(flags in (0, 2) and (flags == 0 or invalid < 8 * invalidation_bytes), "an invalidation bit")
        demand(not any(fields[22:]), "no attachments and no limits")
    demand([block[3][0] for block in log.of_kind("CN")].count(MASTER) == 1, "one master")


def check_conversions(log):
    for _, _, _, fields in log.of_kind("CC"):
        kind, precision, flags, references, count, *limits = struct.unpack_from("<BBHHHdd", fields)
        demand((kind, count) == LINEAR, "a linear conversion, which has two values")
        demand((precision, flags, references, limits) == (0, 0, 0, [0, 0]), "a conversion of values alone")


def lists_of(log, address):
    """The data lists in turn, from an address on: of each its flags, count, one length or offsets, and its blocks."""
    lists = []
    while address:
        kind, _, links, fields = log.blocks[address]
        demand(kind == "DL" and len(lists) < len(log.of_kind("DL")), "data lists, one behind the other")
        demand(len(fields) >= 8 and len(fields) % 8 == 0, "the fields of a list")
        flags, count, *rest = struct.unpack(f"<B3xI{len(fields) // 8 - 1}Q", fields)
        lists.append((flags, count, rest, [log.blocks[link] for link in links[1:]]))
        address = links[0]
    demand(lists, "data lists")
    return lists


def check_lengths(counts, lengths, sizes):
    """One length and one count in all lists, though the last may count fewer; that length in all blocks, though the last list's
    last may be shorter."""
    demand(all(rest == lengths[0] for rest in lengths) and len(lengths[0]) == 1, f"one length in every list, not {lengths}")
    demand(len(set(counts[:-1])) <= 1 and counts[-1] <= counts[0], f"one count, or a smaller one at the end, not {counts}")
    blocks = sum(sizes, [])
    whole = blocks[:-1] if sizes[-1] else blocks
    demand(set(whole) <= set(lengths[0]) and max(blocks, default=0) <= lengths[0][0], f"blocks as declared, not {sizes}")


def check_offsets(_, offsets, sizes):
    """Of each block the length of all data before it."""
    blocks = sum(sizes, [])
    before = [sum(blocks[:i]) for i in range(len(blocks))]
    demand([len(rest) for rest in offsets] == [len(rest) for rest in sizes], "an offset for each block")
    demand(sum(offsets, []) == before, f"the offsets {before}, not {offsets}")


def joined_data(log, address, kind):
    """The data of a chain whose blocks are all of that kind; its lists have all one length or all offsets."""
    flags, counts, rests, blocks = zip(*lists_of(log, address))
    sizes = [[len(data) for _, _, _, data in of_list] for of_list in blocks]
    demand({block[0] for of_list in blocks for block in of_list} == {kind}, f"{kind} blocks in the lists at {address}")
    demand(list(counts) == [len(of_list) for of_list in blocks], f"a count of its blocks in every list, not {counts}")
    demand(set(flags) in ({0}, {1}), f"one form in every list, not {flags}")
    (check_lengths if flags[0] else check_offsets)(counts, rests, sizes)
    return b"".join(data for of_list in blocks for _, _, _, data in of_list)


def records_of(log):
    """The whole records, which are as many as are counted."""
    cycles, _, data_bytes, invalidation_bytes = struct.unpack_from("<QQII", log.only("CG")[3], 8)
    size, data = data_bytes + invalidation_bytes, joined_data(log, log.only("DG")[2][2], "DT")
    demand(size > 0 and cycles == len(data) // size, f"the count of records, not {cycles}")
    return [data[number * size:][:size] for number in range(cycles)]


def check_payloads(data, positions, encoding):
    """Each position leads to a length and a text; they stand in the order of the records, with nothing between."""
    end = 0
    for position in positions:
        demand(position == end <= len(data) - 4, f"a payload at {end}, not at {position}")
        length = int.from_bytes(data[end:end + 4], "little")
        text, end = data[end + 4:][:length], end + 4 + length
        demand(not text or text.find(b"\0") == length - 1, f"one NUL, at the end of {text}")
        text.decode(encoding)
    demand(end == len(data), f"payloads up to the end at {len(data)}, not {end}")


def check_data(log):
    records = records_of(log)
    for _, _, links, fields in log.of_kind("CN"):
        kind, _, data_type, _, byte = struct.unpack_from("<BBBBI", fields)
        if kind == VARIABLE_LENGTH:
            demand(data_type in ENCODINGS, "a text of any length")
            positions = [int.from_bytes(record[byte:byte + 8], "little") for record in records]
            check_payloads(joined_data(log, links[5], "SD"), positions, ENCODINGS[data_type])


def check_records(log, expected):
    for number, (found, wanted) in enumerate(zip(records_of(log), expected)):
        demand(found == wanted, f"record {number} as {wanted.hex(' ')}, not {found.hex(' ')}")
    demand(len(records_of(log)) == len(expected), f"{len(expected)} records")


def main():
    with open(sys.argv[1], "rb") as file:
        log = Log(file.read())
    with open(sys.argv[2], encoding="ascii") as file:
        expected = [bytes.fromhex(line) for line in file]
    try:
        check_identification(log)
        log.visit(64, "HD")
        for check in (check_places, check_texts, check_channels, check_conversions, check_data):
            check(log)
        check_records(log, expected)
    except (Illegal, UnicodeDecodeError, xml.etree.ElementTree.ParseError) as problem:
        print(f"demo: FAILED: the log is no legal one, which would have {problem}")
        return 1
    print(f"demo: the log is legal by the tables of MDF 4.1: {len(log.blocks)} blocks, all at multiples of 8")
    return 0


if __name__ == "__main__":
    sys.exit(main())
