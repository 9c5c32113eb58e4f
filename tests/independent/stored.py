"""Asks reference.py for every stored answer: those of mf4-rs and those of IEEE 754, Unicode and the rules' examples.

    stored.py FILE...    files of lines as compare/src/main.rs and crates/replay/src/main.rt describe them

Exit status: 0 if every answer is the stored one, 1 if not.
"""

import sys

import reference

LEFT_ALONE = 0xA5  # fills a lent buffer
NO_CAUSE = "-"  # stored where mf4-rs gives no value and tells no cause: any of a field's refusals is right


class Words:
    """The words of a line, taken in turn."""

    def __init__(self, line):
        self.words = iter(line.split())

    def word(self):
        return next(self.words)

    def number(self):
        return int(self.word(), 16)

    def bytes(self):
        word = self.word()
        return b"" if word == "-" else bytes.fromhex(word)

    def numbers(self):
        return [self.number() for _ in range(self.number())]

    def buffer(self):
        return bytes([LEFT_ALONE]) * self.number()

    def header(self):
        return reference.Header(*(self.number() for _ in reference.Header._fields))

    def channel(self):
        return reference.Channel(*(self.number() for _ in reference.Channel._fields))

    def group(self):
        """Lines of the kinds without a bound do not say how many invalidation bytes there are: it plays no part."""
        return reference.Group(self.number(), self.number())

    def bounded_group(self):
        return reference.Group(*(self.number() for _ in reference.Group._fields))

    def given_number(self):
        return reference.Number(*(self.number() for _ in reference.Number._fields))

    def channel_block(self):
        parts = {"header": self.header, "channel": self.channel}
        return reference.ChannelBlock(*(parts.get(name, self.number)() for name in reference.ChannelBlock._fields))


def bytes_word(content):
    return content.hex() or "-"


def number_words(*numbers):
    return [f"{number % 2**64:x}" for number in numbers]


def reply_words(reply, answer):
    """The words of an answer stand only where there is one."""
    return number_words(reply.reply, reply.told) + (answer(reply) if reply.reply == 0 else [])


def value_words(value):
    has_number = value.kind in (reference.UNSIGNED_KIND, reference.SIGNED_KIND, reference.DOUBLE_KIND)
    return number_words(value.kind, *((value.number, 0) if has_number else (value.at, value.length)))


def valid_value_words(reply):
    return reply_words(reply, lambda r: value_words(r) + number_words(r.is_valid))


def written_words(outcome):
    reply, out = outcome
    return reply_words(reply, lambda r: [bytes_word(out[:r.count])])


# ---- an answer for each kind of line


def type_answer(words):
    code = words.number()
    return number_words(reference.type_code(code), reference.default_bits(code))


def header_read_answer(words):
    return reply_words(reference.read_header(words.bytes()), lambda r: number_words(*r.header))


def header_write_answer(words):
    header = words.header()
    return written_words(reference.write_header(header, words.buffer()))


def list_read_answer(words):
    def fields(r):
        return number_words(*r.header, r.next_addr, r.data_links_at, r.data_link_count, r.flags, r.reserved1,
                            r.data_block_count, r.rest_at, r.rest_count)

    return reply_words(reference.read_list(words.bytes()), fields)


def list_write_equal_answer(words):
    out, next_list, length = words.buffer(), words.number(), words.number()
    return written_words(reference.write_list_equal(next_list, words.numbers(), length, out))


def list_write_variable_answer(words):
    out, next_list, links = words.buffer(), words.number(), words.numbers()
    return written_words(reference.write_list_variable(next_list, links, words.numbers(), out))


def channel_read_answer(words):
    def fields(r):
        return [word for part in r.block for word in number_words(*(part if isinstance(part, tuple) else [part]))]

    return reply_words(reference.read_channel(words.bytes()), fields)


def channel_write_answer(words):
    block = words.channel_block()
    return written_words(reference.write_channel(block, words.buffer()))


def field(words):
    return words.bytes(), words.group(), words.channel()


def bounded_field(words):
    return words.bytes(), words.bounded_group(), words.channel()


def value_answer(words):
    record, group, channel = field(words)
    return reply_words(reference.decode_value(record, group.record_id_size, channel), value_words)


def validity_answer(words):
    return number_words(reference.check_validity_unbounded(*field(words)))


def bounded_validity_answer(words):
    return reply_words(reference.check_validity(*bounded_field(words)), lambda r: number_words(r.is_valid))


def both_answer(words):
    return valid_value_words(reference.decode_valid_value_unbounded(*field(words)))


def bounded_both_answer(words):
    return valid_value_words(reference.decode_valid_value(*bounded_field(words)))


def double_answer(words):
    record, group, channel = field(words)
    return number_words(reference.decode_double_bits(record, group.record_id_size, channel))


def write_answer(words):
    record, id_size, channel = words.bytes(), words.number(), words.channel()
    reply, after = reference.write_value(id_size, channel, words.given_number(), record)
    return number_words(reply.reply, reply.told) + [bytes_word(after)]


def text_answer(words):
    encoding, text = words.number(), words.bytes()
    reply, out = reference.text_as_utf8(text, encoding, words.buffer())
    return reply_words(reply, lambda r: number_words(r.damaged) + [bytes_word(out[:r.count])])


def fetched_word(buffer, record_size, fetched):
    return [bytes_word(buffer[:record_size]) if fetched else "-"]


def written_word(after, before):
    """What was written at the front of a buffer that was full of one byte, which no stored answer ends with."""
    return [bytes_word(after.rstrip(bytes([LEFT_ALONE])) if after != before else b"")]


def fetch(words):
    return words.bytes(), words.number(), words.number(), words.number(), words.buffer()


def record_answer(words):
    file, start, number, size, before = fetch(words)
    reply, buffer = reference.read_record(file, start, number, size, before)
    return number_words(reply.reply, reply.told) + fetched_word(buffer, size, reply.reply == 0)


def record_value_answer(words):
    file, start, number, size, before = fetch(words)
    group, channel = words.group(), words.channel()
    reply, buffer = reference.read_record(file, start, number, size, before)
    if reply.reply == 0:
        reply = reference.decode_valid_value_unbounded(buffer[:size], group, channel)
    return valid_value_words(reply) + fetched_word(buffer, size, buffer != before)


def bounded_record_value_answer(words):
    file, start, number, size, before = fetch(words)
    group, channel = words.bounded_group(), words.channel()
    reply, buffer = reference.record_value(file, start, number, size, group, channel, before)
    return valid_value_words(reply) + fetched_word(buffer, size, buffer != before)


def record_payload_answer(words):
    file, start, number, size, record = fetch(words)
    payload, group = words.buffer(), words.group()
    reply, left, kept = reference.record_payload(file, start, number, size, group, words.channel(), record, payload)
    return (reply_words(reply, lambda r: value_words(r) + number_words(r.is_valid, r.payload_length))
            + fetched_word(left, size, left != record) + written_word(kept, payload))


ANSWERS = {
    "type": type_answer,
    "header-read": header_read_answer,
    "header-write": header_write_answer,
    "list-read": list_read_answer,
    "list-write-equal": list_write_equal_answer,
    "list-write-variable": list_write_variable_answer,
    "channel-read": channel_read_answer,
    "channel-write": channel_write_answer,
    "value": value_answer,
    "validity": validity_answer,
    "both": both_answer,
    "double": double_answer,
    "text": text_answer,
    "record": record_answer,
    "record-value": record_value_answer,
    "record-payload": record_payload_answer,
    "write": write_answer,
    "bounded-validity": bounded_validity_answer,
    "bounded-both": bounded_both_answer,
    "bounded-record-value": bounded_record_value_answer,
}


def agrees(kind, found, stored):
    if kind in ("value", "both") and stored == NO_CAUSE:
        return int(found.split()[0], 16) in reference.FIELD_REFUSALS
    return found == stored


def is_stored(line):
    given, stored = line.split(" = ")
    words = Words(given)
    kind = words.word()
    found = " ".join(ANSWERS[kind](words))
    if not agrees(kind, found, stored):
        print(f"DIFFERENCE\n  stored    {line}\n  reference {found}")
        return False
    return True


def main():
    lines = [line.strip() for path in sys.argv[1:] for line in open(path, encoding="utf-8")]
    verdicts = [is_stored(line) for line in lines if line and not line.startswith("#")]
    print(f"stored answers: {len(verdicts)} asked, {verdicts.count(False)} different")
    return 0 if verdicts and all(verdicts) else 1


if __name__ == "__main__":
    sys.exit(main())
