/* Values, validity and doubles of channels. */
#include "fuzz.h"

#include <string.h>

/* Mostly of a width that has a value, and often of a float's. */
static uint32_t choose_bit_count(void)
{
    switch (choose_byte() % 4) {
    case 0: return 32;
    case 1: return 64;
    case 2: return choose_byte() % 66u;
    default: return (uint32_t)choose_number();
    }
}

static mf4_channel choose_channel(void)
{
    mf4_channel channel;
    uint8_t type = choose_byte();
    channel.data_type = type < 0xF0 ? type % 18 : choose_byte();
    channel.channel_type = choose_byte() % 3;
    channel.bit_offset = choose_byte() % 10;
    channel.byte_offset = (uint32_t)choose_number();
    channel.bit_count = choose_bit_count();
    channel.flags = choose_byte() % 5;
    channel.pos_invalidation_bit = (uint32_t)choose_number();
    channel.data_addr = choose_byte() % 2;
    return channel;
}

reading choose_reading(void)
{
    reading how;
    how.group.record_id_size = choose_below(9);
    how.group.data_bytes = (uint32_t)choose_number();
    how.group.invalidation_bytes = (uint32_t)choose_number();
    how.channel = choose_channel();
    return how;
}

/* Behind a long id the difference wraps, and so would the sum. */
reading fitted(reading how, uint64_t record_length)
{
    mf4_group *group = &how.group;
    const uint64_t behind_id = record_length - group->record_id_size;
    uint64_t bits;
    if (behind_id > UINT32_MAX)
        return how;
    group->invalidation_bytes = (uint32_t)(group->invalidation_bytes % (behind_id + 1));
    group->data_bytes = (uint32_t)behind_id - group->invalidation_bytes;
    bits = 8 * (uint64_t)group->invalidation_bytes;
    how.channel.pos_invalidation_bit = (uint32_t)(how.channel.pos_invalidation_bit % (bits + 4));
    return how;
}

static int is_payload(mf4_channel channel)
{
    return channel.channel_type == MF4_CHANNEL_VARIABLE_LENGTH && channel.data_addr != 0;
}

static int is_integer(mf4_channel channel) { return channel.data_type <= MF4_TYPE_SIGNED_BE; }
static int is_number(mf4_channel channel) { return channel.data_type <= MF4_TYPE_FLOAT_BE; }
static int is_float(mf4_channel channel) { return is_number(channel) && !is_integer(channel); }

/* The field bit by bit, lowest first: slow, and told quite otherwise than by words and shifts. */
static uint64_t field_of(const uint8_t *span, size_t span_length, mf4_channel channel)
{
    uint64_t field = 0;
    unsigned i;
    for (i = 0; i < channel.bit_count; i++) {
        size_t bit = channel.bit_offset + i, byte = bit / 8;
        uint8_t whole = channel.data_type % 2 == 0 ? span[byte] : span[span_length - 1 - byte];
        field |= (uint64_t)(whole >> bit % 8 & 1) << i;
    }
    return field;
}

static uint64_t bits_of(double number)
{
    uint64_t bits;
    memcpy(&bits, &number, 8);
    return number != number ? NAN_BITS : bits;
}

static uint64_t widened(uint32_t bits)
{
    float single;
    memcpy(&single, &bits, 4);
    return bits_of((double)single);
}

static uint64_t sign_extended(uint64_t field, unsigned bit_count)
{
    uint64_t sign = (uint64_t)1 << (bit_count - 1);
    return (field ^ sign) - sign;
}

static void check_number(mf4_value_reply value, uint64_t field, mf4_channel channel)
{
    if (channel.data_type <= MF4_TYPE_UNSIGNED_BE)
        MUST(value.kind == MF4_KIND_UNSIGNED && value.number == field);
    else if (channel.data_type <= MF4_TYPE_SIGNED_BE)
        MUST(value.kind == MF4_KIND_SIGNED && value.number == sign_extended(field, channel.bit_count));
    else
        MUST(value.kind == MF4_KIND_DOUBLE && value.number == (channel.bit_count == 32 ? widened((uint32_t)field) : field));
    MUST(value.at == 0 && value.length == 0);
}

static uint64_t start_of(reading how)
{
    return is_payload(how.channel) ? 0 : sum_of(how.group.record_id_size, how.channel.byte_offset);
}

/* All of a payload that is no number; the whole bytes of a text or of bytes; else all that the bits reach into. */
static uint64_t span_of(size_t length, mf4_channel channel)
{
    const uint64_t bits = (uint64_t)channel.bit_offset + channel.bit_count;
    if (is_payload(channel) && !is_number(channel))
        return length;
    if (channel.data_type >= MF4_TYPE_LATIN1 && channel.data_type <= MF4_TYPE_MIME_STREAM)
        return channel.bit_count / 8;
    return bits > 0 ? (bits + 7) / 8 : 1;
}

static uint64_t bytes_needed(size_t length, reading how) { return sum_of(start_of(how), span_of(length, how.channel)); }

/* The first cause in the order of the rules, or the answer. */
static uint32_t reply_due(size_t length, reading how)
{
    const mf4_channel channel = how.channel;
    if (is_number(channel) && channel.bit_count == 0)
        return MF4_NO_BITS;
    if (is_number(channel) && channel.bit_offset > 7)
        return MF4_BAD_BIT_OFFSET;
    if (is_integer(channel) && channel.bit_count > 64)
        return MF4_INTEGER_TOO_WIDE;
    if (bytes_needed(length, how) > length)
        return MF4_FIELD_OUTSIDE;
    if (is_float(channel) && channel.bit_count != 32 && channel.bit_count != 64)
        return MF4_BAD_FLOAT_WIDTH;
    return MF4_ANSWER;
}

static void check_refusal(size_t length, reading how, mf4_value_reply answer)
{
    MUST(answer.told == (answer.reply == MF4_FIELD_OUTSIDE ? bytes_needed(length, how) : 0));
    MUST(answer.kind == MF4_KIND_NOTHING && answer.number == 0 && answer.at == 0 && answer.length == 0);
    note(DECODE, 48u + (answer.told == UINT64_MAX));
}

static uint64_t field_in(lent record, reading how)
{
    return field_of(record.bytes + start_of(how), (size_t)span_of(record.length, how.channel), how.channel);
}

static void check_value(lent record, reading how, mf4_value_reply answer)
{
    check_reply(DECODE, answer.reply, answer.told, REPLY(0) | FIELD_REFUSALS);
    note(DECODE, 32 + answer.kind);
    MUST(answer.reply == reply_due(record.length, how));
    if (answer.reply != MF4_ANSWER) {
        check_refusal(record.length, how, answer);
        return;
    }
    if (is_number(how.channel))
        check_number(answer, field_in(record, how), how.channel);
    else
        MUST(answer.number == 0);
    MUST(answer.kind >= MF4_KIND_UNSIGNED && answer.kind <= MF4_KIND_UNKNOWN);
    MUST(answer.at <= record.length && answer.length <= record.length - answer.at);
    if (answer.kind == MF4_KIND_TEXT && how.channel.data_type <= MF4_TYPE_UTF8 && answer.length > 0)
        MUST(memchr(record.bytes + answer.at, 0, (size_t)answer.length) == NULL);
}

static uint64_t expected_double(mf4_value_reply answer, mf4_channel channel)
{
    if (is_payload(channel))
        return NAN_BITS;
    switch (answer.kind) {
    case MF4_KIND_UNSIGNED: return bits_of((double)answer.number);
    case MF4_KIND_SIGNED: return bits_of((double)mf4_bits_as_signed(answer.number));
    case MF4_KIND_DOUBLE: return answer.number;
    default: return NAN_BITS;
    }
}

static void check_double(uint64_t bits, mf4_value_reply answer, mf4_channel channel)
{
    int is_nan = (bits & ~((uint64_t)1 << 63)) > (uint64_t)0x7FF << 52;
    note(DECODE_DOUBLE, (unsigned)(bits >> 52) % 64);
    MUST(bits == expected_double(answer, channel));
    MUST(bits_of(mf4_bits_as_double(bits)) == (is_nan ? NAN_BITS : bits));
}

static int same_value(mf4_value_reply a, mf4_value_reply b)
{
    return a.reply == b.reply && a.told == b.told && a.kind == b.kind && a.number == b.number && a.at == b.at
        && a.length == b.length;
}

static mf4_value_reply value_in(mf4_valid_value_reply a)
{
    mf4_value_reply value = { a.reply, a.told, a.kind, a.number, a.at, a.length };
    return value;
}

int same_valid_value(mf4_valid_value_reply a, mf4_valid_value_reply b)
{
    return same_value(value_in(a), value_in(b)) && a.is_valid == b.is_valid;
}

/* The sum saturates at more bytes than a record has, and the bit's byte is compared, so that nothing wraps. */
static uint32_t area_due(size_t length, reading how)
{
    const uint64_t behind_id = (uint64_t)how.group.data_bytes + how.group.invalidation_bytes;
    const int has_bit = how.channel.flags % 4 == MF4_CHANNEL_INVALIDATION_BIT;
    if (length != sum_of(how.group.record_id_size, behind_id))
        return MF4_OTHER_LENGTH;
    if (has_bit && how.channel.pos_invalidation_bit / 8 >= how.group.invalidation_bytes)
        return MF4_BIT_OUTSIDE;
    return MF4_ANSWER;
}

/* The reading in which invalidation bytes have no end: their number plays no part. */
static uint8_t exercise_unbounded(lent record, reading how, mf4_value_reply value)
{
    const uint8_t is_valid = mf4_check_validity_unbounded(record.bytes, record.length, how.group, how.channel);
    mf4_valid_value_reply both = mf4_decode_valid_value_unbounded(record.bytes, record.length, how.group, how.channel);
    note(VALIDITY_UNBOUNDED, is_valid + 2u * (how.channel.flags % 4));
    check_reply(DECODE_VALID_UNBOUNDED, both.reply, both.told, REPLY(0) | FIELD_REFUSALS);
    MUST(is_valid <= 1);
    MUST(same_value(value_in(both), value));
    MUST(both.is_valid == (both.reply == MF4_ANSWER ? is_valid : 0));
    how.group.invalidation_bytes = ~how.group.invalidation_bytes;
    MUST(is_valid == mf4_check_validity_unbounded(record.bytes, record.length, how.group, how.channel));
    MUST(same_valid_value(both, mf4_decode_valid_value_unbounded(record.bytes, record.length, how.group, how.channel)));
    return is_valid;
}

static int same_validity(mf4_validity_reply a, mf4_validity_reply b)
{
    return a.reply == b.reply && a.told == b.told && a.is_valid == b.is_valid;
}

/* An answer is that of the other reading. */
static mf4_validity_reply exercise_validity(lent record, reading how, uint8_t unbounded)
{
    const mf4_validity_reply answer = mf4_check_validity(record.bytes, record.length, how.group, how.channel);
    check_reply(VALIDITY, answer.reply, answer.told, REPLY(0) | AREA_REFUSALS);
    note(VALIDITY, 32 + answer.is_valid + 2u * (how.channel.flags % 4));
    MUST(answer.reply == area_due(record.length, how));
    MUST(answer.is_valid == (answer.reply == MF4_ANSWER ? unbounded : 0));
    MUST(same_validity(answer, mf4_check_validity(record.bytes, record.length, how.group, how.channel)));
    return answer;
}

/* What refuses the value, then what refuses the validity; or both of them. */
static void exercise_both(lent record, reading how, mf4_value_reply value, mf4_validity_reply validity)
{
    mf4_valid_value_reply both = mf4_decode_valid_value(record.bytes, record.length, how.group, how.channel);
    mf4_value_reply due = { validity.reply, 0, MF4_KIND_NOTHING, 0, 0, 0 };
    check_reply(DECODE_VALID, both.reply, both.told, REPLY(0) | FIELD_REFUSALS | AREA_REFUSALS);
    if (value.reply != MF4_ANSWER || validity.reply == MF4_ANSWER)
        due = value;
    MUST(same_value(value_in(both), due));
    MUST(both.is_valid == (both.reply == MF4_ANSWER ? validity.is_valid : 0));
    MUST(same_valid_value(both, mf4_decode_valid_value(record.bytes, record.length, how.group, how.channel)));
}

/* What mf4.h makes of the pattern, and of the validity. */
static void check_inline_doubles(lent record, reading how, uint64_t bits, uint8_t is_valid)
{
    const double plain = mf4_decode_double(record.bytes, record.length, how.group.record_id_size, how.channel);
    const double valid = mf4_decode_valid_double(record.bytes, record.length, how.group, how.channel);
    const uint64_t due = bits_of(mf4_bits_as_double(bits));
    MUST(bits_of(plain) == due);
    MUST(bits_of(valid) == (is_valid ? due : NAN_BITS));
}

static void exercise_in_group(lent record, reading how, mf4_value_reply value, uint64_t bits)
{
    const mf4_validity_reply validity = exercise_validity(record, how, exercise_unbounded(record, how, value));
    exercise_both(record, how, value, validity);
    check_inline_doubles(record, how, bits, validity.is_valid);
}

void exercise_value(lent record, reading how)
{
    mf4_value_reply value = mf4_decode_value(record.bytes, record.length, how.group.record_id_size, how.channel);
    uint64_t bits = mf4_decode_double_bits(record.bytes, record.length, how.group.record_id_size, how.channel);
    check_value(record, how, value);
    MUST(same_value(value, mf4_decode_value(record.bytes, record.length, how.group.record_id_size, how.channel)));
    check_double(bits, value, how.channel);
    MUST(bits == mf4_decode_double_bits(record.bytes, record.length, how.group.record_id_size, how.channel));
    exercise_in_group(record, how, value, bits);
    exercise_in_group(record, fitted(how, record.length), value, bits);
    exercise_in_group(record, fitted(how, record.length + 1), value, bits);
    MUST(is_unchanged(record));
}
