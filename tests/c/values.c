/* A channel's value and its validity, in records and payloads. */
#include "values.h"

mf4_group group_of(uint64_t record_id_size, uint32_t data_bytes, uint32_t invalidation_bytes)
{
    const mf4_group group = { record_id_size, data_bytes, invalidation_bytes };
    return group;
}

mf4_group group_filling(uint64_t record_length, uint64_t record_id_size, uint32_t data_bytes)
{
    const uint64_t behind_id = record_length > record_id_size ? record_length - record_id_size : 0;
    return group_of(record_id_size, data_bytes, behind_id > data_bytes ? (uint32_t)(behind_id - data_bytes) : 0);
}

int value_is(mf4_value_reply a, expected value)
{
    return a.reply == value.reply && a.kind == value.kind && a.told == value.told && a.number == value.number
        && a.at == value.at && a.length == value.length;
}

int valid_value_is(mf4_valid_value_reply a, expected value, uint8_t is_valid)
{
    const mf4_value_reply found = { a.reply, a.told, a.kind, a.number, a.at, a.length };
    return value_is(found, value) && a.is_valid == is_valid;
}

int same_valid_value(mf4_valid_value_reply a, mf4_valid_value_reply b)
{
    const mf4_value_reply value = { b.reply, b.told, b.kind, b.number, b.at, b.length };
    return valid_value_is(a, value, b.is_valid);
}

int payload_is(mf4_payload_reply a, expected value, uint64_t payload_length, uint8_t is_valid)
{
    const mf4_value_reply found = { a.reply, a.told, a.kind, a.number, a.at, a.length };
    return value_is(found, value) && a.payload_length == payload_length && a.is_valid == is_valid;
}

static expected refusal_of(uint32_t reply, uint64_t told)
{
    const expected refusal = { reply, told, MF4_KIND_NOTHING, 0, 0, 0 };
    return refusal;
}

int validity_is(mf4_validity_reply a, uint32_t reply, uint8_t is_valid)
{
    return a.reply == reply && a.told == 0 && a.is_valid == is_valid;
}

int valid_value_refused(mf4_valid_value_reply a, uint32_t reply, uint64_t told)
{
    return valid_value_is(a, refusal_of(reply, told), 0);
}

int payload_refused(mf4_payload_reply a, uint32_t reply, uint64_t told)
{
    return payload_is(a, refusal_of(reply, told), 0, 0);
}

static const value_case integer_cases[] = {
    { "34 12", 0, FIELD(MF4_TYPE_UNSIGNED_LE, 0, 0, 16), UNSIGNED_IS(4660) },
    { "34 12", 0, FIELD(MF4_TYPE_UNSIGNED_BE, 0, 0, 16), UNSIGNED_IS(13330) },
    { "34 12", 0, FIELD(MF4_TYPE_UNSIGNED_LE, 4, 0, 8), UNSIGNED_IS(35) },
    { "34 12", 0, FIELD(MF4_TYPE_UNSIGNED_BE, 4, 0, 8), UNSIGNED_IS(65) },
    { "34 12", 1, FIELD(MF4_TYPE_UNSIGNED_LE, 0, 0, 8), UNSIGNED_IS(18) },
    { "34 12", 0, FIELD(MF4_TYPE_UNSIGNED_LE, 0, 1, 8), UNSIGNED_IS(18) },
    { "34 12", 1, FIELD(MF4_TYPE_UNSIGNED_LE, 0, 1, 8), OUTSIDE(3) },
    { "34 12", 0, FIELD(MF4_TYPE_UNSIGNED_LE, 1, 0, 16), OUTSIDE(3) },
    { "34 12", 0, FIELD(MF4_TYPE_UNSIGNED_LE, 7, 1, 1), UNSIGNED_IS(0) },
    { "34 92", 0, FIELD(MF4_TYPE_UNSIGNED_LE, 7, 1, 1), UNSIGNED_IS(1) },
    { "34 12", 0, FIELD(MF4_TYPE_UNSIGNED_LE, 7, 1, 2), OUTSIDE(3) },
    { "34 12", 0, FIELD(MF4_TYPE_UNSIGNED_LE, 0, 0, 0), REFUSED_WITH(18) },
    { "34 12", 0, FIELD(MF4_TYPE_UNSIGNED_LE, 8, 0, 8), REFUSED_WITH(19) },
    { "34 12", 0, FIELD(MF4_TYPE_UNSIGNED_LE, 255, 0, 1), REFUSED_WITH(19) },
    { "F0", 0, FIELD(MF4_TYPE_SIGNED_LE, 4, 0, 4), SIGNED_IS(-1) },
    { "80", 0, FIELD(MF4_TYPE_SIGNED_LE, 4, 0, 4), SIGNED_IS(-8) },
    { "70", 0, FIELD(MF4_TYPE_SIGNED_BE, 4, 0, 4), SIGNED_IS(7) },
    { "01", 0, FIELD(MF4_TYPE_SIGNED_LE, 0, 0, 1), SIGNED_IS(-1) },
    { "00 00 00 00 00 00 00 80", 0, FIELD(MF4_TYPE_SIGNED_LE, 0, 0, 64), SIGNED_IS(-INT64_C(9223372036854775807) - 1) },
    { "7F FF FF FF FF FF FF FF", 0, FIELD(MF4_TYPE_SIGNED_BE, 0, 0, 64), SIGNED_IS(INT64_C(9223372036854775807)) },
    { "FF FF FF FF FF FF FF FF", 0, FIELD(MF4_TYPE_UNSIGNED_LE, 0, 0, 64), UNSIGNED_IS(MOST) },
    { "00 00 00 00 00 00 00 00 0F", 0, FIELD(MF4_TYPE_SIGNED_LE, 4, 0, 64), SIGNED_IS(-INT64_C(1152921504606846976)) },
    { "00 00 00 00 00 00 00 00", 0, FIELD(MF4_TYPE_SIGNED_LE, 4, 0, 64), OUTSIDE(9) },
    { "0F FF FF FF FF FF FF FF F0", 0, FIELD(MF4_TYPE_UNSIGNED_BE, 4, 0, 64), UNSIGNED_IS(MOST) },
    { "F0 00 00 00 00 00 00 00 0F", 0, FIELD(MF4_TYPE_UNSIGNED_BE, 4, 0, 64), UNSIGNED_IS(0) },
    { "80 00 00 00 00 00 00 00 40", 0, FIELD(MF4_TYPE_UNSIGNED_LE, 7, 0, 64), UNSIGNED_IS(UINT64_C(0x8000000000000001)) },
    { "80 00 00 00 00 00 00 00 80", 0, FIELD(MF4_TYPE_UNSIGNED_LE, 7, 0, 64), UNSIGNED_IS(1) },
    { "00 00 00 00 00 00 00 00 00 00", 0, FIELD(MF4_TYPE_UNSIGNED_LE, 0, 0, 65), REFUSED_WITH(20) },
    { "00 00 00 00 00 00 00 00 00 00", 0, FIELD(MF4_TYPE_SIGNED_BE, 7, 0, 65), REFUSED_WITH(20) },
    { "34 12", 0, FIELD(MF4_TYPE_UNSIGNED_LE, 7, UINT32_MAX, UINT32_MAX), REFUSED_WITH(20) },
    { "34 12", MOST, FIELD(MF4_TYPE_UNSIGNED_LE, 0, 0, 8), OUTSIDE(MOST) },
    { "34 12", MOST, FIELD(MF4_TYPE_UNSIGNED_LE, 0, 1, 8), OUTSIDE(MOST) },  /* a sum that wraps would find byte 0 */
    { "34 12", MOST, FIELD(MF4_TYPE_UNSIGNED_LE, 0, 2, 8), OUTSIDE(MOST) },
    { "34 12", MOST - 4294967294, FIELD(MF4_TYPE_UNSIGNED_LE, 0, UINT32_MAX, 8), OUTSIDE(MOST) },
    { "", 0, FIELD(MF4_TYPE_UNSIGNED_LE, 0, 0, 8), OUTSIDE(1) },
};

static const value_case float_cases[] = {
    { "00 00 80 3F", 0, FIELD(MF4_TYPE_FLOAT_LE, 0, 0, 32), DOUBLE_IS(UINT64_C(0x3FF0000000000000)) },
    { "3F 80 00 00", 0, FIELD(MF4_TYPE_FLOAT_BE, 0, 0, 32), DOUBLE_IS(UINT64_C(0x3FF0000000000000)) },
    { "01 00 00 00", 0, FIELD(MF4_TYPE_FLOAT_LE, 0, 0, 32), DOUBLE_IS(UINT64_C(0x36A0000000000000)) },
    { "FF FF 7F 00", 0, FIELD(MF4_TYPE_FLOAT_LE, 0, 0, 32), DOUBLE_IS(UINT64_C(0x380FFFFFC0000000)) },
    { "00 00 00 80", 0, FIELD(MF4_TYPE_FLOAT_LE, 0, 0, 32), DOUBLE_IS(UINT64_C(0x8000000000000000)) },
    { "FF FF 7F 7F", 0, FIELD(MF4_TYPE_FLOAT_LE, 0, 0, 32), DOUBLE_IS(UINT64_C(0x47EFFFFFE0000000)) },
    { "FF 80 00 00", 0, FIELD(MF4_TYPE_FLOAT_BE, 0, 0, 32), DOUBLE_IS(UINT64_C(0xFFF0000000000000)) },
    { "01 00 80 FF", 0, FIELD(MF4_TYPE_FLOAT_LE, 0, 0, 32), DOUBLE_IS(NAN_BITS) },
    { "FF FF FF 7F", 0, FIELD(MF4_TYPE_FLOAT_LE, 0, 0, 32), DOUBLE_IS(NAN_BITS) },
    { "00 00 00 F8 03", 0, FIELD(MF4_TYPE_FLOAT_LE, 4, 0, 32), DOUBLE_IS(UINT64_C(0x3FF0000000000000)) },
    { "00 00 00 F8", 0, FIELD(MF4_TYPE_FLOAT_LE, 4, 0, 32), OUTSIDE(5) },
    { "01 00 00 00 00 00 F0 FF", 0, FIELD(MF4_TYPE_FLOAT_LE, 0, 0, 64), DOUBLE_IS(UINT64_C(0xFFF0000000000001)) },
    { "FF F0 00 00 00 00 00 01", 0, FIELD(MF4_TYPE_FLOAT_BE, 0, 0, 64), DOUBLE_IS(UINT64_C(0xFFF0000000000001)) },
    { "FF FF FF FF FF FF FF FF 7F", 0, FIELD(MF4_TYPE_FLOAT_LE, 7, 0, 64), DOUBLE_IS(MOST) },
    { "00 00 80 3F", 0, FIELD(MF4_TYPE_FLOAT_LE, 0, 0, 16), REFUSED_WITH(22) },
    { "00 00 80 3F", 0, FIELD(MF4_TYPE_FLOAT_LE, 0, 0, 31), REFUSED_WITH(22) },
    { "00 00 80 3F 00", 0, FIELD(MF4_TYPE_FLOAT_LE, 0, 0, 33), REFUSED_WITH(22) },
    { "00 00 80 3F 00", 0, FIELD(MF4_TYPE_FLOAT_LE, 8, 0, 32), REFUSED_WITH(19) },
    { "00 00 80", 0, FIELD(MF4_TYPE_FLOAT_LE, 0, 0, 32), OUTSIDE(4) },
};

static const value_case place_cases[] = {
    { "50 58 31 00 39", 0, FIELD(MF4_TYPE_LATIN1, 0, 0, 40), TEXT_STANDS(0, 3) },
    { "50 58 31 00 39", 0, FIELD(MF4_TYPE_UTF8, 255, 1, 16), TEXT_STANDS(1, 2) },
    { "50 58 31 00 39", 2, FIELD(MF4_TYPE_LATIN1, 0, 1, 16), TEXT_STANDS(3, 0) },
    { "50 58 31 00 39", 0, FIELD(MF4_TYPE_LATIN1, 0, 0, 48), OUTSIDE(6) },
    { "50 58 31 00 39", 0, FIELD(MF4_TYPE_LATIN1, 0, 0, 47), TEXT_STANDS(0, 3) },
    { "50 58 31 00 39", 0, FIELD(MF4_TYPE_LATIN1, 0, 5, 7), TEXT_STANDS(5, 0) },
    { "50 58 31 00 39", 0, FIELD(MF4_TYPE_LATIN1, 0, 6, 7), OUTSIDE(6) },
    { "50 58 31 00 39", 0, FIELD(MF4_TYPE_LATIN1, 0, 0, UINT32_MAX), OUTSIDE(536870911) },
    { "50 58 31 00 39", MOST, FIELD(MF4_TYPE_LATIN1, 0, 1, 8), OUTSIDE(MOST) },
    { "", 0, FIELD(MF4_TYPE_LATIN1, 0, 0, 7), TEXT_STANDS(0, 0) },
    { "41 00 42 00 00 00 43", 0, FIELD(MF4_TYPE_UTF16_LE, 0, 0, 56), TEXT_STANDS(0, 4) },
    { "41 00 00 42", 0, FIELD(MF4_TYPE_UTF16_LE, 0, 0, 32), TEXT_STANDS(0, 4) },
    { "00 41 00 42 00", 0, FIELD(MF4_TYPE_UTF16_BE, 0, 0, 40), TEXT_STANDS(0, 4) },
    { "41", 0, FIELD(MF4_TYPE_UTF16_LE, 0, 0, 8), TEXT_STANDS(0, 0) },
    { "01 00 02 00", 0, FIELD(MF4_TYPE_BYTE_ARRAY, 9, 1, 24), STANDS(MF4_KIND_BYTES, 1, 3) },
    { "01 00 02 00", 1, FIELD(MF4_TYPE_MIME_SAMPLE, 0, 1, 16), STANDS(MF4_KIND_SAMPLE, 2, 2) },
    { "01 00 02 00", 0, FIELD(MF4_TYPE_MIME_STREAM, 0, 4, 0), STANDS(MF4_KIND_STREAM, 4, 0) },
    { "01 00 02 00", 0, FIELD(MF4_TYPE_BYTE_ARRAY, 0, 2, 24), OUTSIDE(5) },
    { "01 00", 0, FIELD(MF4_TYPE_CANOPEN_DATE, 0, 0, 16), UNKNOWN_IS },
    { "01 00", 0, FIELD(MF4_TYPE_CANOPEN_TIME, 0, 0, 17), OUTSIDE(3) },
    { "01 00", 0, FIELD(MF4_TYPE_COMPLEX_LE, 0, 1, 0), UNKNOWN_IS },  /* at least one byte */
    { "01 00", 0, FIELD(MF4_TYPE_COMPLEX_BE, 0, 2, 0), OUTSIDE(3) },
    { "01 00", 0, FIELD(17, 9, 0, 7), UNKNOWN_IS },
    { "01 00", 0, FIELD(255, 9, 0, 8), OUTSIDE(3) },
    { "01 00", 0, FIELD(255, 255, 0, UINT32_MAX), OUTSIDE(536870944) },
};

static const value_case payload_cases[] = {
    { "34 12", MOST, PAYLOAD(MF4_TYPE_UNSIGNED_LE, 0, 16), UNSIGNED_IS(4660) },
    { "34 12 99", 5, PAYLOAD(MF4_TYPE_UNSIGNED_LE, 4, 8), UNSIGNED_IS(35) },
    { "34 12", 0, PAYLOAD(MF4_TYPE_UNSIGNED_LE, 1, 16), OUTSIDE(3) },
    { "34 12", 0, PAYLOAD(MF4_TYPE_UNSIGNED_LE, 0, 0), REFUSED_WITH(18) },
    { "00 00 80 3F", 0, PAYLOAD(MF4_TYPE_FLOAT_LE, 0, 32), DOUBLE_IS(UINT64_C(0x3FF0000000000000)) },
    { "50 58 31 00 39", 9, PAYLOAD(MF4_TYPE_LATIN1, 0, 8), TEXT_STANDS(0, 3) },
    { "50 58 31 00 39", 9, PAYLOAD(MF4_TYPE_BYTE_ARRAY, 0, 8), STANDS(MF4_KIND_BYTES, 0, 5) },
    { "50 58 31 00 39", 9, PAYLOAD(MF4_TYPE_MIME_STREAM, 0, 4096), STANDS(MF4_KIND_STREAM, 0, 5) },
    { "", 0, PAYLOAD(MF4_TYPE_UTF8, 0, 64), TEXT_STANDS(0, 0) },
    { "", 0, PAYLOAD(MF4_TYPE_COMPLEX_LE, 0, 64), UNKNOWN_IS },
    { "34 12", 0, { MF4_TYPE_UNSIGNED_LE, 1, 0, 1, 8, 0, 0, 0 }, UNSIGNED_IS(18) },  /* no data link: a field */
    { "34 12", 0, { MF4_TYPE_UNSIGNED_LE, 2, 0, 1, 8, 0, 0, 7 }, UNSIGNED_IS(18) },  /* another channel type  */
};

/* Of a record that is shorter than its id, which is in no group, only what refuses the value comes before its length. */
static void check_value_in_group(lent record, uint64_t id_size, mf4_channel channel, expected value)
{
    const mf4_group group = group_filling(record.length, id_size, 0);
    const mf4_valid_value_reply both = mf4_decode_valid_value(record.bytes, record.length, group, channel);
    if (value.reply == MF4_ANSWER && id_size > record.length)
        CHECK(valid_value_refused(both, 28, 0));
    else
        CHECK(valid_value_is(both, value, value.reply == MF4_ANSWER));
}

void check_value(lent record, uint64_t id_size, mf4_channel channel, expected value)
{
    const uint8_t is_answered = value.reply == MF4_ANSWER;
    const mf4_group group = group_of(id_size, 0, 0);
    CHECK(value_is(mf4_decode_value(record.bytes, record.length, id_size, channel), value));
    CHECK(valid_value_is(mf4_decode_valid_value_unbounded(record.bytes, record.length, group, channel), value, is_answered));
    check_value_in_group(record, id_size, channel, value);
    if (!is_answered) {
        CHECK(mf4_decode_double_bits(record.bytes, record.length, id_size, channel) == NAN_BITS);
        CHECK(mf4_check_validity_unbounded(record.bytes, record.length, group, channel) == 1);
    }
}

void check_value_cases(const char *table, const value_case *cases, size_t count)
{
    size_t i;
    for (i = 0; i < count; i++) {
        name_row(table, i);
        check_value(hex_or_null(cases[i].record), cases[i].id_size, cases[i].channel, cases[i].value);
    }
}

typedef struct validity_case {
    const char *record;
    uint64_t id_size;
    uint32_t data_bytes, flags, position;
    uint8_t is_valid;
} validity_case;

/* The invalidation bytes have no end but the slice's. */
static const validity_case validity_cases[] = {
    { "34 12 00 02", 0, 2, 2, 9, 0 },  { "34 12 00 02", 0, 2, 2, 8, 1 },  { "34 12 00 02", 0, 2, 2, 10, 1 },
    { "34 12 00 02", 0, 2, 2, 16, 1 }, { "34 12 00 02", 0, 2, 3, 16, 0 }, { "34 12 00 02", 0, 2, 1, 8, 0 },
    { "34 12 00 02", 0, 2, 0, 9, 1 },  { "34 12 00 02", 1, 2, 2, 1, 0 },  { "34 12 00 80", 3, 0, 2, 7, 0 },
    { "34 12 00 80", 3, 0, 2, 8, 1 },  { "FF FF", MOST, 1, 2, 0, 1 },     { "FF FF", MOST, 0, 2, 8, 1 },
    { "FF FF", 0, UINT32_MAX, 2, 0, 1 }, { "FF FF", 0, 0, 2, UINT32_MAX, 1 },
    { "FF FF", MOST, UINT32_MAX, 2, UINT32_MAX, 1 },
    { "FF FF", 0, 0, UINT32_MAX - 3, 0, 1 }, { "FF FF", 0, 0, UINT32_MAX - 1, 15, 0 }, { "", 0, 0, 2, 0, 1 },
    { "", 0, 0, 1, 0, 0 }, { "", 0, 0, 0, 0, 1 },
};

static void check_validity_case(validity_case a, uint32_t invalidation_bytes)
{
    const mf4_group group = group_of(a.id_size, a.data_bytes, invalidation_bytes);
    mf4_channel channel = FIELD(MF4_TYPE_UNSIGNED_LE, 0, 0, 8);
    lent record = hex_or_null(a.record);
    mf4_valid_value_reply both;
    channel.flags = a.flags;
    channel.pos_invalidation_bit = a.position;
    CHECK(mf4_check_validity_unbounded(record.bytes, record.length, group, channel) == a.is_valid);
    if (a.id_size >= record.length)
        return;
    both = mf4_decode_valid_value_unbounded(record.bytes, record.length, group, channel);
    CHECK(both.reply == 0 && both.kind == MF4_KIND_UNSIGNED && both.is_valid == a.is_valid);
}

/* However many invalidation bytes the group has. */
static void check_validity(void)
{
    static const uint32_t invalidation_bytes[] = { 0, 1, 2, UINT32_MAX };
    size_t i, j;
    for (i = 0; i < COUNT(validity_cases); i++)
        for (j = 0; j < COUNT(invalidation_bytes); j++) {
            name_row("validity", i);
            check_validity_case(validity_cases[i], invalidation_bytes[j]);
        }
}

void check_values(void)
{
    CHECK_ALL(integer_cases);
    CHECK_ALL(float_cases);
    CHECK_ALL(place_cases);
    CHECK_ALL(payload_cases);
    check_validity();
}
