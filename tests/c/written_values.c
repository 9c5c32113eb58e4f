/* Numbers written into records: what is stored, what is refused and in which order, and that no other bit changes. */
#include "values.h"

#define UNSIGNED(value) { MF4_KIND_UNSIGNED, (value) }
#define SIGNED(value) { MF4_KIND_SIGNED, (uint64_t)(value) }
#define DOUBLE(bits) { MF4_KIND_DOUBLE, UINT64_C(bits) }
#define OF_KIND(kind, value) { (kind), (value) }

/* A record as OUTPUT, since it is written; an empty one is lent as NULL. */
static lent record_of(const char *text)
{
    uint8_t bytes[256];
    const size_t count = from_hex(text, bytes);
    return count > 0 ? lend_copy(OUTPUT, bytes, count) : no_bytes();
}

static mf4_done_reply written(uint64_t id_size, mf4_channel channel, mf4_number value, lent record)
{
    return mf4_write_value(id_size, channel, value, record.bytes, record.length);
}

typedef struct stored_case {
    const char *record;
    uint64_t id_size;
    mf4_channel channel;
    mf4_number value;
    const char *after;
} stored_case;

static const stored_case integers[] = {
    { "00 00 00", 0, FIELD(MF4_TYPE_UNSIGNED_LE, 0, 0, 16), UNSIGNED(4660), "34 12 00" },
    { "00 00 00", 0, FIELD(MF4_TYPE_UNSIGNED_BE, 0, 0, 16), UNSIGNED(4660), "12 34 00" },
    { "FF FF FF", 1, FIELD(MF4_TYPE_UNSIGNED_LE, 0, 1, 8), UNSIGNED(0), "FF FF 00" },
    { "12 34", 0, FIELD(MF4_TYPE_UNSIGNED_LE, 4, 0, 8), UNSIGNED(0xAB), "B2 3A" },
    { "12 34", 0, FIELD(MF4_TYPE_UNSIGNED_BE, 4, 0, 8), UNSIGNED(0xAB), "1A B4" },
    { "FF FF", 0, FIELD(MF4_TYPE_UNSIGNED_LE, 7, 0, 2), UNSIGNED(0), "7F FE" },
    { "FF FF", 0, FIELD(MF4_TYPE_UNSIGNED_BE, 7, 0, 2), UNSIGNED(0), "FE 7F" },
    { "00", 0, FIELD(MF4_TYPE_UNSIGNED_LE, 7, 0, 1), UNSIGNED(1), "80" },
    { "00 00", 0, FIELD(MF4_TYPE_UNSIGNED_LE, 0, 0, 12), UNSIGNED(0xFFF), "FF 0F" },
    { "00 00", 0, FIELD(MF4_TYPE_UNSIGNED_BE, 0, 0, 12), UNSIGNED(0xFFF), "0F FF" },
    { "05 00 00 00 00 00 00 00 A0", 0, FIELD(MF4_TYPE_UNSIGNED_LE, 4, 0, 64), UNSIGNED(MOST), "F5 FF FF FF FF FF FF FF AF" },
    { "A0 00 00 00 00 00 00 00 05", 0, FIELD(MF4_TYPE_UNSIGNED_BE, 4, 0, 64), UNSIGNED(MOST), "AF FF FF FF FF FF FF FF F5" },
    { "FF FF FF FF FF FF FF FF FF", 0, FIELD(MF4_TYPE_UNSIGNED_LE, 7, 0, 64), UNSIGNED(0), "7F 00 00 00 00 00 00 00 80" },
    { "FF FF FF FF FF FF FF FF FF", 0, FIELD(MF4_TYPE_SIGNED_BE, 7, 0, 64), SIGNED(0), "80 00 00 00 00 00 00 00 7F" },
    { "00 00 00 00 00 00 00 00", 0, FIELD(MF4_TYPE_SIGNED_LE, 0, 0, 64), SIGNED(INT64_MIN), "00 00 00 00 00 00 00 80" },
    { "00 00 00 00 00 00 00 00", 0, FIELD(MF4_TYPE_SIGNED_BE, 0, 0, 64), SIGNED(INT64_MAX), "7F FF FF FF FF FF FF FF" },
    { "0F", 0, FIELD(MF4_TYPE_SIGNED_LE, 4, 0, 4), SIGNED(-1), "FF" },
    { "7F", 0, FIELD(MF4_TYPE_SIGNED_BE, 4, 0, 4), SIGNED(-8), "8F" },
    { "8F", 0, FIELD(MF4_TYPE_SIGNED_BE, 4, 0, 4), SIGNED(7), "7F" },
    { "FE", 0, FIELD(MF4_TYPE_SIGNED_LE, 0, 0, 1), SIGNED(-1), "FF" },
    { "FF", 0, FIELD(MF4_TYPE_SIGNED_LE, 0, 0, 1), SIGNED(0), "FE" },
    /* no data link, another channel type: fields of the record */
    { "34 12", 0, { MF4_TYPE_UNSIGNED_LE, 1, 0, 1, 8, 0, 0, 0 }, UNSIGNED(7), "34 07" },
    { "34 12", 0, { MF4_TYPE_UNSIGNED_LE, 2, 0, 1, 8, 0, 0, 7 }, UNSIGNED(7), "34 07" },
    /* flags and the invalidation bit play no part */
    { "34 12", 0, { MF4_TYPE_UNSIGNED_LE, 0, 0, 1, 8, 3, 4, 0 }, UNSIGNED(7), "34 07" },
};

/* Of 32 bits what widening gives back, of 64 every pattern. */
static const stored_case floats[] = {
    { "FF FF FF FF", 0, FIELD(MF4_TYPE_FLOAT_LE, 0, 0, 32), DOUBLE(0x3FF0000000000000), "00 00 80 3F" },
    { "FF FF FF FF", 0, FIELD(MF4_TYPE_FLOAT_BE, 0, 0, 32), DOUBLE(0x3FF0000000000000), "3F 80 00 00" },
    { "0F 00 00 00 F0", 0, FIELD(MF4_TYPE_FLOAT_LE, 4, 0, 32), DOUBLE(0x3FF0000000000000), "0F 00 00 F8 F3" },
    { "FF FF FF FF", 0, FIELD(MF4_TYPE_FLOAT_LE, 0, 0, 32), DOUBLE(0x0000000000000000), "00 00 00 00" },
    { "FF FF FF FF", 0, FIELD(MF4_TYPE_FLOAT_LE, 0, 0, 32), DOUBLE(0x8000000000000000), "00 00 00 80" },
    { "00 00 00 00", 0, FIELD(MF4_TYPE_FLOAT_LE, 0, 0, 32), DOUBLE(0x36A0000000000000), "01 00 00 00" },
    { "00 00 00 00", 0, FIELD(MF4_TYPE_FLOAT_LE, 0, 0, 32), DOUBLE(0xB6A0000000000000), "01 00 00 80" },
    { "00 00 00 00", 0, FIELD(MF4_TYPE_FLOAT_LE, 0, 0, 32), DOUBLE(0x36B8000000000000), "03 00 00 00" },
    { "00 00 00 00", 0, FIELD(MF4_TYPE_FLOAT_LE, 0, 0, 32), DOUBLE(0x380FFFFFC0000000), "FF FF 7F 00" },
    { "00 00 00 00", 0, FIELD(MF4_TYPE_FLOAT_LE, 0, 0, 32), DOUBLE(0x3810000000000000), "00 00 80 00" },
    { "00 00 00 00", 0, FIELD(MF4_TYPE_FLOAT_LE, 0, 0, 32), DOUBLE(0x47EFFFFFE0000000), "FF FF 7F 7F" },
    { "00 00 00 00", 0, FIELD(MF4_TYPE_FLOAT_LE, 0, 0, 32), DOUBLE(0x7FF0000000000000), "00 00 80 7F" },
    { "00 00 00 00", 0, FIELD(MF4_TYPE_FLOAT_BE, 0, 0, 32), DOUBLE(0xFFF0000000000000), "FF 80 00 00" },
    { "FF FF FF FF", 0, FIELD(MF4_TYPE_FLOAT_LE, 0, 0, 32), DOUBLE(0x7FF8000000000000), "00 00 C0 7F" },
    { "FF FF FF FF FF FF FF FF", 0, FIELD(MF4_TYPE_FLOAT_LE, 0, 0, 64), DOUBLE(0x7FF8000000000000), "00 00 00 00 00 00 F8 7F" },
    { "00 00 00 00 00 00 00 00", 0, FIELD(MF4_TYPE_FLOAT_BE, 0, 0, 64), DOUBLE(0xFFF0000000000001), "FF F0 00 00 00 00 00 01" },
    { "00 00 00 00 00 00 00 00", 0, FIELD(MF4_TYPE_FLOAT_LE, 0, 0, 64), DOUBLE(0x0000000000000001), "01 00 00 00 00 00 00 00" },
    { "7F 00 00 00 00 00 00 00 80", 0, FIELD(MF4_TYPE_FLOAT_LE, 7, 0, 64), DOUBLE(0xFFFFFFFFFFFFFFFF),
      "FF FF FF FF FF FF FF FF FF" },
};

static int reads_back(lent record, uint64_t id_size, mf4_channel channel, mf4_number value)
{
    const expected due = { MF4_ANSWER, 0, value.kind, value.number, 0, 0 };
    return value_is(mf4_decode_value(record.bytes, record.length, id_size, channel), due);
}

/* What is decoded, written over itself, changes no byte. Not so of the NaNs of 32 bits, which all become the one. */
static void check_written_over(lent record, uint64_t id_size, mf4_channel channel)
{
    const mf4_value_reply read = mf4_decode_value(record.bytes, record.length, id_size, channel);
    mf4_number same;
    same.kind = read.kind, same.number = read.number;
    CHECK(done_is(written(id_size, channel, same, record), MF4_ANSWER, 0) && is_unchanged(record));
}

static void check_stored_case(stored_case a)
{
    lent record = record_of(a.record);
    uint8_t after[256];
    const size_t count = from_hex(a.after, after);
    CHECK(done_is(written(a.id_size, a.channel, a.value, record), MF4_ANSWER, 0));
    CHECK(count == record.length && same_bytes(record.bytes, after, count));
    CHECK(reads_back(record, a.id_size, a.channel, a.value));
    check_written_over(record_of(a.after), a.id_size, a.channel);
}

#define MARKED(type, bit_offset, byte_offset, bit_count, flags, position) \
    { (type), 0, (bit_offset), (byte_offset), (bit_count), (flags), (position), 0 }

typedef struct marked_case {
    const char *record;
    uint64_t id_size;
    uint32_t data_bytes;
    mf4_channel channel;
    mf4_number value;
    const char *after;
    uint8_t was_valid, is_valid;
} marked_case;

/* Where the invalidation bit stands beside the field, validity stays; where it is one of the field's, it is as written. */
static const marked_case validities[] = {
    /* in a byte behind the field's, with and without an id in front, and beyond the record */
    { "34 12 00", 0, 2, MARKED(MF4_TYPE_UNSIGNED_LE, 0, 0, 16, 2, 0), UNSIGNED(0xFFFF), "FF FF 00", 1, 1 },
    { "34 12 01", 0, 2, MARKED(MF4_TYPE_UNSIGNED_LE, 0, 0, 16, 2, 0), UNSIGNED(0), "00 00 01", 0, 0 },
    { "07 34 02", 1, 1, MARKED(MF4_TYPE_UNSIGNED_BE, 0, 0, 8, 2, 1), UNSIGNED(0xFF), "07 FF 02", 0, 0 },
    { "FF FF FD", 1, 1, MARKED(MF4_TYPE_SIGNED_LE, 0, 0, 8, 2, 1), SIGNED(0), "FF 00 FD", 1, 1 },
    { "34 12 FF", 0, 2, MARKED(MF4_TYPE_UNSIGNED_LE, 0, 0, 16, 2, 8), UNSIGNED(0), "00 00 FF", 1, 1 },
    /* in the field's own bytes: right above its highest bit, and right below its lowest */
    { "34 12", 0, 1, MARKED(MF4_TYPE_UNSIGNED_LE, 0, 0, 12, 2, 4), UNSIGNED(0), "00 10", 0, 0 },
    { "34 E2", 0, 1, MARKED(MF4_TYPE_UNSIGNED_LE, 0, 0, 12, 2, 4), UNSIGNED(0xFFF), "FF EF", 1, 1 },
    { "12 34", 0, 0, MARKED(MF4_TYPE_UNSIGNED_BE, 0, 0, 12, 2, 4), UNSIGNED(0), "10 00", 0, 0 },
    { "E2 34", 0, 0, MARKED(MF4_TYPE_UNSIGNED_BE, 0, 0, 12, 2, 4), UNSIGNED(0xFFF), "EF FF", 1, 1 },
    { "08 00", 0, 0, MARKED(MF4_TYPE_SIGNED_LE, 4, 0, 12, 2, 3), SIGNED(-1), "F8 FF", 0, 0 },
    { "F7 FF", 0, 0, MARKED(MF4_TYPE_SIGNED_LE, 4, 0, 12, 2, 3), SIGNED(0), "07 00", 1, 1 },
    { "00 08", 0, 0, MARKED(MF4_TYPE_SIGNED_BE, 4, 0, 12, 2, 11), SIGNED(-1), "FF F8", 0, 0 },
    { "FF F7", 0, 0, MARKED(MF4_TYPE_SIGNED_BE, 4, 0, 12, 2, 11), SIGNED(0), "00 07", 1, 1 },
    /* one of the field's: its lowest, its highest, and one between */
    { "00", 0, 0, MARKED(MF4_TYPE_UNSIGNED_LE, 0, 0, 8, 2, 0), UNSIGNED(1), "01", 1, 0 },
    { "FF", 0, 0, MARKED(MF4_TYPE_UNSIGNED_LE, 0, 0, 8, 2, 0), UNSIGNED(0xFE), "FE", 0, 1 },
    { "FF", 0, 0, MARKED(MF4_TYPE_UNSIGNED_LE, 0, 0, 8, 2, 0), UNSIGNED(1), "01", 0, 0 },
    { "00 00", 0, 1, MARKED(MF4_TYPE_UNSIGNED_LE, 0, 0, 12, 2, 3), UNSIGNED(0x800), "00 08", 1, 0 },
    { "FF FF", 0, 1, MARKED(MF4_TYPE_UNSIGNED_LE, 0, 0, 12, 2, 3), UNSIGNED(0x7FF), "FF F7", 0, 1 },
    { "00 00", 0, 0, MARKED(MF4_TYPE_UNSIGNED_BE, 0, 0, 16, 2, 0), UNSIGNED(0x100), "01 00", 1, 0 },
    { "FF FF", 0, 0, MARKED(MF4_TYPE_UNSIGNED_BE, 0, 0, 16, 2, 0), UNSIGNED(0xFEFF), "FE FF", 0, 1 },
    { "07 00 00", 1, 0, MARKED(MF4_TYPE_UNSIGNED_LE, 7, 0, 2, 2, 8), UNSIGNED(2), "07 00 01", 1, 0 },
    { "07 FF FF", 1, 0, MARKED(MF4_TYPE_UNSIGNED_LE, 7, 0, 2, 2, 8), UNSIGNED(1), "07 FF FE", 0, 1 },
    { "0F", 0, 0, MARKED(MF4_TYPE_SIGNED_LE, 4, 0, 4, 2, 7), SIGNED(-8), "8F", 1, 0 },
    { "8F", 0, 0, MARKED(MF4_TYPE_SIGNED_BE, 4, 0, 4, 2, 7), SIGNED(7), "7F", 0, 1 },
    { "00 00 80 3F", 0, 0, MARKED(MF4_TYPE_FLOAT_LE, 0, 0, 32, 2, 31), DOUBLE(0xBFF0000000000000), "00 00 80 BF", 1, 0 },
    { "BF 80 00 00", 0, 0, MARKED(MF4_TYPE_FLOAT_BE, 0, 0, 32, 2, 7), DOUBLE(0x3FF0000000000000), "3F 80 00 00", 0, 1 },
    /* the flags decide whether the bit counts */
    { "00", 0, 0, MARKED(MF4_TYPE_UNSIGNED_LE, 0, 0, 8, 0, 0), UNSIGNED(1), "01", 1, 1 },
    { "01", 0, 0, MARKED(MF4_TYPE_UNSIGNED_LE, 0, 0, 8, 1, 0), UNSIGNED(0), "00", 0, 0 },
    { "01", 0, 0, MARKED(MF4_TYPE_UNSIGNED_LE, 0, 0, 8, 3, 0), UNSIGNED(0), "00", 0, 0 },
};

/* The group's records are as long as this one. Both readings agree, but of a bit beyond the record. */
static void check_validity(lent record, marked_case a, uint8_t is_valid)
{
    const mf4_group group = group_filling(record.length, a.id_size, a.data_bytes);
    const mf4_validity_reply bounded = mf4_check_validity(record.bytes, record.length, group, a.channel);
    CHECK(mf4_check_validity_unbounded(record.bytes, record.length, group, a.channel) == is_valid);
    if (a.channel.pos_invalidation_bit >= 8 * group.invalidation_bytes)
        CHECK(validity_is(bounded, 29, 0));
    else
        CHECK(validity_is(bounded, MF4_ANSWER, is_valid));
}

static void check_marked_case(marked_case a)
{
    const expected value = { MF4_ANSWER, 0, a.value.kind, a.value.number, 0, 0 };
    uint8_t after[256];
    const size_t count = from_hex(a.after, after);
    const mf4_group group = group_of(a.id_size, a.data_bytes, 0);
    lent record = record_of(a.record);
    check_validity(record, a, a.was_valid);
    check_written_over(record, a.id_size, a.channel);
    CHECK(done_is(written(a.id_size, a.channel, a.value, record), MF4_ANSWER, 0));
    CHECK(count == record.length && same_bytes(record.bytes, after, count));
    check_validity(record, a, a.is_valid);
    CHECK(valid_value_is(mf4_decode_valid_value_unbounded(record.bytes, record.length, group, a.channel), value,
                         a.is_valid));
    check_written_over(record_of(a.after), a.id_size, a.channel);
}

static void check_validities(void)
{
    size_t i;
    for (i = 0; i < COUNT(validities); i++) {
        name_row("validity of what is written", i);
        check_marked_case(validities[i]);
    }
}

typedef struct refused_case {
    const char *record;
    uint64_t id_size;
    mf4_channel channel;
    mf4_number value;
    uint32_t reply;
    uint64_t told;
} refused_case;

static const refused_case do_not_fit[] = {
    { "00", 0, FIELD(MF4_TYPE_UNSIGNED_LE, 0, 0, 8), UNSIGNED(256), 24, 0 },
    { "00", 0, FIELD(MF4_TYPE_UNSIGNED_BE, 7, 0, 1), UNSIGNED(2), 24, 0 },
    { "00 00 00 00 00 00 00 00", 0, FIELD(MF4_TYPE_UNSIGNED_LE, 0, 0, 63), UNSIGNED(UINT64_C(1) << 63), 24, 0 },
    { "00", 0, FIELD(MF4_TYPE_UNSIGNED_LE, 0, 0, 1), UNSIGNED(MOST), 24, 0 },
    { "00", 0, FIELD(MF4_TYPE_SIGNED_LE, 0, 0, 8), SIGNED(128), 24, 0 },
    { "00", 0, FIELD(MF4_TYPE_SIGNED_BE, 0, 0, 8), SIGNED(-129), 24, 0 },
    { "00", 0, FIELD(MF4_TYPE_SIGNED_LE, 0, 0, 1), SIGNED(1), 24, 0 },
    { "00", 0, FIELD(MF4_TYPE_SIGNED_LE, 0, 0, 1), SIGNED(-2), 24, 0 },
    { "00 00 00 00 00 00 00 00", 0, FIELD(MF4_TYPE_SIGNED_LE, 0, 0, 63), SIGNED(INT64_MIN), 24, 0 },
    { "00 00 00 00 00 00 00 00", 0, FIELD(MF4_TYPE_SIGNED_LE, 0, 0, 63), SIGNED(INT64_MAX), 24, 0 },
    /* halves of the last place, also of the smallest and the largest, and what is too near 0 or too far from it */
    { "00 00 00 00", 0, FIELD(MF4_TYPE_FLOAT_LE, 0, 0, 32), DOUBLE(0x3FF0000010000000), 24, 0 },
    { "00 00 00 00", 0, FIELD(MF4_TYPE_FLOAT_LE, 0, 0, 32), DOUBLE(0x3FF0000030000000), 24, 0 },
    { "00 00 00 00", 0, FIELD(MF4_TYPE_FLOAT_LE, 0, 0, 32), DOUBLE(0x3FF0000000000001), 24, 0 },
    { "00 00 00 00", 0, FIELD(MF4_TYPE_FLOAT_LE, 0, 0, 32), DOUBLE(0x3FEFFFFFFFFFFFFF), 24, 0 },
    { "00 00 00 00", 0, FIELD(MF4_TYPE_FLOAT_LE, 0, 0, 32), DOUBLE(0x3690000000000000), 24, 0 },
    { "00 00 00 00", 0, FIELD(MF4_TYPE_FLOAT_LE, 0, 0, 32), DOUBLE(0x36A8000000000000), 24, 0 },
    { "00 00 00 00", 0, FIELD(MF4_TYPE_FLOAT_LE, 0, 0, 32), DOUBLE(0x380FFFFFE0000000), 24, 0 },
    { "00 00 00 00", 0, FIELD(MF4_TYPE_FLOAT_LE, 0, 0, 32), DOUBLE(0x0000000000000001), 24, 0 },
    { "00 00 00 00", 0, FIELD(MF4_TYPE_FLOAT_LE, 0, 0, 32), DOUBLE(0x800FFFFFFFFFFFFF), 24, 0 },
    { "00 00 00 00", 0, FIELD(MF4_TYPE_FLOAT_LE, 0, 0, 32), DOUBLE(0x47EFFFFFF0000000), 24, 0 },
    { "00 00 00 00", 0, FIELD(MF4_TYPE_FLOAT_LE, 0, 0, 32), DOUBLE(0x47F0000000000000), 24, 0 },
    { "00 00 00 00", 0, FIELD(MF4_TYPE_FLOAT_LE, 0, 0, 32), DOUBLE(0x7FEFFFFFFFFFFFFF), 24, 0 },
    /* every NaN but the one */
    { "00 00 00 00", 0, FIELD(MF4_TYPE_FLOAT_LE, 0, 0, 32), DOUBLE(0xFFF8000000000000), 24, 0 },
    { "00 00 00 00", 0, FIELD(MF4_TYPE_FLOAT_LE, 0, 0, 32), DOUBLE(0x7FF8000000000001), 24, 0 },
    { "00 00 00 00", 0, FIELD(MF4_TYPE_FLOAT_LE, 0, 0, 32), DOUBLE(0x7FF0000000000001), 24, 0 },
    { "00 00 00 00", 0, FIELD(MF4_TYPE_FLOAT_LE, 0, 0, 32), DOUBLE(0x7FF0000020000000), 24, 0 },
    { "00 00 00 00", 0, FIELD(MF4_TYPE_FLOAT_LE, 0, 0, 32), DOUBLE(0x7FFFFFFFFFFFFFFF), 24, 0 },
};

static const refused_case of_another_kind[] = {
    { "00", 0, FIELD(MF4_TYPE_UNSIGNED_LE, 0, 0, 8), SIGNED(1), 25, 0 },
    { "00", 0, FIELD(MF4_TYPE_UNSIGNED_BE, 0, 0, 8), DOUBLE(0x0000000000000001), 25, 0 },
    { "00", 0, FIELD(MF4_TYPE_SIGNED_LE, 0, 0, 8), UNSIGNED(1), 25, 0 },
    { "00", 0, FIELD(MF4_TYPE_SIGNED_BE, 0, 0, 8), DOUBLE(0x0000000000000000), 25, 0 },
    { "00 00 00 00", 0, FIELD(MF4_TYPE_FLOAT_LE, 0, 0, 32), UNSIGNED(0), 25, 0 },
    { "00 00 00 00", 0, FIELD(MF4_TYPE_FLOAT_BE, 0, 0, 32), SIGNED(0), 25, 0 },
    { "00", 0, FIELD(MF4_TYPE_UNSIGNED_LE, 0, 0, 8), OF_KIND(MF4_KIND_NOTHING, 0), 25, 0 },
    { "00", 0, FIELD(MF4_TYPE_UNSIGNED_LE, 0, 0, 8), OF_KIND(MF4_KIND_TEXT, 0), 25, 0 },
    { "00", 0, FIELD(MF4_TYPE_UNSIGNED_LE, 0, 0, 8), OF_KIND(257, 0), 25, 0 },
    { "00", 0, FIELD(MF4_TYPE_SIGNED_LE, 0, 0, 8), OF_KIND(UINT32_MAX, 0), 25, 0 },
    { "00 00 00 00", 0, FIELD(MF4_TYPE_FLOAT_LE, 0, 0, 32), OF_KIND(UINT32_C(0x80000003), 0), 25, 0 },
    /* channels of variable length, whatever the number */
    { "00", 5, PAYLOAD(MF4_TYPE_UNSIGNED_LE, 0, 8), UNSIGNED(1), 25, 0 },
    { "00 00 00 00", MOST, PAYLOAD(MF4_TYPE_FLOAT_LE, 0, 32), DOUBLE(0x3FF0000000000000), 25, 0 },
    { "", 0, PAYLOAD(MF4_TYPE_UTF8, 0, 64), UNSIGNED(1), 25, 0 },
    /* texts, bytes and unknown types */
    { "50 58", 0, FIELD(MF4_TYPE_LATIN1, 0, 0, 16), UNSIGNED(1), 25, 0 },
    { "", 0, FIELD(MF4_TYPE_UTF8, 255, 0, 7), UNSIGNED(1), 25, 0 },
    { "50 58", 0, FIELD(MF4_TYPE_BYTE_ARRAY, 0, 0, 16), UNSIGNED(1), 25, 0 },
    { "50 58", 0, FIELD(MF4_TYPE_CANOPEN_DATE, 0, 0, 16), UNSIGNED(1), 25, 0 },
    { "50 58 50 58", 0, FIELD(MF4_TYPE_COMPLEX_LE, 0, 0, 32), DOUBLE(0x3FF0000000000000), 25, 0 },
    { "50", 0, FIELD(255, 0, 0, 8), UNSIGNED(1), 25, 0 },
};

/* What decoding refuses comes first and is told as there, then another kind, then what does not fit. */
static const refused_case in_order[] = {
    { "00", 0, FIELD(MF4_TYPE_UNSIGNED_LE, 8, 9, 0), SIGNED(1), 18, 0 },
    { "", MOST, FIELD(MF4_TYPE_FLOAT_LE, 8, UINT32_MAX, 0), OF_KIND(9, 9), 18, 0 },
    { "00", 0, FIELD(MF4_TYPE_UNSIGNED_LE, 8, 0, 65), UNSIGNED(MOST), 19, 0 },
    { "00", 0, FIELD(MF4_TYPE_FLOAT_LE, 255, 0, 16), UNSIGNED(1), 19, 0 },
    { "", 0, FIELD(MF4_TYPE_SIGNED_LE, 7, UINT32_MAX, 65), DOUBLE(0x0000000000000000), 20, 0 },
    { "", 0, FIELD(MF4_TYPE_UNSIGNED_LE, 0, 0, 8), SIGNED(1), 21, 1 },
    { "00", 0, FIELD(MF4_TYPE_UNSIGNED_LE, 1, 0, 8), UNSIGNED(256), 21, 2 },
    { "00 00 00 00 00 00", 2, FIELD(MF4_TYPE_UNSIGNED_LE, 0, 3, 16), UNSIGNED(65536), 21, 7 },
    { "00 00 00 00 00 00 00 00", 0, FIELD(MF4_TYPE_SIGNED_LE, 4, 0, 64), SIGNED(0), 21, 9 },
    { "00 00", 0, FIELD(MF4_TYPE_FLOAT_LE, 1, 0, 16), UNSIGNED(1), 21, 3 },
    { "00 00", 0, FIELD(MF4_TYPE_LATIN1, 0, 1, 16), UNSIGNED(1), 21, 3 },
    { "", 0, FIELD(17, 0, 0, 0), OF_KIND(0, 0), 21, 1 },
    { "00 00", 5, PAYLOAD(MF4_TYPE_UNSIGNED_LE, 0, 24), UNSIGNED(1), 21, 3 },
    { "00 00", MOST - 1, FIELD(MF4_TYPE_UNSIGNED_LE, 0, 0, 8), UNSIGNED(1), 21, MOST },
    { "00 00", MOST, FIELD(MF4_TYPE_UNSIGNED_LE, 0, 0, 8), UNSIGNED(1), 21, MOST },
    { "00 00", MOST, FIELD(MF4_TYPE_UNSIGNED_LE, 0, 1, 8), UNSIGNED(1), 21, MOST }, /* a sum that wraps would find byte 0 */
    { "00 00", MOST, FIELD(MF4_TYPE_SIGNED_BE, 0, 2, 8), SIGNED(1), 21, MOST },
    { "00 00", MOST - 4294967294, FIELD(MF4_TYPE_UNSIGNED_LE, 0, UINT32_MAX, 8), UNSIGNED(1), 21, MOST },
    { "00 00", MOST - 4294967297, FIELD(MF4_TYPE_UNSIGNED_LE, 0, UINT32_MAX, 8), UNSIGNED(1), 21, MOST - 1 },
    { "00 00", 0, FIELD(MF4_TYPE_FLOAT_LE, 7, UINT32_MAX, UINT32_MAX), UNSIGNED(1), 21, UINT64_C(4831838208) },
    { "00 00", 0, FIELD(MF4_TYPE_FLOAT_LE, 0, 0, 16), UNSIGNED(1), 22, 0 },
    { "00 00 00 00", 0, FIELD(MF4_TYPE_FLOAT_BE, 0, 0, 31), OF_KIND(0, 0), 22, 0 },
    { "00 00 00 00", 9, PAYLOAD(MF4_TYPE_FLOAT_BE, 0, 31), DOUBLE(0x3FF0000000000000), 22, 0 },
    { "00", 0, FIELD(MF4_TYPE_UNSIGNED_LE, 0, 0, 8), SIGNED(256), 25, 0 },
    { "00 00 00 00", 0, FIELD(MF4_TYPE_FLOAT_LE, 0, 0, 32), UNSIGNED(MOST), 25, 0 },
    { "00", 0, PAYLOAD(MF4_TYPE_UNSIGNED_LE, 0, 8), UNSIGNED(256), 25, 0 },
};

/* The record as given, and filled with marks: a refusal changes neither. */
static void check_refused_case(refused_case a)
{
    lent record = record_of(a.record);
    CHECK(done_is(written(a.id_size, a.channel, a.value, record), a.reply, a.told));
    CHECK(is_unchanged(record));
    record = lend_marked(OUTPUT, record.length);
    CHECK(done_is(written(a.id_size, a.channel, a.value, record), a.reply, a.told));
    CHECK(is_unchanged(record));
}

static void check_refused_cases(const char *table, const refused_case *cases, size_t count)
{
    size_t i;
    for (i = 0; i < count; i++) {
        name_row(table, i);
        check_refused_case(cases[i]);
    }
}

static void check_stored_cases(const char *table, const stored_case *cases, size_t count)
{
    size_t i;
    for (i = 0; i < count; i++) {
        name_row(table, i);
        check_stored_case(cases[i]);
    }
}

/* Whether a bit of the record, counted from its front, is one of the field's, whose bytes begin at `at`. */
static int is_of_field(size_t bit, mf4_channel channel, size_t at)
{
    const size_t span = (channel.bit_offset + channel.bit_count + 7) / 8, byte = bit / 8;
    size_t k;
    if (byte < at || byte >= at + span)
        return 0;
    k = 8 * (channel.data_type % 2 == 0 ? byte - at : at + span - 1 - byte) + bit % 8;
    return k >= channel.bit_offset && k < channel.bit_offset + channel.bit_count;
}

static int same_outside_field(lent record, mf4_channel channel, size_t at)
{
    size_t bit;
    for (bit = 0; bit < 8 * record.length; bit++)
        if (((record.bytes[bit / 8] ^ record.before[bit / 8]) >> bit % 8 & 1) == 1 && !is_of_field(bit, channel, at))
            return 0;
    return 1;
}

/* All ones of the field, and then none, each in a record of marks: at least one of the two changes it. What the marks stand
 * for, written over them, does not. */
static void check_shape(mf4_channel channel, size_t behind)
{
    const size_t at = 3, span = (channel.bit_offset + channel.bit_count + 7) / 8;
    const uint64_t largest = MOST >> (64 - channel.bit_count);
    mf4_number value = { MF4_KIND_UNSIGNED, 0 };
    int pass;
    if (channel.data_type >= MF4_TYPE_SIGNED_LE)
        value.kind = MF4_KIND_SIGNED;
    for (pass = 0; pass < 2; pass++) {
        lent record = lend_marked(OUTPUT, at + span + behind);
        value.number = pass > 0 ? 0 : value.kind == MF4_KIND_SIGNED ? MOST : largest;
        CHECK(done_is(written(1, channel, value, record), MF4_ANSWER, 0));
        CHECK(reads_back(record, 1, channel, value));
        CHECK(same_outside_field(record, channel, at));
    }
    check_written_over(lend_marked(OUTPUT, at + span + behind), 1, channel);
    if (channel.bit_count < 64) {
        lent record = lend_marked(OUTPUT, at + span + behind);
        value.number = largest + 1;
        CHECK(done_is(written(1, channel, value, record), 24, 0) && is_unchanged(record));
    }
}

/* Every width, bit offset and type of integer, in a record that ends with the field, and in one that goes on. */
static void check_shapes(void)
{
    uint8_t type, bit_offset;
    uint32_t bit_count;
    for (type = MF4_TYPE_UNSIGNED_LE; type <= MF4_TYPE_SIGNED_BE; type++)
        for (bit_offset = 0; bit_offset < 8; bit_offset++)
            for (bit_count = 1; bit_count <= 64; bit_count++) {
                const mf4_channel channel = FIELD(type, bit_offset, 2, bit_count);
                name_number("shapes of a field of so many bits", bit_count);
                check_shape(channel, bit_count % 2 == 0 ? 0 : 2);
            }
}

/* Of all types the six of numbers take a number, each of one kind, and then that number stands there. */
static void check_every_type(void)
{
    unsigned type;
    uint32_t kind;
    for (type = 0; type <= 255; type++)
        for (kind = 0; kind <= 9; kind++) {
            const mf4_channel channel = FIELD((uint8_t)type, 0, 2, 64);
            const mf4_number value = { kind, 5 };
            lent record = lend_marked(OUTPUT, 11);
            const int is_stored = type <= MF4_TYPE_FLOAT_BE && kind == MF4_KIND_UNSIGNED + type / 2;
            name_number("kinds of numbers for the data type", type);
            CHECK(done_is(written(1, channel, value, record), is_stored ? MF4_ANSWER : 25, 0));
            CHECK(is_stored ? reads_back(record, 1, channel, value) && same_outside_field(record, channel, 3)
                            : is_unchanged(record));
            record = lend_marked(OUTPUT, 10);
            CHECK(done_is(written(1, channel, value, record), 21, 11) && is_unchanged(record));
        }
}

void check_written_values(void)
{
    check_stored_cases("integers written", integers, COUNT(integers));
    check_stored_cases("floats written", floats, COUNT(floats));
    check_validities();
    check_refused_cases("numbers that do not fit", do_not_fit, COUNT(do_not_fit));
    check_refused_cases("numbers of another kind", of_another_kind, COUNT(of_another_kind));
    check_refused_cases("the order of refusals", in_order, COUNT(in_order));
    check_shapes();
    check_every_type();
}
