/* Why a field is refused: each of 18 to 22, which of them comes first, and the bytes that 21 tells. */
#include "values.h"

/* Several causes at once: the first in the order is told. */
static const value_case order_cases[] = {
    /* 18 before 19, 21, 22 and all three */
    { "34 12", 0, FIELD(MF4_TYPE_UNSIGNED_LE, 8, 0, 0), REFUSED_WITH(18) },
    { "34 12", 0, FIELD(MF4_TYPE_FLOAT_BE, 255, 0, 0), REFUSED_WITH(18) },
    { "", 0, FIELD(MF4_TYPE_SIGNED_LE, 0, 0, 0), REFUSED_WITH(18) },
    { "34 12", 0, FIELD(MF4_TYPE_FLOAT_LE, 0, 0, 0), REFUSED_WITH(18) },
    { "", MOST, FIELD(MF4_TYPE_FLOAT_LE, 8, UINT32_MAX, 0), REFUSED_WITH(18) },
    { "", 0, PAYLOAD(MF4_TYPE_UNSIGNED_BE, 8, 0), REFUSED_WITH(18) },
    /* 19 before 20, 21, 22 and what of these goes together */
    { "00 00 00 00 00 00 00 00 00 00", 0, FIELD(MF4_TYPE_UNSIGNED_LE, 8, 0, 65), REFUSED_WITH(19) },
    { "", MOST, FIELD(MF4_TYPE_SIGNED_BE, 255, UINT32_MAX, UINT32_MAX), REFUSED_WITH(19) },
    { "", 0, FIELD(MF4_TYPE_UNSIGNED_LE, 8, 0, 8), REFUSED_WITH(19) },
    { "00 00 80 3F", 0, FIELD(MF4_TYPE_FLOAT_LE, 8, 0, 16), REFUSED_WITH(19) },
    { "", 0, FIELD(MF4_TYPE_FLOAT_BE, 8, 0, 65), REFUSED_WITH(19) },
    { "", 0, PAYLOAD(MF4_TYPE_FLOAT_LE, 8, 65), REFUSED_WITH(19) },
    /* 20 before 21 */
    { "", 0, FIELD(MF4_TYPE_UNSIGNED_LE, 0, 0, 65), REFUSED_WITH(20) },
    { "34 12", MOST, FIELD(MF4_TYPE_SIGNED_BE, 7, UINT32_MAX, UINT32_MAX), REFUSED_WITH(20) },
    { "34 12", 0, PAYLOAD(MF4_TYPE_UNSIGNED_LE, 0, 65), REFUSED_WITH(20) },
    /* 21 before 22 */
    { "", 0, FIELD(MF4_TYPE_FLOAT_LE, 0, 0, 65), OUTSIDE(9) },
    { "00 00 00 00 00 00 00 00", 0, FIELD(MF4_TYPE_FLOAT_BE, 0, 0, 65), OUTSIDE(9) },
    { "00 00 00 00 00 00 00 00 00", 0, FIELD(MF4_TYPE_FLOAT_BE, 0, 0, 65), REFUSED_WITH(22) },
    { "00 00", 0, FIELD(MF4_TYPE_FLOAT_LE, 1, 0, 16), OUTSIDE(3) },
    { "00 00 00", 0, FIELD(MF4_TYPE_FLOAT_LE, 1, 0, 16), REFUSED_WITH(22) },
    { "34 12", 0, PAYLOAD(MF4_TYPE_FLOAT_LE, 0, 17), OUTSIDE(3) },
    { "34 12", 0, PAYLOAD(MF4_TYPE_FLOAT_LE, 0, 16), REFUSED_WITH(22) },
};

/* What would be needed, from the front of the slice. */
static const value_case told_cases[] = {
    /* behind an id */
    { "", 2, FIELD(MF4_TYPE_UNSIGNED_LE, 0, 3, 16), OUTSIDE(7) },
    { "00 00 00 00 00 34", 2, FIELD(MF4_TYPE_UNSIGNED_LE, 0, 3, 16), OUTSIDE(7) },
    { "00 00 00 00 00 34 12", 2, FIELD(MF4_TYPE_UNSIGNED_LE, 0, 3, 16), UNSIGNED_IS(4660) },
    { "34 12", 4096, FIELD(MF4_TYPE_FLOAT_BE, 7, 0, 64), OUTSIDE(4105) },
    { "34 12", UINT32_MAX, FIELD(MF4_TYPE_SIGNED_LE, 0, UINT32_MAX, 8), OUTSIDE(UINT64_C(8589934591)) },
    /* of a payload neither the id nor the byte offset, and all of it where it is no number */
    { "34 12", 5, PAYLOAD(MF4_TYPE_UNSIGNED_LE, 0, 24), OUTSIDE(3) },
    { "", MOST, PAYLOAD(MF4_TYPE_FLOAT_BE, 7, 64), OUTSIDE(9) },
    { "34 12", MOST, PAYLOAD(MF4_TYPE_UTF16_LE, 255, UINT32_MAX), TEXT_STANDS(0, 2) },
    { "34 12", MOST, PAYLOAD(MF4_TYPE_CANOPEN_DATE, 255, UINT32_MAX), UNKNOWN_IS },
    /* of a text the whole bytes, without the bit offset; else all that the bits reach into, and one at least */
    { "34 12", 0, FIELD(MF4_TYPE_UTF8, 255, 1, 23), OUTSIDE(3) },
    { "34 12", 0, FIELD(MF4_TYPE_MIME_STREAM, 7, 3, 0), OUTSIDE(3) },
    { "34 12", 0, FIELD(MF4_TYPE_COMPLEX_LE, 7, 1, 10), OUTSIDE(4) },
    { "34", 0, FIELD(MF4_TYPE_CANOPEN_DATE, 9, 0, 0), OUTSIDE(2) },
    { "34 12", 0, FIELD(MF4_TYPE_CANOPEN_DATE, 9, 0, 0), UNKNOWN_IS },
    { "", 0, FIELD(17, 0, 0, 0), OUTSIDE(1) },
    /* a sum of bits that does not wrap */
    { "34 12", 0, FIELD(MF4_TYPE_FLOAT_LE, 7, 0, UINT32_MAX), OUTSIDE(536870913) },
    { "34 12", 0, FIELD(MF4_TYPE_FLOAT_LE, 7, UINT32_MAX, UINT32_MAX), OUTSIDE(UINT64_C(4831838208)) },
};

/* Sums up to 2^64-1 are told as they are, those above it as 2^64-1. */
static const value_case largest_cases[] = {
    { "34 12", MOST - 2, FIELD(MF4_TYPE_UNSIGNED_LE, 0, 0, 8), OUTSIDE(MOST - 1) },
    { "34 12", MOST - 1, FIELD(MF4_TYPE_UNSIGNED_LE, 0, 0, 8), OUTSIDE(MOST) },
    { "34 12", MOST, FIELD(MF4_TYPE_UNSIGNED_LE, 0, 0, 8), OUTSIDE(MOST) },
    { "34 12", MOST - 10, FIELD(MF4_TYPE_SIGNED_BE, 7, 0, 64), OUTSIDE(MOST - 1) },
    { "34 12", MOST - 8, FIELD(MF4_TYPE_SIGNED_BE, 7, 0, 64), OUTSIDE(MOST) },
    { "34 12", MOST - 5, FIELD(MF4_TYPE_FLOAT_LE, 0, 0, 32), OUTSIDE(MOST - 1) },
    { "34 12", MOST - 3, FIELD(MF4_TYPE_FLOAT_LE, 0, 0, 32), OUTSIDE(MOST) },
    { "34 12", MOST - 4294967297, FIELD(MF4_TYPE_UNSIGNED_LE, 0, UINT32_MAX, 8), OUTSIDE(MOST - 1) },
    { "34 12", MOST - 4294967296, FIELD(MF4_TYPE_UNSIGNED_LE, 0, UINT32_MAX, 8), OUTSIDE(MOST) },
    { "34 12", MOST - 4294967295, FIELD(MF4_TYPE_UNSIGNED_LE, 0, UINT32_MAX, 8), OUTSIDE(MOST) },
    { "34 12", MOST, FIELD(MF4_TYPE_UNSIGNED_LE, 0, UINT32_MAX, 8), OUTSIDE(MOST) },
    { "34 12", MOST - 536870914, FIELD(MF4_TYPE_FLOAT_LE, 7, 0, UINT32_MAX), OUTSIDE(MOST - 1) },
    { "34 12", MOST - 536870912, FIELD(MF4_TYPE_FLOAT_LE, 7, 0, UINT32_MAX), OUTSIDE(MOST) },
    { "34 12", MOST, FIELD(MF4_TYPE_FLOAT_LE, 7, UINT32_MAX, UINT32_MAX), OUTSIDE(MOST) },
    { "34 12", MOST - 1, FIELD(MF4_TYPE_LATIN1, 0, 0, 7), OUTSIDE(MOST - 1) },
    { "34 12", MOST, FIELD(MF4_TYPE_LATIN1, 0, 0, 7), OUTSIDE(MOST) },
    { "34 12", MOST, FIELD(MF4_TYPE_LATIN1, 0, 1, 7), OUTSIDE(MOST) },
    { "34 12", MOST - 4294967296, FIELD(MF4_TYPE_BYTE_ARRAY, 0, UINT32_MAX, 0), OUTSIDE(MOST - 1) },
    { "34 12", MOST - 4294967295, FIELD(MF4_TYPE_BYTE_ARRAY, 0, UINT32_MAX, 8), OUTSIDE(MOST) },
    { "34 12", MOST, FIELD(255, 255, UINT32_MAX, UINT32_MAX), OUTSIDE(MOST) },
};

typedef struct shape {
    uint8_t bit_offset;
    uint32_t bit_count, integer_reply, float_reply;
} shape;

/* In a record that is long enough. */
static const shape shapes[] = {
    { 0, 0, 18, 18 }, { 7, 0, 18, 18 }, { 9, 0, 18, 18 },
    { 8, 1, 19, 19 }, { 8, 32, 19, 19 }, { 255, 64, 19, 19 }, { 8, 65, 19, 19 },
    { 0, 65, 20, 22 }, { 7, 65, 20, 22 }, { 0, 128, 20, 22 },
    { 0, 1, 0, 22 }, { 7, 16, 0, 22 }, { 0, 31, 0, 22 }, { 0, 33, 0, 22 }, { 0, 63, 0, 22 },
    { 0, 32, 0, 0 }, { 7, 32, 0, 0 }, { 0, 64, 0, 0 }, { 7, 64, 0, 0 },
};

/* A shape is a cause for numbers alone. */
static void check_shapes(void)
{
    lent record = lend_marked(INPUT, 64);
    unsigned type;
    size_t i;
    for (type = 0; type <= 255; type++)
        for (i = 0; i < COUNT(shapes); i++) {
            const shape a = shapes[i];
            const mf4_channel channel = FIELD((uint8_t)type, a.bit_offset, 2, a.bit_count);
            const mf4_value_reply value = mf4_decode_value(record.bytes, record.length, 1, channel);
            const uint32_t number_reply = type <= MF4_TYPE_SIGNED_BE ? a.integer_reply : a.float_reply;
            name_number("shapes of the data type", type);
            CHECK(value.reply == (type <= MF4_TYPE_FLOAT_BE ? number_reply : MF4_ANSWER) && value.told == 0);
        }
}

/* A field that ends outside is refused whatever its type, up to the size that is told. */
static void check_every_type(void)
{
    static const expected outside = OUTSIDE(7);
    unsigned type;
    for (type = 0; type <= 255; type++) {
        const mf4_channel channel = FIELD((uint8_t)type, 0, 3, 16);
        lent enough;
        name_number("too few bytes for the data type", type);
        check_value(no_bytes(), 2, channel, outside);
        check_value(lend_marked(INPUT, 6), 2, channel, outside);
        enough = lend_marked(INPUT, 7);
        CHECK(mf4_decode_value(enough.bytes, enough.length, 2, channel).reply != MF4_FIELD_OUTSIDE);
    }
}

void check_refused_fields(void)
{
    CHECK_ALL(order_cases);
    CHECK_ALL(told_cases);
    CHECK_ALL(largest_cases);
    check_shapes();
    check_every_type();
}
