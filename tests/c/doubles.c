/* A channel's value as a double's 64-bit pattern, and by mf4.h's own functions as a double. */
#include "values.h"

#include <string.h>

typedef struct double_case {
    const char *record;
    mf4_channel channel;
    uint64_t bits;
} double_case;

static const double_case double_cases[] = {
    { "00", FIELD(MF4_TYPE_UNSIGNED_LE, 0, 0, 8), 0 },
    { "01", FIELD(MF4_TYPE_UNSIGNED_LE, 0, 0, 8), UINT64_C(0x3FF0000000000000) },
    { "01", FIELD(MF4_TYPE_SIGNED_LE, 0, 0, 1), UINT64_C(0xBFF0000000000000) },
    { "00 00 00 00 00 00 20 00", FIELD(MF4_TYPE_UNSIGNED_LE, 0, 0, 64), UINT64_C(0x4340000000000000) },
    { "01 00 00 00 00 00 20 00", FIELD(MF4_TYPE_UNSIGNED_LE, 0, 0, 64), UINT64_C(0x4340000000000000) },
    { "03 00 00 00 00 00 20 00", FIELD(MF4_TYPE_UNSIGNED_LE, 0, 0, 64), UINT64_C(0x4340000000000002) },
    { "FF FF FF FF FF FF DF FF", FIELD(MF4_TYPE_SIGNED_LE, 0, 0, 64), UINT64_C(0xC340000000000000) },
    { "FD FF FF FF FF FF DF FF", FIELD(MF4_TYPE_SIGNED_LE, 0, 0, 64), UINT64_C(0xC340000000000002) },
    { "FF FF FF FF FF FF FF FF", FIELD(MF4_TYPE_UNSIGNED_LE, 0, 0, 64), UINT64_C(0x43F0000000000000) },
    { "FF FB FF FF FF FF FF FF", FIELD(MF4_TYPE_UNSIGNED_LE, 0, 0, 64), UINT64_C(0x43EFFFFFFFFFFFFF) },
    { "00 FC FF FF FF FF FF FF", FIELD(MF4_TYPE_UNSIGNED_LE, 0, 0, 64), UINT64_C(0x43F0000000000000) },
    { "00 00 00 00 00 00 00 80", FIELD(MF4_TYPE_SIGNED_LE, 0, 0, 64), UINT64_C(0xC3E0000000000000) },
    { "00 00 00 00 00 00 00 00 0F", FIELD(MF4_TYPE_SIGNED_LE, 4, 0, 64), UINT64_C(0xC3B0000000000000) },
    { "00 00 80 3F", FIELD(MF4_TYPE_FLOAT_LE, 0, 0, 32), UINT64_C(0x3FF0000000000000) },
    { "01 00 80 FF", FIELD(MF4_TYPE_FLOAT_LE, 0, 0, 32), NAN_BITS },
    { "01 00 00 00 00 00 F0 FF", FIELD(MF4_TYPE_FLOAT_LE, 0, 0, 64), UINT64_C(0xFFF0000000000001) },
    { "00 00 80 3F", FIELD(MF4_TYPE_FLOAT_LE, 0, 0, 16), NAN_BITS },
    { "00 20 00 00 00 00 00 01", FIELD(MF4_TYPE_UNSIGNED_BE, 0, 0, 64), UINT64_C(0x4340000000000000) },
    { "00 20 00 00 00 00 00 03", FIELD(MF4_TYPE_UNSIGNED_BE, 0, 0, 64), UINT64_C(0x4340000000000002) },
    { "FF FF FF FF FF FF FB FF", FIELD(MF4_TYPE_UNSIGNED_BE, 0, 0, 64), UINT64_C(0x43EFFFFFFFFFFFFF) },
    { "FF FF FF FF FF FF FC 00", FIELD(MF4_TYPE_UNSIGNED_BE, 0, 0, 64), UINT64_C(0x43F0000000000000) },
    { "12 34", FIELD(MF4_TYPE_UNSIGNED_BE, 0, 0, 16), UINT64_C(0x40B2340000000000) },
    { "12 34", FIELD(MF4_TYPE_UNSIGNED_BE, 4, 0, 8), UINT64_C(0x4041800000000000) },
    { "FF FE", FIELD(MF4_TYPE_SIGNED_BE, 0, 0, 16), UINT64_C(0xC000000000000000) },
    { "FF DF FF FF FF FF FF FF", FIELD(MF4_TYPE_SIGNED_BE, 0, 0, 64), UINT64_C(0xC340000000000000) },
    { "FF DF FF FF FF FF FF FD", FIELD(MF4_TYPE_SIGNED_BE, 0, 0, 64), UINT64_C(0xC340000000000002) },
    { "80 00 00 00 00 00 00 00", FIELD(MF4_TYPE_SIGNED_BE, 0, 0, 64), UINT64_C(0xC3E0000000000000) },
    { "0F 00 00 00 00 00 00 00 00", FIELD(MF4_TYPE_SIGNED_BE, 4, 0, 64), UINT64_C(0xC3B0000000000000) },
    { "00 00 00 00 00 00 00 00", FIELD(MF4_TYPE_SIGNED_BE, 4, 0, 64), NAN_BITS },
    { "3F 80 00 00", FIELD(MF4_TYPE_FLOAT_BE, 0, 0, 32), UINT64_C(0x3FF0000000000000) },
    { "00 00 00 01", FIELD(MF4_TYPE_FLOAT_BE, 0, 0, 32), UINT64_C(0x36A0000000000000) },
    { "03 F8 00 00 00", FIELD(MF4_TYPE_FLOAT_BE, 4, 0, 32), UINT64_C(0x3FF0000000000000) },
    { "FF 80 00 01", FIELD(MF4_TYPE_FLOAT_BE, 0, 0, 32), NAN_BITS },
    { "FF F0 00 00 00 00 00 01", FIELD(MF4_TYPE_FLOAT_BE, 0, 0, 64), UINT64_C(0xFFF0000000000001) },
    { "3F 80 00 00", FIELD(MF4_TYPE_FLOAT_BE, 0, 0, 16), NAN_BITS },
    { "00 00 80 3F", PAYLOAD(MF4_TYPE_FLOAT_LE, 0, 32), NAN_BITS },
    { "01", PAYLOAD(MF4_TYPE_UNSIGNED_LE, 0, 8), NAN_BITS },
    { "01", FIELD(MF4_TYPE_UNSIGNED_LE, 0, 1, 8), NAN_BITS },
    { "00 00 00 00 00 00 00 00 00", FIELD(MF4_TYPE_UNSIGNED_LE, 0, 0, 65), NAN_BITS },
    { "41", FIELD(MF4_TYPE_LATIN1, 0, 0, 8), NAN_BITS },
    { "41", FIELD(MF4_TYPE_BYTE_ARRAY, 0, 0, 8), NAN_BITS },
    { "41", FIELD(MF4_TYPE_COMPLEX_LE, 0, 0, 8), NAN_BITS },
};

static int has_bits(double value, uint64_t bits) { return memcmp(&value, &bits, sizeof bits) == 0; }

static void check_double_case(double_case a)
{
    lent record = hex(a.record);
    const mf4_group group = group_filling(record.length, 0, 0);
    CHECK(mf4_decode_double_bits(record.bytes, record.length, 0, a.channel) == a.bits);
    CHECK(has_bits(mf4_decode_double(record.bytes, record.length, 0, a.channel), a.bits));
    CHECK(has_bits(mf4_decode_valid_double(record.bytes, record.length, group, a.channel), a.bits));
    a.channel.flags = MF4_CHANNEL_ALL_INVALID;
    CHECK(has_bits(mf4_decode_double(record.bytes, record.length, 0, a.channel), a.bits));
    CHECK(has_bits(mf4_decode_valid_double(record.bytes, record.length, group, a.channel), NAN_BITS));
}

/* An id of one byte, 10 in the one data byte, and bit 1 of the last byte set: 10.0 where the channel's bit is another one of
 * that byte. */
static void check_valid_doubles(void)
{
    const mf4_group group = group_of(1, 1, 1);
    mf4_channel channel = FIELD(MF4_TYPE_UNSIGNED_LE, 0, 0, 8);
    lent record = hex("FF 0A 02");
    uint32_t bit;
    for (bit = 0; bit <= 8; bit++) {
        name_number("a double with the invalidation bit", bit);
        channel.flags = MF4_CHANNEL_INVALIDATION_BIT, channel.pos_invalidation_bit = bit;
        CHECK(mf4_decode_double(record.bytes, record.length, 1, channel) == 10.0);
        CHECK(has_bits(mf4_decode_valid_double(record.bytes, record.length, group, channel),
                       bit == 1 || bit == 8 ? NAN_BITS : mf4_double(10.0).number));
    }
}

/* A record of one byte, 10, or of none, and a channel without a bit: 10.0 where the length is the group's. */
static void check_doubles_in_group(void)
{
    static const struct { mf4_group group; size_t length; uint64_t bits; } rows[] = {
        { { 0, 1, 0 }, 1, UINT64_C(0x4024000000000000) }, { { 0, 0, 1 }, 1, UINT64_C(0x4024000000000000) },
        { { 0, 0, 0 }, 1, NAN_BITS }, { { 0, 2, 0 }, 1, NAN_BITS }, { { 0, 1, 1 }, 1, NAN_BITS },
        { { 0, 0, 0 }, 0, NAN_BITS }, { { 0, 1, 0 }, 0, NAN_BITS },
    };
    const mf4_channel channel = FIELD(MF4_TYPE_UNSIGNED_LE, 0, 0, 8);
    size_t i;
    for (i = 0; i < COUNT(rows); i++) {
        lent record = rows[i].length == 0 ? no_bytes() : hex("0A");
        name_row("a double in a group", i);
        CHECK(has_bits(mf4_decode_valid_double(record.bytes, record.length, rows[i].group, channel), rows[i].bits));
    }
}

void check_doubles(void)
{
    size_t i;
    for (i = 0; i < COUNT(double_cases); i++) {
        name_row("double", i);
        check_double_case(double_cases[i]);
    }
    name_case("doubles");
    CHECK(mf4_decode_double_bits(NULL, 0, 0, double_cases[0].channel) == NAN_BITS);
    CHECK(mf4_decode_double_bits(NULL, 0, MOST, double_cases[0].channel) == NAN_BITS);
    check_valid_doubles();
    check_doubles_in_group();
}
