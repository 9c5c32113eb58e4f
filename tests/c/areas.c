/* A record that is not as long as its group says (28), and an invalidation bit outside the invalidation bytes (29): each at
 * its limits, in short records and long ones, and beside what refuses the value. */
#define _DEFAULT_SOURCE
#include "values.h"

#include <stdio.h>
#include <sys/mman.h>

static mf4_channel with_bit(mf4_channel channel, uint32_t flags, uint32_t position)
{
    channel.flags = flags;
    channel.pos_invalidation_bit = position;
    return channel;
}

/* Bytes that are given with their group. */
typedef struct given {
    const uint8_t *bytes;
    size_t length;
    mf4_group group;
} given;

/* The other reading has the value in any case. It asks neither the length nor where the invalidation bytes end. */
static void check_unbounded(given a, mf4_channel channel, expected value)
{
    const uint8_t is_valid = mf4_check_validity_unbounded(a.bytes, a.length, a.group, channel);
    const mf4_valid_value_reply both = mf4_decode_valid_value_unbounded(a.bytes, a.length, a.group, channel);
    CHECK(valid_value_is(both, value, value.reply == MF4_ANSWER && is_valid));
    a.group.invalidation_bytes ^= UINT32_MAX;
    CHECK(mf4_check_validity_unbounded(a.bytes, a.length, a.group, channel) == is_valid);
}

/* What refuses the value comes first; then the reply, which is that of the validity alone. Where it is an answer, both
 * readings have the same one. */
static void check_given(given a, mf4_channel channel, expected value, uint32_t reply, uint8_t is_valid)
{
    const mf4_validity_reply alone = mf4_check_validity(a.bytes, a.length, a.group, channel);
    const mf4_valid_value_reply both = mf4_decode_valid_value(a.bytes, a.length, a.group, channel);
    CHECK(validity_is(alone, reply, is_valid));
    if (value.reply != MF4_ANSWER)
        CHECK(valid_value_refused(both, value.reply, value.told));
    else if (reply != MF4_ANSWER)
        CHECK(valid_value_refused(both, reply, 0));
    else
        CHECK(valid_value_is(both, value, is_valid));
    if (reply == MF4_ANSWER)
        CHECK(mf4_check_validity_unbounded(a.bytes, a.length, a.group, channel) == is_valid);
    check_unbounded(a, channel, value);
}

/* As a payload of bytes, which is decoded whatever its length is, behind whatever id. */
static void check_payload(given a, uint32_t flags, uint32_t position, uint32_t reply, uint8_t is_valid)
{
    static const mf4_channel payload = PAYLOAD(MF4_TYPE_BYTE_ARRAY, 0, 8);
    const expected value = STANDS(MF4_KIND_BYTES, 0, a.length);
    check_given(a, with_bit(payload, flags, position), value, reply, is_valid);
}

/* As a record too, whose field is the byte behind the id. */
static void check_record(lent record, mf4_group group, uint32_t flags, uint32_t position, uint32_t reply, uint8_t is_valid)
{
    static const mf4_channel field = FIELD(MF4_TYPE_UNSIGNED_LE, 0, 0, 8);
    const given a = { record.bytes, record.length, group };
    expected value = OUTSIDE(group.record_id_size == MOST ? MOST : group.record_id_size + 1);
    if (group.record_id_size < record.length) {
        const expected byte = UNSIGNED_IS(record.bytes[group.record_id_size]);
        value = byte;
    }
    check_given(a, with_bit(field, flags, position), value, reply, is_valid);
    check_payload(a, flags, position, reply, is_valid);
    CHECK(is_unchanged(record));
}

/* ---- lengths ---------------------------------------------------------------------------------------------------- */

/* What the flags make of a record whose length is right and whose bit is outside. Only their two lowest bits count. */
static const struct { uint32_t flags, reply; uint8_t is_valid; } flag_cases[] = {
    { 0, 0, 1 }, { 1, 0, 0 }, { 2, 29, 0 }, { 3, 0, 0 }, { 4, 0, 1 }, { 5, 0, 0 }, { 6, 29, 0 }, { 7, 0, 0 },
    { UINT32_MAX - 3, 0, 1 }, { UINT32_MAX - 2, 0, 0 }, { UINT32_MAX - 1, 29, 0 }, { UINT32_MAX, 0, 0 },
    { 0x80000000, 0, 1 }, { 0x80000002, 29, 0 }, { 0x10000, 0, 1 }, { 0x10001, 0, 0 }, { 0x100, 0, 1 }, { 0x102, 29, 0 },
};

/* Another length is refused before all that, whatever the flags. */
static void check_flags(lent record, mf4_group group, int is_right)
{
    size_t i;
    for (i = 0; i < COUNT(flag_cases); i++)
        check_record(record, group, flag_cases[i].flags, UINT32_MAX, is_right ? flag_cases[i].reply : 28,
                     is_right ? flag_cases[i].is_valid : 0);
}

static const struct { mf4_group group; size_t sum; } sums[] = {
    { { 0, 0, 0 }, 0 }, { { 1, 0, 0 }, 1 }, { { 0, 1, 0 }, 1 }, { { 0, 0, 1 }, 1 }, { { 1, 1, 0 }, 2 }, { { 0, 1, 1 }, 2 },
    { { 1, 0, 1 }, 2 }, { { 1, 2, 3 }, 6 }, { { 3, 2, 1 }, 6 }, { { 2, 9, 0 }, 11 }, { { 8, 255, 1 }, 264 },
};

/* From none on to the sum, and two more. */
static void check_lengths(void)
{
    size_t i, length;
    for (i = 0; i < COUNT(sums); i++) {
        name_row("lengths around a sum", i);
        check_flags(no_bytes(), sums[i].group, sums[i].sum == 0);
        for (length = 1; length <= sums[i].sum + 2; length++)
            check_flags(lend_marked(INPUT, length), sums[i].group, length == sums[i].sum);
    }
}

/* Sums of 2^64 and more, of which the record's length is what would be left. */
static const struct { mf4_group group; size_t length; } wrapping_sums[] = {
    { { MOST, 1, 0 }, 0 }, { { MOST, 0, 1 }, 0 }, { { MOST - 1, 1, 1 }, 0 }, { { MOST - 3, 0, 4 }, 0 },
    { { MOST - 3, 4, 0 }, 0 }, { { MOST, 2, 0 }, 1 }, { { MOST, 1, 1 }, 1 }, { { MOST, 0, 2 }, 1 }, { { MOST, 2, 2 }, 3 },
    { { MOST - 1, 2, 3 }, 3 },
    { { MOST - UINT32_MAX + 1, UINT32_MAX, 0 }, 0 }, { { MOST - UINT32_MAX + 1, 0, UINT32_MAX }, 0 },
    { { MOST - UINT32_MAX, UINT32_MAX, 1 }, 0 }, { { MOST - UINT32_MAX, 1, UINT32_MAX }, 0 },
    { { MOST - UINT32_MAX, UINT32_MAX, 5 }, 4 }, { { MOST - UINT32_MAX, 5, UINT32_MAX }, 4 },
    { { MOST - 8589934589, UINT32_MAX, UINT32_MAX }, 0 }, { { MOST - 8589934586, UINT32_MAX, UINT32_MAX }, 3 },
    /* the same where fewer bits than 64 are kept */
    { { 0, UINT32_MAX, 1 }, 0 }, { { 0, UINT32_MAX, 5 }, 4 }, { { 0, 5, UINT32_MAX }, 4 }, { { 3, UINT32_MAX, 1 }, 3 },
    { { UINT64_C(4294967296), 0, 0 }, 0 }, { { UINT64_C(4294967297), 1, 1 }, 3 }, { { UINT64_C(1) << 63, 2, 1 }, 3 },
};

static void check_wrapping_sums(void)
{
    size_t i;
    for (i = 0; i < COUNT(wrapping_sums); i++) {
        const size_t length = wrapping_sums[i].length;
        name_row("sums that would wrap to a record's length", i);
        check_flags(length == 0 ? no_bytes() : lend_marked(INPUT, length), wrapping_sums[i].group, 0);
    }
}

/* ---- the bit ---------------------------------------------------------------------------------------------------- */

typedef struct bit_case {
    const char *record;
    mf4_group group;
    uint32_t flags, position, reply;
    uint8_t is_valid;
} bit_case;

static const bit_case bit_cases[] = {
    /* no invalidation bytes: no bit is inside */
    { "34 FF", { 0, 2, 0 }, 2, 0, 29, 0 }, { "34 FF", { 0, 2, 0 }, 2, 7, 29, 0 }, { "34 FF", { 1, 1, 0 }, 2, 8, 29, 0 },
    { "34 FF", { 2, 0, 0 }, 2, UINT32_MAX, 29, 0 }, { "", { 0, 0, 0 }, 2, 0, 29, 0 },
    { "", { 0, 0, 0 }, 2, UINT32_MAX, 29, 0 },
    /* one byte: its first and last bit, set alone and clear alone, and the next */
    { "34 12 01", { 0, 2, 1 }, 2, 0, 0, 0 }, { "FF FF FE", { 0, 2, 1 }, 2, 0, 0, 1 }, { "34 12 80", { 0, 2, 1 }, 2, 7, 0, 0 },
    { "FF FF 7F", { 1, 1, 1 }, 2, 7, 0, 1 }, { "34 12 00", { 2, 0, 1 }, 2, 8, 29, 0 },
    { "FF FF FF", { 0, 2, 1 }, 2, 9, 29, 0 }, { "34 12 00", { 0, 2, 1 }, 2, UINT32_MAX, 29, 0 },
    { "34 12 00", { 0, 2, 1 }, 2, 256, 29, 0 },
    /* two and three, behind an id and some data, and nothing else than them */
    { "34 12 00 80", { 0, 2, 2 }, 2, 15, 0, 0 }, { "FF FF FF 7F", { 1, 1, 2 }, 2, 15, 0, 1 },
    { "34 12 00 00", { 0, 2, 2 }, 2, 16, 29, 0 }, { "34 12 01 00", { 0, 2, 2 }, 2, 8, 0, 1 },
    { "34 12 00 01", { 0, 2, 2 }, 2, 8, 0, 0 }, { "34 12 00 00", { 0, 2, 2 }, 2, 24, 29, 0 },
    { "00 00 80", { 0, 0, 3 }, 2, 23, 0, 0 }, { "FF FF 7F", { 0, 0, 3 }, 2, 23, 0, 1 },
    { "00 00 80", { 0, 0, 3 }, 2, 24, 29, 0 }, { "00 00 80", { 1, 0, 2 }, 2, 15, 0, 0 },
    { "00 00 80", { 1, 0, 2 }, 2, 23, 29, 0 }, { "00 00 80", { 0, 1, 2 }, 2, 16, 29, 0 },
    /* flags beside the two */
    { "34 12 01", { 0, 2, 1 }, 6, 0, 0, 0 }, { "34 12 01", { 0, 2, 1 }, UINT32_MAX - 1, 1, 0, 1 },
    { "34 12 01", { 0, 2, 1 }, UINT32_MAX - 1, 8, 29, 0 },
    /* the bit is not asked where all are invalid, or where the channel has none */
    { "34 12 00", { 0, 2, 1 }, 3, 0, 0, 0 }, { "34 12 00", { 0, 2, 1 }, 1, 0, 0, 0 }, { "34 12 FF", { 0, 2, 1 }, 0, 0, 0, 1 },
    { "34 12 FF", { 0, 2, 1 }, 4, 8, 0, 1 }, { "34 12", { 0, 2, 0 }, 3, 0, 0, 0 },
    { "34 12", { 0, 2, 0 }, 0, UINT32_MAX, 0, 1 },
};

static void check_bits(void)
{
    size_t i;
    for (i = 0; i < COUNT(bit_cases); i++) {
        const bit_case a = bit_cases[i];
        name_row("bits inside and outside", i);
        check_record(hex_or_null(a.record), a.group, a.flags, a.position, a.reply, a.is_valid);
    }
}

/* Two records of two data bytes and one of invalidation bits, which are clear in the first. Its channel's bit leads into the
 * data of the second, or to its invalidation bits, which are set. */
static void check_next_record(void)
{
    static const uint32_t positions[] = { 8, 15, 24, 31 };
    const mf4_group group = group_of(0, 2, 1);
    lent both = hex("34 12 00 FF FF FF");
    size_t i;
    for (i = 0; i < COUNT(positions); i++) {
        const mf4_channel field = FIELD(MF4_TYPE_UNSIGNED_LE, 0, 0, 8), channel = with_bit(field, 2, positions[i]);
        name_row("a slice that has the next record too", i);
        CHECK(mf4_check_validity_unbounded(both.bytes, 6, group, channel) == 0);
        CHECK(mf4_check_validity_unbounded(both.bytes, 3, group, channel) == 1);
        CHECK(validity_is(mf4_check_validity(both.bytes, 6, group, channel), 28, 0));
        CHECK(validity_is(mf4_check_validity(both.bytes, 3, group, channel), 29, 0));
        CHECK(valid_value_refused(mf4_decode_valid_value(both.bytes, 6, group, channel), 28, 0));
        CHECK(valid_value_refused(mf4_decode_valid_value(both.bytes, 3, group, channel), 29, 0));
    }
}

/* ---- beside a refused value ------------------------------------------------------------------------------------- */

static const struct { mf4_channel channel; expected value; } refused_values[] = {
    { FIELD(MF4_TYPE_UNSIGNED_LE, 0, 0, 0), REFUSED_WITH(18) }, { FIELD(MF4_TYPE_SIGNED_BE, 8, 0, 8), REFUSED_WITH(19) },
    { FIELD(MF4_TYPE_UNSIGNED_BE, 0, 0, 65), REFUSED_WITH(20) }, { FIELD(MF4_TYPE_UNSIGNED_LE, 0, 3, 16), OUTSIDE(6) },
    { FIELD(MF4_TYPE_LATIN1, 0, 4, 8), OUTSIDE(6) }, { FIELD(MF4_TYPE_COMPLEX_LE, 0, UINT32_MAX, 0), OUTSIDE(4294967297) },
    { FIELD(MF4_TYPE_FLOAT_LE, 0, 0, 16), REFUSED_WITH(22) }, { PAYLOAD(MF4_TYPE_SIGNED_LE, 0, 0), REFUSED_WITH(18) },
    { PAYLOAD(MF4_TYPE_FLOAT_BE, 8, 32), REFUSED_WITH(19) }, { PAYLOAD(MF4_TYPE_UNSIGNED_LE, 0, 65), REFUSED_WITH(20) },
    { PAYLOAD(MF4_TYPE_UNSIGNED_LE, 1, 32), OUTSIDE(5) }, { PAYLOAD(MF4_TYPE_FLOAT_LE, 0, 31), REFUSED_WITH(22) },
};

/* A record of four bytes, the first of which is its id: of its group, with the bit inside and outside; and of a group whose
 * records are longer. */
static void check_refused_values(void)
{
    lent record = hex("01 34 12 02");
    const given whole = { record.bytes, record.length, group_of(1, 2, 1) };
    const given other = { record.bytes, record.length, group_of(1, 2, 2) };
    size_t i;
    for (i = 0; i < COUNT(refused_values); i++) {
        const mf4_channel channel = refused_values[i].channel;
        const expected value = refused_values[i].value;
        name_row("values that are refused before", i);
        check_given(whole, with_bit(channel, 2, 7), value, MF4_ANSWER, 1);
        check_given(whole, with_bit(channel, 2, 8), value, 29, 0);
        check_given(other, with_bit(channel, 2, 7), value, 28, 0);
        check_given(other, with_bit(channel, 0, 16), value, 28, 0);
    }
}

/* A payload is asked for the length of a record, and its own last byte for the bit. */
static void check_payloads_as_records(void)
{
    static const expected number = UNSIGNED_IS(0x5058), text = TEXT_STANDS(0, 3), longer_text = TEXT_STANDS(0, 5);
    const mf4_channel integer = PAYLOAD(MF4_TYPE_UNSIGNED_BE, 0, 16), name = PAYLOAD(MF4_TYPE_UTF8, 0, 64);
    const mf4_group group = group_of(1, 2, 1);
    lent payload = hex("50 58 31 80 39");
    const given shorter = { payload.bytes, 3, group }, equal = { payload.bytes, 4, group };
    const given longer = { payload.bytes, 5, group };
    name_case("payloads as records");
    check_given(equal, with_bit(integer, 2, 7), number, MF4_ANSWER, 0);
    check_given(equal, with_bit(integer, 2, 6), number, MF4_ANSWER, 1);
    check_given(equal, with_bit(integer, 2, 8), number, 29, 0);
    check_given(shorter, with_bit(integer, 2, 7), number, 28, 0);
    check_given(longer, with_bit(integer, 1, 0), number, 28, 0);
    check_given(shorter, with_bit(name, 0, 0), text, 28, 0);
    check_given(longer, with_bit(name, 2, 7), longer_text, 28, 0);
}

/* ---- long records ----------------------------------------------------------------------------------------------- */

/* Address space of which hardly a byte is touched: for two times 2^32-1 bytes, and two more. */
#define LONGEST ((size_t)8589934592)

typedef struct long_case {
    mf4_group group;
    size_t length;
    uint32_t position, reply;
    uint8_t is_valid;
} long_case;

/* All bits are clear but the last one of this byte, which is bit 2^32-1 behind one byte, and bit 2^32-9 behind two. */
enum { SET_AT = 536870912 };

static const long_case long_cases[] = {
    /* eight times the bytes is a little below 2^32, is just that, and passes it */
    { { 0, 2, 536870911 }, 536870913, UINT32_MAX - 8, 0, 0 }, { { 2, 0, 536870911 }, 536870913, UINT32_MAX - 9, 0, 1 },
    { { 0, 2, 536870911 }, 536870913, UINT32_MAX - 7, 29, 0 }, { { 0, 2, 536870911 }, 536870913, UINT32_MAX, 29, 0 },
    { { 0, 1, 536870912 }, 536870913, UINT32_MAX, 0, 0 }, { { 1, 0, 536870912 }, 536870913, UINT32_MAX - 1, 0, 1 },
    { { 0, 1, 536870912 }, 536870913, 0, 0, 1 }, { { 0, 1, 536870913 }, 536870914, 0, 0, 1 },
    { { 0, 1, 536870913 }, 536870914, UINT32_MAX, 0, 0 }, { { 0, 0, 536870913 }, 536870913, UINT32_MAX, 0, 1 },
    { { 1, 0, UINT32_MAX }, 4294967296, UINT32_MAX, 0, 0 }, { { 0, 0, UINT32_MAX }, UINT32_MAX, UINT32_MAX, 0, 1 },
    { { 1, 0, UINT32_MAX }, 4294967296, 0, 0, 1 }, { { 0, 1, UINT32_MAX }, 4294967296, UINT32_MAX - 7, 0, 1 },
    /* one under, equal, one over, and what would be equal in 32 bits */
    { { 0, 0, UINT32_MAX }, UINT32_MAX - 1, 0, 28, 0 }, { { 0, 0, UINT32_MAX }, 4294967296, 0, 28, 0 },
    { { 0, UINT32_MAX, 0 }, UINT32_MAX, 0, 29, 0 }, { { 0, UINT32_MAX, 0 }, 4294967296, 0, 28, 0 },
    { { 0, UINT32_MAX, 1 }, 4294967296, 7, 0, 1 }, { { 0, UINT32_MAX, 1 }, 4294967296, 8, 29, 0 },
    { { 2, UINT32_MAX, UINT32_MAX }, 8589934592, UINT32_MAX, 0, 1 }, { { 1, UINT32_MAX, UINT32_MAX }, 8589934592, 0, 28, 0 },
    { { 0, UINT32_MAX, UINT32_MAX }, 8589934590, 0, 0, 1 }, { { 0, UINT32_MAX, UINT32_MAX }, 8589934589, 0, 28, 0 },
    { { 0, UINT32_MAX, UINT32_MAX }, 8589934591, 0, 28, 0 }, { { 0, UINT32_MAX, UINT32_MAX }, 4294967294, 0, 28, 0 },
    /* a sum of 2^64 and more that would wrap to the length */
    { { MOST, UINT32_MAX, UINT32_MAX }, 8589934589, 0, 28, 0 }, { { MOST, UINT32_MAX, 2 }, 4294967296, 0, 28, 0 },
};

static uint8_t *reserve(void)
{
    uint8_t *bytes = mmap(NULL, LONGEST, PROT_READ | PROT_WRITE, MAP_PRIVATE | MAP_ANONYMOUS | MAP_NORESERVE, -1, 0);
    return bytes == MAP_FAILED ? NULL : bytes;
}

static void check_long_records(void)
{
    uint8_t *bytes = reserve();
    size_t i;
    if (bytes == NULL) {
        puts("limits: note: 2^33 bytes of address space cannot be had here, long records are not checked");
        return;
    }
    bytes[SET_AT] = 0x80;
    for (i = 0; i < COUNT(long_cases); i++) {
        const long_case a = long_cases[i];
        const given record = { bytes, a.length, a.group };
        name_row("long records", i);
        check_payload(record, 2, a.position, a.reply, a.is_valid);
    }
    munmap(bytes, LONGEST);
}

/* The longest length of all. No byte is looked at: the lengths decide, and the bit is not asked, or is outside. */
static const struct { mf4_group group; size_t length; uint32_t flags, reply; uint8_t is_valid; } longest_cases[] = {
    { { MOST, 0, 0 }, SIZE_MAX, 0, 0, 1 }, { { MOST, 0, 0 }, SIZE_MAX, 2, 29, 0 }, { { MOST, 0, 0 }, SIZE_MAX - 1, 0, 28, 0 },
    { { MOST - 1, 1, 0 }, SIZE_MAX, 0, 0, 1 }, { { MOST - 1, 0, 1 }, SIZE_MAX, 1, 0, 0 },
    { { MOST - 1, 1, 1 }, SIZE_MAX, 0, 28, 0 }, { { MOST - 1, 0, 1 }, SIZE_MAX, 2, 29, 0 },
    { { MOST, 1, 0 }, SIZE_MAX, 0, 28, 0 }, { { MOST, 0, 1 }, SIZE_MAX, 2, 28, 0 },
    { { MOST - 8589934590, UINT32_MAX, UINT32_MAX }, SIZE_MAX, 0, 0, 1 },
    { { MOST - 8589934589, UINT32_MAX, UINT32_MAX }, SIZE_MAX, 0, 28, 0 },
    { { MOST - 8589934591, UINT32_MAX, UINT32_MAX }, SIZE_MAX, 0, 28, 0 },
    { { MOST - 8589934591, UINT32_MAX, UINT32_MAX }, SIZE_MAX - 1, 3, 0, 0 },
};

static void check_longest_records(void)
{
    lent one = lend_marked(INPUT, 1);
    size_t i;
    for (i = 0; i < COUNT(longest_cases); i++) {
        const given record = { one.bytes, longest_cases[i].length, longest_cases[i].group };
        name_row("the longest records", i);
        check_payload(record, longest_cases[i].flags, UINT32_MAX, longest_cases[i].reply, longest_cases[i].is_valid);
    }
}

void check_areas(void)
{
    check_lengths();
    check_wrapping_sums();
    check_bits();
    check_next_record();
    check_refused_values();
    check_payloads_as_records();
    check_long_records();
    check_longest_records();
}
