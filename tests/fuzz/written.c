/* Numbers written into records, and fields that share a bit. */
#include "fuzz.h"

#include <string.h>

enum { MOST_ENTRIES = MF4_MAX_CHANNELS + 2, MOST_SPAN = 9 };

static int is_payload(mf4_channel channel)
{
    return channel.channel_type == MF4_CHANNEL_VARIABLE_LENGTH && channel.data_addr != 0;
}

static int is_number(mf4_channel channel) { return channel.data_type <= MF4_TYPE_FLOAT_BE; }
static int is_float(mf4_channel channel) { return is_number(channel) && channel.data_type >= MF4_TYPE_FLOAT_LE; }
static int is_big_endian(mf4_channel channel) { return channel.data_type % 2 == 1; }

/* ---- the bits of a field ---------------------------------------------------------------------------------------- */

static uint64_t span_of(mf4_channel channel) { return ((uint64_t)channel.bit_offset + channel.bit_count + 7) / 8; }

/* The byte, counted from byte_offset on, that holds bit k of the number that all bytes of the field make up. */
static uint64_t byte_of_bit(mf4_channel channel, uint64_t k)
{
    return is_big_endian(channel) ? span_of(channel) - 1 - k / 8 : k / 8;
}

/* Which bits of the span's bytes are the field's. */
static void mark_bits(mf4_channel channel, uint8_t marks[MOST_SPAN])
{
    uint64_t k;
    memset(marks, 0, MOST_SPAN);
    for (k = channel.bit_offset; k < (uint64_t)channel.bit_offset + channel.bit_count; k++)
        marks[byte_of_bit(channel, k)] |= (uint8_t)(1u << k % 8);
}

/* ---- a number written ------------------------------------------------------------------------------------------- */

/* Whether the double is that of some float of 32 bits; C may not be asked to narrow one that is too large. */
static int narrowed_fits(uint64_t bits)
{
    double value = mf4_bits_as_double(bits);
    float single;
    if (value != value)
        return bits == NAN_BITS;
    if ((bits & INT64_MAX) > UINT64_C(0x47EFFFFFE0000000) && (bits & INT64_MAX) != UINT64_C(0x7FF0000000000000))
        return 0;
    single = (float)value;
    value = (double)single;
    return memcmp(&value, &bits, sizeof bits) == 0;
}

static int fits(mf4_channel channel, mf4_number number)
{
    const int64_t value = mf4_bits_as_signed(number.number);
    int64_t half;
    if (is_float(channel))
        return channel.bit_count == 64 || narrowed_fits(number.number);
    if (channel.bit_count == 64)
        return 1;
    if (number.kind == MF4_KIND_UNSIGNED)
        return number.number < (uint64_t)1 << channel.bit_count;
    half = (int64_t)1 << (channel.bit_count - 1);
    return value >= -half && value < half;
}

static uint32_t reply_due(mf4_channel channel, mf4_number number)
{
    if (!is_number(channel) || is_payload(channel) || number.kind != MF4_KIND_UNSIGNED + channel.data_type / 2u)
        return MF4_OTHER_KIND;
    return fits(channel, number) ? MF4_ANSWER : MF4_DOES_NOT_FIT;
}

/* In front of the field, behind it, and beside it in its own bytes. */
static void check_kept(lent record, reading how)
{
    const size_t at = (size_t)how.group.record_id_size + how.channel.byte_offset, span = (size_t)span_of(how.channel);
    uint8_t marks[MOST_SPAN];
    size_t i;
    mark_bits(how.channel, marks);
    for (i = 0; i < span; i++)
        MUST(((record.bytes[at + i] ^ record.before[at + i]) & ~marks[i] & 0xFF) == 0);
    MUST(same_bytes(record.bytes, record.before, at) && is_unchanged_from(record, at + span));
}

static void check_stored(lent record, reading how, mf4_number number)
{
    const mf4_value_reply read = mf4_decode_value(record.bytes, record.length, how.group.record_id_size, how.channel);
    MUST(read.reply == MF4_ANSWER && read.kind == number.kind && read.number == number.number);
    check_kept(record, how);
    note(WRITE_VALUE, 32 + how.channel.data_type * 2u + (span_of(how.channel) == MOST_SPAN));
}

/* Whether the field was one of the NaNs of 32 bits that are read as another, 0x7FC00000. */
static int was_another_nan(lent record, reading how)
{
    const uint8_t *span = record.before + how.group.record_id_size + how.channel.byte_offset;
    uint64_t field = 0, k;
    if (!is_float(how.channel) || how.channel.bit_count != 32)
        return 0;
    for (k = how.channel.bit_offset; k < how.channel.bit_offset + 32u; k++)
        field |= (uint64_t)(span[byte_of_bit(how.channel, k)] >> k % 8 & 1) << (k - how.channel.bit_offset);
    return (field & 0x7FFFFFFF) > 0x7F800000 && field != 0x7FC00000;
}

/* What is decoded, written over itself, changes no byte, but for those of such a NaN. */
static void exercise_same_number(lent input, reading how)
{
    lent record = lend_copy(OUTPUT, input.bytes, input.length);
    const mf4_value_reply old = mf4_decode_value(record.bytes, record.length, how.group.record_id_size, how.channel);
    mf4_number same;
    mf4_done_reply stored;
    if (is_payload(how.channel) || old.kind < MF4_KIND_UNSIGNED || old.kind > MF4_KIND_DOUBLE)
        return;
    same.kind = old.kind;
    same.number = old.number;
    stored = mf4_write_value(how.group.record_id_size, how.channel, same, record.bytes, record.length);
    MUST(stored.reply == MF4_ANSWER && stored.told == 0);
    check_stored(record, how, same);
    MUST(is_unchanged(record) != was_another_nan(record, how));
}

static void exercise_number(lent input, reading how, mf4_number number)
{
    lent record = lend_copy(OUTPUT, input.bytes, input.length);
    const mf4_value_reply old = mf4_decode_value(record.bytes, record.length, how.group.record_id_size, how.channel);
    const mf4_done_reply stored = mf4_write_value(how.group.record_id_size, how.channel, number, record.bytes, record.length);
    check_reply(WRITE_VALUE, stored.reply, stored.told,
                REPLY(0) | FIELD_REFUSALS | REPLY(MF4_DOES_NOT_FIT) | REPLY(MF4_OTHER_KIND));
    MUST(stored.reply == (old.reply != MF4_ANSWER ? old.reply : reply_due(how.channel, number)) && stored.told == old.told);
    if (stored.reply != MF4_ANSWER) {
        MUST(is_unchanged(record));
        return;
    }
    check_stored(record, how, number);
    exercise_same_number(record, how);
}

/* Any bits; of a width, or near its limits. */
static uint64_t choose_integer(uint32_t bit_count)
{
    const uint64_t limit = bit_count < 64 ? (uint64_t)1 << bit_count : 0;
    switch (choose_byte() % 5) {
    case 0: return choose_raw(8);
    case 1: return choose_raw(8) & (limit - 1);
    case 2: return limit - 1 + choose_byte() % 3u;
    case 3: return (uint64_t)0 - limit / 2 - 1 + choose_byte() % 3u;
    default: return limit / 2 - 1 + choose_byte() % 3u;
    }
}

/* Doubles at the ends of what a float of 32 bits holds, and the NaNs; or some float's, and those beside it. */
static uint64_t choose_double(void)
{
    static const uint64_t hard[] = {
        0, UINT64_C(0x3690000000000000), UINT64_C(0x36A0000000000000), UINT64_C(0x36A8000000000000),
        UINT64_C(0x380FFFFFC0000000), UINT64_C(0x3810000000000000), UINT64_C(0x3FF0000010000000),
        UINT64_C(0x3FF0000020000000), UINT64_C(0x3FF0000030000000), UINT64_C(0x47EFFFFFE0000000),
        UINT64_C(0x47EFFFFFF0000000), UINT64_C(0x47F0000000000000), UINT64_C(0x7FF0000000000000), NAN_BITS,
        UINT64_C(0x7FF0000020000000), UINT64_C(0x7FF8000000000001)
    };
    const uint8_t how = choose_byte();
    const uint64_t sign = (uint64_t)(how & 1) << 63;
    uint32_t pattern;
    float single;
    if (how >= 0x80)
        return sign | hard[how / 2 % (sizeof hard / sizeof *hard)];
    pattern = (uint32_t)choose_raw(4);
    memcpy(&single, &pattern, sizeof single);
    return (mf4_double(single).number ^ sign) + (uint64_t)(how / 2 % 4 == 3) - (uint64_t)(how / 2 % 4 == 2);
}

/* What the field holds; and then the same bits as a number of each kind, and of one that is none. */
static void exercise_kinds(lent input, reading how, uint64_t bits)
{
    mf4_number number;
    exercise_same_number(input, how);
    number.number = bits;
    for (number.kind = MF4_KIND_NOTHING; number.kind <= MF4_KIND_TEXT; number.kind++)
        exercise_number(input, how, number);
    number.kind = (uint32_t)choose_raw(4);
    exercise_number(input, how, number);
}

void exercise_written(lent record, reading how)
{
    exercise_kinds(record, how, is_float(how.channel) ? choose_double() : choose_integer(how.channel.bit_count));
    how.channel.data_type = choose_byte() % 2 == 0 ? MF4_TYPE_FLOAT_LE : MF4_TYPE_FLOAT_BE;
    how.channel.bit_count = 32;
    exercise_kinds(record, how, choose_double());
}

/* ---- fields that overlap ---------------------------------------------------------------------------------------- */

static int is_fixed_number(mf4_channel channel)
{
    if (!is_number(channel) || is_payload(channel) || channel.bit_count == 0 || channel.bit_offset > 7)
        return 0;
    return is_float(channel) ? channel.bit_count == 32 || channel.bit_count == 64 : channel.bit_count <= 64;
}

static int share_a_bit(mf4_channel a, mf4_channel b)
{
    uint8_t of_a[MOST_SPAN], of_b[MOST_SPAN];
    uint64_t i, j;
    mark_bits(a, of_a);
    mark_bits(b, of_b);
    for (i = 0; i < MOST_SPAN; i++)
        for (j = 0; j < MOST_SPAN; j++)
            if (a.byte_offset + i == b.byte_offset + j && (of_a[i] & of_b[j]) != 0)
                return 1;
    return 0;
}

/* Of all pairs the last one seen, from the back of the list to its front. */
static mf4_overlap_reply overlap_due(const mf4_channel *list, size_t count)
{
    mf4_overlap_reply due = { 0, 0, 0, 0, 0 };
    size_t i, j;
    if (count > MF4_MAX_CHANNELS) {
        due.reply = MF4_TOO_MANY_CHANNELS;
        return due;
    }
    for (i = 0; i < count; i++)
        if (!is_fixed_number(list[i])) {
            due.reply = MF4_NO_FIXED_NUMBER;
            due.told = i;
            return due;
        }
    for (i = count; i-- > 0;)
        for (j = count; j-- > i + 1;)
            if (share_a_bit(list[i], list[j])) {
                due.found = 1;
                due.first = i;
                due.second = j;
            }
    return due;
}

static int same_overlap(mf4_overlap_reply a, mf4_overlap_reply b)
{
    return a.reply == b.reply && a.told == b.told && a.found == b.found && a.first == b.first && a.second == b.second;
}

/* A field of a few bits, or at times of many. */
static mf4_channel choose_entry(uint32_t byte_offset)
{
    static const mf4_channel none = { 0 };
    const uint8_t shape = choose_byte();
    mf4_channel entry = none;
    entry.data_type = choose_byte() % 4;
    entry.bit_offset = shape % 8;
    entry.bit_count = shape < 0xE0 ? 1 + shape / 8u % 9 : 1 + choose_byte() % 64u;
    entry.byte_offset = byte_offset;
    return entry;
}

/* Entries one behind the other, or near one another, at times behind the last byte offsets, and at times one that is
 * described as the reading has it. */
static size_t choose_list(mf4_channel *list, reading how)
{
    const size_t count = choose_byte() % 4 == 3 ? MF4_MAX_CHANNELS - 1 + choose_byte() % 3u : choose_byte() % 12u;
    const uint32_t step = choose_byte() % 4, from = choose_byte() % 4 == 3 ? UINT32_MAX - 9 : 0;
    size_t i;
    for (i = 0; i < count; i++)
        list[i] = choose_entry((uint32_t)(from + (step == 3 ? choose_byte() % 10u : step * i)));
    if (count > 0 && choose_byte() % 2 == 0)
        list[choose_byte() % count] = how.channel;
    return count;
}

void exercise_overlap(reading how)
{
    static mf4_channel list[MOST_ENTRIES];
    const size_t count = choose_list(list, how);
    lent lent_list = lend_copy(INPUT, list, count * sizeof *list);
    const mf4_channel *entries = (const mf4_channel *)(const void *)lent_list.bytes;
    const mf4_overlap_reply found = mf4_first_overlap(count > 0 || choose_byte() % 2 == 0 ? entries : NULL, count);
    check_reply(FIRST_OVERLAP, found.reply, found.told,
                REPLY(0) | REPLY(MF4_TOO_MANY_CHANNELS) | REPLY(MF4_NO_FIXED_NUMBER));
    note(FIRST_OVERLAP, 40u + found.found + 2u * (found.second - found.first < 8 ? (unsigned)(found.second - found.first) : 8));
    MUST(same_overlap(found, overlap_due(list, count)));
    MUST(is_unchanged(lent_list));
}
