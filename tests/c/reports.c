/* One channel over all records of a chain: lines worked out by hand, at every cut; the buffer; and what is refused, in order. */
#include "files.h"
#include "same_line.h"
#include "values.h"

/* ---- lines ------------------------------------------------------------------------------------------------------ */

static int is_refused(mf4_report_reply a, uint32_t reply, uint64_t told) { return same_line(a, refused_line(reply, told)); }

/* Of the file that stands built, which does not change. */
static mf4_report_reply report(uint64_t start, uint64_t size, mf4_group group, mf4_channel channel, lent buffer)
{
    lent file = lend_file();
    mf4_report_reply line = mf4_report(file.bytes, file.length, start, size, group, channel, buffer.bytes, buffer.length);
    CHECK(is_unchanged(file));
    return line;
}

/* One list with offsets, of blocks of so many bytes each; a block without data stands in the middle. */
static void cut_into(const uint8_t *data, size_t length, size_t size)
{
    const size_t pieces = (length + size - 1) / size, count = pieces + 1, offsets = START + 40 + 8 * count;
    size_t end = offsets + 8 * count, taken = 0, i;
    start_file(0);
    put_block(START, "##DL", end - START, 1 + count);
    put(offsets - 4, count, 4);
    for (i = 0; i < count; i++) {
        const size_t left = length - taken, piece = i == pieces / 2 ? 0 : left < size ? left : size;
        put(START + 32 + 8 * i, end, 8), put(offsets + 8 * i, taken, 8);
        end = put_data_of(end, "##DT", data + taken, piece);
        taken += piece;
    }
    cut_file(end);
}

/* Joined data: records of the group's, and perhaps a part of one behind them. */
typedef struct report_case {
    const char *data;
    mf4_group group;
    mf4_channel channel;
    mf4_report_reply line;
} report_case;

/* The buffer is just large enough, or larger: the last record is then in front, if there is one, and the rest as before. */
static void check_line(const report_case *a, const uint8_t *data, size_t room)
{
    const size_t size = (size_t)(a->group.record_id_size + a->group.data_bytes + a->group.invalidation_bytes);
    const size_t records = (size_t)a->line.records;
    lent buffer = lend_marked(OUTPUT, size + room);
    CHECK(same_line(report(START, size, a->group, a->channel, buffer), a->line));
    CHECK(records == 0 ? is_unchanged(buffer) : holds_only(buffer, data + (records - 1) * size, size));
}

static void check_lines(const char *table, const report_case *cases, size_t count)
{
    static const size_t cuts[] = { 1, 2, 3, 7, 8, 9, 256 };
    size_t i, k;
    for (i = 0; i < count; i++) {
        uint8_t data[256];
        const size_t length = from_hex(cases[i].data, data);
        name_row(table, i);
        for (k = 0; k < COUNT(cuts); k++) {
            cut_into(data, length, cuts[k]);
            check_line(&cases[i], data, 0);
            check_line(&cases[i], data, 5);
        }
    }
}
#define CHECK_LINES(cases) check_lines(#cases, cases, COUNT(cases))

/* An answer's counts, and its points: none, or one that is all four. */
#define ANSWERED(records, valid, invalid, without_value, nan) MF4_ANSWER, 0, (records), (valid), (invalid), (without_value), (nan)
#define NO_DOUBLES 0, { 0, 0 }, { 0, 0 }, { 0, 0 }, { 0, 0 }
#define ONE_DOUBLE(number, value) 1, { number, value }, { number, value }, { number, value }, { number, value }

#define MARKED(type, bit_count, flags, position) { (type), 0, 0, 0, (bit_count), (flags), (position), 0 }

/* Two bytes of a level, and one of invalidation bits. */
#define LEVELS "05 00 00 03 00 00 09 00 02 03 00 00 07 00 FD"

static const report_case counted_lines[] = {
    { LEVELS, { 0, 2, 1 }, MARKED(MF4_TYPE_UNSIGNED_LE, 16, 2, 1),
      { ANSWERED(5, 4, 1, 0, 0), 1, { 0, 5 }, { 4, 7 }, { 1, 3 }, { 4, 7 }, 0, 18 } },
    { LEVELS " 01 02", { 0, 2, 1 }, MARKED(MF4_TYPE_UNSIGNED_LE, 16, 0, 99),
      { ANSWERED(5, 5, 0, 0, 0), 1, { 0, 5 }, { 4, 7 }, { 1, 3 }, { 2, 9 }, 0, 27 } },
    { LEVELS, { 0, 2, 1 }, MARKED(MF4_TYPE_UNSIGNED_LE, 16, 2, 0),
      { ANSWERED(5, 4, 1, 0, 0), 1, { 0, 5 }, { 3, 3 }, { 1, 3 }, { 2, 9 }, 0, 20 } },
    { LEVELS, { 0, 2, 1 }, MARKED(MF4_TYPE_UNSIGNED_LE, 16, 1, 0), { ANSWERED(5, 0, 5, 0, 0), NO_DOUBLES, 0, 0 } },
    { LEVELS, { 0, 2, 1 }, MARKED(MF4_TYPE_UNSIGNED_LE, 16, 3, 99), { ANSWERED(5, 0, 5, 0, 0), NO_DOUBLES, 0, 0 } },
    { "05 00 02 03 00 03", { 0, 2, 1 }, MARKED(MF4_TYPE_SIGNED_BE, 16, 2, 1), { ANSWERED(2, 0, 2, 0, 0), NO_DOUBLES, 0, 0 } },
    /* no data, less than a record, and just one */
    { "", { 0, 2, 1 }, MARKED(MF4_TYPE_UNSIGNED_LE, 16, 2, 1), { ANSWERED(0, 0, 0, 0, 0), NO_DOUBLES, 0, 0 } },
    { "05 00", { 0, 2, 1 }, MARKED(MF4_TYPE_UNSIGNED_LE, 16, 2, 1), { ANSWERED(0, 0, 0, 0, 0), NO_DOUBLES, 0, 0 } },
    { "05 00 00", { 0, 2, 1 }, MARKED(MF4_TYPE_UNSIGNED_LE, 16, 2, 1), { ANSWERED(1, 1, 0, 0, 0), ONE_DOUBLE(0, 5), 0, 5 } },
    /* behind an id; a channel type of 1 without data, and data without it */
    { "FF 05 FF 06", { 1, 1, 0 }, { MF4_TYPE_UNSIGNED_LE, 1, 0, 0, 8, 0, 0, 0 },
      { ANSWERED(2, 2, 0, 0, 0), 1, { 0, 5 }, { 1, 6 }, { 0, 5 }, { 1, 6 }, 0, 11 } },
    { "FF 05 FF 06", { 1, 1, 0 }, { MF4_TYPE_SIGNED_BE, 2, 0, 0, 8, 0, 0, 7 },
      { ANSWERED(2, 2, 0, 0, 0), 1, { 0, 5 }, { 1, 6 }, { 0, 5 }, { 1, 6 }, 0, 11 } },
};

/* A field that is refused in one record is refused in each, valid or not. */
static const report_case valueless_lines[] = {
    { LEVELS, { 0, 2, 1 }, MARKED(MF4_TYPE_UNSIGNED_LE, 0, 2, 1), { ANSWERED(5, 0, 0, 5, 0), NO_DOUBLES, 0, 0 } },
    { LEVELS, { 0, 2, 1 }, FIELD(MF4_TYPE_SIGNED_LE, 8, 0, 8), { ANSWERED(5, 0, 0, 5, 0), NO_DOUBLES, 0, 0 } },
    { LEVELS, { 0, 2, 1 }, MARKED(MF4_TYPE_SIGNED_BE, 65, 1, 0), { ANSWERED(5, 0, 0, 5, 0), NO_DOUBLES, 0, 0 } },
    { LEVELS, { 0, 2, 1 }, FIELD(MF4_TYPE_UNSIGNED_LE, 0, 2, 16), { ANSWERED(5, 0, 0, 5, 0), NO_DOUBLES, 0, 0 } },
    { LEVELS, { 0, 2, 1 }, FIELD(MF4_TYPE_UNSIGNED_BE, 7, UINT32_MAX, 64), { ANSWERED(5, 0, 0, 5, 0), NO_DOUBLES, 0, 0 } },
    { LEVELS, { 0, 2, 1 }, FIELD(MF4_TYPE_FLOAT_LE, 0, 0, 16), { ANSWERED(5, 0, 0, 5, 0), NO_DOUBLES, 0, 0 } },
    { "05", { 0, 2, 1 }, FIELD(MF4_TYPE_FLOAT_LE, 0, 0, 16), { ANSWERED(0, 0, 0, 0, 0), NO_DOUBLES, 0, 0 } },
    /* its last bit is the last of the record, or one behind */
    { "01 02 03 04", { 0, 2, 0 }, FIELD(MF4_TYPE_UNSIGNED_LE, 4, 0, 12),
      { ANSWERED(2, 2, 0, 0, 0), 1, { 0, 0x20 }, { 1, 0x40 }, { 0, 0x20 }, { 1, 0x40 }, 0, 0x60 } },
    { "01 02 03 04", { 0, 2, 0 }, FIELD(MF4_TYPE_UNSIGNED_LE, 4, 0, 13), { ANSWERED(2, 0, 0, 2, 0), NO_DOUBLES, 0, 0 } },
};

#define ONE "00 00 00 00 00 00 F0 3F "
#define ZERO "00 00 00 00 00 00 00 00 "
#define NEGATIVE_ZERO "00 00 00 00 00 00 00 80 "
#define INFINITE "00 00 00 00 00 00 F0 7F "
#define NEGATIVE_INFINITE "00 00 00 00 00 00 F0 FF "
#define QUIET_NAN "00 00 00 00 00 00 F8 7F "
#define SIGNALLING_NAN "01 00 00 00 00 00 F0 FF "
#define DOUBLES { 0, 8, 0 }, FIELD(MF4_TYPE_FLOAT_LE, 0, 0, 64)
#define LARGEST_DOUBLE 1.7976931348623157e308

static const report_case float_lines[] = {
    { ZERO NEGATIVE_ZERO, DOUBLES, { ANSWERED(2, 2, 0, 0, 0), 1, { 0, 0.0 }, { 1, -0.0 }, { 0, 0.0 }, { 0, 0.0 }, 0, 0 } },
    { NEGATIVE_ZERO ZERO, DOUBLES, { ANSWERED(2, 2, 0, 0, 0), 1, { 0, -0.0 }, { 1, 0.0 }, { 0, -0.0 }, { 0, -0.0 }, 0, 0 } },
    { QUIET_NAN NEGATIVE_ZERO SIGNALLING_NAN ZERO ONE QUIET_NAN, DOUBLES,
      { ANSWERED(6, 6, 0, 0, 3), 1, { 1, -0.0 }, { 4, 1.0 }, { 1, -0.0 }, { 4, 1.0 }, 0, 0 } },
    { QUIET_NAN SIGNALLING_NAN, DOUBLES, { ANSWERED(2, 2, 0, 0, 2), NO_DOUBLES, 0, 0 } },
    { ONE INFINITE ONE NEGATIVE_INFINITE INFINITE NEGATIVE_INFINITE ONE, DOUBLES,
      { ANSWERED(7, 7, 0, 0, 0), 1, { 0, 1.0 }, { 6, 1.0 }, { 3, -LARGEST_DOUBLE * 2 }, { 1, LARGEST_DOUBLE * 2 }, 0, 0 } },
    { "3F F0 00 00 00 00 00 00 BF F0 00 00 00 00 00 00", { 0, 8, 0 }, FIELD(MF4_TYPE_FLOAT_BE, 0, 0, 64),
      { ANSWERED(2, 2, 0, 0, 0), 1, { 0, 1.0 }, { 1, -1.0 }, { 1, -1.0 }, { 0, 1.0 }, 0, 0 } },
    /* of 32 bits: the smallest, a NaN of each sign, and over five bytes */
    { "01 00 00 00 FF FF FF FF 00 00 80 3F 01 00 80 7F", { 0, 4, 0 }, FIELD(MF4_TYPE_FLOAT_LE, 0, 0, 32),
      { ANSWERED(4, 4, 0, 0, 2), 1, { 0, 1.401298464324817e-45 }, { 2, 1.0 }, { 0, 1.401298464324817e-45 }, { 2, 1.0 }, 0, 0 } },
    { "0A 00 00 F8 03 05 00 00 00 FC", { 0, 5, 0 }, FIELD(MF4_TYPE_FLOAT_LE, 4, 0, 32),
      { ANSWERED(2, 2, 0, 0, 0), 1, { 0, 1.0 }, { 1, -2.0 }, { 1, -2.0 }, { 0, 1.0 }, 0, 0 } },
};

#define TWO_TO_53 "00 00 00 00 00 00 20 00 "
#define ONE_MORE "01 00 00 00 00 00 20 00 "
#define ALL_ONES "FF FF FF FF FF FF FF FF "
#define LONG(type) { 0, 8, 0 }, FIELD((type), 0, 0, 64)

/* Integers that are one double are equal, but not in the sum. */
static const report_case integer_lines[] = {
    { ONE_MORE TWO_TO_53, LONG(MF4_TYPE_UNSIGNED_LE),
      { ANSWERED(2, 2, 0, 0, 0), 1, { 0, 9007199254740992.0 }, { 1, 9007199254740992.0 }, { 0, 9007199254740992.0 },
        { 0, 9007199254740992.0 }, 0, UINT64_C(18014398509481985) } },
    { TWO_TO_53 ONE_MORE, LONG(MF4_TYPE_SIGNED_LE),
      { ANSWERED(2, 2, 0, 0, 0), 1, { 0, 9007199254740992.0 }, { 1, 9007199254740992.0 }, { 0, 9007199254740992.0 },
        { 0, 9007199254740992.0 }, 0, UINT64_C(18014398509481985) } },
    /* sums that carry, that borrow, and that come back */
    { ALL_ONES ALL_ONES, LONG(MF4_TYPE_UNSIGNED_LE),
      { ANSWERED(2, 2, 0, 0, 0), 1, { 0, 18446744073709551616.0 }, { 1, 18446744073709551616.0 }, { 0, 18446744073709551616.0 },
        { 0, 18446744073709551616.0 }, 1, MOST - 1 } },
    { ALL_ONES ALL_ONES, LONG(MF4_TYPE_SIGNED_BE),
      { ANSWERED(2, 2, 0, 0, 0), 1, { 0, -1.0 }, { 1, -1.0 }, { 0, -1.0 }, { 0, -1.0 }, -1, MOST - 1 } },
    { "80 00 00 00 00 00 00 00 80 00 00 00 00 00 00 00 80 00 00 00 00 00 00 00", LONG(MF4_TYPE_SIGNED_BE),
      { ANSWERED(3, 3, 0, 0, 0), 1, { 0, -9223372036854775808.0 }, { 2, -9223372036854775808.0 }, { 0, -9223372036854775808.0 },
        { 0, -9223372036854775808.0 }, -2, UINT64_C(0x8000000000000000) } },
    { ALL_ONES "01 00 00 00 00 00 00 00", LONG(MF4_TYPE_SIGNED_LE),
      { ANSWERED(2, 2, 0, 0, 0), 1, { 0, -1.0 }, { 1, 1.0 }, { 0, -1.0 }, { 1, 1.0 }, 0, 0 } },
    { ALL_ONES "01 00 00 00 00 00 00 00", LONG(MF4_TYPE_UNSIGNED_LE),
      { ANSWERED(2, 2, 0, 0, 0), 1, { 0, 18446744073709551616.0 }, { 1, 1.0 }, { 1, 1.0 }, { 0, 18446744073709551616.0 }, 1, 0 } },
    /* one bit with a sign; nine bytes; records of one byte and of seven */
    { "00 01 FF 02", { 0, 1, 0 }, FIELD(MF4_TYPE_SIGNED_LE, 0, 0, 1),
      { ANSWERED(4, 4, 0, 0, 0), 1, { 0, 0.0 }, { 3, 0.0 }, { 1, -1.0 }, { 0, 0.0 }, -1, MOST - 1 } },
    { "0F FF FF FF FF FF FF FF 0F F0 00 00 00 00 00 00 00 10", { 0, 9, 0 }, FIELD(MF4_TYPE_UNSIGNED_LE, 4, 0, 64),
      { ANSWERED(2, 2, 0, 0, 0), 1, { 0, 18446744073709551600.0 }, { 1, 15.0 }, { 1, 15.0 }, { 0, 18446744073709551600.0 }, 0,
        MOST } },
    { "01 02 03 04 05 06 07 80 00 00 00 00 00 00", { 0, 7, 0 }, FIELD(MF4_TYPE_SIGNED_BE, 0, 0, 56),
      { ANSWERED(2, 2, 0, 0, 0), 1, { 0, 283686952306183.0 }, { 1, -36028797018963968.0 }, { 1, -36028797018963968.0 },
        { 0, 283686952306183.0 }, -1, UINT64_C(0xFF81020304050607) } },
};

/* ---- many fragments, and the longest record --------------------------------------------------------------------- */

static void check_many_fragments(void)
{
    static const mf4_channel pair = FIELD(MF4_TYPE_UNSIGNED_LE, 0, 0, 16);
    static const mf4_report_reply twos = { ANSWERED(4096, 4096, 0, 0, 0), 1, { 0, 513 }, { 4095, 513 }, { 0, 513 }, { 0, 513 },
                                           0, 2101248 };
    static const mf4_report_reply threes = { ANSWERED(2730, 2730, 0, 0, 0), 1, { 0, 513 }, { 2729, 258 }, { 1, 258 }, { 0, 513 },
                                             0, 1052415 };
    lent buffer;
    name_case("a report through 4,096 fragments, and through one more");
    make_wide_list(MF4_MAX_FRAGMENTS, 2);
    buffer = lend_marked(OUTPUT, 2);
    CHECK(same_line(report(START, 2, group_of(0, 2, 0), pair, buffer), twos) && holds_only_hex(buffer, "01 02"));
    buffer = lend_marked(OUTPUT, 4);
    CHECK(same_line(report(START, 3, group_of(0, 3, 0), pair, buffer), threes) && holds_only_hex(buffer, "02 01 02"));
    make_wide_list(MF4_MAX_FRAGMENTS + 1, 2);
    buffer = lend_marked(OUTPUT, 2);
    CHECK(is_refused(report(START, 2, group_of(0, 2, 0), pair, buffer), 9, 0) && is_unchanged(buffer));
}

/* Bytes that count on from 1: the last ones of the record are FF, which is the field, and 00, which is the invalidation bits. */
static void check_longest_record(void)
{
    const mf4_group group = group_of(0, MF4_MAX_RECORD_SIZE - 1, 1);
    const mf4_channel last = { MF4_TYPE_UNSIGNED_BE, 0, 0, MF4_MAX_RECORD_SIZE - 2, 8, 2, 7, 0 };
    static const mf4_report_reply one = { ANSWERED(1, 1, 0, 0, 0), ONE_DOUBLE(0, 255), 0, 255 };
    lent buffer;
    name_case("a report of records of 16,384 bytes");
    start_file(64);
    put_block(8, "##DL", 56, 2);
    put(40, 64, 8), put(52, 1, 4);
    cut_file(put_data(64, 1, MF4_MAX_RECORD_SIZE + 1));
    buffer = lend_marked(OUTPUT, MF4_MAX_RECORD_SIZE);
    CHECK(same_line(report(START, MF4_MAX_RECORD_SIZE, group, last, buffer), one));
    CHECK(buffer.bytes[0] == 1 && buffer.bytes[MF4_MAX_RECORD_SIZE - 1] == 0);
    put(72, 24 + MF4_MAX_RECORD_SIZE - 1, 8);
    buffer = lend_marked(OUTPUT, MF4_MAX_RECORD_SIZE);
    CHECK(report(START, MF4_MAX_RECORD_SIZE, group, last, buffer).records == 0 && is_unchanged(buffer));
}

/* ---- what is refused, in order ---------------------------------------------------------------------------------- */

/* Faults, in the order in which they are told. A field without a value is none. */
enum { SIZE_FAULT, CHAIN_FAULT, TYPE_FAULT, LENGTH_FAULT, BIT_FAULT, FIELD_FAULT, FAULTS };

static const uint32_t fault_replies[FAULTS] = { 15, 13, 33, 28, 29, MF4_ANSWER };

static mf4_channel faulty_channel(unsigned faults)
{
    mf4_channel channel = MARKED(MF4_TYPE_UNSIGNED_LE, 8, 2, 7);
    if (faults >> TYPE_FAULT & 1)
        channel.data_type = MF4_TYPE_UTF8;
    if (faults >> BIT_FAULT & 1)
        channel.pos_invalidation_bit = 8;
    if (faults >> FIELD_FAULT & 1)
        channel.bit_offset = 8;
    return channel;
}

static uint32_t due_reply(unsigned faults)
{
    int fault;
    for (fault = 0; fault < FAULTS; fault++)
        if (faults >> fault & 1)
            return fault_replies[fault];
    return MF4_ANSWER;
}

/* Records of three bytes, 01 02 03 and 04 05 06, and every set of faults. */
static void check_order(void)
{
    unsigned faults;
    for (faults = 0; faults < 1u << FAULTS; faults++) {
        const mf4_group group = group_of(0, faults >> LENGTH_FAULT & 1 ? 3 : 2, 1);
        lent buffer = lend_marked(OUTPUT, faults >> SIZE_FAULT & 1 ? 2 : 3);
        mf4_report_reply line;
        name_row("faults of a report", faults);
        make_cut_file();
        if (faults >> CHAIN_FAULT & 1)
            put(88, 4, 8);
        line = report(START, 3, group, faulty_channel(faults), buffer);
        if (due_reply(faults) != MF4_ANSWER)
            CHECK(is_refused(line, due_reply(faults), 0) && is_unchanged(buffer));
        else
            CHECK(line.records == 2 && line.without_value == (faults != 0 ? 2 : 0) && holds_only_hex(buffer, "04 05 06"));
    }
}

static void check_record_sizes(void)
{
    static const struct { uint64_t size; size_t room; } sizes[] = {
        { 0, 3 }, { 0, 0 }, { 1, 0 }, { 4, 3 }, { MOST, 3 }, { (UINT64_C(1) << 32) + 3, 3 }, { 16384, 16383 }, { 16385, 16385 },
    };
    const mf4_channel byte = FIELD(MF4_TYPE_UNSIGNED_LE, 0, 0, 8);
    size_t i;
    make_cut_file();
    for (i = 0; i < COUNT(sizes); i++) {
        lent buffer = sizes[i].room == 0 ? no_bytes() : lend_marked(OUTPUT, sizes[i].room);
        name_row("record sizes of a report", i);
        CHECK(is_refused(report(START, sizes[i].size, group_of(sizes[i].size, 0, 0), byte, buffer), 15, 0));
        CHECK(is_refused(report(0, sizes[i].size, group_of(0, 1, 0), byte, buffer), 15, 0));
        CHECK(is_unchanged(buffer));
    }
}

/* A block that is cut short tells how long it should be. */
static void check_told(void)
{
    const mf4_channel byte = FIELD(MF4_TYPE_UNSIGNED_LE, 0, 0, 8);
    lent buffer = lend_marked(OUTPUT, 3);
    name_case("what a report tells");
    make_cut_file();
    cut_file(95);
    CHECK(is_refused(report(START, 3, group_of(0, 3, 0), byte, buffer), 2, 88));
    CHECK(is_refused(report(0, 3, group_of(0, 3, 0), byte, buffer), 11, 0));
    CHECK(is_refused(report(START, 3, group_of(0, 3, 0), byte, no_bytes()), 15, 0) && is_unchanged(buffer));
}

static int is_refused_in(mf4_group group, mf4_channel channel, uint32_t reply)
{
    lent buffer = lend_marked(OUTPUT, 4);
    return is_refused(report(START, 3, group, channel, buffer), reply, 0) && is_unchanged(buffer);
}

/* With records, and in a chain without data, where nothing else could tell. */
static void check_no_numbers(void)
{
    unsigned code;
    for (code = 6; code <= 255; code++) {
        const mf4_channel field = FIELD((uint8_t)code, 0, 0, 8), payload = PAYLOAD((uint8_t)code, 0, 64);
        name_number("a report of data type", code);
        CHECK(is_refused_in(group_of(0, 3, 0), field, 33) && is_refused_in(group_of(0, 9, 9), payload, 33));
    }
    for (code = 0; code <= 5; code++) {
        const mf4_channel payload = PAYLOAD((uint8_t)code, 0, 64);
        name_number("a report of payloads of data type", code);
        CHECK(is_refused_in(group_of(0, 3, 0), payload, 33) && is_refused_in(group_of(0, 9, 9), payload, 33));
    }
}

typedef struct refused_area {
    mf4_group group;
    uint32_t flags, position, reply;
} refused_area;

static const refused_area refused_areas[] = {
    { { 0, 2, 0 }, 0, 0, 28 }, { { 0, 2, 2 }, 0, 0, 28 }, { { 1, 1, 0 }, 3, 0, 28 }, { { 0, 0, 0 }, 4, 0, 28 },
    { { 0, 2, 2 }, 2, 16, 28 }, { { MOST, 2, 2 }, 0, 0, 28 }, { { MOST, 4, 0 }, 2, 0, 28 }, { { 0, UINT32_MAX, 4 }, 2, 0, 28 },
    { { UINT64_C(4294967299), 0, 0 }, 0, 0, 28 }, { { 0, 2, 1 }, 2, 8, 29 }, { { 0, 3, 0 }, 2, 0, 29 },
    { { 1, 2, 0 }, 6, UINT32_MAX, 29 }, { { 0, 0, 3 }, UINT32_MAX - 1, 24, 29 },
};

static void check_areas_refused(void)
{
    size_t i;
    for (i = 0; i < COUNT(refused_areas); i++) {
        const mf4_channel byte = MARKED(MF4_TYPE_UNSIGNED_LE, 8, refused_areas[i].flags, refused_areas[i].position);
        name_row("records and bits that a report refuses", i);
        CHECK(is_refused_in(refused_areas[i].group, byte, refused_areas[i].reply));
    }
}

/* ---- as mf4.h shows it ------------------------------------------------------------------------------------------ */

/* The lines of mf4.h. */
static double range_of(const uint8_t *file, size_t file_len, uint64_t start, mf4_channel channel)
{
    const mf4_group group = group_of(0, 2, 1);
    const uint64_t record_size = 3;
    uint8_t buffer[8];
    double range = -1;
    mf4_report_reply line;
    line = mf4_report(file, file_len, start, record_size, group, channel, buffer, sizeof buffer);
    if (line.reply == MF4_ANSWER && line.has_doubles)
        range = line.largest.value - line.smallest.value;
    return range;
}

static void check_range(void)
{
    const mf4_channel level = FIELD(MF4_TYPE_UNSIGNED_BE, 0, 0, 16), text = FIELD(MF4_TYPE_UTF8, 0, 0, 16);
    lent file;
    name_case("a range by a report");
    make_cut_file();
    file = lend_file();
    CHECK(range_of(file.bytes, file.length, START, level) == 0x0405 - 0x0102);
    CHECK(range_of(file.bytes, file.length, START, text) == -1);
}

void check_reports(void)
{
    CHECK_LINES(counted_lines);
    CHECK_LINES(valueless_lines);
    CHECK_LINES(float_lines);
    CHECK_LINES(integer_lines);
    check_many_fragments();
    check_longest_record();
    check_order();
    check_record_sizes();
    check_told();
    make_cut_file();
    check_no_numbers();
    check_areas_refused();
    start_file(48);
    put_block(8, "##DL", 40, 1);
    check_no_numbers();
    check_areas_refused();
    check_range();
}
