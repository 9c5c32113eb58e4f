/* Records of whole chains, the length of their joined data, and values in records. */
#include "lent_tables.h"
#include "values.h"

static void check_six_bytes(const char *name, void (*make)(void))
{
    name_case(name);
    make();
    CHECK(joins(6));
    CHECK(fetches(0, 2, "01 02") && fetches(1, 2, "03 04") && fetches(2, 2, "05 06"));
    CHECK(fetches(0, 1, "01") && fetches(5, 1, "06"));
    CHECK(fetches(0, 4, "01 02 03 04") && fetches(0, 6, "01 02 03 04 05 06"));
    CHECK(refuses(3, 2, 16) && refuses(6, 1, 16) && refuses(1, 4, 16) && refuses(1, 6, 16) && refuses(0, 7, 16));
    CHECK(refuses(MOST, 1, 16) && refuses(MOST, 2, 16) && refuses(MOST, MF4_MAX_RECORD_SIZE, 16));
    /* products that wrap to 0 */
    CHECK(refuses(UINT64_C(0x8000000000000000), 2, 16) && refuses(UINT64_C(0x4000000000000000), 4, 16));
}

static void check_cuts(void)
{
    check_six_bytes("records, cut 3 0 3", make_cut_file);
    check_six_bytes("records, cut by two lists", make_pair_file);
    check_six_bytes("records, uncut", make_uncut_file);
    name_case("records, one length");
    make_equal_file();
    CHECK(joins(8) && fetches(1, 3, "04 05 06") && fetches(1, 4, "05 06 07 08") && refuses(2, 3, 16));
}

static void check_record_sizes(void)
{
    lent buffer;
    name_case("record sizes and buffers");
    make_cut_file();
    buffer = lend_marked(OUTPUT, 6);
    CHECK(done_is(fetch(START, 0, 0, buffer), 15, 0) && is_unchanged(buffer));
    CHECK(done_is(fetch(START, 0, 7, buffer), 15, 0) && is_unchanged(buffer));
    CHECK(done_is(fetch(START, 0, MOST, buffer), 15, 0) && is_unchanged(buffer));
    CHECK(done_is(fetch(START, 0, 6, buffer), 0, 0) && holds_only_hex(buffer, "01 02 03 04 05 06"));
    CHECK(done_is(fetch(START, 0, 0, no_bytes()), 15, 0) && done_is(fetch(START, 0, 1, no_bytes()), 15, 0));
    buffer = lend_marked(OUTPUT, 16383);
    CHECK(done_is(fetch(START, 0, 16384, buffer), 15, 0) && is_unchanged(buffer));
    buffer = lend_marked(OUTPUT, 16385);
    CHECK(done_is(fetch(START, 0, 16385, buffer), 15, 0) && is_unchanged(buffer));
    CHECK(done_is(fetch(0, 0, 0, buffer), 15, 0) && is_unchanged(buffer));  /* before 11 */
}

static void check_largest_record(void)
{
    lent buffer;
    size_t i;
    int is_right = 1;
    name_case("a record of 16,384 bytes");
    start_file(64);
    put_block(8, "##DL", 56, 2);
    put(40, 64, 8), put(52, 1, 4);
    cut_file(put_data(64, 1, MF4_MAX_RECORD_SIZE));
    buffer = lend_marked(OUTPUT, MF4_MAX_RECORD_SIZE);
    CHECK(joins(16384) && done_is(fetch(START, 0, MF4_MAX_RECORD_SIZE, buffer), 0, 0));
    for (i = 0; i < MF4_MAX_RECORD_SIZE; i++)
        is_right &= buffer.bytes[i] == (uint8_t)(1 + i);
    CHECK(is_right);
    CHECK(refuses(1, MF4_MAX_RECORD_SIZE, 16));
    put(72, 24 + 16383, 8);
    CHECK(joins(16383) && refuses(0, MF4_MAX_RECORD_SIZE, 16));
}

static void check_no_data(void)
{
    name_case("a chain without data");
    start_file(48);
    put_block(8, "##DL", 40, 1);
    CHECK(joins(0) && refuses(0, 1, 16) && refuses(MOST, 1, 16));
    name_case("no file");
    start_file(0);
    CHECK(refuses_from(0, 0, 1, 11, 0) && refuses_from(8, 0, 1, 11, 0) && refuses_from(MOST, 0, 1, 11, 0));
}

static void check_repeated_block(void)
{
    name_case("a block listed twice counts twice");
    make_cut_file();
    put(48, 96, 8), put(88, 6, 8);
    CHECK(joins(9) && fetches(0, 9, "01 02 03 01 02 03 04 05 06"));
}

/* A table of the chain, if there is one, gives the same. */
static mf4_valid_value_reply value_in_group(uint64_t number, uint64_t size, mf4_group group, mf4_channel channel, lent buffer)
{
    lent file = lend_file(), table = lend_opened(file, START), twin = lend_copy(TWIN_OUTPUT, buffer.bytes, buffer.length);
    mf4_valid_value_reply answer = mf4_record_value(file.bytes, file.length, START, number, size, group, channel,
                                                    buffer.bytes, buffer.length);
    if (table.bytes != NULL) {
        CHECK(same_valid_value(value_by(file, table, number, size, group, channel, twin), answer));
        CHECK(same_bytes(twin.bytes, buffer.bytes, buffer.length));
    }
    return answer;
}

/* The group's records have that size, where it is enough for the id and the data. */
static mf4_valid_value_reply record_value(uint64_t number, uint64_t size, uint64_t id_size, mf4_channel channel, lent buffer)
{
    return value_in_group(number, size, group_filling(size, id_size, 2), channel, buffer);
}

/* The records of 3 bytes are 01 02 03 and 04 05 06; with 2 data bytes the last byte holds the invalidation bits. */
static void check_record_value_answers(void)
{
    static const expected first = UNSIGNED_IS(0x0201), second = UNSIGNED_IS(0x0504), text = TEXT_STANDS(1, 2);
    mf4_channel channel = FIELD(MF4_TYPE_UNSIGNED_LE, 0, 0, 16);
    const mf4_channel text_channel = FIELD(MF4_TYPE_LATIN1, 0, 0, 16);
    lent buffer;
    name_case("a record's value");
    make_cut_file();
    channel.flags = MF4_CHANNEL_INVALIDATION_BIT, channel.pos_invalidation_bit = 0;
    buffer = lend_marked(OUTPUT, 3);
    CHECK(valid_value_is(record_value(0, 3, 0, channel, buffer), first, 0) && holds_only_hex(buffer, "01 02 03"));
    buffer = lend_marked(OUTPUT, 9);
    CHECK(valid_value_is(record_value(1, 3, 0, channel, buffer), second, 1) && holds_only_hex(buffer, "04 05 06"));
    channel.pos_invalidation_bit = 7;
    CHECK(valid_value_is(record_value(0, 3, 0, channel, buffer), first, 1));
    channel.pos_invalidation_bit = 8;
    channel.flags = MF4_CHANNEL_INVALIDATION_BIT | MF4_CHANNEL_ALL_INVALID;
    CHECK(valid_value_is(record_value(0, 3, 0, channel, buffer), first, 0));
    CHECK(valid_value_is(record_value(1, 3, 1, text_channel, buffer), text, 1) && holds_only_hex(buffer, "04 05 06"));
}

typedef struct refused_field {
    uint64_t id_size;
    mf4_channel channel;
    uint32_t reply;
    uint64_t told;
} refused_field;

static const refused_field refused_fields[] = {
    { 0, FIELD(MF4_TYPE_UNSIGNED_LE, 0, 0, 0), 18, 0 },
    { 0, FIELD(MF4_TYPE_SIGNED_BE, 8, 0, 8), 19, 0 },
    { 0, FIELD(MF4_TYPE_UNSIGNED_BE, 0, 0, 65), 20, 0 },
    { 0, FIELD(MF4_TYPE_UNSIGNED_LE, 0, 2, 16), 21, 4 },
    { 1, FIELD(MF4_TYPE_LATIN1, 0, 2, 16), 21, 5 },
    { 9, PAYLOAD(MF4_TYPE_SIGNED_LE, 0, 32), 21, 4 },
    { MOST, FIELD(MF4_TYPE_UNSIGNED_LE, 0, 0, 8), 21, MOST },
    { 0, FIELD(MF4_TYPE_FLOAT_LE, 0, 0, 16), 22, 0 },
};

/* The value is refused and the record stays. The marks behind the record are no part of it. */
static void check_value_refused(mf4_group group, mf4_channel channel, uint32_t reply, uint64_t told)
{
    lent buffer = lend_marked(OUTPUT, 9);
    CHECK(valid_value_refused(value_in_group(1, 3, group, channel, buffer), reply, told));
    CHECK(holds_only_hex(buffer, "04 05 06"));
    buffer = lend_marked(OUTPUT, 3);
    CHECK(valid_value_refused(value_in_group(0, 3, group, channel, buffer), reply, told));
    CHECK(holds_only_hex(buffer, "01 02 03"));
}

/* In a group of such records, and in one whose records are longer, which comes behind. */
static void check_refused_fields_of_records(void)
{
    size_t i;
    make_cut_file();
    for (i = 0; i < COUNT(refused_fields); i++) {
        const refused_field a = refused_fields[i];
        name_row("a record's field refused", i);
        check_value_refused(group_filling(3, a.id_size, 2), a.channel, a.reply, a.told);
        check_value_refused(group_of(a.id_size, 2, 4), a.channel, a.reply, a.told);
    }
}

typedef struct refused_area {
    mf4_group group;
    uint32_t flags, position, reply;
} refused_area;

static const refused_area refused_areas[] = {
    { { 0, 2, 0 }, 0, 0, 28 }, { { 0, 2, 2 }, 0, 0, 28 }, { { 0, 3, 1 }, 1, 0, 28 }, { { 1, 1, 0 }, 3, 0, 28 },
    { { 2, 2, 0 }, 2, 0, 28 }, { { 0, 0, 0 }, 4, 0, 28 }, { { 0, UINT32_MAX, 4 }, 2, 0, 28 }, { { 0, 2, 2 }, 2, 16, 28 },
    { { 0, 2, 1 }, 2, 8, 29 }, { { 0, 3, 0 }, 2, 0, 29 }, { { 1, 2, 0 }, 6, UINT32_MAX, 29 }, { { 2, 0, 1 }, 2, 9, 29 },
};

/* A field behind the id, and a text that is taken from the whole record. */
static void check_refused_areas_of_records(void)
{
    mf4_channel byte = FIELD(MF4_TYPE_UNSIGNED_LE, 0, 0, 8), text = PAYLOAD(MF4_TYPE_UTF8, 0, 64);
    size_t i;
    make_cut_file();
    name_case("a record's length beside a sum that would wrap to it");
    check_value_refused(group_of(MOST, 2, 2), text, 28, 0);
    for (i = 0; i < COUNT(refused_areas); i++) {
        const refused_area a = refused_areas[i];
        name_row("a record's invalidation bytes", i);
        byte.flags = text.flags = a.flags;
        byte.pos_invalidation_bit = text.pos_invalidation_bit = a.position;
        check_value_refused(a.group, byte, a.reply, 0);
        check_value_refused(a.group, text, a.reply, 0);
    }
}

static void check_refused_records(void)
{
    const mf4_channel too_far = FIELD(MF4_TYPE_UNSIGNED_LE, 0, 2, 16), good = FIELD(MF4_TYPE_UNSIGNED_LE, 0, 0, 8);
    const mf4_group other = group_of(0, 1, 1);
    lent buffer;
    name_case("a record refused, with a field and a length that are refused too");
    make_cut_file();
    buffer = lend_marked(OUTPUT, 9);
    CHECK(valid_value_refused(record_value(2, 3, 0, too_far, buffer), 16, 0) && is_unchanged(buffer));
    CHECK(valid_value_refused(record_value(0, 10, 0, too_far, buffer), 15, 0) && is_unchanged(buffer));
    CHECK(valid_value_refused(record_value(0, 0, 0, too_far, buffer), 15, 0) && is_unchanged(buffer));
    CHECK(valid_value_refused(record_value(0, 3, 0, good, no_bytes()), 15, 0));
    CHECK(valid_value_refused(value_in_group(2, 3, other, good, buffer), 16, 0) && is_unchanged(buffer));
    CHECK(valid_value_refused(value_in_group(0, 10, other, good, buffer), 15, 0) && is_unchanged(buffer));
    put(88, 4, 8);
    CHECK(valid_value_refused(record_value(0, 3, 0, good, buffer), 13, 0) && is_unchanged(buffer));
    CHECK(valid_value_refused(value_in_group(0, 3, other, good, buffer), 13, 0) && is_unchanged(buffer));
    cut_file(95);
    CHECK(valid_value_refused(record_value(0, 3, 0, good, buffer), 2, 88) && is_unchanged(buffer));
}

void check_records(void)
{
    check_cuts();
    check_record_sizes();
    check_largest_record();
    check_no_data();
    check_repeated_block();
    check_record_value_answers();
    check_refused_fields_of_records();
    check_refused_areas_of_records();
    check_refused_records();
}
