#include "files.h"

#include <string.h>

#include "lent_tables.h"

static struct {
    uint8_t bytes[MOST_LENT];
    size_t length;
} built;

void start_file(size_t length)
{
    memset(built.bytes, 0, sizeof built.bytes);
    built.length = length;
}

void cut_file(size_t length) { built.length = length; }
size_t file_length(void) { return built.length; }

void put(size_t at, uint64_t number, int size)
{
    for (; size > 0; size--, number >>= 8)
        built.bytes[at++] = (uint8_t)number;
}

void put_block(size_t at, const char *id, uint64_t block_len, uint64_t link_count)
{
    memcpy(built.bytes + at, id, 4);
    put(at + 8, block_len, 8);
    put(at + 16, link_count, 8);
}

size_t put_data(size_t at, unsigned first, size_t size)
{
    size_t i;
    put_block(at, "##DT", 24 + size, 0);
    for (i = 0; i < size; i++)
        built.bytes[at + 24 + i] = (uint8_t)(first + i);
    return at + 24 + size;
}

size_t put_data_of(size_t at, const char *id, const uint8_t *data, size_t size)
{
    put_block(at, id, 24 + size, 0);
    memcpy(built.bytes + at + 24, data, size);
    return at + 24 + size;
}

void make_cut_file(void)
{
    start_file(174);
    put_block(8, "##DL", 88, 4);
    put(40, 96, 8), put(48, 123, 8), put(56, 147, 8);
    put(68, 3, 4);
    put(72, 0, 8), put(80, 3, 8), put(88, 3, 8);
    put_data(96, 1, 3), put_data(123, 0, 0), put_data(147, 4, 3);
}

void make_equal_file(void)
{
    start_file(160);
    put_block(8, "##DL", 72, 4);
    put(40, 80, 8), put(48, 107, 8), put(56, 134, 8);
    put(64, MF4_LIST_EQUAL_LENGTH, 1), put(68, 3, 4);
    put(72, 3, 8);
    put_data(80, 1, 3), put_data(107, 4, 3), put_data(134, 7, 2);
}

void make_pair_file(void)
{
    start_file(174);
    put_block(8, "##DL", 56, 2), put_block(64, "##DL", 56, 2);
    put(32, 64, 8);
    put(40, 120, 8), put(52, 1, 4), put(56, 0, 8);
    put(96, 147, 8), put(108, 1, 4), put(112, 3, 8);
    put_data(120, 1, 3), put_data(147, 4, 3);
}

void make_uncut_file(void)
{
    start_file(94);
    put_block(8, "##DL", 56, 2);
    put(40, 64, 8), put(48, MF4_LIST_EQUAL_LENGTH, 1), put(52, 1, 4), put(56, MOST, 8);
    put_data(64, 1, 6);
}

size_t make_wide_list(size_t count, size_t size)
{
    size_t end = START + 24 + 8 + 8 * count + 8 + 8, i;
    start_file(end + 24 + size);
    put_block(START, "##DL", end - START, count + 1);
    for (i = 0; i < count; i++)
        put(40 + 8 * i, end, 8);
    put(40 + 8 * count, MF4_LIST_EQUAL_LENGTH, 1), put(44 + 8 * count, count, 4), put(48 + 8 * count, size, 8);
    put_data(end, 1, size);
    return end;
}

size_t add_narrow_list(size_t block)
{
    size_t at = file_length();
    cut_file(at + 56);
    put(32, at, 8);
    put_block(at, "##DL", 56, 2);
    put(at + 32, block, 8), put(at + 40, MF4_LIST_EQUAL_LENGTH, 1), put(at + 44, 1, 4), put(at + 48, 2, 8);
    return at;
}

lent lend_file(void) { return built.length == 0 ? no_bytes() : lend_copy(INPUT, built.bytes, built.length); }

int length_is(mf4_length_reply a, uint32_t reply, uint64_t told, uint64_t length)
{
    return a.reply == reply && a.told == told && a.length == length;
}

/* A fetch has two refusals of its own: 15, which it tells first, and 16, which it tells of an accepted chain. */
static int length_agrees(mf4_length_reply length, mf4_done_reply fetched)
{
    if (fetched.reply == MF4_BAD_RECORD_SIZE)
        return 1;
    if (fetched.reply == MF4_ANSWER || fetched.reply == MF4_NO_SUCH_RECORD)
        return length_is(length, MF4_ANSWER, 0, length.length);
    return length_is(length, fetched.reply, fetched.told, 0);
}

/* A byte of each record, which always has a value. */
static void check_report(lent file, uint64_t start, uint64_t record_size, lent buffer, mf4_done_reply fetched)
{
    const mf4_length_reply length = mf4_data_length(file.bytes, file.length, start);
    const mf4_group group = { 0, (uint32_t)record_size, 0 };
    const mf4_channel byte = { MF4_TYPE_UNSIGNED_LE, 0, 0, 0, 8, 0, 0, 0 };
    lent twin = lend_copy(TWIN_OUTPUT, buffer.bytes, buffer.length);
    mf4_report_reply line = mf4_report(file.bytes, file.length, start, record_size, group, byte, twin.bytes, twin.length);
    if (fetched.reply == MF4_ANSWER || fetched.reply == MF4_NO_SUCH_RECORD)
        CHECK(line.reply == MF4_ANSWER && line.told == 0 && line.valid == length.length / record_size);
    else
        CHECK(line.reply == fetched.reply && line.told == fetched.told && line.records == 0 && is_unchanged(twin));
    CHECK(is_unchanged_from(twin, line.records > 0 ? (size_t)record_size : 0));
}

mf4_done_reply fetch(uint64_t start, uint64_t number, uint64_t record_size, lent buffer)
{
    lent file = lend_file(), table = lend_opened(file, start), twin = lend_copy(TWIN_OUTPUT, buffer.bytes, buffer.length);
    mf4_done_reply answer = mf4_read_record(file.bytes, file.length, start, number, record_size, buffer.bytes,
                                            buffer.length);
    CHECK(length_agrees(mf4_data_length(file.bytes, file.length, start), answer));
    CHECK(is_unchanged(file));
    if (table.bytes != NULL) {
        CHECK(done_is(fetch_by(file, table, number, record_size, twin), answer.reply, answer.told));
        CHECK(same_bytes(twin.bytes, buffer.bytes, buffer.length));
    }
    check_report(file, start, record_size, buffer, answer);
    return answer;
}

int fetches(uint64_t number, uint64_t record_size, const char *record)
{
    lent buffer = lend_marked(OUTPUT, (size_t)record_size + 5);
    return done_is(fetch(START, number, record_size, buffer), 0, 0) && holds_only_hex(buffer, record);
}

int refuses_from(uint64_t start, uint64_t number, uint64_t record_size, uint32_t reply, uint64_t told)
{
    lent buffer = lend_marked(OUTPUT, (size_t)record_size);
    return done_is(fetch(start, number, record_size, buffer), reply, told) && is_unchanged(buffer);
}

int refuses(uint64_t number, uint64_t record_size, uint32_t reply)
{
    return refuses_from(START, number, record_size, reply, 0);
}

int joins(uint64_t length)
{
    lent file = lend_file();
    return length_is(mf4_data_length(file.bytes, file.length, START), MF4_ANSWER, 0, length) && is_unchanged(file);
}
