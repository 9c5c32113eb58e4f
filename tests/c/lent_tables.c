#include "lent_tables.h"
#include "values.h"

const mf4_table empty_table = { 0, 0, { { 0, 0 } } };
const mf4_table cut_table = { 3, 6, { { 96, 0 }, { 123, 3 }, { 147, 3 } } };

mf4_table evenly_cut(size_t count, uint64_t size, uint64_t first_addr, uint64_t step)
{
    mf4_table table = empty_table;
    size_t i;
    table.fragment_count = count;
    table.data_length = count * size;
    for (i = 0; i < count; i++) {
        table.fragments[i].block_addr = first_addr + i % 8 * step;
        table.fragments[i].data_position = i * size;
    }
    return table;
}

lent lend_table(const mf4_table *table) { return lend_copy(TABLE, table, sizeof *table); }
mf4_table *table_in(lent slice) { return (mf4_table *)(void *)slice.bytes; }

/* Of a chain that is accepted. */
static uint64_t fragments_of(lent file, uint64_t list)
{
    uint64_t count = 0;
    while (list != 0) {
        const mf4_list_reply read = mf4_read_list(file.bytes + list, file.length - (size_t)list);
        count += read.data_link_count;
        list = read.next_addr;
    }
    return count;
}

static int opened_as_due(lent file, uint64_t start, mf4_done_reply opened, lent table)
{
    const mf4_length_reply length = mf4_data_length(file.bytes, file.length, start);
    const uint64_t count = length.reply == MF4_ANSWER ? fragments_of(file, start) : 0;
    if (length.reply != MF4_ANSWER)
        return done_is(opened, length.reply, length.told) && is_unchanged(table);
    if (count > MF4_MAX_TABLE_FRAGMENTS)
        return done_is(opened, 30, 0) && is_unchanged(table);
    return done_is(opened, MF4_ANSWER, 0) && table_in(table)->fragment_count == count
        && table_in(table)->data_length == length.length;
}

static mf4_done_reply open_from(lent file, uint64_t start, lent table)
{
    const mf4_done_reply opened = mf4_open_table(file.bytes, file.length, start, table_in(table));
    CHECK(opened_as_due(file, start, opened, table) && is_unchanged(file));
    return opened;
}

lent lend_opened(lent file, uint64_t start)
{
    lent table = lend_marked(TABLE, sizeof(mf4_table));
    const mf4_done_reply opened = open_from(file, start, table);
    return opened.reply == MF4_ANSWER ? lend_copy(TABLE, table.bytes, table.length) : no_bytes();
}

mf4_done_reply fetch_by(lent file, lent table, uint64_t number, uint64_t record_size, lent buffer)
{
    const mf4_done_reply answer = mf4_table_record(file.bytes, file.length, table_in(table), number, record_size,
                                                   buffer.bytes, buffer.length);
    CHECK(is_unchanged(file) && is_unchanged(table));
    return answer;
}

mf4_valid_value_reply value_by(lent file, lent table, uint64_t number, uint64_t record_size, mf4_group group,
                               mf4_channel channel, lent buffer)
{
    const mf4_valid_value_reply answer = mf4_table_value(file.bytes, file.length, table_in(table), number, record_size, group,
                                                         channel, buffer.bytes, buffer.length);
    CHECK(is_unchanged(file) && is_unchanged(table));
    return answer;
}

static int is_left_as(mf4_done_reply done, uint32_t reply, lent table, const mf4_table *after)
{
    return done_is(done, reply, 0) && same_bytes(table.bytes, after, sizeof *after);
}

int opens(const mf4_table *after)
{
    lent table = lend_marked(TABLE, sizeof *after);
    return is_left_as(open_from(lend_file(), START, table), MF4_ANSWER, table, after);
}

int opening_refused(uint32_t reply)
{
    lent table = lend_marked(TABLE, sizeof(mf4_table));
    return done_is(open_from(lend_file(), START, table), reply, 0) && is_unchanged(table);
}

static int extension_gives(const mf4_table *before, uint64_t block_addr, uint32_t reply, const mf4_table *after)
{
    lent file = lend_file(), table = lend_table(before);
    const mf4_done_reply done = mf4_extend_table(file.bytes, file.length, block_addr, table_in(table));
    return is_left_as(done, reply, table, after) && is_unchanged(file);
}

int extends(const mf4_table *before, uint64_t block_addr, const mf4_table *after)
{
    return extension_gives(before, block_addr, MF4_ANSWER, after);
}

int extension_refused(const mf4_table *before, uint64_t block_addr, uint32_t reply)
{
    return extension_gives(before, block_addr, reply, before);
}

int shortens(const mf4_table *before, const mf4_table *after)
{
    lent table = lend_table(before);
    return is_left_as(mf4_shorten_table(table_in(table)), MF4_ANSWER, table, after);
}

int shortening_refused(const mf4_table *before, uint32_t reply)
{
    lent table = lend_table(before);
    return is_left_as(mf4_shorten_table(table_in(table)), reply, table, before);
}

int table_fetches(const mf4_table *table, uint64_t number, const uint8_t *record, size_t size)
{
    const mf4_group group = group_of(0, (uint32_t)size, 0);
    const mf4_channel whole = FIELD(MF4_TYPE_BYTE_ARRAY, 0, 0, 8 * (uint32_t)size);
    const expected value = STANDS(MF4_KIND_BYTES, 0, size);
    lent file = lend_file(), lent_table = lend_table(table);
    lent buffer = lend_marked(OUTPUT, size + 5), twin = lend_marked(TWIN_OUTPUT, size);
    return done_is(fetch_by(file, lent_table, number, size, buffer), MF4_ANSWER, 0) && holds_only(buffer, record, size)
        && valid_value_is(value_by(file, lent_table, number, size, group, whole, twin), value, 1)
        && holds_only(twin, record, size);
}

int table_refuses_into(size_t room, const mf4_table *table, uint64_t number, uint64_t record_size, uint32_t reply)
{
    const mf4_channel no_bits = FIELD(MF4_TYPE_UNSIGNED_LE, 0, 0, 0);
    lent file = lend_file(), lent_table = lend_table(table), buffer = room > 0 ? lend_marked(OUTPUT, room) : no_bytes();
    const mf4_done_reply fetched = fetch_by(file, lent_table, number, record_size, buffer);
    const mf4_valid_value_reply value = value_by(file, lent_table, number, record_size, group_of(0, 0, 0), no_bits, buffer);
    return done_is(fetched, reply, 0) && valid_value_refused(value, reply, 0) && is_unchanged(buffer);
}

int table_refuses(const mf4_table *table, uint64_t number, uint64_t record_size, uint32_t reply)
{
    return table_refuses_into((size_t)record_size, table, number, record_size, reply);
}
