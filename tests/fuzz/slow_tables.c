/* Tables as the rules tell them. Of the library nothing is called but the reader of a single list. */
#include "slow_tables.h"

#include <string.h>

#include "log_file.h"
#include "slow_chains.h"

static mf4_done_reply done_with(uint32_t reply, uint64_t told)
{
    const mf4_done_reply done = { reply, told };
    return done;
}

static int is_too_long(lent file) { return file.length > MF4_MAX_FILE_SIZE; }

static uint64_t size_at(const mf4_table *table, uint64_t place)
{
    const int is_last = place + 1 == table->fragment_count;
    return (is_last ? table->data_length : table->fragments[place + 1].data_position) - table->fragments[place].data_position;
}

/* From 0 on, and never back, up to the length. */
static int is_in_order(const mf4_table *table)
{
    uint64_t place, reached = 0;
    if (table->fragment_count > MF4_MAX_TABLE_FRAGMENTS)
        return 0;
    if (table->fragment_count == 0)
        return table->data_length == 0;
    for (place = 0; place < table->fragment_count; place++) {
        if (table->fragments[place].data_position < reached)
            return 0;
        reached = table->fragments[place].data_position;
    }
    return table->fragments[0].data_position == 0 && reached <= table->data_length;
}

/* A sum that is too large is more bytes than a file has. */
static int is_of_file(lent file, const mf4_table *table)
{
    uint64_t place;
    if (!is_in_order(table))
        return 0;
    for (place = 0; place < table->fragment_count; place++)
        if (sum_of(sum_of(table->fragments[place].block_addr, MF4_HEADER_SIZE), size_at(table, place)) > file.length)
            return 0;
    return 1;
}

static void add(mf4_table *table, uint64_t block_addr, uint64_t size)
{
    mf4_fragment *place = &table->fragments[table->fragment_count++];
    place->block_addr = block_addr;
    place->data_position = table->data_length;
    table->data_length += size;
}

mf4_done_reply open_slowly(lent file, uint64_t start, mf4_table *table)
{
    static slow_chain chain;
    size_t i;
    if (is_too_long(file))
        return done_with(MF4_FILE_TOO_LONG, 0);
    walk_slowly(file, start, MF4_ID_DT, &chain);
    if (chain.reply != MF4_ANSWER)
        return done_with(chain.reply, chain.told);
    if (chain.count > MF4_MAX_TABLE_FRAGMENTS)
        return done_with(MF4_TABLE_FULL, 0);
    memset(table, 0, sizeof *table);
    for (i = 0; i < chain.count; i++)
        add(table, chain.fragments[i].at - MF4_HEADER_SIZE, chain.fragments[i].size);
    return done_with(MF4_ANSWER, 0);
}

mf4_done_reply extend_slowly(lent file, uint64_t block_addr, mf4_table *table)
{
    uint32_t due;
    if (is_too_long(file))
        return done_with(MF4_FILE_TOO_LONG, 0);
    if (!is_of_file(file, table))
        return done_with(MF4_BAD_TABLE, 0);
    due = block_due(file, block_addr, MF4_ID_DT);
    if (due == MF4_ANSWER && table->fragment_count == MF4_MAX_TABLE_FRAGMENTS)
        due = MF4_TABLE_FULL;
    if (due == MF4_ANSWER)
        add(table, block_addr, little(file.bytes + block_addr + 8, 8) - MF4_HEADER_SIZE);
    return done_with(due, 0);
}

mf4_done_reply shorten_slowly(mf4_table *table)
{
    mf4_fragment *last;
    if (!is_in_order(table))
        return done_with(MF4_BAD_TABLE, 0);
    if (table->fragment_count == 0)
        return done_with(MF4_TABLE_EMPTY, 0);
    last = &table->fragments[--table->fragment_count];
    table->data_length = last->data_position;
    memset(last, 0, sizeof *last);
    return done_with(MF4_ANSWER, 0);
}

static uint8_t byte_at(lent file, const mf4_table *table, uint64_t position)
{
    uint64_t place = 0;
    for (; position >= size_at(table, place); place++)
        position -= size_at(table, place);
    return file.bytes[table->fragments[place].block_addr + MF4_HEADER_SIZE + position];
}

mf4_done_reply fetch_slowly(lent file, const mf4_table *table, uint64_t number, uint64_t record_size, size_t room,
                            uint8_t *out)
{
    uint64_t i;
    if (is_bad_size(record_size, room))
        return done_with(MF4_BAD_RECORD_SIZE, 0);
    if (is_too_long(file))
        return done_with(MF4_FILE_TOO_LONG, 0);
    if (!is_of_file(file, table))
        return done_with(MF4_BAD_TABLE, 0);
    if (number >= table->data_length / record_size)
        return done_with(MF4_NO_SUCH_RECORD, 0);
    for (i = 0; i < record_size; i++)
        out[i] = byte_at(file, table, number * record_size + i);
    return done_with(MF4_ANSWER, 0);
}
