/* Histories of tables: after every few steps, and after many, a table is the one of the blocks that are left. */
#include "lent_tables.h"

/* The blocks that the steps so far have left. */
typedef struct history {
    uint64_t blocks[8];
    size_t count;
} history;

enum step { OPEN, OPEN_NOWHERE, ADD_THREE, ADD_NONE, ADD_NOWHERE, GIVE_UP, KINDS_OF_STEPS };
enum { STEPS = 5, HISTORIES = KINDS_OF_STEPS * KINDS_OF_STEPS * KINDS_OF_STEPS * KINDS_OF_STEPS * KINDS_OF_STEPS };

/* The table worked out from those blocks alone. */
static mf4_table afresh(const history *left)
{
    mf4_table table = empty_table;
    for (; table.fragment_count < left->count; table.fragment_count++) {
        const uint64_t block = left->blocks[table.fragment_count];
        table.fragments[table.fragment_count].block_addr = block;
        table.fragments[table.fragment_count].data_position = table.data_length;
        table.data_length += block == 123 ? 0 : 3;
    }
    return table;
}

/* What a step leaves, and what it answers. */
static uint32_t follow(enum step step, history *left)
{
    if (step == OPEN_NOWHERE || step == ADD_NOWHERE)
        return 11;
    if (step == GIVE_UP && left->count == 0)
        return 31;
    if (step == OPEN) {
        for (left->count = 0; left->count < cut_table.fragment_count; left->count++)
            left->blocks[left->count] = cut_table.fragments[left->count].block_addr;
    } else if (step == GIVE_UP) {
        left->count--;
    } else {
        left->blocks[left->count++] = step == ADD_THREE ? 96 : 123;
    }
    return MF4_ANSWER;
}

static mf4_done_reply take(enum step step, lent file, mf4_table *table)
{
    switch (step) {
    case OPEN: return mf4_open_table(file.bytes, file.length, START, table);
    case OPEN_NOWHERE: return mf4_open_table(file.bytes, file.length, 0, table);
    case ADD_THREE: return mf4_extend_table(file.bytes, file.length, 96, table);
    case ADD_NONE: return mf4_extend_table(file.bytes, file.length, 123, table);
    case ADD_NOWHERE: return mf4_extend_table(file.bytes, file.length, 151, table);
    default: return mf4_shorten_table(table);
    }
}

/* The digits of its number, in base KINDS_OF_STEPS, are the steps. */
static void check_history(lent file, unsigned number)
{
    history left = { { 0 }, 0 };
    lent table = lend_table(&empty_table);
    int i;
    name_number("history", number);
    for (i = 0; i < STEPS; i++, number /= KINDS_OF_STEPS) {
        const enum step step = (enum step)(number % KINDS_OF_STEPS);
        const uint32_t reply = follow(step, &left);
        const mf4_table due = afresh(&left);
        CHECK(done_is(take(step, file, table_in(table)), reply, 0) && same_bytes(table.bytes, &due, sizeof due));
    }
}

static void check_histories(void)
{
    lent file;
    unsigned number;
    make_cut_file();
    file = lend_file();
    for (number = 0; number < HISTORIES; number++)
        check_history(file, number);
    CHECK(is_unchanged(file));
}

/* Block by block up to the last place, and back again. */
static void check_full_history(void)
{
    const mf4_table full = evenly_cut(MF4_MAX_TABLE_FRAGMENTS, 3, 96, 0);
    lent file, table;
    size_t i;
    make_cut_file();
    file = lend_file(), table = lend_table(&empty_table);
    for (i = 0; i < MF4_MAX_TABLE_FRAGMENTS; i++) {
        name_number("a table filled by block", i);
        CHECK(done_is(take(ADD_THREE, file, table_in(table)), MF4_ANSWER, 0));
    }
    CHECK(done_is(take(ADD_THREE, file, table_in(table)), 30, 0) && same_bytes(table.bytes, &full, sizeof full));
    for (i = 0; i < MF4_MAX_TABLE_FRAGMENTS; i++) {
        name_number("a table emptied by block", i);
        CHECK(done_is(take(GIVE_UP, file, table_in(table)), MF4_ANSWER, 0));
    }
    CHECK(done_is(take(GIVE_UP, file, table_in(table)), 31, 0) && is_unchanged(table));
}

void check_table_histories(void)
{
    check_histories();
    check_full_history();
}
