/* Tables: opened from a chain, extended by one more block, and shortened by the last one. */
#include "lent_tables.h"

#include <string.h>

enum { MOST_PLACES = MF4_MAX_TABLE_FRAGMENTS };

/* ---- opening ---------------------------------------------------------------------------------------------------- */

static void check_opening(void)
{
    static const mf4_table repeating = { 3, 9, { { 96, 0 }, { 96, 3 }, { 147, 6 } } };
    static const mf4_table equal = { 3, 8, { { 80, 0 }, { 107, 3 }, { 134, 6 } } };
    static const mf4_table pair = { 2, 6, { { 120, 0 }, { 147, 3 } } };
    static const mf4_table uncut = { 1, 6, { { 64, 0 } } };
    name_case("tables of chains");
    make_cut_file();
    CHECK(opens(&cut_table));
    put(48, 96, 8), put(88, 6, 8);
    CHECK(opens(&repeating));
    make_equal_file();
    CHECK(opens(&equal));
    make_pair_file();
    CHECK(opens(&pair));
    make_uncut_file();
    CHECK(opens(&uncut));
    start_file(48);
    put_block(START, "##DL", 40, 1);
    CHECK(opens(&empty_table));
}

static void check_full_opening(void)
{
    mf4_table full;
    size_t block;
    name_case("512 and 513 fragments");
    block = make_wide_list(MOST_PLACES, 2);
    full = evenly_cut(MOST_PLACES, 2, block, 0);
    CHECK(opens(&full));
    block = make_wide_list(MOST_PLACES - 1, 2);
    add_narrow_list(block);
    full = evenly_cut(MOST_PLACES, 2, block, 0);
    CHECK(opens(&full));
    add_narrow_list(make_wide_list(MOST_PLACES, 2));
    CHECK(opening_refused(30));
    make_wide_list(MOST_PLACES + 1, 2);
    CHECK(opening_refused(30));
    make_wide_list(MOST_PLACES + 1, 0);
    CHECK(opening_refused(30));
    make_wide_list(MF4_MAX_FRAGMENTS, 2);
    CHECK(opening_refused(30));
}

/* Where the links of a wide list stand, and where the block of one with 600 links does. */
#define LINK(index) (40 + 8 * (index))
enum { LINKED = 600, BLOCK_OF_LINKED = LINK(LINKED) + 16 };

/* The chain's own refusal is told, though it comes behind the 512th fragment. */
static void check_refused_behind(void)
{
    static const struct { size_t at; uint64_t number; uint32_t reply; } changes[] = {
        { LINK(MOST_PLACES - 1), 0, 11 }, { LINK(MOST_PLACES), 0, 11 }, { LINK(MOST_PLACES + 1), 0, 11 },
        { LINK(LINKED - 1), 0, 11 }, { LINK(MOST_PLACES), START, 12 }, { LINK(LINKED - 1), START, 12 },
        { 32, MOST, 11 }, { 32, BLOCK_OF_LINKED, 3 }, { 32, START, 9 },
    };
    size_t i;
    for (i = 0; i < COUNT(changes); i++) {
        name_row("chains that are refused behind 512 fragments", i);
        make_wide_list(LINKED, 2);
        put(changes[i].at, changes[i].number, 8);
        CHECK(opening_refused(changes[i].reply));
    }
    name_case("another length, and a loop, behind 512 fragments");
    put(add_narrow_list(make_wide_list(LINKED, 2)) + 48, 3, 8);
    CHECK(opening_refused(13));
    make_wide_list(16, 0);
    put(32, START, 8);
    CHECK(opening_refused(8));
}

/* ---- one block more, and one less ------------------------------------------------------------------------------- */

/* The table of the cut file's first blocks, and each byte of its other places as given. */
static mf4_table cut_to(size_t count, int behind)
{
    static const uint64_t lengths[] = { 0, 3, 3, 6 };
    mf4_table table = cut_table;
    table.fragment_count = count;
    table.data_length = lengths[count];
    memset(table.fragments + count, behind, (MOST_PLACES - count) * sizeof *table.fragments);
    return table;
}

/* Each step writes one place, and leaves those behind it: extending sets it, and shortening clears it. */
static void check_steps(int behind)
{
    size_t count;
    name_number("steps of a table, and behind it bytes of", (uint64_t)behind);
    make_cut_file();
    for (count = 0; count < cut_table.fragment_count; count++) {
        mf4_table shorter = cut_to(count, behind), longer = cut_to(count + 1, behind);
        CHECK(extends(&shorter, cut_table.fragments[count].block_addr, &longer));
        shorter.fragments[count] = empty_table.fragments[0];
        CHECK(shortens(&longer, &shorter));
    }
}

static void check_last_place(void)
{
    const mf4_table shorter = evenly_cut(MOST_PLACES - 1, 3, 96, 0), full = evenly_cut(MOST_PLACES, 3, 96, 0);
    name_case("the last place, and none behind it");
    make_cut_file();
    CHECK(extends(&shorter, 96, &full) && shortens(&full, &shorter));
    CHECK(extension_refused(&full, 96, 30) && extension_refused(&full, 123, 30));
    CHECK(extension_refused(&full, 0, 11) && extension_refused(&full, 151, 11));
    CHECK(extension_refused(&full, 8, 12) && extension_refused(&full, 150, 12));
}

static void check_no_block_to_give_up(void)
{
    const mf4_table marked = cut_to(0, MARK);
    name_case("an empty table, shortened");
    CHECK(shortening_refused(&empty_table, 31) && shortening_refused(&marked, 31));
}

/* Which file a table is of plays no part when it is shortened. */
static void check_shortened_without_a_file(void)
{
    static const struct { mf4_table before, after; } tables[] = {
        { { 1, MOST, { { MOST, 0 } } }, { 0, 0, { { 0, 0 } } } },
        { { 2, MOST, { { MOST, 0 }, { MOST, MOST } } }, { 1, MOST, { { MOST, 0 } } } },
        { { 2, 5, { { 0, 0 }, { 1, 0 } } }, { 1, 0, { { 0, 0 } } } },
        { { 3, 9, { { 7, 0 }, { 8, 4 }, { 9, 9 } } }, { 2, 9, { { 7, 0 }, { 8, 4 } } } },
    };
    size_t i;
    for (i = 0; i < COUNT(tables); i++) {
        name_row("tables of no file, shortened", i);
        CHECK(shortens(&tables[i].before, &tables[i].after));
    }
}

/* ---- which blocks a table takes --------------------------------------------------------------------------------- */

/* A number of the cut file changed, and a block then added to the table of its first two blocks. */
typedef struct added {
    size_t at;
    int size;
    uint64_t number, block_addr;
    uint32_t reply;
    uint64_t data;
} added;

#define UNCHANGED 0, 1, 0
#define ID_OF_THIRD 147, 4
#define LENGTH_OF_THIRD 155, 8
#define LINKS_OF_THIRD 163, 8

static const added added_blocks[] = {
    /* addresses: none, behind the file's last 24 bytes, and others than a block's */
    { UNCHANGED, 0, 11, 0 }, { UNCHANGED, 151, 11, 0 }, { UNCHANGED, 174, 11, 0 }, { UNCHANGED, 175, 11, 0 },
    { UNCHANGED, MOST, 11, 0 }, { UNCHANGED, MOST - 22, 11, 0 }, { UNCHANGED, MOST - 23, 11, 0 },
    { UNCHANGED, 150, 12, 0 }, { UNCHANGED, 8, 12, 0 }, { UNCHANGED, 146, 12, 0 }, { UNCHANGED, 148, 12, 0 },
    { UNCHANGED, (UINT64_C(1) << 32) + 96, 11, 0 },
    /* blocks that are there already count once more */
    { UNCHANGED, 147, MF4_ANSWER, 3 }, { UNCHANGED, 96, MF4_ANSWER, 3 }, { UNCHANGED, 123, MF4_ANSWER, 0 },
    /* the id, what is reserved, the links */
    { ID_OF_THIRD, MF4_ID_SD, 147, 12, 0 }, { ID_OF_THIRD, MF4_ID_DZ, 147, 12, 0 }, { ID_OF_THIRD, MF4_ID_DL, 147, 12, 0 },
    { 150, 1, 't', 147, 12, 0 }, { 151, 4, UINT32_MAX, 147, MF4_ANSWER, 3 },
    { LINKS_OF_THIRD, 1, 147, 12, 0 }, { LINKS_OF_THIRD, UINT64_C(1) << 32, 147, 12, 0 }, { LINKS_OF_THIRD, MOST, 147, 12, 0 },
    /* the length: too short, up to the file's end, past it, and with an end that wraps */
    { LENGTH_OF_THIRD, 0, 147, 12, 0 }, { LENGTH_OF_THIRD, 23, 147, 12, 0 }, { LENGTH_OF_THIRD, 24, 147, MF4_ANSWER, 0 },
    { LENGTH_OF_THIRD, 25, 147, MF4_ANSWER, 1 }, { LENGTH_OF_THIRD, 28, 147, 12, 0 }, { LENGTH_OF_THIRD, MOST, 147, 12, 0 },
    { LENGTH_OF_THIRD, MOST - 146, 147, 12, 0 }, { LENGTH_OF_THIRD, MOST - 145, 147, 12, 0 },
    { 104, 8, 78, 96, MF4_ANSWER, 54 }, { 104, 8, 79, 96, 12, 0 }, { 104, 8, MOST - 95, 96, 12, 0 },
};

static void check_added_blocks(void)
{
    const mf4_table before = cut_to(2, 0);
    size_t i;
    for (i = 0; i < COUNT(added_blocks); i++) {
        const added a = added_blocks[i];
        mf4_table after = before;
        name_row("blocks to be added", i);
        make_cut_file();
        put(a.at, a.number, a.size);
        after.fragment_count = 3, after.data_length = 3 + a.data;
        after.fragments[2].block_addr = a.block_addr, after.fragments[2].data_position = 3;
        if (a.reply == MF4_ANSWER)
            CHECK(extends(&before, a.block_addr, &after));
        else
            CHECK(extension_refused(&before, a.block_addr, a.reply));
    }
}

/* The third block where the file ends early; then a block at the front of a file, and a byte behind it. */
static void check_ends_of_files(void)
{
    static const mf4_table second_byte = { 1, 0, { { 1, 0 } } };
    const mf4_table before = cut_to(2, 0);
    name_case("blocks at both ends of a file");
    make_cut_file();
    cut_file(173);
    CHECK(extension_refused(&before, 147, 12));
    cut_file(171);
    CHECK(extension_refused(&before, 147, 12));
    cut_file(170);
    CHECK(extension_refused(&before, 147, 11));
    start_file(24);
    put_data(0, 0, 0);
    CHECK(extension_refused(&empty_table, 0, 11) && extension_refused(&empty_table, 1, 11));
    start_file(25);
    put_data(1, 0, 0);
    CHECK(extends(&empty_table, 1, &second_byte));
    cut_file(24);
    CHECK(extension_refused(&empty_table, 1, 11));
    start_file(0);
    CHECK(extension_refused(&empty_table, 0, 11) && extension_refused(&empty_table, MOST, 11));
}

void check_tables(void)
{
    check_opening();
    check_full_opening();
    check_refused_behind();
    check_steps(0);
    check_steps(MARK);
    check_last_place();
    check_no_block_to_give_up();
    check_shortened_without_a_file();
    check_added_blocks();
    check_ends_of_files();
}
