/* Tables that cannot be right, or not of their file (32): each number of a table at its limits and one past them. */
#include "lent_tables.h"

#include <string.h>

/* A file with one block, whose data is cut into fragments of two bytes. */
enum { BLOCK = 8, DATA = 32, FILE_LENGTH = BLOCK + 24 + DATA, CUT = 2 };

static void make_block_file(void)
{
    start_file(FILE_LENGTH);
    put_data(BLOCK, 1, DATA);
}

static mf4_table whole_table(size_t count) { return evenly_cut(count, CUT, 1, 1); }

/* ---- what is due of a table ------------------------------------------------------------------------------------- */

/* It passes; it does where no file is given; or never. */
enum verdict { PASSES, PAST_THE_FILE, BAD };

static uint64_t end_of(const mf4_table *table, uint64_t place)
{
    return place + 1 < table->fragment_count ? table->fragments[place + 1].data_position : table->data_length;
}

/* The data byte by byte, of a table that passes. */
static int gives_its_data(const mf4_table *table)
{
    uint8_t joined[MF4_MAX_RECORD_SIZE];
    lent file = lend_file();
    uint64_t place, at;
    for (place = 0; place < table->fragment_count; place++)
        for (at = table->fragments[place].data_position; at < end_of(table, place); at++)
            joined[at] = file.bytes[table->fragments[place].block_addr + 24 + at - table->fragments[place].data_position];
    return table->data_length == 0 || table_fetches(table, 0, joined, (size_t)table->data_length);
}

static int is_extended(const mf4_table *table)
{
    const mf4_fragment added = { BLOCK, table->data_length };
    mf4_table after = *table;
    if (table->fragment_count == MF4_MAX_TABLE_FRAGMENTS)
        return extension_refused(table, BLOCK, 30);
    after.fragments[after.fragment_count++] = added;
    after.data_length += DATA;
    return extends(table, BLOCK, &after);
}

static int is_shortened(const mf4_table *table)
{
    mf4_table after = *table;
    if (table->fragment_count == 0)
        return shortening_refused(table, 31);
    after.data_length = after.fragments[--after.fragment_count].data_position;
    after.fragments[after.fragment_count] = empty_table.fragments[0];
    return shortens(table, &after);
}

/* Where it is refused, that comes before an address and a record that would be refused too. */
static void check_verdict(const mf4_table *table, enum verdict verdict)
{
    CHECK(verdict == BAD ? shortening_refused(table, 32) : is_shortened(table));
    if (verdict == PASSES) {
        CHECK(is_extended(table) && gives_its_data(table) && table_refuses(table, table->data_length, 1, 16));
        return;
    }
    CHECK(extension_refused(table, BLOCK, 32) && extension_refused(table, 0, 32) && extension_refused(table, 1, 32));
    CHECK(table_refuses(table, 0, 1, 32) && table_refuses(table, MOST, MF4_MAX_RECORD_SIZE, 32));
    CHECK(table_refuses_into(0, table, 0, 1, 15));
}

static void check_number(mf4_table *table, uint64_t *word, uint64_t number, enum verdict verdict)
{
    const uint64_t kept = *word;
    *word = number;
    check_verdict(table, verdict);
    *word = kept;
}

/* ---- one number changed ----------------------------------------------------------------------------------------- */

#define WITH_FILE(address) ((address) <= FILE_LENGTH - 24 - CUT ? PASSES : PAST_THE_FILE)

/* Sums that pass the file's end by one, by much, and that would wrap to 0 and to what stands inside. */
static void check_addresses(mf4_table *table, size_t place)
{
    static const uint64_t addresses[] = {
        0, FILE_LENGTH - 24 - CUT, FILE_LENGTH - 24 - CUT + 1, FILE_LENGTH - 24, FILE_LENGTH, UINT64_C(1) << 32,
        UINT64_C(1) << 63, MOST - 24 - CUT, MOST - 24 - CUT + 1, MOST - 24, MOST - 23, MOST - CUT, MOST,
    };
    size_t i;
    for (i = 0; i < COUNT(addresses); i++)
        check_number(table, &table->fragments[place].block_addr, addresses[i], WITH_FILE(addresses[i]));
}

/* From the position before up to the next one, and for the first place 0 alone. */
static void check_positions(mf4_table *table, size_t place)
{
    const uint64_t low = place > 0 ? table->fragments[place - 1].data_position : 0;
    const uint64_t high = place > 0 ? end_of(table, place) : 0;
    uint64_t *position = &table->fragments[place].data_position;
    check_number(table, position, low, PASSES);
    check_number(table, position, low - 1, BAD);
    check_number(table, position, high, PASSES);
    check_number(table, position, high + 1, BAD);
    check_number(table, position, *position + (UINT64_C(1) << 32), BAD);
    check_number(table, position, *position + (UINT64_C(1) << 63), BAD);
    check_number(table, position, MOST, BAD);
}

/* From the last position up to where the last fragment's data reaches the file's end. */
static void check_lengths(mf4_table *table)
{
    const mf4_fragment last = table->fragments[table->fragment_count - 1];
    const uint64_t low = last.data_position, high = low + FILE_LENGTH - 24 - last.block_addr;
    check_number(table, &table->data_length, low, PASSES);
    check_number(table, &table->data_length, low - 1, low > 0 ? BAD : PAST_THE_FILE);
    check_number(table, &table->data_length, high, PASSES);
    check_number(table, &table->data_length, high + 1, PAST_THE_FILE);
    check_number(table, &table->data_length, low + (UINT64_C(1) << 32), PAST_THE_FILE);
    check_number(table, &table->data_length, low + (UINT64_C(1) << 63), PAST_THE_FILE);
    check_number(table, &table->data_length, MOST, PAST_THE_FILE);
    /* an end of 2^64, which would wrap to 0; behind much data a length below the last position */
    check_number(table, &table->data_length, low - 24 - last.block_addr, low > 24 + last.block_addr ? BAD : PAST_THE_FILE);
}

/* With one fragment more the place behind the last is in use, and its position, 0, falls, except behind the first. */
static void check_counts(mf4_table *table)
{
    static const uint64_t others[] = { 513, 514, 1024, 4096, UINT64_C(1) << 32, UINT64_C(1) << 63, MOST };
    const uint64_t count = table->fragment_count;
    size_t i;
    check_number(table, &table->fragment_count, 0, BAD);
    check_number(table, &table->fragment_count, count - 1, count > 1 ? PASSES : BAD);
    check_number(table, &table->fragment_count, count + 1, count > 1 ? BAD : PASSES);
    check_number(table, &table->fragment_count, count + (UINT64_C(1) << 32), BAD);
    check_number(table, &table->fragment_count, count + (UINT64_C(1) << 63), BAD);
    for (i = 0; i < COUNT(others); i++)
        check_number(table, &table->fragment_count, others[i], BAD);
}

static void check_places(size_t count, const size_t *places, size_t place_count)
{
    mf4_table table = whole_table(count);
    size_t i;
    name_number("a table with one number changed, its fragments", count);
    check_verdict(&table, PASSES);
    check_counts(&table);
    check_lengths(&table);
    for (i = 0; i < place_count; i++) {
        check_addresses(&table, places[i]);
        check_positions(&table, places[i]);
    }
}

static void check_one_number(void)
{
    static const size_t few[] = { 0, 1, 2 }, many[] = { 0, 1, 2, 255, 256, 257, 510, 511 };
    make_block_file();
    check_places(1, few, 1);
    check_places(2, few, 2);
    check_places(3, few, 3);
    check_places(511, many, COUNT(many) - 1);
    check_places(512, many, COUNT(many));
}

/* ---- tables as a whole ------------------------------------------------------------------------------------------ */

static const struct { mf4_table table; enum verdict verdict; } tables[] = {
    /* no fragment: no data either, whatever stands in the places */
    { { 0, 0, { { 0, 0 } } }, PASSES }, { { 0, 0, { { MOST, MOST }, { MOST, 1 } } }, PASSES },
    { { 0, 1, { { 0, 0 } } }, BAD }, { { 0, MOST, { { 0, 0 } } }, BAD }, { { 0, 2, { { 1, 0 } } }, BAD },
    /* a fragment without data must end inside as well: first, in the middle, last and alone */
    { { 1, 0, { { 40, 0 } } }, PASSES }, { { 1, 0, { { 41, 0 } } }, PAST_THE_FILE },
    { { 1, 0, { { MOST, 0 } } }, PAST_THE_FILE }, { { 1, 0, { { MOST - 23, 0 } } }, PAST_THE_FILE },
    { { 2, 2, { { 40, 0 }, { 1, 0 } } }, PASSES }, { { 2, 2, { { 41, 0 }, { 1, 0 } } }, PAST_THE_FILE },
    { { 2, 2, { { MOST - 23, 0 }, { 1, 0 } } }, PAST_THE_FILE },
    { { 3, 4, { { 1, 0 }, { 40, 2 }, { 2, 2 } } }, PASSES }, { { 3, 4, { { 1, 0 }, { 41, 2 }, { 2, 2 } } }, PAST_THE_FILE },
    { { 3, 4, { { 1, 0 }, { MOST, 2 }, { 2, 2 } } }, PAST_THE_FILE },
    { { 2, 2, { { 1, 0 }, { 40, 2 } } }, PASSES }, { { 2, 2, { { 1, 0 }, { 41, 2 } } }, PAST_THE_FILE },
    { { 2, 2, { { 1, 0 }, { MOST - 23, 2 } } }, PAST_THE_FILE },
    /* much data: all of the file behind 24 bytes, and more than any file has, with sums that would wrap */
    { { 1, 40, { { 0, 0 } } }, PASSES }, { { 1, 41, { { 0, 0 } } }, PAST_THE_FILE },
    { { 1, MOST, { { 0, 0 } } }, PAST_THE_FILE }, { { 1, MOST - 23, { { 0, 0 } } }, PAST_THE_FILE },
    { { 1, MOST - 23, { { 2, 0 } } }, PAST_THE_FILE },
    { { 2, MOST, { { 0, 0 }, { 0, MOST } } }, PAST_THE_FILE }, { { 2, MOST, { { MOST, 0 }, { MOST, 0 } } }, PAST_THE_FILE },
    { { 2, MOST - 20, { { 0, 0 }, { 0, MOST - 23 } } }, PAST_THE_FILE },
    /* positions that fall, below the first, though both ends are right */
    { { 3, 4, { { 1, 0 }, { 1, 3 }, { 1, 2 } } }, BAD }, { { 4, 8, { { 1, 0 }, { 1, 4 }, { 1, 2 }, { 1, 6 } } }, BAD },
    { { 2, 4, { { 1, 2 }, { 1, 4 } } }, BAD }, { { 2, 4, { { 1, 2 }, { 1, 2 } } }, BAD }, { { 1, 4, { { 1, 4 } } }, BAD },
    /* both at once: what is wrong without a file is so with one */
    { { 2, 4, { { MOST, 0 }, { 1, 5 } } }, BAD }, { { 2, 4, { { MOST, 1 }, { 1, 2 } } }, BAD },
};

static void check_whole_tables(void)
{
    size_t i;
    make_block_file();
    for (i = 0; i < COUNT(tables); i++) {
        name_row("tables as a whole", i);
        check_verdict(&tables[i].table, tables[i].verdict);
    }
}

/* A full table that is bad besides, and one that is not. */
static void check_full_tables(void)
{
    mf4_table full = whole_table(MF4_MAX_TABLE_FRAGMENTS);
    name_case("a full table");
    make_block_file();
    CHECK(extension_refused(&full, BLOCK, 30) && extension_refused(&full, 1, 12) && extension_refused(&full, 0, 11));
    full.fragments[MF4_MAX_TABLE_FRAGMENTS - 1].block_addr = FILE_LENGTH - 24 - CUT + 1;
    check_verdict(&full, PAST_THE_FILE);
    memset(&full, MARK, sizeof full);
    check_verdict(&full, BAD);
}

void check_bad_tables(void)
{
    check_one_number();
    check_whole_tables();
    check_full_tables();
}
