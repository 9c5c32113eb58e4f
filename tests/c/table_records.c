/* Records and values through tables: of every cut, of tables that no opening makes, and of a file that a table is not of. */
#include "lent_tables.h"
#include "values.h"

enum { MOST_JOINED = 1 << 14 };

/* ---- every record ----------------------------------------------------------------------------------------------- */

/* Every record of every size, and the one behind the last. */
static void check_joined(const mf4_table *table, const uint8_t *joined, size_t length)
{
    size_t size, number;
    for (size = 1; size <= length + 1; size++) {
        for (number = 0; number < length / size; number++)
            CHECK(table_fetches(table, number, joined + number * size, size));
        CHECK(table_refuses(table, number, size, 16));
    }
}

/* Tables with the cut file, and the data that they join. */
static const struct { mf4_table table; const char *joined; } made_tables[] = {
    { { 3, 6, { { 96, 0 }, { 123, 3 }, { 147, 3 } } }, "01 02 03 04 05 06" },
    /* blocks in another order, twice, in part, and one over the other */
    { { 2, 6, { { 147, 0 }, { 96, 3 } } }, "04 05 06 01 02 03" },
    { { 3, 8, { { 96, 0 }, { 96, 3 }, { 147, 6 } } }, "01 02 03 01 02 03 04 05" },
    { { 2, 4, { { 96, 0 }, { 97, 2 } } }, "01 02 02 03" },
    /* bytes that are no block's data: at the front, of a list, of a block's header, and the last one */
    { { 1, 2, { { 0, 0 } } }, "04 00" }, { { 1, 1, { { 16, 0 } } }, "60" }, { { 1, 5, { { 98, 0 } } }, "03 23 23 44 54" },
    { { 1, 1, { { 149, 0 } } }, "06" },
    /* fragments without data: in front, between, behind, and nothing else */
    { { 6, 3, { { 150, 0 }, { 0, 0 }, { 96, 0 }, { 150, 3 }, { 1, 3 }, { 150, 3 } } }, "01 02 03" },
    { { 5, 3, { { 96, 0 }, { 150, 1 }, { 97, 1 }, { 0, 2 }, { 98, 2 } } }, "01 02 03" },
    { { 2, 0, { { 96, 0 }, { 150, 0 } } }, "" }, { { 0, 0, { { 0, 0 } } }, "" }, { { 0, 0, { { MOST, MOST } } }, "" },
    /* places that are not in use */
    { { 1, 3, { { 96, 0 }, { MOST, 0 }, { 0, MOST } } }, "01 02 03" },
};

static void check_made_tables(void)
{
    uint8_t six[6];
    size_t i;
    make_cut_file();
    for (i = 0; i < COUNT(made_tables); i++) {
        uint8_t joined[16];
        const size_t length = from_hex(made_tables[i].joined, joined);
        name_row("tables that no opening makes", i);
        check_joined(&made_tables[i].table, joined, length);
    }
    name_case("headers are not read again");
    put(96, MOST, 8), put(104, MOST, 8), put(112, MOST, 8), put(8, MOST, 8);
    CHECK(table_fetches(&cut_table, 0, six, from_hex("01 02 03 04 05 06", six)));
}

/* ---- many fragments --------------------------------------------------------------------------------------------- */

/* So that bytes of any two places near each other, or 256 bytes apart, differ. */
static uint8_t byte_of(size_t position) { return (uint8_t)(7 * position + position / 256); }

/* 512 blocks, some of them without data, in a row. */
static mf4_table lay_many_blocks(uint8_t *joined)
{
    mf4_table table = empty_table;
    size_t at = 8, i;
    start_file(0);
    for (; table.fragment_count < MF4_MAX_TABLE_FRAGMENTS; table.fragment_count++) {
        const size_t size = table.fragment_count % 7 < 2 ? 0 : 1 + table.fragment_count * 5 % 40;
        mf4_fragment *fragment = &table.fragments[table.fragment_count];
        fragment->block_addr = at, fragment->data_position = table.data_length;
        for (i = 0; i < size; i++)
            joined[table.data_length + i] = byte_of((size_t)table.data_length + i);
        at = put_data_of(at, "##DT", joined + table.data_length, size);
        table.data_length += size;
    }
    cut_file(at);
    return table;
}

static int are_all_fetched(lent file, lent table, const uint8_t *joined, size_t size)
{
    const uint64_t count = table_in(table)->data_length / size;
    lent buffer = lend_marked(OUTPUT, size);
    int is_right = 1;
    uint64_t number;
    for (number = 0; number < count; number++)
        is_right &= done_is(fetch_by(file, table, number, size, buffer), MF4_ANSWER, 0)
            && same_bytes(buffer.bytes, joined + number * size, size);
    return is_right && done_is(fetch_by(file, table, number, size, buffer), 16, 0);
}

static void check_many_blocks(void)
{
    static const size_t sizes[] = { 1, 2, 3, 39, 40, 41, 256, 1000, 4001 };
    static uint8_t joined[MOST_JOINED];
    const mf4_table many = lay_many_blocks(joined);
    lent file = lend_file(), table = lend_table(&many);
    size_t i;
    for (i = 0; i < COUNT(sizes); i++) {
        name_number("records through 512 fragments, of size", sizes[i]);
        CHECK(are_all_fetched(file, table, joined, sizes[i]));
    }
    name_case("all data of 512 fragments");
    CHECK(table_fetches(&many, 0, joined, (size_t)many.data_length));
}

/* 512 times 32 bytes, which begin 3 bytes behind those before them, or where the first ones do. */
static void check_largest_record(void)
{
    static uint8_t joined[MF4_MAX_RECORD_SIZE];
    const mf4_table full = evenly_cut(MF4_MAX_TABLE_FRAGMENTS, 32, 8, 3);
    size_t i;
    name_case("a record of 16,384 bytes in 512 fragments");
    start_file(0);
    cut_file(put_data(8, 1, 32 + 7 * 3));
    for (i = 0; i < sizeof joined; i++)
        joined[i] = (uint8_t)(1 + i / 32 % 8 * 3 + i % 32);
    CHECK(table_fetches(&full, 0, joined, sizeof joined));
    CHECK(table_refuses(&full, 1, sizeof joined, 16));
}

/* ---- what is refused -------------------------------------------------------------------------------------------- */

static void check_sizes(void)
{
    static const struct { uint64_t size; size_t room; } sizes[] = {
        { 0, 6 }, { 0, 0 }, { 1, 0 }, { 7, 6 }, { MOST, 6 }, { (UINT64_C(1) << 32) + 6, 6 },
        { 16384, 16383 }, { 16385, 16385 },
    };
    size_t i;
    make_cut_file();
    for (i = 0; i < COUNT(sizes); i++) {
        name_row("record sizes and buffers, through a table", i);
        CHECK(table_refuses_into(sizes[i].room, &cut_table, 0, sizes[i].size, 15));
        CHECK(table_refuses_into(sizes[i].room, &cut_table, MOST, sizes[i].size, 15));
    }
}

/* Behind the last record, and far behind: with products that wrap to 0. */
static void check_numbers(void)
{
    static const struct { uint64_t number, size; } behind[] = {
        { 3, 2 }, { 6, 1 }, { 1, 4 }, { 1, 6 }, { 0, 7 }, { 0, 16384 }, { MOST, 1 }, { MOST, 2 }, { MOST, 16384 },
        { UINT64_C(1) << 63, 2 }, { UINT64_C(1) << 62, 4 }, { (UINT64_C(1) << 63) + 1, 2 }, { UINT64_C(1) << 50, 16384 },
    };
    size_t i;
    make_cut_file();
    for (i = 0; i < COUNT(behind); i++) {
        name_row("numbers behind the last record, through a table", i);
        CHECK(table_refuses(&cut_table, behind[i].number, behind[i].size, 16));
    }
}

/* ---- another file ----------------------------------------------------------------------------------------------- */

/* Tables of the cut file, where the last of their fragments ends there, and the data that they join. */
static const struct { mf4_table table; size_t end; const char *joined; } ended_tables[] = {
    { { 1, 3, { { 96, 0 } } }, 123, "01 02 03" }, { { 2, 3, { { 96, 0 }, { 123, 3 } } }, 147, "01 02 03" },
    { { 3, 6, { { 96, 0 }, { 123, 3 }, { 147, 3 } } }, 174, "01 02 03 04 05 06" },
    { { 2, 6, { { 147, 0 }, { 96, 3 } } }, 174, "04 05 06 01 02 03" },
    { { 3, 3, { { 150, 0 }, { 96, 0 }, { 0, 3 } } }, 174, "01 02 03" },
    { { 1, 0, { { 0, 0 } } }, 24, "" }, { { 0, 0, { { 0, 0 } } }, 0, "" },
};

/* A file that is cut anywhere: the table is refused if one of its fragments is not whole, and else nothing outside is read. */
static void check_shorter_files(void)
{
    size_t i, length;
    for (i = 0; i < COUNT(ended_tables); i++) {
        const mf4_table *table = &ended_tables[i].table;
        uint8_t joined[8];
        const size_t joined_length = from_hex(ended_tables[i].joined, joined);
        name_row("a table, and a file that is cut", i);
        make_cut_file();
        for (length = 0; length <= 174; length++) {
            cut_file(length);
            if (length < ended_tables[i].end)
                CHECK(table_refuses(table, 0, 1, 32) && extension_refused(table, 96, 32));
            else
                check_joined(table, joined, joined_length);
        }
    }
}

static void check_other_files(void)
{
    static const mf4_table equal = { 3, 8, { { 80, 0 }, { 107, 3 }, { 134, 6 } } };
    uint8_t others[8];
    name_case("the table of another file");
    from_hex("1B 00 00 18 00 00 00 00", others);
    make_cut_file();
    check_joined(&equal, others, sizeof others);
    make_equal_file();
    CHECK(table_refuses(&cut_table, 0, 1, 32) && extension_refused(&cut_table, 80, 32));
}

/* ---- as mf4.h shows it ------------------------------------------------------------------------------------------ */

/* The lines of mf4.h. Gives how many records there are. */
static uint64_t records_of(const uint8_t *file, size_t file_len, uint64_t start, uint64_t record_size)
{
    uint8_t buffer[8];
    uint64_t number = 0;
    static mf4_table table;
    if (mf4_open_table(file, file_len, start, &table).reply == MF4_ANSWER)
        while (mf4_table_record(file, file_len, &table, number, record_size, buffer, sizeof buffer).reply == MF4_ANSWER)
            number++;
    return number;
}

static void check_lines(void)
{
    lent file;
    name_case("records counted through a table");
    make_cut_file();
    file = lend_file();
    CHECK(records_of(file.bytes, file.length, START, 1) == 6 && records_of(file.bytes, file.length, START, 2) == 3);
    CHECK(records_of(file.bytes, file.length, START, 4) == 1 && records_of(file.bytes, file.length, START, 7) == 0);
    CHECK(records_of(file.bytes, file.length, 96, 1) == 0);
}

void check_table_records(void)
{
    check_made_tables();
    check_many_blocks();
    check_largest_record();
    check_sizes();
    check_numbers();
    check_shorter_files();
    check_other_files();
    check_lines();
}
