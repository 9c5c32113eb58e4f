/* A file of 2^40 bytes, and of one more. */
#define _DEFAULT_SOURCE
#include "lent_tables.h"
#include "values.h"

#include <stdio.h>
#include <sys/mman.h>
#include <unistd.h>

/* The address space is reserved and hardly touched: what is read there, and not written before, is zeros. */
static uint8_t *reserve(size_t length)
{
    uint8_t *file = mmap(NULL, length, PROT_READ, MAP_PRIVATE | MAP_ANONYMOUS | MAP_NORESERVE, -1, 0);
    return file == MAP_FAILED ? NULL : file;
}

typedef struct long_case {
    size_t length;
    uint64_t start;
    uint32_t reply;
} long_case;

#define LONGEST ((size_t)MF4_MAX_FILE_SIZE)

/* Nothing of a file that is too long is looked at, its start neither. */
static const long_case long_cases[] = {
    { LONGEST + 1, 8, 7 }, { LONGEST + 1, 0, 7 }, { SIZE_MAX, 8, 7 },
    { LONGEST, 0, 11 }, { LONGEST, LONGEST - 23, 11 }, { LONGEST, LONGEST - 24, 3 },
};

static const mf4_channel byte = FIELD(MF4_TYPE_UNSIGNED_LE, 0, 0, 8), position = PAYLOAD(MF4_TYPE_UTF8, 0, 64);
static const mf4_group group = { 0, 8, 0 };

static mf4_payload_reply ask_payload(const uint8_t *file, long_case a, uint64_t record_size, mf4_channel channel,
                                     lent buffer)
{
    return mf4_record_payload(file, a.length, a.start, 0, record_size, group, channel, buffer.bytes, 8, NULL, 0);
}

static void check_long_file(const uint8_t *file, long_case a)
{
    lent buffer = lend_marked(OUTPUT, 8);
    CHECK(length_is(mf4_data_length(file, a.length, a.start), a.reply, 0, 0));
    CHECK(done_is(mf4_read_record(file, a.length, a.start, 0, 8, buffer.bytes, 8), a.reply, 0));
    CHECK(done_is(mf4_read_record(file, a.length, a.start, 0, 9, buffer.bytes, 8), 15, 0));
    CHECK(valid_value_refused(mf4_record_value(file, a.length, a.start, 0, 8, group, byte, buffer.bytes, 8), a.reply, 0));
    CHECK(valid_value_refused(mf4_record_value(file, a.length, a.start, 0, 9, group, byte, buffer.bytes, 8), 15, 0));
    CHECK(mf4_report(file, a.length, a.start, 8, group, byte, buffer.bytes, 8).reply == a.reply);
    CHECK(mf4_report(file, a.length, a.start, 8, group, position, buffer.bytes, 8).reply == a.reply);
    CHECK(mf4_report(file, a.length, a.start, 9, group, byte, buffer.bytes, 8).reply == 15);
    CHECK(payload_refused(ask_payload(file, a, 8, position, buffer), a.reply, 0));
    CHECK(payload_refused(ask_payload(file, a, 9, position, buffer), 15, 0));
    CHECK(payload_refused(ask_payload(file, a, 9, byte, buffer), 35, 0));
    CHECK(is_unchanged(buffer));
}

/* Its length comes before what is wrong with the table, and behind the record's size. */
static void check_long_file_of_table(const uint8_t *file, long_case a)
{
    static const mf4_table bad = { 0, 1, { { 0, 0 } } };
    const uint32_t reply = a.reply == 7 ? 7 : 32;
    lent buffer = lend_marked(OUTPUT, 8), table = lend_marked(TABLE, sizeof bad);
    CHECK(done_is(mf4_open_table(file, a.length, a.start, table_in(table)), a.reply, 0) && is_unchanged(table));
    table = lend_table(&bad);
    CHECK(done_is(mf4_extend_table(file, a.length, a.start, table_in(table)), reply, 0));
    CHECK(done_is(mf4_table_record(file, a.length, table_in(table), 0, 8, buffer.bytes, 8), reply, 0));
    CHECK(done_is(mf4_table_record(file, a.length, table_in(table), 0, 9, buffer.bytes, 8), 15, 0));
    CHECK(valid_value_refused(mf4_table_value(file, a.length, table_in(table), 0, 8, group, byte, buffer.bytes, 8), reply, 0));
    CHECK(valid_value_refused(mf4_table_value(file, a.length, table_in(table), 0, 9, group, byte, buffer.bytes, 8), 15, 0));
    CHECK(is_unchanged(table) && is_unchanged(buffer));
}

typedef struct long_table {
    mf4_table table;
    uint64_t number;
    uint32_t reply;
} long_table;

/* Up to the last byte of the longest file, and one byte behind it. */
static const long_table long_tables[] = {
    { { 1, 1, { { LONGEST - 25, 0 } } }, 0, 0 }, { { 1, 1, { { LONGEST - 24, 0 } } }, 0, 32 },
    { { 1, 0, { { LONGEST - 24, 0 } } }, 0, 16 }, { { 1, 0, { { LONGEST - 23, 0 } } }, 0, 32 },
    { { 1, LONGEST - 24, { { 0, 0 } } }, LONGEST - 25, 0 }, { { 1, LONGEST - 24, { { 0, 0 } } }, LONGEST - 24, 16 },
    { { 1, LONGEST - 23, { { 0, 0 } } }, 0, 32 }, { { 2, LONGEST, { { 0, 0 }, { 16, LONGEST - 24 } } }, LONGEST - 1, 0 },
};

static void check_long_table(const uint8_t *file, long_table a)
{
    lent table = lend_table(&a.table), buffer = lend_marked(OUTPUT, 1);
    const int is_bad = a.reply == 32;
    CHECK(done_is(mf4_table_record(file, LONGEST, table_in(table), a.number, 1, buffer.bytes, 1), a.reply, 0));
    CHECK(buffer.bytes[0] == (a.reply == MF4_ANSWER ? 0 : MARK));
    CHECK(done_is(mf4_extend_table(file, LONGEST, LONGEST - 23, table_in(table)), is_bad ? 32 : 11, 0));
    CHECK(done_is(mf4_extend_table(file, LONGEST, LONGEST - 24, table_in(table)), is_bad ? 32 : 12, 0));
    CHECK(is_unchanged(table));
}

/* One block that fills the longest file, listed as often as a chain may list it: the most data that a chain can join. The
 * block's last byte is 5A, and all others are 0. */
enum { LIST_AT = 8, BLOCK_AT = 1 << 17, WRITTEN = BLOCK_AT + MF4_HEADER_SIZE };

static const uint64_t block_size = LONGEST - WRITTEN;

static int can_be_written(uint8_t *file)
{
    const size_t page = (size_t)sysconf(_SC_PAGESIZE);
    return mprotect(file, WRITTEN, PROT_READ | PROT_WRITE) == 0
        && mprotect(file + LONGEST - page, page, PROT_READ | PROT_WRITE) == 0;
}

static void put_most_data(uint8_t *file, int is_equal)
{
    static uint64_t links[MF4_MAX_FRAGMENTS], offsets[MF4_MAX_FRAGMENTS];
    const mf4_header header = { MF4_ID_DT, 0, MF4_HEADER_SIZE + block_size, 0 };
    uint64_t i;
    for (i = 0; i < MF4_MAX_FRAGMENTS; i++)
        links[i] = BLOCK_AT, offsets[i] = i * block_size;
    if (is_equal)
        mf4_write_list_equal(0, links, COUNT(links), block_size, file + LIST_AT, BLOCK_AT - LIST_AT);
    else
        mf4_write_list_variable(0, links, COUNT(links), offsets, COUNT(offsets), file + LIST_AT, BLOCK_AT - LIST_AT);
    mf4_write_header(header, file + BLOCK_AT, MF4_HEADER_SIZE);
    file[LONGEST - 1] = 0x5A;
}

static int long_record_is(const uint8_t *file, uint64_t number, uint64_t size, uint32_t reply, const char *record)
{
    lent buffer = lend_marked(OUTPUT, 16);
    const mf4_done_reply done = mf4_read_record(file, LONGEST, LIST_AT, number, size, buffer.bytes, buffer.length);
    return done_is(done, reply, 0) && holds_only_hex(buffer, record);
}

/* Its length; records that end with the data, or lie over two fragments; and none behind, also where number x size wraps. */
static void check_most_data(const uint8_t *file)
{
    const uint64_t most = MF4_MAX_FRAGMENTS * block_size;
    CHECK(most < UINT64_C(1) << 52 && most > (UINT64_C(1) << 52) - (UINT64_C(1) << 30));
    CHECK(length_is(mf4_data_length(file, LONGEST, LIST_AT), 0, 0, most));
    CHECK(long_record_is(file, most - 1, 1, 0, "5A") && long_record_is(file, most, 1, 16, ""));
    CHECK(long_record_is(file, most / 4 - 1, 4, 0, "00 00 00 5A") && long_record_is(file, most / 4, 4, 16, ""));
    CHECK(long_record_is(file, block_size / 16, 16, 0, "00 00 00 00 00 00 00 5A 00 00 00 00 00 00 00 00"));
    CHECK(long_record_is(file, UINT64_C(1) << 60, 16, 16, "") && long_record_is(file, MOST, 16, 16, ""));
}

static void check_longest_chain(uint8_t *file)
{
    int is_equal;
    if (!can_be_written(file)) {
        puts("limits: note: 2^40 bytes cannot be written here, the most data of a chain is not checked");
        return;
    }
    for (is_equal = 0; is_equal <= 1; is_equal++) {
        name_row("the most data of a chain", (size_t)is_equal);
        put_most_data(file, is_equal);
        check_most_data(file);
    }
}

void check_long_files(void)
{
    uint8_t *file = reserve(LONGEST + 1);
    size_t i;
    if (file == NULL) {
        puts("limits: note: 2^40 bytes of address space cannot be had here, reply 7 is not checked");
        return;
    }
    for (i = 0; i < COUNT(long_cases); i++) {
        name_row("files of 2^40 bytes and one more", i);
        check_long_file(file, long_cases[i]);
        check_long_file_of_table(file, long_cases[i]);
    }
    for (i = 0; i < COUNT(long_tables); i++) {
        name_row("tables of a file of 2^40 bytes", i);
        check_long_table(file, long_tables[i]);
    }
    check_longest_chain(file);
    munmap(file, LONGEST + 1);
}
