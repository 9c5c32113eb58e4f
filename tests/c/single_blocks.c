/* A single data block, as mf4.h shows it: with a list of it over the block that links it, its records and payloads are read;
 * and with an empty table that is extended by it, its records. */
#include "lent_tables.h"
#include "values.h"

#include <string.h>

/* The block that links stands in front of the one that it links, with the 64 bytes of a ##DG block. */
enum { LINKED_BY = 8, BLOCK = 72, LIST_SIZE = 56, SIX_BYTES = 24 + 6 };

/* The lines of mf4.h. Gives where to start: at the list, or at the address itself if another block stands there. */
static uint64_t list_over(uint64_t linked_by, uint8_t *file, size_t file_len, uint64_t address, uint32_t id)
{
    uint64_t start = address;
    mf4_header_reply h = mf4_read_header(file + address, file_len - address);
    if (h.header.id == id) {
        mf4_write_list_equal(0, &address, 1, h.header.block_len - 24, file + linked_by, file_len - linked_by);
        start = linked_by;
    }
    return start;
}

/* Only the list was written. */
static int is_changed_by_list(lent file, size_t at)
{
    return same_bytes(file.bytes, file.before, at) && is_unchanged_from(file, at + LIST_SIZE);
}

/* 01 to 06 in a block, and some bytes of another block behind it. */
static void make_single_file(size_t behind)
{
    start_file(BLOCK + SIX_BYTES + behind);
    put_data(BLOCK, 1, 6);
}

/* The list stands at every alignment. */
static void check_single_records(void)
{
    uint64_t linked_by;
    for (linked_by = LINKED_BY; linked_by <= BLOCK - LIST_SIZE; linked_by++) {
        lent file, buffer = lend_marked(OUTPUT, 4);
        uint64_t start;
        name_number("records of a single block, linked by the one at", linked_by);
        make_single_file(linked_by);
        file = lend_file();
        CHECK(done_is(mf4_read_record(file.bytes, file.length, BLOCK, 0, 4, buffer.bytes, 4), 3, 0));
        start = list_over(linked_by, file.bytes, file.length, BLOCK, MF4_ID_DT);
        CHECK(start == linked_by && is_changed_by_list(file, (size_t)linked_by));
        CHECK(length_is(mf4_data_length(file.bytes, file.length, start), MF4_ANSWER, 0, 6));
        CHECK(done_is(mf4_read_record(file.bytes, file.length, start, 1, 4, buffer.bytes, 4), 16, 0));
        CHECK(is_unchanged(buffer));
        CHECK(done_is(mf4_read_record(file.bytes, file.length, start, 0, 4, buffer.bytes, 4), MF4_ANSWER, 0));
        CHECK(holds_only_hex(buffer, "01 02 03 04"));
    }
}

typedef struct damaged_block {
    uint64_t block_len, link_count;
    uint32_t id, reply;
} damaged_block;

/* A block that the file's end cuts off is refused as one that a list of the file links. */
static const damaged_block damaged_blocks[] = {
    { SIX_BYTES + 1, 0, MF4_ID_DT, 12 }, { SIX_BYTES + LIST_SIZE, 0, MF4_ID_DT, 12 }, { MOST, 0, MF4_ID_DT, 12 },
    { SIX_BYTES, 0, MF4_ID_SD, 3 }, { SIX_BYTES, 0, MF4_ID_DZ, 3 },
    { 23, 0, MF4_ID_DT, 12 }, { 0, 0, MF4_ID_DT, 12 }, { SIX_BYTES, 1, MF4_ID_DT, 12 },
    { 24, 0, MF4_ID_DT, 16 }, { 27, 0, MF4_ID_DT, 16 }, { 28, 0, MF4_ID_DT, MF4_ANSWER },
};

static void make_damaged_file(damaged_block a)
{
    make_single_file(0);
    put(BLOCK, a.id, 4), put(BLOCK + 8, a.block_len, 8), put(BLOCK + 16, a.link_count, 8);
}

static void check_damaged_blocks(void)
{
    size_t i;
    for (i = 0; i < COUNT(damaged_blocks); i++) {
        const damaged_block a = damaged_blocks[i];
        lent file, buffer = lend_marked(OUTPUT, 4);
        uint64_t start;
        name_row("damaged single blocks", i);
        make_damaged_file(a);
        file = lend_file();
        start = list_over(LINKED_BY, file.bytes, file.length, BLOCK, MF4_ID_DT);
        CHECK(done_is(mf4_read_record(file.bytes, file.length, start, 0, 4, buffer.bytes, 4), a.reply, 0));
        CHECK(a.reply == MF4_ANSWER ? holds_only_hex(buffer, "01 02 03 04") : is_unchanged(buffer));
    }
}

/* A linking block that has not the room for a list, at the file's end. */
static void check_no_room_for_list(void)
{
    lent file, buffer = lend_marked(OUTPUT, 4);
    uint64_t start;
    name_case("a single block, and no room for its list");
    make_single_file(LIST_SIZE - 1);
    file = lend_file();
    start = list_over(BLOCK + SIX_BYTES, file.bytes, file.length, BLOCK, MF4_ID_DT);
    CHECK(done_is(mf4_read_record(file.bytes, file.length, start, 0, 4, buffer.bytes, 4), 3, 0));
    CHECK(is_unchanged(file) && is_unchanged(buffer));
}

static mf4_table table;

/* The lines of mf4.h. */
static mf4_done_reply table_of_block(const uint8_t *file, size_t file_len, uint64_t address)
{
    mf4_done_reply done;
    memset(&table, 0, sizeof table);
    done = mf4_extend_table(file, file_len, address, &table);
    return done;
}

static const uint8_t six_bytes[] = { 1, 2, 3, 4, 5, 6 };

static void check_single_table(void)
{
    lent file;
    name_case("the table of a single block");
    make_single_file(0);
    file = lend_file();
    CHECK(done_is(table_of_block(file.bytes, file.length, BLOCK), MF4_ANSWER, 0));
    CHECK(table_fetches(&table, 0, six_bytes, 4) && table_refuses(&table, 1, 4, 16));
    CHECK(table_fetches(&table, 0, six_bytes, 2) && table_fetches(&table, 1, six_bytes + 2, 2));
    CHECK(table_fetches(&table, 2, six_bytes + 4, 2) && table_refuses(&table, 3, 2, 16));
}

/* One of another kind, which no list is written for, is refused as one that is damaged, and the table stays empty. */
static void check_damaged_tables(void)
{
    size_t i;
    for (i = 0; i < COUNT(damaged_blocks); i++) {
        const uint32_t reply = damaged_blocks[i].reply;
        const int is_taken = reply == MF4_ANSWER || reply == 16;
        lent file;
        name_row("tables of damaged single blocks", i);
        make_damaged_file(damaged_blocks[i]);
        file = lend_file();
        CHECK(done_is(table_of_block(file.bytes, file.length, BLOCK), is_taken ? MF4_ANSWER : 12, 0));
        CHECK(is_taken || same_bytes(&table, &empty_table, sizeof table));
        CHECK(reply == MF4_ANSWER ? table_fetches(&table, 0, six_bytes, 4) : table_refuses(&table, 0, 4, 16));
    }
}

/* One record in a single block, the position 7, and there in another single block the payload PX1; then the same with the
 * payload cut off. */
static void check_single_payloads(size_t cut)
{
    static const expected text = TEXT_STANDS(0, 3);
    const mf4_group group = group_of(0, 8, 0);
    mf4_channel channel = { MF4_TYPE_UTF8, MF4_CHANNEL_VARIABLE_LENGTH, 0, 0, 64, 0, 0, 0 };
    uint8_t position[8], stream[14];
    lent file, record = lend_marked(OUTPUT, 8), payload = lend_marked(TWIN_OUTPUT, 5);
    size_t linked_by, second;
    uint64_t start;
    mf4_payload_reply p;
    name_number("a payload of a single block, without its last bytes", cut);
    from_hex("07 00 00 00 00 00 00 00", position);
    from_hex("FF FF FF FF FF FF FF 03 00 00 00 50 58 31", stream);
    start_file(0);
    linked_by = put_data_of(BLOCK, "##DT", position, sizeof position);
    second = linked_by + LIST_SIZE;
    cut_file(put_data_of(second, "##SD", stream, sizeof stream) - cut);
    file = lend_file();
    start = list_over(LINKED_BY, file.bytes, file.length, BLOCK, MF4_ID_DT);
    channel.data_addr = second;
    p = mf4_record_payload(file.bytes, file.length, start, 0, 8, group, channel, record.bytes, 8, payload.bytes, 5);
    CHECK(payload_refused(p, 3, 0));
    channel.data_addr = list_over(linked_by, file.bytes, file.length, second, MF4_ID_SD);
    p = mf4_record_payload(file.bytes, file.length, start, 0, 8, group, channel, record.bytes, 8, payload.bytes, 5);
    CHECK(cut == 0 ? payload_is(p, text, 3, 1) : payload_refused(p, 12, 0));
    CHECK(cut == 0 ? holds_only_hex(payload, "50 58 31") : is_unchanged(payload));
}

void check_single_blocks(void)
{
    size_t cut;
    check_single_records();
    check_damaged_blocks();
    check_no_room_for_list();
    check_single_table();
    check_damaged_tables();
    for (cut = 0; cut <= 14; cut++)
        check_single_payloads(cut);
}
