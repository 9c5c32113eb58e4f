/* Tables through histories: opened, extended and shortened, with a number of the table or of the file changed now and then,
 * and with as much of the file as is given. Each step is held against the slow table, and so are records and values. */
#include "log_file.h"

#include <string.h>

#include "slow_tables.h"

#define TABLE_REPLIES (REPLY(0) | REPLY(7) | REPLY(15) | REPLY(16) | REPLY(32))

enum { WORDS = sizeof(mf4_table) / sizeof(uint64_t) };

/* `due` is what the table should hold. `opened_at`: where the chain starts that the step before has opened, or 0. A table is
 * `clean` if the calls alone have made it, from the empty one on, of the file as it is. */
typedef struct history {
    log_file *log;
    lent lent_file;
    size_t given;
    mf4_table due;
    uint64_t opened_at;
    int is_clean;
} history;

/* The file with the length that is given, which may be longer than what is lent. */
static lent file_of(const history *past)
{
    lent file = past->lent_file;
    file.length = past->given;
    return file;
}

static mf4_table *table_in(lent slice) { return (mf4_table *)(void *)slice.bytes; }
static lent lend_due(const history *past) { return lend_copy(TABLE, &past->due, sizeof past->due); }

/* ---- steps ------------------------------------------------------------------------------------------------------ */

static void check_step(enum call call, mf4_done_reply answer, mf4_done_reply due, lent table, const history *past)
{
    check_reply(call, answer.reply, answer.told, CHAIN_REPLIES | REPLY(7) | REPLY(30) | REPLY(31) | REPLY(32));
    note(call, 36 + (unsigned)past->due.fragment_count % 28);
    MUST(answer.reply == due.reply && answer.told == due.told);
    MUST(same_bytes(table.bytes, &past->due, sizeof past->due));
    MUST(is_unchanged(past->lent_file));
}

static void take_opening(history *past)
{
    const uint64_t start = choose_byte() % 8 == 7 ? choose_link(past->log) : past->log->records.start;
    lent table = lend_due(past);
    const mf4_done_reply answer = mf4_open_table(past->lent_file.bytes, past->given, start, table_in(table));
    check_step(OPEN_TABLE, answer, open_slowly(file_of(past), start, &past->due), table, past);
    if (answer.reply == MF4_ANSWER) {
        past->opened_at = start;
        past->is_clean = 1;
    }
}

static void take_extension(history *past, uint64_t block_addr)
{
    lent table = lend_due(past);
    const mf4_done_reply answer = mf4_extend_table(past->lent_file.bytes, past->given, block_addr, table_in(table));
    check_step(EXTEND_TABLE, answer, extend_slowly(file_of(past), block_addr, &past->due), table, past);
}

static void take_shortening(history *past)
{
    lent table = lend_due(past);
    const mf4_done_reply answer = mf4_shorten_table(table_in(table));
    check_step(SHORTEN_TABLE, answer, shorten_slowly(&past->due), table, past);
}

/* Near the old number, near what ends with the file, near 2^64, or any. */
static uint64_t choose_word(uint8_t how, uint64_t old, size_t given)
{
    switch (how % 4) {
    case 0: return old + choose_byte() % 5u - 2;
    case 1: return given - MF4_HEADER_SIZE - choose_byte() % 16u;
    case 2: return choose_number();
    default: return UINT64_MAX - choose_byte() % 64u;
    }
}

/* Mostly a number of the first places, and at times of the last ones. */
static void change_word(history *past)
{
    uint64_t words[WORDS];
    const size_t index = choose_size(WORDS - 1);
    const uint8_t how = choose_byte();
    uint64_t *word = &words[how % 8 == 7 ? WORDS - 1 - index : index];
    memcpy(words, &past->due, sizeof words);
    *word = choose_word(how / 8, *word, past->given);
    memcpy(&past->due, words, sizeof words);
    past->is_clean = 0;
}

/* All of the file, its front, or more than a file may have, of which nothing is touched. */
static void give_file(history *past)
{
    const uint8_t how = choose_byte() % 8;
    const size_t length = past->log->length;
    const size_t front = how > 1 || length == 0 ? length : (size_t)choose_raw(2) % (length + 1);
    past->lent_file = lend_copy(INPUT, past->log->bytes, front);
    past->given = how == 2 ? (size_t)MF4_MAX_FILE_SIZE + 1 + (size_t)choose_raw(2) : front;
}

/* The header of a block is changed, so that it may be none any more, or another; and it is then to be added. */
static void take_damaged_block(history *past)
{
    log_file *log = past->log;
    const uint64_t block = log->block_count > 0 ? log->blocks[choose_byte() % log->block_count] : 0;
    const uint64_t at = block + choose_byte() % 3 * 8u;
    if (block > 0 && at + 8 <= log->length) {
        const uint64_t number = choose_word(choose_byte(), little(log->bytes + at, 8), log->length - (size_t)block + 32);
        memcpy(log->bytes + at, &number, 8);
        past->is_clean = 0;
    }
    give_file(past);
    take_extension(past, block);
}

static void take_step(history *past)
{
    past->opened_at = 0;
    switch (choose_byte() % 8) {
    case 0: take_opening(past); break;
    case 1: change_word(past); break;
    case 2: give_file(past); break;
    case 3: case 4: take_shortening(past); break;
    case 5: take_damaged_block(past); break;
    default: take_extension(past, choose_link(past->log)); break;
    }
}

/* A clean table is the one of its blocks alone, whatever the way to it: their lengths stand in the file. */
static void check_afresh(const history *past)
{
    const mf4_table *table = &past->due;
    uint64_t place, reached = 0;
    for (place = 0; place < table->fragment_count; place++) {
        MUST(table->fragments[place].data_position == reached);
        reached += little(past->log->bytes + table->fragments[place].block_addr + 8, 8) - MF4_HEADER_SIZE;
    }
    MUST(table->data_length == reached);
    for (; place < MF4_MAX_TABLE_FRAGMENTS; place++)
        MUST(table->fragments[place].block_addr == 0 && table->fragments[place].data_position == 0);
}

/* ---- fetches ---------------------------------------------------------------------------------------------------- */

typedef struct table_query {
    uint64_t number, record_size;
    size_t room;
    reading how;
} table_query;

/* What is due of it, and the record if there is one. */
typedef struct fetch_due {
    mf4_done_reply answer;
    uint8_t record[MF4_MAX_RECORD_SIZE];
    size_t written;
} fetch_due;

static void work_out(const history *past, table_query asked, fetch_due *due)
{
    due->answer = fetch_slowly(file_of(past), &past->due, asked.number, asked.record_size, asked.room, due->record);
    due->written = due->answer.reply == MF4_ANSWER ? (size_t)asked.record_size : 0;
}

static void exercise_fetch(const history *past, table_query asked, const fetch_due *due)
{
    lent table = lend_due(past), buffer = lend_marked(OUTPUT, asked.room);
    const mf4_done_reply answer = mf4_table_record(past->lent_file.bytes, past->given, table_in(table), asked.number,
                                                   asked.record_size, buffer.bytes, buffer.length);
    check_reply(TABLE_RECORD, answer.reply, answer.told, TABLE_REPLIES);
    MUST(answer.reply == due->answer.reply && answer.told == due->answer.told);
    MUST(holds_only(buffer, due->record, due->written));
    MUST(is_unchanged(table) && is_unchanged(past->lent_file));
}

/* Where the record is there, its value is that of its bytes alone. */
static void exercise_value_of(const history *past, table_query asked, const fetch_due *due)
{
    lent table = lend_due(past), buffer = lend_marked(OUTPUT, asked.room);
    const mf4_valid_value_reply answer = mf4_table_value(past->lent_file.bytes, past->given, table_in(table), asked.number,
                                                         asked.record_size, asked.how.group, asked.how.channel, buffer.bytes,
                                                         buffer.length);
    mf4_valid_value_reply expected = { due->answer.reply, due->answer.told, MF4_KIND_NOTHING, 0, 0, 0, 0 };
    check_reply(TABLE_VALUE, answer.reply, answer.told, TABLE_REPLIES | FIELD_REFUSALS | AREA_REFUSALS);
    note(TABLE_VALUE, 36 + answer.kind);
    if (due->answer.reply == MF4_ANSWER)
        expected = mf4_decode_valid_value(due->record, due->written, asked.how.group, asked.how.channel);
    MUST(same_valid_value(answer, expected));
    MUST(holds_only(buffer, due->record, due->written));
    MUST(is_unchanged(table) && is_unchanged(past->lent_file));
}

/* Just after opening, the chain itself gives the same. */
static void check_plain_fetch(const history *past, table_query asked, const fetch_due *due)
{
    lent buffer = lend_marked(OUTPUT, asked.room);
    const mf4_done_reply plain = mf4_read_record(past->lent_file.bytes, past->given, past->opened_at, asked.number,
                                                 asked.record_size, buffer.bytes, buffer.length);
    MUST(plain.reply == due->answer.reply && plain.told == due->answer.told);
    MUST(holds_only(buffer, due->record, due->written));
}

static void exercise_record(const history *past, reading how)
{
    static fetch_due due;
    table_query asked;
    asked.record_size = choose_byte() % 8 == 7 ? choose_number() : 1u + choose_byte() % 12;
    asked.number = choose_below(24);
    asked.room = choose_room(asked.record_size);
    asked.how = choose_byte() % 2 == 0 ? fitted(how, asked.record_size) : how;
    work_out(past, asked, &due);
    exercise_fetch(past, asked, &due);
    exercise_value_of(past, asked, &due);
    if (past->opened_at != 0)
        check_plain_fetch(past, asked, &due);
}

/* The empty table, and all of the file. */
static void start_history(log_file *log, history *past)
{
    memset(past, 0, sizeof *past);
    past->log = log;
    past->lent_file = lend_copy(INPUT, log->bytes, log->length);
    past->given = log->length;
    past->is_clean = 1;
}

void exercise_tables(log_file *log, reading how)
{
    static log_file long_list;
    static history past;
    uint8_t steps = choose_byte() % 16;
    if (choose_byte() % 16 == 15) {
        make_long_list(&long_list);
        log = &long_list;
    }
    start_history(log, &past);
    for (; steps > 0; steps--) {
        take_step(&past);
        if (past.is_clean)
            check_afresh(&past);
        exercise_record(&past, how);
    }
}
