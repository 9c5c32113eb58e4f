/* A channel over all records, held against records that are fetched and decoded one by one. */
#include "log_file.h"

#include <string.h>

#include "same_line.h"

/* More records than this are not fetched again. */
enum { MOST_RECORDS = 512 };

typedef struct query {
    lent file;
    uint64_t start, record_size;
    size_t room;
    reading how;
} query;

/* The line that is due, and its sum. */
typedef struct tally {
    mf4_report_reply line;
    __int128 sum;
} tally;

static void take_double(mf4_report_reply *line, mf4_point found)
{
    if (found.value != found.value) {
        line->nan++;
        return;
    }
    if (!line->has_doubles)
        line->first = line->smallest = line->largest = found;
    line->has_doubles = 1;
    line->last = found;
    if (found.value < line->smallest.value)
        line->smallest = found;
    if (found.value > line->largest.value)
        line->largest = found;
}

static void take_record(tally *due, query asked, const uint8_t *record)
{
    const size_t size = (size_t)asked.record_size;
    const mf4_valid_value_reply read = mf4_decode_valid_value(record, size, asked.how.group, asked.how.channel);
    const mf4_point found = { due->line.records++,
                              mf4_decode_double(record, size, asked.how.group.record_id_size, asked.how.channel) };
    due->line.without_value += read.reply != MF4_ANSWER;
    due->line.invalid += read.reply == MF4_ANSWER && !read.is_valid;
    due->line.valid += read.is_valid;
    if (!read.is_valid)
        return;
    if (read.kind == MF4_KIND_UNSIGNED)
        due->sum += read.number;
    if (read.kind == MF4_KIND_SIGNED)
        due->sum += mf4_bits_as_signed(read.number);
    take_double(&due->line, found);
}

/* Every record in turn, into the buffer, which so has the last one in the end. */
static mf4_report_reply counted(query asked, lent buffer)
{
    tally due;
    memset(&due, 0, sizeof due);
    while (mf4_read_record(asked.file.bytes, asked.file.length, asked.start, due.line.records, asked.record_size, buffer.bytes,
                           buffer.length).reply == MF4_ANSWER)
        take_record(&due, asked, buffer.bytes);
    due.line.sum_high = (int64_t)(due.sum >> 64);
    due.line.sum_low = (uint64_t)due.sum;
    return due.line;
}

static int is_fixed_number(mf4_channel channel)
{
    return channel.data_type <= MF4_TYPE_FLOAT_BE
        && !(channel.channel_type == MF4_CHANNEL_VARIABLE_LENGTH && channel.data_addr != 0);
}

/* What is due of an accepted chain. A record's bytes play no part in 28 and 29, so the buffer's will do. */
static mf4_report_reply line_due(query asked, lent buffer)
{
    const mf4_validity_reply area = mf4_check_validity(buffer.bytes, (size_t)asked.record_size, asked.how.group,
                                                       asked.how.channel);
    if (!is_fixed_number(asked.how.channel))
        return refused_line(MF4_NO_NUMBER_CHANNEL, 0);
    return area.reply == MF4_ANSWER ? counted(asked, buffer) : refused_line(area.reply, area.told);
}

static mf4_report_reply report(query asked, lent buffer)
{
    return mf4_report(asked.file.bytes, asked.file.length, asked.start, asked.record_size, asked.how.group, asked.how.channel,
                      buffer.bytes, buffer.length);
}

static void exercise_query(query asked)
{
    lent buffer = lend_marked(OUTPUT, asked.room), twin = lend_marked(TWIN_OUTPUT, asked.room);
    const mf4_length_reply length = mf4_data_length(asked.file.bytes, asked.file.length, asked.start);
    const mf4_report_reply line = report(asked, buffer);
    check_reply(REPORT, line.reply, line.told, CHAIN_REPLIES | AREA_REFUSALS | REPLY(15) | REPLY(33));
    note(REPORT, 40u + (line.invalid > 0) + 2u * (line.nan > 0) + 4u * line.has_doubles + 8u * (line.without_value > 0));
    MUST(line.records == line.valid + line.invalid + line.without_value);
    MUST(is_unchanged(asked.file) && is_unchanged_from(buffer, line.records > 0 ? (size_t)asked.record_size : 0));
    if (is_bad_size(asked.record_size, asked.room))
        MUST(same_line(line, refused_line(MF4_BAD_RECORD_SIZE, 0)));
    else if (length.reply != MF4_ANSWER)
        MUST(same_line(line, refused_line(length.reply, length.told)));
    else if (length.length / asked.record_size <= MOST_RECORDS)
        MUST(same_line(line, line_due(asked, twin)) && same_bytes(buffer.bytes, twin.bytes, asked.room));
}

/* Mostly a number that is in the record. */
static reading choose_number_in(reading how, uint64_t record_size)
{
    const uint8_t choice = choose_byte();
    if (choice % 8 != 7)
        how.channel.data_type %= 6, how.channel.channel_type = 0;
    if (choice / 8 % 4 != 3) {
        how.group.record_id_size %= 2;
        how.channel.bit_offset %= 8, how.channel.byte_offset %= 4;
        how.channel.bit_count = how.channel.data_type >= MF4_TYPE_FLOAT_LE ? 32u << (choice & 1) : 1 + how.channel.bit_count % 64;
    }
    return choice / 32 % 4 != 3 ? fitted(how, record_size) : how;
}

void exercise_report(const log_file *log, reading how)
{
    query asked;
    asked.file = lend_copy(INPUT, log->bytes, log->length);
    asked.start = log->records.start;
    asked.record_size = choose_byte() % 16 == 15 ? choose_number() : 1u + choose_byte() % 12;
    asked.room = choose_room(asked.record_size);
    asked.how = choose_number_in(how, asked.record_size);
    exercise_query(asked);
}
