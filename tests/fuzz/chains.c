/* The joined data's length, records and values through a chain of data lists. */
#include "log_file.h"

#include <string.h>

#include "slow_chains.h"

typedef struct query {
    lent file;
    uint64_t start, number, record_size;
    size_t buffer_length;
    reading how;
} query;

int is_bad_size(uint64_t record_size, size_t room)
{
    return record_size == 0 || record_size > MF4_MAX_RECORD_SIZE || room < record_size;
}

static mf4_length_reply exercise_length(const log_file *log, query asked)
{
    static slow_chain slow;
    mf4_length_reply answer = mf4_data_length(asked.file.bytes, asked.file.length, asked.start);
    mf4_length_reply again = mf4_data_length(asked.file.bytes, asked.file.length, asked.start);
    check_reply(DATA_LENGTH, answer.reply, answer.told, CHAIN_REPLIES);
    MUST(answer.reply == again.reply && answer.told == again.told && answer.length == again.length);
    walk_slowly(asked.file, asked.start, MF4_ID_DT, &slow);
    MUST(answer.reply == slow.reply && answer.told == slow.told);
    MUST(answer.length == (answer.reply == MF4_ANSWER ? slow.length : 0));
    MUST(log->records.state != WHOLE || (answer.reply == MF4_ANSWER && answer.length == log->records.joined_length));
    MUST(log->records.state != BREACHED || answer.reply == MF4_UNTRUE_DECLARATION);
    MUST(is_unchanged(asked.file));
    return answer;
}

/* A record is there exactly where the joined data's length says so, and a chain that is refused is refused alike. */
static void check_against_length(query asked, mf4_length_reply length, mf4_done_reply answer)
{
    if (is_bad_size(asked.record_size, asked.buffer_length))
        MUST(answer.reply == MF4_BAD_RECORD_SIZE);
    else if (length.reply != MF4_ANSWER)
        MUST(answer.reply == length.reply && answer.told == length.told);
    else if (asked.number < length.length / asked.record_size)
        MUST(answer.reply == MF4_ANSWER);
    else
        MUST(answer.reply == MF4_NO_SUCH_RECORD);
}

static mf4_done_reply read_record(query asked, size_t file_length, lent buffer)
{
    return mf4_read_record(asked.file.bytes, file_length, asked.start, asked.number, asked.record_size, buffer.bytes,
                           buffer.length);
}

static mf4_valid_value_reply record_value(query asked, size_t file_length, lent buffer)
{
    return mf4_record_value(asked.file.bytes, file_length, asked.start, asked.number, asked.record_size, asked.how.group,
                            asked.how.channel, buffer.bytes, buffer.length);
}

static mf4_done_reply exercise_record(const log_file *log, query asked, mf4_length_reply length, lent buffer)
{
    mf4_done_reply answer = read_record(asked, asked.file.length, buffer), again;
    check_reply(READ_RECORD, answer.reply, answer.told, RECORD_REPLIES);
    check_against_length(asked, length, answer);
    MUST(is_unchanged_from(buffer, answer.reply == MF4_ANSWER ? (size_t)asked.record_size : 0));
    MUST(is_unchanged(asked.file));
    if (log->records.state == WHOLE && answer.reply == MF4_ANSWER)
        MUST(same_bytes(buffer.bytes, log->records.joined + asked.number * asked.record_size, (size_t)asked.record_size));
    again = read_record(asked, asked.file.length, buffer);
    MUST(again.reply == answer.reply && again.told == answer.told);
    return answer;
}

/* One call for record and value is the two calls one after the other, and leaves the same bytes. */
static void exercise_record_value(query asked, mf4_done_reply fetched, lent record)
{
    lent buffer = lend_marked(TWIN_OUTPUT, asked.buffer_length);
    mf4_valid_value_reply answer = record_value(asked, asked.file.length, buffer), expected;
    memset(&expected, 0, sizeof expected);
    check_reply(RECORD_VALUE, answer.reply, answer.told, RECORD_REPLIES | FIELD_REFUSALS | AREA_REFUSALS);
    note(RECORD_VALUE, 32 + answer.kind);
    if (fetched.reply == MF4_ANSWER)
        expected = mf4_decode_valid_value(record.bytes, (size_t)asked.record_size, asked.how.group, asked.how.channel);
    else
        expected.reply = fetched.reply, expected.told = fetched.told;
    MUST(same_valid_value(answer, expected));
    MUST(same_bytes(buffer.bytes, record.bytes, buffer.length));
    MUST(same_valid_value(answer, record_value(asked, asked.file.length, buffer)));
    MUST(is_unchanged(asked.file));
}

/* A length over 2^40 is refused before the file is touched, so a short file may be called that long. */
static void exercise_long_file(query asked, lent buffer)
{
    size_t claimed = (size_t)MF4_MAX_FILE_SIZE + 1 + (size_t)choose_raw(2);
    uint32_t expected = is_bad_size(asked.record_size, asked.buffer_length) ? MF4_BAD_RECORD_SIZE : MF4_FILE_TOO_LONG;
    mf4_length_reply length = mf4_data_length(asked.file.bytes, claimed, asked.start);
    mf4_done_reply fetched = read_record(asked, claimed, buffer);
    mf4_valid_value_reply value = record_value(asked, claimed, buffer);
    MUST(length.reply == MF4_FILE_TOO_LONG && length.told == 0 && length.length == 0);
    MUST(fetched.reply == expected && fetched.told == 0);
    MUST(value.reply == expected && value.told == 0);
    MUST(is_unchanged(buffer));
}

static query choose_query(const log_file *log, reading how)
{
    query asked;
    asked.file = lend_copy(INPUT, log->bytes, log->length);
    asked.start = log->records.start;
    asked.how = how;
    asked.record_size = choose_byte() % 8 == 7 ? choose_number() : 1u + choose_byte() % 12;
    asked.number = choose_below(24);
    asked.buffer_length = choose_room(asked.record_size);
    return asked;
}

void exercise_chain(const log_file *log, reading how)
{
    query asked = choose_query(log, how);
    lent buffer = lend_marked(OUTPUT, asked.buffer_length);
    mf4_done_reply fetched;
    exercise_long_file(asked, buffer);
    fetched = exercise_record(log, asked, exercise_length(log, asked), buffer);
    exercise_record_value(asked, fetched, buffer);
    asked.how = fitted(how, asked.record_size);
    exercise_record_value(asked, fetched, buffer);
}
