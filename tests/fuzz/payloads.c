/* Values that are kept outside their record: the one call against the fetch of the record, a slow walk along the payloads
 * and the calls that are given a payload and a record. */
#include "log_file.h"

#include <string.h>

#include "slow_chains.h"

#define PAYLOAD_REPLIES (RECORD_REPLIES | REPLY(6) | REPLY(21) | REPLY(23) | REPLY(35))

enum { MOST_ROOM = MF4_MAX_RECORD_SIZE + 64 };

typedef struct payload_query {
    lent file;
    uint64_t start, number, record_size;
    size_t record_room, payload_room;
    reading how;
} payload_query;

/* What is due: the answer, and what is written into the front of each buffer. */
typedef struct payload_due {
    mf4_payload_reply answer;
    uint8_t record[MOST_ROOM], payload[MOST_ROOM];
    size_t record_written, payload_written;
} payload_due;

static int refuse(payload_due *due, uint32_t reply, uint64_t told)
{
    due->answer.reply = reply;
    due->answer.told = told;
    return 0;
}

static int holds_position(mf4_channel channel)
{
    return channel.channel_type == MF4_CHANNEL_VARIABLE_LENGTH && channel.data_addr != 0 && channel.bit_offset == 0
        && channel.bit_count == 64;
}

static int take_record(payload_query asked, payload_due *due)
{
    mf4_done_reply fetched;
    if (!holds_position(asked.how.channel))
        return refuse(due, MF4_NO_POSITION, 0);
    fetched = mf4_read_record(asked.file.bytes, asked.file.length, asked.start, asked.number, asked.record_size, due->record,
                              asked.record_room);
    if (fetched.reply != MF4_ANSWER)
        return refuse(due, fetched.reply, fetched.told);
    due->record_written = (size_t)asked.record_size;
    return 1;
}

static int take_position(payload_query asked, payload_due *due, uint64_t *position)
{
    const uint64_t at = sum_of(asked.how.group.record_id_size, asked.how.channel.byte_offset);
    if (sum_of(at, 8) > asked.record_size)
        return refuse(due, MF4_FIELD_OUTSIDE, sum_of(at, 8));
    *position = little(due->record + at, 8);
    return 1;
}

static int take_payload(payload_query asked, payload_due *due, uint64_t position)
{
    static slow_chain chain;
    uint8_t length_bytes[4];
    uint64_t length;
    walk_slowly(asked.file, asked.how.channel.data_addr, MF4_ID_SD, &chain);
    if (chain.reply != MF4_ANSWER)
        return refuse(due, chain.reply, chain.told);
    if (chain.length < 4 || position > chain.length - 4)
        return refuse(due, MF4_PAYLOAD_OUTSIDE, 0);
    copy_slowly(asked.file, &chain, position, length_bytes, 4);
    length = little(length_bytes, 4);
    if (length > chain.length - position - 4)
        return refuse(due, MF4_PAYLOAD_OUTSIDE, 0);
    if (length > asked.payload_room)
        return refuse(due, MF4_NO_ROOM, length);
    copy_slowly(asked.file, &chain, position + 4, due->payload, (size_t)length);
    due->payload_written = (size_t)length;
    return 1;
}

/* The value is the payload's, and the validity the record's. */
static void take_value(payload_query asked, payload_due *due)
{
    const reading how = asked.how;
    const mf4_value_reply value = mf4_decode_value(due->payload, due->payload_written, how.group.record_id_size,
                                                   how.channel);
    refuse(due, value.reply, value.told);
    due->answer.kind = value.kind;
    due->answer.number = value.number;
    due->answer.at = value.at;
    due->answer.length = value.length;
    if (value.reply != MF4_ANSWER)
        return;
    due->answer.payload_length = due->payload_written;
    due->answer.is_valid = mf4_check_validity_unbounded(due->record, due->record_written, how.group, how.channel);
}

static void work_out(payload_query asked, payload_due *due)
{
    uint64_t position;
    memset(&due->answer, 0, sizeof due->answer);
    due->record_written = due->payload_written = 0;
    if (take_record(asked, due) && take_position(asked, due, &position) && take_payload(asked, due, position))
        take_value(asked, due);
}

static mf4_payload_reply record_payload(payload_query asked, size_t file_length, lent record, lent payload)
{
    return mf4_record_payload(asked.file.bytes, file_length, asked.start, asked.number, asked.record_size, asked.how.group,
                              asked.how.channel, record.bytes, record.length, payload.bytes, payload.length);
}

static int same_payload(mf4_payload_reply a, mf4_payload_reply b)
{
    return a.reply == b.reply && a.kind == b.kind && a.told == b.told && a.number == b.number && a.at == b.at
        && a.length == b.length && a.payload_length == b.payload_length && a.is_valid == b.is_valid;
}

/* Beside the reply the kind counts, and whether a chain is refused in front of the record or behind it. */
static void note_payload(mf4_payload_reply answer, int is_fetched)
{
    note(RECORD_PAYLOAD, 55 + answer.kind);
    if (is_fetched && answer.reply <= MF4_UNTRUE_DECLARATION)
        note(RECORD_PAYLOAD, 36 + answer.reply);
}

static void exercise_answer(payload_query asked, lent record, lent payload)
{
    static payload_due due;
    mf4_payload_reply answer = record_payload(asked, asked.file.length, record, payload);
    check_reply(RECORD_PAYLOAD, answer.reply, answer.told, PAYLOAD_REPLIES);
    work_out(asked, &due);
    note_payload(answer, due.record_written > 0);
    MUST(same_payload(answer, due.answer));
    MUST(holds_only(record, due.record, due.record_written) && holds_only(payload, due.payload, due.payload_written));
    MUST(is_unchanged(asked.file));
    MUST(same_payload(answer, record_payload(asked, asked.file.length, record, payload)));
}

/* A length over 2^40 is refused before the file is touched, but behind a channel and a record size that are no good. */
static uint32_t reply_of_long_file(payload_query asked)
{
    if (!holds_position(asked.how.channel))
        return MF4_NO_POSITION;
    return is_bad_size(asked.record_size, asked.record_room) ? MF4_BAD_RECORD_SIZE : MF4_FILE_TOO_LONG;
}

static void exercise_long_file(payload_query asked, lent record, lent payload)
{
    mf4_payload_reply expected;
    memset(&expected, 0, sizeof expected);
    expected.reply = reply_of_long_file(asked);
    MUST(same_payload(record_payload(asked, (size_t)MF4_MAX_FILE_SIZE + 1, record, payload), expected));
    MUST(is_unchanged(record) && is_unchanged(payload));
}

/* Mostly a channel that holds a position, with the data link of the payloads if there are any. */
static void choose_channel(const log_file *log, mf4_channel *channel)
{
    const uint8_t how = choose_byte() % 16;
    if (how < 15) {
        channel->channel_type = MF4_CHANNEL_VARIABLE_LENGTH;
        channel->bit_offset = 0;
        channel->bit_count = 64;
    }
    channel->data_addr = how < 12 && log->payloads.start != 0 ? log->payloads.start : choose_link(log);
}

/* Mostly a record that holds the position with a few bytes around it, and invalidation bits near its end. */
static void choose_record(payload_query *asked)
{
    const uint8_t how = choose_byte() % 16;
    mf4_channel *channel = &asked->how.channel;
    if (how < 14) {
        asked->how.group.record_id_size %= 3;
        channel->byte_offset %= 4;
        asked->how.group.data_bytes = channel->byte_offset + 8;
        channel->pos_invalidation_bit %= 40;
    }
    asked->record_size = (asked->how.group.record_id_size + channel->byte_offset) % 8 + 8 + choose_byte() % 4;
    if (how == 15)
        asked->record_size = choose_number();
    asked->record_room = choose_room(asked->record_size);
}

/* Mostly a record that is there, into which a position is put, and a length where that leads, or its lower half would. */
static void choose_payload(log_file *log, payload_query *asked)
{
    const uint64_t size = asked->record_size > 0 ? asked->record_size : 1;
    const uint64_t position = choose_below(log->payloads.joined_length + 2), length = choose_below(24);
    asked->number = choose_below(log->records.joined_length / size + 1);
    put_joined(log, &log->payloads, (uint32_t)position, length, 4);
    put_joined(log, &log->records,
               asked->number * size + asked->how.group.record_id_size + asked->how.channel.byte_offset, position, 8);
    asked->payload_room = choose_room(length);
}

static payload_query choose_query(log_file *log, reading how)
{
    payload_query asked;
    asked.start = log->records.start;
    asked.how = how;
    choose_channel(log, &asked.how.channel);
    choose_record(&asked);
    choose_payload(log, &asked);
    asked.file = lend_copy(INPUT, log->bytes, log->length);
    return asked;
}

/* The slow walk knows a chain that is as it was built. */
static void check_walk(const log_file *log, lent file)
{
    static slow_chain slow;
    walk_slowly(file, log->payloads.start, MF4_ID_SD, &slow);
    MUST(log->payloads.state != WHOLE || (slow.reply == MF4_ANSWER && slow.length == log->payloads.joined_length));
    MUST(log->payloads.state != BREACHED || slow.reply == MF4_UNTRUE_DECLARATION);
}

void exercise_payload(log_file *log, reading how)
{
    payload_query asked = choose_query(log, how);
    lent record = lend_marked(OUTPUT, asked.record_room), payload = lend_marked(TWIN_OUTPUT, asked.payload_room);
    check_walk(log, asked.file);
    exercise_long_file(asked, record, payload);
    exercise_answer(asked, record, payload);
}
