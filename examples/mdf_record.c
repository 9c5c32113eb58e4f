#include <stdlib.h>

#include "mdf_record.h"

mf4_done_reply mdf_read_record(mdf_record *record)
{
    const mdf_file *file = record->file;
    const mdf_group *group = record->group;
    if (group->is_walked)
        return mf4_read_record(file->bytes, file->length, group->start, record->number, group->record_size, record->bytes,
                               sizeof record->bytes);
    return mf4_table_record(file->bytes, file->length, &group->table, record->number, group->record_size, record->bytes,
                            sizeof record->bytes);
}

static int make_room(mdf_record *record, uint64_t size)
{
    uint8_t *payload = realloc(record->payload, (size_t)size);
    if (payload == NULL)
        return 0;
    record->payload = payload;
    record->payload_room = (size_t)size;
    return 1;
}

static mf4_payload_reply ask_for_payload(mdf_record *record, mf4_channel channel)
{
    const mdf_file *file = record->file;
    const mdf_group *group = record->group;
    return mf4_record_payload(file->bytes, file->length, group->start, record->number, group->record_size, group->layout,
                              channel, record->bytes, sizeof record->bytes, record->payload, record->payload_room);
}

/* The call for payloads knows no end of the invalidation bytes: where the record's validity is refused, the payload is too. */
static mf4_payload_reply in_area(mf4_payload_reply read, mf4_validity_reply validity)
{
    const mf4_payload_reply refused = { .reply = validity.reply, .told = validity.told };
    return read.reply == MF4_ANSWER && validity.reply != MF4_ANSWER ? refused : read;
}

/* The library is lent the room of the payload before; where that is too short it tells what suffices, and is asked again. */
mf4_payload_reply mdf_read_payload(mdf_record *record, mf4_channel channel)
{
    const mdf_group *group = record->group;
    mf4_payload_reply read = ask_for_payload(record, channel);
    if (read.reply == MF4_NO_ROOM && make_room(record, read.told))
        read = ask_for_payload(record, channel);
    return in_area(read, mf4_check_validity(record->bytes, (size_t)group->record_size, group->layout, channel));
}

/* A payload's value is told as a field's is. */
static mdf_value payload_value(mdf_record *record, const mf4_channel *channel)
{
    const mf4_payload_reply read = mdf_read_payload(record, *channel);
    const mdf_value value = { { read.reply, read.told, read.kind, read.is_valid, read.number, read.at, read.length },
                              record->payload };
    return value;
}

/* What a virtual channel has in place of a field: the record's number, which may be invalid, and its validity refused. */
static mf4_valid_value_reply number_reply(mf4_validity_reply validity, uint64_t number)
{
    const mf4_valid_value_reply answer = { MF4_ANSWER, 0, MF4_KIND_UNSIGNED, validity.is_valid, number, 0, 0 };
    const mf4_valid_value_reply refused = { .reply = validity.reply, .told = validity.told };
    return validity.reply == MF4_ANSWER ? answer : refused;
}

/* What is said of a value that stands in the record, or that its number is. Of the others nothing is. */
static mf4_valid_value_reply reply_in(const mdf_group *group, const uint8_t *record, uint64_t number,
                                      const mf4_channel *channel)
{
    static const mf4_valid_value_reply nothing_said;
    const size_t size = (size_t)group->record_size;
    switch (mdf_place_of(channel)) {
    case MDF_VIRTUAL: return number_reply(mf4_check_validity(record, size, group->layout, *channel), number);
    case MDF_FIELD: return mf4_decode_valid_value(record, size, group->layout, *channel);
    default: return nothing_said;
    }
}

mdf_value mdf_read_value(mdf_record *record, const mf4_channel *channel)
{
    mdf_value value = { { .reply = MF4_ANSWER }, record->bytes };
    if (mdf_place_of(channel) == MDF_PAYLOAD)
        return payload_value(record, channel);
    value.told = reply_in(record->group, record->bytes, record->number, channel);
    return value;
}

/* Of one record alone are a payload behind the data, one that there is no memory for, and one with too few bytes for a
 * number, which is refused as a field outside its record is, but tells no more bytes than the record has. */
int mdf_is_in_every_record(const mdf_group *group, uint32_t reply, uint64_t told)
{
    return reply != MF4_ANSWER && reply != MF4_PAYLOAD_OUTSIDE && reply != MF4_NO_ROOM
        && (reply != MF4_FIELD_OUTSIDE || told > group->record_size);
}

mf4_valid_value_reply mdf_field_reply(const mdf_group *group, const mf4_channel *channel)
{
    static const uint8_t any_record[MF4_MAX_RECORD_SIZE];
    return reply_in(group, any_record, 0, channel);
}
