/*
 * The records of a group, and the values of its channels in them.
 */
#ifndef MDF_RECORD_H
#define MDF_RECORD_H

#include "mdf_channel.h"

/* A record of a group, and one of its payloads. Set the first three fields, and leave the others 0. */
typedef struct mdf_record {
    const mdf_file *file;
    const mdf_group *group;
    uint64_t number;
    uint8_t bytes[MF4_MAX_RECORD_SIZE];
    uint8_t *payload; /* the one that was read last; to be freed */
    size_t payload_room;
} mdf_record;

/* A value as the library tells it, in the bytes of its record or of its payload: `told.at` counts from their front. */
typedef struct mdf_value {
    mf4_valid_value_reply told;
    const uint8_t *bytes;
} mdf_value;

/* Through the group's table, or along its chain where there is none. A record is read once, and every channel is decoded from
 * it. */
mf4_done_reply mdf_read_record(mdf_record *record);

/* As mf4_record_payload; it refuses with 6 only where there is no memory for the payload. */
mf4_payload_reply mdf_read_payload(mdf_record *record, mf4_channel channel);

/* The raw value of a channel in a record that was read. Of a channel that is not read here, an answer of no kind. */
mdf_value mdf_read_value(mdf_record *record, const mf4_channel *channel);

/* Whether a value is refused in every record, with what was told: a field always is, a payload if it is not its own fault. */
int mdf_is_in_every_record(const mdf_group *group, uint32_t reply, uint64_t told);

/* What is said of a channel's field, or of the record's number in its place, in every record of the group: why it is refused,
 * its validity too, or of which kind it is. All depend on the descriptions and the record's size alone. */
mf4_valid_value_reply mdf_field_reply(const mdf_group *group, const mf4_channel *channel);

#endif
