/*
 * The channels of a group, as their blocks describe them. A function that gives 0 has said in the file's `trouble` why.
 */
#ifndef MDF_CHANNEL_H
#define MDF_CHANNEL_H

#include "mdf_conversion.h"
#include "mdf_group.h"

enum { MDF_MOST_CHANNELS = 4096 };

typedef struct mdf_channel {
    uint64_t address;
    mf4_channel_block block;
    mf4_channel described;      /* for the library: its data_addr is where a chain starts */
    mdf_conversion conversion;
    char name[MDF_TEXT_ROOM];
    char unit[MDF_TEXT_ROOM];   /* of the converted value; "" where there is none         */
} mdf_channel;

/* Where a channel's values are. */
enum mdf_place {
    MDF_FIELD,      /* in a field of the record                                                                   */
    MDF_PAYLOAD,    /* in other blocks, and the field is a position there                                         */
    MDF_NO_PAYLOAD, /* as before, but no blocks are linked                                                        */
    MDF_VIRTUAL,    /* nowhere: the raw value is the record's number                                              */
    MDF_MAX_LENGTH, /* in a field, of which another channel tells how much counts; behind that stand stale bytes  */
    MDF_UNKNOWN     /* a channel type that MDF 4.1 does not have                                                  */
};

enum mdf_place mdf_place_of(const mf4_channel *channel);

/* Whether its values are read here: those of a field, of payloads, and a record's number. */
int mdf_is_read(const mf4_channel *channel);

int mdf_is_master(const mf4_channel *channel);

/* The channels of a group, into an array with room for MDF_MOST_CHANNELS; where it gives 0, those in front of the trouble. A
 * single block of payloads gets a list, and so does one of records if there are payloads; these are to be removed when the
 * group has been read. */
int mdf_read_channels(mdf_file *file, mdf_lists *lists, mdf_group *group, mdf_channel *channels, size_t *count);

/* The first channel of that name, or NULL. */
const mdf_channel *mdf_find_channel(const mdf_channel *channels, size_t count, const char *name);

#endif
