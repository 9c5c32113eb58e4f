#include <inttypes.h>
#include <string.h>

#include "mdf_channel.h"

enum mdf_place mdf_place_of(const mf4_channel *channel)
{
    switch (channel->channel_type) {
    case MF4_CHANNEL_FIXED_LENGTH:
    case MF4_CHANNEL_MASTER:
    case MF4_CHANNEL_SYNC: return MDF_FIELD;
    case MF4_CHANNEL_VARIABLE_LENGTH: return channel->data_addr != 0 ? MDF_PAYLOAD : MDF_NO_PAYLOAD;
    case MF4_CHANNEL_VIRTUAL_MASTER:
    case MF4_CHANNEL_VIRTUAL: return MDF_VIRTUAL;
    case MF4_CHANNEL_MAX_LENGTH: return MDF_MAX_LENGTH;
    default: return MDF_UNKNOWN;
    }
}

int mdf_is_read(const mf4_channel *channel)
{
    const enum mdf_place place = mdf_place_of(channel);
    return place == MDF_FIELD || place == MDF_PAYLOAD || place == MDF_VIRTUAL;
}

int mdf_is_master(const mf4_channel *channel)
{
    return channel->channel_type == MF4_CHANNEL_MASTER || channel->channel_type == MF4_CHANNEL_VIRTUAL_MASTER;
}

/* A channel without a unit has that of its conversion. */
static int read_texts(mdf_file *file, mdf_channel *channel)
{
    const mf4_channel_block *block = &channel->block;
    if (!mdf_read_text(file, "channel name", block->name_addr, channel->name)
        || !mdf_read_text(file, "unit", block->unit_addr, channel->unit)
        || !mdf_read_conversion(file, block->conversion_addr, &channel->conversion))
        return 0;
    if (block->unit_addr == 0)
        strcpy(channel->unit, channel->conversion.unit);
    return 1;
}

/* The call for payloads reads the records through their chain too: that one is made with the first channel of payloads. */
static void make_chains(mdf_file *file, mdf_lists *lists, mdf_group *group, mdf_channel *channel)
{
    mf4_channel *described = &channel->described;
    mdf_make_chain(file, lists, group);
    described->data_addr = mdf_chain_start(file, lists, described->data_addr, channel->address);
}

/* The library is lent the block alone, so that a wrong link count cannot lead it into the next one. */
static int read_channel(mdf_file *file, mdf_lists *lists, mdf_group *group, uint64_t address, mdf_channel *channel)
{
    mdf_block block;
    mf4_channel_reply read;
    if (!mdf_find_block(file, "channel", address, MF4_ID_CN, 0, 0, &block))
        return 0;
    read = mf4_read_channel(block.bytes, block.length);
    if (read.reply != MF4_ANSWER)
        return mdf_trouble(file, "channel at %" PRIu64 ": refused (%" PRIu32 "): %s", address, read.reply,
                           mf4_reply_text(read.reply));
    channel->address = address;
    channel->block = read.block;
    channel->described = read.block.channel;
    if (!read_texts(file, channel))
        return 0;
    if (mdf_place_of(&channel->described) == MDF_PAYLOAD)
        make_chains(file, lists, group, channel);
    return 1;
}

static int was_read(const mdf_channel *channels, size_t count, uint64_t address)
{
    while (count > 0)
        if (channels[--count].address == address)
            return 1;
    return 0;
}

int mdf_read_channels(mdf_file *file, mdf_lists *lists, mdf_group *group, mdf_channel *channels, size_t *count)
{
    uint64_t address = group->first_channel;
    for (*count = 0; address != 0; address = channels[(*count)++].block.next_ch_addr) {
        if (was_read(channels, *count, address))
            return mdf_trouble(file, "channel at %" PRIu64 ": a list of channels that loops leads there again", address);
        if (*count == MDF_MOST_CHANNELS)
            return mdf_trouble(file, "channel at %" PRIu64 ": over %d channels", address, MDF_MOST_CHANNELS);
        if (!read_channel(file, lists, group, address, &channels[*count]))
            return 0;
    }
    return 1;
}

const mdf_channel *mdf_find_channel(const mdf_channel *channels, size_t count, const char *name)
{
    size_t i;
    for (i = 0; i < count; i++)
        if (strcmp(channels[i].name, name) == 0)
            return &channels[i];
    return NULL;
}
