#include <inttypes.h>
#include <stdio.h>
#include <stdlib.h>
#include <string.h>
#include <time.h>

#include "cells.h"
#include "listing.h"
#include "mdf_blame.h"

enum { TYPE_ROOM = 16 };

#define SECOND 1000000000u /* in nanoseconds */

void print_start(const mdf_start *start)
{
    const time_t seconds = (time_t)(start->nanoseconds / SECOND);
    const unsigned nanoseconds = (unsigned)(start->nanoseconds % SECOND);
    const int minutes = abs(start->zone_minutes);
    char moment[32];
    strftime(moment, sizeof moment, "%Y-%m-%d %H:%M:%S", gmtime(&seconds));
    printf("MDF %u.%02u, started %s", start->version / 100, start->version % 100, moment);
    if (nanoseconds != 0)
        printf(".%09u", nanoseconds);
    printf(start->is_local_time ? " local time" : " UTC");
    if (start->has_zone)
        printf(" (local time was UTC%c%02d:%02d)", start->zone_minutes < 0 ? '-' : '+', minutes / 60, minutes % 60);
    printf("\n");
}

/* ---- channels --------------------------------------------------------------------------------------------------- */

/* In the room lent where the type is unknown: its code then says more than a name would. */
static const char *type_name(uint8_t data_type, char room[TYPE_ROOM])
{
    static const char *const names[] = {
        "unsigned", "unsigned BE", "signed", "signed BE", "float", "float BE", "Latin-1", "UTF-8", "UTF-16 LE", "UTF-16 BE",
        "bytes", "MIME sample", "MIME stream", "CANopen date", "CANopen time", "complex", "complex BE"
    };
    if (data_type < sizeof names / sizeof names[0])
        return names[data_type];
    snprintf(room, TYPE_ROOM, "unknown %u", data_type);
    return room;
}

static const char *sync_name(uint8_t sync_type)
{
    static const char *const names[] = { "of no kind", "time", "angle", "distance", "index" };
    return sync_type < sizeof names / sizeof names[0] ? names[sync_type] : "of an unknown kind";
}

static void print_place(const mf4_channel *channel)
{
    const enum mdf_place place = mdf_place_of(channel);
    if (place == MDF_VIRTUAL) {
        printf("  no field: virtual, its raw value is the record's number");
        return;
    }
    printf("  byte %" PRIu32, channel->byte_offset);
    if (channel->bit_offset != 0)
        printf(", bit %u", channel->bit_offset);
    if (place == MDF_PAYLOAD)
        printf("; a position in the payloads at %" PRIu64, channel->data_addr);
    else if (place == MDF_NO_PAYLOAD)
        printf("; not read: a position in payloads, but the link to them is 0");
    else if (place == MDF_MAX_LENGTH)
        printf("; not read: of maximum length, and how much of it counts is told by another channel");
    else if (place == MDF_UNKNOWN)
        printf("; not read: channel type %u is unknown here", channel->channel_type);
}

static void print_validity(const mf4_channel *channel)
{
    if ((channel->flags & MF4_CHANNEL_ALL_INVALID) != 0)
        printf("; all invalid");
    else if ((channel->flags & MF4_CHANNEL_INVALIDATION_BIT) != 0)
        printf("; invalid where invalidation bit %" PRIu32 " is set", channel->pos_invalidation_bit);
}

static void print_conversion(const mdf_conversion *conversion)
{
    char offset[CELL_ROOM], factor[CELL_ROOM];
    spell_double(conversion->offset, 0, offset);
    spell_double(conversion->factor, 0, factor);
    if (mdf_is_linear(conversion))
        printf("; converted: %s + %s * raw", offset, factor);
    else if (!mdf_is_applied(conversion))
        printf("; raw: its conversion at %" PRIu64 " (%s) is not applied", conversion->address,
               mdf_conversion_name(conversion->type));
}

/* A ##CA block makes an array of the channel; ##CN blocks are members of a structure. */
static void print_composition(const mdf_file *file, uint64_t component)
{
    const uint32_t id = mdf_header_at(file, component).header.id;
    if (component != 0)
        printf("; its %s at %" PRIu64 " %s not read", id == MF4_ID_CA ? "array (##CA)" : "members", component,
               id == MF4_ID_CA ? "is" : "are");
}

void print_refusal(const mdf_group *group, const mf4_channel *channel, mf4_valid_value_reply refused)
{
    printf("refused (%" PRIu32 "): %s", refused.reply, mf4_reply_text(refused.reply));
    if (refused.told != 0)
        printf("; it needs %" PRIu64 " bytes, the record has %" PRIu64, refused.told, group->record_size);
    if (refused.reply == MF4_BIT_OUTSIDE)
        printf("; it is bit %" PRIu32 ", counted from 0, and the group has %" PRIu64 " bits: have the log written again with a "
               "right description", channel->pos_invalidation_bit, 8 * (uint64_t)group->layout.invalidation_bytes);
    printf("\n");
}

/* Why the payloads are refused in every record, by what is said of the first. */
static void print_trouble_of_payloads(mdf_file *file, const mdf_group *group, const mf4_channel *channel)
{
    mdf_record first = { .file = file, .group = group };
    const mf4_payload_reply payload = mdf_read_payload(&first, *channel);
    const mf4_valid_value_reply refused = { .reply = payload.reply, .told = payload.told };
    free(first.payload);
    if (!mdf_is_in_every_record(group, refused.reply, refused.told))
        return;
    if (mdf_is_of_chain(refused.reply)) {
        mdf_blame_chain(file, "payloads", channel->data_addr, MF4_ID_SD, refused.reply);
        printf("    %s\n", file->trouble);
    } else {
        printf("    ");
        print_refusal(group, channel, refused);
    }
}

/* What is refused in every record is said once. */
static void print_trouble(mdf_file *file, const mdf_group *group, const mf4_channel *channel, uint64_t records)
{
    const mf4_valid_value_reply field = mdf_field_reply(group, channel);
    if (mdf_place_of(channel) == MDF_PAYLOAD && records > 0)
        print_trouble_of_payloads(file, group, channel);
    if (field.reply != MF4_ANSWER) {
        printf("    ");
        print_refusal(group, channel, field);
    }
}

/* The widths of the columns that differ. */
typedef struct channel_widths {
    int name, type, unit;
} channel_widths;

static void print_channel(const mdf_file *file, const mdf_channel *channel, channel_widths widths)
{
    const mf4_channel_block *block = &channel->block;
    char room[TYPE_ROOM];
    print_cell(channel->name, widths.name, 0);
    print_cell(type_name(block->channel.data_type, room), widths.type, 0);
    printf("  %4" PRIu32, block->channel.bit_count);
    print_cell(channel->unit, widths.unit, 0);
    print_place(&block->channel);
    if (mdf_is_master(&block->channel))
        printf("; the master: %s", sync_name(block->sync_type));
    print_validity(&block->channel);
    print_conversion(&channel->conversion);
    print_composition(file, block->component_addr);
    printf("\n");
}

void print_channels(mdf_file *file, const mdf_group *group, const mdf_channel *channels, size_t count, uint64_t records)
{
    channel_widths widths = { columns_of("name"), columns_of("type"), columns_of("unit") };
    char room[TYPE_ROOM];
    size_t i;
    for (i = 0; i < count; i++) {
        widths.name = larger(widths.name, columns_of(channels[i].name));
        widths.type = larger(widths.type, columns_of(type_name(channels[i].described.data_type, room)));
        widths.unit = larger(widths.unit, columns_of(channels[i].unit));
    }
    print_cell("name", widths.name, 0);
    print_cell("type", widths.type, 0);
    printf("  bits");
    print_cell("unit", widths.unit, 0);
    printf("  place\n");
    for (i = 0; i < count; i++) {
        print_channel(file, &channels[i], widths);
        print_trouble(file, group, &channels[i].described, records);
    }
}
