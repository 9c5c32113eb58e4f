#include <inttypes.h>
#include <stdio.h>

#include "cells.h"
#include "table.h"

enum { MOST_TEXT_WIDTH = 24, PAYLOAD_WIDTH = 16, HEADING_ROOM = 2 * MDF_TEXT_ROOM + 4 };

static int is_number(const mdf_channel *channel)
{
    return channel->described.data_type <= MF4_TYPE_FLOAT_BE || mdf_place_of(&channel->described) == MDF_VIRTUAL;
}

/* The unit is that of the converted value. */
static void spell_heading(const mdf_channel *channel, char heading[HEADING_ROOM])
{
    const char *unit = mdf_is_applied(&channel->conversion) ? channel->unit : "raw";
    if (unit[0] == '\0')
        snprintf(heading, HEADING_ROOM, "%s", channel->name);
    else
        snprintf(heading, HEADING_ROOM, "%s [%s]", channel->name, unit);
}

static int at_most(uint32_t a, int b)
{
    return a < (uint32_t)b ? (int)a : b;
}

/* What most values take: the digits of an integer, some digits of a float, a short text. Where a channel has payloads, its
 * bits are those of a position. */
static int width_of_values(const mdf_channel *channel)
{
    const uint32_t bits = channel->described.bit_count;
    const uint8_t type = channel->described.data_type;
    if (is_number(channel) && (type > MF4_TYPE_SIGNED_BE || mdf_is_linear(&channel->conversion)))
        return columns_of("-1.23456e+78");
    if (is_number(channel))
        return at_most(bits, 64) * 3 / 10 + 1 + (type >= MF4_TYPE_SIGNED_LE);
    if (mdf_place_of(&channel->described) == MDF_PAYLOAD)
        return PAYLOAD_WIDTH;
    return type == MF4_TYPE_BYTE_ARRAY ? at_most(3 * (bits / 8), MOST_TEXT_WIDTH) - 1 : at_most(bits / 8, MOST_TEXT_WIDTH);
}

static int width_of(const mdf_channel *channel)
{
    const char *other = mdf_is_read(&channel->described) ? "invalid" : "not read";
    char heading[HEADING_ROOM];
    spell_heading(channel, heading);
    if (channel->described.flags == 0 && mdf_is_read(&channel->described))
        other = "";
    return larger(larger(columns_of(heading), columns_of(other)), width_of_values(channel));
}

/* No blanks stand behind a text that is the last in its line. */
static void print_column(const mdf_channel *channels, size_t count, size_t place, const char *text)
{
    const int is_right = is_number(&channels[place]), is_last = place + 1 == count;
    print_cell(text, is_last && !is_right ? 0 : width_of(&channels[place]), is_right);
}

void print_heading(const mdf_channel *channels, size_t count)
{
    char heading[HEADING_ROOM];
    size_t i;
    printf("  record");
    for (i = 0; i < count; i++) {
        spell_heading(&channels[i], heading);
        print_column(channels, count, i, heading);
    }
    printf("\n");
}

void print_values(mdf_record *record, const mdf_channel *channels, size_t count)
{
    char cell[CELL_ROOM];
    size_t i;
    printf("  %6" PRIu64, record->number);
    for (i = 0; i < count; i++) {
        spell_value(record, &channels[i], cell);
        print_column(channels, count, i, cell);
    }
    printf("\n");
}
