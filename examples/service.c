#include <inttypes.h>
#include <math.h>
#include <stdio.h>
#include <stdlib.h>
#include <string.h>

#include "cells.h"
#include "service.h"

#define SERIAL_NAME "serial"
#define HOURS_NAME "hours"

enum { SERVICE_HOURS = 500 };

const char *find_service_channels(const mdf_channel *channels, size_t count, service_channels *found)
{
    found->serial = mdf_find_channel(channels, count, SERIAL_NAME);
    found->hours = mdf_find_channel(channels, count, HOURS_NAME);
    if (found->serial == NULL)
        return "no channel is named " SERIAL_NAME;
    if (found->hours == NULL)
        return "no channel is named " HOURS_NAME;
    return mdf_is_applied(&found->hours->conversion) ? NULL : "the conversion of " HOURS_NAME " is not applied here";
}

/* ---- what a record says ----------------------------------------------------------------------------------------- */

/* The serial up to its NUL, to be freed; or NULL. What is invalid, empty or damaged names no pump: two damaged serials would
 * else be one. */
static char *read_serial(mdf_record *record, const mdf_channel *channel)
{
    const mdf_value value = mdf_read_value(record, &channel->described);
    const size_t length = (size_t)value.told.length, room = mf4_text_room(length);
    mf4_text_reply text;
    char *serial;
    if (value.told.reply != MF4_ANSWER || !value.told.is_valid || value.told.kind != MF4_KIND_TEXT || length == 0)
        return NULL;
    serial = malloc(room + 1);
    if (serial == NULL)
        return NULL;
    text = mf4_text_by_type(channel->described.data_type, value.bytes + value.told.at, length, (uint8_t *)serial, room);
    serial[text.count] = '\0';
    if (text.reply == MF4_ANSWER && !text.damaged)
        return serial;
    free(serial);
    return NULL;
}

/* Hours of any number type, converted, as a double, which keeps the order; NaN where there are no valid ones. */
static double read_hours(const mdf_record *record, const mdf_channel *channel)
{
    const mdf_group *group = record->group;
    if (mdf_place_of(&channel->described) != MDF_FIELD)
        return NAN;
    return mdf_convert(&channel->conversion, mf4_decode_valid_double(record->bytes, (size_t)group->record_size,
                                                                     group->layout, channel->described));
}

/* ---- the list --------------------------------------------------------------------------------------------------- */

/* The pump of that serial, which is then the list's; or NULL where there is no memory. */
static service_pump *find_pump(service_list *list, char *serial)
{
    service_pump *pumps;
    size_t i;
    for (i = 0; i < list->count; i++)
        if (strcmp(list->pumps[i].serial, serial) == 0) {
            free(serial);
            return &list->pumps[i];
        }
    pumps = realloc(list->pumps, (list->count + 1) * sizeof *pumps);
    if (pumps == NULL) {
        free(serial);
        return NULL;
    }
    list->pumps = pumps;
    pumps[list->count].serial = serial;
    pumps[list->count].hours = NAN;
    return &pumps[list->count++];
}

void note_service(service_list *list, mdf_record *record, const service_channels *channels)
{
    char *serial = read_serial(record, channels->serial);
    const double hours = read_hours(record, channels->hours);
    service_pump *pump = serial != NULL ? find_pump(list, serial) : NULL;
    if (pump == NULL)
        list->nameless++;
    else if (!isnan(hours)) {
        pump->hours = hours;
        pump->record = record->number;
    }
}

static void print_pump(const service_pump *pump, int width)
{
    char cell[CELL_ROOM];
    mdf_spell_text(MF4_TYPE_UTF8, (const uint8_t *)pump->serial, strlen(pump->serial), cell, CELL_ROOM);
    print_cell(cell, width, 0);
    if (isnan(pump->hours)) {
        printf("  unknown: no record has valid hours\n");
        return;
    }
    spell_double(pump->hours, 0, cell);
    printf("  %-7s  %s hours in record %" PRIu64 "\n", pump->hours >= SERVICE_HOURS ? "DUE" : "not due", cell, pump->record);
}

void print_service(const service_list *list)
{
    int width = 0;
    size_t i;
    printf("\n  service, due from %d hours on:\n", SERVICE_HOURS);
    for (i = 0; i < list->count; i++)
        width = larger(width, columns_of(list->pumps[i].serial));
    for (i = 0; i < list->count; i++)
        print_pump(&list->pumps[i], width);
    if (list->nameless != 0)
        printf("  records whose serial is empty, invalid, damaged or no text: %" PRIu64 "\n", list->nameless);
}

void free_service(service_list *list)
{
    while (list->count > 0)
        free(list->pumps[--list->count].serial);
    free(list->pumps);
}
