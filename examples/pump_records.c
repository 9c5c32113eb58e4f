#include <stdio.h>
#include <stdlib.h>
#include <string.h>

#include "mdf_layout.h"
#include "new_file.h"
#include "pump_records.h"

enum {
    SERIAL_SIZE = 6,
    STATUS_SIZE = 2,
    OIL_INVALID = 1, /* bit 0 of the invalidation bits */
    SITE_INVALID = 2 /* bit 1 */
};

typedef struct pump_entry {
    double seconds;
    char serial[SERIAL_SIZE + 1];
    uint64_t hours;
    float oil;
    int64_t coolant; /* in sixteenths of a degree */
    char status[STATUS_SIZE + 1];
    uint8_t invalidation_bits;
    const char *site, *remark;
} pump_entry;

/* ---- the layout of a record ------------------------------------------------------------------------------------- */

#define CELSIUS "\xC2\xB0" "C"

const pump_channel pump_channels[CHANNELS] = {
    [TIME] = { .name = "time", .unit = "s", .sync_type = CN_SYNC_TIME,
               .channel = { .data_type = MF4_TYPE_FLOAT_LE, .channel_type = MF4_CHANNEL_MASTER, .bit_count = 64 } },
    [SERIAL] = { .name = "serial",
                 .channel = { .data_type = MF4_TYPE_LATIN1, .byte_offset = 8, .bit_count = 8 * SERIAL_SIZE } },
    [HOURS] = { .name = "hours", .unit = "h",
                .channel = { .data_type = MF4_TYPE_UNSIGNED_LE, .bit_offset = 4, .byte_offset = 14, .bit_count = 64 } },
    [OIL] = { .name = "oil", .unit = CELSIUS,
              .channel = { .data_type = MF4_TYPE_FLOAT_LE, .byte_offset = 23, .bit_count = 32,
                           .flags = MF4_CHANNEL_INVALIDATION_BIT } },
    [COOLANT] = { .name = "coolant", .unit = CELSIUS, .factor = 0.0625,
                  .channel = { .data_type = MF4_TYPE_SIGNED_BE, .bit_offset = 4, .byte_offset = 27, .bit_count = 12 } },
    [STATUS] = { .name = "status",
                 .channel = { .data_type = MF4_TYPE_BYTE_ARRAY, .byte_offset = 29, .bit_count = 8 * STATUS_SIZE } },
    [SITE] = { .name = "site",
               .channel = { .data_type = MF4_TYPE_UTF8, .channel_type = MF4_CHANNEL_VARIABLE_LENGTH, .byte_offset = 31,
                            .bit_count = 64, .flags = MF4_CHANNEL_INVALIDATION_BIT, .pos_invalidation_bit = 1 } },
    [REMARK] = { .name = "remark",
                 .channel = { .data_type = MF4_TYPE_LATIN1, .channel_type = MF4_CHANNEL_VARIABLE_LENGTH, .byte_offset = 39,
                              .bit_count = 64 } },
};

static const mf4_channel invalidation = { .data_type = MF4_TYPE_UNSIGNED_LE, .byte_offset = DATA_BYTES, .bit_count = 8 };

/* What of a channel stands in the record itself, as a number: of a payload its position, of a text and of bytes these. */
static mf4_channel number_in_record(int channel)
{
    mf4_channel number = pump_channels[channel].channel;
    number.channel_type = MF4_CHANNEL_FIXED_LENGTH;
    if (number.data_type > MF4_TYPE_FLOAT_BE || channel == SITE || channel == REMARK)
        number.data_type = MF4_TYPE_UNSIGNED_LE;
    return number;
}

static const char *name_of(uint64_t place)
{
    return place < CHANNELS ? pump_channels[place].name : "the invalidation bits";
}

void check_layout(void)
{
    mf4_channel list[CHANNELS + 1];
    mf4_overlap_reply overlap;
    int i;
    for (i = 0; i < CHANNELS; i++)
        list[i] = number_in_record(i);
    list[CHANNELS] = invalidation;
    overlap = mf4_first_overlap(list, CHANNELS + 1);
    if (overlap.reply == MF4_ANSWER && !overlap.found)
        return;
    if (overlap.found)
        fprintf(stderr, "make_log: %s and %s share a bit of the record\n", name_of(overlap.first), name_of(overlap.second));
    else
        fprintf(stderr, "make_log: %s: %s\n", name_of(overlap.told), mf4_reply_text(overlap.reply));
    exit(1);
}

/* ---- the records ------------------------------------------------------------------------------------------------ */

static void append(joined_data *data, const void *bytes, size_t size)
{
    if (size > MOST_JOINED - data->length) {
        fputs("make_log: MOST_JOINED is too small\n", stderr);
        exit(1);
    }
    memcpy(data->bytes + data->length, bytes, size);
    data->length += size;
}

/* A text's length, its NUL counted, and the text; of an empty one the length 0 alone. Gives the position. */
static uint64_t append_payload(joined_data *payloads, const char *text)
{
    const uint64_t position = payloads->length;
    const size_t size = text[0] != '\0' ? strlen(text) + 1 : 0;
    uint8_t length[4];
    put_little(length, size, 4);
    append(payloads, length, 4);
    append(payloads, text, size);
    return position;
}

static void put_number(uint8_t *record, int channel, mf4_number number)
{
    must_store(mf4_write_value(0, number_in_record(channel), number, record, RECORD_SIZE));
}

static void put_bytes(uint8_t *record, int channel, const char *bytes, size_t size)
{
    memcpy(record + pump_channels[channel].channel.byte_offset, bytes, size);
}

static void append_record(pump_data *data, const pump_entry *entry)
{
    uint8_t record[RECORD_SIZE] = { 0 };
    put_number(record, TIME, mf4_double(entry->seconds));
    put_bytes(record, SERIAL, entry->serial, SERIAL_SIZE);
    put_number(record, HOURS, mf4_unsigned(entry->hours));
    put_number(record, OIL, mf4_double(entry->oil));
    put_number(record, COOLANT, mf4_signed(entry->coolant));
    put_bytes(record, STATUS, entry->status, STATUS_SIZE);
    put_number(record, SITE, mf4_unsigned(append_payload(&data->sites, entry->site)));
    put_number(record, REMARK, mf4_unsigned(append_payload(&data->remarks, entry->remark)));
    must_store(mf4_write_value(0, invalidation, mf4_unsigned(entry->invalidation_bits), record, RECORD_SIZE));
    append(&data->records, record, RECORD_SIZE);
}

#define LODZ_DOCK_3 "\xC5\x81\xC3\xB3" "d\xC5\xBA, dock 3" /* UTF-8, as all sites; the remarks are Latin-1 */
#define ORLEANS "Orl\xC3\xA9" "ans"

/* PX1 comes in two spellings: with the leftover "9" behind its NUL, and without. It is one pump. The hours of PX9991 are a
 * bench's preset: without the ninth byte they would read 24. */
void make_records(pump_data *data)
{
    static const pump_entry entries[RECORDS] = {
        { 0.25, "PX1\0" "9", 180, 71.5f, 1388, "\x00\x01", 0, LODZ_DOCK_3, "" },
        { 1180000.5, "PX2\0" "47", 487, 68.25f, 1352, "\x04\x01", 0, ORLEANS, "seal weeps, M\xFCller has a new one" },
        { 1200600, "PX1\0\0", 512, 74.0f, 1394, "\x00\x01", 0, LODZ_DOCK_3, "oil changed" },
        { 1201000.125, "PX\xE9" "4\0", 500, 0.0f, -116, "\x80\x00", OIL_INVALID | SITE_INVALID, "",
          "sensor torn off, ask Andr\xE9" },
        { 1224000, "PX2\0" "47", 499, 69.0f, 1374, "\x00\x01", 0, ORLEANS, "tight again (M\xFCller)" },
        { 1224060, "PX9991", 1152921504606847000, 70.5f, 340, "\x00\xFF", 0, "bench", "" },
    };
    int i;
    for (i = 0; i < RECORDS; i++)
        append_record(data, &entries[i]);
    append(&data->records, data->records.bytes, TAIL);
}
