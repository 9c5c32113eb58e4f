/*
 * Writes a small pump log, a whole file by ASAM MDF 4.1. Every run writes the same bytes.
 *
 *     make_log FILE
 *
 * A pump controller's record, as the file's channel blocks tell it:
 *
 *     byte  0..7    time in seconds since the start, 64-bit float: the master
 *     byte  8..13   serial, Latin-1, ends at a NUL; behind the NUL stand leftovers of older, longer serials
 *     byte 14..22   hours run, unsigned, 64 bits from bit 4 of byte 14 on, so over 9 bytes
 *     byte 23..26   oil temperature in degrees Celsius, 32-bit float
 *     byte 27..28   coolant temperature, signed, 12 bits from bit 4 of two big-endian bytes on; a linear conversion makes
 *                   degrees Celsius of its sixteenths
 *     byte 29..30   status, two bytes as the controller has them
 *     byte 31..38   where the pump stands, UTF-8 of any length: the position of its payload
 *     byte 39..46   a mechanic's remark, Latin-1 of any length: the position of its payload
 *     byte 47       invalidation bits; bit 0 is the oil's, bit 1 the site's
 *
 * Six records and the beginning of a seventh, whose pump lost power, stand in six data blocks, which two data lists name one
 * behind the other. Both lists declare one length, 55 bytes of data, and so MDF 4.1 wants it of every block but the very
 * last, which has the 20 bytes that are left; and the last list alone may count fewer blocks: here it has 2, and the first 4.
 * All cuts fall inside records: a reader that took blocks for records would not get far.
 *
 * The sites stand in three blocks of payloads, and the remarks in three others: for each record four bytes of length and so
 * many of text, with its NUL, or none. The sites' list declares one length, 28 bytes; that of the remarks has an offset for
 * each block. Two of the cuts fall inside a length, one inside a remark and one inside a letter.
 *
 * The library is first asked whether two fields of the record share a bit, and then writes what it can: the numbers of the
 * records, the channels, the lists, and the header of every block.
 */
#include <stdio.h>
#include <string.h>

#include "mdf_layout.h"
#include "new_file.h"
#include "pump_records.h"

enum {
    BLOCK_DATA = 55,
    SITE_BLOCK_DATA = 28,
    REMARK_BLOCKS = 3,
    MOST_BLOCKS_OF_LIST = 4
};

#define START_TIME UINT64_C(1772431200000000000) /* 2 March 2026, 6 o'clock UTC, in nanoseconds */

static void add_identification(new_file *file)
{
    uint8_t *bytes = file->bytes + keep_room(file, IDENTIFICATION_SIZE);
    memcpy(bytes, "MDF     ", 8);
    memcpy(bytes + IDENTIFICATION_TEXT, "4.10    ", 8);
    memcpy(bytes + IDENTIFICATION_PROGRAM, "make_log", 8);
    put_little(bytes + IDENTIFICATION_VERSION, 410, 2);
}

/* The file's history: MDF 4.1 wants one entry at least, with a comment that names the tool. */
static uint64_t add_history(new_file *file)
{
    const uint64_t history = add_block(file, ID_FH, FH_LINKS, FH_FIELDS);
    set_field(file, history, FH_LINKS, FH_TIME, START_TIME, 8);
    set_link(file, history, FH_COMMENT,
             add_text(file, MF4_ID_MD,
                      "<FHcomment xmlns=\"http://www.asam.net/mdf/v4\"><TX>A made-up pump log</TX>"
                      "<tool_id>make_log</tool_id><tool_vendor>Tsikumanto</tool_vendor>"
                      "<tool_version>" MF4_VERSION "</tool_version></FHcomment>"));
    return history;
}

/* ---- channels --------------------------------------------------------------------------------------------------- */

static uint64_t add_linear_conversion(new_file *file, double factor)
{
    const uint64_t conversion = add_block(file, MF4_ID_CC, CC_LINKS, CC_FIELDS + 2 * 8);
    set_field(file, conversion, CC_LINKS, CC_TYPE, CC_LINEAR, 1);
    set_field(file, conversion, CC_LINKS, CC_VALUE_COUNT, 2, 2);
    set_field(file, conversion, CC_LINKS, CC_VALUES, mf4_double(0).number, 8);
    set_field(file, conversion, CC_LINKS, CC_VALUES + 8, mf4_double(factor).number, 8);
    return conversion;
}

/* What a channel's block links stands behind it: its name, its unit and its conversion. */
static mf4_channel_block describe(new_file *file, const pump_channel *channel)
{
    mf4_channel_block block = { .channel = channel->channel, .sync_type = channel->sync_type };
    block.name_addr = add_text(file, MF4_ID_TX, channel->name);
    block.unit_addr = channel->unit != NULL ? add_text(file, MF4_ID_TX, channel->unit) : 0;
    block.conversion_addr = channel->factor > 0 ? add_linear_conversion(file, channel->factor) : 0;
    return block;
}

/* The channels stand one behind the other, and all that they link behind them; gives the first one's address. */
static uint64_t add_channels(new_file *file, uint64_t sites, uint64_t remarks)
{
    const uint64_t payloads[CHANNELS] = { [SITE] = sites, [REMARK] = remarks };
    uint64_t places[CHANNELS + 1] = { 0 };
    int i;
    for (i = 0; i < CHANNELS; i++)
        places[i] = keep_room(file, MF4_CHANNEL_BLOCK_SIZE);
    for (i = 0; i < CHANNELS; i++) {
        mf4_channel_block block = describe(file, &pump_channels[i]);
        block.next_ch_addr = places[i + 1];
        block.channel.data_addr = payloads[i];
        must_write(mf4_write_channel(block, file->bytes + places[i], MF4_CHANNEL_BLOCK_SIZE));
    }
    return places[0];
}

/* ---- data ------------------------------------------------------------------------------------------------------- */

/* A list: its header, the link to the next list, its data links, flags and count, and the one length or the offsets. */
static size_t size_of_list(size_t blocks, size_t rest)
{
    return MF4_HEADER_SIZE + 8 + 8 * blocks + 8 + 8 * rest;
}

static size_t smaller(size_t a, size_t b)
{
    return a < b ? a : b;
}

/* Blocks of so many bytes of data, the last one of what is left; gives how many. */
static size_t add_blocks(new_file *file, uint32_t id, const joined_data *data, size_t size, uint64_t links[MOST_JOINED])
{
    size_t done, count = 0;
    for (done = 0; done < data->length; done += size)
        links[count++] = add_data(file, id, data->bytes + done, smaller(size, data->length - done));
    return count;
}

/* Blocks of one length, and then their lists, end to end since each takes a multiple of 8; gives the first one's address. */
static uint64_t add_chain(new_file *file, uint32_t id, const joined_data *data, size_t length)
{
    uint64_t links[MOST_JOINED], first = 0;
    const size_t count = add_blocks(file, id, data, length, links);
    size_t done;
    for (done = 0; done < count; done += MOST_BLOCKS_OF_LIST) {
        const size_t blocks = smaller(MOST_BLOCKS_OF_LIST, count - done), size = size_of_list(blocks, 1);
        const uint64_t list = keep_room(file, size), next = done + blocks < count ? list + size : 0;
        must_write(mf4_write_list_equal(next, links + done, blocks, length, file->bytes + list, size));
        first = done == 0 ? list : first;
    }
    return first;
}

/* Blocks that end wherever the writer liked, and a list with the offset of each; gives the list's address. */
static uint64_t add_remarks(new_file *file, const joined_data *remarks)
{
    const uint64_t offsets[REMARK_BLOCKS + 1] = { 0, 21, 43, remarks->length };
    const size_t size = size_of_list(REMARK_BLOCKS, REMARK_BLOCKS);
    uint64_t links[REMARK_BLOCKS], list;
    int i;
    for (i = 0; i < REMARK_BLOCKS; i++)
        links[i] = add_data(file, MF4_ID_SD, remarks->bytes + offsets[i], (size_t)(offsets[i + 1] - offsets[i]));
    list = keep_room(file, size);
    must_write(mf4_write_list_variable(0, links, REMARK_BLOCKS, offsets, REMARK_BLOCKS, file->bytes + list, size));
    return list;
}

/* ---- the file --------------------------------------------------------------------------------------------------- */

static uint64_t add_channel_group(new_file *file)
{
    const uint64_t group = add_block(file, MF4_ID_CG, CG_LINKS, CG_FIELDS);
    set_field(file, group, CG_LINKS, CG_CYCLES, RECORDS, 8);
    set_field(file, group, CG_LINKS, CG_DATA_BYTES, DATA_BYTES, 4);
    set_field(file, group, CG_LINKS, CG_INVALIDATION_BYTES, RECORD_SIZE - DATA_BYTES, 4);
    set_link(file, group, CG_NAME, add_text(file, MF4_ID_TX, "pump controller"));
    return group;
}

/* A data group with its one channel group, the data, the payloads and the channels. */
static uint64_t add_group(new_file *file, const pump_data *data)
{
    const uint64_t data_group = add_block(file, MF4_ID_DG, DG_LINKS, DG_FIELDS), channel_group = add_channel_group(file);
    uint64_t sites, remarks;
    set_link(file, data_group, DG_FIRST_CG, channel_group);
    set_link(file, data_group, DG_DATA, add_chain(file, MF4_ID_DT, &data->records, BLOCK_DATA));
    sites = add_chain(file, MF4_ID_SD, &data->sites, SITE_BLOCK_DATA);
    remarks = add_remarks(file, &data->remarks);
    set_link(file, channel_group, CG_FIRST_CN, add_channels(file, sites, remarks));
    return data_group;
}

static void make_log(new_file *file, const pump_data *data)
{
    uint64_t header;
    add_identification(file);
    header = add_block(file, MF4_ID_HD, HD_LINKS, HD_FIELDS);
    set_field(file, header, HD_LINKS, HD_TIME, START_TIME, 8);
    set_link(file, header, HD_FIRST_FH, add_history(file));
    set_link(file, header, HD_FIRST_DG, add_group(file, data));
}

int main(int count, char **words)
{
    static new_file file;
    static pump_data data;
    if (count != 2) {
        fputs("use: make_log FILE\n", stderr);
        return 2;
    }
    check_layout();
    make_records(&data);
    make_log(&file, &data);
    if (!save_file(&file, words[1]))
        return 1;
    printf("%s: written, %u bytes: %d records of %d bytes and %d bytes of another, with sites and remarks beside them\n",
           words[1], (unsigned)file.length, RECORDS, RECORD_SIZE, TAIL);
    return 0;
}
