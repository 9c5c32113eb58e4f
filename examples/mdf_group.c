#include <inttypes.h>
#include <stdio.h>
#include <string.h>

#include "mdf_blame.h"
#include "mdf_group.h"
#include "mdf_layout.h"

/* ---- the file --------------------------------------------------------------------------------------------------- */

static int check_identification(mdf_file *file, unsigned *version)
{
    if (file->length < IDENTIFICATION_SIZE)
        return mdf_trouble(file, "no MDF4 file: it has %" PRIu64 " bytes, and the identification alone would have %d",
                           (uint64_t)file->length, IDENTIFICATION_SIZE);
    if (memcmp(file->bytes, "UnFinMF ", 8) == 0)
        return mdf_trouble(file, "an MDF file that its writer has not finished (UnFinMF), which is not read here");
    if (memcmp(file->bytes, "MDF     ", 8) != 0)
        return mdf_trouble(file, "no MDF4 file: it does not begin with \"MDF     \"");
    *version = (unsigned)mdf_little(file->bytes + IDENTIFICATION_VERSION, 2);
    if (*version < 400 || *version >= 500)
        return mdf_trouble(file, "an MDF file of version %u.%02u, and only 4.00 to 4.99 are read here", *version / 100,
                           *version % 100);
    return 1;
}

/* Two bytes in two's complement. */
static int minutes_at(const uint8_t *bytes)
{
    const int number = (int)mdf_little(bytes, 2);
    return number < 0x8000 ? number : number - 0x10000;
}

int mdf_read_start(mdf_file *file, mdf_start *start)
{
    mdf_block block;
    if (!check_identification(file, &start->version)
        || !mdf_find_block(file, "header", HD_AT, MF4_ID_HD, HD_LINKS, HD_FIELDS, &block))
        return 0;
    start->nanoseconds = mdf_little(block.fields + HD_TIME, 8);
    start->is_local_time = (block.fields[HD_TIME_FLAGS] & HD_LOCAL_TIME) != 0;
    start->has_zone = (block.fields[HD_TIME_FLAGS] & HD_ZONE_KNOWN) != 0;
    start->zone_minutes = minutes_at(block.fields + HD_ZONE) + minutes_at(block.fields + HD_SUMMER);
    start->first_group = mdf_link(&block, HD_FIRST_DG);
    return 1;
}

/* ---- groups ----------------------------------------------------------------------------------------------------- */

static int was_met(const uint64_t *addresses, size_t count, uint64_t address)
{
    while (count > 0)
        if (addresses[--count] == address)
            return 1;
    return 0;
}

int mdf_list_groups(mdf_file *file, uint64_t first, uint64_t groups[MDF_MOST_GROUPS], size_t *count)
{
    uint64_t next = first;
    mdf_block block;
    for (*count = 0; *count == 0 || next != 0; next = mdf_link(&block, DG_NEXT)) {
        if (was_met(groups, *count, next))
            return mdf_trouble(file, "data group at %" PRIu64 ": a list of groups that loops leads there again", next);
        if (*count == MDF_MOST_GROUPS)
            return mdf_trouble(file, "data group at %" PRIu64 ": over %d groups", next, MDF_MOST_GROUPS);
        if (!mdf_find_block(file, "data group", next, MF4_ID_DG, DG_LINKS, DG_FIELDS, &block))
            return 0;
        groups[(*count)++] = next;
    }
    return 1;
}

static int read_channel_group(mdf_file *file, uint64_t address, mdf_group *group)
{
    mdf_block block;
    if (!mdf_find_block(file, "channel group", address, MF4_ID_CG, CG_LINKS, CG_FIELDS, &block))
        return 0;
    if (mdf_link(&block, CG_NEXT) != 0)
        return mdf_trouble(file, "channel group at %" PRIu64 ": another follows in its data group (unsorted data), which is "
                           "not read here: sort the log first", address);
    if ((block.fields[CG_FLAGS] & CG_VARIABLE_LENGTH) != 0)
        return mdf_trouble(file, "channel group at %" PRIu64 ": its records differ in length, which is not read here",
                           address);
    group->first_channel = mdf_link(&block, CG_FIRST_CN);
    group->counted = mdf_little(block.fields + CG_CYCLES, 8);
    group->layout.data_bytes = (uint32_t)mdf_little(block.fields + CG_DATA_BYTES, 4);
    group->layout.invalidation_bytes = (uint32_t)mdf_little(block.fields + CG_INVALIDATION_BYTES, 4);
    group->record_size = group->layout.record_id_size + group->layout.data_bytes + group->layout.invalidation_bytes;
    if (group->record_size == 0 || group->record_size > MF4_MAX_RECORD_SIZE)
        return mdf_trouble(file, "channel group at %" PRIu64 ": records of %" PRIu64 " bytes, and only 1 to %d are read",
                           address, group->record_size, MF4_MAX_RECORD_SIZE);
    return mdf_read_text(file, "group name", mdf_link(&block, CG_NAME), group->name);
}

int mdf_read_group(mdf_file *file, uint64_t address, mdf_group *group)
{
    mdf_block block;
    if (!mdf_find_block(file, "data group", address, MF4_ID_DG, DG_LINKS, DG_FIELDS, &block))
        return 0;
    group->address = address;
    group->data = mdf_link(&block, DG_DATA);
    group->start = group->data;
    group->layout.record_id_size = block.fields[DG_RECORD_ID_SIZE];
    return read_channel_group(file, mdf_link(&block, DG_FIRST_CG), group);
}

void mdf_make_chain(mdf_file *file, mdf_lists *lists, mdf_group *group)
{
    if (group->start == group->data)
        group->start = mdf_chain_start(file, lists, group->data, group->address);
}

/* The table of a chain; or of the one data block that is linked in its place, added to an empty table. */
static uint32_t open_table(const mdf_file *file, mdf_group *group)
{
    if (mdf_header_at(file, group->data).header.id != MF4_ID_DT)
        return mf4_open_table(file->bytes, file->length, group->data, &group->table).reply;
    memset(&group->table, 0, sizeof group->table);
    return mf4_extend_table(file->bytes, file->length, group->data, &group->table).reply;
}

/* A chain that is only too long for a table is accepted, and its length is asked for. */
int mdf_open_data(mdf_file *file, mdf_group *group, uint64_t *length)
{
    uint32_t reply;
    char what[64];
    *length = 0;
    if (group->data == 0)
        return 1;
    reply = open_table(file, group);
    group->is_walked = reply == MF4_TABLE_FULL;
    if (reply == MF4_ANSWER || group->is_walked) {
        *length = group->is_walked ? mf4_data_length(file->bytes, file->length, group->data).length
                                   : group->table.data_length;
        return 1;
    }
    snprintf(what, sizeof what, "data at %" PRIu64, group->data);
    return mdf_blame_chain(file, what, group->data, MF4_ID_DT, reply);
}
