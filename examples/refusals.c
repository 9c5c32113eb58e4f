/*
 * What the library says of a log that is damaged. Six damages are made up, each in a copy of what the log says, and each
 * must be refused: a record behind the last one, a field that a wrong description puts past its record's end, an invalidation
 * bit that one puts past the group's invalidation bytes, a payload whose position is read from a wrong place, a log that has
 * lost its end since its table was made, and a block that is too short for its place in the chain.
 *
 *     refusals FILE
 *
 * It takes the first group of the log that make_log writes, or of another. What a log has no place for is left out.
 */
#include <inttypes.h>
#include <stdio.h>
#include <stdlib.h>

#include "cells.h"
#include "listing.h"
#include "mdf_blame.h"

static mdf_lists lists;
static mdf_channel channels[MDF_MOST_CHANNELS];

/* ---- records and fields ----------------------------------------------------------------------------------------- */

static int show_record_behind(mdf_file *file, const mdf_group *group, uint64_t length)
{
    mdf_record record = { .file = file, .group = group, .number = length / group->record_size };
    const uint32_t reply = mdf_read_record(&record).reply;
    printf("\nrecord %" PRIu64 ", behind the last one:\n  refused (%" PRIu32 "): %s\n", record.number, reply,
           mf4_reply_text(reply));
    return reply == MF4_NO_SUCH_RECORD || mdf_trouble(file, "the record behind the last one should be refused");
}

/* Says how a field with a wrong description is refused, as it must be with that number. */
static int show_refusal(mdf_file *file, const mdf_group *group, const mf4_channel *wrong, uint32_t due)
{
    const mf4_valid_value_reply value = mdf_field_reply(group, wrong);
    print_refusal(group, wrong, value);
    return value.reply == due || mdf_trouble(file, "it should be refused with %" PRIu32, due);
}

/* Whether the channel's field is a number that is read. */
static int is_number_field(const mdf_group *group, const mf4_channel *channel)
{
    const uint32_t kind = mdf_field_reply(group, channel).kind;
    return mdf_place_of(channel) == MDF_FIELD && kind >= MF4_KIND_UNSIGNED && kind <= MF4_KIND_DOUBLE;
}

/* Lets the last number of the records begin where they end, in a copy of its description. */
static int show_field_outside(mdf_file *file, const mdf_group *group, size_t left)
{
    while (left-- > 0) {
        mf4_channel wrong = channels[left].described;
        if (!is_number_field(group, &wrong))
            continue;
        wrong.byte_offset = (uint32_t)group->record_size;
        printf("\nthe same log with a description that puts %s at byte %" PRIu32 ":\n  ", channels[left].name,
               wrong.byte_offset);
        return show_refusal(file, group, &wrong, MF4_FIELD_OUTSIDE);
    }
    return 1;
}

/* ---- an invalidation bit outside -------------------------------------------------------------------------------- */

/* Whether each record has a bit that says whether the channel's value is invalid. */
static int has_invalidation_bit(const mf4_channel *channel)
{
    return (channel->flags & MF4_CHANNEL_ALL_INVALID) == 0 && (channel->flags & MF4_CHANNEL_INVALIDATION_BIT) != 0;
}

/* Reads the first record that marks the channel's value as invalid; gives 0 where there is none. */
static int find_invalid(mdf_record *record, const mf4_channel *channel, uint64_t records)
{
    for (; record->number < records && mdf_read_record(record).reply == MF4_ANSWER; record->number++)
        if (!mdf_read_value(record, channel).told.is_valid)
            return 1;
    return 0;
}

/* What a planner would have been shown: a value that the log marks as invalid, as one that was measured. */
static void show_taken_for_measured(const mdf_file *file, const mdf_group *group, const mdf_channel *channel,
                                    const mf4_channel *wrong, uint64_t records)
{
    mdf_record record = { .file = file, .group = group };
    const char *unit = mdf_is_applied(&channel->conversion) ? channel->unit : "raw";
    mdf_channel unmarked = *channel;
    char cell[CELL_ROOM];
    if (!find_invalid(&record, &channel->described, records)
        || !mf4_check_validity_unbounded(record.bytes, (size_t)group->record_size, group->layout, *wrong))
        return;
    unmarked.described.flags = 0;
    spell_value(&record, &unmarked, cell);
    printf("  without this refusal a bit of another record would decide, or every value would pass for a measured one:\n"
           "  record %" PRIu64 " would show %s as %s%s%s, though the log marks that value as invalid\n", record.number,
           channel->name, cell, unit[0] != '\0' ? " " : "", unit);
}

/* Puts the last field's invalidation bit behind the group's invalidation bytes, in a copy of its description. */
static int show_bit_outside(mdf_file *file, const mdf_group *group, size_t left, uint64_t records)
{
    while (left-- > 0) {
        mf4_channel wrong = channels[left].described;
        int is_refused;
        if (!is_number_field(group, &wrong) || !has_invalidation_bit(&wrong))
            continue;
        wrong.pos_invalidation_bit = 8 * group->layout.invalidation_bytes;
        printf("\nthe same log with a description that puts the invalidation bit of %s at bit %" PRIu32 ":\n  ",
               channels[left].name, wrong.pos_invalidation_bit);
        is_refused = show_refusal(file, group, &wrong, MF4_BIT_OUTSIDE);
        show_taken_for_measured(file, group, &channels[left], &wrong, records);
        return is_refused;
    }
    return 1;
}

/* ---- payloads and blocks ---------------------------------------------------------------------------------------- */

/* Reads the position of record 0's last payload from the record's front, by a copy of its description. A log that has some
 * position there shows nothing. */
static void show_payload_outside(const mdf_file *file, const mdf_group *group, size_t left)
{
    mdf_record record = { .file = file, .group = group };
    while (left-- > 0) {
        mf4_channel described = channels[left].described;
        uint32_t reply = mdf_read_payload(&record, described).reply;
        if (reply != MF4_ANSWER)
            continue;
        described.byte_offset = 0;
        reply = mdf_read_payload(&record, described).reply;
        if (reply != MF4_ANSWER)
            printf("\nthe same log with a description that puts the position of %s at byte 0:\n"
                   "  refused (%" PRIu32 "): %s\n", channels[left].name, reply, mf4_reply_text(reply));
        break;
    }
    free(record.payload);
}

/* Fetches a record by the table of the whole log from one whose last data block has lost a byte. */
static int show_cut_log(mdf_file *file, const mdf_group *group)
{
    const mf4_table *table = &group->table;
    const mf4_fragment *last;
    mdf_file cut = *file;
    mdf_record record = { .file = &cut, .group = group };
    uint32_t reply;
    if (table->fragment_count == 0)
        return 1;
    last = &table->fragments[table->fragment_count - 1];
    cut.length = (size_t)(last->block_addr + MF4_HEADER_SIZE + table->data_length - last->data_position - 1);
    reply = mdf_read_record(&record).reply;
    printf("\nthe same log cut at %" PRIu64 ", inside its last data block, and read by the table of the whole log:\n"
           "  refused (%" PRIu32 "): %s\n", (uint64_t)cut.length, reply, mf4_reply_text(reply));
    return reply == MF4_BAD_TABLE || mdf_trouble(file, "the table of another file should be refused");
}

/* Takes a byte from the last block of the chain's first list, in the copy. Where lists declare one length, only the very last
 * block may be shorter: whoever finds records by that length would read all behind a short one from the wrong place. */
static int show_short_block(mdf_file *file, mdf_group *group)
{
    const uint8_t *start = file->bytes + group->start;
    const mf4_list_reply list = mf4_read_list(start, file->length - (size_t)group->start);
    mf4_header header;
    uint64_t block, length;
    if ((list.flags & MF4_LIST_EQUAL_LENGTH) == 0 || list.next_addr == 0 || list.data_link_count == 0)
        return 1;
    block = mdf_little(start + list.data_links_at + 8 * (list.data_link_count - 1), 8);
    header = mdf_header_at(file, block).header;
    if (header.block_len <= MF4_HEADER_SIZE)
        return 1;
    header.block_len--;
    mf4_write_header(header, file->bytes + block, MF4_HEADER_SIZE);
    if (mdf_open_data(file, group, &length))
        return mdf_trouble(file, "the short block should be refused");
    printf("\nthe same log with a short block in the middle of the chain, at %" PRIu64 ":\n  %s\n", block, file->trouble);
    return 1;
}

static int show_file(mdf_file *file)
{
    static uint64_t groups[MDF_MOST_GROUPS];
    mdf_group group = { 0 };
    mdf_start start;
    uint64_t length;
    size_t count;
    if (!mdf_read_start(file, &start) || !mdf_list_groups(file, start.first_group, groups, &count)
        || !mdf_read_group(file, groups[0], &group) || !mdf_open_data(file, &group, &length)
        || !mdf_read_channels(file, &lists, &group, channels, &count))
        return 0;
    if (length == 0)
        return mdf_trouble(file, "the first group has no data");
    printf("\nSix damages, made up here, and what the library says of each:\n");
    if (!show_record_behind(file, &group, length) || !show_field_outside(file, &group, count)
        || !show_bit_outside(file, &group, count, length / group.record_size))
        return 0;
    show_payload_outside(file, &group, count);
    return show_cut_log(file, &group) && show_short_block(file, &group);
}

int main(int count, char **words)
{
    mdf_file file = { 0 };
    int is_shown;
    if (count != 2) {
        fputs("use: refusals FILE\n", stderr);
        return 2;
    }
    is_shown = (mdf_copy(&file, words[1]) && show_file(&file)) || mdf_complain(&file);
    free(file.bytes);
    return is_shown ? 0 : 1;
}
