/*
 * Reads a pump log with the library: which channels it has, what each record says, texts of any length too, what all records
 * say of each number, and which pumps are due for service. All of it is found in the file, by its links from the header block
 * on; of pumps the loader knows the names of two channels and the hours of a service.
 *
 *     loader FILE
 *
 * A group that cannot be read gets a message, and those behind it are read; the status is 1 then. A value that is refused is
 * told in its place.
 */
#include <inttypes.h>
#include <stdio.h>
#include <stdlib.h>

#include "listing.h"
#include "service.h"
#include "summary.h"
#include "table.h"

static mdf_lists lists;
static mdf_channel channels[MDF_MOST_CHANNELS];

static const char *plural(uint64_t count)
{
    return count == 1 ? "" : "s";
}

/* What there is of data, and of how many records the channel group tells if it is not as many. */
static void print_size(const mdf_group *group, uint64_t length, int is_read)
{
    const uint64_t records = length / group->record_size, tail = length % group->record_size;
    if (group->data == 0)
        printf("\n  no data: the link to it is 0");
    else if (!is_read)
        printf("\n  data at %" PRIu64 ": refused", group->data);
    else
        printf("\n  data at %" PRIu64 ": %" PRIu64 " bytes, %" PRIu64 " record%s of %" PRIu64, group->data, length, records,
               plural(records), group->record_size);
    if (tail != 0)
        printf(", %" PRIu64 " trailing byte%s ignored", tail, plural(tail));
    if (group->is_walked)
        printf("; over %d data blocks, so each fetch walks the chain, which takes longer", MF4_MAX_TABLE_FRAGMENTS);
    if (group->counted != records)
        printf("; the file counts %" PRIu64 " record%s", group->counted, plural(group->counted));
    printf("\n");
}

/* Every record that is whole is read once, and all is decoded from it. */
static int show_records(mdf_file *file, const mdf_group *group, size_t count, uint64_t records)
{
    mdf_record record = { .file = file, .group = group };
    service_list service = { 0 };
    service_channels of_service;
    const char *no_service = find_service_channels(channels, count, &of_service);
    uint32_t reply = MF4_ANSWER;
    print_heading(channels, count);
    for (; record.number < records && (reply = mdf_read_record(&record).reply) == MF4_ANSWER; record.number++) {
        print_values(&record, channels, count);
        if (no_service == NULL)
            note_service(&service, &record, &of_service);
    }
    print_summary(file, group, channels, count);
    if (no_service == NULL)
        print_service(&service);
    else
        printf("\n  nothing is said of service: %s\n", no_service);
    free_service(&service);
    free(record.payload);
    return reply == MF4_ANSWER || mdf_trouble(file, "record %" PRIu64 ": refused (%" PRIu32 "): %s", record.number, reply,
                                              mf4_reply_text(reply));
}

/* Where a channel or the data cannot be read, what can is shown, and the trouble is told. */
static int show_group(mdf_file *file, mdf_group *group)
{
    size_t count;
    uint64_t length;
    int is_read, is_whole = mdf_read_channels(file, &lists, group, channels, &count);
    printf("\ndata group at %" PRIu64 "%s%s%s: %u channel%s\n", group->address, group->name[0] != '\0' ? ", \"" : "",
           group->name, group->name[0] != '\0' ? "\"" : "", (unsigned)count, plural(count));
    if (!is_whole)
        mdf_complain(file);
    is_read = mdf_open_data(file, group, &length) || mdf_complain(file);
    print_channels(file, group, channels, count, length / group->record_size);
    print_size(group, length, is_read);
    if (count > 0 && length >= group->record_size) {
        mdf_make_chain(file, &lists, group);
        is_read = show_records(file, group, count, length / group->record_size) || mdf_complain(file);
    }
    return is_whole && is_read;
}

static int show_groups(mdf_file *file, uint64_t first)
{
    static uint64_t groups[MDF_MOST_GROUPS];
    size_t count, i;
    int is_whole = mdf_list_groups(file, first, groups, &count) || mdf_complain(file);
    for (i = 0; i < count; i++) {
        mdf_group group = { 0 };
        if (mdf_read_group(file, groups[i], &group))
            is_whole = show_group(file, &group) && is_whole;
        else
            is_whole = mdf_complain(file);
        mdf_remove_lists(file, &lists);
    }
    return is_whole;
}

int main(int count, char **words)
{
    mdf_file file = { 0 };
    mdf_start start;
    int is_whole;
    if (count != 2) {
        fputs("use: loader FILE\n", stderr);
        return 2;
    }
    if (!mf4_version_matches()) {
        fputs("loader: the library is of another version than mf4.h, with which this program was compiled\n", stderr);
        return 2;
    }
    is_whole = (mdf_copy(&file, words[1]) && mdf_read_start(&file, &start)) || mdf_complain(&file);
    if (is_whole) {
        print_start(&start);
        is_whole = show_groups(&file, start.first_group);
    }
    fflush(stdout);
    free(file.bytes);
    return is_whole ? 0 : 1;
}
