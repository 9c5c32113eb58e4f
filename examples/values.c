/* Prints the records of a log's first group, as the file has them: raw, before any conversion. */
#include <errno.h>
#include <inttypes.h>
#include <stdio.h>
#include <stdlib.h>
#include <string.h>
#include <mf4.h>

enum { MOST_CHANNELS = 1000 };

static const char *path;
static uint8_t *file;        /* a copy of the log: it must not change while it is read */
static size_t file_len;
static uint64_t start, size; /* where the chain of records starts; the bytes of a record */
static mf4_table table;      /* where the data blocks stand: a fetch need not walk along the chain */
static int is_walked;        /* but it does, where there are too many blocks for a table */
static mf4_group group;
static mf4_channel channels[MOST_CHANNELS];
static uint8_t record[MF4_MAX_RECORD_SIZE], payload[MF4_MAX_RECORD_SIZE];
static uint8_t text[2 * MF4_MAX_RECORD_SIZE]; /* mf4_text_room of either */

static void stop_if(int is_wrong, const char *why)
{
    if (!is_wrong)
        return;
    fprintf(stderr, "%s: %s\n", path, why);
    exit(1);
}

static void read_file(void)
{
    FILE *log = fopen(path, "rb");
    size_t room = 0;
    while (log != NULL && file_len == room) {
        room = 2 * room + 65536;
        file = (uint8_t *)realloc(file, room);
        file_len += file != NULL ? fread(file + file_len, 1, room - file_len, log) : 0;
    }
    stop_if(log == NULL || file == NULL || ferror(log), strerror(errno));
    fclose(log);
}

/* A link or a field: so many bytes, the lowest first; 0 if the file has no such bytes. */
static uint64_t number_at(uint64_t address, size_t bytes)
{
    uint64_t number = 0;
    if (address < file_len && bytes <= file_len - address)
        while (bytes-- > 0)
            number = number << 8 | file[address + bytes];
    return number;
}

/* The calls read chains of data lists. For a single data block, a list of that one block is written over the block that
 * links it, in our copy: it was read already, and has the room. */
static uint64_t chain_at(uint64_t address, uint64_t linked_by)
{
    uint64_t id = number_at(address, 4), length = number_at(address + 8, 8) - MF4_HEADER_SIZE;
    if (id != MF4_ID_DT && id != MF4_ID_SD)
        return address;
    mf4_write_list_equal(0, &address, 1, length, file + linked_by, file_len - linked_by);
    return linked_by;
}

/* The channels from an address on, each described by its own block; returns how many. */
static size_t read_channels(uint64_t address)
{
    size_t found = 0;
    while (address != 0) {
        stop_if(address >= file_len || found == MOST_CHANNELS, "a channel outside the file, or too many");
        mf4_channel_reply c = mf4_read_channel(file + address, file_len - address);
        stop_if(c.reply != MF4_ANSWER, mf4_reply_text(c.reply));
        channels[found] = c.block.channel;
        channels[found++].data_addr = chain_at(c.block.channel.data_addr, address);
        address = c.block.next_ch_addr;
    }
    return found;
}

/* A table holds 512 data blocks. A chain of more is sound all the same, and is read without one. */
static void open_table(void)
{
    uint32_t reply = mf4_open_table(file, file_len, start, &table).reply;
    is_walked = reply == MF4_TABLE_FULL;
    if (is_walked)
        fprintf(stderr, "%s: %s, so each fetch walks the chain, which takes longer\n", path, mf4_reply_text(reply));
    stop_if(reply != MF4_ANSWER && !is_walked, mf4_reply_text(reply));
}

/* Record k, into `record`. */
static uint32_t fetch(uint64_t k)
{
    if (is_walked)
        return mf4_read_record(file, file_len, start, k, size, record, sizeof record).reply;
    return mf4_table_record(file, file_len, &table, k, size, record, sizeof record).reply;
}

static void print_value(mf4_valid_value_reply v, const uint8_t *bytes, uint8_t data_type)
{
    if (v.reply != MF4_ANSWER)
        printf(" (%s)", mf4_reply_text(v.reply));
    else if (!v.is_valid)
        printf(" -");
    else if (v.kind == MF4_KIND_UNSIGNED)
        printf(" %" PRIu64, v.number);
    else if (v.kind == MF4_KIND_SIGNED)
        printf(" %" PRId64, mf4_bits_as_signed(v.number));
    else if (v.kind == MF4_KIND_DOUBLE)
        printf(" %.17g", mf4_bits_as_double(v.number));
    else if (v.kind == MF4_KIND_TEXT) {
        mf4_text_reply t = mf4_text_by_type(data_type, bytes + v.at, (size_t)v.length, text, sizeof text);
        printf(" \"%.*s\"", (int)t.count, (const char *)text);
    } else
        printf(" (kind %" PRIu32 ", %" PRIu64 " bytes)", v.kind, v.length);
}

/* A channel's value in record k: it is in `record`, or `record` has the position of a payload. */
static void print_channel(uint64_t k, mf4_channel c)
{
    if (c.channel_type == MF4_CHANNEL_MAX_LENGTH) /* its length is in another channel, and stale bytes are behind */
        printf(" (maximum length: not read)");
    else if (c.channel_type == MF4_CHANNEL_VIRTUAL || c.channel_type == MF4_CHANNEL_VIRTUAL_MASTER)
        printf(" %" PRIu64, k); /* no field in the record: the value is the record's number */
    else if (c.channel_type == MF4_CHANNEL_VARIABLE_LENGTH) {
        mf4_payload_reply p = mf4_record_payload(file, file_len, start, k, size, group, c, record, sizeof record,
                                                 payload, sizeof payload);
        mf4_valid_value_reply v = { p.reply, p.told, p.kind, p.is_valid, p.number, p.at, p.length };
        print_value(v, payload, c.data_type);
    } else
        print_value(mf4_decode_valid_value(record, (size_t)size, group, c), record, c.data_type);
}

int main(int count, char **words)
{
    path = count == 2 ? words[1] : "values";
    stop_if(count != 2, "name one log");
    read_file();
    stop_if(file_len < 64 || memcmp(file, "MDF     ", 8) != 0, "no MDF file, or one that its writer has not finished");
    stop_if(number_at(28, 2) / 100 != 4, "an MDF file of another version than 4.xx");
    uint64_t data_group = number_at(64 + 24, 8);            /* the first link of the header block, which is at 64 */
    uint64_t channel_group = number_at(data_group + 32, 8); /* ASAM MDF 4.1 says where links and fields stand     */
    stop_if(data_group == 0 || channel_group == 0, "no group");
    stop_if(number_at(channel_group + 24, 8) != 0, "a data group with two channel groups: sort the log first");
    group.record_id_size = number_at(data_group + 56, 1);
    group.data_bytes = (uint32_t)number_at(channel_group + 96, 4);
    group.invalidation_bytes = (uint32_t)number_at(channel_group + 100, 4);
    size = group.record_id_size + group.data_bytes + group.invalidation_bytes;
    start = chain_at(number_at(data_group + 40, 8), data_group);
    size_t found = read_channels(number_at(channel_group + 32, 8));
    open_table();
    uint32_t reply;
    for (uint64_t k = 0; (reply = fetch(k)) == MF4_ANSWER; k++) {
        printf("record %" PRIu64 ":", k);
        for (size_t i = 0; i < found; i++)
            print_channel(k, channels[i]);
        printf("\n");
    }
    stop_if(reply != MF4_NO_SUCH_RECORD, mf4_reply_text(reply)); /* that one marks the end */
    return 0;
}
