/* Channel blocks. What is due is worked out here from the bytes, at the places that the standard gives. */
#include "fuzz.h"

#include <string.h>

#include "same_channel.h"

enum { LEAST_LINKS = 8, MOST_LINKS = 12, FIELDS_SIZE = 72, MOST_BEHIND = 2 };
enum { MOST_BLOCK = 24 + 8 * MOST_LINKS + FIELDS_SIZE + MOST_BEHIND };

static int same_channel(mf4_channel_reply a, mf4_channel_reply b)
{
    return a.reply == b.reply && a.told == b.told && same_channel_block(a.block, b.block);
}

static mf4_channel description_due(const uint8_t *block, const uint8_t *fields)
{
    mf4_channel channel;
    channel.channel_type = fields[0];
    channel.data_type = fields[2];
    channel.bit_offset = fields[3];
    channel.byte_offset = (uint32_t)little(fields + 4, 4);
    channel.bit_count = (uint32_t)little(fields + 8, 4);
    channel.flags = (uint32_t)little(fields + 12, 4);
    channel.pos_invalidation_bit = (uint32_t)little(fields + 16, 4);
    channel.data_addr = little(block + 64, 8);
    return channel;
}

static void fields_due(mf4_channel_block *due, const uint8_t *fields)
{
    due->sync_type = fields[1];
    due->precision = fields[20];
    due->reserved1 = fields[21];
    due->attachment_count = (uint16_t)(fields[22] + 256 * fields[23]);
    due->min_raw_value = little(fields + 24, 8);
    due->max_raw_value = little(fields + 32, 8);
    due->lower_limit = little(fields + 40, 8);
    due->upper_limit = little(fields + 48, 8);
    due->lower_ext_limit = little(fields + 56, 8);
    due->upper_ext_limit = little(fields + 64, 8);
}

static mf4_channel_block block_due(const uint8_t *block, uint64_t links)
{
    const uint8_t *fields = block + 24 + 8 * links;
    mf4_channel_block due;
    due.header.id = (uint32_t)little(block, 4);
    due.header.reserved0 = (uint32_t)little(block + 4, 4);
    due.header.block_len = little(block + 8, 8);
    due.header.link_count = links;
    due.next_ch_addr = little(block + 24, 8);
    due.component_addr = little(block + 32, 8);
    due.name_addr = little(block + 40, 8);
    due.source_addr = little(block + 48, 8);
    due.conversion_addr = little(block + 56, 8);
    due.unit_addr = little(block + 72, 8);
    due.comment_addr = little(block + 80, 8);
    due.more_links_at = 88;
    due.more_link_count = links - LEAST_LINKS;
    due.channel = description_due(block, fields);
    fields_due(&due, fields);
    return due;
}

static mf4_channel_reply refused_with(uint32_t reply, uint64_t told)
{
    mf4_channel_reply refused;
    memset(&refused, 0, sizeof refused);
    refused.reply = reply;
    refused.told = told;
    return refused;
}

static mf4_channel_reply channel_due(const uint8_t *bytes, size_t length)
{
    mf4_channel_reply due = refused_with(MF4_ANSWER, 0);
    uint64_t links, most_links = (UINT64_MAX - 24 - FIELDS_SIZE) / 8;
    if (length < 24)
        return refused_with(MF4_TOO_FEW_BYTES, 24);
    if (memcmp(bytes, "##CN", 4) != 0)
        return refused_with(MF4_OTHER_ID, 0);
    links = little(bytes + 16, 8);
    if (links < LEAST_LINKS)
        return refused_with(MF4_TOO_FEW_LINKS, 0);
    if (links > most_links)
        return refused_with(MF4_TOO_FEW_BYTES, UINT64_MAX);
    if (length < 24 + 8 * links + FIELDS_SIZE)
        return refused_with(MF4_TOO_FEW_BYTES, 24 + 8 * links + FIELDS_SIZE);
    due.block = block_due(bytes, links);
    return due;
}

/* What a block comes back as: the writer has a header of its own, no further links, and zeros. */
static mf4_channel_reply written_due(mf4_channel_block block)
{
    static const mf4_header header = { MF4_ID_CN, 0, 160, LEAST_LINKS };
    mf4_channel_reply due = refused_with(MF4_ANSWER, 0);
    due.block = block;
    due.block.header = header;
    due.block.more_links_at = 88;
    due.block.more_link_count = 0;
    due.block.reserved1 = 0;
    due.block.attachment_count = 0;
    return due;
}

/* What is lent may stand in a longer slice, so that a byte behind it shows. */
static void exercise_write(mf4_channel_block block)
{
    size_t room = 158 + choose_byte() % 6, behind = choose_byte() % 3;
    lent whole = lend_marked(OUTPUT, room + behind), out = whole;
    mf4_written_reply answer;
    out.length = room;
    answer = mf4_write_channel(block, out.bytes, out.length);
    check_written(WRITE_CHANNEL, answer, out, REPLY(0) | REPLY(6));
    MUST((answer.reply == MF4_ANSWER) == (room >= 160));
    MUST(answer.reply == MF4_ANSWER ? answer.count == 160 : answer.told == 160);
    if (answer.reply == MF4_ANSWER) {
        MUST(same_channel(channel_due(out.bytes, 160), written_due(block)));
        MUST(same_channel(mf4_read_channel(out.bytes, 160), written_due(block)));
    }
    MUST(same_written(answer, mf4_write_channel(block, out.bytes, out.length)));
    MUST(is_unchanged_from(whole, (size_t)answer.count));
}

/* What was read is written with the same links and the same fields, but for the reserved byte and the attachments. */
static void exercise_rewriting(lent input, mf4_channel_block block)
{
    const uint8_t *fields = input.bytes + 24 + 8 * block.header.link_count;
    uint8_t out[MF4_CHANNEL_BLOCK_SIZE];
    MUST(mf4_write_channel(block, out, sizeof out).reply == MF4_ANSWER);
    MUST(same_bytes(out + 24, input.bytes + 24, 64));
    MUST(same_bytes(out + 88, fields, 21));
    MUST(same_bytes(out + 112, fields + 24, 48));
}

/* What was read is decoded and written as it stands. */
static void exercise_read(lent input, mf4_channel_block block, reading how)
{
    how.channel = block.channel;
    exercise_value(input, how);
    if (block.channel.data_type > MF4_TYPE_COMPLEX_BE) {
        mf4_value_reply value = mf4_decode_value(input.bytes, input.length, how.group.record_id_size, how.channel);
        MUST(value.reply == MF4_ANSWER ? value.kind == MF4_KIND_UNKNOWN : value.reply == MF4_FIELD_OUTSIDE);
    }
    exercise_rewriting(input, block);
    exercise_write(block);
}

void exercise_channel(lent input, reading how)
{
    mf4_channel_reply answer = mf4_read_channel(input.bytes, input.length);
    check_reply(READ_CHANNEL, answer.reply, answer.told, REPLY(0) | REPLY(2) | REPLY(3) | REPLY(17));
    MUST(same_channel(answer, channel_due(input.bytes, input.length)));
    MUST(same_channel(answer, mf4_read_channel(input.bytes, input.length)));
    MUST(is_unchanged(input));
    if (answer.reply == MF4_ANSWER) {
        uint8_t code = answer.block.channel.data_type;
        note(READ_CHANNEL, 32 + (unsigned)answer.block.more_link_count % 8);
        note(READ_CHANNEL, 40u + (code <= MF4_TYPE_COMPLEX_BE ? code : 17));
        exercise_read(input, answer.block, how);
    }
}

static void put_little(uint8_t *place, uint64_t number)
{
    int i;
    for (i = 0; i < 8; i++)
        place[i] = (uint8_t)(number >> 8 * i);
}

/* Any number, or one around the largest whose block has a size below 2^64. */
static uint64_t choose_many_links(void)
{
    uint8_t how = choose_byte();
    return how % 2 == 0 ? choose_number() : UINT64_MAX / 8 - how / 2 % 16;
}

/* A NaN that signals, or not, or an infinity. */
static uint64_t choose_no_number(void)
{
    uint8_t how = choose_byte();
    return (uint64_t)(how % 2 == 0 ? 0x7FF : 0xFFF) << 52 | (uint64_t)(how / 2 % 2) << 51 | how / 4;
}

/* Mostly a whole block of a few links; at times with another id, another count or no number, and at times cut. */
lent choose_channel_block(void)
{
    uint8_t bytes[MOST_BLOCK], how = choose_byte();
    uint64_t links = LEAST_LINKS + choose_byte() % (MOST_LINKS - LEAST_LINKS + 1);
    size_t size = (size_t)(24 + 8 * links + FIELDS_SIZE), i;
    for (i = 0; i < sizeof bytes; i++)
        bytes[i] = choose_byte();
    memcpy(bytes, "##CN", 4);
    if (how % 8 == 7)
        bytes[choose_byte() % 4] ^= choose_byte();
    put_little(bytes + 16, how / 8 % 4 == 3 ? choose_many_links() : links);
    if (how % 8 < 3)
        put_little(bytes + size - 8 * (1 + choose_byte() % 6), choose_no_number());
    if (how / 32 == 7)
        size = choose_size(size);
    else if (how / 32 == 6)
        size--;
    else
        size += how / 32 % (MOST_BEHIND + 1);
    return lend_copy(INPUT, bytes, size);
}

/* A block of any numbers, its header and its further links among them. */
void exercise_channel_writer(mf4_channel channel)
{
    mf4_channel_block block;
    uint64_t *numbers[] = { &block.next_ch_addr, &block.component_addr, &block.name_addr, &block.source_addr,
                          &block.conversion_addr, &block.unit_addr, &block.comment_addr, &block.more_links_at,
                          &block.more_link_count, &block.header.block_len, &block.header.link_count, &block.min_raw_value,
                          &block.max_raw_value, &block.lower_limit, &block.upper_limit, &block.lower_ext_limit,
                          &block.upper_ext_limit };
    size_t i;
    for (i = 0; i < sizeof numbers / sizeof *numbers; i++)
        *numbers[i] = choose_number();
    block.header.id = (uint32_t)choose_number();
    block.header.reserved0 = (uint32_t)choose_number();
    block.channel = channel;
    block.sync_type = choose_byte();
    block.precision = choose_byte();
    block.reserved1 = choose_byte();
    block.attachment_count = (uint16_t)choose_raw(2);
    exercise_write(block);
}
