/* Channel blocks, read; and the descriptions in them, decoded. */
#include "channel_bytes.h"

#include <string.h>

#include "same_channel.h"
#include "values.h"

enum { HEADER = 24, FIELDS = 72, MOST_LINKS = 20, MOST_BEHIND = 10 };
enum { MOST_BLOCK = HEADER + 8 * MOST_LINKS + FIELDS + MOST_BEHIND };

mf4_channel_block sample_block(void)
{
    static const mf4_channel_block sample = {
        .header = { MF4_ID_CN, 0x04030201, UINT64_C(0xA09F9E9D9C9B9A99), 8 },
        .next_ch_addr = UINT64_C(0x1817161514131211),
        .component_addr = UINT64_C(0x2827262524232221),
        .name_addr = UINT64_C(0x3837363534333231),
        .source_addr = UINT64_C(0x4847464544434241),
        .conversion_addr = UINT64_C(0x5857565554535251),
        .unit_addr = UINT64_C(0x7877767574737271),
        .comment_addr = UINT64_C(0x8887868584838281),
        .more_links_at = 88,
        .more_link_count = 0,
        .channel = { .data_type = MF4_TYPE_FLOAT_BE, .channel_type = 0x91, .bit_offset = 0x94, .byte_offset = 0xA4A3A2A1,
                     .bit_count = 0xA9A8A7A6, .flags = 0xB4B3B2B1, .pos_invalidation_bit = 0xB8B7B6B5,
                     .data_addr = UINT64_C(0x6867666564636261) },
        .sync_type = 0x92,
        .precision = 0xC1,
        .reserved1 = 0xC2,
        .attachment_count = 0xC4C3,
        .min_raw_value = UINT64_C(0xD8D7D6D5D4D3D2D1),
        .max_raw_value = UINT64_C(0xE8E7E6E5E4E3E2E1),
        .lower_limit = UINT64_C(0xF8F7F6F5F4F3F2F1),
        .upper_limit = UINT64_C(0x100F0E0D0C0B0A09),
        .lower_ext_limit = UINT64_C(0x201F1E1D1C1B1A19),
        .upper_ext_limit = UINT64_C(0x302F2E2D2C2B2A29),
    };
    return sample;
}

mf4_channel_block written_block(void)
{
    mf4_channel_block block = sample_block();
    block.header.reserved0 = 0;
    block.header.block_len = 160;
    block.reserved1 = 0;
    block.attachment_count = 0;
    return block;
}

int channel_is(mf4_channel_reply a, mf4_channel_block block)
{
    return a.reply == 0 && a.told == 0 && same_channel_block(a.block, block);
}

static int channel_refused(mf4_channel_reply a, uint32_t reply, uint64_t told)
{
    static const mf4_channel_block nothing;
    return a.reply == reply && a.told == told && same_channel_block(a.block, nothing);
}

static void put_little(uint8_t *place, uint64_t number, int size)
{
    int i;
    for (i = 0; i < size; i++)
        place[i] = (uint8_t)(number >> 8 * i);
}

/* The sample with so many links: its eight, others, and then its fields, with some bytes behind. Gives the block's size. */
static size_t bytes_with_links(size_t links, uint8_t *bytes)
{
    uint8_t sample[256];
    size_t fields_at = HEADER + 8 * links;
    from_hex(SAMPLE_BLOCK, sample);
    memset(bytes, 0x77, MOST_BLOCK);
    memcpy(bytes, sample, 88);
    memcpy(bytes + fields_at, sample + 88, FIELDS);
    put_little(bytes + 16, links, 8);
    return fields_at + FIELDS;
}

static mf4_channel_block block_with_links(uint64_t links)
{
    mf4_channel_block block = sample_block();
    block.header.link_count = links;
    block.more_link_count = links - 8;
    return block;
}

static mf4_channel_reply read_bytes(const uint8_t *bytes, size_t count)
{
    lent input = lend_copy(INPUT, bytes, count);
    mf4_channel_reply answer = mf4_read_channel(input.bytes, input.length);
    CHECK(is_unchanged(input));
    return answer;
}

/* The sample's first bytes with that link count, whatever stands behind it. */
static mf4_channel_reply read_counted(uint64_t link_count, size_t count)
{
    uint8_t bytes[MOST_BLOCK];
    bytes_with_links(8, bytes);
    put_little(bytes + 16, link_count, 8);
    return read_bytes(bytes, count);
}

static void check_read_channel(void)
{
    lent input;
    name_case("read a channel");
    input = hex(SAMPLE_BLOCK);
    CHECK(input.length == 160 && channel_is(mf4_read_channel(input.bytes, input.length), sample_block()));
    input = hex(WRITTEN_BLOCK);
    CHECK(input.length == 160 && channel_is(mf4_read_channel(input.bytes, input.length), written_block()));
    input = hex(SAMPLE_BLOCK "99");
    CHECK(input.length == 161 && channel_is(mf4_read_channel(input.bytes, input.length), sample_block()));
    CHECK(channel_refused(mf4_read_channel(NULL, 0), 2, 24));
}

/* The links behind the eighth stand before the fields, and each makes the block longer by 8. */
static void check_every_length(size_t links)
{
    uint8_t bytes[MOST_BLOCK];
    size_t needed = bytes_with_links(links, bytes), length;
    CHECK(needed == 160 + 8 * (links - 8));
    for (length = 0; length <= needed + MOST_BEHIND; length++) {
        name_number("read a channel: bytes", length);
        if (length < 24)
            CHECK(channel_refused(read_bytes(bytes, length), 2, 24));
        else if (length < needed)
            CHECK(channel_refused(read_bytes(bytes, length), 2, needed));
        else
            CHECK(channel_is(read_bytes(bytes, length), block_with_links(links)));
    }
}

static void check_lengths(void)
{
    size_t links;
    check_every_length(8);
    check_every_length(9);
    check_every_length(12);
    for (links = 8; links <= MOST_LINKS; links++) {
        uint8_t bytes[MOST_BLOCK];
        size_t needed = bytes_with_links(links, bytes);
        name_number("read a channel: links", links);
        CHECK(channel_is(read_bytes(bytes, needed), block_with_links(links)));
        CHECK(channel_refused(read_bytes(bytes, needed - 1), 2, needed));
    }
}

static void check_ids(void)
{
    static const char ids[][5] = { "##DT", "##CG", "##CM", "##CO", "##cn", "##Cn", "##DN", "##NC", "CN##", "#!CN", "!#CN",
                                   "#\xC3" "CN", "" };
    uint8_t bytes[MOST_BLOCK];
    size_t i;
    bytes_with_links(8, bytes);
    for (i = 0; i < COUNT(ids); i++) {
        name_row("read a channel: ids", i);
        memcpy(bytes, ids[i], 4);
        put_little(bytes + 16, 8, 8);
        CHECK(channel_refused(read_bytes(bytes, 160), 3, 0));
        CHECK(channel_refused(read_bytes(bytes, 24), 3, 0));
        CHECK(channel_refused(read_bytes(bytes, 23), 2, 24));
        put_little(bytes + 16, 7, 8);
        CHECK(channel_refused(read_bytes(bytes, 160), 3, 0));
        put_little(bytes + 16, MOST, 8);
        CHECK(channel_refused(read_bytes(bytes, 160), 3, 0));
    }
}

static void check_few_links(void)
{
    uint64_t links;
    for (links = 0; links < 8; links++) {
        name_number("read a channel: links", links);
        CHECK(channel_refused(read_counted(links, 160), 17, 0));
        CHECK(channel_refused(read_counted(links, 170), 17, 0));
        CHECK(channel_refused(read_counted(links, 24 + 8 * (size_t)links), 17, 0));
        CHECK(channel_refused(read_counted(links, 24), 17, 0));
        CHECK(channel_refused(read_counted(links, 23), 2, 24));
    }
    name_case("read a channel: enough links in too few bytes");
    CHECK(channel_refused(read_counted(8, 159), 2, 160));
    CHECK(channel_refused(read_counted(8, 24), 2, 160));
    CHECK(channel_refused(read_counted(9, 160), 2, 168));
    CHECK(channel_refused(read_counted(10, 168), 2, 176));
}

typedef struct counted {
    uint64_t link_count, told;
} counted;

/* 2^61 - 13 links need 24 + 8 * (2^61 - 13) + 72 = 2^64 - 8 bytes, the largest such size; one more needs 2^64, told as
 * 2^64 - 1. Behind it a sum that wraps is small again: 2^61 + 8 links, and so on, would seem to be 8. */
static const counted many_links[] = {
    { UINT64_C(1000000), UINT64_C(8000096) },
    { UINT64_C(0x100000008), UINT64_C(0x8000000A0) },
    { UINT64_C(0x1000000000000000), UINT64_C(0x8000000000000060) },
    { UINT64_C(0x1FFFFFFFFFFFFFF2), UINT64_C(0xFFFFFFFFFFFFFFF0) },
    { UINT64_C(0x1FFFFFFFFFFFFFF3), UINT64_C(0xFFFFFFFFFFFFFFF8) },
    { UINT64_C(0x1FFFFFFFFFFFFFF4), MOST }, { UINT64_C(0x1FFFFFFFFFFFFFF5), MOST },
    { UINT64_C(0x1FFFFFFFFFFFFFFC), MOST }, { UINT64_C(0x1FFFFFFFFFFFFFFD), MOST },
    { UINT64_C(0x1FFFFFFFFFFFFFFF), MOST }, { UINT64_C(0x2000000000000000), MOST },
    { UINT64_C(0x2000000000000007), MOST }, { UINT64_C(0x2000000000000008), MOST },
    { UINT64_C(0x2000000000000009), MOST }, { UINT64_C(0x4000000000000008), MOST },
    { UINT64_C(0x7FFFFFFFFFFFFFFF), MOST }, { UINT64_C(0x8000000000000000), MOST },
    { UINT64_C(0x8000000000000008), MOST }, { UINT64_C(0xE000000000000008), MOST }, { MOST - 7, MOST }, { MOST, MOST },
};

static void check_many_links(void)
{
    const uint64_t border = UINT64_C(0x1FFFFFFFFFFFFFF4);
    uint64_t links;
    size_t i;
    for (i = 0; i < COUNT(many_links); i++) {
        name_row("read a channel: many links", i);
        CHECK(channel_refused(read_counted(many_links[i].link_count, 24), 2, many_links[i].told));
        CHECK(channel_refused(read_counted(many_links[i].link_count, 160), 2, many_links[i].told));
        CHECK(channel_refused(read_counted(many_links[i].link_count, 170), 2, many_links[i].told));
    }
    name_case("read a channel: links around the largest size");
    for (links = border - 40; links < border; links++)
        CHECK(channel_refused(read_counted(links, 160), 2, 8 * links + 96));
    for (links = border; links < border + 40; links++)
        CHECK(channel_refused(read_counted(links, 160), 2, MOST));
}

static void check_uncompared(void)
{
    static const uint64_t lengths[] = { 0, 1, 23, 24, 159, 160, 161, 168, MOST };
    static const uint16_t counts[] = { 0, 1, 2, 255, 256, 65535 };
    mf4_channel_block block = block_with_links(9);
    uint8_t bytes[MOST_BLOCK];
    size_t i, size = bytes_with_links(9, bytes);
    name_case("read a channel: what is compared with nothing");
    for (i = 0; i < COUNT(lengths); i++) {
        put_little(bytes + 8, block.header.block_len = lengths[i], 8);
        CHECK(channel_is(read_bytes(bytes, size), block));
    }
    for (i = 0; i < COUNT(counts); i++) {
        put_little(bytes + 118, block.attachment_count = counts[i], 2);
        CHECK(channel_is(read_bytes(bytes, size), block));
    }
}

static void check_type_codes(void)
{
    mf4_channel_block block = sample_block();
    uint8_t bytes[MOST_BLOCK];
    unsigned code;
    bytes_with_links(8, bytes);
    for (code = 0; code <= 255; code++) {
        name_number("read a channel: type", code);
        bytes[90] = (uint8_t)code;
        block.channel.data_type = (uint8_t)code;
        CHECK(channel_is(read_bytes(bytes, 160), block));
    }
}

typedef struct described {
    const char *fields; /* up to the invalidation bit's position */
    uint64_t data;
    const char *record;
    uint64_t id_size;
    uint32_t data_bytes;
    expected value;
    uint8_t is_valid;
} described;

/* Channel, sync and data type and bit offset; byte offset; bit count; flags; position of the invalidation bit. */
#define DESCRIBED(kinds, byte_offset, bit_count, flags, position) \
    kinds " " byte_offset " 00 00 00 " bit_count " 00 00 00 " flags " 00 00 00 " position " 00 00 00"

static const described descriptions[] = {
    { DESCRIBED("00 00 00 00", "01", "10", "00", "00"), 0, "FF 34 12", 0, 0, UNSIGNED_IS(4660), 1 },
    { DESCRIBED("00 01 01 00", "01", "10", "00", "00"), 0, "FF 34 12", 0, 0, UNSIGNED_IS(13330), 1 },
    { DESCRIBED("00 00 00 04", "00", "08", "00", "00"), 0, "34 12", 0, 0, UNSIGNED_IS(35), 1 },
    { DESCRIBED("00 00 01 04", "00", "08", "00", "00"), 0, "34 12", 0, 0, UNSIGNED_IS(65), 1 },
    /* byte 5, and bit 5 in its place */
    { DESCRIBED("00 00 00 00", "05", "08", "00", "00"), 0, "00 FF 00 00 00 2A", 0, 0, UNSIGNED_IS(42), 1 },
    { DESCRIBED("00 00 00 05", "00", "08", "00", "00"), 0, "00 FF 00 00 00 2A", 0, 0, UNSIGNED_IS(248), 1 },
    { DESCRIBED("00 00 03 04", "00", "04", "00", "00"), 0, "F0", 0, 0, SIGNED_IS(-1), 1 },
    { DESCRIBED("00 00 04 00", "02", "20", "00", "00"), 9, "FF FF FF 00 00 80 3F", 1, 0,
      DOUBLE_IS(UINT64_C(0x3FF0000000000000)), 1 },
    /* each of a field's refusals: no bits, bit offset 8, 65 bits, too few bytes, half a float */
    { DESCRIBED("00 00 00 00", "00", "00", "00", "00"), 0, "34 12", 0, 0, REFUSED_WITH(18), 0 },
    { DESCRIBED("00 00 00 08", "00", "08", "00", "00"), 0, "34 12", 0, 0, REFUSED_WITH(19), 0 },
    { DESCRIBED("00 00 02 00", "00", "41", "00", "00"), 0, "34 12", 0, 0, REFUSED_WITH(20), 0 },
    { DESCRIBED("00 00 00 00", "03", "10", "00", "00"), 0, "FF FF 34 12", 2, 0, OUTSIDE(7), 0 },
    { DESCRIBED("01 00 00 00", "63", "18", "00", "00"), 7, "34 12", 3, 0, OUTSIDE(3), 0 },
    { DESCRIBED("00 00 05 00", "00", "10", "00", "00"), 0, "3F 80 00 00", 0, 0, REFUSED_WITH(22), 0 },
    { DESCRIBED("00 00 07 00", "01", "18", "00", "00"), 0, "50 58 31 00", 0, 0, TEXT_STANDS(1, 2), 1 },
    { DESCRIBED("00 00 0A 00", "01", "18", "00", "00"), 0, "50 58 31 00", 0, 0, STANDS(MF4_KIND_BYTES, 1, 3), 1 },
    /* a payload; no data link; another channel type */
    { DESCRIBED("01 00 07 00", "63", "08", "00", "00"), 7, "50 58 31 00", 3, 0, TEXT_STANDS(0, 3), 1 },
    { DESCRIBED("01 00 07 00", "01", "08", "00", "00"), 0, "50 58 31 00", 0, 0, TEXT_STANDS(1, 1), 1 },
    { DESCRIBED("02 00 07 00", "01", "08", "00", "00"), 7, "50 58 31 00", 0, 0, TEXT_STANDS(1, 1), 1 },
    /* types without decoding here, unknown codes among them, inside the record and not */
    { DESCRIBED("00 00 10 00", "00", "10", "00", "00"), 0, "34 12", 0, 0, UNKNOWN_IS, 1 },
    { DESCRIBED("00 00 11 00", "00", "10", "00", "00"), 0, "34 12", 0, 0, UNKNOWN_IS, 1 },
    { DESCRIBED("00 00 80 00", "00", "10", "00", "00"), 0, "34 12", 0, 0, UNKNOWN_IS, 1 },
    { DESCRIBED("00 00 FE 00", "00", "10", "00", "00"), 0, "34 12", 0, 0, UNKNOWN_IS, 1 },
    { DESCRIBED("00 00 FF 00", "00", "10", "00", "00"), 0, "34 12", 0, 0, UNKNOWN_IS, 1 },
    { DESCRIBED("00 00 11 00", "00", "11", "00", "00"), 0, "34 12", 0, 0, OUTSIDE(3), 0 },
    { DESCRIBED("01 00 11 00", "63", "40", "00", "00"), 7, "34 12", 0, 0, UNKNOWN_IS, 1 },
    /* invalid by the flags, by the record's bit, and valid by another bit */
    { DESCRIBED("00 00 00 00", "00", "10", "01", "09"), 0, "34 12 00 02", 0, 2, UNSIGNED_IS(4660), 0 },
    { DESCRIBED("00 00 00 00", "00", "10", "02", "09"), 0, "34 12 00 02", 0, 2, UNSIGNED_IS(4660), 0 },
    { DESCRIBED("00 00 00 00", "00", "10", "02", "08"), 0, "34 12 00 02", 0, 2, UNSIGNED_IS(4660), 1 },
    { DESCRIBED("00 00 00 00", "00", "10", "00", "09"), 0, "34 12 00 02", 0, 2, UNSIGNED_IS(4660), 1 },
};

/* The record is a whole one of its group, so both readings of its validity agree. */
static void check_decoded(described a, mf4_channel channel)
{
    lent record = hex(a.record);
    const mf4_group group = group_filling(record.length, a.id_size, a.data_bytes);
    CHECK(value_is(mf4_decode_value(record.bytes, record.length, a.id_size, channel), a.value));
    CHECK(valid_value_is(mf4_decode_valid_value(record.bytes, record.length, group, channel), a.value, a.is_valid));
    CHECK(valid_value_is(mf4_decode_valid_value_unbounded(record.bytes, record.length, group, channel), a.value, a.is_valid));
}

/* What is read goes into the decoder as it stands. */
static void check_described(described a, size_t links)
{
    uint8_t bytes[MOST_BLOCK];
    size_t size = bytes_with_links(links, bytes);
    mf4_channel_reply read;
    from_hex(a.fields, bytes + HEADER + 8 * links);
    put_little(bytes + 64, a.data, 8);
    read = read_bytes(bytes, size);
    CHECK(read.reply == 0);
    check_decoded(a, read.block.channel);
}

static void check_descriptions(void)
{
    size_t i;
    for (i = 0; i < COUNT(descriptions); i++) {
        name_row("read a channel: descriptions", i);
        check_described(descriptions[i], 8);
        check_described(descriptions[i], 11);
    }
}

void check_channels(void)
{
    check_read_channel();
    check_lengths();
    check_ids();
    check_few_links();
    check_many_links();
    check_uncompared();
    check_type_codes();
    check_descriptions();
}
