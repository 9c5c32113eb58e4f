/* Channel blocks, written, and read back. */
#include "channel_bytes.h"

#include <string.h>

static mf4_written_reply write_block(mf4_channel_block block, lent out)
{
    return mf4_write_channel(block, out.bytes, out.length);
}

/* What stands in the slice, read in a slice of its own. */
static mf4_channel_reply read_back(lent out)
{
    lent input = lend_copy(INPUT, out.bytes, 160);
    return mf4_read_channel(input.bytes, input.length);
}

static void check_write_channel(void)
{
    lent out;
    name_case("write a channel");
    out = lend_marked(OUTPUT, 160);
    CHECK(written_is(write_block(sample_block(), out), 160) && holds_only_hex(out, WRITTEN_BLOCK));
    CHECK(channel_is(read_back(out), written_block()));
    out = lend_marked(OUTPUT, 170);
    CHECK(written_is(write_block(sample_block(), out), 160) && holds_only_hex(out, WRITTEN_BLOCK));
    out = lend_marked(OUTPUT, 159);
    CHECK(write_refused(write_block(sample_block(), out), 6, 160) && is_unchanged(out));
    CHECK(write_refused(mf4_write_channel(sample_block(), NULL, 0), 6, 160));
}

/* Every room, at the slice's end and with more of the same memory behind it. */
static void check_rooms(void)
{
    size_t room;
    for (room = 0; room <= 165; room++) {
        int has_room = room >= 160;
        lent exact, longer;
        name_number("write a channel: room", room);
        exact = lend_marked(OUTPUT, room);
        longer = lend_marked(TWIN_OUTPUT, 400);
        if (has_room) {
            CHECK(written_is(write_block(sample_block(), exact), 160) && holds_only_hex(exact, WRITTEN_BLOCK));
            CHECK(written_is(mf4_write_channel(sample_block(), longer.bytes, room), 160));
            CHECK(holds_only_hex(longer, WRITTEN_BLOCK));
        } else {
            CHECK(write_refused(write_block(sample_block(), exact), 6, 160) && is_unchanged(exact));
            CHECK(write_refused(mf4_write_channel(sample_block(), longer.bytes, room), 6, 160) && is_unchanged(longer));
        }
    }
}

static int writes_the_same(mf4_channel_block block)
{
    lent out = lend_marked(OUTPUT, 163);
    return written_is(write_block(block, out), 160) && holds_only_hex(out, WRITTEN_BLOCK);
}

static void check_not_looked_at(void)
{
    static const uint64_t numbers[] = { 0, 1, 7, 8, 9, 88, 160, 255, UINT64_C(0x100000000), MOST - 1, MOST };
    size_t i;
    name_case("write a channel: what is not looked at");
    for (i = 0; i < COUNT(numbers); i++) {
        mf4_channel_block block = sample_block();
        block.header.id = (uint32_t)numbers[i];
        CHECK(writes_the_same(block));
        block.header.reserved0 = (uint32_t)numbers[i];
        CHECK(writes_the_same(block));
        block.header.block_len = numbers[i];
        CHECK(writes_the_same(block));
        block.header.link_count = numbers[i];
        CHECK(writes_the_same(block));
        block.more_links_at = numbers[i];
        CHECK(writes_the_same(block));
        block.more_link_count = numbers[i];
        CHECK(writes_the_same(block));
        block.reserved1 = (uint8_t)numbers[i];
        CHECK(writes_the_same(block));
        block.attachment_count = (uint16_t)numbers[i];
        CHECK(writes_the_same(block));
    }
}

/* Whatever the header says, a refusal comes from the room alone. */
static void check_refused_unseen(void)
{
    mf4_channel_block block;
    lent out = lend_marked(OUTPUT, 159);
    name_case("write a channel: refused for the room alone");
    memset(&block, 0, sizeof block);
    CHECK(write_refused(write_block(block, out), 6, 160) && is_unchanged(out));
    memset(&block, 0xFF, sizeof block);
    CHECK(write_refused(write_block(block, out), 6, 160) && is_unchanged(out));
}

static void check_written_types(void)
{
    mf4_channel_block block = sample_block(), read = written_block();
    unsigned code;
    for (code = 0; code <= 255; code++) {
        uint8_t bytes[256];
        lent out = lend_marked(OUTPUT, 160);
        name_number("write a channel: type", code);
        block.channel.data_type = read.channel.data_type = (uint8_t)code;
        from_hex(WRITTEN_BLOCK, bytes);
        bytes[90] = (uint8_t)code;
        CHECK(written_is(write_block(block, out), 160) && holds_only(out, bytes, 160));
        CHECK(channel_is(read_back(out), read));
    }
}

/* A tool that copies a block keeps its type, whether it knows the type or not. */
static void check_types_copied(void)
{
    uint8_t bytes[256];
    unsigned code;
    from_hex(WRITTEN_BLOCK, bytes);
    for (code = 0; code <= 255; code++) {
        mf4_channel_reply read;
        lent input, out = lend_marked(OUTPUT, 160);
        name_number("write a channel: copied type", code);
        bytes[90] = (uint8_t)code;
        input = lend_copy(INPUT, bytes, 160);
        read = mf4_read_channel(input.bytes, input.length);
        CHECK(read.reply == 0 && read.block.channel.data_type == code);
        CHECK(written_is(write_block(read.block, out), 160) && holds_only(out, bytes, 160));
    }
}

static uint64_t *limit_of(mf4_channel_block *block, int which)
{
    switch (which) {
    case 0: return &block->min_raw_value;
    case 1: return &block->max_raw_value;
    case 2: return &block->lower_limit;
    case 3: return &block->upper_limit;
    case 4: return &block->lower_ext_limit;
    default: return &block->upper_ext_limit;
    }
}

/* Quiet and signalling NaNs of both signs, with and without a payload; infinities, zeros, and the smallest number. */
static const uint64_t patterns[] = {
    NAN_BITS, UINT64_C(0xFFF8000000000000), UINT64_C(0x7FF8000000000001), UINT64_C(0xFFFFFFFFFFFFFFFF),
    UINT64_C(0x7FFDEADBEEF01234), UINT64_C(0x7FF0000000000001), UINT64_C(0xFFF0000000000001),
    UINT64_C(0x7FF4000000000000), UINT64_C(0x7FF7FFFFFFFFFFFF), UINT64_C(0xFFF5CAFE00001234),
    UINT64_C(0x7FF0000000000000), UINT64_C(0xFFF0000000000000), UINT64_C(0x8000000000000000), 0, 1,
};

static void check_limit_patterns(void)
{
    size_t i;
    int which, k;
    for (i = 0; i < COUNT(patterns); i++) {
        name_row("write a channel: patterns of limits", i);
        for (which = 0; which < 6; which++) {
            mf4_channel_block block = written_block();
            uint8_t bytes[256];
            lent out = lend_marked(OUTPUT, 160);
            from_hex(WRITTEN_BLOCK, bytes);
            *limit_of(&block, which) = patterns[i];
            for (k = 0; k < 8; k++)
                bytes[112 + 8 * which + k] = (uint8_t)(patterns[i] >> 8 * k);
            CHECK(written_is(write_block(block, out), 160) && holds_only(out, bytes, 160));
            CHECK(channel_is(read_back(out), block));
        }
    }
}

/* Reads the bytes of a block and writes what was read into the slice. */
static mf4_written_reply rewritten(const uint8_t *bytes, lent out)
{
    lent input = lend_copy(INPUT, bytes, 160);
    mf4_channel_reply read = mf4_read_channel(input.bytes, input.length);
    CHECK(read.reply == 0);
    return write_block(read.block, out);
}

/* A block of zeros but for one byte: read and written, it has that byte at the same place, unless it is written as 0. */
static void check_each_byte(void)
{
    uint8_t bytes[256];
    size_t place;
    for (place = 24; place < 160; place++) {
        lent out = lend_marked(OUTPUT, 160);
        name_number("read and write a channel: byte", place);
        from_hex(WRITTEN_BLOCK, bytes);
        memset(bytes + 24, 0, 136);
        bytes[place] = 0xFF;
        CHECK(written_is(rewritten(bytes, out), 160));
        if (place >= 109 && place < 112)
            bytes[place] = 0;
        CHECK(holds_only(out, bytes, 160));
    }
}

static void check_all_ones(void)
{
    uint8_t bytes[256];
    lent out = lend_marked(OUTPUT, 160);
    name_case("read and write a channel of all ones");
    from_hex(WRITTEN_BLOCK, bytes);
    memset(bytes + 24, 0xFF, 136);
    CHECK(written_is(rewritten(bytes, out), 160));
    memset(bytes + 109, 0, 3);
    CHECK(holds_only(out, bytes, 160));
}

void check_channel_writing(void)
{
    check_write_channel();
    check_rooms();
    check_not_looked_at();
    check_refused_unseen();
    check_written_types();
    check_types_copied();
    check_limit_patterns();
    check_each_byte();
    check_all_ones();
}
