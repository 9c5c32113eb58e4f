#include "same_channel.h"

static int same_header(mf4_header a, mf4_header b)
{
    return a.id == b.id && a.reserved0 == b.reserved0 && a.block_len == b.block_len && a.link_count == b.link_count;
}

static int same_links(mf4_channel_block a, mf4_channel_block b)
{
    return a.next_ch_addr == b.next_ch_addr && a.component_addr == b.component_addr && a.name_addr == b.name_addr
        && a.source_addr == b.source_addr && a.conversion_addr == b.conversion_addr && a.unit_addr == b.unit_addr
        && a.comment_addr == b.comment_addr && a.more_links_at == b.more_links_at && a.more_link_count == b.more_link_count;
}

static int same_description(mf4_channel a, mf4_channel b)
{
    return a.data_type == b.data_type && a.channel_type == b.channel_type && a.bit_offset == b.bit_offset
        && a.byte_offset == b.byte_offset && a.bit_count == b.bit_count && a.flags == b.flags
        && a.pos_invalidation_bit == b.pos_invalidation_bit && a.data_addr == b.data_addr;
}

static int same_rest(mf4_channel_block a, mf4_channel_block b)
{
    return a.sync_type == b.sync_type && a.precision == b.precision && a.reserved1 == b.reserved1
        && a.attachment_count == b.attachment_count && a.min_raw_value == b.min_raw_value
        && a.max_raw_value == b.max_raw_value && a.lower_limit == b.lower_limit && a.upper_limit == b.upper_limit
        && a.lower_ext_limit == b.lower_ext_limit && a.upper_ext_limit == b.upper_ext_limit;
}

int same_channel_block(mf4_channel_block a, mf4_channel_block b)
{
    return same_header(a.header, b.header) && same_links(a, b) && same_description(a.channel, b.channel) && same_rest(a, b);
}
