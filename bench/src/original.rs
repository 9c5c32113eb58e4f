//! The crate's side of each row: its calls in the same loops as the library's. Compiled twice, for `border` and for
//! `inlined`, which say which crate is meant.

use std::hint::black_box;

use super::blocks::channel_block::ChannelBlock;
use super::blocks::common::{BlockHeader, BlockParse, DataType};
use super::blocks::data_list_block::DataListBlock;
use super::double;
use super::parsing::decoder::{decode_channel_value, decode_channel_value_with_validity, DecodedValue};
use crate::c;
use crate::digest;
use crate::pieces::{Numbers, Pieces};

pub fn doubles(records: Pieces, given: &c::Channel) -> u64 {
    let channel = channel_of(given);
    let (channel, id_size) = black_box((&channel, 0));
    records.sum(|record| double(record, id_size, channel).to_bits())
}

pub fn doubles_of_all(records: Pieces, given: &[c::Channel]) -> u64 {
    let channels: Vec<ChannelBlock> = given.iter().map(channel_of).collect();
    let (channels, id_size) = black_box((&channels[..], 0));
    records.sum(|record| digest::sum(channels.iter().map(|channel| double(record, id_size, channel).to_bits())))
}

pub fn values(records: Pieces, given: &c::Channel) -> u64 {
    let channel = channel_of(given);
    let (channel, id_size) = black_box((&channel, 0));
    records.sum(|record| value(record, id_size, channel))
}

pub fn values_of_all(records: Pieces, given: &[c::Channel]) -> u64 {
    let channels: Vec<ChannelBlock> = given.iter().map(channel_of).collect();
    let (channels, id_size) = black_box((&channels[..], 0));
    records.sum(|record| digest::sum(channels.iter().map(|channel| value(record, id_size, channel))))
}

fn value(record: &[u8], id_size: usize, channel: &ChannelBlock) -> u64 {
    decode_channel_value(record, id_size, channel).map_or(0, word_of)
}

pub fn valid_values(records: Pieces, data_bytes: u32, given: &c::Channel) -> u64 {
    let channel = channel_of(given);
    let (channel, id_size, data_bytes) = black_box((&channel, 0, data_bytes));
    records.sum(|record| {
        let both = decode_channel_value_with_validity(record, id_size, data_bytes, channel);
        both.map_or(0, |both| word_of(both.value).wrapping_add(u64::from(both.is_valid)))
    })
}

fn word_of(value: DecodedValue) -> u64 {
    match value {
        DecodedValue::UnsignedInteger(value) => value,
        DecodedValue::SignedInteger(value) => value as u64,
        DecodedValue::Float(value) => value.to_bits(),
        DecodedValue::String(text) => digest::of_bytes(text.as_bytes()),
        DecodedValue::ByteArray(bytes) => digest::of_bytes(&bytes),
        DecodedValue::MimeSample(bytes) => digest::of_bytes(&bytes),
        DecodedValue::MimeStream(bytes) => digest::of_bytes(&bytes),
        DecodedValue::Unknown => 0,
    }
}

fn channel_of(given: &c::Channel) -> ChannelBlock {
    ChannelBlock {
        data_type: DataType::from_u8(given.data_type),
        channel_type: given.channel_type,
        bit_offset: given.bit_offset,
        byte_offset: given.byte_offset,
        bit_count: given.bit_count,
        flags: given.flags,
        pos_invalidation_bit: given.pos_invalidation_bit,
        data: given.data_addr,
        ..ChannelBlock::default()
    }
}

pub fn headers_read(headers: Pieces) -> u64 {
    headers.sum(|bytes| match BlockHeader::from_bytes(bytes) {
        Ok(header) => digest::of_bytes(header.id.as_bytes()).wrapping_add(header.block_len ^ header.links_nr),
        Err(_) => 0,
    })
}

pub fn headers_written(given: &[c::Header], count: usize) -> u64 {
    let headers: Vec<BlockHeader> = given.iter().map(header_of).collect();
    let headers = black_box(&headers[..]);
    let written = headers.iter().cycle().take(count).map(|header| header.to_bytes());
    digest::sum(written.map(|bytes| bytes.map_or(0, |bytes| digest::of_bytes(&bytes))))
}

fn header_of(given: &c::Header) -> BlockHeader {
    BlockHeader {
        id: String::from_utf8_lossy(&given.id.to_le_bytes()).to_string(),
        reserved0: given.reserved0,
        block_len: given.block_len,
        links_nr: given.link_count,
    }
}

/// The whole block counts as used here too.
pub fn channels_read(blocks: Pieces) -> u64 {
    blocks.sum(|bytes| match ChannelBlock::from_bytes(bytes) {
        Ok(block) => {
            let block = black_box(&block);
            let code = u64::from(block.data_type.to_u8());
            let description = u64::from(block.byte_offset) + u64::from(block.bit_count) + code;
            digest::sum([block.name_addr, block.data, description, block.upper_limit.to_bits()].into_iter())
        }
        Err(_) => 0,
    })
}

pub fn channels_written(given: &[c::ChannelBlock], count: usize) -> u64 {
    let blocks: Vec<ChannelBlock> = given.iter().map(block_of).collect();
    let blocks = black_box(&blocks[..]);
    let written = blocks.iter().cycle().take(count).map(|block| block.to_bytes());
    digest::sum(written.map(|bytes| bytes.map_or(0, |bytes| digest::of_bytes(&bytes))))
}

fn block_of(given: &c::ChannelBlock) -> ChannelBlock {
    ChannelBlock {
        next_ch_addr: given.next_ch_addr,
        component_addr: given.component_addr,
        name_addr: given.name_addr,
        source_addr: given.source_addr,
        conversion_addr: given.conversion_addr,
        unit_addr: given.unit_addr,
        comment_addr: given.comment_addr,
        sync_type: given.sync_type,
        precision: given.precision,
        min_raw_value: f64::from_bits(given.min_raw_value),
        max_raw_value: f64::from_bits(given.max_raw_value),
        lower_limit: f64::from_bits(given.lower_limit),
        upper_limit: f64::from_bits(given.upper_limit),
        lower_ext_limit: f64::from_bits(given.lower_ext_limit),
        upper_ext_limit: f64::from_bits(given.upper_ext_limit),
        ..channel_of(&given.channel)
    }
}

pub fn lists_read(lists: Pieces) -> u64 {
    lists.sum(|bytes| match DataListBlock::from_bytes(bytes) {
        Ok(list) => {
            let rest = match &list.offsets {
                Some(offsets) => digest::of_numbers(offsets),
                None => list.data_block_len.unwrap_or(0),
            };
            digest::of_numbers(&list.data_links).wrapping_add(list.next ^ rest)
        }
        Err(_) => 0,
    })
}

pub fn lists_written_equal(numbers: &Numbers, count: usize) -> u64 {
    written(DataListBlock::new_equal(numbers.links.clone(), numbers.length), numbers.next, count)
}

pub fn lists_written_variable(numbers: &Numbers, count: usize) -> u64 {
    written(DataListBlock::new_variable(numbers.links.clone(), numbers.offsets.clone()), numbers.next, count)
}

fn written(mut list: DataListBlock, next: u64, count: usize) -> u64 {
    list.next = next;
    let written = (0..count).map(|_| black_box(&list).to_bytes());
    digest::sum(written.map(|bytes| bytes.map_or(0, |bytes| digest::of_bytes(&bytes))))
}
