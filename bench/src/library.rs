//! The library's side of each row: its calls through the archive.

use std::hint::black_box;

use crate::c;
use crate::digest;
use crate::pieces::{Numbers, Pieces};

pub fn doubles(records: Pieces, channel: &c::Channel) -> u64 {
    let (channel, id_size) = black_box((*channel, 0));
    records.sum(|record| double(record, id_size, channel))
}

pub fn doubles_of_all(records: Pieces, channels: &[c::Channel]) -> u64 {
    let (channels, id_size) = black_box((channels, 0));
    records.sum(|record| digest::sum(channels.iter().map(|channel| double(record, id_size, *channel))))
}

fn double(record: &[u8], id_size: u64, channel: c::Channel) -> u64 {
    unsafe { c::mf4_decode_double_bits(record.as_ptr(), record.len(), id_size, channel) }
}

pub fn values(records: Pieces, channel: &c::Channel) -> u64 {
    let (channel, id_size) = black_box((*channel, 0));
    records.sum(|record| value(record, id_size, channel))
}

pub fn values_of_all(records: Pieces, channels: &[c::Channel]) -> u64 {
    let (channels, id_size) = black_box((channels, 0));
    records.sum(|record| digest::sum(channels.iter().map(|channel| value(record, id_size, *channel))))
}

fn value(record: &[u8], id_size: u64, channel: c::Channel) -> u64 {
    word_of(record, &unsafe { c::mf4_decode_value(record.as_ptr(), record.len(), id_size, channel) })
}

pub type ValidValueCall = unsafe extern "C" fn(*const u8, usize, c::Group, c::Channel) -> c::ValidValueReply;

/// What the records have behind their data bytes are invalidation bytes.
#[inline(always)]
pub fn valid_values(call: ValidValueCall, records: Pieces, data_bytes: u32, channel: &c::Channel) -> u64 {
    let invalidation_bytes = records.size as u32 - data_bytes;
    let (channel, group) = black_box((*channel, c::Group { record_id_size: 0, data_bytes, invalidation_bytes }));
    records.sum(|record| {
        let answer = unsafe { call(record.as_ptr(), record.len(), group, channel) };
        word_of(record, &answer.value()).wrapping_add(u64::from(answer.is_valid))
    })
}

fn word_of(record: &[u8], answer: &c::ValueReply) -> u64 {
    match answer.kind {
        c::kind::UNSIGNED..=c::kind::DOUBLE => answer.number,
        c::kind::TEXT..=c::kind::STREAM => digest::of_bytes(&record[answer.at as usize..][..answer.length as usize]),
        _ => 0,
    }
}

/// Gives the sum of the replies, which are 0 where all is written.
pub fn numbers_written(records: &mut [u8], size: usize, channel: c::Channel, kind: u32, numbers: &[u64]) -> u64 {
    let (size, channel, kind, id_size) = black_box((size, channel, kind, 0));
    let replies = records.chunks_exact_mut(size).zip(numbers).map(|(record, number)| {
        let value = c::Number { kind, number: *number };
        let answer = unsafe { c::mf4_write_value(id_size, channel, value, record.as_mut_ptr(), record.len()) };
        u64::from(answer.reply)
    });
    digest::sum(replies)
}

pub fn overlaps(list: &[c::Channel]) -> u64 {
    let answer = unsafe { c::mf4_first_overlap(list.as_ptr(), list.len()) };
    u64::from(answer.reply) + u64::from(answer.found)
}

pub type TextCall = unsafe extern "C" fn(*const u8, usize, *mut u8, usize) -> c::TextReply;

/// No text takes more bytes than twice its own as UTF-8.
#[inline(always)]
pub fn texts(call: TextCall, texts: Pieces) -> u64 {
    let mut out = vec![0; 2 * texts.size];
    texts.sum(|text| {
        let answer = unsafe { call(text.as_ptr(), text.len(), out.as_mut_ptr(), out.len()) };
        digest::of_bytes(&out[..answer.count as usize])
    })
}

pub fn headers_read(headers: Pieces) -> u64 {
    headers.sum(|bytes| {
        let answer = unsafe { c::mf4_read_header(bytes.as_ptr(), bytes.len()) };
        let header = &answer.header;
        digest::of_bytes(&header.id.to_le_bytes()).wrapping_add(header.block_len ^ header.link_count)
    })
}

pub fn headers_written(headers: &[c::Header], count: usize) -> u64 {
    let headers = black_box(headers);
    let mut out = vec![0; 24];
    digest::sum(headers.iter().cycle().take(count).map(|header| {
        let answer = unsafe { c::mf4_write_header(*header, out.as_mut_ptr(), out.len()) };
        digest::of_bytes(&out[..answer.count as usize])
    }))
}

/// The whole block counts as used, so that no side can leave a field unread.
pub fn channels_read(blocks: Pieces) -> u64 {
    blocks.sum(|bytes| {
        let answer = unsafe { c::mf4_read_channel(bytes.as_ptr(), bytes.len()) };
        let block = black_box(&answer.block);
        let channel = &block.channel;
        let description = u64::from(channel.byte_offset) + u64::from(channel.bit_count) + u64::from(channel.data_type);
        digest::sum([block.name_addr, channel.data_addr, description, block.upper_limit].into_iter())
    })
}

pub fn channels_written(blocks: &[c::ChannelBlock], count: usize) -> u64 {
    let blocks = black_box(blocks);
    let mut out = vec![0; 160];
    digest::sum(blocks.iter().cycle().take(count).map(|block| {
        let answer = unsafe { c::mf4_write_channel(*block, out.as_mut_ptr(), out.len()) };
        digest::of_bytes(&out[..answer.count as usize])
    }))
}

/// The library tells where the numbers stand; they are read there.
pub fn lists_read(lists: Pieces) -> u64 {
    lists.sum(|bytes| {
        let list = unsafe { c::mf4_read_list(bytes.as_ptr(), bytes.len()) };
        let links = &bytes[list.data_links_at as usize..][..8 * list.data_link_count as usize];
        let rest = &bytes[list.rest_at as usize..][..8 * list.rest_count as usize];
        digest::of_number_bytes(links).wrapping_add(list.next_addr ^ digest::of_number_bytes(rest))
    })
}

pub fn lists_written_equal(numbers: &Numbers, count: usize) -> u64 {
    let mut out = vec![0; list_size(numbers.links.len(), 1)];
    digest::sum((0..count).map(|_| {
        let Numbers { next, links, length, .. } = black_box(numbers);
        let (to, room) = (out.as_mut_ptr(), out.len());
        let answer = unsafe { c::mf4_write_list_equal(*next, links.as_ptr(), links.len(), *length, to, room) };
        digest::of_bytes(&out[..answer.count as usize])
    }))
}

pub fn lists_written_variable(numbers: &Numbers, count: usize) -> u64 {
    let mut out = vec![0; list_size(numbers.links.len(), numbers.offsets.len())];
    digest::sum((0..count).map(|_| {
        let Numbers { next, links, offsets, .. } = black_box(numbers);
        let (to, room) = (out.as_mut_ptr(), out.len());
        let (link, offset) = (links.as_ptr(), offsets.as_ptr());
        let answer = unsafe { c::mf4_write_list_variable(*next, link, links.len(), offset, offsets.len(), to, room) };
        digest::of_bytes(&out[..answer.count as usize])
    }))
}

/// The bytes of a list with so many links, and so many numbers behind its count.
pub fn list_size(links: usize, rest: usize) -> usize {
    40 + 8 * links + 8 * rest
}
