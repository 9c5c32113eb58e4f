//! Channel blocks.

use super::blocks::{header, header_bytes, id, numbers, some_bytes};
use super::fields::telling_double;
use super::{number, room};
use crate::answers::{ChannelBlock, Header};
use crate::cases::{Case, Channel};
use crate::dice::Dice;

pub fn channel_read(dice: &mut Dice) -> Case {
    let count = more_links(dice);
    let more_links = numbers(dice, count);
    let links_nr = links_nr(dice, 8 + count as u64);
    let block_len = if dice.one_in(4) { number(dice) } else { 24 + 8 * links_nr.min(1 << 60) + 72 };
    let id = if dice.one_in(8) { id(dice) } else { *b"##CN" };
    let header = Header { id, reserved0: dice.word() as u32, block_len, links_nr };
    let mut bytes = block_bytes(&ChannelBlock { header, ..block(dice) }, &more_links);
    if dice.one_in(4) {
        bytes.extend(some_bytes(dice, 24));
    }
    cut(dice, &mut bytes);
    Case::ChannelRead { bytes }
}

/// Of the links behind the eighth: none, as a rule, and few otherwise.
fn more_links(dice: &mut Dice) -> usize {
    let count = match dice.below(4000) {
        0 => dice.between(1000, 70_000),
        1..=40 => dice.below(300),
        41..=1300 => dice.between(1, 4),
        _ => 0,
    };
    count as usize
}

/// The count of all links, as a rule; or one that is not so, also where the needed size just fits into 64 bits or where
/// it would be that of 8 links if it wrapped.
fn links_nr(dice: &mut Dice, links: u64) -> u64 {
    const HUGE: [u64; 10] = [
        1 << 32,
        (1 << 61) - 14,
        (1 << 61) - 13,
        (1 << 61) - 12,
        (1 << 61) - 11,
        1 << 61,
        (1 << 61) + 8,
        1 << 63,
        u64::MAX - 1,
        u64::MAX,
    ];
    match dice.below(16) {
        0 => dice.below(8),
        1 => 7,
        2 => links - 1,
        3 => links + 1,
        4 => dice.pick(&HUGE),
        5 => number(dice),
        _ => links,
    }
}

/// Leaves all, as a rule; cuts about the ends of header, links and block, and anywhere.
fn cut(dice: &mut Dice, bytes: &mut Vec<u8>) {
    let end = bytes.len() as u64;
    let length = match dice.below(16) {
        0 => dice.pick(&[0, 22, 23, 24, 25]),
        1 => dice.between(86, 90),
        2 => dice.between(151, 161),
        3 => end - dice.between(1, 9),
        4 => dice.below(end + 1),
        _ => end,
    };
    bytes.truncate(length as usize);
}

fn block_bytes(block: &ChannelBlock, more_links: &[u64]) -> Vec<u8> {
    let [next, component, name, source, conversion, unit, comment] = block.links;
    let channel = &block.channel;
    let mut bytes = header_bytes(&block.header);
    let links = [next, component, name, source, conversion, channel.data, unit, comment];
    bytes.extend(links.iter().chain(more_links).flat_map(|link| link.to_le_bytes()));
    bytes.extend([channel.channel_type, block.sync_type, channel.data_type, channel.bit_offset]);
    let words = [channel.byte_offset, channel.bit_count, channel.flags, channel.pos_invalidation_bit];
    bytes.extend(words.iter().flat_map(|word| word.to_le_bytes()));
    bytes.extend([block.precision, block.reserved1]);
    bytes.extend(block.attachment_nr.to_le_bytes());
    bytes.extend(block.limits.iter().flat_map(|limit| limit.to_le_bytes()));
    bytes
}

pub fn channel_write(dice: &mut Dice) -> Case {
    let block = ChannelBlock { header: written_header(dice), ..block(dice) };
    Case::ChannelWrite { block, room: room(dice, 160) }
}

/// The header that is written, as a rule; the same with one field that is not; any.
fn written_header(dice: &mut Dice) -> Header {
    let written = Header { id: *b"##CN", reserved0: 0, block_len: 160, links_nr: 8 };
    match dice.below(12) {
        0 => Header { id: id(dice), ..written },
        1 => Header { reserved0: dice.word() as u32, ..written },
        2 => Header { block_len: number(dice), ..written },
        3 => Header { links_nr: number(dice), ..written },
        4 => header(dice),
        _ => written,
    }
}

fn block(dice: &mut Dice) -> ChannelBlock {
    ChannelBlock {
        header: header(dice),
        links: [(); 7].map(|()| number(dice)),
        more_links_at: number(dice),
        more_links: number(dice),
        channel: channel(dice),
        sync_type: dice.word() as u8,
        precision: dice.word() as u8,
        reserved1: if dice.one_in(4) { dice.word() as u8 } else { 0 },
        attachment_nr: if dice.one_in(4) { number(dice) as u16 } else { 0 },
        limits: [(); 6].map(|()| telling_double(dice)),
    }
}

fn channel(dice: &mut Dice) -> Channel {
    Channel {
        data_type: if dice.one_in(2) { dice.below(18) as u8 } else { dice.word() as u8 },
        channel_type: dice.word() as u8,
        bit_offset: dice.word() as u8,
        byte_offset: number(dice) as u32,
        bit_count: number(dice) as u32,
        flags: number(dice) as u32,
        pos_invalidation_bit: number(dice) as u32,
        data: number(dice),
    }
}
