//! Channel blocks, read and written.

use std::ops::Range;

use super::lists::writing;
use super::{channel, copying, over_pieces};
use crate::dice::Dice;
use crate::pieces::Pieces;
use crate::row::{Plan, Row};
use crate::{border, c, inlined, library};

const BLOCKS: usize = 200_000;
const SIZE: usize = 160;

pub fn plans() -> Vec<Plan> {
    vec![
        Plan::new("channel block read", BLOCKS, 1_000, channels_read),
        Plan::new("channel block written", BLOCKS, 1_000, channels_written),
    ]
}

fn channels_read(count: usize) -> Row {
    let bytes: Vec<u8> = blocks(count).iter().flat_map(block_bytes).collect();
    let sides: [fn(Pieces) -> u64; 3] = [library::channels_read, border::channels_read, inlined::channels_read];
    over_pieces(bytes, SIZE, sides)
}

fn channels_written(count: usize) -> Row {
    let sides: [fn(&Vec<c::ChannelBlock>, usize) -> u64; 3] = [
        |blocks, count| library::channels_written(blocks, count),
        |blocks, count| border::channels_written(blocks, count),
        |blocks, count| inlined::channels_written(blocks, count),
    ];
    let place = |items: Range<usize>| items.start * SIZE..items.end * SIZE;
    writing(blocks(64), sides, copying(vec![0; count * SIZE], place))
}

/// Blocks that both write in the same way: the crate takes header, reserved byte and attachments as they are.
fn blocks(count: usize) -> Vec<c::ChannelBlock> {
    let mut dice = Dice::new(1);
    (0..count).map(|_| block(&mut dice)).collect()
}

fn block(dice: &mut Dice) -> c::ChannelBlock {
    let header = c::Header { id: u32::from_le_bytes(*b"##CN"), reserved0: 0, block_len: SIZE as u64, link_count: 8 };
    let mut link = || dice.below(1 << 40);
    c::ChannelBlock {
        header,
        next_ch_addr: link(),
        component_addr: link(),
        name_addr: link(),
        source_addr: link(),
        conversion_addr: link(),
        unit_addr: link(),
        comment_addr: link(),
        more_links_at: 0,
        more_link_count: 0,
        channel: c::Channel {
            data_addr: link(),
            ..channel(dice.below(17) as u8, dice.below(256) as u32, dice.between(1, 64) as u32)
        },
        sync_type: dice.below(5) as u8,
        precision: dice.below(8) as u8,
        reserved1: 0,
        attachment_count: 0,
        min_raw_value: limit(dice),
        max_raw_value: limit(dice),
        lower_limit: limit(dice),
        upper_limit: limit(dice),
        lower_ext_limit: limit(dice),
        upper_ext_limit: limit(dice),
    }
}

fn limit(dice: &mut Dice) -> u64 {
    (dice.below(2_000_000) as f64 / 1000.0 - 1000.0).to_bits()
}

fn block_bytes(block: &c::ChannelBlock) -> Vec<u8> {
    let mut out = vec![0; SIZE];
    unsafe { c::mf4_write_channel(*block, out.as_mut_ptr(), out.len()) };
    out
}
