//! Fields and what they are read from.

use super::{number, texts, Shape};
use crate::cases::{Case, Channel, Field};
use crate::dice::Dice;

/// The codes that have their turn; the last stands for every unknown one.
const TYPES: u64 = 18;
const UNKNOWN: u64 = TYPES - 1;
const BIT_OFFSETS: u64 = 10;
const BIT_COUNTS: u64 = 74;
const PLACES: u64 = 4;
const ENDS: u64 = 6;
const COMBINATIONS: u64 = TYPES * BIT_OFFSETS * BIT_COUNTS * PLACES * ENDS;

/// Every type with every bit offset, every width, in a record and as a payload, with the span ending at the record's
/// end and around it.
pub fn field(dice: &mut Dice, turn: u64) -> Field {
    let mut shape = Shape::new(turn, COMBINATIONS);
    let data_type = match shape.choose(TYPES) {
        UNKNOWN => dice.between(UNKNOWN, 255) as u8,
        code => code as u8,
    };
    field_of_type(dice, shape, data_type)
}

/// The same, mostly numbers: what is no number has no double anyway.
pub fn mostly_number(dice: &mut Dice, turn: u64) -> Field {
    const NUMBERS: u64 = 6;
    let mut shape = Shape::new(turn, COMBINATIONS);
    let code = shape.choose(TYPES);
    let data_type = if dice.one_in(8) { code } else { code % NUMBERS };
    field_of_type(dice, shape, data_type as u8)
}

/// A field, mostly a number, and another record of the same length.
pub fn carried(dice: &mut Dice, turn: u64) -> Case {
    let field = mostly_number(dice, turn);
    let mut into = background(dice, field.record.len());
    fill_field(dice, &field.channel, field.id_size, &mut into);
    Case::Carried { field, into }
}

fn field_of_type(dice: &mut Dice, mut shape: Shape, data_type: u8) -> Field {
    let mut channel = described(dice, &mut shape, data_type);
    let is_far_out = dice.one_in(3000);
    if is_far_out {
        channel.byte_offset = dice.pick(&[250, 65_530]) + dice.below(12) as u32;
    }
    let id_size = id_size(dice, &channel);
    let longest = if is_far_out { 100_000 } else { LONGEST };
    let length = record_length(dice, &channel, id_size, shape.choose(ENDS)).min(longest - dice.below(8)) as usize;
    let mut record = background(dice, length);
    fill_field(dice, &channel, id_size, &mut record);
    let data_bytes = place_invalidation_bit(dice, &mut channel, id_size, length as u64);
    Field { record, id_size, data_bytes, channel }
}

fn described(dice: &mut Dice, shape: &mut Shape, data_type: u8) -> Channel {
    let bit_offset = match shape.choose(BIT_OFFSETS) {
        9 => dice.between(9, 255) as u8,
        offset => offset as u8,
    };
    let counted = shape.choose(BIT_COUNTS);
    let (channel_type, data) = placed(dice, shape.choose(PLACES));
    let byte_offset = byte_offset(dice);
    let flags = if dice.one_in(8) { dice.word() as u32 } else { dice.pick(&[0, 1, 2, 2, 2, 2, 3, 6]) };
    let mut channel = Channel {
        data_type,
        channel_type,
        bit_offset,
        byte_offset,
        bit_count: 0,
        flags,
        pos_invalidation_bit: 0,
        data,
    };
    channel.bit_count = bit_count(dice, &channel, counted);
    channel
}

/// A field of a record, and a payload, each by both of its signs: a channel of another type, or one without data.
fn placed(dice: &mut Dice, place: u64) -> (u8, u64) {
    match place {
        0 => (1, number(dice).max(1)),
        1 => (1, 0),
        2 => (dice.pick(&[0, 2, 3, 4, 5, 255]), number(dice)),
        _ => (0, 0),
    }
}

fn byte_offset(dice: &mut Dice) -> u32 {
    match dice.below(100) {
        0 => u32::MAX - dice.below(3) as u32,
        1 => dice.word() as u32,
        2..=50 => 0,
        _ => dice.below(12) as u32,
    }
}

/// Each width up to 72 has its turn, and wider ones. Floats mostly take a width that they can have, and fields in whole
/// bytes some more bytes than 9.
fn bit_count(dice: &mut Dice, channel: &Channel, counted: u64) -> u32 {
    const WIDE: [u32; 8] = [96, 128, 255, 256, 1 << 16, 1 << 31, u32::MAX - 7, u32::MAX];
    if counted == BIT_COUNTS - 1 {
        return if dice.one_in(4) { dice.pick(&WIDE) } else { dice.between(73, 200) as u32 };
    }
    if channel.is_float() && !dice.one_in(4) {
        return dice.pick(&[32, 64]);
    }
    if channel.is_in_whole_bytes() {
        return counted as u32 + 64 * dice.below(4) as u32;
    }
    counted as u32
}

/// Small, as a rule; now and then so large that a sum of sizes comes to about 2^64.
fn id_size(dice: &mut Dice, channel: &Channel) -> u64 {
    match dice.below(64) {
        0 => {
            let start = u64::MAX - u64::from(channel.byte_offset);
            start.wrapping_sub(channel.span()).wrapping_add(dice.below(4))
        }
        1 => u64::MAX - dice.below(16),
        2 => dice.word(),
        3..=20 => dice.pick(&[1, 2, 4, 8]),
        21..=30 => dice.below(17),
        _ => 0,
    }
}

/// Few records are longer than this, since long ones cost time.
const LONGEST: u64 = 400;

fn record_length(dice: &mut Dice, channel: &Channel, id_size: u64, end: u64) -> u64 {
    let start = if channel.is_payload() { 0 } else { id_size.saturating_add(u64::from(channel.byte_offset)) };
    let needed = start.saturating_add(channel.span());
    match end {
        0 | 1 => needed,
        2 => needed.saturating_sub(1),
        3 => needed.saturating_add(1),
        4 => needed.saturating_add(dice.below(10)),
        _ => dice.below(needed.clamp(1, LONGEST)),
    }
}

fn background(dice: &mut Dice, length: usize) -> Vec<u8> {
    match dice.below(4) {
        0 => vec![0; length],
        1 => vec![0xFF; length],
        _ => dice.bytes(length),
    }
}

// ---- contents

fn fill_field(dice: &mut Dice, channel: &Channel, id_size: u64, record: &mut [u8]) {
    let start = if channel.is_payload() { 0 } else { id_size.saturating_add(u64::from(channel.byte_offset)) };
    let Some(bytes) = usize::try_from(start).ok().and_then(|start| record.get_mut(start..)) else {
        return;
    };
    if let Some(encoding) = channel.encoding() {
        let text = texts::any_bytes(dice, encoding);
        bytes.iter_mut().zip(text).for_each(|(to, from)| *to = from);
    } else if channel.is_number() && channel.bit_count <= 64 && channel.bit_offset <= 7 && !dice.one_in(4) {
        let span = channel.bits_span() as usize;
        if let Some(span) = bytes.get_mut(..span) {
            put_bits(channel, span, telling_bits(dice, channel));
        }
    }
}

/// Sets the field's bits in its span and leaves those around it.
fn put_bits(channel: &Channel, span: &mut [u8], field: u64) {
    let mask = ((1u128 << channel.bit_count) - 1) << channel.bit_offset;
    let mut joined = [0; 16];
    let mut ordered = span.to_vec();
    if !channel.is_little_endian() {
        ordered.reverse();
    }
    joined[..ordered.len()].copy_from_slice(&ordered);
    let kept = u128::from_le_bytes(joined) & !mask;
    let joined = (kept | (u128::from(field) << channel.bit_offset) & mask).to_le_bytes();
    span.copy_from_slice(&joined[..span.len()]);
    if !channel.is_little_endian() {
        span.reverse();
    }
}

fn telling_bits(dice: &mut Dice, channel: &Channel) -> u64 {
    match (channel.is_float(), channel.bit_count) {
        (true, 32) => u64::from(telling_single(dice)),
        (true, _) => telling_double(dice),
        _ => telling_integer(dice, channel.bit_count),
    }
}

/// Ends of the range, and numbers halfway between two doubles or beside such a place.
fn telling_integer(dice: &mut Dice, bit_count: u32) -> u64 {
    let all = if bit_count == 0 { 0 } else { u64::MAX >> (64 - bit_count) };
    let top = all ^ (all >> 1);
    match dice.below(8) {
        0 => dice.below(2),
        1 => all - dice.below(2).min(all),
        2 => top,
        3 => top.wrapping_sub(1),
        4 => dice.word(),
        _ => about_halfway(dice) & all,
    }
}

fn about_halfway(dice: &mut Dice) -> u64 {
    let significand = match dice.below(4) {
        0 => (1 << 53) - 1,
        1 => 1 << 52,
        _ => (1 << 52) | dice.below(1 << 52),
    };
    let shift = dice.below(12) as u32;
    let half = if shift == 0 { 0 } else { 1u64 << (shift - 1) };
    let number = (significand << shift) + half + dice.below(3) - 1;
    if dice.one_in(2) {
        number
    } else {
        number.wrapping_neg()
    }
}

fn telling_single(dice: &mut Dice) -> u32 {
    const SINGLES: [u32; 12] = [
        0,
        1,
        0x007F_FFFF,
        0x0080_0000,
        0x3F80_0000,
        0x7F7F_FFFF,
        0x7F80_0000,
        0x7F80_0001,
        0x7FBF_FFFF,
        0x7FC0_0000,
        0x7FFF_FFFF,
        0x0040_0000,
    ];
    let sign = (dice.below(2) as u32) << 31;
    match dice.below(4) {
        0 => dice.word() as u32,
        // A number under the normal ones: widening must bring its first bit to the top.
        1 => sign | (1 << dice.below(23)) | dice.below(1 << 23) as u32 >> dice.below(23),
        _ => sign | dice.pick(&SINGLES),
    }
}

pub fn telling_double(dice: &mut Dice) -> u64 {
    const DOUBLES: [u64; 12] = [
        0,
        1,
        0x000F_FFFF_FFFF_FFFF,
        0x0010_0000_0000_0000,
        0x3FF0_0000_0000_0000,
        0x7FEF_FFFF_FFFF_FFFF,
        0x7FF0_0000_0000_0000,
        0x7FF0_0000_0000_0001,
        0x7FF7_FFFF_FFFF_FFFF,
        0x7FF8_0000_0000_0000,
        0x7FF8_0000_0000_0001,
        0x7FFF_FFFF_FFFF_FFFF,
    ];
    match dice.below(3) {
        0 => dice.word(),
        1 => 0x7FF0_0000_0000_0000 | dice.word(),
        _ => dice.below(2) << 63 | dice.pick(&DOUBLES),
    }
}

// ---- invalidation

/// Puts the invalidation bit into the record's last byte, behind it, or anywhere, and gives the number of data bytes.
fn place_invalidation_bit(dice: &mut Dice, channel: &mut Channel, id_size: u64, length: u64) -> u32 {
    channel.pos_invalidation_bit = match dice.below(20) {
        0 => u32::MAX - dice.below(9) as u32,
        1 => dice.word() as u32,
        _ => dice.below(64) as u32,
    };
    let wanted_byte = match dice.below(6) {
        0 | 1 => length.saturating_sub(1),
        2 => length,
        3 => dice.below(length + 1),
        4 => return dice.word() as u32,
        _ => return dice.below(length + 4) as u32,
    };
    let before = id_size.saturating_add(u64::from(channel.pos_invalidation_bit / 8));
    wanted_byte.saturating_sub(before) as u32
}
