//! Headers and data lists.

use super::{number, room};
use crate::answers::Header;
use crate::cases::Case;
use crate::dice::Dice;

pub fn header_read(dice: &mut Dice) -> Case {
    let mut bytes = header_bytes(&header(dice));
    match dice.below(4) {
        0 => bytes.truncate(dice.below(25) as usize),
        1 => bytes.extend(some_bytes(dice, 16)),
        2 => bytes.truncate(dice.between(22, 24) as usize),
        _ => {}
    }
    Case::HeaderRead { bytes }
}

pub fn header_write(dice: &mut Dice) -> Case {
    let header = header(dice);
    Case::HeaderWrite { header, room: room(dice, 24) }
}

pub fn some_bytes(dice: &mut Dice, most: u64) -> Vec<u8> {
    let count = dice.below(most + 1) as usize;
    dice.bytes(count)
}

pub fn header(dice: &mut Dice) -> Header {
    Header { id: id(dice), reserved0: dice.word() as u32, block_len: number(dice), links_nr: number(dice) }
}

/// Known ids, other ASCII, UTF-8 of several bytes, and bytes that may be no UTF-8 at all.
pub fn id(dice: &mut Dice) -> [u8; 4] {
    const KNOWN: [&[u8; 4]; 6] = [b"##DL", b"##DT", b"##CN", b"##SD", b"\0\0\0\0", b"##dl"];
    const WIDE: [&str; 5] = ["\u{E9}\u{E9}", "\u{20AC}A", "A\u{FFFD}", "\u{10FFFF}", "\u{7FF}\u{80}"];
    match dice.below(8) {
        0..=2 => *dice.pick(&KNOWN),
        3..=4 => (dice.word() as u32 & 0x7F7F_7F7F).to_le_bytes(),
        5..=6 => dice.pick(&WIDE).as_bytes().try_into().expect("four bytes each"),
        _ => (dice.word() as u32).to_le_bytes(),
    }
}

pub fn header_bytes(header: &Header) -> Vec<u8> {
    let mut bytes = header.id.to_vec();
    bytes.extend(header.reserved0.to_le_bytes());
    bytes.extend(header.block_len.to_le_bytes());
    bytes.extend(header.links_nr.to_le_bytes());
    bytes
}

// ---- lists read

pub fn list_read(dice: &mut Dice) -> Case {
    let mut bytes = sound_list(dice);
    let flags_at = 24 + 8 * u64::from_le_bytes(bytes[16..24].try_into().expect("eight bytes")) as usize;
    if dice.one_in(2) {
        bytes.extend(some_bytes(dice, 24));
    }
    // Two damages at once show which of them is told.
    for _ in 0..dice.below(3) {
        damage_list(dice, &mut bytes, flags_at);
    }
    if dice.one_in(2) {
        bytes.truncate(dice.below(bytes.len() as u64 + 1) as usize);
    }
    Case::ListRead { bytes }
}

fn sound_list(dice: &mut Dice) -> Vec<u8> {
    let count = match dice.below(40_000) {
        0 => 70_000,
        1..=10 => dice.between(4000, 5000) as usize,
        11..=200 => dice.below(300) as usize,
        _ => dice.below(7) as usize,
    };
    let links = numbers(dice, count);
    let one_length = dice.one_in(2);
    let rest = numbers(dice, if one_length { 1 } else { links.len() });
    let size = 24 + 8 + 8 * links.len() + 8 + 8 * rest.len();
    let header = Header { id: *b"##DL", reserved0: 0, block_len: size as u64, links_nr: links.len() as u64 + 1 };
    let mut bytes = header_bytes(&header);
    bytes.extend(number(dice).to_le_bytes());
    bytes.extend(links.iter().flat_map(|link| link.to_le_bytes()));
    bytes.extend([u8::from(one_length), 0, 0, 0]);
    bytes.extend((links.len() as u32).to_le_bytes());
    bytes.extend(rest.iter().flat_map(|number| number.to_le_bytes()));
    bytes
}

/// One field that says something else, or any one byte.
fn damage_list(dice: &mut Dice, bytes: &mut [u8], flags_at: usize) {
    // Link counts around the ones where the needed size just fits into 64 bits.
    const LINKS: [u64; 10] =
        [0, 1, 2, 1 << 61, (1 << 61) - 4, (1 << 61) - 5, (1 << 61) - 3, u64::MAX, u64::MAX - 1, 1 << 63];
    const COUNTS: [u32; 6] = [0, 1, 2, 7, 1 << 29, u32::MAX];
    match dice.below(6) {
        0 => put(bytes, 16, &dice.pick(&LINKS).to_le_bytes()),
        1 => put(bytes, 16, &dice.below(12).to_le_bytes()),
        2 => put(bytes, flags_at + 4, &dice.pick(&COUNTS).to_le_bytes()),
        3 => put(bytes, flags_at, &dice.bytes(4)),
        4 => put(bytes, dice.below(8) as usize, &dice.bytes(1)),
        _ => put(bytes, dice.below(bytes.len() as u64) as usize, &dice.bytes(1)),
    }
}

fn put(bytes: &mut [u8], at: usize, new: &[u8]) {
    bytes[at..at + new.len()].copy_from_slice(new);
}

// ---- lists written

pub fn list_write_equal(dice: &mut Dice) -> Case {
    let count = link_count(dice);
    let links = numbers(dice, count);
    let room = room(dice, 48 + 8 * count);
    Case::ListWriteEqual { room, next: number(dice), length: number(dice), links }
}

pub fn list_write_variable(dice: &mut Dice) -> Case {
    let count = link_count(dice);
    let links = numbers(dice, count);
    let offset_count = if dice.one_in(16) { dice.below(9) as usize } else { count };
    let offsets = numbers(dice, offset_count);
    let room = room(dice, 40 + 16 * count);
    Case::ListWriteVariable { room, next: number(dice), links, offsets }
}

/// Few, as a rule, since long lists cost time; now and then around the most that is written.
fn link_count(dice: &mut Dice) -> usize {
    match dice.below(400) {
        0 => dice.between(4094, 4099) as usize,
        1 => dice.below(5000) as usize,
        2..=40 => dice.below(60) as usize,
        _ => dice.below(9) as usize,
    }
}

pub fn numbers(dice: &mut Dice, count: usize) -> Vec<u64> {
    (0..count).map(|_| number(dice)).collect()
}
