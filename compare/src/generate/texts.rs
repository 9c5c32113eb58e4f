//! Texts: well-formed, damaged, cut, and with NULs in them.

use super::{room, Shape};
use crate::cases::{Case, Encoding};
use crate::dice::Dice;
use crate::original;

pub fn text(dice: &mut Dice, turn: u64) -> Case {
    let encoding = Encoding::ALL[(turn % 4) as usize];
    let index = turn / 16;
    let bytes = match turn / 4 % 4 {
        0 => every_pair(index),
        1 => boundary_bytes(dice, encoding, index),
        _ => any_bytes(dice, encoding),
    };
    let needed = original::text(encoding, &bytes).map_or(bytes.len(), |text| text.utf8.len());
    Case::Text { encoding, bytes, room: room(dice, needed) }
}

/// Each pair of bytes in its turn: every UTF-8 text of two bytes, every UTF-16 unit.
fn every_pair(index: u64) -> Vec<u8> {
    let mut shape = Shape::new(index, 1 << 16);
    vec![shape.choose(256) as u8, shape.choose(256) as u8]
}

/// Combinations of the bytes or units where a rule of well-formedness begins or ends.
fn boundary_bytes(dice: &mut Dice, encoding: Encoding, index: u64) -> Vec<u8> {
    const BYTES: [u8; 24] = [
        0x00, 0x41, 0x7F, 0x80, 0x8F, 0x90, 0x9F, 0xA0, 0xBF, 0xC0, 0xC1, 0xC2, 0xDF, 0xE0, 0xE1, 0xEC, 0xED, 0xEE,
        0xEF, 0xF0, 0xF1, 0xF4, 0xF5, 0xFF,
    ];
    const UNITS: [u16; 13] =
        [0x0000, 0x0041, 0x0080, 0x0100, 0x07FF, 0x0800, 0xD7FF, 0xD800, 0xDBFF, 0xDC00, 0xDFFF, 0xE000, 0xFFFF];
    if matches!(encoding, Encoding::Latin1 | Encoding::Utf8) {
        let mut shape = Shape::new(index, (BYTES.len() as u64).pow(4));
        return (0..4).map(|_| BYTES[shape.choose(BYTES.len() as u64) as usize]).collect();
    }
    let mut shape = Shape::new(index, (UNITS.len() as u64).pow(4));
    let units: Vec<u16> = (0..4).map(|_| UNITS[shape.choose(UNITS.len() as u64) as usize]).collect();
    let mut bytes = units_in(encoding, &units);
    if dice.one_in(4) {
        bytes.pop();
    }
    bytes
}

/// A text, or what damage makes of one.
pub fn any_bytes(dice: &mut Dice, encoding: Encoding) -> Vec<u8> {
    let mut bytes = if dice.one_in(16) { placeholder(dice, encoding) } else { sound_text(dice, encoding) };
    for _ in 0..dice.below(3) {
        change(dice, encoding, &mut bytes);
    }
    bytes
}

/// The texts that stand for damaged ones, written out as text: only a flag tells them from damage.
fn placeholder(dice: &mut Dice, encoding: Encoding) -> Vec<u8> {
    encoded(encoding, dice.pick(&["<Invalid UTF8>", "<Invalid UTF16LE>", "<Invalid UTF16BE>"]).chars())
}

fn sound_text(dice: &mut Dice, encoding: Encoding) -> Vec<u8> {
    let length = match dice.below(20_000) {
        0 => dice.between(60_000, 70_000),
        1..=40 => dice.below(600),
        _ => dice.below(12),
    };
    let chars: Vec<char> = (0..length).map(|_| character(dice)).collect();
    encoded(encoding, chars.into_iter())
}

fn encoded(encoding: Encoding, chars: impl Iterator<Item = char>) -> Vec<u8> {
    match encoding {
        Encoding::Latin1 => chars.map(|c| c as u32 as u8).collect(),
        Encoding::Utf8 => chars.collect::<String>().into_bytes(),
        Encoding::Utf16Le | Encoding::Utf16Be => {
            units_in(encoding, &chars.collect::<String>().encode_utf16().collect::<Vec<u16>>())
        }
    }
}

fn units_in(encoding: Encoding, units: &[u16]) -> Vec<u8> {
    let bytes = |unit: &u16| if encoding == Encoding::Utf16Le { unit.to_le_bytes() } else { unit.to_be_bytes() };
    units.iter().flat_map(bytes).collect()
}

fn character(dice: &mut Dice) -> char {
    const ENDS: [char; 12] = [
        '\u{1}',
        '\u{7F}',
        '\u{80}',
        '\u{FF}',
        '\u{100}',
        '\u{7FF}',
        '\u{800}',
        '\u{D7FF}',
        '\u{E000}',
        '\u{FFFF}',
        '\u{10000}',
        '\u{10FFFF}',
    ];
    match dice.below(4) {
        0 => dice.pick(&ENDS),
        1 => char::from_u32(dice.below(0x11_0000) as u32).unwrap_or('\u{FFFD}'),
        _ => dice.between(0x20, 0x7E) as u8 as char,
    }
}

/// One change: a NUL, a cut, a byte more, another byte, or a sequence that is no text.
fn change(dice: &mut Dice, encoding: Encoding, bytes: &mut Vec<u8>) {
    let at = dice.below(bytes.len() as u64 + 1) as usize;
    match dice.below(6) {
        0 => drop(bytes.splice(at..at, [0; 2].into_iter().take(dice.between(1, 2) as usize))),
        1 => bytes.truncate(at),
        2 => bytes.insert(at, dice.word() as u8),
        3 if at < bytes.len() => bytes[at] ^= 1 << dice.below(8),
        4 => drop(bytes.splice(at / 2 * 2..at / 2 * 2, no_text(dice, encoding))),
        _ => {}
    }
}

fn no_text(dice: &mut Dice, encoding: Encoding) -> Vec<u8> {
    // Overlong forms, surrogates, numbers past the last character, lone and missing continuations.
    const SEQUENCES: [&[u8]; 12] = [
        b"\xC0\x80",
        b"\xC1\xBF",
        b"\xE0\x9F\xBF",
        b"\xED\xA0\x80",
        b"\xED\xBF\xBF",
        b"\xF0\x8F\xBF\xBF",
        b"\xF4\x90\x80\x80",
        b"\xF5\x80\x80\x80",
        b"\x80",
        b"\xC2",
        b"\xE1\x80",
        b"\xF1\x80\x80",
    ];
    const UNITS: [&[u16]; 5] = [&[0xD800], &[0xDBFF, 0x41], &[0xDC00], &[0xDFFF, 0xD800], &[0xD800, 0]];
    match encoding {
        Encoding::Latin1 | Encoding::Utf8 => dice.pick(&SEQUENCES).to_vec(),
        Encoding::Utf16Le | Encoding::Utf16Be => units_in(encoding, dice.pick(&UNITS)),
    }
}
