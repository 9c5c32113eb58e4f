//! A text as UTF-8: the library writes it into a lent buffer, the crate into a string of its own.

use super::{channel, over_pieces};
use crate::c::data_type;
use crate::dice::Dice;
use crate::pieces::Pieces;
use crate::row::{Plan, Row};
use crate::{border, c, inlined, library};

const ITEMS: usize = 500_000;
const COUNTED: usize = 500;

/// The characters of most texts.
const PLAIN: &str = "ABCDEFGHIJKLMNOPQRSTUVWXYZ abcdefghijklmnopqrstuvwxyz 0123456789-_.";
/// Of one byte in Latin-1, and of one or two as UTF-8.
const ACCENTED: &str = "Pumpendrücke und Kühlmittel °C µm ± ² äöüÄÖÜß éèà";
/// Of one to four bytes as UTF-8, and of one or two units as UTF-16.
const WORLDLY: &str = "Motor Öl 圧力 温度 °C µm € Ω 🔧 давление";

struct Encoding {
    type_code: u8,
    encode: fn(char) -> Vec<u8>,
    ours: fn(Pieces, &c::Channel) -> u64,
}

const LATIN1: Encoding = Encoding {
    type_code: data_type::LATIN1,
    encode: in_latin1,
    ours: |texts, _| library::texts(c::mf4_text_latin1, texts),
};
const UTF8: Encoding =
    Encoding { type_code: data_type::UTF8, encode: in_utf8, ours: |texts, _| library::texts(c::mf4_text_utf8, texts) };
const UTF16: Encoding = Encoding {
    type_code: data_type::UTF16_LE,
    encode: in_utf16,
    ours: |texts, _| library::texts(c::mf4_text_utf16_le, texts),
};

pub fn plans() -> Vec<Plan> {
    vec![
        plan("UTF-8 text, 8 bytes", &UTF8, 8, PLAIN),
        plan("UTF-8 text, 32 bytes", &UTF8, 32, PLAIN),
        Plan::new("UTF-8 text, 32 bytes with a NUL", ITEMS, COUNTED, |items| row(&UTF8, stopped(items), 32)),
        plan("UTF-8 text, 32 bytes, many scripts", &UTF8, 32, WORLDLY),
        plan("Latin-1 text, 8 bytes", &LATIN1, 8, PLAIN),
        plan("Latin-1 text, 32 bytes", &LATIN1, 32, PLAIN),
        plan("Latin-1 text, 32 bytes, accents", &LATIN1, 32, ACCENTED),
        plan("UTF-16 text, 8 bytes", &UTF16, 8, PLAIN),
        plan("UTF-16 text, 32 bytes", &UTF16, 32, PLAIN),
        plan("UTF-16 text, 32 bytes, many scripts", &UTF16, 32, WORLDLY),
    ]
}

fn plan(name: &str, encoding: &'static Encoding, size: usize, alphabet: &'static str) -> Plan {
    Plan::new(name, ITEMS, COUNTED, move |items| row(encoding, texts(items, size, alphabet, encoding), size))
}

/// The crate reads each text as the one field of a record.
fn row(encoding: &Encoding, bytes: Vec<u8>, size: usize) -> Row {
    let channel = channel(encoding.type_code, 0, 8 * size as u32);
    let sides = [encoding.ours, border::values, inlined::values];
    over_pieces(bytes, size, sides.map(|side| move |texts: Pieces| side(texts, &channel)))
}

// ---- texts

fn texts(count: usize, size: usize, alphabet: &str, encoding: &Encoding) -> Vec<u8> {
    let mut dice = Dice::new(1);
    let blank = (encoding.encode)(' ');
    let characters: Vec<Vec<u8>> = alphabet.chars().map(encoding.encode).collect();
    (0..count).flat_map(|_| text(&mut dice, size, &characters, &blank)).collect()
}

/// Characters as long as there is room for them, and blanks behind.
fn text(dice: &mut Dice, size: usize, characters: &[Vec<u8>], blank: &[u8]) -> Vec<u8> {
    let mut bytes = Vec::with_capacity(size);
    while bytes.len() + 4 <= size {
        bytes.extend(&characters[dice.below(characters.len() as u64) as usize]);
    }
    bytes.extend(blank.iter().cycle().take(size - bytes.len()));
    bytes
}

/// Texts of 8 to 24 bytes, then a NUL and anything.
fn stopped(count: usize) -> Vec<u8> {
    let mut dice = Dice::new(2);
    let mut bytes = texts(count, 32, PLAIN, &UTF8);
    for text in bytes.chunks_exact_mut(32) {
        let stop = dice.between(8, 24) as usize;
        text[stop] = 0;
        text[stop + 1..].fill_with(|| dice.word() as u8);
    }
    bytes
}

fn in_utf8(character: char) -> Vec<u8> {
    character.to_string().into_bytes()
}

fn in_latin1(character: char) -> Vec<u8> {
    vec![u8::try_from(character).expect("a character of Latin-1")]
}

fn in_utf16(character: char) -> Vec<u8> {
    let mut units = [0; 2];
    character.encode_utf16(&mut units).iter().flat_map(|unit| unit.to_le_bytes()).collect()
}
