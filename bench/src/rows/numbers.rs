//! The double and the value of a field.

use super::{channel, over_pieces};
use crate::c::data_type::{BYTE_ARRAY, FLOAT_BE, FLOAT_LE, SIGNED_LE, UNSIGNED_BE, UNSIGNED_LE, UTF8};
use crate::dice::Dice;
use crate::pieces::Pieces;
use crate::row::Plan;
use crate::{border, c, inlined, library};

const ITEMS: usize = 2_000_000;
const COUNTED: usize = 1_000;

/// A record's bytes, the last of which holds invalidation bits.
const SIZE: usize = 16;
const DATA_BYTES: u32 = 15;

/// Where the fields stand that are not said to stand elsewhere.
const AT: usize = 4;

/// A record that no eight bytes fit into.
const SHORT: usize = 6;

/// Puts a field's value into a record of random bytes.
type Put = fn(&mut Dice, &mut [u8]);

pub fn plans() -> Vec<Plan> {
    [unsigned_doubles(), other_doubles(), values(), at_the_end()].into_iter().flatten().collect()
}

fn unsigned_doubles() -> Vec<Plan> {
    vec![
        double("u8", field(UNSIGNED_LE, 8), random),
        double("u16", field(UNSIGNED_LE, 16), random),
        double("u32", field(UNSIGNED_LE, 32), random),
        double("u64", field(UNSIGNED_LE, 64), random),
        double("u64 below 100,000", field(UNSIGNED_LE, 64), small),
        double("u16, big-endian", field(UNSIGNED_BE, 16), random),
        double("u32, big-endian", field(UNSIGNED_BE, 32), random),
        double("u64, big-endian", field(UNSIGNED_BE, 64), random),
        double("12 bits from bit 4", c::Channel { byte_offset: 3, bit_offset: 4, ..field(UNSIGNED_LE, 12) }, random),
    ]
}

fn other_doubles() -> Vec<Plan> {
    vec![
        double("i8", field(SIGNED_LE, 8), random),
        double("i16", field(SIGNED_LE, 16), random),
        double("i32", field(SIGNED_LE, 32), random),
        double("i64", field(SIGNED_LE, 64), random),
        double("f32", field(FLOAT_LE, 32), float),
        double("f64", field(FLOAT_LE, 64), double_le),
        double("f64, big-endian", field(FLOAT_BE, 64), double_be),
    ]
}

fn values() -> Vec<Plan> {
    vec![
        value("u32", field(UNSIGNED_LE, 32), random),
        value("i16", field(SIGNED_LE, 16), random),
        value("u64", field(UNSIGNED_LE, 64), random),
        value("f64", field(FLOAT_LE, 64), double_le),
        value("8 bytes", field(BYTE_ARRAY, 64), random),
        value("text of 8 bytes", field(UTF8, 64), letters),
        valid_value("u32", VALID_VALUES),
        valid_value("u32, unbounded", UNBOUNDED_VALUES),
    ]
}

/// Fields with fewer than eight bytes of the record from their start on.
fn at_the_end() -> Vec<Plan> {
    let short = c::Channel { byte_offset: 2, ..field(UNSIGNED_LE, 16) };
    vec![
        double("u16, last in the record", last(UNSIGNED_LE), random),
        double("u16, big-endian, last in the record", last(UNSIGNED_BE), random),
        plan("double of u16 in a record of 6 bytes", SHORT, short, random, DOUBLES),
        value("u16, last in the record", last(UNSIGNED_LE), random),
        value("u16, big-endian, last in the record", last(UNSIGNED_BE), random),
        plan("value of u16 in a record of 6 bytes", SHORT, short, random, VALUES),
    ]
}

fn field(data_type: u8, bit_count: u32) -> c::Channel {
    channel(data_type, AT as u32, bit_count)
}

/// Two bytes that end with the record.
fn last(data_type: u8) -> c::Channel {
    channel(data_type, SIZE as u32 - 2, 16)
}

/// The library, the crate at the border, and the crate inlined.
type Sides = [fn(Pieces, &c::Channel) -> u64; 3];

const DOUBLES: Sides = [library::doubles, border::doubles, inlined::doubles];
const VALUES: Sides = [library::values, border::values, inlined::values];
const VALID_VALUES: Sides = [
    |records, channel| library::valid_values(c::mf4_decode_valid_value, records, DATA_BYTES, channel),
    |records, channel| border::valid_values(records, DATA_BYTES, channel),
    |records, channel| inlined::valid_values(records, DATA_BYTES, channel),
];
/// The crate's own reading, in which the invalidation bytes have no end.
const UNBOUNDED_VALUES: Sides = [
    |records, channel| library::valid_values(c::mf4_decode_valid_value_unbounded, records, DATA_BYTES, channel),
    VALID_VALUES[1],
    VALID_VALUES[2],
];

fn double(name: &str, channel: c::Channel, put: Put) -> Plan {
    plan(&format!("double of {name}"), SIZE, channel, put, DOUBLES)
}

fn value(name: &str, channel: c::Channel, put: Put) -> Plan {
    plan(&format!("value of {name}"), SIZE, channel, put, VALUES)
}

fn valid_value(name: &str, sides: Sides) -> Plan {
    let channel = c::Channel { flags: 2, pos_invalidation_bit: 3, ..field(UNSIGNED_LE, 32) };
    plan(&format!("value and validity of {name}"), SIZE, channel, random, sides)
}

fn plan(name: &str, size: usize, channel: c::Channel, put: Put, sides: Sides) -> Plan {
    Plan::new(name, ITEMS, COUNTED, move |items| {
        over_pieces(records(items, size, put), size, sides.map(|side| move |records: Pieces| side(records, &channel)))
    })
}

fn records(count: usize, size: usize, put: Put) -> Vec<u8> {
    let mut dice = Dice::new(1);
    let mut bytes = dice.bytes(count * size);
    bytes.chunks_exact_mut(size).for_each(|record| put(&mut dice, record));
    bytes
}

// ---- values

fn random(_: &mut Dice, _: &mut [u8]) {}

/// As counters are.
fn small(dice: &mut Dice, record: &mut [u8]) {
    record[AT..AT + 8].copy_from_slice(&dice.below(100_000).to_le_bytes());
}

fn letters(dice: &mut Dice, record: &mut [u8]) {
    record[AT..AT + 8].fill_with(|| dice.between(0x20, 0x7E) as u8);
}

/// A number from -1000 to 1000 with some places.
fn ordinary(dice: &mut Dice) -> f64 {
    dice.below(2_000_000) as f64 / 1000.0 - 1000.0
}

fn float(dice: &mut Dice, record: &mut [u8]) {
    record[AT..AT + 4].copy_from_slice(&(ordinary(dice) as f32).to_le_bytes());
}

fn double_le(dice: &mut Dice, record: &mut [u8]) {
    record[AT..AT + 8].copy_from_slice(&ordinary(dice).to_le_bytes());
}

fn double_be(dice: &mut Dice, record: &mut [u8]) {
    record[AT..AT + 8].copy_from_slice(&ordinary(dice).to_be_bytes());
}
