//! All channels of a record, and then those of the next: what a loader does.

use super::{channel, over_pieces};
use crate::c::data_type::{FLOAT_LE, SIGNED_LE, UNSIGNED_BE, UNSIGNED_LE};
use crate::dice::Dice;
use crate::pieces::Pieces;
use crate::row::Plan;
use crate::{border, c, inlined, library};

const ITEMS: usize = 50_000;
const COUNTED: usize = 50;
const CHANNELS: usize = 40;

/// Types and bits that stand together in many logs: flags, states, bytes, converters' readings, counters, a float.
const USUAL: [(u8, u32); 10] = [
    (UNSIGNED_LE, 1),
    (UNSIGNED_LE, 1),
    (UNSIGNED_LE, 2),
    (UNSIGNED_LE, 4),
    (UNSIGNED_LE, 8),
    (UNSIGNED_LE, 8),
    (SIGNED_LE, 12),
    (UNSIGNED_BE, 16),
    (SIGNED_LE, 16),
    (FLOAT_LE, 32),
];

/// The library, the crate at the border, and the crate inlined.
type Sides = [fn(Pieces, &[c::Channel]) -> u64; 3];

const DOUBLES: Sides = [library::doubles_of_all, border::doubles_of_all, inlined::doubles_of_all];
const VALUES: Sides = [library::values_of_all, border::values_of_all, inlined::values_of_all];

pub fn plans() -> Vec<Plan> {
    vec![
        plan("doubles of 40 channels in a record of 8 bytes", 8, DOUBLES),
        plan("doubles of 40 channels in a record of 64 bytes", 64, DOUBLES),
        plan("values of 40 channels in a record of 8 bytes", 8, VALUES),
        plan("values of 40 channels in a record of 64 bytes", 64, VALUES),
    ]
}

fn plan(name: &str, size: usize, sides: Sides) -> Plan {
    Plan::new(name, ITEMS, COUNTED, move |items| {
        let sides = sides.map(|side| {
            let channels = channels(size);
            move |records: Pieces| side(records, &channels)
        });
        over_pieces(records(items * size), size, sides)
    })
}

/// So many of them, each with bits of its own.
pub fn side_by_side(count: usize) -> Vec<c::Channel> {
    channels_in(count, 4 * count)
}

fn channels(size: usize) -> Vec<c::Channel> {
    channels_in(CHANNELS, size)
}

/// One behind the other, small ones together in a byte. Where the record is full they start again, as multiplexed signals
/// do.
fn channels_in(count: usize, size: usize) -> Vec<c::Channel> {
    let mut bit = 0;
    let next = |&(data_type, bit_count): &(u8, u32)| {
        let fits_its_byte = bit % 8 + bit_count <= 8;
        let at = if fits_its_byte { bit } else { bit.next_multiple_of(8) };
        let at = if at + bit_count <= 8 * size as u32 { at } else { 0 };
        bit = at + bit_count;
        c::Channel { bit_offset: (at % 8) as u8, ..channel(data_type, at / 8, bit_count) }
    };
    USUAL.iter().cycle().take(count).map(next).collect()
}

/// Random bytes but for those that a NaN begins with: the sides keep different bits of one.
fn records(bytes: usize) -> Vec<u8> {
    let mut bytes = Dice::new(1).bytes(bytes);
    bytes.iter_mut().filter(|byte| **byte & 0x7F == 0x7F).for_each(|byte| *byte = 0);
    bytes
}
