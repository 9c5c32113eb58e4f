//! Numbers written into records, beside a plain store of the same; and fields that are looked at for an overlap.

use std::cell::RefCell;
use std::hint::black_box;
use std::ops::Range;
use std::rc::Rc;

use super::mixes::side_by_side;
use super::{channel, copying, copying_again};
use crate::c::data_type::{FLOAT_LE, UNSIGNED_LE};
use crate::c::kind::{DOUBLE, UNSIGNED};
use crate::dice::Dice;
use crate::digest;
use crate::plain::{self, Store};
use crate::row::{Pass, Plan, Row};
use crate::{c, library};

const ITEMS: usize = 2_000_000;
const COUNTED: usize = 1_000;

/// A record's bytes, and where the fields stand in it.
const SIZE: usize = 16;
const AT: usize = 4;

/// Of so many records one is looked at when all are written. To look at each behind its store would be to wait for it.
const USED: usize = 16;

/// As many descriptions as a list may have.
const DESCRIPTIONS: usize = 256;

pub fn plans() -> Vec<Plan> {
    let twelve = c::Channel { bit_offset: 4, ..field(UNSIGNED_LE, 12) };
    vec![
        written("u8", field(UNSIGNED_LE, 8), |dice| dice.below(1 << 8), plain::store_u8),
        written("u16", field(UNSIGNED_LE, 16), |dice| dice.below(1 << 16), plain::store_u16),
        written("u32", field(UNSIGNED_LE, 32), |dice| dice.below(1 << 32), plain::store_u32),
        written("u64", field(UNSIGNED_LE, 64), |dice| dice.below(u64::MAX), plain::store_u64),
        written("12 bits from bit 4", twelve, |dice| dice.below(1 << 12), plain::store_12_bits_from_4),
        written("f32", field(FLOAT_LE, 32), |dice| f64::from(ordinary(dice) as f32).to_bits(), plain::store_f32),
        written("f64", field(FLOAT_LE, 64), |dice| ordinary(dice).to_bits(), plain::store_u64),
        overlap("256 descriptions of a mix, without an overlap", side_by_side(DESCRIPTIONS)),
        overlap("256 descriptions of 64 bits from bit 4, without an overlap", nine_bytes_each()),
    ]
}

fn field(data_type: u8, bit_count: u32) -> c::Channel {
    channel(data_type, AT as u32, bit_count)
}

/// A number from -1000 to 1000 with some places.
fn ordinary(dice: &mut Dice) -> f64 {
    dice.below(2_000_000) as f64 / 1000.0 - 1000.0
}

// ---- numbers

fn written(name: &str, channel: c::Channel, number: fn(&mut Dice) -> u64, store: Store) -> Plan {
    let kind = if channel.data_type == FLOAT_LE { DOUBLE } else { UNSIGNED };
    Plan::new(&format!("{name} written"), ITEMS, COUNTED, move |items| {
        let mut dice = Dice::new(1);
        let numbers: Rc<[u64]> = (0..items).map(|_| number(&mut dice)).collect();
        let bytes = dice.bytes(items * SIZE);
        let ours =
            move |records: &mut [u8], numbers: &[u64]| library::numbers_written(records, SIZE, channel, kind, numbers);
        let plain =
            move |records: &mut [u8], numbers: &[u64]| plain::numbers_written(store, records, SIZE, AT, numbers);
        Row {
            ours: pass(bytes.clone(), numbers.clone(), ours),
            border: None,
            inlined: None,
            plain: Some(pass(bytes.clone(), numbers, plain)),
            copy: copying(bytes, |items| items.start * SIZE..items.end * SIZE),
        }
    })
}

/// Each side has the same records for itself, so that none finds what the other has written.
fn pass(bytes: Vec<u8>, numbers: Rc<[u64]>, side: impl Fn(&mut [u8], &[u64]) -> u64 + 'static) -> Pass {
    let records = RefCell::new(bytes);
    Box::new(move |items: Range<usize>| {
        let mut records = records.borrow_mut();
        let records = &mut records[items.start * SIZE..items.end * SIZE];
        let replies = side(records, &numbers[items]);
        let used = black_box(&*records).chunks(USED * SIZE).map(|records| digest::word(&records[AT..]));
        digest::sum(used).wrapping_add(replies)
    })
}

// ---- overlaps

/// The library beside a copy of the descriptions.
fn overlap(name: &str, list: Vec<c::Channel>) -> Plan {
    Plan::new(name, 2_000, 20, move |_| {
        let (given, bytes) = (list.clone(), list.len() * std::mem::size_of::<c::Channel>());
        assert_eq!(library::overlaps(&given), 0, "two fields overlap, or one is refused");
        Row {
            ours: Box::new(move |items: Range<usize>| items.map(|_| library::overlaps(black_box(&given))).sum()),
            border: None,
            inlined: None,
            plain: None,
            copy: copying_again(vec![0; bytes]),
        }
    })
}

/// One behind the other, each from the upper half of a byte to the lower half of its ninth.
fn nine_bytes_each() -> Vec<c::Channel> {
    let one = |place| c::Channel { bit_offset: 4, ..channel(UNSIGNED_LE, 8 * place, 64) };
    (0..DESCRIPTIONS as u32).map(one).collect()
}
