//! The rows of the table.

mod chains;
mod channels;
mod lists;
mod mixes;
mod numbers;
mod remarks;
mod tables;
mod texts;
mod written;

use std::cell::RefCell;
use std::hint::black_box;
use std::ops::Range;
use std::rc::Rc;

use crate::c;
use crate::pieces::Pieces;
use crate::row::{Pass, Plan, Row};

/// Those beside the crate.
pub fn of_crate() -> Vec<Plan> {
    let rows = [numbers::plans(), mixes::plans(), texts::plans(), lists::plans(), channels::plans()];
    rows.into_iter().chain([chains::plans(), remarks::plans()]).flatten().collect()
}

/// Those beside plain stores.
pub fn of_stores() -> Vec<Plan> {
    written::plans()
}

/// Those beside the same along a chain.
pub fn of_tables() -> Vec<Plan> {
    tables::plans()
}

pub fn all() -> Vec<Plan> {
    [of_crate(), of_tables(), of_stores()].into_iter().flatten().collect()
}

/// A field that starts with a byte, of records that say nothing of validity.
fn channel(data_type: u8, byte_offset: u32, bit_count: u32) -> c::Channel {
    let (channel_type, bit_offset, flags, pos_invalidation_bit, data_addr) = (0, 0, 0, 0, 0);
    c::Channel { data_type, channel_type, bit_offset, byte_offset, bit_count, flags, pos_invalidation_bit, data_addr }
}

/// A row over pieces of one size. What it reads is copied to memory that is warm as well.
fn over_pieces(bytes: Vec<u8>, size: usize, sides: [impl Fn(Pieces) -> u64 + 'static; 3]) -> Row {
    let bytes: Rc<[u8]> = bytes.into();
    let [ours, border, inlined] = sides.map(|side| {
        let bytes = bytes.clone();
        Box::new(move |items| side(Pieces { bytes: &bytes, size }.part(items))) as Pass
    });
    let copy = copying(bytes.to_vec(), move |items| items.start * size..items.end * size);
    Row { ours, border: Some(border), inlined: Some(inlined), plain: None, copy }
}

/// Copies the bytes that the items have.
fn copying(bytes: Vec<u8>, place: impl Fn(Range<usize>) -> Range<usize> + 'static) -> Pass {
    let target = RefCell::new(bytes.clone());
    Box::new(move |items| {
        let place = place(items);
        let mut target = target.borrow_mut();
        target[place.clone()].copy_from_slice(&bytes[place]);
        black_box(&target[..]).len() as u64
    })
}

/// Copies the same bytes for each item.
fn copying_again(bytes: Vec<u8>) -> Pass {
    let size = bytes.len();
    let once = copying(bytes, move |_| 0..size);
    Box::new(move |items| items.map(|item| once(item..item + 1)).sum())
}
