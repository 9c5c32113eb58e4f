//! Block headers and data lists, read and written.

use std::ops::Range;
use std::rc::Rc;

use super::{copying, copying_again, over_pieces};
use crate::dice::Dice;
use crate::pieces::{Numbers, Pieces};
use crate::row::{Pass, Plan, Row};
use crate::{border, c, inlined, library};

const HEADERS: usize = 1_000_000;
const LISTS_READ: usize = 500;
const LISTS_WRITTEN: usize = 2_000;
const LINKS: usize = 4_096;
pub const HEADER_SIZE: usize = 24;

pub fn plans() -> Vec<Plan> {
    vec![
        Plan::new("header read", HEADERS, 1_000, headers_read),
        Plan::new("header written", HEADERS, 1_000, headers_written),
        Plan::new("list of 4,096 links and a length, read", LISTS_READ, 4, |items| lists_read(items, true)),
        Plan::new("list of 4,096 links and offsets, read", LISTS_READ, 4, |items| lists_read(items, false)),
        Plan::new("list of 4,096 links and a length, written", LISTS_WRITTEN, 4, |_| lists_written(true)),
        Plan::new("list of 4,096 links and offsets, written", LISTS_WRITTEN, 4, |_| lists_written(false)),
    ]
}

// ---- headers

fn headers_read(count: usize) -> Row {
    let bytes: Vec<u8> = headers(count).iter().flat_map(header_bytes).collect();
    let sides: [fn(Pieces) -> u64; 3] = [library::headers_read, border::headers_read, inlined::headers_read];
    over_pieces(bytes, HEADER_SIZE, sides)
}

fn headers_written(count: usize) -> Row {
    let sides: [fn(&Vec<c::Header>, usize) -> u64; 3] = [
        |headers, count| library::headers_written(headers, count),
        |headers, count| border::headers_written(headers, count),
        |headers, count| inlined::headers_written(headers, count),
    ];
    let place = |items: Range<usize>| items.start * HEADER_SIZE..items.end * HEADER_SIZE;
    writing(headers(64), sides, copying(vec![0; count * HEADER_SIZE], place))
}

/// A row that writes the same given things again and again.
pub fn writing<T: 'static>(given: T, sides: [fn(&T, usize) -> u64; 3], copy: Pass) -> Row {
    let given = Rc::new(given);
    let [ours, border, inlined] = sides.map(|side| {
        let given = given.clone();
        Box::new(move |items: Range<usize>| side(&given, items.len())) as Pass
    });
    Row { ours, border: Some(border), inlined: Some(inlined), plain: None, copy }
}

fn headers(count: usize) -> Vec<c::Header> {
    let mut dice = Dice::new(1);
    let ids = [*b"##DT", *b"##DL", *b"##CN", *b"##TX"].map(u32::from_le_bytes);
    let header = |_| c::Header {
        id: dice.pick(&ids),
        reserved0: 0,
        block_len: dice.between(24, 100_000),
        link_count: dice.below(8),
    };
    (0..count).map(header).collect()
}

pub fn header_bytes(header: &c::Header) -> Vec<u8> {
    let mut out = vec![0; HEADER_SIZE];
    unsafe { c::mf4_write_header(*header, out.as_mut_ptr(), out.len()) };
    out
}

// ---- lists

fn lists_read(count: usize, equal: bool) -> Row {
    let size = list_bytes(&numbers(0), equal).len();
    let bytes: Vec<u8> = (0..count).flat_map(|seed| list_bytes(&numbers(seed as u64), equal)).collect();
    let sides: [fn(Pieces) -> u64; 3] = [library::lists_read, border::lists_read, inlined::lists_read];
    over_pieces(bytes, size, sides)
}

fn lists_written(equal: bool) -> Row {
    let numbers = numbers(0);
    let copy = copying_again(list_bytes(&numbers, equal));
    if equal {
        let sides = [library::lists_written_equal, border::lists_written_equal, inlined::lists_written_equal];
        return writing(numbers, sides, copy);
    }
    let sides = [library::lists_written_variable, border::lists_written_variable, inlined::lists_written_variable];
    writing(numbers, sides, copy)
}

fn numbers(seed: u64) -> Numbers {
    let mut dice = Dice::new(seed);
    let links = (0..LINKS).map(|_| dice.below(1 << 40)).collect();
    let offsets = (0..LINKS as u64).map(|index| index * 65_536).collect();
    Numbers { next: dice.below(1 << 40), links, offsets, length: 65_536 }
}

fn list_bytes(numbers: &Numbers, equal: bool) -> Vec<u8> {
    let Numbers { next, links, offsets, length } = numbers;
    let (link, offset, count) = (links.as_ptr(), offsets.as_ptr(), links.len());
    let mut out = vec![0; library::list_size(count, if equal { 1 } else { count })];
    let (to, room) = (out.as_mut_ptr(), out.len());
    if equal {
        unsafe { c::mf4_write_list_equal(*next, link, count, *length, to, room) };
    } else {
        unsafe { c::mf4_write_list_variable(*next, link, count, offset, count, to, room) };
    }
    out
}
