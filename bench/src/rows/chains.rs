//! Records through a chain, and the length of its data. The crate has no such calls, so the library stands beside a copy
//! of the bytes alone.

use std::cell::RefCell;
use std::hint::black_box;
use std::ops::Range;
use std::rc::Rc;

use super::lists::{header_bytes, HEADER_SIZE};
use super::{channel, copying_again};
use crate::c;
use crate::c::data_type::UNSIGNED_LE;
use crate::dice::Dice;
use crate::digest;
use crate::library::list_size;
use crate::row::{Pass, Plan, Row};

/// The joined data is the same however many fragments it has, and some records lie over two fragments.
pub const DATA: usize = 4 << 20;
pub const SIZE: usize = 24;
pub const RECORDS: usize = DATA / SIZE;

/// From an item's record to the next item's: a golden section of the data, so that few records too are from all over it.
const STEP: usize = 108_011;

/// A file, where its chain starts, and the joined data.
pub struct Chain {
    pub file: Vec<u8>,
    pub start: u64,
    pub joined: Vec<u8>,
}

type Fetch = fn(&Chain, u64, &mut [u8]) -> u64;

pub fn plans() -> Vec<Plan> {
    vec![
        Plan::new("record through 1 fragment", 200_000, 200, |_| row(1, 1, fetched, copied)),
        Plan::new("record through 64 fragments", 20_000, 50, |_| row(1, 64, fetched, copied)),
        Plan::new("record through 512 fragments", 4_000, 20, |_| row(1, 512, fetched, copied)),
        Plan::new("record through 4,096 fragments", 500, 10, |_| row(1, 4_096, fetched, copied)),
        Plan::new("record through 4,096 fragments of 256 lists", 500, 10, |_| row(256, 4_096, fetched, copied)),
        Plan::new("value in a record through 64 fragments", 20_000, 50, |_| row(1, 64, value_fetched, value_copied)),
        Plan::new("length of the data of 4,096 fragments", 500, 10, |_| length_row(4_096)),
    ]
}

fn row(lists: usize, fragments: usize, ours: Fetch, copy: Fetch) -> Row {
    let sides = [ours, copy]
        .map(|fetch| move |chain: &Chain, item: usize, buffer: &mut [u8]| fetch(chain, anywhere(item), buffer));
    fetching(chain(DATA, lists, fragments), SIZE, sides)
}

/// The number of an item's record: they are from all over the data.
pub fn anywhere(item: usize) -> u64 {
    (item * STEP % RECORDS) as u64
}

/// A row of the library and of a copy, each of which fetches a file's items into a buffer of that size.
pub fn fetching<File, Side>(file: File, size: usize, sides: [Side; 2]) -> Row
where
    File: 'static,
    Side: Fn(&File, usize, &mut [u8]) -> u64 + 'static,
{
    let [ours, copy] = fetches(file, size, sides);
    assert_eq!(ours(0..10), copy(0..10), "what is fetched is not that of the joined data");
    Row { ours, border: None, inlined: None, plain: None, copy }
}

/// Each side with a buffer of its own.
pub fn fetches<File, Side, const SIDES: usize>(file: File, size: usize, sides: [Side; SIDES]) -> [Pass; SIDES]
where
    File: 'static,
    Side: Fn(&File, usize, &mut [u8]) -> u64 + 'static,
{
    let file = Rc::new(file);
    sides.map(|side| {
        let file = file.clone();
        let buffer = RefCell::new(vec![0; size]);
        Box::new(move |items: Range<usize>| {
            let mut buffer = buffer.borrow_mut();
            digest::sum(items.map(|item| side(&file, item, &mut buffer)))
        }) as Pass
    })
}

pub fn fetched(chain: &Chain, number: u64, buffer: &mut [u8]) -> u64 {
    read_record(chain, number, buffer);
    digest::word(buffer)
}

pub fn read_record(chain: &Chain, number: u64, buffer: &mut [u8]) -> c::DoneReply {
    let (file, len, size) = (chain.file.as_ptr(), chain.file.len(), SIZE as u64);
    unsafe { c::mf4_read_record(file, len, chain.start, number, size, buffer.as_mut_ptr(), buffer.len()) }
}

pub fn copied(chain: &Chain, number: u64, buffer: &mut [u8]) -> u64 {
    buffer.copy_from_slice(&chain.joined[number as usize * SIZE..][..black_box(SIZE)]);
    digest::word(buffer)
}

/// The second four bytes, and a bit of the last one for their validity.
pub fn described() -> (c::Group, c::Channel) {
    let group = c::Group { record_id_size: 0, data_bytes: 23, invalidation_bytes: 1 };
    (group, c::Channel { flags: 2, pos_invalidation_bit: 3, ..channel(UNSIGNED_LE, 4, 32) })
}

pub fn value_fetched(chain: &Chain, number: u64, buffer: &mut [u8]) -> u64 {
    let (file, len, size) = (chain.file.as_ptr(), chain.file.len(), SIZE as u64);
    let (out, room) = (buffer.as_mut_ptr(), buffer.len());
    let (group, field) = described();
    let answer = unsafe { c::mf4_record_value(file, len, chain.start, number, size, group, field, out, room) };
    answer.number
}

pub fn value_copied(chain: &Chain, number: u64, buffer: &mut [u8]) -> u64 {
    copied(chain, number, buffer) >> 32
}

fn length_row(fragments: usize) -> Row {
    let chain = chain(DATA, 1, fragments);
    let ours: Pass = Box::new(move |items| digest::sum(items.map(|_| data_length(black_box(&chain)))));
    assert_eq!(ours(0..1), DATA as u64, "the length is not that of the joined data");
    Row { ours, border: None, inlined: None, plain: None, copy: copying_walked(fragments) }
}

pub fn data_length(chain: &Chain) -> u64 {
    unsafe { c::mf4_data_length(chain.file.as_ptr(), chain.file.len(), chain.start) }.length
}

/// A walk reads the list and the headers of its blocks, and so many bytes are copied.
pub fn copying_walked(fragments: usize) -> Pass {
    copying_again(vec![0; list_size(fragments, 1) + fragments * HEADER_SIZE])
}

/// A chain that joins to so many bytes, which are a multiple of its fragments.
pub fn chain(data: usize, lists: usize, fragments: usize) -> Chain {
    let joined = Dice::new(1).bytes(data);
    let mut file = vec![0; 64];
    let start = add_chain(&mut file, b"##DT", &joined, lists, fragments);
    Chain { file, start, joined }
}

/// Blocks of one length, and then the lists of them, each of as many; gives where the chain starts.
pub fn add_chain(file: &mut Vec<u8>, id: &[u8; 4], joined: &[u8], lists: usize, fragments: usize) -> u64 {
    let length = joined.len() / fragments;
    let links: Vec<u64> = joined.chunks(length).map(|data| add_block(file, id, data)).collect();
    let start = file.len() as u64;
    let size = list_size(fragments / lists, 1);
    for (number, links) in (1..).zip(links.chunks(fragments / lists)) {
        let next = if number < lists { start + (number * size) as u64 } else { 0 };
        let mut list = vec![0; size];
        let (to, room) = (list.as_mut_ptr(), list.len());
        unsafe { c::mf4_write_list_equal(next, links.as_ptr(), links.len(), length as u64, to, room) };
        file.extend(list);
    }
    start
}

fn add_block(file: &mut Vec<u8>, id: &[u8; 4], data: &[u8]) -> u64 {
    let address = file.len() as u64;
    let block_len = (HEADER_SIZE + data.len()) as u64;
    let header = c::Header { id: u32::from_le_bytes(*id), reserved0: 0, block_len, link_count: 0 };
    file.extend(header_bytes(&header));
    file.extend(data);
    address
}
