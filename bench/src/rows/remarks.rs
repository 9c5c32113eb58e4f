//! Payloads through a second chain, that of the remarks. As for records, the library stands beside a copy of the bytes alone.

use std::hint::black_box;

use super::chains::{add_chain, fetching};
use super::channel;
use crate::c;
use crate::c::data_type::LATIN1;
use crate::dice::Dice;
use crate::digest;
use crate::row::{Plan, Row};

const RECORDS: usize = 1_000;
const RECORD_SIZE: usize = 24;
const POSITION_AT: usize = 8;

/// The joined data of the remarks: a long one takes up nearly all of it, a short one stands in its middle. Of 64 fragments,
/// with 16 bytes each, the long one begins in the first and ends in the last, and the short one lies over two.
const JOINED: usize = 1_024;

/// A file, where the chain of its records starts, the channel of its remarks, and what each of them reads.
struct Log {
    file: Vec<u8>,
    start: u64,
    channel: c::Channel,
    remark: Vec<u8>,
}

pub fn plans() -> Vec<Plan> {
    vec![
        Plan::new("remark of 16 bytes through 1 fragment", 200_000, 200, |_| row(16, 1)),
        Plan::new("remark of 16 bytes in the middle of 64 fragments", 20_000, 50, |_| row(16, 64)),
        Plan::new("remark of 1,000 bytes through 1 fragment", 200_000, 200, |_| row(1_000, 1)),
        Plan::new("remark of 1,000 bytes through 64 fragments", 20_000, 50, |_| row(1_000, 64)),
    ]
}

fn row(size: usize, fragments: usize) -> Row {
    let sides: [fn(&Log, usize, &mut [u8]) -> u64; 2] = [fetched, copied];
    fetching(log(size, fragments), RECORD_SIZE + size, sides)
}

/// The buffer has the record in front, and the payload behind it.
fn fetched(log: &Log, item: usize, buffer: &mut [u8]) -> u64 {
    let (record, payload) = buffer.split_at_mut(RECORD_SIZE);
    let (file, len, number) = (log.file.as_ptr(), log.file.len(), (item % RECORDS) as u64);
    let group = c::Group { record_id_size: 0, data_bytes: RECORD_SIZE as u32, invalidation_bytes: 0 };
    let size = RECORD_SIZE as u64;
    let (out, room, to, to_room) = (record.as_mut_ptr(), record.len(), payload.as_mut_ptr(), payload.len());
    let answer = unsafe {
        c::mf4_record_payload(file, len, log.start, number, size, group, log.channel, out, room, to, to_room)
    };
    digest::of_bytes(&payload[answer.at as usize..][..answer.length as usize])
}

fn copied(log: &Log, _: usize, buffer: &mut [u8]) -> u64 {
    let payload = &mut buffer[RECORD_SIZE..];
    payload.copy_from_slice(black_box(&log.remark));
    digest::of_bytes(payload)
}

/// Records in one block, all with the position of one remark.
fn log(size: usize, fragments: usize) -> Log {
    let mut dice = Dice::new(1);
    let remark: Vec<u8> = (0..size).map(|_| dice.between(0x20, 0x7E) as u8).collect();
    let position = (JOINED - 4 - size) / 2;
    let mut joined = vec![0; JOINED];
    joined[position..][..4].copy_from_slice(&(size as u32).to_le_bytes());
    joined[position + 4..][..size].copy_from_slice(&remark);
    let mut record = dice.bytes(RECORD_SIZE);
    record[POSITION_AT..][..8].copy_from_slice(&(position as u64).to_le_bytes());
    let mut file = vec![0; 64];
    let start = add_chain(&mut file, b"##DT", &record.repeat(RECORDS), 1, 1);
    let data_addr = add_chain(&mut file, b"##SD", &joined, 1, fragments);
    let channel = c::Channel { channel_type: 1, data_addr, ..channel(LATIN1, POSITION_AT as u32, 64) };
    Log { file, start, channel, remark }
}
