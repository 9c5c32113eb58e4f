//! Records through a table, beside the same along the chain, and beside a copy of the bytes.

use std::cell::RefCell;
use std::hint::black_box;
use std::ops::Range;

use super::chains::{self, anywhere, chain, copying_walked, data_length, described, fetches};
use super::chains::{Chain, DATA, RECORDS, SIZE};
use super::copying_again;
use crate::c;
use crate::digest;
use crate::row::{Pass, Plan, Row};

const LAST: u64 = RECORDS as u64 - 1;

struct Tabled {
    chain: Chain,
    table: c::Table,
}

/// What is fetched of the record with that number.
type Fetch = fn(&Tabled, u64, &mut [u8]) -> u64;

/// Through the table, along the chain, and as a copy.
const RECORD: [Fetch; 3] = [
    fetched,
    |tabled, number, buffer| chains::fetched(&tabled.chain, number, buffer),
    |tabled, number, buffer| chains::copied(&tabled.chain, number, buffer),
];
const VALUE: [Fetch; 3] = [
    value_fetched,
    |tabled, number, buffer| chains::value_fetched(&tabled.chain, number, buffer),
    |tabled, number, buffer| chains::value_copied(&tabled.chain, number, buffer),
];

pub fn plans() -> Vec<Plan> {
    vec![
        Plan::new("record through a table of 1 fragment", 200_000, 200, |_| row(1, anywhere, RECORD)),
        Plan::new("record through a table of 64 fragments", 20_000, 50, |_| row(64, anywhere, RECORD)),
        Plan::new("record through a table of 512 fragments", 4_000, 20, |_| row(512, anywhere, RECORD)),
        Plan::new("the first record through a table of 64 fragments", 20_000, 50, |_| row(64, |_| 0, RECORD)),
        Plan::new("the last record through a table of 64 fragments", 20_000, 50, |_| row(64, |_| LAST, RECORD)),
        Plan::new("each of two million records in order, table of 64 fragments", 2_000_000, 20_000, in_order),
        Plan::new("value in a record through a table of 64 fragments", 20_000, 50, |_| row(64, anywhere, VALUE)),
        Plan::new("record behind the last refused, table of 1 fragment", 200_000, 200, |_| refused(1)),
        Plan::new("record behind the last refused, table of 64 fragments", 20_000, 50, |_| refused(64)),
        Plan::new("record behind the last refused, table of 512 fragments", 4_000, 20, |_| refused(512)),
        Plan::new("table of 64 fragments opened", 20_000, 50, |_| opened(64)),
        Plan::new("table of 512 fragments opened", 4_000, 20, |_| opened(512)),
    ]
}

fn row(fragments: usize, number: impl Fn(usize) -> u64 + Copy + 'static, sides: [Fetch; 3]) -> Row {
    fetching(chain(DATA, 1, fragments), number, sides)
}

/// A chain of as many records as there are items. The length of its fragments is no multiple of a record's.
fn in_order(items: usize) -> Row {
    let data = 64 * (items * SIZE / 64 + 1);
    fetching(chain(data, 1, 64), |item| item as u64, RECORD)
}

fn fetching(chain: Chain, number: impl Fn(usize) -> u64 + Copy + 'static, sides: [Fetch; 3]) -> Row {
    let sides =
        sides.map(|fetch| move |tabled: &Tabled, item: usize, buffer: &mut [u8]| fetch(tabled, number(item), buffer));
    let [ours, plain, copy] = fetches(tabled(chain), SIZE, sides);
    assert_eq!(ours(0..10), copy(0..10), "what is fetched is not that of the joined data");
    Row { ours, border: None, inlined: None, plain: Some(plain), copy }
}

/// What the test of the table takes: nothing is looked for in it then, and nothing is copied. It is beside a copy of the part
/// of the table that is in use.
fn refused(fragments: usize) -> Row {
    let sides: [Fetch; 2] = [
        |tabled, number, buffer| u64::from(table_record(tabled, number, buffer).reply),
        |tabled, number, buffer| u64::from(chains::read_record(&tabled.chain, number, buffer).reply),
    ];
    let sides = sides.map(|fetch| move |tabled: &Tabled, _: usize, buffer: &mut [u8]| fetch(tabled, LAST + 1, buffer));
    let [ours, plain] = fetches(tabled(chain(DATA, 1, fragments)), SIZE, sides);
    assert_eq!(ours(0..1), 16, "the record behind the last is not refused as such");
    Row { ours, border: None, inlined: None, plain: Some(plain), copy: copying_again(vec![0; 16 * (1 + fragments)]) }
}

/// Beside the walk along the chain alone, which gives the length of the data.
fn opened(fragments: usize) -> Row {
    let (tabled, walked) = (RefCell::new(tabled(chain(DATA, 1, fragments))), chain(DATA, 1, fragments));
    let ours = move |items: Range<usize>| {
        let Tabled { chain, table } = &mut *tabled.borrow_mut();
        digest::sum(items.map(|_| open(black_box(chain), table).data_length))
    };
    let plain: Pass = Box::new(move |items| digest::sum(items.map(|_| data_length(black_box(&walked)))));
    Row { ours: Box::new(ours), border: None, inlined: None, plain: Some(plain), copy: copying_walked(fragments) }
}

fn tabled(chain: Chain) -> Tabled {
    let empty = c::Fragment { block_addr: 0, data_position: 0 };
    let mut table = c::Table { fragment_count: 0, data_length: 0, fragments: [empty; 512] };
    open(&chain, &mut table);
    Tabled { chain, table }
}

fn open<'a>(chain: &Chain, table: &'a mut c::Table) -> &'a c::Table {
    unsafe { c::mf4_open_table(chain.file.as_ptr(), chain.file.len(), chain.start, table) };
    table
}

fn fetched(tabled: &Tabled, number: u64, buffer: &mut [u8]) -> u64 {
    table_record(tabled, number, buffer);
    digest::word(buffer)
}

fn table_record(tabled: &Tabled, number: u64, buffer: &mut [u8]) -> c::DoneReply {
    let Tabled { chain: Chain { file, .. }, table } = tabled;
    let (out, room) = (buffer.as_mut_ptr(), buffer.len());
    unsafe { c::mf4_table_record(file.as_ptr(), file.len(), table, number, SIZE as u64, out, room) }
}

fn value_fetched(tabled: &Tabled, number: u64, buffer: &mut [u8]) -> u64 {
    let Tabled { chain: Chain { file, .. }, table } = tabled;
    let (out, room) = (buffer.as_mut_ptr(), buffer.len());
    let (group, field) = described();
    let answer =
        unsafe { c::mf4_table_value(file.as_ptr(), file.len(), table, number, SIZE as u64, group, field, out, room) };
    answer.number
}
