//! What both sides answer, in one vocabulary: the library's terms.

use std::ops::RangeInclusive;

use crate::cases::Channel;

/// A numbered refusal, and what it tells beside its number (0 where it tells nothing).
#[derive(Debug, Clone, Copy, PartialEq, Eq)]
pub struct Refusal {
    pub number: u32,
    pub told: u64,
}

pub type Reply<T> = Result<T, Refusal>;

pub const OTHER_ID: Refusal = Refusal { number: 3, told: 0 };
pub const NO_LINKS: Refusal = Refusal { number: 4, told: 0 };
pub const UNWRITABLE_LIST: Refusal = Refusal { number: 5, told: 0 };
pub const TOO_FEW_LINKS: Refusal = Refusal { number: 17, told: 0 };
pub const NO_BITS: Refusal = Refusal { number: 18, told: 0 };
pub const BAD_BIT_OFFSET: Refusal = Refusal { number: 19, told: 0 };
pub const INTEGER_TOO_WIDE: Refusal = Refusal { number: 20, told: 0 };
pub const BAD_FLOAT_WIDTH: Refusal = Refusal { number: 22, told: 0 };
pub const OTHER_LENGTH: Refusal = Refusal { number: 28, told: 0 };
pub const BIT_OUTSIDE: Refusal = Refusal { number: 29, told: 0 };

pub fn too_few_bytes(needed: u64) -> Refusal {
    Refusal { number: 2, told: needed }
}

pub fn no_room(needed: u64) -> Refusal {
    Refusal { number: 6, told: needed }
}

pub fn field_outside(end: u64) -> Refusal {
    Refusal { number: 21, told: end }
}

/// The numbers of the causes for which a field has no value.
pub const FIELD_REFUSALS: RangeInclusive<u32> = 18..=22;

/// The one NaN for whatever is no number.
pub const NAN_BITS: u64 = 0x7FF8_0000_0000_0000;

#[derive(Debug, Clone, Copy, PartialEq, Eq)]
pub struct Header {
    pub id: [u8; 4],
    pub reserved0: u32,
    pub block_len: u64,
    pub links_nr: u64,
}

#[derive(Debug, Clone, Copy, PartialEq, Eq)]
pub struct List {
    pub header: Header,
    pub next: u64,
    pub links_at: u64,
    pub links: u64,
    pub flags: u8,
    pub reserved1: u32,
    pub data_block_nr: u32,
    pub rest_at: u64,
    pub rest: u64,
}

/// The links without that of the data, which the channel has, and the limits' 64-bit patterns, each in mf4.h's order.
#[derive(Debug, Clone, Copy, PartialEq, Eq)]
pub struct ChannelBlock {
    pub header: Header,
    pub links: [u64; 7],
    pub more_links_at: u64,
    pub more_links: u64,
    pub channel: Channel,
    pub sync_type: u8,
    pub precision: u8,
    pub reserved1: u8,
    pub attachment_nr: u16,
    pub limits: [u64; 6],
}

#[derive(Debug, Clone, Copy, PartialEq, Eq)]
pub struct Place {
    pub at: u64,
    pub length: u64,
}

#[derive(Debug, Clone, Copy, PartialEq, Eq)]
pub enum Value {
    Unsigned(u64),
    Signed(i64),
    Double(u64),
    Text(Place),
    Bytes(Place),
    Sample(Place),
    Stream(Place),
    Unknown,
}

impl Value {
    /// Kind number and two words, as the sample's lines have them.
    pub fn words(&self) -> [u64; 3] {
        match *self {
            Value::Unsigned(value) => [1, value, 0],
            Value::Signed(value) => [2, value as u64, 0],
            Value::Double(bits) => [3, bits, 0],
            Value::Text(place) => [4, place.at, place.length],
            Value::Bytes(place) => [5, place.at, place.length],
            Value::Sample(place) => [6, place.at, place.length],
            Value::Stream(place) => [7, place.at, place.length],
            Value::Unknown => [8, 0, 0],
        }
    }
}

/// A text as UTF-8, and whether a placeholder stands for bytes that are not well-formed.
#[derive(Debug, Clone, PartialEq, Eq)]
pub struct Text {
    pub utf8: Vec<u8>,
    pub damaged: bool,
}

/// The answer to a case of any kind.
#[derive(Debug, Clone, PartialEq, Eq)]
pub enum Answer {
    Type { code: u8, default_bits: u32 },
    Header(Reply<Header>),
    Written(Reply<Vec<u8>>),
    List(Reply<List>),
    Channel(Reply<ChannelBlock>),
    Value(Reply<Value>),
    Validity(bool),
    Both(Reply<(Value, bool)>),
    Double(u64),
    Text(Reply<Text>),
}

impl Answer {
    /// The number of the cause, where a field has no value.
    pub fn field_refusal(&self) -> Option<u32> {
        match self {
            Answer::Value(Err(refusal)) | Answer::Both(Err(refusal)) => {
                Some(refusal.number).filter(|number| FIELD_REFUSALS.contains(number))
            }
            _ => None,
        }
    }
}

/// What the crate says. Where a field has no value, it tells no cause.
#[derive(Debug, Clone, PartialEq, Eq)]
pub enum Said {
    Answer(Answer),
    NoValue,
}

impl Said {
    /// Where the crate tells no cause, each of the library's is right.
    pub fn allows(&self, ours: &Answer) -> bool {
        match self {
            Said::Answer(theirs) => ours == theirs,
            Said::NoValue => ours.field_refusal().is_some(),
        }
    }
}

/// Bytes into a lent buffer: written where there is room.
pub fn into_room(bytes: Vec<u8>, room: usize) -> Reply<Vec<u8>> {
    if room < bytes.len() {
        Err(no_room(bytes.len() as u64))
    } else {
        Ok(bytes)
    }
}
