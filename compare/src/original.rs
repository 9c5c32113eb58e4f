//! The crate's answers, in the library's terms. The crate knows neither places nor lent buffers: those come from the
//! rules that every reading shares, and what stands in a place is compared with what the crate copied out of it.

use std::cell::Cell;
use std::panic::{catch_unwind, set_hook, take_hook, AssertUnwindSafe};

use mf4_rs::blocks::channel_block::ChannelBlock;
use mf4_rs::blocks::common::{BlockHeader, BlockParse, DataType};
use mf4_rs::blocks::data_list_block::DataListBlock;
use mf4_rs::error::MdfError;
use mf4_rs::parsing::decoder::{
    check_value_validity, decode_channel_value, decode_channel_value_with_validity, decode_f64_from_record,
    DecodedValue,
};

use crate::answers::{
    self, into_room, too_few_bytes, Answer, Header, List, Place, Refusal, Reply, Said, Text, Value, NAN_BITS, NO_LINKS,
    OTHER_ID,
};
use crate::cases::{Case, Channel, Encoding, Field};

/// The crate stopped the program; what it said.
#[derive(Debug, Clone, PartialEq, Eq)]
pub struct Stopped(pub String);

pub fn answer(case: &Case) -> Result<Said, Stopped> {
    let answer = match case {
        Case::Type { code } => guarded(|| type_of(*code))?,
        Case::HeaderRead { bytes } => Answer::Header(guarded(|| read_header(bytes))?),
        Case::HeaderWrite { header, room } => written(*room, || header_of(header).to_bytes())?,
        Case::ListRead { bytes } => Answer::List(guarded(|| read_list(bytes))?),
        Case::ListWriteEqual { room, next, length, links } => {
            written(*room, || write_list(DataListBlock::new_equal(links.clone(), *length), *next))?
        }
        Case::ListWriteVariable { room, next, links, offsets } => {
            written(*room, || write_list(DataListBlock::new_variable(links.clone(), offsets.clone()), *next))?
        }
        Case::ChannelRead { bytes } => Answer::Channel(read_channel(bytes)?),
        Case::ChannelWrite { block, room } => write_channel(block, *room)?,
        Case::Value(field) | Case::Carried { field, .. } => return Ok(said(value(field)?, Answer::Value)),
        Case::Validity(field) => Answer::Validity(validity(field)?),
        Case::Both(field) => return Ok(said(both(field)?, Answer::Both)),
        Case::Double(field) => Answer::Double(double(field)?),
        Case::Text { encoding, bytes, room } => {
            let text = text(*encoding, bytes)?;
            let damaged = text.damaged;
            Answer::Text(into_room(text.utf8, *room).map(|utf8| Text { utf8, damaged }))
        }
    };
    Ok(Said::Answer(answer))
}

fn said<T>(decoded: Option<T>, form: fn(Reply<T>) -> Answer) -> Said {
    decoded.map_or(Said::NoValue, |decoded| Said::Answer(form(Ok(decoded))))
}

// ---- headers and types

fn type_of(code: u8) -> Answer {
    Answer::Type { code: DataType::from_u8(code).to_u8(), default_bits: default_bits(code) }
}

pub fn default_bits(code: u8) -> u32 {
    DataType::from_u8(code).default_bits()
}

fn read_header(bytes: &[u8]) -> Reply<Header> {
    BlockHeader::from_bytes(bytes).map(|header| header_in(&header)).map_err(refusal_of)
}

/// The crate keeps an id as text; these are the four bytes that it writes for it.
fn header_in(header: &BlockHeader) -> Header {
    let mut id = [0; 4];
    id.iter_mut().zip(header.id.bytes()).for_each(|(to, from)| *to = from);
    Header { id, reserved0: header.reserved0, block_len: header.block_len, links_nr: header.links_nr }
}

/// The header that the crate has after reading such bytes.
fn header_of(header: &Header) -> BlockHeader {
    BlockHeader {
        id: String::from_utf8_lossy(&header.id).to_string(),
        reserved0: header.reserved0,
        block_len: header.block_len,
        links_nr: header.links_nr,
    }
}

// ---- lists

fn read_list(bytes: &[u8]) -> Reply<List> {
    DataListBlock::from_bytes(bytes).map(|list| list_in(bytes, &list)).map_err(refusal_of)
}

const LINKS_AT: u64 = 32;

fn list_in(bytes: &[u8], list: &DataListBlock) -> List {
    let rest = match (&list.data_block_len, &list.offsets) {
        (Some(length), None) => vec![*length],
        (None, Some(offsets)) => offsets.clone(),
        _ => panic!("a list with both a length and offsets, or with neither"),
    };
    let rest_at = LINKS_AT + 8 * list.data_links.len() as u64 + 8;
    assert!(stands_at(bytes, LINKS_AT, &list.data_links), "the links are not at their place");
    assert!(stands_at(bytes, rest_at, &rest), "the length or the offsets are not at their place");
    let [a, b, c] = list.reserved1;
    List {
        header: header_in(&list.header),
        next: list.next,
        links_at: LINKS_AT,
        links: list.data_links.len() as u64,
        flags: list.flags,
        reserved1: u32::from_le_bytes([a, b, c, 0]),
        data_block_nr: list.data_block_nr,
        rest_at,
        rest: rest.len() as u64,
    }
}

fn stands_at(bytes: &[u8], at: u64, numbers: &[u64]) -> bool {
    let expected: Vec<u8> = numbers.iter().flat_map(|number| number.to_le_bytes()).collect();
    bytes[at as usize..].starts_with(&expected)
}

fn write_list(mut list: DataListBlock, next: u64) -> Result<Vec<u8>, MdfError> {
    list.next = next;
    list.to_bytes()
}

fn written(room: usize, write: impl FnOnce() -> Result<Vec<u8>, MdfError>) -> Result<Answer, Stopped> {
    let bytes = guarded(write)?.map_err(|error| Stopped(format!("did not write: {error}")))?;
    Ok(Answer::Written(into_room(bytes, room)))
}

// ---- channel blocks

pub fn read_channel(bytes: &[u8]) -> Result<Reply<answers::ChannelBlock>, Stopped> {
    guarded(|| ChannelBlock::from_bytes(bytes).map(|block| block_in(&block)).map_err(refusal_of))
}

pub fn write_channel(block: &answers::ChannelBlock, room: usize) -> Result<Answer, Stopped> {
    written(room, || block_of(block).to_bytes())
}

/// Where the crate finds the fields: it knows no links behind the eighth.
const FIELDS_AT: u64 = 88;

fn block_in(block: &ChannelBlock) -> answers::ChannelBlock {
    answers::ChannelBlock {
        header: header_in(&block.header),
        links: [
            block.next_ch_addr,
            block.component_addr,
            block.name_addr,
            block.source_addr,
            block.conversion_addr,
            block.unit_addr,
            block.comment_addr,
        ],
        more_links_at: FIELDS_AT,
        more_links: 0,
        channel: channel_in(block),
        sync_type: block.sync_type,
        precision: block.precision,
        reserved1: block.reserved1,
        attachment_nr: block.attachment_nr,
        limits: [
            block.min_raw_value,
            block.max_raw_value,
            block.lower_limit,
            block.upper_limit,
            block.lower_ext_limit,
            block.upper_ext_limit,
        ]
        .map(f64::to_bits),
    }
}

/// The crate's variant for an unknown type has no code; 0 is the one that the crate gives for it.
fn channel_in(block: &ChannelBlock) -> Channel {
    Channel {
        data_type: block.data_type.to_u8(),
        channel_type: block.channel_type,
        bit_offset: block.bit_offset,
        byte_offset: block.byte_offset,
        bit_count: block.bit_count,
        flags: block.flags,
        pos_invalidation_bit: block.pos_invalidation_bit,
        data: block.data,
    }
}

fn block_of(block: &answers::ChannelBlock) -> ChannelBlock {
    let [next_ch_addr, component_addr, name_addr, source_addr, conversion_addr, unit_addr, comment_addr] = block.links;
    let limits = block.limits.map(f64::from_bits);
    let [min_raw_value, max_raw_value, lower_limit, upper_limit, lower_ext_limit, upper_ext_limit] = limits;
    ChannelBlock {
        header: header_of(&block.header),
        next_ch_addr,
        component_addr,
        name_addr,
        source_addr,
        conversion_addr,
        unit_addr,
        comment_addr,
        sync_type: block.sync_type,
        precision: block.precision,
        reserved1: block.reserved1,
        attachment_nr: block.attachment_nr,
        min_raw_value,
        max_raw_value,
        lower_limit,
        upper_limit,
        lower_ext_limit,
        upper_ext_limit,
        ..channel_of(&block.channel)
    }
}

// ---- values

pub fn value(field: &Field) -> Result<Option<Value>, Stopped> {
    let decoded = decoded(field)?;
    Ok(decoded.map(|value| value_in(field, &value)))
}

pub fn validity(field: &Field) -> Result<bool, Stopped> {
    let channel = channel_of(&field.channel);
    guarded(|| check_value_validity(&field.record, field.id_size as usize, field.data_bytes, &channel))
}

pub fn double(field: &Field) -> Result<u64, Stopped> {
    let channel = channel_of(&field.channel);
    let double = guarded(|| decode_f64_from_record(&field.record, field.id_size as usize, &channel))?;
    Ok(bits_in(&field.channel, double))
}

fn both(field: &Field) -> Result<Option<(Value, bool)>, Stopped> {
    let channel = channel_of(&field.channel);
    let decoded = guarded(|| {
        decode_channel_value_with_validity(&field.record, field.id_size as usize, field.data_bytes, &channel)
    })?;
    Ok(decoded.map(|both| (value_in(field, &both.value), both.is_valid)))
}

fn decoded(field: &Field) -> Result<Option<DecodedValue>, Stopped> {
    let channel = channel_of(&field.channel);
    guarded(|| decode_channel_value(&field.record, field.id_size as usize, &channel))
}

fn channel_of(channel: &Channel) -> ChannelBlock {
    ChannelBlock {
        data_type: DataType::from_u8(channel.data_type),
        channel_type: channel.channel_type,
        bit_offset: channel.bit_offset,
        byte_offset: channel.byte_offset,
        bit_count: channel.bit_count,
        flags: channel.flags,
        pos_invalidation_bit: channel.pos_invalidation_bit,
        data: channel.data,
        ..ChannelBlock::default()
    }
}

fn value_in(field: &Field, value: &DecodedValue) -> Value {
    match value {
        DecodedValue::UnsignedInteger(value) => Value::Unsigned(*value),
        DecodedValue::SignedInteger(value) => Value::Signed(*value),
        DecodedValue::Float(value) => Value::Double(bits_in(&field.channel, *value)),
        DecodedValue::String(_) => Value::Text(text_place(field)),
        DecodedValue::ByteArray(bytes) => Value::Bytes(bytes_place(field, bytes)),
        DecodedValue::MimeSample(bytes) => Value::Sample(bytes_place(field, bytes)),
        DecodedValue::MimeStream(bytes) => Value::Stream(bytes_place(field, bytes)),
        DecodedValue::Unknown => Value::Unknown,
    }
}

/// A 64-bit field keeps its bits; every other NaN counts as the one NaN.
fn bits_in(channel: &Channel, double: f64) -> u64 {
    let keeps_its_bits = channel.is_float() && channel.bit_count == 64;
    if double.is_nan() && !keeps_its_bits {
        NAN_BITS
    } else {
        double.to_bits()
    }
}

/// The bytes that a field in whole bytes has: the payload, or its span of the record.
fn whole_bytes(field: &Field) -> (usize, &[u8]) {
    if field.channel.is_payload() {
        return (0, &field.record);
    }
    let at = field.id_size as usize + field.channel.byte_offset as usize;
    (at, &field.record[at..at + field.channel.span() as usize])
}

fn bytes_place(field: &Field, copied: &[u8]) -> Place {
    let (at, bytes) = whole_bytes(field);
    assert!(bytes == copied, "the bytes are not at their place");
    Place { at: at as u64, length: bytes.len() as u64 }
}

fn text_place(field: &Field) -> Place {
    let (at, bytes) = whole_bytes(field);
    let encoding = field.channel.encoding().expect("only texts give strings");
    Place { at: at as u64, length: encoding.stop(bytes) as u64 }
}

// ---- texts

/// The crate's string of a text field.
pub fn text_of(field: &Field) -> Result<Option<String>, Stopped> {
    Ok(match decoded(field)? {
        Some(DecodedValue::String(text)) => Some(text),
        _ => None,
    })
}

/// The crate's string of a text's bytes, which it reads as a payload.
pub fn text(encoding: Encoding, bytes: &[u8]) -> Result<Text, Stopped> {
    let channel = Channel {
        data_type: encoding.type_code(),
        channel_type: 1,
        bit_offset: 0,
        byte_offset: 0,
        bit_count: 0,
        flags: 0,
        pos_invalidation_bit: 0,
        data: 1,
    };
    let payload = Field { record: bytes.to_vec(), id_size: 0, data_bytes: 0, channel };
    let utf8 = text_of(&payload)?.ok_or_else(|| Stopped("a text type without a string".to_string()))?.into_bytes();
    let damaged = !is_well_formed(encoding, &bytes[..encoding.stop(bytes)]);
    Ok(Text { utf8, damaged })
}

/// The crate does not tell damaged text from text that spells its placeholder; its own tests do.
fn is_well_formed(encoding: Encoding, bytes: &[u8]) -> bool {
    match encoding {
        Encoding::Latin1 => true,
        Encoding::Utf8 => std::str::from_utf8(bytes).is_ok(),
        Encoding::Utf16Le => char::decode_utf16(units(bytes, u16::from_le_bytes)).all(|unit| unit.is_ok()),
        Encoding::Utf16Be => char::decode_utf16(units(bytes, u16::from_be_bytes)).all(|unit| unit.is_ok()),
    }
}

fn units(bytes: &[u8], unit: fn([u8; 2]) -> u16) -> impl Iterator<Item = u16> + '_ {
    bytes.chunks_exact(2).map(move |pair| unit([pair[0], pair[1]]))
}

// ---- errors and stops

fn refusal_of(error: MdfError) -> Refusal {
    match error {
        MdfError::TooShortBuffer { expected, .. } => too_few_bytes(expected as u64),
        MdfError::BlockIDError { .. } => OTHER_ID,
        MdfError::BlockSerializationError(text) if text.contains("links_nr >= 1") => NO_LINKS,
        other => panic!("an error that no reading gives: {other}"),
    }
}

thread_local! {
    static EXPECTING: Cell<bool> = const { Cell::new(false) };
}

/// Keeps the crate's stops quiet: each is caught, counted and judged. The comparison's own stay loud.
pub fn hush_stops() {
    let loud = take_hook();
    set_hook(Box::new(move |info| {
        if !EXPECTING.with(Cell::get) {
            loud(info);
        }
    }));
}

fn guarded<T>(call: impl FnOnce() -> T) -> Result<T, Stopped> {
    EXPECTING.with(|expecting| expecting.set(true));
    let result = catch_unwind(AssertUnwindSafe(call));
    EXPECTING.with(|expecting| expecting.set(false));
    result.map_err(|said| Stopped(message(said.as_ref())))
}

fn message(said: &(dyn std::any::Any + Send)) -> String {
    let text = said.downcast_ref::<String>().map(String::as_str);
    text.or_else(|| said.downcast_ref::<&str>().copied()).unwrap_or("no message").to_string()
}
