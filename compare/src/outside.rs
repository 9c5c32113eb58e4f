//! What lies outside the domain where the crate and the library must agree, and the answer that is due there. Each
//! difference has a row in docs/DIFFERENCES.md.

use std::cmp::Ordering;

use crate::answers::{
    field_outside, into_room, too_few_bytes, Answer, ChannelBlock, Header, Refusal, Reply, Value, BAD_BIT_OFFSET,
    BAD_FLOAT_WIDTH, BIT_OUTSIDE, INTEGER_TOO_WIDE, NAN_BITS, NO_BITS, OTHER_LENGTH, TOO_FEW_LINKS, UNWRITABLE_LIST,
};
use crate::cases::{Case, Channel, Field};
use crate::original;

#[derive(Debug, Clone, Copy, PartialEq, Eq, PartialOrd, Ord)]
pub enum Difference {
    NineByteInteger,
    WideInteger,
    WrappingSum,
    IdNotUtf8,
    UnwritableList,
    FewLinks,
    ManyLinks,
    OtherHeader,
    ReservedOrAttached,
    UnknownType,
}

impl Difference {
    pub fn name(self) -> &'static str {
        match self {
            Difference::NineByteInteger => "integer of 1 to 64 bits that spans 9 bytes",
            Difference::WideInteger => "integer over 64 bits",
            Difference::WrappingSum => "sum of sizes from 2^64 on",
            Difference::IdNotUtf8 => "header id that is not UTF-8",
            Difference::UnwritableList => "list refused with 5",
            Difference::FewLinks => "channel block with fewer than 8 links",
            Difference::ManyLinks => "channel block with more than 8 links",
            Difference::OtherHeader => "channel block written with another header",
            Difference::ReservedOrAttached => "channel block written with a reserved byte or attachments",
            Difference::UnknownType => "code of an unknown type",
        }
    }
}

type Due<T> = Option<(Difference, T)>;

/// The difference that an input falls under and the answer due to it; nothing inside the domain.
pub fn due(case: &Case) -> Due<Answer> {
    match case {
        Case::ListRead { .. } | Case::Text { .. } => None,
        Case::Type { code } => kept_code(*code),
        Case::HeaderRead { bytes } => raw_header(bytes),
        Case::HeaderWrite { header, room } => raw_header_bytes(header, *room),
        Case::ListWriteEqual { links, .. } => unwritable(links.len(), links.len()),
        Case::ListWriteVariable { links, offsets, .. } => unwritable(links.len(), offsets.len()),
        Case::ChannelRead { bytes } => answering(read_channel(bytes), Answer::Channel),
        Case::ChannelWrite { block, room } => plain_channel(block, *room),
        Case::Value(field) | Case::Carried { field, .. } => answering(value(field), Answer::Value),
        Case::Validity(field) => answering(validity(field), Answer::Validity),
        Case::Double(field) => answering(double(field), Answer::Double),
        Case::Both(field) => answering(both(field), Answer::Both),
    }
}

fn answering<T>(due: Due<T>, form: fn(T) -> Answer) -> Due<Answer> {
    due.map(|(difference, answer)| (difference, form(answer)))
}

// ---- types

/// Each code above it is an unknown type, for which the crate gives 0 and the library the code.
const LAST_TYPE: u8 = 16;

fn kept_code(code: u8) -> Due<Answer> {
    let answer = Answer::Type { code, default_bits: original::default_bits(code) };
    (code > LAST_TYPE).then_some((Difference::UnknownType, answer))
}

// ---- blocks

fn raw_header(bytes: &[u8]) -> Due<Answer> {
    let id: [u8; 4] = bytes.get(..4)?.try_into().ok()?;
    if bytes.len() < 24 || std::str::from_utf8(&id).is_ok() {
        return None;
    }
    let header = Header {
        id,
        reserved0: u32::from_le_bytes(bytes[4..8].try_into().ok()?),
        block_len: u64::from_le_bytes(bytes[8..16].try_into().ok()?),
        links_nr: u64::from_le_bytes(bytes[16..24].try_into().ok()?),
    };
    Some((Difference::IdNotUtf8, Answer::Header(Ok(header))))
}

fn raw_header_bytes(header: &Header, room: usize) -> Due<Answer> {
    if std::str::from_utf8(&header.id).is_ok() {
        return None;
    }
    let mut bytes = header.id.to_vec();
    bytes.extend(header.reserved0.to_le_bytes());
    bytes.extend(header.block_len.to_le_bytes());
    bytes.extend(header.links_nr.to_le_bytes());
    Some((Difference::IdNotUtf8, Answer::Written(into_room(bytes, room))))
}

const MOST_LINKS: usize = 4096;

fn unwritable(links: usize, offsets: usize) -> Due<Answer> {
    let refused = links != offsets || links > MOST_LINKS;
    refused.then_some((Difference::UnwritableList, Answer::Written(Err(UNWRITABLE_LIST))))
}

// ---- channel blocks

const LINKS: u64 = 8;
/// Where the type stands in a block of 8 links.
const TYPE_AT: usize = 90;

fn read_channel(bytes: &[u8]) -> Due<Reply<ChannelBlock>> {
    let links = u64::from_le_bytes(bytes.get(16..24)?.try_into().ok()?);
    if !bytes.starts_with(b"##CN") {
        return None;
    }
    match links.cmp(&LINKS) {
        Ordering::Less => Some((Difference::FewLinks, Err(TOO_FEW_LINKS))),
        Ordering::Greater => Some((Difference::ManyLinks, behind_all_links(bytes, links)?)),
        Ordering::Equal if *bytes.get(TYPE_AT)? > LAST_TYPE => Some((Difference::UnknownType, with_code(bytes)?)),
        Ordering::Equal => None,
    }
}

/// What the crate reads of a block of 8 links, and for an unknown type the code that stands in the block.
fn with_code(bytes: &[u8]) -> Option<Reply<ChannelBlock>> {
    let read = original::read_channel(bytes).ok()?;
    Some(read.map(|block| match bytes[TYPE_AT] {
        code if code > LAST_TYPE => ChannelBlock { channel: Channel { data_type: code, ..block.channel }, ..block },
        _ => block,
    }))
}

/// The fields behind all the links are those that the crate reads where the links behind the eighth are taken out.
fn behind_all_links(bytes: &[u8], links: u64) -> Option<Reply<ChannelBlock>> {
    let needed = 24 + 8 * u128::from(links) + 72;
    if (bytes.len() as u128) < needed {
        return Some(Err(too_few_bytes(u64::try_from(needed).unwrap_or(u64::MAX))));
    }
    let fields_at = 24 + 8 * links as usize;
    let eight_links = [&bytes[..16], &LINKS.to_le_bytes(), &bytes[24..88], &bytes[fields_at..]].concat();
    Some(with_code(&eight_links)?.map(|block| ChannelBlock {
        header: Header { links_nr: links, ..block.header },
        more_links: links - LINKS,
        ..block
    }))
}

/// What is written is what the crate writes with the one header, no reserved byte and no attachments, and for an
/// unknown type the code that is given.
fn plain_channel(block: &ChannelBlock, room: usize) -> Due<Answer> {
    let header = Header { id: *b"##CN", reserved0: 0, block_len: 160, links_nr: LINKS };
    let plain = ChannelBlock { header, reserved1: 0, attachment_nr: 0, ..*block };
    let code = block.channel.data_type;
    let difference = if block.header != header {
        Difference::OtherHeader
    } else if *block != plain {
        Difference::ReservedOrAttached
    } else if code > LAST_TYPE {
        Difference::UnknownType
    } else {
        return None;
    };
    let mut written = original::write_channel(&plain, room).ok()?;
    match &mut written {
        Answer::Written(Ok(bytes)) if code > LAST_TYPE => bytes[TYPE_AT] = code,
        _ => {}
    }
    Some((difference, written))
}

// ---- values

fn value(field: &Field) -> Due<Reply<Value>> {
    Some((value_difference(field)?, decoded(field)?))
}

fn value_difference(field: &Field) -> Option<Difference> {
    let wraps = if field.channel.is_payload() {
        passes_64_bits(&start_terms(field))
    } else {
        passes_64_bits(&end_terms(field, field.channel.span()))
    };
    if wraps {
        return Some(Difference::WrappingSum);
    }
    integer_difference(&field.channel)
}

/// The value, or the cause for which there is none; inside the domain too, where the crate tells none.
pub fn decoded(field: &Field) -> Option<Reply<Value>> {
    if let Some(refusal) = field_refusal(field) {
        return Some(Err(refusal));
    }
    let value = match integer_difference(&field.channel) {
        Some(difference) => integer(field, difference)?.value(),
        None => original::value(&field.without_places()).ok()??,
    };
    Some(Ok(value))
}

/// The cause for which a field has no value: the first that holds, in the order of the rules.
fn field_refusal(field: &Field) -> Option<Refusal> {
    let channel = &field.channel;
    let end = end(field);
    let tests = [
        (channel.is_number() && channel.bit_count == 0, NO_BITS),
        (channel.is_number() && channel.bit_offset > 7, BAD_BIT_OFFSET),
        (channel.is_integer() && channel.bit_count > 64, INTEGER_TOO_WIDE),
        (end > field.record.len() as u128, field_outside(u64::try_from(end).unwrap_or(u64::MAX))),
        (channel.is_float() && !matches!(channel.bit_count, 32 | 64), BAD_FLOAT_WIDTH),
    ];
    tests.into_iter().find(|(holds, _)| *holds).map(|(_, refusal)| refusal)
}

/// Where the field ends in the slice given. Of a payload, all but a number takes the whole.
fn end(field: &Field) -> u128 {
    match (field.channel.is_payload(), field.channel.is_number()) {
        (false, _) => sum(&end_terms(field, field.channel.span())),
        (true, true) => u128::from(field.channel.bits_span()),
        (true, false) => field.record.len() as u128,
    }
}

fn double(field: &Field) -> Due<u64> {
    let wraps = passes_64_bits(&start_terms(field))
        || !field.channel.is_payload() && passes_64_bits(&end_terms(field, field.channel.bits_span()));
    if wraps {
        return Some((Difference::WrappingSum, NAN_BITS));
    }
    let difference = integer_difference(&field.channel)?;
    if field.channel.is_payload() {
        return Some((difference, NAN_BITS));
    }
    Some((difference, integer(field, difference).map_or(NAN_BITS, |integer| integer.double_bits())))
}

fn validity(field: &Field) -> Due<bool> {
    let terms = [field.id_size, u64::from(field.data_bytes), u64::from(field.channel.pos_invalidation_bit / 8)];
    let all_invalid = field.channel.flags & 1 != 0;
    passes_64_bits(&terms).then_some((Difference::WrappingSum, !all_invalid))
}

fn both(field: &Field) -> Due<Reply<(Value, bool)>> {
    let validity = validity(field);
    let difference = value_difference(field).or(validity.map(|(difference, _)| difference))?;
    let is_valid = match validity {
        Some((_, is_valid)) => is_valid,
        None => original::validity(field).ok()?,
    };
    Some((difference, decoded(field)?.map(|value| (value, is_valid))))
}

/// What becomes of an answer of the crate's reading where the invalidation bytes have an end.
pub fn bounded<T>(field: &Field, answer: T) -> Reply<T> {
    let (bytes, channel) = (u64::from(field.invalidation_bytes()), &field.channel);
    let has_bit = channel.flags & 3 == 2;
    if sum(&[field.id_size, u64::from(field.data_bytes), bytes]) != field.record.len() as u128 {
        Err(OTHER_LENGTH)
    } else if has_bit && u64::from(channel.pos_invalidation_bit) >= 8 * bytes {
        Err(BIT_OUTSIDE)
    } else {
        Ok(answer)
    }
}

fn start_terms(field: &Field) -> [u64; 2] {
    [field.id_size, u64::from(field.channel.byte_offset)]
}

fn end_terms(field: &Field, span: u64) -> [u64; 3] {
    [field.id_size, u64::from(field.channel.byte_offset), span]
}

fn passes_64_bits(terms: &[u64]) -> bool {
    sum(terms) > u128::from(u64::MAX)
}

fn sum(terms: &[u64]) -> u128 {
    terms.iter().map(|&term| u128::from(term)).sum()
}

// ---- integers past 64 bits

fn integer_difference(channel: &Channel) -> Option<Difference> {
    let has_value = channel.is_integer() && channel.bit_count > 0 && channel.bit_offset <= 7;
    match (has_value, channel.bit_count, channel.bits_span()) {
        (false, ..) => None,
        (true, 65.., _) => Some(Difference::WideInteger),
        (true, _, 9) => Some(Difference::NineByteInteger),
        _ => None,
    }
}

enum Integer {
    Unsigned(u64),
    Signed(i64),
}

impl Integer {
    fn value(&self) -> Value {
        match *self {
            Integer::Unsigned(value) => Value::Unsigned(value),
            Integer::Signed(value) => Value::Signed(value),
        }
    }

    fn double_bits(&self) -> u64 {
        match *self {
            Integer::Unsigned(value) => value as f64,
            Integer::Signed(value) => value as f64,
        }
        .to_bits()
    }
}

/// The true field of nine bytes, where the record has them; a wider one has no 64-bit number.
fn integer(field: &Field, difference: Difference) -> Option<Integer> {
    if difference == Difference::WideInteger {
        return None;
    }
    let channel = &field.channel;
    let start = if channel.is_payload() { 0 } else { usize::try_from(start_terms(field).iter().sum::<u64>()).ok()? };
    let span = field.record.get(start..)?.get(..channel.bits_span() as usize)?;
    let join = |joined: u128, byte: &u8| joined << 8 | u128::from(*byte);
    let joined = if channel.is_little_endian() { span.iter().rev().fold(0, join) } else { span.iter().fold(0, join) };
    let above = 64 - channel.bit_count;
    let at_the_top = ((joined >> channel.bit_offset) as u64) << above;
    Some(if channel.is_signed() {
        Integer::Signed(at_the_top as i64 >> above)
    } else {
        Integer::Unsigned(at_the_top >> above)
    })
}
