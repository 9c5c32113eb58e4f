//! The library's calls in safe forms that check what every call owes: a refusal leaves every lent byte and every field of
//! its answer alone, and an answer writes no byte behind those it reports.

use crate::answers::{ChannelBlock, Header, List, Place, Refusal, Reply, Text, Value};
use crate::c;
use crate::cases::{Channel, Encoding, Field};

/// An answer that no call may give, whatever its input: told in words.
pub type Owed<T> = Result<T, String>;

// ---- headers and types

pub fn read_header(bytes: &[u8]) -> Owed<Reply<Header>> {
    let answer = unsafe { c::mf4_read_header(start(bytes), bytes.len()) };
    let header = header_of(&answer.header);
    reply(answer.reply, answer.told, header == EMPTY_HEADER, header)
}

pub fn write_header(header: &Header, room: usize) -> Owed<Reply<Vec<u8>>> {
    written(room, |out, len| unsafe { c::mf4_write_header(header_to(header), out, len) })
}

pub fn type_code(code: u8) -> u8 {
    unsafe { c::mf4_type_code(code) }
}

pub fn default_bits(code: u8) -> u32 {
    unsafe { c::mf4_default_bits(code) }
}

const EMPTY_HEADER: Header = Header { id: [0; 4], reserved0: 0, block_len: 0, links_nr: 0 };

fn header_to(header: &Header) -> c::Header {
    c::Header {
        id: u32::from_le_bytes(header.id),
        reserved0: header.reserved0,
        block_len: header.block_len,
        link_count: header.links_nr,
    }
}

fn header_of(header: &c::Header) -> Header {
    Header {
        id: header.id.to_le_bytes(),
        reserved0: header.reserved0,
        block_len: header.block_len,
        links_nr: header.link_count,
    }
}

// ---- lists

pub fn read_list(bytes: &[u8]) -> Owed<Reply<List>> {
    let answer = unsafe { c::mf4_read_list(start(bytes), bytes.len()) };
    let list = List {
        header: header_of(&answer.header),
        next: answer.next_addr,
        links_at: answer.data_links_at,
        links: answer.data_link_count,
        flags: answer.flags,
        reserved1: answer.reserved1,
        data_block_nr: answer.data_block_count,
        rest_at: answer.rest_at,
        rest: answer.rest_count,
    };
    reply(answer.reply, answer.told, list == EMPTY_LIST, list)
}

const EMPTY_LIST: List = List {
    header: EMPTY_HEADER,
    next: 0,
    links_at: 0,
    links: 0,
    flags: 0,
    reserved1: 0,
    data_block_nr: 0,
    rest_at: 0,
    rest: 0,
};

pub fn write_list_equal(room: usize, next: u64, links: &[u64], length: u64) -> Owed<Reply<Vec<u8>>> {
    written(room, |out, len| unsafe { c::mf4_write_list_equal(next, start(links), links.len(), length, out, len) })
}

pub fn write_list_variable(room: usize, next: u64, links: &[u64], offsets: &[u64]) -> Owed<Reply<Vec<u8>>> {
    written(room, |out, len| unsafe {
        c::mf4_write_list_variable(next, start(links), links.len(), start(offsets), offsets.len(), out, len)
    })
}

// ---- channel blocks

pub fn read_channel(bytes: &[u8]) -> Owed<Reply<ChannelBlock>> {
    let answer = unsafe { c::mf4_read_channel(start(bytes), bytes.len()) };
    let block = block_of(&answer.block);
    reply(answer.reply, answer.told, block == EMPTY_BLOCK, block)
}

pub fn write_channel(block: &ChannelBlock, room: usize) -> Owed<Reply<Vec<u8>>> {
    written(room, |out, len| unsafe { c::mf4_write_channel(block_to(block), out, len) })
}

const EMPTY_BLOCK: ChannelBlock = ChannelBlock {
    header: EMPTY_HEADER,
    links: [0; 7],
    more_links_at: 0,
    more_links: 0,
    channel: Channel {
        data_type: 0,
        channel_type: 0,
        bit_offset: 0,
        byte_offset: 0,
        bit_count: 0,
        flags: 0,
        pos_invalidation_bit: 0,
        data: 0,
    },
    sync_type: 0,
    precision: 0,
    reserved1: 0,
    attachment_nr: 0,
    limits: [0; 6],
};

fn block_to(block: &ChannelBlock) -> c::ChannelBlock {
    let [next_ch_addr, component_addr, name_addr, source_addr, conversion_addr, unit_addr, comment_addr] = block.links;
    let [min_raw_value, max_raw_value, lower_limit, upper_limit, lower_ext_limit, upper_ext_limit] = block.limits;
    c::ChannelBlock {
        header: header_to(&block.header),
        next_ch_addr,
        component_addr,
        name_addr,
        source_addr,
        conversion_addr,
        unit_addr,
        comment_addr,
        more_links_at: block.more_links_at,
        more_link_count: block.more_links,
        channel: channel_to(&block.channel),
        sync_type: block.sync_type,
        precision: block.precision,
        reserved1: block.reserved1,
        attachment_count: block.attachment_nr,
        min_raw_value,
        max_raw_value,
        lower_limit,
        upper_limit,
        lower_ext_limit,
        upper_ext_limit,
    }
}

fn block_of(block: &c::ChannelBlock) -> ChannelBlock {
    ChannelBlock {
        header: header_of(&block.header),
        links: [
            block.next_ch_addr,
            block.component_addr,
            block.name_addr,
            block.source_addr,
            block.conversion_addr,
            block.unit_addr,
            block.comment_addr,
        ],
        more_links_at: block.more_links_at,
        more_links: block.more_link_count,
        channel: channel_of(&block.channel),
        sync_type: block.sync_type,
        precision: block.precision,
        reserved1: block.reserved1,
        attachment_nr: block.attachment_count,
        limits: [
            block.min_raw_value,
            block.max_raw_value,
            block.lower_limit,
            block.upper_limit,
            block.lower_ext_limit,
            block.upper_ext_limit,
        ],
    }
}

fn channel_to(channel: &Channel) -> c::Channel {
    c::Channel {
        data_type: channel.data_type,
        channel_type: channel.channel_type,
        bit_offset: channel.bit_offset,
        byte_offset: channel.byte_offset,
        bit_count: channel.bit_count,
        flags: channel.flags,
        pos_invalidation_bit: channel.pos_invalidation_bit,
        data_addr: channel.data,
    }
}

fn channel_of(channel: &c::Channel) -> Channel {
    Channel {
        data_type: channel.data_type,
        channel_type: channel.channel_type,
        bit_offset: channel.bit_offset,
        byte_offset: channel.byte_offset,
        bit_count: channel.bit_count,
        flags: channel.flags,
        pos_invalidation_bit: channel.pos_invalidation_bit,
        data: channel.data_addr,
    }
}

// ---- values

fn group_of(field: &Field) -> c::Group {
    let (data_bytes, invalidation_bytes) = (field.data_bytes, field.invalidation_bytes());
    c::Group { record_id_size: field.id_size, data_bytes, invalidation_bytes }
}

pub fn decode_value(field: &Field) -> Owed<Reply<Value>> {
    let record = &field.record;
    let answer = unsafe { c::mf4_decode_value(start(record), record.len(), field.id_size, channel_to(&field.channel)) };
    value_reply(&answer)
}

/// The field's value; and another record with that value in the same field, where it is a number of a record. Else nothing
/// may be written, and the refusal must be that of the field, or 25.
pub fn carried(field: &Field, into: &[u8]) -> Owed<Reply<(Value, Option<Vec<u8>>)>> {
    const OTHER_KIND: (u32, u64) = (25, 0);
    let value = decode_value(field)?;
    let is_number = field.channel.is_number() && !field.channel.is_payload();
    let (due, [kind, number, _]) = match &value {
        Err(refusal) => ((refusal.number, refusal.told), [u64::from(c::kind::UNSIGNED), 0, 0]),
        Ok(value) => (if is_number { (0, 0) } else { OTHER_KIND }, value.words()),
    };
    let (answer, record) = store(field, c::Number { kind: kind as u32, number }, into)?;
    if (answer.reply, answer.told) != due {
        return Err(format!("the reply {} and {} to a write, where {due:?} is due", answer.reply, answer.told));
    }
    Ok(value.map(|value| (value, is_number.then_some(record))))
}

fn store(field: &Field, number: c::Number, into: &[u8]) -> Owed<(c::DoneReply, Vec<u8>)> {
    let mut record = [into, &[0xA5; FENCE]].concat();
    let lent = if into.is_empty() { std::ptr::null_mut() } else { record.as_mut_ptr() };
    let channel = channel_to(&field.channel);
    let answer = unsafe { c::mf4_write_value(field.id_size, channel, number, lent, into.len()) };
    let behind = record.split_off(into.len());
    if behind != [0xA5; FENCE] || (answer.reply != 0 && record != into) {
        return Err("bytes changed that are not the record's, or by a refusal".to_string());
    }
    Ok((answer, record))
}

pub fn check_validity(field: &Field) -> Owed<Reply<bool>> {
    let (record, group, channel) = (&field.record, group_of(field), channel_to(&field.channel));
    let answer = unsafe { c::mf4_check_validity(start(record), record.len(), group, channel) };
    reply(answer.reply, answer.told, answer.is_valid == 0, flag(answer.is_valid)?)
}

pub fn check_validity_unbounded(field: &Field) -> Owed<bool> {
    let (record, group, channel) = (&field.record, group_of(field), channel_to(&field.channel));
    flag(unsafe { c::mf4_check_validity_unbounded(start(record), record.len(), group, channel) })
}

pub fn decode_valid_value(field: &Field) -> Owed<Reply<(Value, bool)>> {
    let (record, group, channel) = (&field.record, group_of(field), channel_to(&field.channel));
    valid_value_reply(unsafe { c::mf4_decode_valid_value(start(record), record.len(), group, channel) })
}

pub fn decode_valid_value_unbounded(field: &Field) -> Owed<Reply<(Value, bool)>> {
    let (record, group, channel) = (&field.record, group_of(field), channel_to(&field.channel));
    valid_value_reply(unsafe { c::mf4_decode_valid_value_unbounded(start(record), record.len(), group, channel) })
}

fn valid_value_reply(answer: c::ValidValueReply) -> Owed<Reply<(Value, bool)>> {
    let is_valid = flag(answer.is_valid)?;
    match value_reply(&answer.value())? {
        Ok(value) => Ok(Ok((value, is_valid))),
        Err(_) if is_valid => Err("a refusal that says something of validity".to_string()),
        Err(refusal) => Ok(Err(refusal)),
    }
}

pub fn decode_double(field: &Field) -> u64 {
    let record = &field.record;
    unsafe { c::mf4_decode_double_bits(start(record), record.len(), field.id_size, channel_to(&field.channel)) }
}

fn value_reply(answer: &c::ValueReply) -> Owed<Reply<Value>> {
    if answer.reply != 0 {
        let empty = fields(answer) == [0; 3] && answer.kind == c::kind::NOTHING;
        return reply(answer.reply, answer.told, empty, Value::Unknown);
    }
    reply(answer.reply, answer.told, false, value_of(answer)?)
}

/// The value of its kind. The fields of the other kinds hold nothing, so that an answer has one form only.
fn value_of(answer: &c::ValueReply) -> Owed<Value> {
    let place = Place { at: answer.at, length: answer.length };
    let value = match answer.kind {
        c::kind::UNSIGNED => Value::Unsigned(answer.number),
        c::kind::SIGNED => Value::Signed(answer.number as i64),
        c::kind::DOUBLE => Value::Double(answer.number),
        c::kind::TEXT => Value::Text(place),
        c::kind::BYTES => Value::Bytes(place),
        c::kind::SAMPLE => Value::Sample(place),
        c::kind::STREAM => Value::Stream(place),
        c::kind::UNKNOWN => Value::Unknown,
        other => return Err(format!("an answer of kind {other}")),
    };
    let [_, first, second] = value.words();
    let expected = match value {
        Value::Unsigned(_) | Value::Signed(_) | Value::Double(_) => [first, 0, 0],
        _ => [0, first, second],
    };
    if fields(answer) != expected {
        return Err(format!("a value of kind {} with fields of another kind: {:x?}", answer.kind, fields(answer)));
    }
    Ok(value)
}

fn fields(answer: &c::ValueReply) -> [u64; 3] {
    [answer.number, answer.at, answer.length]
}

// ---- texts

pub fn text(encoding: Encoding, bytes: &[u8], room: usize) -> Owed<Reply<Text>> {
    let call = match encoding {
        Encoding::Latin1 => c::mf4_text_latin1,
        Encoding::Utf8 => c::mf4_text_utf8,
        Encoding::Utf16Le => c::mf4_text_utf16_le,
        Encoding::Utf16Be => c::mf4_text_utf16_be,
    };
    let mut damaged = 0;
    let answer = written(room, |out, len| {
        let answer = unsafe { call(start(bytes), bytes.len(), out, len) };
        damaged = answer.damaged;
        c::WrittenReply { reply: answer.reply, told: answer.told, count: answer.count }
    })?;
    let damaged = flag(damaged)?;
    match answer {
        Ok(utf8) => Ok(Ok(Text { utf8, damaged })),
        Err(_) if damaged => Err("a refusal that says something of damage".to_string()),
        Err(refusal) => Ok(Err(refusal)),
    }
}

// ---- what every call owes

/// A slice's pointer; none where it has no elements, as the header allows.
fn start<T>(slice: &[T]) -> *const T {
    if slice.is_empty() {
        std::ptr::null()
    } else {
        slice.as_ptr()
    }
}

fn reply<T>(number: u32, told: u64, empty: bool, answer: T) -> Owed<Reply<T>> {
    match (number, told) {
        (0, 0) => Ok(Ok(answer)),
        (0, _) => Err(format!("an answer that tells {told}")),
        _ if !empty => Err(format!("a refusal with {number} that carries an answer")),
        _ => Ok(Err(Refusal { number, told })),
    }
}

fn flag(byte: u8) -> Owed<bool> {
    match byte {
        0 => Ok(false),
        1 => Ok(true),
        other => Err(format!("a flag of {other}")),
    }
}

/// Bytes behind the lent ones, where a write past the end would show.
const FENCE: usize = 32;

fn written(room: usize, call: impl FnOnce(*mut u8, usize) -> c::WrittenReply) -> Owed<Reply<Vec<u8>>> {
    let before: Vec<u8> = (0..room + FENCE).map(|i| (i as u8) ^ 0xA5).collect();
    let mut out = before.clone();
    let lent = if room == 0 { std::ptr::null_mut() } else { out.as_mut_ptr() };
    let answer = call(lent, room);
    let kept_from = if answer.reply == 0 { answer.count as usize } else { 0 };
    if kept_from > room {
        return Err(format!("{kept_from} bytes reported as written into {room}"));
    }
    if out[kept_from..] != before[kept_from..] {
        return Err("bytes changed that are not reported as written".to_string());
    }
    out.truncate(kept_from);
    reply(answer.reply, answer.told, answer.count == 0, out)
}
