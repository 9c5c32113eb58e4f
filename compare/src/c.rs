//! The library's calls as include/mf4.h declares them, for every program here that links the archive.
// Each of those programs leaves some calls out.
#![allow(dead_code)]

#[repr(C)]
#[derive(Clone, Copy)]
pub struct Header {
    pub id: u32,
    pub reserved0: u32,
    pub block_len: u64,
    pub link_count: u64,
}

#[repr(C)]
#[derive(Clone, Copy)]
pub struct HeaderReply {
    pub reply: u32,
    pub told: u64,
    pub header: Header,
}

#[repr(C)]
#[derive(Clone, Copy)]
pub struct WrittenReply {
    pub reply: u32,
    pub told: u64,
    pub count: u64,
}

/// Of a call that answers nothing else.
#[repr(C)]
#[derive(Clone, Copy)]
pub struct DoneReply {
    pub reply: u32,
    pub told: u64,
}

#[repr(C)]
#[derive(Clone, Copy)]
pub struct ListReply {
    pub reply: u32,
    pub told: u64,
    pub header: Header,
    pub next_addr: u64,
    pub data_links_at: u64,
    pub data_link_count: u64,
    pub flags: u8,
    pub reserved1: u32,
    pub data_block_count: u32,
    pub rest_at: u64,
    pub rest_count: u64,
}

#[repr(C)]
#[derive(Clone, Copy)]
pub struct Channel {
    pub data_type: u8,
    pub channel_type: u8,
    pub bit_offset: u8,
    pub byte_offset: u32,
    pub bit_count: u32,
    pub flags: u32,
    pub pos_invalidation_bit: u32,
    pub data_addr: u64,
}

#[repr(C)]
#[derive(Clone, Copy)]
pub struct Group {
    pub record_id_size: u64,
    pub data_bytes: u32,
    pub invalidation_bytes: u32,
}

#[repr(C)]
#[derive(Clone, Copy)]
pub struct ChannelBlock {
    pub header: Header,
    pub next_ch_addr: u64,
    pub component_addr: u64,
    pub name_addr: u64,
    pub source_addr: u64,
    pub conversion_addr: u64,
    pub unit_addr: u64,
    pub comment_addr: u64,
    pub more_links_at: u64,
    pub more_link_count: u64,
    pub channel: Channel,
    pub sync_type: u8,
    pub precision: u8,
    pub reserved1: u8,
    pub attachment_count: u16,
    pub min_raw_value: u64,
    pub max_raw_value: u64,
    pub lower_limit: u64,
    pub upper_limit: u64,
    pub lower_ext_limit: u64,
    pub upper_ext_limit: u64,
}

#[repr(C)]
#[derive(Clone, Copy)]
pub struct ChannelReply {
    pub reply: u32,
    pub told: u64,
    pub block: ChannelBlock,
}

/// The codes of `data_type`, as far as they are named here.
pub mod data_type {
    pub const UNSIGNED_LE: u8 = 0;
    pub const UNSIGNED_BE: u8 = 1;
    pub const SIGNED_LE: u8 = 2;
    pub const FLOAT_LE: u8 = 4;
    pub const FLOAT_BE: u8 = 5;
    pub const LATIN1: u8 = 6;
    pub const UTF8: u8 = 7;
    pub const UTF16_LE: u8 = 8;
    pub const BYTE_ARRAY: u8 = 10;
}

#[repr(C)]
#[derive(Clone, Copy)]
pub struct ValueReply {
    pub reply: u32,
    pub told: u64,
    pub kind: u32,
    pub number: u64,
    pub at: u64,
    pub length: u64,
}

#[repr(C)]
#[derive(Clone, Copy)]
pub struct ValidityReply {
    pub reply: u32,
    pub told: u64,
    pub is_valid: u8,
}

#[repr(C)]
#[derive(Clone, Copy)]
pub struct ValidValueReply {
    pub reply: u32,
    pub told: u64,
    pub kind: u32,
    pub is_valid: u8,
    pub number: u64,
    pub at: u64,
    pub length: u64,
}

impl ValidValueReply {
    pub fn value(&self) -> ValueReply {
        let ValidValueReply { reply, told, kind, number, at, length, .. } = *self;
        ValueReply { reply, told, kind, number, at, length }
    }
}

/// What `kind` says of a value.
pub mod kind {
    pub const NOTHING: u32 = 0;
    pub const UNSIGNED: u32 = 1;
    pub const SIGNED: u32 = 2;
    pub const DOUBLE: u32 = 3;
    pub const TEXT: u32 = 4;
    pub const BYTES: u32 = 5;
    pub const SAMPLE: u32 = 6;
    pub const STREAM: u32 = 7;
    pub const UNKNOWN: u32 = 8;
}

/// What is to be written, as `ValueReply` has it.
#[repr(C)]
#[derive(Clone, Copy)]
pub struct Number {
    pub kind: u32,
    pub number: u64,
}

#[repr(C)]
#[derive(Clone, Copy)]
pub struct OverlapReply {
    pub reply: u32,
    pub told: u64,
    pub found: u8,
    pub first: u64,
    pub second: u64,
}

#[repr(C)]
#[derive(Clone, Copy)]
pub struct TextReply {
    pub reply: u32,
    pub told: u64,
    pub count: u64,
    pub damaged: u8,
}

#[repr(C)]
#[derive(Clone, Copy)]
pub struct LengthReply {
    pub reply: u32,
    pub told: u64,
    pub length: u64,
}

#[repr(C)]
#[derive(Clone, Copy)]
pub struct Fragment {
    pub block_addr: u64,
    pub data_position: u64,
}

#[repr(C)]
#[derive(Clone, Copy)]
pub struct Table {
    pub fragment_count: u64,
    pub data_length: u64,
    pub fragments: [Fragment; 512],
}

#[repr(C)]
#[derive(Clone, Copy)]
pub struct PayloadReply {
    pub reply: u32,
    pub told: u64,
    pub kind: u32,
    pub is_valid: u8,
    pub number: u64,
    pub at: u64,
    pub length: u64,
    pub payload_length: u64,
}

extern "C" {
    pub fn mf4_version() -> u32;
    pub fn mf4_read_header(bytes: *const u8, bytes_len: usize) -> HeaderReply;
    pub fn mf4_write_header(header: Header, out: *mut u8, out_room: usize) -> WrittenReply;
    pub fn mf4_type_code(code: u8) -> u8;
    pub fn mf4_default_bits(code: u8) -> u32;
    pub fn mf4_read_list(bytes: *const u8, bytes_len: usize) -> ListReply;
    pub fn mf4_write_list_equal(
        next_addr: u64,
        links: *const u64,
        links_len: usize,
        length: u64,
        out: *mut u8,
        out_room: usize,
    ) -> WrittenReply;
    pub fn mf4_write_list_variable(
        next_addr: u64,
        links: *const u64,
        links_len: usize,
        offsets: *const u64,
        offsets_len: usize,
        out: *mut u8,
        out_room: usize,
    ) -> WrittenReply;
    pub fn mf4_read_channel(bytes: *const u8, bytes_len: usize) -> ChannelReply;
    pub fn mf4_write_channel(block: ChannelBlock, out: *mut u8, out_room: usize) -> WrittenReply;
    pub fn mf4_decode_value(record: *const u8, record_len: usize, record_id_size: u64, channel: Channel) -> ValueReply;
    pub fn mf4_check_validity(record: *const u8, record_len: usize, group: Group, channel: Channel) -> ValidityReply;
    pub fn mf4_decode_valid_value(
        record: *const u8,
        record_len: usize,
        group: Group,
        channel: Channel,
    ) -> ValidValueReply;
    pub fn mf4_check_validity_unbounded(record: *const u8, record_len: usize, group: Group, channel: Channel) -> u8;
    pub fn mf4_decode_valid_value_unbounded(
        record: *const u8,
        record_len: usize,
        group: Group,
        channel: Channel,
    ) -> ValidValueReply;
    pub fn mf4_decode_double_bits(record: *const u8, record_len: usize, record_id_size: u64, channel: Channel) -> u64;
    pub fn mf4_write_value(
        record_id_size: u64,
        channel: Channel,
        value: Number,
        record: *mut u8,
        record_len: usize,
    ) -> DoneReply;
    pub fn mf4_first_overlap(list: *const Channel, list_len: usize) -> OverlapReply;
    pub fn mf4_text_latin1(bytes: *const u8, bytes_len: usize, out: *mut u8, out_room: usize) -> TextReply;
    pub fn mf4_text_utf8(bytes: *const u8, bytes_len: usize, out: *mut u8, out_room: usize) -> TextReply;
    pub fn mf4_text_utf16_le(bytes: *const u8, bytes_len: usize, out: *mut u8, out_room: usize) -> TextReply;
    pub fn mf4_text_utf16_be(bytes: *const u8, bytes_len: usize, out: *mut u8, out_room: usize) -> TextReply;
    pub fn mf4_data_length(file: *const u8, file_len: usize, start: u64) -> LengthReply;
    pub fn mf4_read_record(
        file: *const u8,
        file_len: usize,
        start: u64,
        number: u64,
        record_size: u64,
        buffer: *mut u8,
        buffer_room: usize,
    ) -> DoneReply;
    pub fn mf4_record_value(
        file: *const u8,
        file_len: usize,
        start: u64,
        number: u64,
        record_size: u64,
        group: Group,
        channel: Channel,
        buffer: *mut u8,
        buffer_room: usize,
    ) -> ValidValueReply;
    pub fn mf4_open_table(file: *const u8, file_len: usize, start: u64, table: *mut Table) -> DoneReply;
    pub fn mf4_extend_table(file: *const u8, file_len: usize, block_addr: u64, table: *mut Table) -> DoneReply;
    pub fn mf4_shorten_table(table: *mut Table) -> DoneReply;
    pub fn mf4_table_record(
        file: *const u8,
        file_len: usize,
        table: *const Table,
        number: u64,
        record_size: u64,
        buffer: *mut u8,
        buffer_room: usize,
    ) -> DoneReply;
    pub fn mf4_table_value(
        file: *const u8,
        file_len: usize,
        table: *const Table,
        number: u64,
        record_size: u64,
        group: Group,
        channel: Channel,
        buffer: *mut u8,
        buffer_room: usize,
    ) -> ValidValueReply;
    pub fn mf4_record_payload(
        file: *const u8,
        file_len: usize,
        start: u64,
        number: u64,
        record_size: u64,
        group: Group,
        channel: Channel,
        record: *mut u8,
        record_room: usize,
        payload: *mut u8,
        payload_room: usize,
    ) -> PayloadReply;
}
