//! Inputs, and their form as a line of text.

use crate::answers::{Answer, ChannelBlock, Header, Said};

/// A channel's description, as the library takes it.
#[derive(Debug, Clone, Copy, PartialEq, Eq)]
pub struct Channel {
    pub data_type: u8,
    pub channel_type: u8,
    pub bit_offset: u8,
    pub byte_offset: u32,
    pub bit_count: u32,
    pub flags: u32,
    pub pos_invalidation_bit: u32,
    pub data: u64,
}

impl Channel {
    /// The slice given is the channel's payload, not a record.
    pub fn is_payload(&self) -> bool {
        self.channel_type == 1 && self.data != 0
    }

    pub fn is_integer(&self) -> bool {
        self.data_type <= 3
    }

    pub fn is_signed(&self) -> bool {
        matches!(self.data_type, 2 | 3)
    }

    pub fn is_float(&self) -> bool {
        matches!(self.data_type, 4 | 5)
    }

    pub fn is_number(&self) -> bool {
        self.is_integer() || self.is_float()
    }

    pub fn is_little_endian(&self) -> bool {
        matches!(self.data_type, 0 | 2 | 4)
    }

    pub fn encoding(&self) -> Option<Encoding> {
        Encoding::of_type(self.data_type)
    }

    /// Texts, byte arrays and MIME: whole bytes, whatever the bit offset.
    pub fn is_in_whole_bytes(&self) -> bool {
        matches!(self.data_type, 6..=12)
    }

    /// The bytes that hold the field's bits: what numbers span.
    pub fn bits_span(&self) -> u64 {
        (u64::from(self.bit_offset) + u64::from(self.bit_count)).div_ceil(8).max(1)
    }

    /// The bytes that the field spans in a record.
    pub fn span(&self) -> u64 {
        if self.is_in_whole_bytes() {
            u64::from(self.bit_count / 8)
        } else {
            self.bits_span()
        }
    }
}

/// A field and what it is read from. The number of data bytes matters for validity only.
#[derive(Debug, Clone, PartialEq, Eq)]
pub struct Field {
    pub record: Vec<u8>,
    pub id_size: u64,
    pub data_bytes: u32,
    pub channel: Channel,
}

impl Field {
    /// The bytes that the record has behind its id and its data, which lines do not tell.
    pub fn invalidation_bytes(&self) -> u32 {
        (self.record.len() as u64).saturating_sub(self.id_size).saturating_sub(u64::from(self.data_bytes)) as u32
    }

    /// The same field of another record.
    pub fn with_record(&self, record: &[u8]) -> Field {
        Field { record: record.to_vec(), ..self.clone() }
    }

    /// A payload does not depend on places in a record, which may lie where the crate's sums stop it.
    pub fn without_places(&self) -> Field {
        let mut field = self.clone();
        if field.channel.is_payload() {
            field.id_size = 0;
            field.channel.byte_offset = 0;
        }
        field
    }
}

#[derive(Debug, Clone, Copy, PartialEq, Eq)]
pub enum Encoding {
    Latin1,
    Utf8,
    Utf16Le,
    Utf16Be,
}

impl Encoding {
    pub const ALL: [Encoding; 4] = [Encoding::Latin1, Encoding::Utf8, Encoding::Utf16Le, Encoding::Utf16Be];

    pub fn type_code(self) -> u8 {
        match self {
            Encoding::Latin1 => 6,
            Encoding::Utf8 => 7,
            Encoding::Utf16Le => 8,
            Encoding::Utf16Be => 9,
        }
    }

    pub fn of_type(code: u8) -> Option<Encoding> {
        Encoding::ALL.into_iter().find(|encoding| encoding.type_code() == code)
    }

    /// How many bytes stand before the text's stop: the first NUL byte, or the first zero unit of the whole units.
    pub fn stop(self, bytes: &[u8]) -> usize {
        match self {
            Encoding::Latin1 | Encoding::Utf8 => bytes.iter().position(|&b| b == 0).unwrap_or(bytes.len()),
            Encoding::Utf16Le | Encoding::Utf16Be => {
                let units = bytes.len() / 2;
                2 * (0..units).position(|i| bytes[2 * i] == 0 && bytes[2 * i + 1] == 0).unwrap_or(units)
            }
        }
    }
}

#[derive(Debug, Clone, PartialEq, Eq)]
pub enum Case {
    HeaderRead { bytes: Vec<u8> },
    HeaderWrite { header: Header, room: usize },
    Type { code: u8 },
    ListRead { bytes: Vec<u8> },
    ListWriteEqual { room: usize, next: u64, length: u64, links: Vec<u64> },
    ListWriteVariable { room: usize, next: u64, links: Vec<u64>, offsets: Vec<u64> },
    ChannelRead { bytes: Vec<u8> },
    ChannelWrite { block: ChannelBlock, room: usize },
    Value(Field),
    Validity(Field),
    Both(Field),
    Double(Field),
    Text { encoding: Encoding, bytes: Vec<u8>, room: usize },
    Carried { field: Field, into: Vec<u8> },
}

pub const KINDS: [&str; 14] = [
    "type",
    "header-read",
    "header-write",
    "list-read",
    "list-write-equal",
    "list-write-variable",
    "channel-read",
    "channel-write",
    "value",
    "validity",
    "both",
    "double",
    "text",
    "carried",
];

impl Case {
    pub fn kind(&self) -> &'static str {
        match self {
            Case::Type { .. } => "type",
            Case::HeaderRead { .. } => "header-read",
            Case::HeaderWrite { .. } => "header-write",
            Case::ListRead { .. } => "list-read",
            Case::ListWriteEqual { .. } => "list-write-equal",
            Case::ListWriteVariable { .. } => "list-write-variable",
            Case::ChannelRead { .. } => "channel-read",
            Case::ChannelWrite { .. } => "channel-write",
            Case::Value(_) => "value",
            Case::Validity(_) => "validity",
            Case::Both(_) => "both",
            Case::Double(_) => "double",
            Case::Text { .. } => "text",
            Case::Carried { .. } => "carried",
        }
    }

    /// Of a sample are the kinds for which the crate alone is the measure.
    pub fn is_of_sample(&self) -> bool {
        !matches!(self, Case::ChannelRead { .. } | Case::ChannelWrite { .. } | Case::Carried { .. })
    }

    pub fn line(&self) -> String {
        let mut line = Line::new(self.kind());
        match self {
            Case::HeaderRead { bytes } | Case::ListRead { bytes } | Case::ChannelRead { bytes } => line.bytes(bytes),
            Case::HeaderWrite { header, room } => {
                line.numbers(&header_words(header));
                line.number(*room as u64);
            }
            Case::Type { code } => line.number(u64::from(*code)),
            Case::ListWriteEqual { room, next, length, links } => {
                line.numbers(&[*room as u64, *next, *length]);
                line.counted(links);
            }
            Case::ListWriteVariable { room, next, links, offsets } => {
                line.numbers(&[*room as u64, *next]);
                line.counted(links);
                line.counted(offsets);
            }
            Case::ChannelWrite { block, room } => {
                line.channel_block(block);
                line.number(*room as u64);
            }
            Case::Value(field) | Case::Validity(field) | Case::Both(field) | Case::Double(field) => line.field(field),
            Case::Text { encoding, bytes, room } => {
                line.number(u64::from(encoding.type_code()));
                line.bytes(bytes);
                line.number(*room as u64);
            }
            Case::Carried { field, into } => {
                line.field(field);
                line.bytes(into);
            }
        }
        line.0
    }

    /// The case of a line; an answer after `=` is left alone.
    pub fn parse(line: &str) -> Option<Case> {
        let input = line.split('=').next()?;
        let mut words = Words(input.split_whitespace());
        let case = match words.word()? {
            "type" => Case::Type { code: words.small()? },
            "header-read" => Case::HeaderRead { bytes: words.bytes()? },
            "header-write" => Case::HeaderWrite { header: words.header()?, room: words.small()? },
            "list-read" => Case::ListRead { bytes: words.bytes()? },
            "list-write-equal" => Case::ListWriteEqual {
                room: words.small()?,
                next: words.number()?,
                length: words.number()?,
                links: words.counted()?,
            },
            "list-write-variable" => Case::ListWriteVariable {
                room: words.small()?,
                next: words.number()?,
                links: words.counted()?,
                offsets: words.counted()?,
            },
            "channel-read" => Case::ChannelRead { bytes: words.bytes()? },
            "channel-write" => Case::ChannelWrite { block: words.channel_block()?, room: words.small()? },
            "value" => Case::Value(words.field()?),
            "validity" => Case::Validity(words.field()?),
            "both" => Case::Both(words.field()?),
            "double" => Case::Double(words.field()?),
            "text" => {
                Case::Text { encoding: Encoding::of_type(words.small()?)?, bytes: words.bytes()?, room: words.small()? }
            }
            "carried" => Case::Carried { field: words.field()?, into: words.bytes()? },
            _ => return None,
        };
        words.word().is_none().then_some(case)
    }
}

impl Answer {
    pub fn line(&self) -> String {
        let mut line = Line::new("=");
        match self {
            Answer::Type { code, default_bits } => line.numbers(&[u64::from(*code), u64::from(*default_bits)]),
            Answer::Header(Ok(header)) => {
                line.numbers(&[0, 0]);
                line.numbers(&header_words(header));
            }
            Answer::Written(Ok(bytes)) => {
                line.numbers(&[0, 0]);
                line.bytes(bytes);
            }
            Answer::List(Ok(list)) => {
                line.numbers(&[0, 0]);
                line.numbers(&header_words(&list.header));
                line.numbers(&[list.next, list.links_at, list.links]);
                line.numbers(&[u64::from(list.flags), u64::from(list.reserved1), u64::from(list.data_block_nr)]);
                line.numbers(&[list.rest_at, list.rest]);
            }
            Answer::Channel(Ok(block)) => {
                line.numbers(&[0, 0]);
                line.channel_block(block);
            }
            Answer::Value(Ok(value)) => {
                line.numbers(&[0, 0]);
                line.numbers(&value.words());
            }
            Answer::Both(Ok((value, is_valid))) => {
                line.numbers(&[0, 0]);
                line.numbers(&value.words());
                line.number(u64::from(*is_valid));
            }
            Answer::Text(Ok(text)) => {
                line.numbers(&[0, 0, u64::from(text.damaged)]);
                line.bytes(&text.utf8);
            }
            Answer::Validity(is_valid) => line.number(u64::from(*is_valid)),
            Answer::Double(bits) => line.number(*bits),
            Answer::Header(Err(refusal))
            | Answer::Written(Err(refusal))
            | Answer::List(Err(refusal))
            | Answer::Channel(Err(refusal))
            | Answer::Value(Err(refusal))
            | Answer::Both(Err(refusal))
            | Answer::Text(Err(refusal)) => line.numbers(&[u64::from(refusal.number), refusal.told]),
        }
        line.0
    }
}

impl Said {
    pub fn line(&self) -> String {
        match self {
            Said::Answer(answer) => answer.line(),
            Said::NoValue => "= -".to_string(),
        }
    }
}

fn header_words(header: &Header) -> [u64; 4] {
    let id = u32::from_le_bytes(header.id);
    [u64::from(id), u64::from(header.reserved0), header.block_len, header.links_nr]
}

/// Words with a blank before each: numbers in hexadecimal, bytes as pairs of digits, `-` for no bytes.
struct Line(String);

impl Line {
    fn new(first: &str) -> Line {
        Line(first.to_string())
    }

    fn number(&mut self, number: u64) {
        self.0 += &format!(" {number:x}");
    }

    fn numbers(&mut self, numbers: &[u64]) {
        numbers.iter().for_each(|&number| self.number(number));
    }

    fn counted(&mut self, numbers: &[u64]) {
        self.number(numbers.len() as u64);
        self.numbers(numbers);
    }

    fn bytes(&mut self, bytes: &[u8]) {
        self.0 += " ";
        if bytes.is_empty() {
            self.0 += "-";
        }
        bytes.iter().for_each(|byte| self.0 += &format!("{byte:02x}"));
    }

    fn field(&mut self, field: &Field) {
        self.bytes(&field.record);
        self.numbers(&[field.id_size, u64::from(field.data_bytes)]);
        self.channel(&field.channel);
    }

    fn channel(&mut self, channel: &Channel) {
        self.numbers(&[channel.data_type, channel.channel_type, channel.bit_offset].map(u64::from));
        self.numbers(&[channel.byte_offset, channel.bit_count].map(u64::from));
        self.numbers(&[channel.flags, channel.pos_invalidation_bit].map(u64::from));
        self.number(channel.data);
    }

    fn channel_block(&mut self, block: &ChannelBlock) {
        self.numbers(&header_words(&block.header));
        self.numbers(&block.links);
        self.numbers(&[block.more_links_at, block.more_links]);
        self.channel(&block.channel);
        self.numbers(&[block.sync_type, block.precision, block.reserved1].map(u64::from));
        self.number(u64::from(block.attachment_nr));
        self.numbers(&block.limits);
    }
}

struct Words<'a>(std::str::SplitWhitespace<'a>);

impl<'a> Words<'a> {
    fn word(&mut self) -> Option<&'a str> {
        self.0.next()
    }

    fn number(&mut self) -> Option<u64> {
        u64::from_str_radix(self.word()?, 16).ok()
    }

    fn small<T: TryFrom<u64>>(&mut self) -> Option<T> {
        T::try_from(self.number()?).ok()
    }

    fn counted(&mut self) -> Option<Vec<u64>> {
        let count = self.number()?;
        (0..count).map(|_| self.number()).collect()
    }

    fn array<const N: usize>(&mut self) -> Option<[u64; N]> {
        let numbers: Option<Vec<u64>> = (0..N).map(|_| self.number()).collect();
        numbers?.try_into().ok()
    }

    fn bytes(&mut self) -> Option<Vec<u8>> {
        let word = self.word()?;
        if word == "-" {
            return Some(Vec::new());
        }
        let pairs = word.as_bytes().chunks(2);
        pairs.map(|pair| u8::from_str_radix(std::str::from_utf8(pair).ok()?, 16).ok()).collect()
    }

    fn header(&mut self) -> Option<Header> {
        Some(Header {
            id: self.small::<u32>()?.to_le_bytes(),
            reserved0: self.small()?,
            block_len: self.number()?,
            links_nr: self.number()?,
        })
    }

    fn field(&mut self) -> Option<Field> {
        Some(Field {
            record: self.bytes()?,
            id_size: self.number()?,
            data_bytes: self.small()?,
            channel: self.channel()?,
        })
    }

    fn channel(&mut self) -> Option<Channel> {
        Some(Channel {
            data_type: self.small()?,
            channel_type: self.small()?,
            bit_offset: self.small()?,
            byte_offset: self.small()?,
            bit_count: self.small()?,
            flags: self.small()?,
            pos_invalidation_bit: self.small()?,
            data: self.number()?,
        })
    }

    fn channel_block(&mut self) -> Option<ChannelBlock> {
        Some(ChannelBlock {
            header: self.header()?,
            links: self.array()?,
            more_links_at: self.number()?,
            more_links: self.number()?,
            channel: self.channel()?,
            sync_type: self.small()?,
            precision: self.small()?,
            reserved1: self.small()?,
            attachment_nr: self.small()?,
            limits: self.array()?,
        })
    }
}
