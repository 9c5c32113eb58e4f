//! mf4-rs 3.8.0 as far as it is ported: each module is the crate's own file, and only what those files name but never
//! call here is replaced by a stand-in.
#![allow(warnings)]

pub mod error {
    include!(concat!(env!("MF4_RS_SRC"), "/error.rs"));
}

pub mod blocks {
    pub mod common {
        include!(concat!(env!("MF4_RS_SRC"), "/blocks/common.rs"));
    }
    pub mod data_list_block {
        include!(concat!(env!("MF4_RS_SRC"), "/blocks/data_list_block.rs"));
    }
    pub mod channel_block {
        include!(concat!(env!("MF4_RS_SRC"), "/blocks/channel_block.rs"));
    }
    pub mod text_block {
        include!(concat!(env!("MF4_RS_SRC"), "/blocks/text_block.rs"));
    }
    pub mod metadata_block {
        include!(concat!(env!("MF4_RS_SRC"), "/blocks/metadata_block.rs"));
    }

    /// Stand-in: a channel may hold a conversion, and none is ever attached in this comparison.
    pub mod conversion {
        use crate::error::MdfError;
        use crate::parsing::decoder::DecodedValue;

        #[derive(Debug, Clone)]
        pub struct ConversionBlock;

        impl ConversionBlock {
            pub fn from_bytes(_: &[u8]) -> Result<Self, MdfError> {
                unreachable!("conversions are not compared")
            }

            pub fn resolve_formula(&mut self, _: &[u8]) -> Result<(), MdfError> {
                unreachable!("conversions are not compared")
            }

            pub fn apply_decoded(&self, _: DecodedValue, _: &[u8]) -> Result<DecodedValue, MdfError> {
                unreachable!("conversions are not compared")
            }
        }
    }
}

pub mod parsing {
    pub mod decoder {
        include!(concat!(env!("MF4_RS_SRC"), "/parsing/decoder.rs"));
    }
}

/// Stand-in: names the one call that `read_string_block_via_reader` makes.
pub mod index {
    pub trait ByteRangeReader {
        type Error;

        fn read_range_optional(&mut self, address: u64, length: u64) -> Result<Option<Vec<u8>>, Self::Error>;
    }
}
