//! The crate as it is shipped, compiled apart from this program, so that each of its functions is called and none is
//! inlined here. One is marked to be inlined always; it gets a function of its own.

pub use mf4_rs::{blocks, parsing};

use blocks::channel_block::ChannelBlock;
use parsing::decoder::decode_f64_from_record;

// Exported, so that the compiler can assume nothing of the arguments.
#[no_mangle]
#[inline(never)]
pub fn border_double(record: &[u8], id_size: usize, channel: &ChannelBlock) -> f64 {
    decode_f64_from_record(record, id_size, channel)
}

use border_double as double;

#[path = "original.rs"]
mod original;
pub use original::*;
