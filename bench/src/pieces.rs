//! What the rows read.

use std::hint::black_box;
use std::ops::Range;

use crate::digest;

/// Pieces of one size behind each other: records, texts, headers, channel blocks or lists.
#[derive(Clone, Copy)]
pub struct Pieces<'a> {
    pub bytes: &'a [u8],
    pub size: usize,
}

impl<'a> Pieces<'a> {
    pub fn part(self, items: Range<usize>) -> Pieces<'a> {
        Pieces { bytes: &self.bytes[items.start * self.size..items.end * self.size], size: self.size }
    }

    /// The loop of every side. The compiler does not know the size.
    #[inline(always)]
    pub fn sum(self, answer: impl FnMut(&'a [u8]) -> u64) -> u64 {
        digest::sum(self.bytes.chunks_exact(black_box(self.size)).map(answer))
    }
}

/// What a list is written from.
pub struct Numbers {
    pub next: u64,
    pub links: Vec<u64>,
    pub offsets: Vec<u64>,
    pub length: u64,
}
