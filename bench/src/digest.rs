//! How every side uses its answers: it adds them up, so that no answer can be left out and sides can be compared.

use std::hint::black_box;

pub fn sum(words: impl Iterator<Item = u64>) -> u64 {
    words.fold(0, u64::wrapping_add)
}

/// The length and both ends. The bytes between count as used too, so that no side can leave them unwritten.
pub fn of_bytes(bytes: &[u8]) -> u64 {
    let bytes = black_box(bytes);
    match (bytes.first(), bytes.last()) {
        (Some(first), Some(last)) => bytes.len() as u64 + (u64::from(*first) << 16) + (u64::from(*last) << 24),
        _ => 0,
    }
}

pub fn of_numbers(numbers: &[u64]) -> u64 {
    sum(black_box(numbers).iter().copied())
}

/// The same of numbers that still stand in their bytes.
pub fn of_number_bytes(bytes: &[u8]) -> u64 {
    sum(black_box(bytes).chunks_exact(8).map(word))
}

/// The first eight bytes.
pub fn word(bytes: &[u8]) -> u64 {
    u64::from_le_bytes(bytes[..8].try_into().expect("eight bytes"))
}
