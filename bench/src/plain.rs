//! The plain stores of store.c, which is compiled apart.

use std::hint::black_box;

/// Puts a number where a field begins.
pub type Store = unsafe extern "C" fn(field: *mut u8, number: u64);

extern "C" {
    pub fn store_u8(field: *mut u8, number: u64);
    pub fn store_u16(field: *mut u8, number: u64);
    pub fn store_u32(field: *mut u8, number: u64);
    pub fn store_u64(field: *mut u8, number: u64);
    pub fn store_f32(field: *mut u8, number: u64);
    pub fn store_12_bits_from_4(field: *mut u8, number: u64);
}

/// The compiler knows neither the size nor the place. No reply is given.
pub fn numbers_written(store: Store, records: &mut [u8], size: usize, at: usize, numbers: &[u64]) -> u64 {
    let (store, size, at) = black_box((store, size, at));
    for (record, number) in records.chunks_exact_mut(size).zip(numbers) {
        unsafe { store(record[at..].as_mut_ptr(), *number) };
    }
    0
}
