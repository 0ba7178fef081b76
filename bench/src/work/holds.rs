//! Maps that are filled and held while the memory in use is noted.
use super::Filled;
use super::fills::{distinct, few, grouped};
use crate::multimap::Multimap;
use std::hint::black_box;

/// A block of so many bytes, which is freed at once, tells `heap.c` to note what is in use. Nothing
/// else asks for just as many.
const MARK: usize = 77_777;

#[inline(never)]
pub fn mark() {
    drop(black_box(Vec::<u8>::with_capacity(black_box(MARK))));
}

fn held<M: Multimap>(filled: Filled<M>) -> u64 {
    mark();
    black_box(&filled.map);
    filled.checksum
}

pub fn hold_distinct<M: Multimap>(n: u64, seed: u64) -> u64 {
    held::<M>(distinct(n, seed))
}

/// Eight pairs a key.
pub fn hold_grouped<M: Multimap>(n: u64, seed: u64) -> u64 {
    held::<M>(grouped(n, seed))
}

/// A thousand keys.
pub fn hold_few<M: Multimap>(n: u64, seed: u64) -> u64 {
    held::<M>(few(n, seed))
}
