//! The workloads, on any map that can have them. Each answers a checksum, which is that of the
//! workload of the same name in `crates/multimap_workloads`.
pub mod changes;
pub mod fills;
pub mod holds;
pub mod lookups;
pub mod names;
pub mod orders;

use crate::multimap::{Lens, Multimap};
use crate::numbers::mix;

/// A map that was filled, with the checksum of that.
pub struct Filled<M> {
    pub map: M,
    pub checksum: u64,
}

/// The checksum with the numbers of keys and of values.
pub fn with_lens(checksum: u64, lens: &Lens) -> u64 {
    mix(mix(checksum, lens.keys), lens.values)
}

/// The sum of all pairs, each as key ^ value.
fn sum_of_pairs<M: Multimap>(map: &M) -> u64 {
    let mut sum = 0u64;
    map.for_each(|key, value| sum = sum.wrapping_add(key ^ value));
    sum
}
