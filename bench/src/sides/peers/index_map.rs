//! The `IndexMap` of indexmap with a vector of values a key. It keeps the order of its keys but for
//! removals, which move the last key to the place of the removed one.
use crate::numbers::mix;
use crate::sides::lists::{ByText, Lists, table};
use crate::work::fills::distinct;
use indexmap::IndexMap;
use std::hash::BuildHasher;

table!(IndexMap, swap_remove);

impl<S: BuildHasher> ByText for IndexMap<String, Vec<u64>, S> {
    #[inline(always)]
    fn by_text(&self, name: &str) -> Option<&Vec<u64>> {
        self.get(name)
    }
}

/// Sorts the keys, and mixes them in.
pub fn sort_keys<S: BuildHasher + Default>(n: u64, seed: u64) -> u64 {
    type Numbers<S> = Lists<IndexMap<u64, Vec<u64>, S>>;
    let filled = distinct::<Numbers<S>>(n, seed);
    let (mut map, checksum) = (filled.map.keys, filled.checksum);
    map.sort_keys();
    map.keys().fold(checksum, |sum, key| mix(sum, *key))
}
