//! What depends on the order of pairs or keys: sorts, and the checksums of walks in order.
use super::fills::{distinct, scattered};
use crate::multimap::Multimap;
use crate::numbers::{key, mix, scattered_pairs, value};

/// Beside a map that can't sort its keys: a stable sort of a vector of the keys, each with its
/// place in the list of keys.
pub fn sort_keys_aside<M: Multimap>(n: u64, seed: u64) -> u64 {
    let checksum = distinct::<M>(n, seed).checksum;
    let mut keys: Vec<(u64, u64)> = (0..n).map(|i| (key(seed, i), i)).collect();
    keys.sort_by(|(key, _), (other, _)| key.cmp(other));
    keys.iter().fold(checksum, |sum, (key, _)| mix(sum, *key))
}

/// Beside a map without an order of its pairs: a stable sort of a vector of all pairs by their
/// keys, of which each has eight.
pub fn sort_by_aside<M: Multimap>(n: u64, seed: u64) -> u64 {
    let checksum = scattered::<M>(n, seed).checksum;
    let mut pairs: Vec<(u64, u64)> = scattered_pairs(n, seed).collect();
    pairs.sort_by(|(key, _), (other, _)| key.cmp(other));
    let words = pairs.iter().map(|(key, value)| key ^ value);
    words.fold(checksum, mix)
}

/// The checksum of `iter_all` on a map that keeps the order of its pairs.
pub fn iter_all_by_pairs<M: Multimap>(n: u64, seed: u64) -> u64 {
    let start = scattered::<M>(n, seed).checksum;
    let words = || scattered_pairs(n, seed).map(|(key, value)| key ^ value);
    (0..16).fold(start, |checksum, _| words().fold(checksum, mix))
}

/// That on a map which keeps the order of its keys.
pub fn iter_all_by_keys<M: Multimap>(n: u64, seed: u64) -> u64 {
    let start = scattered::<M>(n, seed).checksum;
    let mut checksum = start;
    let groups = n / 8;
    for _ in 0..16 {
        for group in 0..groups {
            for round in 0..8 {
                let number = round * groups + group;
                let word = key(seed, group) ^ value(seed, number);
                checksum = mix(checksum, word);
            }
        }
    }
    checksum
}
