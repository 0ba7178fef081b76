//! Appends to an empty map.
use super::{Filled, with_lens};
use crate::multimap::Multimap;
use crate::numbers::{START, choice, grouped_pairs, key, mix, scattered_pairs, value};

fn filled<M: Multimap>(pairs: impl Iterator<Item = (u64, u64)>) -> Filled<M> {
    let mut map = M::default();
    let mut checksum = START;
    // Calls `for_each`, since a loop over nested ranges is slower than the nested loops.
    pairs.for_each(|(key, value)| {
        checksum = mix(checksum, u64::from(map.append(key, value)));
    });
    checksum = with_lens(checksum, &map.lens());
    Filled { map, checksum }
}

pub fn distinct<M: Multimap>(n: u64, seed: u64) -> Filled<M> {
    filled((0..n).map(|i| (key(seed, i), value(seed, i))))
}

pub fn few<M: Multimap>(n: u64, seed: u64) -> Filled<M> {
    filled((0..n).map(|i| (key(seed, choice(seed, i, 1000)), value(seed, i))))
}

pub fn grouped<M: Multimap>(n: u64, seed: u64) -> Filled<M> {
    filled(grouped_pairs(n, seed))
}

pub fn scattered<M: Multimap>(n: u64, seed: u64) -> Filled<M> {
    filled(scattered_pairs(n, seed))
}

pub fn append_distinct<M: Multimap>(n: u64, seed: u64) -> u64 {
    distinct::<M>(n, seed).checksum
}

pub fn append_few<M: Multimap>(n: u64, seed: u64) -> u64 {
    few::<M>(n, seed).checksum
}

pub fn append_grouped<M: Multimap>(n: u64, seed: u64) -> u64 {
    grouped::<M>(n, seed).checksum
}

pub fn append_scattered<M: Multimap>(n: u64, seed: u64) -> u64 {
    scattered::<M>(n, seed).checksum
}

fn told<M: Multimap>(map: &M, seed: u64) -> u64 {
    let first = map.get(key(seed, 0)).unwrap_or(1);
    mix(with_lens(START, &map.lens()), first)
}

pub fn from_iter<M: Multimap>(n: u64, seed: u64) -> u64 {
    let map = M::from_pairs((0..n).map(|i| (key(seed, i), value(seed, i))));
    told(&map, seed)
}

pub fn extend<M: Multimap>(n: u64, seed: u64) -> u64 {
    let mut map = M::default();
    map.extend((0..n).map(|i| (key(seed, i / 8), value(seed, i))));
    told(&map, seed)
}

/// A map of sixteen pairs for every sixteen pairs.
pub fn small_maps<M: Multimap>(n: u64, seed: u64) -> u64 {
    let firsts = (0..n / 16 * 16).step_by(16);
    firsts.fold(START, |checksum, first| {
        small_map::<M>(first, seed, checksum)
    })
}

fn small_map<M: Multimap>(first: u64, seed: u64, start: u64) -> u64 {
    let mut map = M::default();
    let mut checksum = start;
    for i in first..first + 16 {
        let chosen = key(seed, first + choice(seed, i, 12));
        checksum = mix(checksum, u64::from(map.append(chosen, value(seed, i))));
    }
    for i in first..first + 16 {
        checksum = mix(checksum, map.get(key(seed, i)).unwrap_or(1));
    }
    checksum = mix(checksum, super::sum_of_pairs(&map));
    with_lens(checksum, &map.lens())
}
