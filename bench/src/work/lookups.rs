//! Look-ups and walks, on a map that was filled by appends.
use super::fills::{distinct, grouped, scattered};
use super::{Filled, with_lens};
use crate::multimap::Multimap;
use crate::numbers::{choice, key, mix};
use std::hint::black_box;

pub fn get_hit<M: Multimap>(n: u64, seed: u64) -> u64 {
    let Filled { map, mut checksum } = distinct::<M>(n, seed);
    for j in 0..4 * n {
        let found = map.get(key(seed, choice(seed, j, n)));
        checksum = mix(checksum, found.unwrap_or(0));
    }
    checksum
}

pub fn get_miss<M: Multimap>(n: u64, seed: u64) -> u64 {
    let Filled { map, mut checksum } = distinct::<M>(n, seed);
    for j in 0..4 * n {
        checksum = mix(checksum, map.get(key(seed, n + j)).unwrap_or(1));
    }
    checksum
}

fn walks<M: Multimap>(start: Filled<M>, n: u64, seed: u64) -> u64 {
    let Filled { map, mut checksum } = start;
    for j in 0..n / 2 {
        let chosen = key(seed, choice(seed, j, n / 8));
        map.for_each_of(chosen, |value| checksum = mix(checksum, value));
    }
    checksum
}

pub fn get_all_walk<M: Multimap>(n: u64, seed: u64) -> u64 {
    walks::<M>(grouped(n, seed), n, seed)
}

pub fn get_all_walk_scattered<M: Multimap>(n: u64, seed: u64) -> u64 {
    walks::<M>(scattered(n, seed), n, seed)
}

pub fn iter_all<M: Multimap>(n: u64, seed: u64) -> u64 {
    let Filled { map, mut checksum } = scattered::<M>(n, seed);
    for _ in 0..16 {
        map.for_each(|key, value| checksum = mix(checksum, key ^ value));
    }
    checksum
}

/// The sum of all keys does not tell their order.
pub fn keys_all<M: Multimap>(n: u64, seed: u64) -> u64 {
    let Filled { map, mut checksum } = scattered::<M>(n, seed);
    for _ in 0..16 {
        let mut sum = 0u64;
        map.for_each_key(|key| sum = sum.wrapping_add(key));
        checksum = mix(checksum, sum);
    }
    checksum
}

pub fn pairs_all<M: Multimap>(n: u64, seed: u64) -> u64 {
    let Filled { map, mut checksum } = scattered::<M>(n, seed);
    for _ in 0..16 {
        let mut sum = 0u64;
        map.for_each_list(|key, value| sum = sum.wrapping_add(key ^ value));
        checksum = mix(checksum, sum);
    }
    checksum
}

pub fn clone<M: Multimap + Clone>(n: u64, seed: u64) -> u64 {
    let Filled { map, mut checksum } = scattered::<M>(n, seed);
    for _ in 0..4 {
        let copy = black_box(map.clone());
        checksum = with_lens(checksum, &copy.lens());
    }
    checksum
}
