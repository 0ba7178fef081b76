//! Pairs that are replaced, written, counted and removed, and those that come and go.
use super::fills::{distinct, grouped, scattered};
use super::{Filled, sum_of_pairs, with_lens};
use crate::multimap::{Counter, Multimap, Queue};
use crate::numbers::{START, choice, key, mix, spread, value};

pub fn insert_replace<M: Multimap>(n: u64, seed: u64) -> u64 {
    let Filled {
        mut map,
        mut checksum,
    } = distinct::<M>(n, seed);
    for j in 0..4 * n {
        let old = map.insert(key(seed, choice(seed, j, n)), value(seed, n + j));
        checksum = mix(checksum, old.unwrap_or(0));
    }
    with_lens(checksum, &map.lens())
}

pub fn set_over_eight<M: Multimap>(n: u64, seed: u64) -> u64 {
    let Filled {
        mut map,
        mut checksum,
    } = scattered::<M>(n, seed);
    for g in 0..n / 8 {
        let old = map.set(key(seed, g), value(seed, n + g));
        checksum = mix(checksum, old.unwrap_or(0));
    }
    with_lens(checksum, &map.lens())
}

pub fn remove_single<M: Multimap>(n: u64, seed: u64) -> u64 {
    let Filled {
        mut map,
        mut checksum,
    } = distinct::<M>(n, seed);
    for half in 0..n / 2 {
        checksum = mix(checksum, map.remove(key(seed, 2 * half)).unwrap_or(0));
    }
    with_lens(checksum, &map.lens())
}

pub fn remove_all_half<M: Multimap>(n: u64, seed: u64) -> u64 {
    let Filled {
        mut map,
        mut checksum,
    } = scattered::<M>(n, seed);
    for g in (0..n / 8).step_by(2) {
        map.remove_all(key(seed, g), |value| checksum = mix(checksum, value));
    }
    with_lens(checksum, &map.lens())
}

fn retains<M: Multimap>(start: Filled<M>) -> u64 {
    let Filled { mut map, checksum } = start;
    let mut calls = 0;
    map.retain(|value| {
        calls += 1;
        spread(value) % 2 == 0
    });
    with_lens(mix(checksum, calls), &map.lens())
}

pub fn retain_half<M: Multimap>(n: u64, seed: u64) -> u64 {
    retains::<M>(distinct(n, seed))
}

pub fn retain_half_multi<M: Multimap>(n: u64, seed: u64) -> u64 {
    retains::<M>(scattered(n, seed))
}

pub fn iter_mut_all<M: Multimap>(n: u64, seed: u64) -> u64 {
    let Filled { mut map, checksum } = scattered::<M>(n, seed);
    for _ in 0..16 {
        map.for_each_mut(|key, value| *value = value.wrapping_add(key));
    }
    mix(checksum, sum_of_pairs(&map))
}

pub fn get_all_mut_walk<M: Multimap>(n: u64, seed: u64) -> u64 {
    let Filled { mut map, checksum } = grouped::<M>(n, seed);
    for j in 0..n / 2 {
        let chosen = key(seed, choice(seed, j, n / 8));
        map.for_each_of_mut(chosen, |value| *value = value.wrapping_add(j));
    }
    mix(checksum, sum_of_pairs(&map))
}

pub fn entry_count<C: Counter>(n: u64, seed: u64) -> u64 {
    let mut counts = C::default();
    let mut checksum = START;
    for j in 0..4 * n {
        let count = counts.count(key(seed, choice(seed, j, n / 8)));
        checksum = mix(checksum, count);
    }
    with_lens(checksum, &counts.lens())
}

#[inline(always)]
fn churn<Q: Queue>(queue: &mut Q, key: u64, value: u64, checksum: u64) -> u64 {
    let present = u64::from(queue.append(key, value));
    let number = match queue.pop_front() {
        Some((old, is_gone)) => old ^ present ^ (u64::from(is_gone) * 2),
        None => 5,
    };
    mix(checksum, number)
}

fn churns<Q: Queue>(filled: u64, n: u64, seed: u64, key_of: impl Fn(u64) -> u64) -> u64 {
    let mut queue = Q::default();
    let mut checksum = START;
    for i in 0..filled {
        checksum = mix(checksum, u64::from(queue.append(key_of(i), value(seed, i))));
    }
    checksum = with_lens(checksum, &queue.lens());
    for j in filled..filled + 4 * n {
        checksum = churn(&mut queue, key_of(j), value(seed, j), checksum);
    }
    with_lens(checksum, &queue.lens())
}

pub fn fifo_churn<Q: Queue>(n: u64, seed: u64) -> u64 {
    churns::<Q>(n, n, seed, |i| key(seed, i))
}

pub fn fifo_churn_few<Q: Queue>(n: u64, seed: u64) -> u64 {
    churns::<Q>(n, n, seed, |i| key(seed, choice(seed, i, 1000)))
}

pub fn fifo_small<Q: Queue>(n: u64, seed: u64) -> u64 {
    churns::<Q>(64, n, seed, |i| key(seed, i))
}
