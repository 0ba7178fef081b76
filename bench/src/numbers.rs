//! The numbers and names of a workload: keys, values and random choices, each a function of a seed.

const GOLDEN: u64 = 0x9E37_79B9_7F4A_7C15;
const SECOND: u64 = 0x632B_E59B_D9B4_E019;

/// What a checksum begins as.
pub const START: u64 = 0xCBF2_9CE4_8422_2325;

/// The checksum with one more number.
#[inline(always)]
pub fn mix(checksum: u64, number: u64) -> u64 {
    checksum.wrapping_mul(0x100_0000_01B3).wrapping_add(number)
}

#[inline(always)]
pub fn spread(number: u64) -> u64 {
    let mut z = number;
    z = (z ^ (z >> 30)).wrapping_mul(0xBF58_476D_1CE4_E5B9);
    z = (z ^ (z >> 27)).wrapping_mul(0x94D0_49BB_1331_11EB);
    z ^ (z >> 31)
}

#[inline(always)]
fn random(seed: u64, index: u64) -> u64 {
    spread(seed.wrapping_add(index.wrapping_add(1).wrapping_mul(GOLDEN)))
}

/// Key number `index`.
#[inline(always)]
pub fn key(seed: u64, index: u64) -> u64 {
    random(seed, index)
}

/// Value number `index`.
#[inline(always)]
pub fn value(seed: u64, index: u64) -> u64 {
    seed.wrapping_add(index.wrapping_mul(GOLDEN))
}

/// Choice number `index` of a number below `limit`.
#[inline(always)]
pub fn choice(seed: u64, index: u64, limit: u64) -> u64 {
    (random(seed.wrapping_add(SECOND), index) >> 32).wrapping_mul(limit) >> 32
}

/// Eight pairs a key, one after another.
pub fn grouped_pairs(n: u64, seed: u64) -> impl Iterator<Item = (u64, u64)> {
    let rounds = move |g| (0..8).map(move |r| (key(seed, g), value(seed, 8 * g + r)));
    (0..n / 8).flat_map(rounds)
}

/// Eight pairs a key, one in each of eight rounds over all keys.
pub fn scattered_pairs(n: u64, seed: u64) -> impl Iterator<Item = (u64, u64)> {
    let groups = n / 8;
    let round = move |r| (0..groups).map(move |g| (key(seed, g), value(seed, r * groups + g)));
    (0..8).flat_map(round)
}
