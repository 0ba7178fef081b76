//! The hashers of the static library, for the maps beside it.
use std::hash::{BuildHasherDefault, Hasher};

const START: u64 = 0x243F_6A88_85A3_08D3;
const GOLDEN: u64 = 0x9E37_79B9_7F4A_7C15;
const FAST: u64 = 0x5851_F42D_4C95_7F2D;

/// Multiplies two words to two words, and joins these.
#[inline(always)]
fn folded(one: u64, other: u64) -> u64 {
    let product = u128::from(one) * u128::from(other);
    product as u64 ^ (product >> 64) as u64
}

#[inline(always)]
fn read_u32(bytes: &[u8], at: usize) -> u64 {
    u64::from(u32::from_le_bytes(bytes[at..at + 4].try_into().unwrap()))
}

#[inline(always)]
fn read_u64(bytes: &[u8], at: usize) -> u64 {
    u64::from_le_bytes(bytes[at..at + 8].try_into().unwrap())
}

/// Up to eight bytes as one number, by reads that may overlap.
#[inline(always)]
fn read_short(bytes: &[u8]) -> u64 {
    let len = bytes.len();
    if len >= 4 {
        read_u32(bytes, 0) | read_u32(bytes, len - 4) << 32
    } else if len > 0 {
        u64::from(bytes[0]) | u64::from(bytes[len / 2]) << 8 | u64::from(bytes[len - 1]) << 16
    } else {
        0
    }
}

/// The hasher that the map and the kit's maps have by default, `FoldHasher` of Rattle's std.
pub struct FoldHasher {
    state: u64,
}

impl Default for FoldHasher {
    fn default() -> Self {
        FoldHasher { state: START }
    }
}

impl Hasher for FoldHasher {
    #[inline(always)]
    fn finish(&self) -> u64 {
        self.state
    }

    #[inline(always)]
    fn write(&mut self, bytes: &[u8]) {
        let len = bytes.len();
        if len <= 8 {
            self.state = folded(self.state ^ read_short(bytes), GOLDEN ^ (2 * len as u64));
            return;
        }
        let mut state = self.state.wrapping_add(len as u64);
        let mut at = 0;
        while len - at > 16 {
            state = folded(
                read_u64(bytes, at) ^ state,
                read_u64(bytes, at + 8) ^ GOLDEN,
            );
            at += 16;
        }
        let last = read_u64(bytes, len.saturating_sub(16)) ^ state;
        self.state = folded(last, read_u64(bytes, len - 8) ^ GOLDEN);
    }

    #[inline(always)]
    fn write_u64(&mut self, word: u64) {
        self.state = folded(self.state ^ word, GOLDEN ^ 16);
    }
}

/// A fast hasher for keys of one word.
pub struct FastHasher {
    state: u64,
}

impl Default for FastHasher {
    fn default() -> Self {
        FastHasher { state: START }
    }
}

impl Hasher for FastHasher {
    #[inline(always)]
    fn finish(&self) -> u64 {
        self.state
    }

    fn write(&mut self, _bytes: &[u8]) {
        unimplemented!("keys are single words");
    }

    #[inline(always)]
    fn write_u64(&mut self, word: u64) {
        self.state = folded(self.state ^ word, FAST);
    }
}

/// The hash builder that the map has by default.
pub type DefaultState = BuildHasherDefault<FoldHasher>;

/// The builder of the fast hasher.
pub type FastState = BuildHasherDefault<FastHasher>;
