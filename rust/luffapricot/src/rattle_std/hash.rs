//! Hashing, and the hasher of the default hash builder.

pub use ::std::hash::{BuildHasher, BuildHasherDefault, Hash, Hasher};

// The golden ratio's fraction, and that of pi, in 64 bits.
const FACTOR: u64 = 0x9e37_79b9_7f4a_7c15;
const START: u64 = 0x243f_6a88_85a3_08d3;

/// A fast hasher with a fixed seed: each step multiplies to 128 bits and folds the halves together.
///
/// It gives the numbers of the hasher of this name in Rattle's std. Whoever picks the keys can make them collide.
#[derive(Clone, Copy, Debug)]
pub struct FoldHasher(u64);

impl Default for FoldHasher {
    #[inline]
    fn default() -> Self {
        FoldHasher(START)
    }
}

#[inline(always)]
fn folded(a: u64, b: u64) -> u64 {
    let product = u128::from(a) * u128::from(b);
    product as u64 ^ (product >> 64) as u64
}

// The eight bytes from a place on.
#[inline(always)]
fn word(bytes: &[u8], at: usize) -> u64 {
    u64::from_le_bytes(bytes[at..at + 8].try_into().expect("eight bytes"))
}

// At most eight bytes in one number. Its parts may overlap.
#[inline(always)]
fn short(bytes: &[u8]) -> u64 {
    let half = |at: usize| u64::from(u32::from_le_bytes(bytes[at..at + 4].try_into().expect("four bytes")));
    match bytes.len() {
        0 => 0,
        n @ 1..4 => u64::from(bytes[0]) | u64::from(bytes[n / 2]) << 8 | u64::from(bytes[n - 1]) << 16,
        n => half(0) | half(n - 4) << 32,
    }
}

impl Hasher for FoldHasher {
    #[inline]
    fn finish(&self) -> u64 {
        self.0
    }

    #[inline]
    fn write(&mut self, bytes: &[u8]) {
        let n = bytes.len();
        if n <= 8 {
            self.0 = folded(self.0 ^ short(bytes), FACTOR ^ (2 * n as u64));
            return;
        }
        let mut state = self.0.wrapping_add(n as u64);
        let mut at = 0;
        while n - at > 16 {
            state = folded(word(bytes, at) ^ state, word(bytes, at + 8) ^ FACTOR);
            at += 16;
        }
        self.0 = folded(word(bytes, n.saturating_sub(16)) ^ state, word(bytes, n - 8) ^ FACTOR);
    }

    #[inline]
    fn write_u64(&mut self, number: u64) {
        self.0 = folded(self.0 ^ number, FACTOR ^ 16);
    }
}
