//! Hashes of keys, by which a cache finds their shards and records.

// Written by rust/erase/erase.py from crates/foyer_policy/src/hash.rt: change that.
#[allow(unused_imports)]
use crate::rattle_std::prelude::*;
use crate::rattle_std::hash::{BuildHasher, BuildHasherDefault, FoldHasher, Hash, Hasher};

/// Gives each key a hash, and equal keys equal hashes. Every `BuildHasher` is one.
pub trait HashBuilder: 'static {
    /// Returns the hash of a key.
    fn hash_one<K: Hash>(&self, key: &K) -> u64;
}

impl<S: BuildHasher + 'static> HashBuilder for S {
    #[inline]
    fn hash_one<K: Hash>(&self, key: &K) -> u64 {
        let mut state = self.build_hasher();
        key.hash(&mut state);
        state.finish()
    }
}

/// The default hash builder of a cache: fast, not cryptographic, with a fixed seed.
///
/// Its hashes aren't promised, and a caller who picks the keys can make them collide.
pub type DefaultHasher = BuildHasherDefault<FoldHasher>;

/// A hasher that reads the written bytes as the digits of a number in base 256, the least significant first, modulo
/// 2^64. So the hash of a `u64` is that number. It builds itself.
#[derive(Clone, Copy, Debug)]
pub struct ModHasher {
    // The sum of the digits so far.
    sum: u64,
    // What the next byte counts: 0 from the ninth byte on.
    place: u64,
}

impl Default for ModHasher {
    #[inline]
    fn default() -> ModHasher {
        ModHasher { sum: 0, place: 1 }
    }
}

impl Hasher for ModHasher {
    #[inline]
    fn finish(&self) -> u64 {
        self.sum
    }

    #[inline]
    fn write(&mut self, bytes: &[u8]) {
        for &byte in bytes {
            // No later byte counts.
            if self.place == 0 {
                return;
            }
            self.sum = self.sum.wrapping_add((byte as u64).wrapping_mul(self.place));
            self.place = self.place.wrapping_mul(256);
        }
    }

    // Eight digits at once.
    #[inline]
    fn write_u64(&mut self, i: u64) {
        self.sum = self.sum.wrapping_add(i.wrapping_mul(self.place));
        self.place = 0;
    }

    #[inline]
    fn write_usize(&mut self, i: usize) {
        self.write_u64(i as u64);
    }
}

impl BuildHasher for ModHasher {
    type Hasher = ModHasher;

    #[inline]
    fn build_hasher(&self) -> ModHasher {
        ModHasher::default()
    }
}

/// Returns the hash that a `ModHasher` gives a key.
#[inline]
pub fn mod_hash<K: Hash>(key: &K) -> u64 {
    HashBuilder::hash_one(&ModHasher::default(), key)
}

/// Returns the hash that a `ModHasher` gives a `u64` key: that key.
#[inline]
pub fn mod_hash_of_u64(key: u64) -> u64 {
    mod_hash(&key)
}
