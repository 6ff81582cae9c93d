//! What a call passes on to its shard. Nothing is computed with these, so none can be cut short or mixed up on the way.

// Written by rust/erase/erase.py from crates/foyer_raw/src/counted/passed.rt: change that.
#[allow(unused_imports)]
use crate::rattle_std::prelude::*;
use crate::proved::foyer_core::shard_capacity;

/// A time, in the unit of the cache's callers.
#[derive(Clone, Copy)]
pub struct At(pub(crate) u64);

impl At {
    /// The time `now`.
    #[inline(always)]
    pub fn new(now: u64) -> Self {
        At(now)
    }

    /// Returns when something expires that lives so long from this time on (at most 2^64 - 1).
    #[inline(always)]
    pub fn expiry(self, time_to_live: u64) -> u64 {
        self.0.saturating_add(time_to_live)
    }
}

/// A total weight that records may have.
#[derive(Clone, Copy)]
pub struct Capacity(pub(crate) usize);

impl Capacity {
    /// A capacity of this weight.
    #[inline]
    pub fn new(weight: usize) -> Self {
        Capacity(weight)
    }

    /// Returns the weight.
    #[inline]
    pub fn weight(self) -> usize {
        self.0
    }

    /// Returns what one of so many shards gets of it.
    #[inline]
    pub fn part(self, shards: usize, number: usize) -> Self {
        Capacity(shard_capacity(self.0, shards, number))
    }
}

/// A key with its hash. Contracts see the pair of the hash and the key.
pub struct Hashed<'a, K> {
    pub(crate) hash: u64,
    pub(crate) key: &'a K,
}

impl<'a, K> Hashed<'a, K> {
    /// A key with this hash.
    #[inline(always)]
    pub fn new(hash: u64, key: &'a K) -> Self {
        Hashed { hash, key }
    }

    /// Returns the hash.
    #[inline(always)]
    pub fn hash(&self) -> u64 {
        self.hash
    }

    /// Returns the key.
    #[inline(always)]
    pub fn key(&self) -> &'a K {
        self.key
    }

    /// Returns the same key with its hash.
    #[inline(always)]
    pub fn again(&self) -> Hashed<'a, K> {
        Hashed { hash: self.hash, key: self.key }
    }
}
