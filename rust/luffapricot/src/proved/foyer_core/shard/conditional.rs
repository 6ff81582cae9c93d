//! Questions on which a conditional change rests, for callers that ask and change under one lock.

// Written by rust/erase/erase.py from crates/foyer_core/src/shard/conditional.rt: change that.
#[allow(unused_imports)]
use crate::rattle_std::prelude::*;
use super::Shard;
use crate::proved::foyer_core::finder::Finder;
use crate::proved::foyer_policy::{Eviction, Key, Properties, Value};

impl<E: Eviction, K: Key, V: Value, P: Properties, N, R, I: Finder<K>> Shard<E, K, V, P, N, R, I> {
    /// Returns whether the key still has what was seen: the record of this id, expired or not, or, for `None`, no
    /// record that a `get` at `now` finds. Takes no memory.
    #[inline(always)]
    pub fn is_current(&self, now: u64, hash: u64, key: &K, seen: Option<u64>) -> bool {
        self.store.is_current(now, hash, key, seen)
    }

    /// Returns whether a record of this key and weight fits the capacity beside what is pinned of other keys. If not,
    /// an insert of it would evict all else, and leave the usage above the capacity. Takes no memory.
    #[inline]
    pub fn would_fit(&self, hash: u64, key: &K, weight: usize) -> bool {
        self.store.would_fit(hash, key, weight)
    }
}
