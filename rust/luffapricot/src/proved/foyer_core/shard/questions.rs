//! Why a call would fail whatever memory there is. These calls change nothing and take no memory.

// Written by rust/erase/erase.py from crates/foyer_core/src/shard/questions.rt: change that.
#[allow(unused_imports)]
use crate::rattle_std::prelude::*;
use super::Shard;
use crate::proved::foyer_core::finder::Finder;
use crate::proved::foyer_policy::{Eviction, Key, Properties, Reason, Value};

impl<E: Eviction, K: Key, V: Value, P: Properties, N, R, I: Finder<K>> Shard<E, K, V, P, N, R, I> {
    /// Returns why a `get` of a key at `now` would fail whatever memory there is: F9, or `None`, also if it would
    /// miss.
    #[inline]
    pub fn refuses_get(&self, now: u64, hash: u64, key: &K) -> Option<Reason> {
        self.store.get_refusal(now, hash, key)
    }

    /// Returns why an `emplace` of a record with this key, these properties and this weight would fail, whatever its
    /// value and whatever memory there is: F10, F9 or F8, with a handle for each waiter, or `None`.
    #[inline]
    pub fn refuses_insert(&self, hash: u64, key: &K, properties: &P, weight: usize) -> Option<Reason> {
        let further = self.further(hash, key);
        self.store.new_refusal(hash, key, properties, weight, further.count)
    }
}
