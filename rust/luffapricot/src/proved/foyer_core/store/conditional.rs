//! Questions on which a conditional change rests.

// Written by rust/erase/erase.py from crates/foyer_core/src/store/conditional.rt: change that.
#[allow(unused_imports)]
use crate::rattle_std::prelude::*;
use super::Store;
use crate::proved::foyer_core::finder::Finder;
use crate::proved::foyer_policy::{Eviction, Key, Properties, Value};

impl<E: Eviction, K: Key, V: Value, P: Properties, I: Finder<K>> Store<E, K, V, P, I> {
    /// Returns whether the key still has what was seen, as `Shard::is_current` does.
    #[inline(always)]
    pub fn is_current(&self, now: u64, hash: u64, key: &K, seen: Option<u64>) -> bool {
        match seen {
            Some(id) => self.has_id(hash, key, id),
            None => self.live_under(now, hash, key).is_none(),
        }
    }

    // Whether the key's record has this id.
    #[inline(always)]
    fn has_id(&self, hash: u64, key: &K, id: u64) -> bool {
        let Some(slot) = self.slot_under(hash, key) else {
            return false;
        };
        match self.records.get(slot) {
            Some(found) => found.id() == id,
            None => crate::rattle_std::macros::unreachable!(),
        }
    }

    /// Returns whether a record would fit beside what is pinned, as `Shard::would_fit` does.
    #[inline]
    pub fn would_fit(&self, hash: u64, key: &K, weight: usize) -> bool {
        let beside = self.eviction.pinned_weight() - self.own_pinned(hash, key);
        beside <= self.capacity && weight <= self.capacity - beside
    }
}
