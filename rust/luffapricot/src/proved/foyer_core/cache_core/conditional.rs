//! Inserts that depend on what the key has.

// Written by rust/erase/erase.py from crates/foyer_core/src/cache_core/conditional.rt: change that.
#[allow(unused_imports)]
use crate::rattle_std::prelude::*;
use super::CacheCore;
use crate::proved::foyer_core::entry::Leave;
use crate::proved::foyer_core::filter::Filter;
use crate::proved::foyer_core::finder::Finder;
use crate::proved::foyer_core::outcome::ReplaceResult;
use crate::proved::foyer_core::weighter::Weighter;
use crate::proved::foyer_policy::{Eviction, HashBuilder, Key, Properties, Result, Value};

impl<
    E: Eviction,
    K: Key,
    V: Value,
    P: Properties,
    S: HashBuilder,
    W: Weighter<K, V>,
    A: Filter<K, V>,
    N,
    R,
    I: Finder<K>,
> CacheCore<E, K, V, P, S, W, A, N, R, I>
{
    /// Returns whether the key still has what was seen: the record of this id, expired or not, or, for `None`, no
    /// record that a `get` at `now` finds. Takes no memory.
    #[inline(always)]
    pub fn is_current(&self, now: u64, key: &K, seen: Option<u64>) -> bool {
        let hash = self.hash(key);
        self.shards[self.shard_index(hash)].is_current(now, hash, key, seen)
    }

    /// Inserts a record as `insert_with_properties_onto` does, if the key still has what was seen, as `is_current`
    /// says. If not, nothing changes but that the key's record is held, as by `hold`.
    ///
    /// # Errors
    /// Those of the insert, or of the `hold`.
    #[inline]
    pub fn replace_if(
        &mut self,
        now: u64,
        seen: Option<u64>,
        key: K,
        value: V,
        properties: P,
        leaves: &mut Vec<Leave<K, V, P>>,
    ) -> Result<ReplaceResult<K, V, P, N>> {
        if !self.is_current(now, &key, seen) {
            return match self.hold(now, &key) {
                Ok(hold) => Ok(ReplaceResult::Changed(hold)),
                Err(error) => Err(error),
            };
        }
        match self.insert_with_properties_onto(now, key, value, properties, leaves) {
            Ok(made) => Ok(ReplaceResult::Inserted(made)),
            Err(error) => Err(error),
        }
    }

    /// Returns whether a record of this key and weight fits its shard's capacity beside what is pinned of other keys.
    /// If not, an insert of it would evict all else, and leave the shard's usage above its capacity. Takes no memory.
    #[inline]
    pub fn would_fit(&self, key: &K, weight: usize) -> bool {
        let hash = self.hash(key);
        self.shards[self.shard_index(hash)].would_fit(hash, key, weight)
    }
}
