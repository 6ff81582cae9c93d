//! Inserts that append what leaves to a list that the caller lends, so that its room can be used again.

// Written by rust/erase/erase.py from crates/foyer_core/src/cache_core/onto.rt: change that.
#[allow(unused_imports)]
use crate::rattle_std::prelude::*;
use super::CacheCore;
use super::load::Load;
use crate::proved::foyer_core::entry::Leave;
use crate::proved::foyer_core::filter::Filter;
use crate::proved::foyer_core::finder::Finder;
use crate::proved::foyer_core::outcome::{InsertedOnto, PutOnto};
use crate::proved::foyer_core::weighter::Weighter;
use crate::proved::foyer_policy::{Eviction, HashBuilder, Key, Properties, Result, Source, Value};

impl<
    E: Eviction,
    K: Key,
    V: Value,
    P: Properties,
    S: HashBuilder,
    W: Weighter<K, V>,
    A: Filter<K, V>,
    N,
    R,
    I: Finder<K>,
> CacheCore<E, K, V, P, S, W, A, N, R, I>
{
    /// Inserts a record as `insert_with_properties` does, and appends what leaves to a list, in order, also before an
    /// error.
    #[inline(always)]
    pub fn insert_with_properties_onto(
        &mut self,
        now: u64,
        key: K,
        value: V,
        properties: P,
        leaves: &mut Vec<Leave<K, V, P>>,
    ) -> Result<InsertedOnto<K, V, P, N>> {
        let hash = self.hash(&key);
        let kept = self.rules.data(hash, key, value, properties);
        let place = self.shard_index(hash);
        let before = Load::of(&self.shards[place]);
        let emplaced = self.shards[place].emplace(self.alloc, now, kept, Source::Outer, leaves);
        let after = Load::of(&self.shards[place]);
        self.load.replace(before, after);
        emplaced
    }

    /// Inserts a record as `insert_with_properties_onto` does, of which no entry is wanted: as one step, that entry is
    /// given back. None is made if no fetch is open in the record's shard.
    ///
    /// # Errors
    /// Those of `insert_with_properties`.
    #[inline(always)]
    pub fn put_onto(
        &mut self,
        now: u64,
        key: K,
        value: V,
        properties: P,
        leaves: &mut Vec<Leave<K, V, P>>,
    ) -> Result<PutOnto<K, V, P, N>> {
        let hash = self.hash(&key);
        let kept = self.rules.data(hash, key, value, properties);
        let place = self.shard_index(hash);
        let before = Load::of(&self.shards[place]);
        let put = self.shards[place].put_onto(self.alloc, now, kept, leaves);
        let after = Load::of(&self.shards[place]);
        self.load.replace(before, after);
        put
    }
}
