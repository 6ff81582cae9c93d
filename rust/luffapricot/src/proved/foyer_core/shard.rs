//! One shard of a cache: its records and its open fetches.

// Written by rust/erase/erase.py from crates/foyer_core/src/shard.rt: change that.
#[allow(unused_imports)]
use crate::rattle_std::prelude::*;
use crate::proved::foyer_core::entry::CoreEntry;
use crate::proved::foyer_core::finder::Finder;
use crate::proved::foyer_core::inflight::InflightManager;
use crate::proved::foyer_core::record::Limits;
use crate::proved::foyer_core::store::Store;
use crate::proved::foyer_policy::{Eviction, Key, Properties, Result, Value};
use crate::rattle_std::alloc::Global;

mod bulk;
mod clearing;
mod conditional;
mod ending;
mod entries;
mod fetches;
mod holds;
mod insertion;
mod keys;
mod puts;
mod questions;
mod resident_pieces;

/// One shard of a cache. `N` is the type of waiters, `R` of fetch builders.
///
/// Contracts see its `State`, maps from hashed keys to ids and from ids to records, and its `Opens`, the open fetches
/// by their keys.
pub struct Shard<E: Eviction, K: Key, V: Value, P: Properties, N, R, I: Finder<K>> {
    store: Store<E, K, V, P, I>,
    inflights: InflightManager<K, N, R>,
}

impl<E: Eviction, K: Key, V: Value, P: Properties, N, R, I: Finder<K>> Shard<E, K, V, P, N, R, I> {
    /// Creates an empty shard over an empty index, with no open fetch. `number` is its core's.
    ///
    /// # Errors
    /// The first fault of the policy's configuration (F2 to F6), then F7 if memory runs out.
    #[inline]
    pub fn new(
        alloc: Global,
        number: u64,
        capacity: usize,
        limits: Limits,
        config: &E::Config,
        index: I,
    ) -> Result<Self> {
        match Store::new(alloc, number, capacity, limits, config, index) {
            Ok(store) => Ok(Shard { store, inflights: InflightManager::new(alloc) }),
            Err(error) => Err(error),
        }
    }

    /// Returns the sum of the weights of the resident records, expired ones included.
    #[inline(always)]
    pub fn usage(&self) -> usize {
        self.store.usage()
    }

    /// Returns the number of resident records, expired ones included.
    #[inline(always)]
    pub fn entries(&self) -> u64 {
        self.store.entries()
    }

    /// Returns whether a `get` at `now` finds the key. It counts no use, and takes no memory.
    #[inline]
    pub fn contains(&self, now: u64, hash: u64, key: &K) -> bool {
        self.store.contains(now, hash, key)
    }

    /// Returns whether the entry has the number of the shard's core and its record has a handle here. Takes no
    /// memory.
    #[inline]
    pub fn owns(&self, entry: &CoreEntry<K, V, P>) -> bool {
        entry.number() == self.store.number() && self.store.handles(entry.id(), entry.slot()) > 0
    }
}
