//! Upstream's guard round an index.

// Written by rust/erase/erase.py from crates/foyer_core/src/indexer/sentry.rt: change that.
#[allow(unused_imports)]
use crate::rattle_std::prelude::*;
use crate::proved::foyer_core::indexer::{HashTableIndexer, Indexer};
use crate::proved::foyer_policy::{Key, Result};
use crate::rattle_std::alloc::Global;

/// An index that hands each call on to the one inside.
///
/// Upstream's sets a flag of each record that enters or leaves the index. Here an index holds numbers, nothing sets
/// that flag, and a shard's slots know which records are in the index.
pub struct Sentry<I> {
    indexer: I,
}

impl<K: Key> Sentry<HashTableIndexer<K>> {
    /// Creates an index with no keys.
    #[inline]
    pub fn new(alloc: Global) -> Self {
        Sentry { indexer: HashTableIndexer::new(alloc) }
    }
}

/// Puts a guard round an index, with the keys that it has.
impl<I> From<I> for Sentry<I> {
    #[inline]
    fn from(indexer: I) -> Self {
        Sentry { indexer }
    }
}

impl<K: Key, I: Indexer<K>> Indexer<K> for Sentry<I> {
    #[inline]
    fn empty(alloc: Global) -> Self {
        Sentry { indexer: I::empty(alloc) }
    }

    #[inline]
    fn insert(&mut self, hash: u64, key: K, id: u64) -> Result<Option<u64>> {
        self.indexer.insert(hash, key, id)
    }

    #[inline]
    fn get(&self, hash: u64, key: &K) -> Option<u64> {
        self.indexer.get(hash, key)
    }

    #[inline]
    fn remove(&mut self, hash: u64, key: &K) -> Option<u64> {
        self.indexer.remove(hash, key)
    }

    #[inline]
    fn drain(&mut self) -> Result<Vec<u64>> {
        self.indexer.drain()
    }
}
