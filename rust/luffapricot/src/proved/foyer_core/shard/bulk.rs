//! What a shard does with all of its records.

// Written by rust/erase/erase.py from crates/foyer_core/src/shard/bulk.rt: change that.
#[allow(unused_imports)]
use crate::rattle_std::prelude::*;
use super::Shard;
use crate::proved::foyer_core::entry::Leave;
use crate::proved::foyer_core::finder::Finder;
use crate::proved::foyer_policy::{Eviction, Key, Properties, Result, Value};

impl<E: Eviction, K: Key, V: Value, P: Properties, N, R, I: Finder<K>> Shard<E, K, V, P, N, R, I> {
    /// Sets the capacity and tells the policy. Nothing leaves, even if the usage is above it. Takes no memory.
    #[inline]
    pub fn set_capacity(&mut self, capacity: usize) {
        self.store.set_capacity(capacity)
    }

    /// Returns whether a configuration is of the shard's policy.
    #[inline]
    pub fn takes(&self, config: &E::Config) -> bool {
        self.store.takes(config)
    }

    /// Gives the policy another configuration, one that it accepts. The capacity stays, and nothing leaves. Takes no
    /// memory.
    #[inline]
    pub fn configure(&mut self, config: &E::Config) {
        self.store.configure(config)
    }

    /// Evicts until the usage is at most the capacity or nothing more leaves, records expired at `now` first, and
    /// appends what leaves.
    ///
    /// # Errors
    /// F7 if memory runs out; the evictions made so far stand and are in the list.
    #[inline]
    pub fn evict_to_capacity(&mut self, now: u64, leaves: &mut Vec<Leave<K, V, P>>) -> Result<()> {
        self.store.evict_to_capacity(now, leaves)
    }

    /// Evicts all records that aren't pinned, those expired at `now` first, then in the policy's order, and appends
    /// them.
    ///
    /// # Errors
    /// F7 if memory runs out; the evictions made so far stand and are in the list.
    #[inline]
    pub fn evict_unpinned(&mut self, now: u64, leaves: &mut Vec<Leave<K, V, P>>) -> Result<()> {
        self.store.evict_unpinned(now, leaves)
    }

    /// Evicts until the usage is at most the target or nothing more leaves, records expired at `now` first, and
    /// appends what leaves.
    ///
    /// # Errors
    /// F7 if memory runs out; the evictions made so far stand and are in the list.
    #[inline]
    pub fn evict_onto(&mut self, now: u64, leaves: &mut Vec<Leave<K, V, P>>, target: usize) -> Result<()> {
        self.store.evict_onto(now, leaves, target)
    }
}
