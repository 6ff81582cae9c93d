//! Evictions, capacity and configuration of a store.

// Written by rust/erase/erase.py from crates/foyer_core/src/store/bulk.rt: change that.
#[allow(unused_imports)]
use crate::rattle_std::prelude::*;
use super::Store;
use crate::proved::foyer_core::entry::Leave;
use crate::proved::foyer_core::finder::Finder;
use crate::proved::foyer_policy::{Error, Event, Eviction, Key, Properties, Reason, Result, Value};

impl<E: Eviction, K: Key, V: Value, P: Properties, I: Finder<K>> Store<E, K, V, P, I> {
    /// Sets the capacity and tells the policy. Nothing leaves, even if the usage is above it. Takes no memory.
    #[inline]
    pub fn set_capacity(&mut self, capacity: usize) {
        tell_capacity(&mut self.eviction, capacity);
        self.capacity = capacity;
    }

    /// Returns whether a configuration is of the store's policy.
    #[inline]
    pub fn takes(&self, config: &E::Config) -> bool {
        self.eviction.takes(config)
    }

    /// Gives the policy another configuration, one that it accepts. The capacity stays, and nothing leaves. Takes no
    /// memory.
    #[inline]
    pub fn configure(&mut self, config: &E::Config) {
        tell_config(&mut self.eviction, self.capacity, config);
    }

    /// Evicts until the usage is at most the capacity, as `Shard::evict_to_capacity` does.
    #[inline]
    pub fn evict_to_capacity(&mut self, now: u64, leaves: &mut Vec<Leave<K, V, P>>) -> Result<()> {
        self.evict_onto(now, leaves, self.capacity)
    }

    /// Evicts all records that aren't pinned, as `Shard::evict_unpinned` does.
    #[inline]
    pub fn evict_unpinned(&mut self, now: u64, leaves: &mut Vec<Leave<K, V, P>>) -> Result<()> {
        loop {
            let Ok(()) = leaves.reserve(1) else {
                return Err(Error::new(Reason::NoMemory));
            };
            match self.evict_one(now) {
                Ok(Some(left)) => leaves.push_reserved((Event::Evict, left)),
                Ok(None) => return Ok(()),
                Err(_) => return Err(Error::new(Reason::NoMemory)),
            }
        }
    }
}

// Tells a policy another capacity.
#[inline]
fn tell_capacity<'a, E: Eviction>(eviction: &'a mut E, capacity: usize) {
    let same: Option<&'a E::Config> = None;
    let Ok(()) = eviction.update(capacity, same) else {
        crate::rattle_std::macros::unreachable!();
    };
}

// Tells a policy another configuration, one that it accepts, with the capacity that it has.
#[inline]
fn tell_config<E: Eviction>(eviction: &mut E, capacity: usize, config: &E::Config) {
    let Ok(()) = eviction.update(capacity, Some(config)) else {
        crate::rattle_std::macros::unreachable!();
    };
}
