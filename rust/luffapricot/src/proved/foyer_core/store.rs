//! The policy, the index and the records of a shard.

// Written by rust/erase/erase.py from crates/foyer_core/src/store.rt: change that.
#[allow(unused_imports)]
use crate::rattle_std::prelude::*;
use crate::proved::foyer_core::finder::Finder;
use crate::proved::foyer_core::properties::is_expired;
use crate::proved::foyer_core::record::Limits;
use crate::proved::foyer_core::records::Records;
use crate::proved::foyer_core::slot::Slot;
use crate::proved::foyer_policy::{Eviction, Key, Properties, Result, Value};
use crate::rattle_std::alloc::Global;

mod admission;
mod ahead;
mod bulk;
mod clearing;
mod conditional;
mod ending;
mod entries;
mod evictions;
mod handles;
mod holds;
mod insertion;
mod keys;
mod lending;
mod phantoms;
mod picking;
mod pieces;
mod questions;
mod refusals;
mod resident_pieces;

/// The policy, the index and the records of a shard. Contracts see its `State`: maps from hashed keys to ids and from
/// ids to records.
pub struct Store<E: Eviction, K: Key, V: Value, P: Properties, I: Finder<K>> {
    eviction: E,
    index: I,
    records: Records<K, V, P>,
    usage: usize,
    entries: u64,
    capacity: usize,
    number: u64,
    next: u64,
    limits: Limits,
}

impl<E: Eviction, K: Key, V: Value, P: Properties, I: Finder<K>> Store<E, K, V, P, I> {
    /// Creates an empty store over an empty index. `number` is its core's.
    ///
    /// # Errors
    /// The first fault of the policy's configuration (F2 to F6), then F7 if memory runs out.
    #[inline]
    pub fn new(
        alloc: Global,
        number: u64,
        capacity: usize,
        limits: Limits,
        config: &E::Config,
        index: I,
    ) -> Result<Self> {
        let eviction = E::new(alloc, capacity, config)?;
        Ok(Store {
            eviction,
            index,
            records: Records::new(alloc),
            usage: 0,
            entries: 0,
            capacity,
            number,
            next: 0,
            limits,
        })
    }

    /// Returns the sum of the weights of the resident records.
    #[inline(always)]
    pub fn usage(&self) -> usize {
        self.usage
    }

    /// Returns the number of resident records.
    #[inline(always)]
    pub fn entries(&self) -> u64 {
        self.entries
    }

    /// Returns whether a `get` at `now` finds the key. Takes no memory.
    #[inline]
    pub fn contains(&self, now: u64, hash: u64, key: &K) -> bool {
        self.live_under(now, hash, key).is_some()
    }

    // The record that a key hits at `now`, and its slot, which is read once.
    #[inline(always)]
    fn live_under(&self, now: u64, hash: u64, key: &K) -> Option<(usize, &Slot<K, V, P>)> {
        let slot = self.slot_under(hash, key)?;
        let Some(found) = self.records.get(slot) else {
            crate::rattle_std::macros::unreachable!();
        };
        if is_expired(found.properties().expiry(), now) {
            return None;
        }
        Some((slot, found))
    }

    // The slot to which a key leads.
    #[inline(always)]
    fn slot_under(&self, hash: u64, key: &K) -> Option<usize> {
        self.index.find(hash, key, |slot| self.records.has_key(slot, hash, key))
    }

    // What the shard's numbers are below.
    #[inline]
    pub(crate) fn ids(&self) -> u64 {
        self.limits.ids
    }
}
