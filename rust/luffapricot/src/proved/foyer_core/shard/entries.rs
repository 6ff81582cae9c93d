//! Calls on a shard's entries, and `get`.

// Written by rust/erase/erase.py from crates/foyer_core/src/shard/entries.rt: change that.
#[allow(unused_imports)]
use crate::rattle_std::prelude::*;
use super::Shard;
use crate::proved::foyer_core::entry::{CoreEntry, Leave};
use crate::proved::foyer_core::finder::Finder;
use crate::proved::foyer_core::outcome::{Foreign, Got};
use crate::proved::foyer_policy::{Eviction, Key, Properties, Result, Value};

impl<E: Eviction, K: Key, V: Value, P: Properties, N, R, I: Finder<K>> Shard<E, K, V, P, N, R, I> {
    /// Returns an entry of the key's record, unless that is expired at `now`. This counts as a use.
    ///
    /// Allocates nothing.
    ///
    /// # Errors
    /// F9 if the handle count would pass its limit, F7 if a reference count is full; nothing has changed.
    #[inline(always)]
    pub fn get(&mut self, now: u64, hash: u64, key: &K) -> Result<Option<CoreEntry<K, V, P>>> {
        self.look_up(now, hash, key, true).into_result()
    }

    /// Looks a key up as `get` does. Unless `told`, the entry has no share for `left`, which saves counting one.
    #[inline(always)]
    pub fn look_up(&mut self, now: u64, hash: u64, key: &K, told: bool) -> Got<K, V, P> {
        self.store.look_up(now, hash, key, told)
    }

    /// Takes an entry's handle back and returns what left with it. Then the entry must be discarded.
    ///
    /// With its last handle a resident record is released, a phantom one leaves, and any other is forgotten. If the entry
    /// has another core's number, or its id has no handle here, it is `Foreign`, and nothing has changed. Takes no memory.
    #[inline(always)]
    pub fn take_back(
        &mut self,
        entry: &CoreEntry<K, V, P>,
    ) -> crate::rattle_std::result::Result<Option<Leave<K, V, P>>, Foreign> {
        self.store.take_back(entry)
    }

    /// Gives an entry back and returns what left with it, as `take_back` does. A foreign entry comes back as `Err`.
    #[inline(always)]
    pub fn give_back(
        &mut self,
        entry: CoreEntry<K, V, P>,
    ) -> crate::rattle_std::result::Result<Option<Leave<K, V, P>>, CoreEntry<K, V, P>> {
        match self.take_back(&entry) {
            Ok(leave) => {
                entry.discard();
                Ok(leave)
            }
            Err(_) => Err(entry),
        }
    }

    /// Returns one more entry of the same record, with the same source. It counts as a handle and not as a use.
    ///
    /// The shard must own the entry. Allocates nothing.
    ///
    /// # Errors
    /// F9 if the handle count would pass its limit, F7 if a reference count is full; nothing has changed.
    #[inline]
    pub fn clone_handle(&mut self, entry: &CoreEntry<K, V, P>) -> Result<CoreEntry<K, V, P>> {
        self.store.clone_handle(entry)
    }

    /// Returns how many handles the entry's record has. The shard must own the entry. Takes no memory.
    #[inline]
    pub fn refs(&self, entry: &CoreEntry<K, V, P>) -> usize {
        self.store.refs(entry)
    }

    /// Returns whether the entry's record is no longer resident. The shard must own the entry. Takes no memory.
    #[inline]
    pub fn is_outdated(&self, entry: &CoreEntry<K, V, P>) -> bool {
        self.store.is_outdated(entry)
    }
}
