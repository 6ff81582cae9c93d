//! Handles by name, for callers that keep the shard alive themselves.

// Written by rust/erase/erase.py from crates/foyer_core/src/shard/holds.rt: change that.
#[allow(unused_imports)]
use crate::rattle_std::prelude::*;
use super::Shard;
use crate::proved::foyer_core::entry::{Leave, Left};
use crate::proved::foyer_core::finder::Finder;
use crate::proved::foyer_core::hold::{Hold, RecordRef};
use crate::proved::foyer_core::outcome::Foreign;
use crate::proved::foyer_policy::{Eviction, Key, Properties, Result, Value};

impl<E: Eviction, K: Key, V: Value, P: Properties, N, R, I: Finder<K>> Shard<E, K, V, P, N, R, I> {
    /// Looks a key up as `get` does, and returns the name of the handle in place of an entry.
    ///
    /// The record's data is counted nowhere: read it by `held` while the shard is there. Takes no memory.
    ///
    /// # Errors
    /// F9 if the handle count would pass its limit; nothing has changed.
    #[inline(always)]
    pub fn hold(&mut self, now: u64, hash: u64, key: &K) -> Result<Option<Hold>> {
        self.store.hold_key(now, hash, key)
    }

    /// Counts a use of the record that the key hits at `now`, and returns its name, by which `held` finds it until the
    /// shard is changed. No handle is counted. Takes no memory.
    ///
    /// # Errors
    /// F9 if the handle count would pass its limit; nothing has changed.
    #[inline(always)]
    pub fn touch_named(&mut self, now: u64, hash: u64, key: &K) -> Result<Option<Hold>> {
        self.store.touch_named(now, hash, key)
    }

    /// Takes a handle back by its name, and returns what left with it, as `take_back` does. If the id has no handle
    /// here, it is `Foreign`, and nothing has changed. Takes no memory.
    #[inline(always)]
    pub fn unhold(&mut self, hold: Hold) -> crate::rattle_std::result::Result<Option<Leave<K, V, P>>, Foreign> {
        self.store.unhold(hold)
    }

    /// Returns the record that is named, if the shard still has it: it has while there is a handle.
    #[inline(always)]
    pub fn held(&self, hold: Hold) -> Option<RecordRef<'_, K, V, P>> {
        self.store.found(hold)
    }

    /// Removes the record that is named, if it is still resident, and returns it: a `Remove` for the caller to tell.
    /// It takes no memory, and makes no handle.
    #[inline]
    pub fn remove_this(&mut self, hold: Hold) -> Option<Left<K, V, P>> {
        self.store.remove_this(hold)
    }

    /// Names a resident record, if there is one: the first in a slot from `slot` on, or else the first of all. It takes
    /// no memory, and makes no handle.
    #[inline]
    pub fn resident_from(&self, slot: usize) -> Option<Hold> {
        self.store.resident_from(slot)
    }
}
