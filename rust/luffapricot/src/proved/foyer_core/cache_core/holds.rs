//! Handles by name, for callers that keep the core alive themselves.

// Written by rust/erase/erase.py from crates/foyer_core/src/cache_core/holds.rt: change that.
#[allow(unused_imports)]
use crate::rattle_std::prelude::*;
use super::CacheCore;
use super::load::Load;
use crate::proved::foyer_core::entry::{Leave, Left};
use crate::proved::foyer_core::filter::Filter;
use crate::proved::foyer_core::finder::Finder;
use crate::proved::foyer_core::hold::{Hold, RecordRef};
use crate::proved::foyer_core::outcome::Foreign;
use crate::proved::foyer_core::weighter::Weighter;
use crate::proved::foyer_policy::{Eviction, HashBuilder, Key, Properties, Result, Value};

impl<
    E: Eviction,
    K: Key,
    V: Value,
    P: Properties,
    S: HashBuilder,
    W: Weighter<K, V>,
    A: Filter<K, V>,
    N,
    R,
    I: Finder<K>,
> CacheCore<E, K, V, P, S, W, A, N, R, I>
{
    /// Looks a key up as `get` does, and returns the name of the handle in place of an entry.
    ///
    /// The record's data is counted nowhere: read it by `held` while the core is there. Takes no memory.
    ///
    /// # Errors
    /// F9 if the handle count would pass its limit; nothing has changed.
    #[inline(always)]
    pub fn hold(&mut self, now: u64, key: &K) -> Result<Option<Hold>> {
        let hash = self.hash(key);
        let place = self.shard_index(hash);
        self.shards[place].hold(now, hash, key)
    }

    /// Counts a use of the record that the key hits at `now`, and returns its name, by which `held` finds it until the
    /// core is changed. No handle is counted. Takes no memory.
    ///
    /// # Errors
    /// F9 if the handle count would pass its limit; nothing has changed.
    #[inline(always)]
    pub fn touch_named(&mut self, now: u64, key: &K) -> Result<Option<Hold>> {
        let hash = self.hash(key);
        let place = self.shard_index(hash);
        self.shards[place].touch_named(now, hash, key)
    }

    /// Takes a handle back by its name, and returns what left with it.
    ///
    /// With its last handle a resident record is released, a phantom one leaves, and any other is forgotten. A name
    /// whose record has no handle in its shard is `Foreign`, and nothing has changed. Takes no memory.
    #[inline(always)]
    pub fn unhold(&mut self, hold: Hold) -> crate::rattle_std::result::Result<Option<Leave<K, V, P>>, Foreign> {
        let place = self.shard_index(hold.hash);
        self.shards[place].unhold(hold)
    }

    /// Returns the record that is named, if its shard still has it: it has while there is a handle. Takes no memory.
    #[inline(always)]
    pub fn held(&self, hold: Hold) -> Option<RecordRef<'_, K, V, P>> {
        self.shards[self.shard_index(hold.hash)].held(hold)
    }

    /// Removes the record that is named, if it is still its key's record, and returns it as it left (`Remove`).
    ///
    /// It makes no handle, and takes no memory.
    #[inline]
    pub fn remove_this(&mut self, hold: Hold) -> Option<Left<K, V, P>> {
        let place = self.shard_index(hold.hash);
        let before = Load::of(&self.shards[place]);
        let removed = self.shards[place].remove_this(hold);
        let after = Load::of(&self.shards[place]);
        self.load.replace(before, after);
        removed
    }

    /// Names a resident record of one shard, if there is one: the first in a slot from `slot` on, or else the first of
    /// all. With the slot of the last name, removals of all records pass each slot a few times.
    ///
    /// It makes no handle, and takes no memory.
    #[inline]
    pub fn resident_from(&self, shard: usize, slot: usize) -> Option<Hold> {
        match self.shards.get(shard) {
            Some(shard) => shard.resident_from(slot),
            None => None,
        }
    }
}
