//! What a core does with a key, beside a `get`, and with an entry that it owns.

// Written by rust/erase/erase.py from crates/foyer_core/src/cache_core/entries.rt: change that.
#[allow(unused_imports)]
use crate::rattle_std::prelude::*;
use super::CacheCore;
use super::load::Load;
use crate::proved::foyer_core::entry::{CoreEntry, Leave, Left};
use crate::proved::foyer_core::filter::Filter;
use crate::proved::foyer_core::finder::Finder;
use crate::proved::foyer_core::weighter::Weighter;
use crate::proved::foyer_policy::{Eviction, HashBuilder, Key, Properties, Result, Value};

impl<
    E: Eviction,
    K: Key,
    V: Value,
    P: Properties,
    S: HashBuilder,
    W: Weighter<K, V>,
    A: Filter<K, V>,
    N,
    R,
    I: Finder<K>,
> CacheCore<E, K, V, P, S, W, A, N, R, I>
{
    /// Counts a use of the record that the key hits at `now`, and returns what `look` makes of its value.
    ///
    /// No entry is made and no handle is left over. Takes no memory.
    ///
    /// # Errors
    /// F9 if the handle count would pass its limit; nothing has changed.
    #[inline(always)]
    pub fn read<T, F: FnOnce(&V) -> T>(&mut self, now: u64, key: &K, look: F) -> Result<Option<T>> {
        let hash = self.hash(key);
        let place = self.shard_index(hash);
        self.shards[place].read(now, hash, key, look)
    }

    /// Returns the value that the key hits at `now`. It counts no use, and takes no memory.
    #[inline(always)]
    pub fn value(&self, now: u64, key: &K) -> Option<&V> {
        let hash = self.hash(key);
        self.shards[self.shard_index(hash)].value(now, hash, key)
    }

    /// Returns what `look` makes of the value that the key hits at `now`. It counts no use, and takes no memory.
    #[inline(always)]
    pub fn peek<T, F: FnOnce(&V) -> T>(&self, now: u64, key: &K, look: F) -> Option<T> {
        let hash = self.hash(key);
        self.shards[self.shard_index(hash)].peek(now, hash, key, look)
    }

    /// Returns whether a `get` at `now` finds the key, and if so counts a use of its record. Takes no memory.
    ///
    /// # Errors
    /// F9 if the handle count would pass its limit; nothing has changed.
    #[inline]
    pub fn touch(&mut self, now: u64, key: &K) -> Result<bool> {
        let hash = self.hash(key);
        let place = self.shard_index(hash);
        self.shards[place].touch(now, hash, key)
    }

    /// Removes the key's record, expired or not, and returns an entry of it and the record as it left (`Remove`).
    ///
    /// Allocates nothing.
    ///
    /// # Errors
    /// F9 if the handle count would pass its limit, F7 if a reference count is full; nothing has changed.
    #[inline]
    pub fn remove(&mut self, key: &K) -> Result<Option<(CoreEntry<K, V, P>, Left<K, V, P>)>> {
        let hash = self.hash(key);
        let place = self.shard_index(hash);
        let before = Load::of(&self.shards[place]);
        let removed = self.shards[place].remove(hash, key);
        let after = Load::of(&self.shards[place]);
        self.load.replace(before, after);
        removed
    }

    /// Returns one more entry of the same record, with the same source. It counts as a handle and not as a use.
    ///
    /// The core must own the entry. Allocates nothing.
    ///
    /// # Errors
    /// F9 if the handle count would pass its limit, F7 if a reference count is full; nothing has changed.
    #[inline]
    pub fn clone_handle(&mut self, entry: &CoreEntry<K, V, P>) -> Result<CoreEntry<K, V, P>> {
        let place = self.shard_index(entry.hash());
        self.shards[place].clone_handle(entry)
    }

    /// Returns how many handles the entry's record has. The core must own the entry. Takes no memory.
    #[inline]
    pub fn refs(&self, entry: &CoreEntry<K, V, P>) -> usize {
        self.shards[self.shard_index(entry.hash())].refs(entry)
    }

    /// Returns whether the entry's record is no longer resident: it left, or was replaced. The core must own the
    /// entry. Takes no memory.
    #[inline]
    pub fn is_outdated(&self, entry: &CoreEntry<K, V, P>) -> bool {
        self.shards[self.shard_index(entry.hash())].is_outdated(entry)
    }

    /// Gives an entry back and returns what left with it. An entry that the core doesn't own is discarded, and
    /// nothing changes. Takes no memory.
    #[inline(always)]
    pub fn drop_entry(&mut self, entry: CoreEntry<K, V, P>) -> Option<Leave<K, V, P>> {
        match self.give_back(entry) {
            Ok(leave) => leave,
            Err(foreign) => {
                foreign.discard();
                None
            }
        }
    }
}
