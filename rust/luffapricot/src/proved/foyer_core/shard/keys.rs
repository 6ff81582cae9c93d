//! Calls on a key, beside `get`.

// Written by rust/erase/erase.py from crates/foyer_core/src/shard/keys.rt: change that.
#[allow(unused_imports)]
use crate::rattle_std::prelude::*;
use super::Shard;
use crate::proved::foyer_core::entry::{CoreEntry, Left};
use crate::proved::foyer_core::finder::Finder;
use crate::proved::foyer_policy::{Eviction, Key, Properties, Result, Value};

impl<E: Eviction, K: Key, V: Value, P: Properties, N, R, I: Finder<K>> Shard<E, K, V, P, N, R, I> {
    /// Counts a use of the record that the key hits at `now`, and returns what `look` makes of its value.
    ///
    /// No entry is made and no handle is left over. Takes no memory.
    ///
    /// # Errors
    /// F9 if the handle count would pass its limit; nothing has changed.
    #[inline(always)]
    pub fn read<T, F: FnOnce(&V) -> T>(&mut self, now: u64, hash: u64, key: &K, look: F) -> Result<Option<T>> {
        self.store.read(now, hash, key, look)
    }

    /// Returns the value that the key hits at `now`. It counts no use, and takes no memory.
    #[inline(always)]
    pub fn value(&self, now: u64, hash: u64, key: &K) -> Option<&V> {
        self.store.value(now, hash, key)
    }

    /// Returns what `look` makes of the value that the key hits at `now`. It counts no use, and takes no memory.
    #[inline(always)]
    pub fn peek<T, F: FnOnce(&V) -> T>(&self, now: u64, hash: u64, key: &K, look: F) -> Option<T> {
        self.store.peek(now, hash, key, look)
    }

    /// Returns whether a `get` at `now` finds the key, and if so counts a use of its record. Takes no memory.
    ///
    /// # Errors
    /// F9 if the handle count would pass its limit; nothing has changed.
    #[inline]
    pub fn touch(&mut self, now: u64, hash: u64, key: &K) -> Result<bool> {
        self.store.touch(now, hash, key)
    }

    /// Removes the key's record, expired or not, and returns an entry of it and the record as it left (`Remove`).
    ///
    /// Allocates nothing.
    ///
    /// # Errors
    /// F9 if the handle count would pass its limit, F7 if a reference count is full; nothing has changed.
    #[inline]
    pub fn remove(&mut self, hash: u64, key: &K) -> Result<Option<(CoreEntry<K, V, P>, Left<K, V, P>)>> {
        self.store.remove(hash, key)
    }

    /// Removes the key's record, expired or not, and returns it as it left (`Remove`). No entry is made.
    ///
    /// Takes no memory.
    ///
    /// # Errors
    /// F9 if the handle count would pass its limit; nothing has changed.
    #[inline]
    pub fn delete(&mut self, hash: u64, key: &K) -> Result<Option<Left<K, V, P>>> {
        self.store.delete(hash, key)
    }
}
