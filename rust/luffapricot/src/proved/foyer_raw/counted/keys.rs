//! Calls on a key, an entry or a piece.

// Written by rust/erase/erase.py from crates/foyer_raw/src/counted/keys.rt: change that.
#[allow(unused_imports)]
use crate::rattle_std::prelude::*;
use super::counts::{count_deleted, count_first_look, count_look_up, count_removed, count_touch};
use super::{At, CountedShard, FIRST, Hashed};
use crate::proved::foyer_core::{CoreEntry, Counted, Finder, Foreign, Got, Leave, Left, Piece};
use crate::proved::foyer_policy::{Error, Event, Eviction, Key, Properties, Reason, Result, Value};
use crate::rattle_std::alloc::Global;

impl<E: Eviction, K: Key, V: Value, P: Properties, R, I: Finder<K>> CountedShard<E, K, V, P, R, I> {
    /// Looks a key up at a time, and counts a hit or a miss. The entry has no share for `left`.
    #[inline(always)]
    pub fn get(&mut self, now: At, key: Hashed<'_, K>) -> Got<K, V, P> {
        let found = self.shard.look_up(now.0, key.hash, key.key, false);
        count_look_up(&mut self.stats, &found);
        found
    }

    /// Looks a key up as `get` does. A miss isn't counted, since another look-up follows it.
    #[inline]
    pub fn get_first(&mut self, now: At, key: Hashed<'_, K>) -> Got<K, V, P> {
        let found = self.shard.look_up(now.0, key.hash, key.key, false);
        count_first_look(&mut self.stats, &found);
        found
    }

    /// Counts a use of what the key hits at a time, and a hit or a miss. Returns what `look` makes of the value.
    #[inline(always)]
    pub fn read<X, F: FnOnce(&V) -> X>(&mut self, now: At, key: Hashed<'_, K>, look: F) -> Result<Option<X>> {
        match self.shard.read(now.0, key.hash, key.key, look) {
            Ok(Some(seen)) => {
                self.stats.count(Counted::Hit);
                Ok(Some(seen))
            }
            Ok(None) => {
                self.stats.count(Counted::Miss);
                Ok(None)
            }
            Err(error) => Err(error),
        }
    }

    /// Returns what `look` makes of the value that the key hits at a time. Nothing is counted.
    #[inline(always)]
    pub fn peek<X, F: FnOnce(&V) -> X>(&self, now: At, key: Hashed<'_, K>, look: F) -> Option<X> {
        self.shard.peek(now.0, key.hash, key.key, look)
    }

    /// Returns whether a `get` at a time finds the key, and if so counts a use of its record.
    ///
    /// # Errors
    /// F9 if the handle count would pass its limit; nothing has changed.
    #[inline]
    pub fn touch(&mut self, now: At, key: Hashed<'_, K>) -> Result<bool> {
        let found = self.shard.touch(now.0, key.hash, key.key);
        count_touch(&mut self.stats, &found);
        found
    }

    /// Returns whether a `get` at a time finds the key. Nothing is counted.
    #[inline]
    pub fn contains(&self, now: At, key: Hashed<'_, K>) -> bool {
        self.shard.contains(now.0, key.hash, key.key)
    }

    /// Removes the key's record, expired or not, and returns an entry of it and the record as it left (`Remove`).
    ///
    /// # Errors
    /// F9 if the handle count would pass its limit, F7 if a reference count is full; nothing has changed.
    #[inline]
    pub fn remove(&mut self, key: Hashed<'_, K>) -> Result<Option<(CoreEntry<K, V, P>, Left<K, V, P>)>> {
        let taken = self.shard.remove(key.hash, key.key);
        count_removed(&mut self.stats, &taken);
        taken
    }

    /// Removes the key's record, expired or not, and returns it as it left (`Remove`). No entry is made.
    ///
    /// # Errors
    /// F9 if the handle count would pass its limit; nothing has changed.
    #[inline]
    pub fn delete(&mut self, key: Hashed<'_, K>) -> Result<Option<Left<K, V, P>>> {
        let taken = self.shard.delete(key.hash, key.key);
        count_deleted(&mut self.stats, &taken);
        taken
    }

    /// Returns why a `get` of the key would fail whatever memory there is, for a key that is never expired: F9, or `None`.
    #[inline]
    pub fn refuses_get(&self, key: Hashed<'_, K>) -> Option<Reason> {
        self.shard.refuses_get(FIRST, key.hash, key.key)
    }

    /// Takes an entry's handle back and returns what left with it. Then the entry must be discarded.
    #[inline(always)]
    pub fn take_back(
        &mut self,
        entry: &CoreEntry<K, V, P>,
    ) -> crate::rattle_std::result::Result<Option<Leave<K, V, P>>, Foreign> {
        self.shard.take_back(entry)
    }

    /// Returns one more entry of the same record. It counts as a handle and not as a use.
    ///
    /// # Errors
    /// F9 if the handle count would pass its limit, F7 if a reference count is full or the shard doesn't know the entry;
    /// nothing has changed.
    #[inline]
    pub fn clone_handle(&mut self, entry: &CoreEntry<K, V, P>) -> Result<CoreEntry<K, V, P>> {
        if !self.shard.owns(entry) {
            return Err(Error::new(Reason::NoMemory));
        }
        self.shard.clone_handle(entry)
    }

    /// Returns how many handles the entry's record has: 0 if the shard doesn't know the entry.
    #[inline]
    pub fn refs(&self, entry: &CoreEntry<K, V, P>) -> usize {
        if !self.shard.owns(entry) {
            return 0;
        }
        self.shard.refs(entry)
    }

    /// Returns whether the entry's record is no longer resident, or the shard doesn't know the entry.
    #[inline]
    pub fn is_outdated(&self, entry: &CoreEntry<K, V, P>) -> bool {
        if !self.shard.owns(entry) {
            return true;
        }
        self.shard.is_outdated(entry)
    }

    /// Returns a piece of each resident record, expired or not, in the policy's order.
    ///
    /// # Errors
    /// F7 if memory runs out.
    #[inline]
    pub fn pieces(&self, alloc: Global) -> Result<Vec<Piece<K, V, P>>> {
        self.shard.pieces(alloc)
    }

    /// Removes a piece's record, if it is still stored.
    #[inline]
    pub fn remove_piece(&mut self, piece: &Piece<K, V, P>) -> Option<Left<K, V, P>> {
        let left = self.shard.remove_piece(piece)?;
        self.stats.count_left(FIRST, Event::Remove, &left);
        Some(left)
    }
}
