//! Calls on a key, beside `get`.

// Written by rust/erase/erase.py from crates/foyer_core/src/store/keys.rt: change that.
#[allow(unused_imports)]
use crate::rattle_std::prelude::*;
use super::Store;
use crate::proved::foyer_core::entry::{CoreEntry, Left};
use crate::proved::foyer_core::finder::Finder;
use crate::proved::foyer_core::prefetch;
use crate::proved::foyer_policy::{Error, Eviction, Key, Place, Properties, Reason, Result, Source, Value};

impl<E: Eviction, K: Key, V: Value, P: Properties, I: Finder<K>> Store<E, K, V, P, I> {
    /// Counts a use of the record that the key hits at `now`, and returns what `look` makes of its value, as `Shard::read`
    /// does.
    #[inline(always)]
    pub fn read<T, F: FnOnce(&V) -> T>(&mut self, now: u64, hash: u64, key: &K, look: F) -> Result<Option<T>> {
        let Some((slot, found)) = self.live_under(now, hash, key) else {
            return Ok(None);
        };
        let handles = found.handles();
        if handles >= self.limits.handles {
            return Err(Error::new(Reason::Handles));
        }
        let place = Place::at(slot);
        prefetch::keep(self.eviction.look_ahead(place));
        let seen = look(found.value());
        self.eviction.acquire(place);
        if handles > 0 {
            return Ok(Some(seen));
        }
        self.eviction.release(place);
        Ok(Some(seen))
    }

    /// Returns what `look` makes of the value that the key hits at `now`, as `Shard::peek` does.
    #[inline(always)]
    pub fn peek<T, F: FnOnce(&V) -> T>(&self, now: u64, hash: u64, key: &K, look: F) -> Option<T> {
        let Some((_slot, found)) = self.live_under(now, hash, key) else {
            return None;
        };
        Some(look(found.value()))
    }

    /// Returns whether a `get` at `now` finds the key, and if so counts a use of its record, as `Shard::touch` does.
    #[inline]
    pub fn touch(&mut self, now: u64, hash: u64, key: &K) -> Result<bool> {
        match self.read(now, hash, key, |_value| ()) {
            Ok(found) => Ok(found.is_some()),
            Err(error) => Err(error),
        }
    }

    /// Removes the key's record and returns an entry of it and the record as it left, as `Shard::remove` does.
    #[inline]
    pub fn remove(&mut self, hash: u64, key: &K) -> Result<Option<(CoreEntry<K, V, P>, Left<K, V, P>)>> {
        let Some(slot) = self.slot_under(hash, key) else {
            return Ok(None);
        };
        let Some(found) = self.records.get(slot) else {
            crate::rattle_std::macros::unreachable!();
        };
        if found.handles() >= self.limits.handles {
            return Err(Error::new(Reason::Handles));
        }
        let Some(entry) = found.entry(self.number, slot, Source::Memory, true) else {
            return Err(Error::new(Reason::NoMemory));
        };
        self.index.take(hash, key, slot);
        let item = self.eviction.remove(Place::at(slot));
        self.usage -= item.weight;
        self.entries -= 1;
        self.records.add_handle(slot);
        Ok(Some((entry, self.records.leave(slot, self.number))))
    }
    /// Removes the key's record, of which no entry is wanted, and returns it as it left, as `Shard::delete` does.
    #[inline]
    pub fn delete(&mut self, hash: u64, key: &K) -> Result<Option<Left<K, V, P>>> {
        let Some(slot) = self.slot_under(hash, key) else {
            return Ok(None);
        };
        let Some(found) = self.records.get(slot) else {
            crate::rattle_std::macros::unreachable!();
        };
        if found.handles() >= self.limits.handles {
            return Err(Error::new(Reason::Handles));
        }
        let id = found.id();
        Ok(Some(self.take_out(id, slot)))
    }
}
