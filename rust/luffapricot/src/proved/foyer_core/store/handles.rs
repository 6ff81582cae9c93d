//! Handles of records: `look_up` and `take_back`.

// Written by rust/erase/erase.py from crates/foyer_core/src/store/handles.rt: change that.
#[allow(unused_imports)]
use crate::rattle_std::prelude::*;
use super::Store;
use crate::proved::foyer_core::entry::{CoreEntry, Leave};
use crate::proved::foyer_core::finder::Finder;
use crate::proved::foyer_core::outcome::{Foreign, Got};
use crate::proved::foyer_core::prefetch;
use crate::proved::foyer_core::slot::Slot;
use crate::proved::foyer_policy::{Event, Eviction, Key, Place, Properties, Source, Value};

impl<E: Eviction, K: Key, V: Value, P: Properties, I: Finder<K>> Store<E, K, V, P, I> {
    /// Returns an entry of the key's record, as `Shard::look_up` does. Allocates nothing.
    #[inline(always)]
    pub fn look_up(&mut self, now: u64, hash: u64, key: &K, told: bool) -> Got<K, V, P> {
        let Some((slot, found)) = self.live_under(now, hash, key) else {
            return Got::Miss;
        };
        if found.handles() >= self.limits.handles {
            return Got::Full;
        }
        let place = Place::at(slot);
        // The item's node and its neighbors are read before shares are counted (store/ahead.rt).
        prefetch::keep(self.eviction.look_ahead(place));
        let Some(entry) = found.entry(self.number, slot, Source::Memory, told) else {
            return Got::OutOfMemory;
        };
        self.records.add_handle(slot);
        self.eviction.acquire(place);
        Got::Hit(entry)
    }

    /// Takes an entry's handle back and returns what left with it, as `Shard::take_back` does. Takes no memory.
    #[inline(always)]
    pub fn take_back(
        &mut self,
        entry: &CoreEntry<K, V, P>,
    ) -> crate::rattle_std::result::Result<Option<Leave<K, V, P>>, Foreign> {
        if entry.number() != self.number {
            return Err(Foreign);
        }
        self.take_back_at(entry.id(), entry.slot())
    }

    // Takes a handle of an id back, whose record may be in the hinted slot, and returns what left with it.
    #[inline(always)]
    pub(crate) fn take_back_at(
        &mut self,
        id: u64,
        hint: usize,
    ) -> crate::rattle_std::result::Result<Option<Leave<K, V, P>>, Foreign> {
        let Some(slot) = self.records.find(id, hint) else {
            return Err(Foreign);
        };
        let Some(found) = self.records.get(slot) else {
            crate::rattle_std::macros::unreachable!();
        };
        let handles = found.handles();
        if handles == 0 {
            return Err(Foreign);
        }
        if handles > 1 {
            self.records.take_handle(slot);
            return Ok(None);
        }
        if !found.is_resident() {
            return Ok(self.forget(slot));
        }
        self.records.take_handle(slot);
        self.eviction.release(Place::at(slot));
        Ok(None)
    }

    // Forgets a record that isn't resident, with its last handle.
    #[inline]
    fn forget(&mut self, slot: usize) -> Option<Leave<K, V, P>> {
        let gone = self.records.forget(slot);
        if gone.properties().phantom().unwrap_or(false) {
            return Some((Event::Evict, gone.into_left(self.number)));
        }
        None
    }

    // The number of the shard's core.
    #[inline]
    pub(crate) fn number(&self) -> u64 {
        self.number
    }

    // How many handles there are of an id, whose record may be in the hinted slot. Takes no memory.
    #[inline]
    pub(crate) fn handles(&self, id: u64, hint: usize) -> usize {
        let Some(slot) = self.records.find(id, hint) else {
            return 0;
        };
        match self.records.get(slot) {
            Some(found) => found.handles(),
            None => 0,
        }
    }

    // The record of an id, which may be in the hinted slot. Takes no memory.
    #[inline]
    pub(crate) fn held(&self, id: u64, hint: usize) -> Option<&Slot<K, V, P>> {
        let slot = self.records.find(id, hint)?;
        self.records.get(slot)
    }
}
