//! Inserts of phantom records, which are never in the index.

// Written by rust/erase/erase.py from crates/foyer_core/src/store/phantoms.rt: change that.
#[allow(unused_imports)]
use crate::rattle_std::prelude::*;
use super::Store;
use super::admission::above;
use crate::proved::foyer_core::entry::{Leave, Left};
use crate::proved::foyer_core::finder::Finder;
use crate::proved::foyer_core::slot::Slot;
use crate::proved::foyer_policy::{Event, Eviction, Key, Properties, Result, Value};

impl<E: Eviction, K: Key, V: Value, P: Properties, I: Finder<K>> Store<E, K, V, P, I> {
    // Inserts a phantom record that only F7 can refuse: replaces its key's record, and is held by its entries alone.
    // It has a new id, or comes back under its own.
    #[cold]
    #[inline(never)]
    pub(crate) fn insert_phantom(&mut self, slot: Slot<K, V, P>, leaves: &mut Vec<Leave<K, V, P>>) -> Option<usize> {
        let Ok(gone) = self.prepare_phantom(&slot, leaves) else {
            return None;
        };
        if let Some(left) = self.make_way(slot.hash(), slot.key()) {
            leaves.push_reserved((Event::Replace, left));
        }
        leaves.push_reserved((Event::Remove, gone));
        Some(self.hold(slot))
    }

    // Makes room for one record that isn't indexed and for two that leave, and returns what it is reported with.
    #[inline]
    fn prepare_phantom(&mut self, slot: &Slot<K, V, P>, leaves: &mut Vec<Leave<K, V, P>>) -> Result<Left<K, V, P>> {
        leaves.reserve(2)?;
        self.records.reserve()?;
        slot.left(self.number)
    }

    // Removes the key's record, if it has one.
    #[inline]
    fn make_way(&mut self, hash: u64, key: &K) -> Option<Left<K, V, P>> {
        let Some(slot) = self.slot_under(hash, key) else {
            return None;
        };
        let Some(found) = self.records.get(slot) else {
            crate::rattle_std::macros::unreachable!();
        };
        let id = found.id();
        Some(self.take_out(id, slot))
    }

    // Holds a record that isn't indexed, in place of what is held under its id, and returns its slot. Needs room.
    #[inline]
    fn hold(&mut self, slot: Slot<K, V, P>) -> usize {
        let id = slot.id();
        let stands = self.stands(id);
        let (place, _stood) = self.records.put(slot, stands);
        self.next = above(self.next, id);
        place
    }
}
