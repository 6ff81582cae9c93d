//! Evictions of records that a predicate picks.

// Written by rust/erase/erase.py from crates/foyer_core/src/store/picking.rt: change that.
#[allow(unused_imports)]
use crate::rattle_std::prelude::*;
use super::Store;
use super::clearing::leave_slot;
use crate::proved::foyer_core::entry::{Leave, Left};
use crate::proved::foyer_core::finder::Finder;
use crate::proved::foyer_policy::{Error, Event, Eviction, Item, Key, Place, Properties, Reason, Result, Value};
use crate::rattle_std::alloc::Global;

impl<E: Eviction, K: Key, V: Value, P: Properties, I: Finder<K>> Store<E, K, V, P, I> {
    /// Returns the items that the predicate picks, as `Shard::pick` does.
    #[inline]
    pub fn pick<F: Fn(&K, &V) -> bool>(&self, alloc: Global, predicate: &F) -> Result<Vec<Item>> {
        let items = self.eviction.order()?;
        let mut picked = Vec::new(alloc);
        let Ok(()) = picked.reserve(items.len()) else {
            return Err(Error::new(Reason::NoMemory));
        };
        for item in &items {
            if self.says(item.id, predicate) {
                picked.push_reserved(*item);
            }
        }
        Ok(picked)
    }

    // What the predicate returns for an id's record.
    #[inline]
    fn says<F: Fn(&K, &V) -> bool>(&self, id: u64, predicate: &F) -> bool {
        let Some(slot) = self.records.find(id, 0) else {
            crate::rattle_std::macros::unreachable!();
        };
        let Some(found) = self.records.get(slot) else {
            crate::rattle_std::macros::unreachable!();
        };
        predicate(found.key(), found.value())
    }

    /// Evicts the records of these items, as `Shard::evict_picked` does.
    #[inline]
    pub fn evict_picked(&mut self, picked: &[Item], leaves: &mut Vec<Leave<K, V, P>>) {
        for item in picked {
            let left = self.take_out(item.id, 0);
            leaves.push_reserved((Event::Evict, left));
        }
    }

    // Evicts the record of an id, which may be in the hinted slot.
    #[inline(always)]
    pub(crate) fn take_out(&mut self, id: u64, hint: usize) -> Left<K, V, P> {
        let Some(slot) = self.records.find(id, hint) else {
            crate::rattle_std::macros::unreachable!();
        };
        let item = self.eviction.remove(Place::at(slot));
        self.usage -= item.weight;
        self.entries -= 1;
        leave_slot(&mut self.index, &mut self.records, slot, self.number)
    }
}
