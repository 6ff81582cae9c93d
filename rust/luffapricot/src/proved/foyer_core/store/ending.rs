//! The end of a store: its resident records are told.

// Written by rust/erase/erase.py from crates/foyer_core/src/store/ending.rt: change that.
#[allow(unused_imports)]
use crate::rattle_std::prelude::*;
use super::Store;
use crate::proved::foyer_core::finder::Finder;
use crate::proved::foyer_policy::{Eviction, Item, Key, Properties, Value};

impl<E: Eviction, K: Key, V: Value, P: Properties, I: Finder<K>> Store<E, K, V, P, I> {
    // Tells each resident record, in the policy's order, or in the order of slots if there is no memory for that
    // order.
    #[inline]
    pub(crate) fn tell_residents<F: Fn(&K, &V)>(&self, tell: &F) {
        match self.eviction.order() {
            Ok(items) => self.tell_in_order(&items, tell),
            Err(_) => self.tell_by_slot(tell),
        }
    }

    // Tells the records of these items, which are all items.
    #[inline]
    fn tell_in_order<F: Fn(&K, &V)>(&self, items: &[Item], tell: &F) {
        for item in items {
            self.tell(item.id, tell);
        }
    }

    // Tells an id's record.
    #[inline]
    fn tell<F: Fn(&K, &V)>(&self, id: u64, tell: &F) {
        let Some(slot) = self.records.find(id, 0) else {
            crate::rattle_std::macros::unreachable!();
        };
        let Some(found) = self.records.get(slot) else {
            crate::rattle_std::macros::unreachable!();
        };
        tell(found.key(), found.value());
    }

    // Tells the resident records in the order of slots. Takes no memory.
    #[inline]
    fn tell_by_slot<F: Fn(&K, &V)>(&self, tell: &F) {
        for (_, slot) in self.records.iter() {
            if slot.is_resident() {
                tell(slot.key(), slot.value());
            }
        }
    }
}
