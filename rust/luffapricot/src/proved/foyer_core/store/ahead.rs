//! Reads ahead of an eviction.
//!
//! A share is counted by a locked instruction, and each read behind it waits until those before it are done. So what
//! will be read of records and of the policy's nodes is read before shares are counted, all at once; for an expired
//! record also what leads to it by its id and by its key.

// Written by rust/erase/erase.py from crates/foyer_core/src/store/ahead.rt: change that.
#[allow(unused_imports)]
use crate::rattle_std::prelude::*;
use super::Store;
use crate::proved::foyer_core::finder::Finder;
use crate::proved::foyer_core::prefetch;
use crate::proved::foyer_policy::{Eviction, Hint, Key, Place, Properties, Value};

impl<E: Eviction, K: Key, V: Value, P: Properties, I: Finder<K>> Store<E, K, V, P, I> {
    // Reads the data of the record that may leave next, and the slot and the node of the one behind it.
    #[inline(always)]
    pub(crate) fn read_ahead(&self) {
        let (first, second) = self.eviction.ahead();
        let is_slot_read = match second {
            Some(place) => self.slot_agrees(place),
            None => true,
        };
        let is_data_read = match first {
            Some(place) => self.data_agrees(place),
            None => true,
        };
        prefetch::keep(is_slot_read && is_data_read);
    }

    // Reads all that changes when the record at a place in the policy leaves: its data, its neighbors in the policy,
    // and what leads to it by its id and by its key.
    #[inline(always)]
    pub(crate) fn read_all_at(&self, place: Place) {
        let item = self.eviction.item(place);
        let slot = place.number();
        let Some(found) = self.records.get(slot) else {
            return;
        };
        prefetch::keep(
            self.data_agrees(place)
                && self.eviction.look_ahead(place)
                && self.records.stands(item.id) == Some(slot)
                && self.slot_under(item.hash, found.key()) == Some(slot),
        );
    }

    // Whether the slot and the policy have the same weight at a place. They do.
    #[inline(always)]
    fn slot_agrees(&self, place: Place) -> bool {
        match self.records.get(place.number()) {
            Some(found) => found.weight() == self.eviction.item(place).weight,
            None => false,
        }
    }

    // Whether the record and the policy have the same weight and hint at a place. They do.
    #[inline(always)]
    fn data_agrees(&self, place: Place) -> bool {
        let item = self.eviction.item(place);
        match self.records.get(place.number()) {
            Some(found) => {
                found.weight() == item.weight && found.properties().hint().unwrap_or(Hint::Normal) == item.hint
            }
            None => false,
        }
    }
}
