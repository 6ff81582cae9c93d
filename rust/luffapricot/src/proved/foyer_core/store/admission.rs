//! How a record is entered in index and policy, once there is room.

// Written by rust/erase/erase.py from crates/foyer_core/src/store/admission.rt: change that.
#[allow(unused_imports)]
use crate::rattle_std::prelude::*;
use super::Store;
use crate::proved::foyer_core::entry::Left;
use crate::proved::foyer_core::finder::Finder;
use crate::proved::foyer_core::records::Records;
use crate::proved::foyer_core::slot::Slot;
use crate::proved::foyer_policy::{Eviction, Hint, Item, Key, Place, Properties, Value};

impl<E: Eviction, K: Key, V: Value, P: Properties, I: Finder<K>> Store<E, K, V, P, I> {
    // Enters a record, for which there is room, in place of what is held under its id, and removes its key's record.
    // Returns nothing if the index has no room; nothing has changed.
    #[inline(always)]
    pub(crate) fn admit(&mut self, slot: Slot<K, V, P>) -> Option<(usize, Option<Left<K, V, P>>)> {
        let hash = slot.hash();
        let weight = slot.weight();
        let hint = slot.properties().hint().unwrap_or(Hint::Normal);
        let expires = slot.properties().expiry();
        let id = slot.id();
        let key = slot.key();
        let was = self.slot_under(hash, key);
        let stands = self.stands(id);
        let number = self.records.slot_for(stands);
        let Ok(()) = self.index.put(hash, key, was, number) else {
            return None;
        };
        let _ = self.records.put(slot, stands);
        let (gone, replaced) = give_way(&mut self.eviction, &mut self.records, self.number, was);
        self.usage -= gone;
        self.entries -= replaced.is_some() as u64;
        let item = Item { id, hash, weight, hint, expires };
        self.eviction.push_at(Place::at(number), item);
        self.usage += weight;
        self.entries += 1;
        self.next = above(self.next, id);
        Some((number, replaced))
    }

    // The slot of an id. An id that wasn't given has none.
    #[inline(always)]
    pub(crate) fn stands(&self, id: u64) -> Option<usize> {
        if id >= self.next {
            return None;
        }
        self.records.stands(id)
    }
}

// The next number once this id is used.
#[inline(always)]
pub(crate) fn above(next: u64, id: u64) -> u64 {
    if id < next { next } else { id + 1 }
}

// Removes the record that a key had, if it had one: returns its weight and what leaves, in the core of this number.
#[inline(always)]
fn give_way<E: Eviction, K, V, P>(
    eviction: &mut E,
    records: &mut Records<K, V, P>,
    number: u64,
    was: Option<usize>,
) -> (usize, Option<Left<K, V, P>>) {
    let Some(slot) = was else {
        return (0, None);
    };
    let (weight, left) = leave_way(eviction, records, number, slot);
    (weight, Some(left))
}

// Removes the record in a slot: returns its weight and what leaves, in the core of this number.
#[cold]
#[inline(never)]
fn leave_way<E: Eviction, K, V, P>(
    eviction: &mut E,
    records: &mut Records<K, V, P>,
    number: u64,
    slot: usize,
) -> (usize, Left<K, V, P>) {
    let item = eviction.remove(Place::at(slot));
    (item.weight, records.leave(slot, number))
}
