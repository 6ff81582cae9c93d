//! The records of a shard, by slot and by id.

// Written by rust/erase/erase.py from crates/foyer_core/src/records.rt: change that.
#[allow(unused_imports)]
use crate::rattle_std::prelude::*;
mod ids;

use crate::proved::foyer_core::entry::Left;
use crate::proved::foyer_core::slot::Slot;
use crate::proved::foyer_core::slots::{Iter, Slots};
use crate::proved::foyer_policy::{Error, Reason, Result};
use ids::Ids;
use crate::rattle_std::alloc::Global;
use crate::rattle_std::mem;

/// The records of a shard, by slot. The table of ids is asked only if a slot isn't known.
pub struct Records<K, V, P> {
    slots: Slots<Slot<K, V, P>>,
    ids: Ids,
}

impl<K, V, P> Records<K, V, P> {
    #[inline]
    pub fn new(alloc: Global) -> Self {
        Records { slots: Slots::new(alloc), ids: Ids::new(alloc) }
    }

    /// Makes room for one record.
    ///
    /// # Errors
    /// F7 if memory runs out.
    #[inline(always)]
    pub fn reserve(&mut self) -> Result<()> {
        let Ok(()) = self.slots.reserve() else {
            return Err(Error::new(Reason::NoMemory));
        };
        let Ok(()) = self.ids.reserve(self.slots.len()) else {
            return Err(Error::new(Reason::NoMemory));
        };
        Ok(())
    }

    /// Returns the number of slots. A new slot gets this number.
    #[inline(always)]
    pub fn count(&self) -> usize {
        self.slots.count()
    }

    /// Returns the record in a slot.
    #[inline(always)]
    pub fn get(&self, slot: usize) -> Option<&Slot<K, V, P>> {
        self.slots.get(slot)
    }

    /// Returns the slots with a record, by rising number.
    #[inline]
    pub fn iter(&self) -> Iter<'_, Slot<K, V, P>> {
        self.slots.iter()
    }

    /// Returns the slot of an id.
    #[inline(always)]
    pub fn stands(&self, id: u64) -> Option<usize> {
        self.ids.get(id)
    }

    /// Returns the slot of an id, which may be the hinted one.
    #[inline(always)]
    pub fn find(&self, id: u64, hint: usize) -> Option<usize> {
        if let Some(slot) = self.slots.get(hint) {
            if slot.id() == id {
                return Some(hint);
            }
        }
        self.stands(id)
    }

    /// Returns the slot for a record: the one that its id has, or else the next new one.
    #[inline(always)]
    pub fn slot_for(&self, stands: Option<usize>) -> usize {
        match stands {
            Some(slot) => slot,
            None => self.slots.next_slot(),
        }
    }

    /// Puts a record into the slot that its id has, or into a new one, and returns the slot and what it had. Needs
    /// room.
    #[inline(always)]
    pub fn put(&mut self, slot: Slot<K, V, P>, stands: Option<usize>) -> (usize, Option<Slot<K, V, P>>) {
        match stands {
            Some(place) => {
                let stood = self.replace(place, slot);
                (place, Some(stood))
            }
            None => (self.put_new(slot), None),
        }
    }

    // Enters a record with a new id, and returns its slot.
    #[inline(always)]
    fn put_new(&mut self, slot: Slot<K, V, P>) -> usize {
        let id = slot.id();
        let place = self.slots.insert(slot);
        self.ids.name(id, place);
        place
    }

    // Puts a record into the slot of its id, and returns what was there.
    #[inline(always)]
    fn replace(&mut self, place: usize, slot: Slot<K, V, P>) -> Slot<K, V, P> {
        let Some(found) = self.slots.get_mut(place) else {
            crate::rattle_std::macros::unreachable!();
        };
        mem::replace(found, slot)
    }

    /// Counts so many more handles.
    #[inline(always)]
    pub fn add_handles(&mut self, slot: usize, more: usize) {
        let Some(found) = self.slots.get_mut(slot) else {
            crate::rattle_std::macros::unreachable!();
        };
        found.add_handles(more);
    }

    /// Counts one more handle.
    #[inline(always)]
    pub fn add_handle(&mut self, slot: usize) {
        self.add_handles(slot, 1);
    }

    /// Counts one handle less.
    #[inline(always)]
    pub fn take_handle(&mut self, slot: usize) {
        let Some(found) = self.slots.get_mut(slot) else {
            crate::rattle_std::macros::unreachable!();
        };
        let _ = found.take_handle();
    }

    /// Removes the record of a slot.
    #[inline(always)]
    pub fn forget(&mut self, slot: usize) -> Slot<K, V, P> {
        let found = self.slots.remove(slot);
        self.ids.remove(found.id());
        found
    }

    /// Takes the record of a slot out of index and policy, and returns what leaves, in the core of this number. The
    /// record stays in its slot only while it has a handle.
    #[inline(always)]
    pub fn leave(&mut self, slot: usize, number: u64) -> Left<K, V, P> {
        let Some(found) = self.slots.get_mut(slot) else {
            crate::rattle_std::macros::unreachable!();
        };
        let left = found.leave(number);
        if found.handles() == 0 {
            let _ = self.forget(slot);
        }
        left
    }
}

impl<K: Eq, V, P> Records<K, V, P> {
    /// Returns whether the record in a slot has this key.
    #[inline(always)]
    pub fn has_key(&self, slot: usize, hash: u64, key: &K) -> bool {
        match self.slots.get(slot) {
            Some(found) => found.hash() == hash && *found.key() == *key,
            None => false,
        }
    }
}
