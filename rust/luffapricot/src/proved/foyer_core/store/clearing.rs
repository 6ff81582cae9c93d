//! The removal of all records.

// Written by rust/erase/erase.py from crates/foyer_core/src/store/clearing.rt: change that.
#[allow(unused_imports)]
use crate::rattle_std::prelude::*;
use super::Store;
use crate::proved::foyer_core::entry::{Leave, Left};
use crate::proved::foyer_core::finder::Finder;
use crate::proved::foyer_core::records::Records;
use crate::proved::foyer_policy::{Event, Eviction, Item, Key, Properties, Result, Value};

impl<E: Eviction, K: Key, V: Value, P: Properties, I: Finder<K>> Store<E, K, V, P, I> {
    /// Makes room for a `clear` and returns all items, as `Shard::reserve_clear` does.
    #[inline]
    pub fn reserve_clear(&mut self) -> Result<Vec<Item>> {
        self.eviction.reserve_clear()?;
        self.eviction.order()
    }

    /// Removes all records, as `Shard::clear` does.
    #[inline]
    pub fn clear(&mut self, items: &[Item], leaves: &mut Vec<Leave<K, V, P>>) {
        Self::leave_all(&mut self.index, &mut self.records, self.number, items, leaves);
        self.eviction.clear();
        self.usage = 0;
        self.entries = 0;
    }

    // Removes the records of these items from the index and their slots, in the core of this number.
    #[inline]
    fn leave_all(
        index: &mut I,
        records: &mut Records<K, V, P>,
        number: u64,
        items: &[Item],
        leaves: &mut Vec<Leave<K, V, P>>,
    ) {
        for item in items {
            let Some(slot) = records.find(item.id, 0) else {
                crate::rattle_std::macros::unreachable!();
            };
            let left = leave_slot(index, records, slot, number);
            leaves.push_reserved((Event::Clear, left));
        }
    }
}

// Removes the record in a slot, to which its key leads, from the index and the slot, in the core of this number.
#[inline(always)]
pub(crate) fn leave_slot<K: Key, V, P, I: Finder<K>>(
    index: &mut I,
    records: &mut Records<K, V, P>,
    slot: usize,
    number: u64,
) -> Left<K, V, P> {
    let Some(found) = records.get(slot) else {
        crate::rattle_std::macros::unreachable!();
    };
    index.take(found.hash(), found.key(), slot);
    records.leave(slot, number)
}
