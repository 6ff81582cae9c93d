//! Removals of all records of a shard, or of those that a predicate picks.

// Written by rust/erase/erase.py from crates/foyer_core/src/shard/clearing.rt: change that.
#[allow(unused_imports)]
use crate::rattle_std::prelude::*;
use super::Shard;
use crate::proved::foyer_core::entry::Leave;
use crate::proved::foyer_core::finder::Finder;
use crate::proved::foyer_policy::{Error, Eviction, Item, Key, Properties, Reason, Result, Value};
use crate::rattle_std::alloc::Global;

impl<E: Eviction, K: Key, V: Value, P: Properties, N, R, I: Finder<K>> Shard<E, K, V, P, N, R, I> {
    /// Makes room in the policy for a `clear`, and returns all items, in the policy's order.
    ///
    /// # Errors
    /// F7 if memory runs out; nothing else has changed.
    #[inline]
    pub fn reserve_clear(&mut self) -> Result<Vec<Item>> {
        self.store.reserve_clear()
    }

    /// Removes all records as `Clear`, in the policy's order, and appends them.
    ///
    /// Needs the room and the items of `reserve_clear`, and room in the list. Takes no memory.
    #[inline]
    pub fn clear(&mut self, items: &[Item], leaves: &mut Vec<Leave<K, V, P>>) {
        self.store.clear(items, leaves)
    }

    /// Removes all records as `Clear`, in the policy's order, and appends them.
    ///
    /// # Errors
    /// F7 if memory runs out; nothing has changed.
    #[inline]
    pub fn clear_onto(&mut self, leaves: &mut Vec<Leave<K, V, P>>) -> Result<()> {
        let items = self.reserve_clear()?;
        let Ok(()) = leaves.reserve(items.len()) else {
            return Err(Error::new(Reason::NoMemory));
        };
        self.clear(&items, leaves);
        Ok(())
    }

    /// Evicts the records for which the predicate returns true, pinned or not, in the policy's order, and appends
    /// them. The predicate is called once for each record.
    ///
    /// # Errors
    /// F7 if memory runs out; nothing has changed.
    #[inline]
    pub fn evict_if<F: Fn(&K, &V) -> bool>(
        &mut self,
        alloc: Global,
        predicate: &F,
        leaves: &mut Vec<Leave<K, V, P>>,
    ) -> Result<()> {
        let picked = self.pick(alloc, predicate)?;
        let Ok(()) = leaves.reserve(picked.len()) else {
            return Err(Error::new(Reason::NoMemory));
        };
        self.evict_picked(&picked, leaves);
        Ok(())
    }

    /// Returns the items of the records for which the predicate returns true, pinned or not, in the policy's order.
    /// The predicate is called once for each record.
    ///
    /// # Errors
    /// F7 if memory runs out.
    #[inline]
    pub fn pick<F: Fn(&K, &V) -> bool>(&self, alloc: Global, predicate: &F) -> Result<Vec<Item>> {
        self.store.pick(alloc, predicate)
    }

    /// Evicts the records of these items, in this order, and appends them.
    ///
    /// Each must be resident and named once, as `pick` returns them, and the list needs room. Takes no memory.
    #[inline]
    pub fn evict_picked(&mut self, picked: &[Item], leaves: &mut Vec<Leave<K, V, P>>) {
        self.store.evict_picked(picked, leaves)
    }
}
