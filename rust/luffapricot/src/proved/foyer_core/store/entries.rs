//! Calls on a shard's own entries.

// Written by rust/erase/erase.py from crates/foyer_core/src/store/entries.rt: change that.
#[allow(unused_imports)]
use crate::rattle_std::prelude::*;
use super::Store;
use crate::proved::foyer_core::entry::CoreEntry;
use crate::proved::foyer_core::finder::Finder;
use crate::proved::foyer_policy::{Error, Eviction, Key, Properties, Reason, Result, Value};

impl<E: Eviction, K: Key, V: Value, P: Properties, I: Finder<K>> Store<E, K, V, P, I> {
    /// Returns one more entry of the same record, as `Shard::clone_handle` does.
    #[inline]
    pub fn clone_handle(&mut self, entry: &CoreEntry<K, V, P>) -> Result<CoreEntry<K, V, P>> {
        let Some(slot) = self.records.find(entry.id(), entry.slot()) else {
            crate::rattle_std::macros::unreachable!();
        };
        let Some(found) = self.records.get(slot) else {
            crate::rattle_std::macros::unreachable!();
        };
        if found.handles() >= self.limits.handles {
            return Err(Error::new(Reason::Handles));
        }
        let clone = entry.share(slot)?;
        self.records.add_handle(slot);
        Ok(clone)
    }

    /// Returns how many handles an entry's record has. The entry must be this shard's.
    #[inline]
    pub fn refs(&self, entry: &CoreEntry<K, V, P>) -> usize {
        self.handles(entry.id(), entry.slot())
    }

    /// Returns whether an entry's record is no longer resident. The entry must be this shard's.
    #[inline]
    pub fn is_outdated(&self, entry: &CoreEntry<K, V, P>) -> bool {
        let Some(slot) = self.records.find(entry.id(), entry.slot()) else {
            crate::rattle_std::macros::unreachable!();
        };
        match self.records.get(slot) {
            Some(found) => !found.is_resident(),
            None => crate::rattle_std::macros::unreachable!(),
        }
    }
}
