//! Handles by name.

// Written by rust/erase/erase.py from crates/foyer_core/src/store/holds.rt: change that.
#[allow(unused_imports)]
use crate::rattle_std::prelude::*;
use super::Store;
use crate::proved::foyer_core::entry::{Leave, Left};
use crate::proved::foyer_core::finder::Finder;
use crate::proved::foyer_core::hold::{Hold, RecordRef};
use crate::proved::foyer_core::outcome::Foreign;
use crate::proved::foyer_core::prefetch;
use crate::proved::foyer_policy::{Error, Eviction, Key, Place, Properties, Reason, Result, Value};

impl<E: Eviction, K: Key, V: Value, P: Properties, I: Finder<K>> Store<E, K, V, P, I> {
    /// Counts a use of the record that the key hits at `now` and one handle more, as `Shard::hold` does.
    #[inline(always)]
    pub fn hold_key(&mut self, now: u64, hash: u64, key: &K) -> Result<Option<Hold>> {
        let Some((slot, found)) = self.live_under(now, hash, key) else {
            return Ok(None);
        };
        if found.handles() >= self.limits.handles {
            return Err(Error::new(Reason::Handles));
        }
        let place = Place::at(slot);
        prefetch::keep(self.eviction.look_ahead(place));
        let id = found.id();
        self.records.add_handle(slot);
        self.eviction.acquire(place);
        Ok(Some(Hold { hash, id, slot }))
    }

    /// Takes a handle back by its name, as `Shard::unhold` does.
    #[inline(always)]
    pub fn unhold(&mut self, hold: Hold) -> crate::rattle_std::result::Result<Option<Leave<K, V, P>>, Foreign> {
        self.take_back_at(hold.id, hold.slot)
    }

    /// Returns the record that is named, as `Shard::held` does.
    #[inline(always)]
    pub fn found(&self, hold: Hold) -> Option<RecordRef<'_, K, V, P>> {
        match self.held(hold.id, hold.slot) {
            Some(slot) => Some(RecordRef::new(slot)),
            None => None,
        }
    }

    /// Takes the record that is named out of the index, as `Shard::remove_this` does.
    #[inline]
    pub fn remove_this(&mut self, hold: Hold) -> Option<Left<K, V, P>> {
        let slot = self.records.find(hold.id, hold.slot)?;
        let Some(found) = self.records.get(slot) else {
            crate::rattle_std::macros::unreachable!();
        };
        if !found.is_resident() {
            return None;
        }
        Some(self.take_out(hold.id, slot))
    }

    /// Names a resident record, as `Shard::resident_from` does.
    #[inline]
    pub fn resident_from(&self, slot: usize) -> Option<Hold> {
        let slots = self.records.count();
        match self.resident_between(slot, slots) {
            Some(hold) => Some(hold),
            None => self.resident_between(0, slots),
        }
    }

    // Names the first record that is resident in one of these slots, the last of which is excluded.
    #[inline]
    fn resident_between(&self, first: usize, end: usize) -> Option<Hold> {
        for slot in first..end {
            match self.records.get(slot) {
                Some(found) if found.is_resident() => {
                    let (hash, id) = (found.hash(), found.id());
                    return Some(Hold { hash, id, slot });
                }
                _ => {}
            }
        }
        None
    }
}
