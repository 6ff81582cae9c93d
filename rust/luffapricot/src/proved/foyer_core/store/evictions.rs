//! Evictions.

// Written by rust/erase/erase.py from crates/foyer_core/src/store/evictions.rt: change that.
#[allow(unused_imports)]
use crate::rattle_std::prelude::*;
use super::Store;
use crate::proved::foyer_core::entry::{Leave, Left};
use crate::proved::foyer_core::finder::Finder;
use crate::proved::foyer_policy::{Error, Event, Eviction, Key, Place, Properties, Reason, Result, Value};

impl<E: Eviction, K: Key, V: Value, P: Properties, I: Finder<K>> Store<E, K, V, P, I> {
    // Evicts one record: the first that is due at `now`, or else the policy's victim.
    #[inline(always)]
    pub(crate) fn evict_one(&mut self, now: u64) -> Result<Option<Left<K, V, P>>> {
        if let Some(place) = self.eviction.expired(now) {
            self.read_all_at(place);
            return Ok(Some(self.leave_due(place)));
        }
        self.pop_one()
    }

    // Evicts the record at this place in the policy.
    #[cold]
    #[inline(never)]
    fn leave_due(&mut self, place: Place) -> Left<K, V, P> {
        let item = self.eviction.item(place);
        self.take_out(item.id, place.number())
    }

    // Evicts the record that the policy pops.
    #[inline(always)]
    fn pop_one(&mut self) -> Result<Option<Left<K, V, P>>> {
        self.read_ahead();
        let Some(victim) = self.eviction.pop_at()? else {
            return Ok(None);
        };
        let slot = victim.0.number();
        let Some(found) = self.records.get(slot) else {
            crate::rattle_std::macros::unreachable!();
        };
        self.index.take(found.hash(), found.key(), slot);
        self.usage -= victim.1.weight;
        self.entries -= 1;
        Ok(Some(self.records.leave(slot, self.number)))
    }

    /// Evicts until the usage is at most the target, as `Shard::evict_onto` does.
    #[inline(always)]
    pub fn evict_onto(&mut self, now: u64, leaves: &mut Vec<Leave<K, V, P>>, target: usize) -> Result<()> {
        while self.usage > target {
            let Ok(()) = leaves.reserve(2) else {
                return Err(Error::new(Reason::NoMemory));
            };
            match self.evict_one(now) {
                Ok(Some(left)) => leaves.push_reserved((Event::Evict, left)),
                Ok(None) => return Ok(()),
                Err(_) => return Err(Error::new(Reason::NoMemory)),
            }
        }
        Ok(())
    }
}
