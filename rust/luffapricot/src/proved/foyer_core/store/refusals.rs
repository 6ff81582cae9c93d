//! Why an insert fails whatever memory there is: F10, F9 and F8.

// Written by rust/erase/erase.py from crates/foyer_core/src/store/refusals.rt: change that.
#[allow(unused_imports)]
use crate::rattle_std::prelude::*;
use super::Store;
use crate::proved::foyer_core::finder::Finder;
use crate::proved::foyer_core::share::Share;
use crate::proved::foyer_core::slot::Slot;
use crate::proved::foyer_policy::{Error, Eviction, Key, Place, Properties, Reason, Value};

impl<E: Eviction, K: Key, V: Value, P: Properties, I: Finder<K>> Store<E, K, V, P, I> {
    // Why a new record can't be inserted, with so many handles beside the first, whatever memory there is.
    #[inline(always)]
    pub(crate) fn share_refusal(&self, kept: &Share<K, V, P>, further: usize) -> Option<Reason> {
        self.new_refusal(kept.hash(), kept.key(), kept.properties(), kept.weight(), further)
    }

    // Why a new record with these parts can't be inserted, whatever its value is.
    #[inline(always)]
    pub(crate) fn new_refusal(
        &self,
        hash: u64,
        key: &K,
        properties: &P,
        weight: usize,
        further: usize,
    ) -> Option<Reason> {
        if properties.phantom().unwrap_or(false) {
            self.hold_refusal(self.next, 0, further)
        } else {
            self.refusal(self.next, 0, further, hash, key, weight)
        }
    }

    // The error of an insert of a new record with these parts for which memory runs out: F10, F9 or F8 if it has one of
    // these, else F7.
    #[cold]
    pub(crate) fn out_of_memory(&self, hash: u64, key: &K, properties: &P, weight: usize, further: usize) -> Error {
        let refusal = self.new_refusal(hash, key, properties, weight, further);
        Error::new(refusal.unwrap_or(Reason::NoMemory))
    }

    // Why the record of a slot can't be inserted, with one handle more than these and so many further ones, whatever
    // memory there is.
    #[inline]
    pub(crate) fn slot_refusal(&self, slot: &Slot<K, V, P>, held: usize, further: usize) -> Option<Reason> {
        if slot.properties().phantom().unwrap_or(false) {
            self.hold_refusal(slot.id(), held, further)
        } else {
            self.refusal(slot.id(), held, further, slot.hash(), slot.key(), slot.weight())
        }
    }

    // Why a plain record can't be inserted, whatever memory there is.
    #[inline(always)]
    fn refusal(&self, id: u64, held: usize, further: usize, hash: u64, key: &K, weight: usize) -> Option<Reason> {
        if let Some(reason) = self.hold_refusal(id, held, further) {
            return Some(reason);
        }
        if !self.fits_beside_pinned(hash, key, weight) {
            return Some(Reason::Weight);
        }
        None
    }

    // Why a record can't have these handles, whatever memory there is.
    #[inline(always)]
    fn hold_refusal(&self, id: u64, held: usize, further: usize) -> Option<Reason> {
        if id >= self.next && id >= self.limits.ids {
            return Some(Reason::Ids);
        }
        if self.passes_limit(held, further) {
            return Some(Reason::Handles);
        }
        None
    }

    // Whether one handle more than these, and so many further ones, pass the limit. Their sum may pass a `usize`,
    // which the limit doesn't.
    #[inline(always)]
    pub(crate) fn passes_limit(&self, held: usize, further: usize) -> bool {
        let limit = self.limits.handles;
        match held.checked_add(further) {
            Some(others) => limit <= others,
            None => true,
        }
    }

    // Whether a weight and the pinned weight of other keys fit a `usize` together.
    #[inline(always)]
    fn fits_beside_pinned(&self, hash: u64, key: &K, weight: usize) -> bool {
        let pinned = self.eviction.pinned_weight();
        weight <= usize::MAX - pinned || weight <= usize::MAX - (pinned - self.own_pinned(hash, key))
    }

    // The weight of a key's record, if that is pinned.
    #[inline]
    pub(crate) fn own_pinned(&self, hash: u64, key: &K) -> usize {
        let Some(slot) = self.slot_under(hash, key) else {
            return 0;
        };
        let Some(found) = self.records.get(slot) else {
            crate::rattle_std::macros::unreachable!();
        };
        let pinned = self.eviction.is_pinned(Place::at(slot));
        if pinned { found.weight() } else { 0 }
    }
}
