//! Inserts of new records.

// Written by rust/erase/erase.py from crates/foyer_core/src/store/insertion.rt: change that.
#[allow(unused_imports)]
use crate::rattle_std::prelude::*;
use super::Store;
use crate::proved::foyer_core::entry::{CoreEntry, Leave, discard_all};
use crate::proved::foyer_core::finder::Finder;
use crate::proved::foyer_core::outcome::{Further, Handles};
use crate::proved::foyer_core::record::Data;
use crate::proved::foyer_core::share::Share;
use crate::proved::foyer_core::slot::Slot;
use crate::proved::foyer_policy::{Error, Event, Eviction, Key, Properties, Reason, Result, Source, Value};
use crate::rattle_std::alloc::Global;

impl<E: Eviction, K: Key, V: Value, P: Properties, I: Finder<K>> Store<E, K, V, P, I> {
    /// Inserts a record as `Shard::emplace` does, and returns one handle and as many more as `further` says. Appends
    /// what leaves.
    #[inline]
    pub(crate) fn emplace(
        &mut self,
        alloc: Global,
        now: u64,
        kept: Share<K, V, P>,
        source: Source,
        further: Further,
        leaves: &mut Vec<Leave<K, V, P>>,
    ) -> Result<Handles<K, V, P>> {
        if let Some(reason) = self.share_refusal(&kept, further.count) {
            return Err(Error::new(reason));
        }
        let slot = Slot::outside(kept, self.next, 1 + further.count);
        self.emplace_slot(alloc, now, slot, source, further, leaves)
    }

    /// Inserts a record of these data as `emplace` does.
    #[inline]
    pub(crate) fn emplace_data(
        &mut self,
        alloc: Global,
        now: u64,
        kept: Data<K, V, P>,
        source: Source,
        further: Further,
        leaves: &mut Vec<Leave<K, V, P>>,
    ) -> Result<Handles<K, V, P>> {
        match Share::new(alloc, kept) {
            Ok(kept) => self.emplace(alloc, now, kept, source, further, leaves),
            Err(kept) => Err(self.out_of_memory(kept.hash, &kept.key, &kept.properties, kept.weight, further.count)),
        }
    }

    /// Inserts the record of an entry as `Shard::place` does.
    #[inline(always)]
    pub(crate) fn place(
        &mut self,
        now: u64,
        kept: Share<K, V, P>,
        entry: &mut CoreEntry<K, V, P>,
        leaves: &mut Vec<Leave<K, V, P>>,
    ) -> Result<()> {
        if let Some(reason) = self.share_refusal(&kept, 0) {
            return Err(Error::new(reason));
        }
        let (number, id) = (self.number, self.next);
        let Some(slot) = self.insert_slot(now, Slot::outside(kept, id, 1), leaves) else {
            return Err(Error::new(Reason::NoMemory));
        };
        entry.set_place(number, id, slot);
        Ok(())
    }

    /// Inserts a record of which no entry is wanted, as `Shard::put` does.
    #[inline(always)]
    pub(crate) fn put(
        &mut self,
        now: u64,
        kept: Share<K, V, P>,
        leaves: &mut Vec<Leave<K, V, P>>,
    ) -> Result<Option<Leave<K, V, P>>> {
        if let Some(reason) = self.share_refusal(&kept, 0) {
            return Err(Error::new(reason));
        }
        let id = self.next;
        let Some(slot) = self.insert_slot(now, Slot::outside(kept, id, 1), leaves) else {
            return Err(Error::new(Reason::NoMemory));
        };
        match self.take_back_at(id, slot) {
            Ok(last) => Ok(last),
            Err(_) => crate::rattle_std::macros::unreachable!(),
        }
    }

    // Inserts a record that only F7 can refuse, and makes handles of it. Appends what leaves.
    #[inline(always)]
    pub(crate) fn emplace_slot(
        &mut self,
        alloc: Global,
        now: u64,
        slot: Slot<K, V, P>,
        source: Source,
        further: Further,
        leaves: &mut Vec<Leave<K, V, P>>,
    ) -> Result<Handles<K, V, P>> {
        let Ok(others) = slot.entries(alloc, self.number, source, further) else {
            return Err(Error::new(Reason::NoMemory));
        };
        let Some(mut entry) = slot.entry(self.number, 0, source, true) else {
            discard_all(others);
            return Err(Error::new(Reason::NoMemory));
        };
        match self.insert_slot(now, slot, leaves) {
            Some(slot) => {
                entry.set_slot(slot);
                Ok(Handles { entry, others })
            }
            None => {
                entry.discard();
                discard_all(others);
                Err(Error::new(Reason::NoMemory))
            }
        }
    }

    // Inserts as `emplace_slot` does, with no entry, and returns the record's slot, or nothing if memory runs out. An entry with any
    // source would be of it.
    #[inline(always)]
    fn insert_slot(&mut self, now: u64, slot: Slot<K, V, P>, leaves: &mut Vec<Leave<K, V, P>>) -> Option<usize> {
        if slot.properties().phantom().unwrap_or(false) {
            return self.insert_phantom(slot, leaves);
        }
        self.insert_plain(now, slot, leaves)
    }

    // Inserts a plain record that only F7 can refuse: one with a new id, or one that comes back under its own.
    //
    // Never inlined, at a place where little is handed over: inlined with all around it, the caller would be too
    // large.
    #[inline(never)]
    fn insert_plain(&mut self, now: u64, mut slot: Slot<K, V, P>, leaves: &mut Vec<Leave<K, V, P>>) -> Option<usize> {
        let target = self.capacity.saturating_sub(slot.weight());
        let Ok(()) = self.prepare(&mut slot, leaves) else {
            return None;
        };
        let Ok(()) = self.evict_onto(now, leaves, target) else {
            return None;
        };
        match self.admit(slot) {
            Some((place, replaced)) => {
                if let Some(left) = replaced {
                    leaves.push_reserved((Event::Replace, left));
                }
                Some(place)
            }
            None => None,
        }
    }

    // Makes room for one record and for what leaves. The slot gets the share that it leaves with.
    #[inline(always)]
    fn prepare(&mut self, slot: &mut Slot<K, V, P>, leaves: &mut Vec<Leave<K, V, P>>) -> Result<()> {
        self.make_room(leaves)?;
        slot.come_in()
    }

    // Makes room for one record and for what leaves. F7 only if there wasn't all of it.
    #[inline(always)]
    fn make_room(&mut self, leaves: &mut Vec<Leave<K, V, P>>) -> Result<()> {
        self.records.reserve()?;
        let Some(places) = self.records.count().checked_add(1) else {
            // The span is a `usize`, and so not above the count.
            let _ = self.eviction.span();
            return Err(Error::new(Reason::NoMemory));
        };
        self.eviction.reserve_to(places)?;
        // Mostly one leaves, and one more may be replaced.
        leaves.reserve(2)?;
        Ok(())
    }
}
