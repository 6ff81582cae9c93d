//! Slots: where a shard keeps its records.

// Written by rust/erase/erase.py from crates/foyer_core/src/slot.rt: change that.
#[allow(unused_imports)]
use crate::rattle_std::prelude::*;
use crate::proved::foyer_core::entry::{CoreEntry, Left, discard_all};
use crate::proved::foyer_core::outcome::Further;
use crate::proved::foyer_core::share::{Body, Share};
use crate::proved::foyer_policy::{Error, Reason, Result, Source};
use crate::rattle_std::alloc::Global;

use crate::rattle_std::sync::Arc;

/// A record with its id. A resident record has one more share of its body, with which it leaves. Its place in the
/// policy has the number of its slot.
///
/// The fields stand in the order of their use. An allocator puts a large block 16 bytes behind the beginning of a cache
/// line, so the first 48 bytes of a cell are one line of memory, and a drop needs no more.
pub struct Slot<K, V, P> {
    id: u64,
    body: Arc<Body<K, V, P>, Global>,
    hash: u64,
    handles: usize,
    leave: Option<Arc<Body<K, V, P>, Global>>,
    weight: usize,
}

impl<K, V, P> Slot<K, V, P> {
    /// Creates a record with this share of its data and so many handles, in neither index nor policy.
    #[inline(always)]
    pub fn outside(kept: Share<K, V, P>, id: u64, handles: usize) -> Self {
        let (body, hash, weight) = kept.into_parts();
        Slot { id, body, hash, handles, leave: None, weight }
    }

    /// Gives the record the share with which it leaves.
    ///
    /// # Errors
    /// F7 if the reference count is full.
    #[inline(always)]
    pub fn come_in(&mut self) -> Result<()> {
        let Ok(body) = Arc::try_clone(&self.body) else {
            return Err(Error::new(Reason::NoMemory));
        };
        self.leave = Some(body);
        Ok(())
    }

    // One more share of the record's data, or nothing if the reference count is full.
    #[inline(always)]
    fn another(&self) -> Option<Share<K, V, P>> {
        let body = Arc::try_clone(&self.body).ok()?;
        Some(Share::of_body(body, self.hash, self.weight))
    }

    /// Returns one more share of the record's data.
    ///
    /// # Errors
    /// F7 if the reference count is full.
    #[inline(always)]
    pub fn share(&self) -> Result<Share<K, V, P>> {
        match self.another() {
            Some(share) => Ok(share),
            None => Err(Error::new(Reason::NoMemory)),
        }
    }

    /// Returns what the record leaves with, in the core of this number.
    ///
    /// # Errors
    /// F7 if the reference count is full.
    #[inline(always)]
    pub fn left(&self, number: u64) -> Result<Left<K, V, P>> {
        let share = self.share()?;
        Ok(Left::new(number, self.id, share))
    }

    #[inline(always)]
    pub fn id(&self) -> u64 {
        self.id
    }

    #[inline(always)]
    pub fn hash(&self) -> u64 {
        self.hash
    }

    #[inline(always)]
    pub fn key(&self) -> &K {
        &self.body.key
    }

    #[inline(always)]
    pub fn value(&self) -> &V {
        &self.body.value
    }

    #[inline(always)]
    pub fn properties(&self) -> &P {
        &self.body.properties
    }

    #[inline(always)]
    pub fn weight(&self) -> usize {
        self.weight
    }

    #[inline(always)]
    pub fn handles(&self) -> usize {
        self.handles
    }

    #[inline(always)]
    pub fn is_resident(&self) -> bool {
        self.leave.is_some()
    }

    /// Returns an entry of the record, not yet counted, or nothing if the reference count is full. If `told`, it gets a share
    /// for `left`.
    #[inline(always)]
    pub fn entry(&self, number: u64, slot: usize, source: Source, told: bool) -> Option<CoreEntry<K, V, P>> {
        CoreEntry::new(number, self.id, slot, self.another()?, source, told)
    }

    /// Returns entries of the record, not yet counted, in a list with spare room, both as `further` says.
    ///
    /// # Errors
    /// F7 if memory runs out or the reference count is full.
    #[inline(always)]
    pub fn entries(
        &self,
        alloc: Global,
        number: u64,
        source: Source,
        further: Further,
    ) -> Result<Vec<CoreEntry<K, V, P>>> {
        let Ok(mut entries) = Vec::with_capacity(alloc, further.count + further.room) else {
            return Err(Error::new(Reason::NoMemory));
        };
        for _made in 0..further.count {
            match self.entry(number, 0, source, true) {
                Some(entry) => entries.push_reserved(entry),
                None => {
                    discard_all(entries);
                    return Err(Error::new(Reason::NoMemory));
                }
            }
        }
        Ok(entries)
    }

    /// Counts so many more handles.
    #[inline(always)]
    pub fn add_handles(&mut self, more: usize) {
        self.handles += more;
    }

    /// Counts one handle less, and returns how many are left.
    #[inline(always)]
    pub fn take_handle(&mut self) -> usize {
        self.handles -= 1;
        self.handles
    }

    /// Takes the record out of index and policy, and returns what leaves, in the core of this number.
    #[inline(always)]
    pub fn leave(&mut self, number: u64) -> Left<K, V, P> {
        match self.leave.take() {
            Some(body) => Left::new(number, self.id, Share::of_body(body, self.hash, self.weight)),
            None => crate::rattle_std::macros::unreachable!(),
        }
    }

    /// Returns what leaves, in the core of this number.
    #[inline(always)]
    pub fn into_left(self, number: u64) -> Left<K, V, P> {
        let Slot { id, body, hash, weight, .. } = self;
        Left::new(number, id, Share::of_body(body, hash, weight))
    }
}
