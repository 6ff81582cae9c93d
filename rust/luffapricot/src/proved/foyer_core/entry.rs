//! Entries, which are handles of records, and records that left.

// Written by rust/erase/erase.py from crates/foyer_core/src/entry.rt: change that.
#[allow(unused_imports)]
use crate::rattle_std::prelude::*;
use crate::proved::foyer_core::hold::Hold;
use crate::proved::foyer_core::piece::Piece;
use crate::proved::foyer_core::share::Share;
use crate::proved::foyer_policy::{Error, Event, Reason, Result, Source};

mod alike;
mod tail;

use tail::Tail;

/// A record that left. Its data stays readable.
pub struct Left<K, V, P> {
    number: u64,
    id: u64,
    kept: Share<K, V, P>,
}

impl<K, V, P> Left<K, V, P> {
    #[inline(always)]
    pub(crate) fn new(number: u64, id: u64, kept: Share<K, V, P>) -> Self {
        Left { number, id, kept }
    }

    /// Returns the record's id, which its shard gives once.
    #[inline(always)]
    pub fn id(&self) -> u64 {
        self.id
    }

    /// Returns the key.
    #[inline(always)]
    pub fn key(&self) -> &K {
        self.kept.key()
    }

    /// Returns the value.
    #[inline(always)]
    pub fn value(&self) -> &V {
        self.kept.value()
    }

    /// Returns the properties.
    #[inline(always)]
    pub fn properties(&self) -> &P {
        self.kept.properties()
    }

    /// Returns the key's hash.
    #[inline(always)]
    pub fn hash(&self) -> u64 {
        self.kept.hash()
    }

    /// Returns the weight.
    #[inline(always)]
    pub fn weight(&self) -> usize {
        self.kept.weight()
    }

    /// Returns a piece of the record. Takes no memory.
    #[inline]
    pub fn piece(self) -> Piece<K, V, P> {
        let Left { number, id, kept } = self;
        Piece::of_share(number, id, 0, kept)
    }
}

/// Why a record left, and the record.
pub type Leave<K, V, P> = (Event, Left<K, V, P>);

/// A handle of a core's record: the data stays readable, even after eviction.
///
/// It must be spent, by `give_back` or `drop_entry` of that core, or by `discard` if the core is gone.
pub struct CoreEntry<K, V, P> {
    number: u64,
    id: u64,
    kept: Share<K, V, P>,
    tail: Tail<K, V, P>,
}

impl<K, V, P> CoreEntry<K, V, P> {
    /// Returns an entry of a record that is to be inserted with this share of its data. It is nobody's until then.
    ///
    /// If `told`, it gets a share for `left`. Returns nothing if the reference count is full.
    #[inline(always)]
    pub fn of_share(kept: &Share<K, V, P>, source: Source, told: bool) -> Option<Self> {
        CoreEntry::new(0, 0, 0, kept.another()?, source, told)
    }

    // Returns an entry of the record with this share of its data, not yet counted. If `told`, it gets a share for `left`.
    // Returns nothing if the reference count is full.
    #[inline(always)]
    pub(crate) fn new(
        number: u64,
        id: u64,
        slot: usize,
        kept: Share<K, V, P>,
        source: Source,
        told: bool,
    ) -> Option<Self> {
        let share = if told { Some(kept.body()?) } else { None };
        Some(CoreEntry { number, id, kept, tail: Tail::new(source, slot, share) })
    }

    // The number of the core that made the entry.
    #[inline(always)]
    pub(crate) fn number(&self) -> u64 {
        self.number
    }

    /// Returns the record's id, which its shard gives once.
    #[inline(always)]
    pub fn id(&self) -> u64 {
        self.id
    }

    // Sets the slot of the record.
    #[inline(always)]
    pub(crate) fn set_slot(&mut self, slot: usize) {
        self.tail.set_slot(slot);
    }

    // Sets where the record stands: the number of the core, the record's id and its slot.
    #[inline(always)]
    pub(crate) fn set_place(&mut self, number: u64, id: u64, slot: usize) {
        self.number = number;
        self.id = id;
        self.tail.set_slot(slot);
    }

    // The slot that the record may be in.
    #[inline(always)]
    pub(crate) fn slot(&self) -> usize {
        self.tail.slot()
    }

    /// Returns the key's hash.
    #[inline(always)]
    pub fn hash(&self) -> u64 {
        self.kept.hash()
    }

    /// Returns the key.
    #[inline(always)]
    pub fn key(&self) -> &K {
        self.kept.key()
    }

    /// Returns the value.
    #[inline(always)]
    pub fn value(&self) -> &V {
        self.kept.value()
    }

    /// Returns the properties.
    #[inline(always)]
    pub fn properties(&self) -> &P {
        self.kept.properties()
    }

    /// Returns the weight.
    #[inline(always)]
    pub fn weight(&self) -> usize {
        self.kept.weight()
    }

    /// Returns where the entry came from.
    #[inline(always)]
    pub fn source(&self) -> Source {
        self.tail.source()
    }

    /// Returns what the record would leave with, once: it has a share of the data for that.
    #[inline]
    pub fn left(&mut self) -> Option<Left<K, V, P>> {
        match self.tail.take_share() {
            Some(body) => {
                Some(Left::new(self.number, self.id, Share::of_body(body, self.kept.hash(), self.kept.weight())))
            }
            None => None,
        }
    }

    /// Returns a piece of the record.
    ///
    /// # Errors
    /// F7 if a reference count is full.
    #[inline]
    pub fn piece(&self) -> Result<Piece<K, V, P>> {
        let share = self.kept.try_clone()?;
        Ok(Piece::of_share(self.number, self.id, self.slot(), share))
    }

    // An entry like this one, with its own share for `left`, of a record in this slot. F7 if the reference count is
    // full.
    #[inline]
    pub(crate) fn share(&self, slot: usize) -> Result<Self> {
        let kept = self.kept.try_clone()?;
        match CoreEntry::new(self.number, self.id, slot, kept, self.source(), true) {
            Some(entry) => Ok(entry),
            None => Err(Error::new(Reason::NoMemory)),
        }
    }

    /// Returns the entry's handle by its name, which `unhold` of its core spends. Its shares go.
    #[inline(always)]
    pub fn into_hold(self) -> Hold {
        let hold = Hold { hash: self.hash(), id: self.id, slot: self.slot() };
        self.discard();
        hold
    }

    /// Discards an entry whose core is gone. No core changes.
    #[inline(always)]
    pub fn discard(self) {
        let CoreEntry { number: _, id: _, kept: _, tail: _ } = self;
    }
}

// Ends entries that were not counted, or whose core is gone.
#[inline]
pub(crate) fn discard_all<K, V, P>(mut entries: Vec<CoreEntry<K, V, P>>) {
    while let Some(entry) = entries.pop() {
        entry.discard();
    }
    entries.destroy_empty();
}
