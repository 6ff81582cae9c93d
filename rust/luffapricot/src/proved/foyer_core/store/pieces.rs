//! Inserts of pieces.

// Written by rust/erase/erase.py from crates/foyer_core/src/store/pieces.rt: change that.
#[allow(unused_imports)]
use crate::rattle_std::prelude::*;
use super::Store;
use crate::proved::foyer_core::entry::Leave;
use crate::proved::foyer_core::finder::Finder;
use crate::proved::foyer_core::outcome::{Further, Handles};
use crate::proved::foyer_core::piece::Piece;
use crate::proved::foyer_core::slot::Slot;
use crate::proved::foyer_policy::{Error, Eviction, Key, Properties, Reason, Result, Source, Value};
use crate::rattle_std::alloc::Global;

impl<E: Eviction, K: Key, V: Value, P: Properties, I: Finder<K>> Store<E, K, V, P, I> {
    /// Returns whether a piece, whose key has this hash, stands for a record of this shard, as `Shard::knows` does.
    #[inline]
    pub(crate) fn knows(&self, hash: u64, piece: &Piece<K, V, P>) -> bool {
        piece.number() == self.number && piece.hash() == hash && piece.id() < self.next
    }

    /// Returns the hash and the key under which a piece is inserted, whose key has this hash: those of its record, if
    /// the store knows that. Takes no memory.
    #[inline]
    pub(crate) fn key_under<'a>(&'a self, hash: u64, piece: &'a Piece<K, V, P>) -> (u64, &'a K) {
        if !self.knows(hash, piece) {
            return (hash, piece.key());
        }
        match self.held(piece.id(), piece.slot()) {
            Some(held) => (held.hash(), held.key()),
            None => (piece.hash(), piece.key()),
        }
    }

    /// Inserts the record of a piece as `Shard::emplace_piece` does, and returns one handle and as many more as
    /// `further` says.
    #[inline]
    pub(crate) fn emplace_piece(
        &mut self,
        alloc: Global,
        now: u64,
        piece: Piece<K, V, P>,
        hash: u64,
        weight: usize,
        further: Further,
        leaves: &mut Vec<Leave<K, V, P>>,
    ) -> Result<Handles<K, V, P>> {
        if !self.knows(hash, &piece) {
            let slot = Slot::outside(piece.into_share().with(hash, weight), self.next, 1);
            return self.emplace_new(alloc, now, slot, further, leaves);
        }
        let id = piece.id();
        match self.records.find(id, piece.slot()) {
            Some(slot) => self.emplace_known(alloc, now, slot, further, leaves),
            None => {
                let slot = Slot::outside(piece.into_share(), id, 1);
                self.emplace_new(alloc, now, slot, further, leaves)
            }
        }
    }

    // Gives more handles to the record of a slot, and inserts it if it isn't resident.
    #[inline]
    fn emplace_known(
        &mut self,
        alloc: Global,
        now: u64,
        slot: usize,
        further: Further,
        leaves: &mut Vec<Leave<K, V, P>>,
    ) -> Result<Handles<K, V, P>> {
        let Some(found) = self.records.get(slot) else {
            crate::rattle_std::macros::unreachable!();
        };
        if found.is_resident() {
            return self.hand_out(alloc, slot, further);
        }
        self.emplace_held(alloc, now, slot, further, leaves)
    }

    // Gives more handles to a resident record.
    #[inline]
    fn hand_out(&mut self, alloc: Global, slot: usize, further: Further) -> Result<Handles<K, V, P>> {
        let Some(found) = self.records.get(slot) else {
            crate::rattle_std::macros::unreachable!();
        };
        if self.passes_limit(found.handles(), further.count) {
            return Err(Error::new(Reason::Handles));
        }
        let Some(entry) = found.entry(self.number, slot, Source::Memory, true) else {
            return Err(Error::new(Reason::NoMemory));
        };
        let Ok(others) = found.entries(alloc, self.number, Source::Memory, further) else {
            entry.discard();
            return Err(Error::new(Reason::NoMemory));
        };
        self.records.add_handles(slot, 1 + further.count);
        Ok(Handles { entry, others })
    }

    // Inserts the record of a slot that isn't resident, or refuses it.
    #[inline]
    fn emplace_held(
        &mut self,
        alloc: Global,
        now: u64,
        slot: usize,
        further: Further,
        leaves: &mut Vec<Leave<K, V, P>>,
    ) -> Result<Handles<K, V, P>> {
        let Some(found) = self.records.get(slot) else {
            crate::rattle_std::macros::unreachable!();
        };
        let handles = found.handles();
        if let Some(reason) = self.slot_refusal(found, handles, further.count) {
            return Err(Error::new(reason));
        }
        let Ok(share) = found.share() else {
            return Err(Error::new(Reason::NoMemory));
        };
        let id = found.id();
        let slot = Slot::outside(share, id, handles + 1 + further.count);
        self.emplace_slot(alloc, now, slot, Source::Memory, further, leaves)
    }

    // Inserts a record that the store doesn't hold, or refuses it.
    #[inline]
    fn emplace_new(
        &mut self,
        alloc: Global,
        now: u64,
        mut slot: Slot<K, V, P>,
        further: Further,
        leaves: &mut Vec<Leave<K, V, P>>,
    ) -> Result<Handles<K, V, P>> {
        if let Some(reason) = self.slot_refusal(&slot, 0, further.count) {
            return Err(Error::new(reason));
        }
        slot.add_handles(further.count);
        self.emplace_slot(alloc, now, slot, Source::Memory, further, leaves)
    }
}
