//! Pieces of the records in the index, and a record taken out by its piece.

// Written by rust/erase/erase.py from crates/foyer_core/src/store/resident_pieces.rt: change that.
#[allow(unused_imports)]
use crate::rattle_std::prelude::*;
use super::Store;
use crate::proved::foyer_core::entry::Left;
use crate::proved::foyer_core::finder::Finder;
use crate::proved::foyer_core::piece::Piece;
use crate::proved::foyer_policy::{Error, Eviction, Key, Properties, Reason, Result, Value};
use crate::rattle_std::alloc::Global;

impl<E: Eviction, K: Key, V: Value, P: Properties, I: Finder<K>> Store<E, K, V, P, I> {
    /// Returns a piece of each record in the index, expired or not, in the policy's order. Fails only with F7.
    #[inline]
    pub fn pieces(&self, alloc: Global) -> Result<Vec<Piece<K, V, P>>> {
        let items = self.eviction.order()?;
        let mut pieces = Vec::new(alloc);
        let Ok(()) = pieces.reserve(items.len()) else {
            return Err(Error::new(Reason::NoMemory));
        };
        for item in &items {
            pieces.push_reserved(self.piece_of(item.id)?);
        }
        Ok(pieces)
    }

    // Returns a piece of the record of an id. Fails only with F7.
    #[inline]
    fn piece_of(&self, id: u64) -> Result<Piece<K, V, P>> {
        let Some(slot) = self.records.find(id, 0) else {
            crate::rattle_std::macros::unreachable!();
        };
        let Some(found) = self.records.get(slot) else {
            crate::rattle_std::macros::unreachable!();
        };
        let share = found.share()?;
        Ok(Piece::of_share(self.number, id, slot, share))
    }

    /// Returns whether the record of a piece is in the index. Takes no memory.
    #[inline]
    pub fn has_piece(&self, piece: &Piece<K, V, P>) -> bool {
        if piece.number() != self.number {
            return false;
        }
        match self.held(piece.id(), piece.slot()) {
            Some(found) => found.is_resident(),
            None => false,
        }
    }

    /// Takes the record of a piece out, if it is in the index, and returns what left. It takes no memory.
    #[inline]
    pub fn remove_piece(&mut self, piece: &Piece<K, V, P>) -> Option<Left<K, V, P>> {
        if piece.number() != self.number {
            return None;
        }
        let slot = self.records.find(piece.id(), piece.slot())?;
        let Some(found) = self.records.get(slot) else {
            crate::rattle_std::macros::unreachable!();
        };
        if !found.is_resident() {
            return None;
        }
        Some(self.take_out(piece.id(), slot))
    }
}
