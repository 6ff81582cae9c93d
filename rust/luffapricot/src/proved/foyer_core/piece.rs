//! Pieces: the data of records outside of their core.

// Written by rust/erase/erase.py from crates/foyer_core/src/piece.rt: change that.
#[allow(unused_imports)]
use crate::rattle_std::prelude::*;
use crate::proved::foyer_core::record::Record;
use crate::proved::foyer_core::share::Share;
use crate::proved::foyer_policy::Result;
use crate::rattle_std::alloc::AllocError;
use crate::rattle_std::fmt::{self, Debug};

/// The data of a record outside of its core, with the core's number and the record's id.
///
/// It isn't a handle: the record may leave.
pub struct Piece<K, V, P> {
    number: u64,
    id: u64,
    // Where the record was when the piece was made. It is only a hint.
    slot: usize,
    kept: Share<K, V, P>,
}

impl<K, V, P> Piece<K, V, P> {
    // The number of the core that made the piece.
    #[inline]
    pub(crate) fn number(&self) -> u64 {
        self.number
    }

    // The record's id.
    #[inline]
    pub(crate) fn id(&self) -> u64 {
        self.id
    }

    // The slot that the record may be in.
    #[inline]
    pub(crate) fn slot(&self) -> usize {
        self.slot
    }

    // The share of the record's data.
    #[inline]
    pub(crate) fn into_share(self) -> Share<K, V, P> {
        let Piece { kept, .. } = self;
        kept
    }

    // A piece with this share of a record's data. The record may be in this slot.
    #[inline]
    pub(crate) fn of_share(number: u64, id: u64, slot: usize, kept: Share<K, V, P>) -> Self {
        Piece { number, id, slot, kept }
    }
}

impl<K, V, P> Piece<K, V, P> {
    /// Creates a piece of a record that has this id in the core of this number.
    ///
    /// # Errors
    /// F7 if a reference count is full.
    #[inline]
    pub fn new(kept: &Record<K, V, P>, number: u64, id: u64) -> Result<Self> {
        let share = kept.share()?;
        Ok(Piece::of_share(number, id, 0, share))
    }

    /// Returns the key.
    #[inline]
    pub fn key(&self) -> &K {
        self.kept.key()
    }

    /// Returns the value.
    #[inline]
    pub fn value(&self) -> &V {
        self.kept.value()
    }

    /// Returns the properties.
    #[inline]
    pub fn properties(&self) -> &P {
        self.kept.properties()
    }

    /// Returns the key's hash.
    #[inline]
    pub fn hash(&self) -> u64 {
        self.kept.hash()
    }
}

impl<K, V, P> TryClone for Piece<K, V, P> {
    /// Returns the same piece with a share of its own. Fails if the reference count is full.
    #[inline]
    fn try_clone(&self) -> crate::rattle_std::result::Result<Self, AllocError> {
        let Ok(kept) = self.kept.try_clone() else {
            return Err(AllocError);
        };
        Ok(Piece::of_share(self.number, self.id, self.slot, kept))
    }
}

impl<K, V, P> Debug for Piece<K, V, P> {
    #[inline]
    fn fmt(&self, f: &mut fmt::Formatter<'_>) -> fmt::Result {
        f.debug_struct("Piece").field("record", &self.id).field("hash", &self.kept.hash()).finish()
    }
}
