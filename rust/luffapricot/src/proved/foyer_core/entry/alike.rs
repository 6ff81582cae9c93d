//! Clones of records that left, and when two of them are equal.

// Written by rust/erase/erase.py from crates/foyer_core/src/entry/alike.rt: change that.
#[allow(unused_imports)]
use crate::rattle_std::prelude::*;
use super::Left;
use crate::rattle_std::alloc::AllocError;

impl<K, V, P> TryClone for Left<K, V, P> {
    /// Returns the same record with a share of its own. Fails if the reference count is full.
    #[inline]
    fn try_clone(&self) -> crate::rattle_std::result::Result<Self, AllocError> {
        let Ok(kept) = self.kept.try_clone() else {
            return Err(AllocError);
        };
        Ok(Left::new(self.number, self.id, kept))
    }
}

impl<K: PartialEq, V: PartialEq, P: PartialEq> PartialEq for Left<K, V, P> {
    /// Returns whether both have the same numbers of core and record, and equal data.
    #[inline]
    fn eq(&self, other: &Self) -> bool {
        self.number == other.number
            && self.id == other.id
            && self.key() == other.key()
            && self.value() == other.value()
            && self.properties() == other.properties()
            && self.hash() == other.hash()
            && self.weight() == other.weight()
    }
}
