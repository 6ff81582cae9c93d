//! Items as nodes keep them, in less room, each with a number beside it.

// Written by rust/erase/erase.py from crates/foyer_policy/src/kept.rt: change that.
#[allow(unused_imports)]
use crate::rattle_std::prelude::*;
use crate::proved::foyer_policy::queued::Queued;
use crate::proved::foyer_policy::types::Item;

/// An item as a node keeps it if its policy has no state. A contract sees the item.
pub(crate) struct Kept {
    parts: Queued<()>,
}

impl Kept {
    /// Keeps an item.
    #[inline(always)]
    pub(crate) fn of(item: Item) -> Self {
        Kept { parts: Queued::of(item, ()) }
    }

    /// Returns the item.
    #[inline(always)]
    pub(crate) fn whole(&self) -> Item {
        self.parts.whole()
    }

    /// Returns the number that was set last, or 0. No contract sees it.
    #[inline(always)]
    pub(crate) fn slot(&self) -> usize {
        self.parts.slot()
    }

    /// Sets the number, of which the low 32 bits are kept. The item stays.
    #[inline(always)]
    pub(crate) fn set_slot(&mut self, slot: usize) {
        self.parts.set_slot(slot);
    }
}
