//! Items in lists, alone or with the state that a policy keeps beside them.

// Written by rust/erase/erase.py from crates/foyer_policy/src/queued.rt: change that.
#[allow(unused_imports)]
use crate::rattle_std::prelude::*;
use crate::proved::foyer_policy::dated_lists::DatedLists;
use crate::proved::foyer_policy::error::{Error, Reason, Result};
use crate::proved::foyer_policy::kept::Kept;
use crate::proved::foyer_policy::lists::Place;
use crate::proved::foyer_policy::types::{Hint, Item};

/// A value of a list that holds an item.
pub(crate) trait HasItem {
    fn item(&self) -> Item;

    // The number that was set last, or 0. No contract sees it.
    fn slot(&self) -> usize;

    fn set_slot(&mut self, slot: usize);
}

/// What a policy keeps beside an item.
pub(crate) trait ItemState: Copy {
    /// Returns true only if the states are equal.
    fn is(&self, other: &Self) -> bool;
}

impl HasItem for Kept {
    #[inline(always)]
    fn item(&self) -> Item {
        self.whole()
    }

    #[inline(always)]
    fn slot(&self) -> usize {
        Kept::slot(self)
    }

    #[inline(always)]
    fn set_slot(&mut self, slot: usize) {
        Kept::set_slot(self, slot);
    }
}

/// An item with a small state, in no more bytes than the item alone. Whether the record expires, the state, and a
/// number that no contract sees are beside the hint.
pub(crate) struct Queued<S> {
    slot: u32,
    hint: Hint,
    expires: bool,
    state: S,
    hash: u64,
    weight: usize,
    id: u64,
    // 0 if the record does not expire
    moment: u64,
}

impl<S> Queued<S> {
    /// Keeps an item with a state.
    #[inline(always)]
    pub(crate) fn of(item: Item, state: S) -> Self {
        let (expires, moment) = match item.expires {
            Some(moment) => (true, moment),
            None => (false, 0),
        };
        Queued { slot: 0, hint: item.hint, expires, state, hash: item.hash, weight: item.weight, id: item.id, moment }
    }

    /// Returns the item.
    #[inline(always)]
    pub(crate) fn whole(&self) -> Item {
        Item {
            id: self.id,
            hash: self.hash,
            weight: self.weight,
            hint: self.hint,
            expires: if self.expires { Some(self.moment) } else { None },
        }
    }

    /// Returns the number that was set last, or 0. No contract sees it.
    #[inline(always)]
    pub(crate) fn slot(&self) -> usize {
        self.slot as usize
    }

    /// Sets the number, of which the low 32 bits are kept. The item and the state stay.
    #[inline(always)]
    pub(crate) fn set_slot(&mut self, slot: usize) {
        self.slot = (slot & 0xffff_ffff) as u32;
    }
}

impl<S: ItemState> Queued<S> {
    /// Returns the state.
    #[inline(always)]
    pub(crate) fn state(&self) -> S {
        self.state
    }

    /// Sets the state. The item stays. A state that is there isn't written again, which would take the node away from
    /// other processors that read it.
    #[inline(always)]
    pub(crate) fn set_state(&mut self, state: S) {
        if !self.state.is(&state) {
            self.state = state;
        }
    }
}

impl<S> HasItem for Queued<S> {
    #[inline(always)]
    fn item(&self) -> Item {
        self.whole()
    }

    #[inline(always)]
    fn slot(&self) -> usize {
        Queued::slot(self)
    }

    #[inline(always)]
    fn set_slot(&mut self, slot: usize) {
        Queued::set_slot(self, slot);
    }
}

/// Returns what was found at a place, with its item whole.
#[inline(always)]
pub(crate) fn whole_found(found: Option<(Place, Kept)>) -> Option<(Place, Item)> {
    match found {
        Some((place, kept)) => Some((place, kept.whole())),
        None => None,
    }
}

/// Returns the item that was found at a place, alone.
#[inline(always)]
pub(crate) fn item_found(found: Option<(Place, Item)>) -> Option<Item> {
    let (_, item) = found?;
    Some(item)
}

/// Appends the items of a list, first to last.
///
/// # Errors
/// F7 if memory runs out.
#[inline]
pub(crate) fn append_items<T: HasItem, const N: usize>(
    lists: &DatedLists<T, N>,
    list: usize,
    items: &mut Vec<Item>,
) -> Result<()> {
    let mut next = lists.front(list);
    while let Some(place) = next {
        let item = lists.get(place).item();
        let Ok(()) = items.push(item) else {
            return Err(Error::new(Reason::NoMemory));
        };
        next = lists.next(place);
    }
    Ok(())
}
