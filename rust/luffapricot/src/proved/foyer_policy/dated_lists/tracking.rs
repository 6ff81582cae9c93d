//! What is known of when the items of lists expire.

// Written by rust/erase/erase.py from crates/foyer_policy/src/dated_lists/tracking.rt: change that.
#[allow(unused_imports)]
use crate::rattle_std::prelude::*;
use crate::proved::foyer_policy::dates::{Dates, Gone};
use crate::proved::foyer_policy::lists::{Lists, Place};
use crate::proved::foyer_policy::queued::HasItem;

/// What is known of when items expire.
pub(crate) enum Tracking {
    /// No item expires.
    Plain,
    /// Some items may expire; a search walks along its list.
    Untracked,
    /// The dates of all items that expire.
    Tracked(Dates),
}

impl Tracking {
    /// Enters the date of an item that expires and is appended to a list. Returns what is to be noted beside the
    /// item. Takes no memory.
    #[inline(always)]
    pub(crate) fn push<T: HasItem, const N: usize>(
        &mut self,
        lists: &mut Lists<T, N>,
        list: usize,
        place: Place,
        date: u64,
    ) -> usize {
        let slot = match self {
            Tracking::Tracked(dates) => dates.push(lists, list, place, date),
            _ => None,
        };
        match slot {
            Some(slot) => slot,
            None => {
                *self = Tracking::Untracked;
                0
            }
        }
    }

    /// Removes the date of an item that expires and leaves a list. Takes no memory.
    #[inline(always)]
    pub(crate) fn remove(&mut self, list: usize, place: Place, gone: Gone) {
        if let Tracking::Tracked(dates) = self {
            dates.remove(list, place, gone);
        }
    }
}
