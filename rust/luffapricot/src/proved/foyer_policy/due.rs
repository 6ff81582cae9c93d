//! Which item of some lists is due first.

// Written by rust/erase/erase.py from crates/foyer_policy/src/due.rt: change that.
#[allow(unused_imports)]
use crate::rattle_std::prelude::*;
use crate::proved::foyer_policy::dated_lists::DatedLists;
use crate::proved::foyer_policy::lists::{Lists, Place};
use crate::proved::foyer_policy::queued::HasItem;
use crate::proved::foyer_policy::types::Item;

/// Returns whether an item is due at `now`.
#[inline(always)]
pub(crate) fn due_at(item: Item, now: u64) -> bool {
    match item.expires {
        Some(moment) => moment <= now,
        None => false,
    }
}

/// Returns the place of the first item of a list that is due at `now`, or `None`. Walks along the list.
#[inline]
pub(crate) fn first_of_list<T: HasItem, const N: usize>(lists: &Lists<T, N>, list: usize, now: u64) -> Option<Place> {
    let mut next = lists.front(list);
    while let Some(place) = next {
        if due_at(lists.get(place).item(), now) {
            return Some(place);
        }
        next = lists.next(place);
    }
    None
}

// As `first_of_lists`, if some items may expire.
#[cold]
#[inline(never)]
fn first_of_each<T: HasItem, const N: usize>(lists: &DatedLists<T, N>, count: usize, now: u64) -> Option<Place> {
    for list in 0..count {
        let found = lists.first_due(list, now);
        if found.is_some() {
            return found;
        }
    }
    None
}

/// Returns the place of the first item of the first `count` lists that is due at `now`, or `None`.
#[inline(always)]
pub(crate) fn first_of_lists<T: HasItem, const N: usize>(
    lists: &DatedLists<T, N>,
    count: usize,
    now: u64,
) -> Option<Place> {
    if lists.is_plain() {
        return None;
    }
    first_of_each(lists, count, now)
}
