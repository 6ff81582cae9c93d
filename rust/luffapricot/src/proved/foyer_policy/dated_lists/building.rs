//! Looking up the dates of all items in lists.

// Written by rust/erase/erase.py from crates/foyer_policy/src/dated_lists/building.rt: change that.
#[allow(unused_imports)]
use crate::rattle_std::prelude::*;
use super::noting::note_slot;
use super::tracking::Tracking;
use crate::proved::foyer_policy::dates::{Dates, MOST};
use crate::proved::foyer_policy::error::Result;
use crate::proved::foyer_policy::lists::Lists;
use crate::proved::foyer_policy::queued::HasItem;
use crate::rattle_std::alloc::Global;

// How many items of a list expire.
#[inline]
fn count_dates<T: HasItem, const N: usize>(lists: &Lists<T, N>, list: usize) -> usize {
    let mut count: usize = 0;
    let mut next = lists.front(list);
    while let Some(place) = next {
        let expires = lists.get(place).item().expires.is_some();
        count = count.saturating_add(usize::from(expires));
        next = lists.next(place);
    }
    count
}

// How many items expire.
#[inline]
fn count_all<T: HasItem, const N: usize>(lists: &Lists<T, N>) -> usize {
    let mut count: usize = 0;
    for list in 0..lists.count() {
        count = count.saturating_add(count_dates(lists, list));
    }
    count
}

// Enters the dates of a list, and returns false if there is no room for one.
#[inline]
fn push_dates<T: HasItem, const N: usize>(dates: &mut Dates, lists: &mut Lists<T, N>, list: usize) -> bool {
    let mut next = lists.front(list);
    while let Some(place) = next {
        if let Some(date) = lists.get(place).item().expires {
            let Some(slot) = dates.push(lists, list, place, date) else {
                return false;
            };
            note_slot(lists, place, slot);
        }
        next = lists.next(place);
    }
    true
}

/// Looks up all dates of the first `searched` lists.
///
/// # Errors
/// F7 if memory runs out.
#[cold]
#[inline(never)]
pub(crate) fn built<T: HasItem, const N: usize>(
    alloc: Global,
    lists: &mut Lists<T, N>,
    searched: u8,
) -> Result<Tracking> {
    let count = count_all(lists);
    if count == 0 {
        return Ok(Tracking::Plain);
    }
    if usize::from(searched) > lists.count() || lists.span() > MOST {
        return Ok(Tracking::Untracked);
    }
    // room for as many more, and one
    let room = count.saturating_mul(2).saturating_add(1);
    let mut dates = Dates::new(alloc, searched, room)?;
    for list in 0..usize::from(searched) {
        if !push_dates(&mut dates, lists, list) {
            return Ok(Tracking::Untracked);
        }
    }
    Ok(Tracking::Tracked(dates))
}
