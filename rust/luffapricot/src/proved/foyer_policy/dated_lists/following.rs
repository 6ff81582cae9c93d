//! Keeps the dates up to date with each change of the lists, before the change is made.

// Written by rust/erase/erase.py from crates/foyer_policy/src/dated_lists/following.rt: change that.
#[allow(unused_imports)]
use crate::rattle_std::prelude::*;
use super::building::built;
use super::noting::note_slot_at;
use super::tracking::Tracking;
use crate::proved::foyer_policy::dates::Gone;
use crate::proved::foyer_policy::lists::{Lists, Place};
use crate::proved::foyer_policy::queued::HasItem;
use crate::rattle_std::alloc::Global;

// Enters the date of an item that is appended to a list, and returns what is to be noted beside the item.
#[cold]
#[inline(never)]
fn push_date<T: HasItem, const N: usize>(
    dates: &mut Tracking,
    lists: &mut Lists<T, N>,
    list: usize,
    place: Place,
    date: u64,
) -> usize {
    dates.push(lists, list, place, date)
}

/// Follows a value that is appended to a list.
#[inline(always)]
pub(crate) fn follow_push<T: HasItem, const N: usize>(
    dates: &mut Tracking,
    lists: &mut Lists<T, N>,
    list: usize,
    place: Place,
    value: &mut T,
) {
    // There are `N` lists.
    let _ = lists.count();
    if let Some(date) = value.item().expires {
        let slot = push_date(dates, lists, list, place, date);
        value.set_slot(slot);
    }
}

// The list of the value at a place, and what is known of its date, which is removed.
#[inline(always)]
fn going<T: HasItem, const N: usize>(lists: &Lists<T, N>, place: Place, date: u64) -> (usize, Gone) {
    let list = lists.list_of(place);
    let gone = Gone { date, slot: lists.get(place).slot(), was_first: lists.front(list) == Some(place) };
    (list, gone)
}

// Removes the date of the item at a place, if it has one.
#[cold]
#[inline(never)]
fn remove_date<T: HasItem, const N: usize>(dates: &mut Tracking, lists: &Lists<T, N>, place: Place) {
    if let Some(date) = lists.get(place).item().expires {
        let (list, gone) = going(lists, place, date);
        dates.remove(list, place, gone);
    }
}

/// Follows a value that is removed.
#[inline(always)]
pub(crate) fn follow_remove<T: HasItem, const N: usize>(dates: &mut Tracking, lists: &Lists<T, N>, place: Place) {
    match dates {
        Tracking::Plain => {}
        _ => remove_date(dates, lists, place),
    }
}

// Removes the date of the first item of a list, if there is one.
#[cold]
#[inline(never)]
fn pop_date<T: HasItem, const N: usize>(dates: &mut Tracking, lists: &Lists<T, N>, list: usize) {
    if let Some(place) = lists.front(list) {
        remove_date(dates, lists, place);
    }
}

/// Follows the first value of a list, if there is one, which is removed.
#[inline(always)]
pub(crate) fn follow_pop<T: HasItem, const N: usize>(dates: &mut Tracking, lists: &Lists<T, N>, list: usize) {
    // There are `N` lists.
    let _ = lists.count();
    match dates {
        Tracking::Plain => {}
        _ => pop_date(dates, lists, list),
    }
}

// Moves the date of the item at a place to the end of a list, if it has one.
#[cold]
#[inline(never)]
fn move_date<T: HasItem, const N: usize>(dates: &mut Tracking, lists: &mut Lists<T, N>, place: Place, list: usize) {
    if let Some(date) = lists.get(place).item().expires {
        let (from, gone) = going(lists, place, date);
        dates.remove(from, place, gone);
        let slot = dates.push(lists, list, place, date);
        note_slot_at(lists, place, slot);
    }
}

/// Follows a value that moves to the end of a list.
#[inline(always)]
pub(crate) fn follow_move<T: HasItem, const N: usize>(
    dates: &mut Tracking,
    lists: &mut Lists<T, N>,
    place: Place,
    list: usize,
) {
    // There are `N` lists.
    let _ = lists.count();
    match dates {
        Tracking::Plain => {}
        _ => move_date(dates, lists, place, list),
    }
}

// Makes room for the date of one more item, and looks up all dates if they weren't known. If memory runs out, they
// aren't known.
#[cold]
#[inline(never)]
fn make_room<T: HasItem, const N: usize>(dates: &mut Tracking, lists: &mut Lists<T, N>, searched: u8, alloc: Global) {
    match dates {
        Tracking::Plain => {}
        Tracking::Untracked => {
            if let Ok(known) = built(alloc, lists, searched) {
                *dates = known;
            }
        }
        Tracking::Tracked(index) => {
            if index.reserve(lists).is_err() {
                *dates = Tracking::Untracked;
            }
        }
    }
}

// Makes room for the date of one more item. Often there is some already.
#[cold]
#[inline(never)]
fn reserve_dates<T: HasItem, const N: usize>(
    dates: &mut Tracking,
    lists: &mut Lists<T, N>,
    searched: u8,
    alloc: Global,
) {
    if let Tracking::Tracked(index) = dates {
        if index.has_room() {
            return;
        }
    }
    make_room(dates, lists, searched, alloc);
}

/// Makes room for the date of one more item. If memory runs out, a search walks along its list until the next call.
#[inline(always)]
pub(crate) fn follow_reserve<T: HasItem, const N: usize>(
    dates: &mut Tracking,
    lists: &mut Lists<T, N>,
    searched: u8,
    alloc: Global,
) {
    match dates {
        Tracking::Plain => {}
        _ => reserve_dates(dates, lists, searched, alloc),
    }
}
