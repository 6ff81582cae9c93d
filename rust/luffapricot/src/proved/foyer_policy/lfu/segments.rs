//! The three lists of an [`Lfu`](super::Lfu), below its running sums.

// Written by rust/erase/erase.py from crates/foyer_policy/src/lfu/segments.rt: change that.
#[allow(unused_imports)]
use crate::rattle_std::prelude::*;
use crate::proved::foyer_policy::dated_lists::DatedLists;
use crate::proved::foyer_policy::kept::Kept;
use crate::proved::foyer_policy::sketch::Sketch;

/// The list of new records.
pub(crate) const WINDOW: usize = 0;

/// The list of records that weren't used since they left another list.
pub(crate) const PROBATION: usize = 1;

/// The list of records that were used in probation.
pub(crate) const PROTECTED: usize = 2;

/// Returns a weight if it counts, and otherwise 0.
#[inline]
pub(crate) fn weight_if(counts: bool, weight: usize) -> usize {
    if counts { weight } else { 0 }
}

/// Moves the first item of a list to the end of probation, and returns its weight. The list isn't probation, and not
/// empty.
#[inline]
fn demote(lists: &mut DatedLists<Kept, 3>, from: usize) -> usize {
    match lists.front(from) {
        Some(place) => {
            let weight = lists.get(place).whole().weight;
            lists.move_back(place, PROBATION);
            weight
        }
        None => crate::rattle_std::macros::unreachable!(),
    }
}

/// Moves the first items of a list, which weighs `weight`, to the end of probation until the rest is within a limit,
/// and returns the weight of the rest. The list isn't probation.
#[inline]
pub(crate) fn settle(lists: &mut DatedLists<Kept, 3>, from: usize, weight: usize, limit: usize) -> usize {
    let mut left = weight;
    while left > limit {
        left -= demote(lists, from);
    }
    left
}

// The hash of the first item of a list.
#[inline]
fn first_hash(lists: &DatedLists<Kept, 3>, list: usize) -> Option<u64> {
    let place = lists.front(list)?;
    Some(lists.get(place).whole().hash)
}

/// Returns the list whose first item leaves next, if there is one.
#[inline]
pub(crate) fn next_list(lists: &DatedLists<Kept, 3>, sketch: &Sketch) -> usize {
    match (first_hash(lists, WINDOW), first_hash(lists, PROBATION)) {
        (Some(window), Some(probation)) => {
            if sketch.estimate(window) < sketch.estimate(probation) {
                WINDOW
            } else {
                PROBATION
            }
        }
        (Some(_), None) => WINDOW,
        (None, Some(_)) => PROBATION,
        (None, None) => PROTECTED,
    }
}

/// Removes all items of a list.
#[inline]
pub(crate) fn drain(lists: &mut DatedLists<Kept, 3>, list: usize) {
    while lists.pop_front(list).is_some() {}
}
