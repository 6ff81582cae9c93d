//! The slots of dates, noted beside the values.

// Written by rust/erase/erase.py from crates/foyer_policy/src/dated_lists/noting.rt: change that.
#[allow(unused_imports)]
use crate::rattle_std::prelude::*;
use crate::proved::foyer_policy::lists::{Lists, Place};
use crate::proved::foyer_policy::queued::HasItem;

/// Notes the slot of a value's date beside it, if there is a value at this place. No contract sees it.
#[inline(always)]
pub(crate) fn note_slot<T: HasItem, const N: usize>(lists: &mut Lists<T, N>, place: Place, slot: usize) {
    if lists.holds(place) {
        note_slot_at(lists, place, slot);
    }
}

/// Notes the slot of a value's date beside it. The place must have a value. No contract sees it.
#[inline(always)]
pub(crate) fn note_slot_at<T: HasItem, const N: usize>(lists: &mut Lists<T, N>, place: Place, slot: usize) {
    lists.get_mut(place).set_slot(slot);
}
