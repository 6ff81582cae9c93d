//! The states that policies keep beside the items of lists.

// Written by rust/erase/erase.py from crates/foyer_policy/src/dated_lists/states.rt: change that.
#[allow(unused_imports)]
use crate::rattle_std::prelude::*;
use super::DatedLists;
use crate::proved::foyer_policy::lists::Place;
use crate::proved::foyer_policy::queued::{ItemState, Queued};

impl<S: ItemState, const N: usize> DatedLists<Queued<S>, N> {
    /// Sets the state of the value at a place; its item stays. The place must have a value.
    #[inline(always)]
    pub(crate) fn set_state(&mut self, place: Place, state: S) {
        self.lists.get_mut(place).set_state(state);
    }
}
