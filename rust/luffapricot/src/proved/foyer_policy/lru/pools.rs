//! The three lists of an [`Lru`](super::Lru), below its running sums.

// Written by rust/erase/erase.py from crates/foyer_policy/src/lru/pools.rt: change that.
#[allow(unused_imports)]
use crate::rattle_std::prelude::*;
use super::LruState;
use crate::proved::foyer_policy::dated_lists::DatedLists;
use crate::proved::foyer_policy::lists::Place;
use crate::proved::foyer_policy::queued::Queued;

/// The list of low priority, which leaves first.
pub(crate) const LOW: usize = 0;

/// The list of the pool of high priority.
pub(crate) const HIGH: usize = 1;

/// The list of pinned items.
pub(crate) const PIN: usize = 2;

pub(crate) type Node = Queued<LruState>;

/// Moves the first node of the pool to the end of the low list, clears its high bit, and returns its weight. The pool
/// must not be empty.
#[inline(always)]
fn lower(lists: &mut DatedLists<Node, 3>) -> usize {
    match lists.front(HIGH) {
        Some(place) => {
            let node = lists.get(place);
            let weight = node.whole().weight;
            let state = node.state();
            let low = LruState { high: false, ..state };
            lists.set_state(place, low);
            lists.move_back(place, LOW);
            weight
        }
        None => crate::rattle_std::macros::unreachable!(),
    }
}

/// Lowers nodes of the pool, which weighs `weight`, until it is within a limit, and returns its weight.
#[inline(always)]
pub(crate) fn settle(lists: &mut DatedLists<Node, 3>, weight: usize, limit: usize) -> usize {
    let mut left = weight;
    while left > limit {
        left -= lower(lists);
    }
    left
}

/// Sets a node's state and moves it to the end of a list. The place must have a node.
#[inline(always)]
pub(crate) fn relist(lists: &mut DatedLists<Node, 3>, place: Place, state: LruState, list: usize) {
    lists.set_state(place, state);
    lists.move_back(place, list);
}

/// Removes all nodes of a list.
#[inline]
pub(crate) fn drain(lists: &mut DatedLists<Node, 3>, list: usize) {
    while lists.pop_front(list).is_some() {}
}
