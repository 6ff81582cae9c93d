//! The two queues of an S3-FIFO: what a pop takes from each.

// Written by rust/erase/erase.py from crates/foyer_policy/src/s3fifo/queues.rt: change that.
#[allow(unused_imports)]
use crate::rattle_std::prelude::*;
use crate::proved::foyer_policy::dated_lists::DatedLists;
use crate::proved::foyer_policy::ghost_queue::GhostQueue;
use crate::proved::foyer_policy::lists::Place;
use crate::proved::foyer_policy::queued::{ItemState, Queued};
use crate::proved::foyer_policy::types::Item;

// The numbers of the two lists.
pub(crate) const SMALL: usize = 0;

pub(crate) const MAIN: usize = 1;

// The largest frequency.
pub(crate) const MOST: u8 = 3;

/// What an [`S3Fifo`](super::S3Fifo) keeps beside an item: its frequency, from 0 to 3, and its queue.
#[derive(Clone, Copy, Debug, Default)]
pub struct S3FifoState {
    pub(crate) frequency: u8,
    pub(crate) is_main: bool,
}

impl ItemState for S3FifoState {
    #[inline(always)]
    fn is(&self, other: &Self) -> bool {
        self.frequency == other.frequency && self.is_main == other.is_main
    }
}

pub(crate) type Node = Queued<S3FifoState>;

// A victim, its place, and how many frequencies of the main queue were read.
#[derive(Clone, Copy)]
pub(crate) struct Victim {
    pub(crate) item: Item,
    pub(crate) at: Place,
    pub(crate) looks: u128,
}

// Removes the first record below a threshold from the small queue. Those before it, or all if there is none, move to
// the end of the main queue. `weight` is the small queue's.
#[inline]
pub(crate) fn take_small(queues: &mut DatedLists<Node, 2>, weight: &mut usize, threshold: u8) -> Option<Victim> {
    while let Some(front) = queues.front(SMALL) {
        let node = queues.get(front);
        let state = node.state();
        *weight -= node.whole().weight;
        if state.frequency < threshold {
            let item = node.whole();
            queues.remove(front);
            return Some(Victim { item, at: front, looks: 0 });
        }
        let main = S3FifoState { is_main: true, ..state };
        queues.set_state(front, main);
        queues.move_back(front, MAIN);
    }
    None
}

// Reads the frequency of the node at a place, lowers it by 1 if it is above 0, and returns whether it was. This is
// the only reading of a frequency in the main queue that a pop makes, and it counts as one look.
#[inline]
fn lower(queues: &mut DatedLists<Node, 2>, place: Place, looks: &mut u128) -> bool {
    let state = queues.get(place).state();
    *looks += 1;
    let lowered = S3FifoState { frequency: state.frequency.saturating_sub(1), ..state };
    queues.set_state(place, lowered);
    state.frequency > 0
}

// Removes the victim of the main queue: each record at the front goes to the back, its frequency lowered by 1, until
// the first of frequency 0 leaves.
#[inline]
pub(crate) fn take_main(queues: &mut DatedLists<Node, 2>) -> Option<Victim> {
    let mut looks: u128 = 0;
    while let Some(front) = queues.front(MAIN) {
        if !lower(queues, front, &mut looks) {
            let item = queues.remove(front).whole();
            return Some(Victim { item, at: front, looks });
        }
        queues.move_back(front, MAIN);
    }
    None
}

// Removes the victim of the main queue, or else the first record of the small one. `weight` is the small queue's.
#[inline]
fn pop_main(queues: &mut DatedLists<Node, 2>, weight: &mut usize) -> Option<Victim> {
    if let Some(victim) = take_main(queues) {
        return Some(victim);
    }
    let found = queues.pop_front_at(SMALL)?;
    let item = found.1.whole();
    *weight -= item.weight;
    Some(Victim { item, at: found.0, looks: 0 })
}

// Removes the victim, and enters it in the ghost queue if it leaves the small queue. Needs room there. `weight` is
// the small queue's.
#[inline]
pub(crate) fn pop_victim(
    queues: &mut DatedLists<Node, 2>,
    weight: &mut usize,
    ghost_queue: &mut GhostQueue,
    limit: usize,
    threshold: u8,
) -> Option<Victim> {
    if *weight <= limit {
        return pop_main(queues, weight);
    }
    match take_small(queues, weight, threshold) {
        Some(victim) => {
            ghost_queue.push_reserved(victim.item.hash, victim.item.weight);
            Some(victim)
        }
        None => pop_main(queues, weight),
    }
}

// How many records `next_victim` reads.
const FEW: usize = 8;

// The first of a queue's next few records whose frequency is below this, or the last of them.
#[inline(always)]
pub(crate) fn next_victim(queues: &DatedLists<Node, 2>, list: usize, threshold: u8) -> Option<Place> {
    let mut at = queues.front(list)?;
    for _read in 0..FEW {
        if queues.get(at).state().frequency < threshold {
            break;
        }
        match queues.next(at) {
            Some(next) => at = next,
            None => break,
        }
    }
    Some(at)
}

// The number of records in a queue.
#[inline]
pub(crate) fn count(queues: &DatedLists<Node, 2>, list: usize) -> usize {
    let mut count = 0;
    let mut next = queues.front(list);
    while let Some(place) = next {
        count += 1;
        next = queues.next(place);
    }
    count
}
