//! Sieve: one queue, a visited bit for each record, and a hand that looks for an unvisited one.

// Written by rust/erase/erase.py from crates/foyer_policy/src/sieve.rt: change that.
#[allow(unused_imports)]
use crate::rattle_std::prelude::*;
use crate::proved::foyer_policy::dated_lists::DatedLists;
use crate::proved::foyer_policy::due::first_of_lists;
use crate::proved::foyer_policy::error::{Error, Reason, Result};
use crate::proved::foyer_policy::eviction::Eviction;
use crate::proved::foyer_policy::lists::Place;
use crate::proved::foyer_policy::queued::{ItemState, Queued, append_items};
use crate::proved::foyer_policy::types::Item;
use crate::rattle_std::serde::{Deserialize, Serialize};
use crate::rattle_std::alloc::Global;

/// The configuration of a [`Sieve`]: nothing to set.
#[derive(Clone, Debug, Default, PartialEq, Eq)]
pub struct SieveConfig;

/// What a [`Sieve`] keeps beside an item: whether it was used since a pop last looked at it.
#[derive(Clone, Copy, Debug, Default)]
pub struct SieveState {
    visited: bool,
}

impl ItemState for SieveState {
    #[inline(always)]
    fn is(&self, other: &Self) -> bool {
        self.visited == other.visited
    }
}

type Node = Queued<SieveState>;

// What a pop removed, its place, where the hand goes, and how many bits were read.
struct Victim {
    item: Item,
    at: Place,
    hand: Option<Place>,
    looks: u128,
}

/// Sieve (Zhang and others, "SIEVE is Simpler than LRU", NSDI 2024): records stay in the order in which they were
/// inserted, and a use sets a record's visited bit.
///
/// A pop goes along the queue from the hand, or from the front if there is no hand, and on from the front after the
/// last record. A visited record loses its bit; the first unvisited one leaves. The hand then points to the record
/// behind it, or to none at the end.
pub struct Sieve {
    queue: DatedLists<Node, 1>,
    hand: Option<Place>,
    looks: u128,
    alloc: Global,
}

// Reads the visited bit of the node at a place, and clears it. This is the only reading of a bit that a pop makes,
// and it counts as one look.
#[inline]
fn take_bit(queue: &mut DatedLists<Node, 1>, place: Place, looks: &mut u128) -> bool {
    let visited = queue.get(place).state().visited;
    *looks += 1;
    queue.set_state(place, SieveState { visited: false });
    visited
}

// The place after this one in the queue; after the last, the first.
#[inline]
fn next_round(queue: &DatedLists<Node, 1>, place: Place) -> Place {
    match queue.next(place) {
        Some(next) => next,
        None => match queue.front(0) {
            Some(front) => front,
            None => crate::rattle_std::macros::unreachable!(),
        },
    }
}

// Removes the victim, looking from a place on.
#[inline]
fn take_victim(queue: &mut DatedLists<Node, 1>, start: Place) -> Victim {
    let mut looks: u128 = 0;
    let mut at = start;
    while take_bit(queue, at, &mut looks) {
        at = next_round(queue, at);
    }
    let hand = queue.next(at);
    let item = queue.remove(at).whole();
    Victim { item, at, hand, looks }
}

// How many records `next_victim` reads.
const FEW: usize = 8;

// The first unvisited of the next few records from a place on, or the last of them.
#[inline(always)]
fn next_victim(queue: &DatedLists<Node, 1>, start: Place) -> Place {
    let mut place = start;
    for _read in 0..FEW {
        if !queue.get(place).state().visited {
            break;
        }
        match queue.next(place) {
            Some(next) => place = next,
            None => break,
        }
    }
    place
}

// The hand after the node at this place is removed.
#[inline]
fn hand_beside(hand: Option<Place>, place: Place) -> Option<Place> {
    if hand == Some(place) { None } else { hand }
}

impl Eviction for Sieve {
    type Config = SieveConfig;

    #[inline]
    fn check(_config: &SieveConfig) -> Result<()> {
        Ok(())
    }

    #[inline]
    fn new(alloc: Global, _capacity: usize, config: &SieveConfig) -> Result<Self> {
        Self::check(config)?;
        Ok(Sieve { queue: DatedLists::new(alloc, 1), hand: None, looks: 0, alloc })
    }

    #[inline]
    fn takes(&self, _config: &SieveConfig) -> bool {
        true
    }

    #[inline]
    fn update(&mut self, _capacity: usize, config: Option<&SieveConfig>) -> Result<()> {
        match config {
            Some(config) => Self::check(config),
            None => Ok(()),
        }
    }

    #[inline(always)]
    fn reserve(&mut self) -> Result<()> {
        match self.queue.reserve(1) {
            Ok(()) => Ok(()),
            Err(_) => Err(Error::new(Reason::NoMemory)),
        }
    }

    #[inline(always)]
    fn reserve_to(&mut self, wanted: usize) -> Result<()> {
        match self.queue.reserve_to(wanted) {
            Ok(()) => Ok(()),
            Err(_) => Err(Error::new(Reason::NoMemory)),
        }
    }

    #[inline(always)]
    fn next_place(&self) -> Place {
        self.queue.next_place()
    }

    #[inline(always)]
    fn push_at(&mut self, place: Place, item: Item) {
        let state = SieveState::default();
        self.queue.push_back_at(0, place, Queued::of(item, state));
    }

    /// Removes the first unvisited record from the hand on, or else the first one, and returns it with its place.
    /// Returns `None` if there is no record. Never fails.
    #[inline]
    fn pop_at(&mut self) -> Result<Option<(Place, Item)>> {
        let Some(front) = self.queue.front(0) else {
            self.looks = 0;
            return Ok(None);
        };
        let start = self.hand.unwrap_or(front);
        let Victim { item, at, hand, looks } = take_victim(&mut self.queue, start);
        self.hand = hand;
        self.looks = looks;
        Ok(Some((at, item)))
    }

    #[inline(always)]
    fn remove(&mut self, place: Place) -> Item {
        self.hand = hand_beside(self.hand, place);
        self.queue.remove(place).whole()
    }

    #[inline]
    fn reserve_clear(&mut self) -> Result<()> {
        Ok(())
    }

    #[inline]
    fn clear(&mut self) {
        while self.queue.pop_front(0).is_some() {}
        self.hand = None;
        self.looks = 0;
    }

    #[inline(always)]
    fn acquire(&mut self, place: Place) {
        self.queue.set_state(place, SieveState { visited: true });
    }

    #[inline(always)]
    fn release(&mut self, _place: Place) {}

    // A use sets the node's bit.
    #[inline(always)]
    fn look_ahead(&self, place: Place) -> bool {
        self.queue.list_of(place) < 1
    }

    #[inline(always)]
    fn ahead(&self) -> (Option<Place>, Option<Place>) {
        let Some(front) = self.queue.front(0) else {
            return (None, None);
        };
        let victim = next_victim(&self.queue, self.hand.unwrap_or(front));
        (Some(victim), self.queue.next(victim))
    }

    #[inline(always)]
    fn expired(&self, now: u64) -> Option<Place> {
        first_of_lists(&self.queue, 1, now)
    }

    #[inline(always)]
    fn span(&self) -> usize {
        self.queue.span()
    }

    #[inline(always)]
    fn item(&self, place: Place) -> Item {
        self.queue.get(place).whole()
    }

    #[inline]
    fn order(&self) -> Result<Vec<Item>> {
        let mut items = Vec::new(self.alloc);
        append_items(&self.queue, 0, &mut items)?;
        Ok(items)
    }

    #[inline(always)]
    fn pinned_weight(&self) -> usize {
        0
    }

    #[inline(always)]
    fn is_pinned(&self, _place: Place) -> bool {
        false
    }

    #[inline]
    fn looks(&self) -> u128 {
        self.looks
    }
}
