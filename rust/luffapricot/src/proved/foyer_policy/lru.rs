//! Least recently used, with a pool of high priority and with pins.

// Written by rust/erase/erase.py from crates/foyer_policy/src/lru.rt: change that.
#[allow(unused_imports)]
use crate::rattle_std::prelude::*;
mod pools;

use crate::proved::foyer_policy::dated_lists::DatedLists;
use crate::proved::foyer_policy::due::first_of_lists;
use crate::proved::foyer_policy::error::{Error, Field, Reason, Result};
use crate::proved::foyer_policy::eviction::Eviction;
use crate::proved::foyer_policy::limit::{Range, check_ratio, limit_of};
use crate::proved::foyer_policy::lists::Place;
use crate::proved::foyer_policy::queued::{ItemState, Queued, append_items};
use crate::proved::foyer_policy::types::{Hint, Item, Ratio};
use pools::{HIGH, LOW, Node, PIN, drain, relist, settle};
use crate::rattle_std::serde::{Deserialize, Serialize};
use crate::rattle_std::alloc::Global;

/// The configuration of an [`Lru`].
#[derive(Clone, Debug, PartialEq, Eq)]
pub struct LruConfig {
    /// The part of the capacity that the pool of high priority may weigh, from 0 to 1.
    ///
    /// Records with the hint [`Hint::Normal`] have high priority. If the pool weighs more, those inserted first lose
    /// it.
    pub high_priority_pool_ratio: Ratio,
}

impl Default for LruConfig {
    /// Returns a pool of nine tenths.
    #[inline]
    fn default() -> LruConfig {
        LruConfig { high_priority_pool_ratio: Ratio { num: 9, den: 10 } }
    }
}

/// What an [`Lru`] keeps beside an item: its high bit, and whether it is pinned.
#[derive(Clone, Copy, Debug, Default)]
pub struct LruState {
    high: bool,
    pinned: bool,
}

// Each call sets another state, so none are compared.
impl ItemState for LruState {
    #[inline(always)]
    fn is(&self, _other: &Self) -> bool {
        false
    }
}

/// Least recently used, with a pool of high priority and with pins, as in `foyer-memory`.
///
/// A record with the hint [`Hint::Normal`] is inserted into the pool, one with [`Hint::Low`] beside it. If the pool
/// weighs more than its part of the capacity, its first records lose their priority. A record that is acquired is
/// pinned until it is released, and no pop takes it; then it goes back to the end of the list of its priority. A pop
/// takes the record that was inserted or released longest ago, of low priority first.
pub struct Lru {
    lists: DatedLists<Node, 3>,
    high_weight: usize,
    pinned_weight: usize,
    limit: usize,
    ratio: Ratio,
    alloc: Global,
}

impl Lru {
    /// Returns the weight of the pool of high priority, which is at most its limit after every call.
    #[inline]
    pub fn high_priority_weight(&self) -> usize {
        self.high_weight
    }
}

impl Eviction for Lru {
    type Config = LruConfig;

    // The ratio of the pool: F2 for a denominator of 0, F3 above 1.
    #[inline]
    fn check(config: &LruConfig) -> Result<()> {
        check_ratio(Range::Closed, Field::HighPriorityPool, config.high_priority_pool_ratio)
    }

    #[inline]
    fn new(alloc: Global, capacity: usize, config: &LruConfig) -> Result<Self> {
        Self::check(config)?;
        let ratio = config.high_priority_pool_ratio;
        Ok(Lru {
            lists: DatedLists::new(alloc, 2),
            high_weight: 0,
            pinned_weight: 0,
            limit: limit_of(capacity, ratio),
            ratio,
            alloc,
        })
    }

    #[inline]
    fn takes(&self, _config: &LruConfig) -> bool {
        true
    }

    #[inline]
    fn update(&mut self, capacity: usize, config: Option<&LruConfig>) -> Result<()> {
        let ratio = match config {
            Some(config) => {
                Self::check(config)?;
                config.high_priority_pool_ratio
            }
            None => self.ratio,
        };
        self.ratio = ratio;
        self.limit = limit_of(capacity, ratio);
        self.high_weight = settle(&mut self.lists, self.high_weight, self.limit);
        Ok(())
    }

    #[inline(always)]
    fn reserve(&mut self) -> Result<()> {
        self.lists.reserve(1)
    }

    #[inline(always)]
    fn reserve_to(&mut self, wanted: usize) -> Result<()> {
        self.lists.reserve_to(wanted)
    }

    #[inline(always)]
    fn next_place(&self) -> Place {
        self.lists.next_place()
    }

    #[inline(always)]
    fn push_at(&mut self, place: Place, item: Item) {
        // A push pins nothing.
        let pinned = false;
        match item.hint {
            Hint::Low => {
                let state = LruState { high: false, pinned };
                self.lists.push_back_at(LOW, place, Queued::of(item, state));
            }
            Hint::Normal => {
                let state = LruState { high: true, pinned };
                self.lists.push_back_at(HIGH, place, Queued::of(item, state));
                let weight = self.high_weight + item.weight;
                self.high_weight = settle(&mut self.lists, weight, self.limit);
            }
        }
    }

    /// Removes the first item of low priority, or else the first of the pool, and returns it with its place. Returns
    /// `None` if every item is pinned. Never fails.
    #[inline(always)]
    fn pop_at(&mut self) -> Result<Option<(Place, Item)>> {
        if let Some(found) = self.lists.pop_front_at(LOW) {
            return Ok(Some((found.0, found.1.whole())));
        }
        let Some(found) = self.lists.pop_front_at(HIGH) else {
            return Ok(None);
        };
        let item = found.1.whole();
        self.high_weight -= item.weight;
        Ok(Some((found.0, item)))
    }

    #[inline(always)]
    fn remove(&mut self, place: Place) -> Item {
        let node = self.lists.remove(place);
        let item = node.whole();
        let state = node.state();
        if state.pinned {
            self.pinned_weight -= item.weight;
        } else if state.high {
            self.high_weight -= item.weight;
        }
        item
    }

    #[inline]
    fn reserve_clear(&mut self) -> Result<()> {
        Ok(())
    }

    #[inline]
    fn clear(&mut self) {
        drain(&mut self.lists, LOW);
        drain(&mut self.lists, HIGH);
        drain(&mut self.lists, PIN);
        self.high_weight = 0;
        self.pinned_weight = 0;
    }

    #[inline(always)]
    fn acquire(&mut self, place: Place) {
        let node = self.lists.get(place);
        let item = node.whole();
        let state = node.state();
        if state.pinned {
            return;
        }
        let pinned = LruState { pinned: true, ..state };
        relist(&mut self.lists, place, pinned, PIN);
        self.pinned_weight += item.weight;
        if state.high {
            self.high_weight -= item.weight;
        }
    }

    #[inline(always)]
    fn release(&mut self, place: Place) {
        let node = self.lists.get(place);
        let item = node.whole();
        let state = node.state();
        if !state.pinned {
            return;
        }
        let unpinned = LruState { pinned: false, ..state };
        self.pinned_weight -= item.weight;
        if !state.high {
            relist(&mut self.lists, place, unpinned, LOW);
            return;
        }
        relist(&mut self.lists, place, unpinned, HIGH);
        let weight = self.high_weight + item.weight;
        self.high_weight = settle(&mut self.lists, weight, self.limit);
    }

    // A use moves the node, and may lower one of the pool of high priority.
    #[inline(always)]
    fn look_ahead(&self, place: Place) -> bool {
        let lowered = match self.lists.front(HIGH) {
            Some(front) => self.lists.has_neighbors(front),
            None => true,
        };
        lowered && self.lists.has_neighbors(place)
    }

    #[inline(always)]
    fn ahead(&self) -> (Option<Place>, Option<Place>) {
        match self.lists.front(LOW) {
            Some(first) => (Some(first), self.lists.next(first)),
            None => self.lists.first_two(HIGH),
        }
    }

    // The lists before the pinned one: pinned items aren't searched.
    #[inline(always)]
    fn expired(&self, now: u64) -> Option<Place> {
        first_of_lists(&self.lists, PIN, now)
    }

    #[inline(always)]
    fn span(&self) -> usize {
        self.lists.span()
    }

    #[inline(always)]
    fn item(&self, place: Place) -> Item {
        self.lists.get(place).whole()
    }

    #[inline]
    fn order(&self) -> Result<Vec<Item>> {
        let mut items = Vec::new(self.alloc);
        append_items(&self.lists, LOW, &mut items)?;
        append_items(&self.lists, HIGH, &mut items)?;
        append_items(&self.lists, PIN, &mut items)?;
        Ok(items)
    }

    #[inline(always)]
    fn pinned_weight(&self) -> usize {
        self.pinned_weight
    }

    #[inline(always)]
    fn is_pinned(&self, place: Place) -> bool {
        self.lists.get(place).state().pinned
    }

    #[inline]
    fn looks(&self) -> u128 {
        0
    }
}
