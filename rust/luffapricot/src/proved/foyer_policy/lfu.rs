//! w-TinyLFU: least frequently used, with a window for new records.

// Written by rust/erase/erase.py from crates/foyer_policy/src/lfu.rt: change that.
#[allow(unused_imports)]
use crate::rattle_std::prelude::*;
mod segments;

use crate::proved::foyer_policy::dated_lists::DatedLists;
use crate::proved::foyer_policy::due::first_of_lists;
use crate::proved::foyer_policy::error::{Error, Field, Reason, Result};
use crate::proved::foyer_policy::eviction::Eviction;
use crate::proved::foyer_policy::kept::Kept;
use crate::proved::foyer_policy::limit::{Range, check_ratio, limit_of};
use crate::proved::foyer_policy::lists::Place;
use crate::proved::foyer_policy::queued::append_items;
use crate::proved::foyer_policy::sketch::Sketch;
use crate::proved::foyer_policy::types::{Item, Ratio};
use segments::{PROBATION, PROTECTED, WINDOW, drain, next_list, settle, weight_if};
use crate::rattle_std::serde::{Deserialize, Serialize};
use crate::rattle_std::alloc::Global;

/// The configuration of an [`Lfu`].
#[derive(Clone, Debug, PartialEq, Eq)]
pub struct LfuConfig {
    /// The part of the capacity that the window may weigh, above 0 and below 1.
    pub window_capacity_ratio: Ratio,
    /// The part of the capacity that protected records may weigh, above 0 and below 1. Both parts together are below
    /// 1.
    pub protected_capacity_ratio: Ratio,
    /// The number of buckets in each row of the sketch, above 0. With more of them, fewer hashes share one, and old
    /// uses fade later.
    pub cmsketch_buckets: u32,
    /// The number of rows of the sketch, above 0.
    pub cmsketch_hashes: u8,
}

impl Default for LfuConfig {
    /// Returns a window of one tenth, eight tenths for protected records, and 3 rows of 2719 buckets.
    #[inline]
    fn default() -> LfuConfig {
        LfuConfig {
            window_capacity_ratio: Ratio { num: 1, den: 10 },
            protected_capacity_ratio: Ratio { num: 8, den: 10 },
            cmsketch_buckets: 2719,
            cmsketch_hashes: 3,
        }
    }
}

// Checks two ratios: each alone, F2 before F3, and then their sum (F4).
#[inline]
fn check_ratios(window: Ratio, protected: Ratio) -> Result<()> {
    check_ratio(Range::Open, Field::Window, window)?;
    check_ratio(Range::Open, Field::Protected, protected)?;
    let (window_num, window_den) = (u128::from(window.num), u128::from(window.den));
    let (protected_num, protected_den) = (u128::from(protected.num), u128::from(protected.den));
    if window_num * protected_den + protected_num * window_den >= window_den * protected_den {
        return Err(Error::new(Reason::RatioSum));
    }
    Ok(())
}

/// What an [`Lfu`] keeps beside an item: nothing, since the item's list says it all.
#[derive(Debug, Default)]
pub struct LfuState {}

/// w-TinyLFU (Einziger, Friedman and Manes, 2017): of two records, the one that was used less often leaves first.
///
/// A record is inserted into the window, and moves to probation when the window weighs more than its part of the
/// capacity. A pop compares the first records of both by how often a sketch has counted their hashes, and takes the
/// one counted less; on a tie, that of probation. A record that is used in probation becomes protected, and leaves
/// only after all others. If the protected records weigh more than their part, the first of them go back to
/// probation.
pub struct Lfu {
    lists: DatedLists<Kept, 3>,
    sketch: Sketch,
    window_weight: usize,
    protected_weight: usize,
    window_limit: usize,
    protected_limit: usize,
    window_ratio: Ratio,
    protected_ratio: Ratio,
    alloc: Global,
}

impl Eviction for Lfu {
    type Config = LfuConfig;

    // The fields in their order, and the sum right after both ratios.
    #[inline]
    fn check(config: &LfuConfig) -> Result<()> {
        check_ratios(config.window_capacity_ratio, config.protected_capacity_ratio)?;
        if config.cmsketch_buckets == 0 {
            return Err(Error::new(Reason::NoBuckets));
        }
        if config.cmsketch_hashes == 0 {
            return Err(Error::new(Reason::NoRows));
        }
        Ok(())
    }

    #[inline]
    fn new(alloc: Global, capacity: usize, config: &LfuConfig) -> Result<Self> {
        Self::check(config)?;
        let sketch = Sketch::new(alloc, config.cmsketch_hashes, config.cmsketch_buckets)?;
        let window_ratio = config.window_capacity_ratio;
        let protected_ratio = config.protected_capacity_ratio;
        Ok(Lfu {
            lists: DatedLists::new(alloc, 3),
            sketch,
            window_weight: 0,
            protected_weight: 0,
            window_limit: limit_of(capacity, window_ratio),
            protected_limit: limit_of(capacity, protected_ratio),
            window_ratio,
            protected_ratio,
            alloc,
        })
    }

    #[inline]
    fn takes(&self, _config: &LfuConfig) -> bool {
        true
    }

    #[inline]
    fn update(&mut self, capacity: usize, config: Option<&LfuConfig>) -> Result<()> {
        if let Some(config) = config {
            Self::check(config)?;
            self.window_ratio = config.window_capacity_ratio;
            self.protected_ratio = config.protected_capacity_ratio;
        }
        self.window_limit = limit_of(capacity, self.window_ratio);
        self.protected_limit = limit_of(capacity, self.protected_ratio);
        Ok(())
    }

    #[inline(always)]
    fn reserve(&mut self) -> Result<()> {
        self.lists.reserve(1)
    }

    #[inline(always)]
    fn reserve_to(&mut self, wanted: usize) -> Result<()> {
        self.lists.reserve_to(wanted)
    }

    #[inline(always)]
    fn next_place(&self) -> Place {
        self.lists.next_place()
    }

    #[inline]
    fn push_at(&mut self, place: Place, item: Item) {
        self.sketch.update(item.hash);
        self.lists.push_back_at(WINDOW, place, Kept::of(item));
        let weight = self.window_weight + item.weight;
        self.window_weight = settle(&mut self.lists, WINDOW, weight, self.window_limit);
    }

    #[inline]
    fn pop_at(&mut self) -> Result<Option<(Place, Item)>> {
        let list = next_list(&self.lists, &self.sketch);
        let Some(found) = self.lists.pop_front_at(list) else {
            return Ok(None);
        };
        let item = found.1.whole();
        self.window_weight -= weight_if(list == WINDOW, item.weight);
        self.protected_weight -= weight_if(list == PROTECTED, item.weight);
        Ok(Some((found.0, item)))
    }

    #[inline(always)]
    fn remove(&mut self, place: Place) -> Item {
        let list = self.lists.list_of(place);
        let item = self.lists.remove(place).whole();
        self.window_weight -= weight_if(list == WINDOW, item.weight);
        self.protected_weight -= weight_if(list == PROTECTED, item.weight);
        item
    }

    #[inline]
    fn reserve_clear(&mut self) -> Result<()> {
        Ok(())
    }

    #[inline]
    fn clear(&mut self) {
        drain(&mut self.lists, WINDOW);
        drain(&mut self.lists, PROBATION);
        drain(&mut self.lists, PROTECTED);
        self.window_weight = 0;
        self.protected_weight = 0;
    }

    // Not put in line: with it, a look-up under `AnyEviction` would be too large to be put in line itself.
    #[inline]
    fn acquire(&mut self, place: Place) {
        let item = self.lists.get(place).whole();
        self.sketch.update(item.hash);
        let list = self.lists.list_of(place);
        if list != PROBATION {
            self.lists.move_back(place, list);
            return;
        }
        self.lists.move_back(place, PROTECTED);
        let weight = self.protected_weight + item.weight;
        self.protected_weight = settle(&mut self.lists, PROTECTED, weight, self.protected_limit);
    }

    #[inline(always)]
    fn release(&mut self, _place: Place) {}

    // A use moves the node.
    #[inline(always)]
    fn look_ahead(&self, place: Place) -> bool {
        self.lists.has_neighbors(place)
    }

    #[inline(always)]
    fn ahead(&self) -> (Option<Place>, Option<Place>) {
        self.lists.first_two(PROBATION)
    }

    #[inline(always)]
    fn expired(&self, now: u64) -> Option<Place> {
        first_of_lists(&self.lists, 3, now)
    }

    #[inline(always)]
    fn span(&self) -> usize {
        self.lists.span()
    }

    #[inline(always)]
    fn item(&self, place: Place) -> Item {
        self.lists.get(place).whole()
    }

    #[inline]
    fn order(&self) -> Result<Vec<Item>> {
        let mut items = Vec::new(self.alloc);
        append_items(&self.lists, WINDOW, &mut items)?;
        append_items(&self.lists, PROBATION, &mut items)?;
        append_items(&self.lists, PROTECTED, &mut items)?;
        Ok(items)
    }

    #[inline(always)]
    fn pinned_weight(&self) -> usize {
        0
    }

    #[inline(always)]
    fn is_pinned(&self, _place: Place) -> bool {
        false
    }

    #[inline]
    fn looks(&self) -> u128 {
        0
    }
}
