//! S3-FIFO: a small and a main queue, and a ghost queue that remembers what left the small one.

// Written by rust/erase/erase.py from crates/foyer_policy/src/s3fifo.rt: change that.
#[allow(unused_imports)]
use crate::rattle_std::prelude::*;
mod queues;

use crate::proved::foyer_policy::dated_lists::DatedLists;
use crate::proved::foyer_policy::due::first_of_lists;
use crate::proved::foyer_policy::error::{Error, Field, Reason, Result};
use crate::proved::foyer_policy::eviction::Eviction;
use crate::proved::foyer_policy::ghost_queue::GhostQueue;
use crate::proved::foyer_policy::limit::{Range, check_ratio, limit_of};
use crate::proved::foyer_policy::lists::Place;
use crate::proved::foyer_policy::queued::{Queued, append_items};
use crate::proved::foyer_policy::types::{Item, Ratio};
pub use queues::S3FifoState;
use queues::{MAIN, MOST, Node, SMALL, count, next_victim, pop_victim};
use crate::rattle_std::serde::{Deserialize, Serialize};
use crate::rattle_std::alloc::Global;

/// The configuration of an [`S3Fifo`].
#[derive(Clone, Debug, PartialEq, Eq)]
pub struct S3FifoConfig {
    /// The part of the capacity that the small queue may weigh before a pop takes from it, above 0 and below 1.
    pub small_queue_capacity_ratio: Ratio,
    /// The part of the capacity that the ghost queue may weigh, any number.
    pub ghost_queue_capacity_ratio: Ratio,
    /// From this frequency on, a pop moves a record of the small queue to the main queue instead of evicting it. More
    /// than 3 counts as 3.
    pub small_to_main_freq_threshold: u8,
}

impl Default for S3FifoConfig {
    /// Returns a small queue of one tenth, a ghost queue of the whole capacity and a threshold of 1.
    #[inline]
    fn default() -> S3FifoConfig {
        S3FifoConfig {
            small_queue_capacity_ratio: Ratio { num: 1, den: 10 },
            ghost_queue_capacity_ratio: Ratio { num: 1, den: 1 },
            small_to_main_freq_threshold: 1,
        }
    }
}

/// S3-FIFO (Yang and others, "FIFO queues are all you need for cache eviction", SOSP 2023): a small queue for new
/// records, a main queue for those that were used, and a ghost queue that remembers what left the small one.
///
/// Each use adds 1 to a record's frequency, up to 3. If the small queue weighs more than its limit, a pop goes along
/// it: records at or above the threshold move to the main queue, and the first one below it leaves. Otherwise the
/// first record of the main queue with frequency 0 leaves; each one before it is lowered by 1 and goes to the back. A
/// record whose hash the ghost queue remembers is inserted into the main queue.
pub struct S3Fifo {
    queues: DatedLists<Node, 2>,
    ghost_queue: GhostQueue,
    small_weight: usize,
    limit: usize,
    small_ratio: Ratio,
    ghost_ratio: Ratio,
    threshold: u8,
    looks: u128,
    alloc: Global,
}

impl S3Fifo {
    // Removes the victim, for which the ghost queue has room, and returns it with its place.
    #[inline]
    fn pop_reserved(&mut self) -> Option<(Place, Item)> {
        let victim =
            pop_victim(&mut self.queues, &mut self.small_weight, &mut self.ghost_queue, self.limit, self.threshold);
        match victim {
            Some(victim) => {
                self.looks = victim.looks;
                Some((victim.at, victim.item))
            }
            None => {
                self.looks = 0;
                None
            }
        }
    }
}

impl Eviction for S3Fifo {
    type Config = S3FifoConfig;

    // The ratio of the small queue, and then the denominator of the ghost queue's.
    #[inline]
    fn check(config: &S3FifoConfig) -> Result<()> {
        check_ratio(Range::Open, Field::SmallQueue, config.small_queue_capacity_ratio)?;
        if config.ghost_queue_capacity_ratio.den == 0 {
            return Err(Error::new(Reason::ZeroDenominator));
        }
        Ok(())
    }

    #[inline]
    fn new(alloc: Global, capacity: usize, config: &S3FifoConfig) -> Result<Self> {
        Self::check(config)?;
        let small_ratio = config.small_queue_capacity_ratio;
        let ghost_ratio = config.ghost_queue_capacity_ratio;
        Ok(S3Fifo {
            queues: DatedLists::new(alloc, 2),
            ghost_queue: GhostQueue::new(alloc, limit_of(capacity, ghost_ratio)),
            small_weight: 0,
            limit: limit_of(capacity, small_ratio),
            small_ratio,
            ghost_ratio,
            threshold: config.small_to_main_freq_threshold.min(MOST),
            looks: 0,
            alloc,
        })
    }

    #[inline]
    fn takes(&self, _config: &S3FifoConfig) -> bool {
        true
    }

    #[inline]
    fn update(&mut self, capacity: usize, config: Option<&S3FifoConfig>) -> Result<()> {
        if let Some(config) = config {
            Self::check(config)?;
            self.small_ratio = config.small_queue_capacity_ratio;
            self.ghost_ratio = config.ghost_queue_capacity_ratio;
            self.threshold = config.small_to_main_freq_threshold.min(MOST);
        }
        self.limit = limit_of(capacity, self.small_ratio);
        self.ghost_queue.update(limit_of(capacity, self.ghost_ratio));
        Ok(())
    }

    #[inline(always)]
    fn reserve(&mut self) -> Result<()> {
        self.queues.reserve(1)
    }

    #[inline(always)]
    fn reserve_to(&mut self, wanted: usize) -> Result<()> {
        self.queues.reserve_to(wanted)
    }

    #[inline(always)]
    fn next_place(&self) -> Place {
        self.queues.next_place()
    }

    #[inline(always)]
    fn push_at(&mut self, place: Place, item: Item) {
        let is_main = self.ghost_queue.contains(item.hash);
        let state = S3FifoState { is_main, ..S3FifoState::default() };
        if is_main {
            self.queues.push_back_at(MAIN, place, Queued::of(item, state));
            return;
        }
        self.small_weight += item.weight;
        self.queues.push_back_at(SMALL, place, Queued::of(item, state));
    }

    #[inline]
    fn pop_at(&mut self) -> Result<Option<(Place, Item)>> {
        if self.small_weight > self.limit && self.ghost_queue.capacity() > 0 {
            self.ghost_queue.reserve(1)?;
        }
        Ok(self.pop_reserved())
    }

    #[inline(always)]
    fn remove(&mut self, place: Place) -> Item {
        let node = self.queues.remove(place);
        let item = node.whole();
        let state = node.state();
        if !state.is_main {
            self.small_weight -= item.weight;
        }
        item
    }

    // A clear enters only records of the small queue in the ghost queue, and none if that queue is within its limit.
    #[inline]
    fn reserve_clear(&mut self) -> Result<()> {
        if self.small_weight <= self.limit || self.ghost_queue.capacity() == 0 {
            return Ok(());
        }
        self.ghost_queue.reserve(count(&self.queues, SMALL))
    }

    #[inline]
    fn clear(&mut self) {
        while self.pop_reserved().is_some() {}
    }

    #[inline(always)]
    fn acquire(&mut self, place: Place) {
        let state = self.queues.get(place).state();
        let used = S3FifoState { frequency: state.frequency.saturating_add(1).min(MOST), ..state };
        self.queues.set_state(place, used);
    }

    #[inline(always)]
    fn release(&mut self, _place: Place) {}

    // A use counts at the node.
    #[inline(always)]
    fn look_ahead(&self, place: Place) -> bool {
        self.queues.list_of(place) < 2
    }

    #[inline(always)]
    fn ahead(&self) -> (Option<Place>, Option<Place>) {
        let victim = if self.small_weight > self.limit {
            next_victim(&self.queues, SMALL, self.threshold)
        } else {
            next_victim(&self.queues, MAIN, 1)
        };
        match victim {
            Some(place) => (victim, self.queues.next(place)),
            None => (None, None),
        }
    }

    #[inline(always)]
    fn expired(&self, now: u64) -> Option<Place> {
        first_of_lists(&self.queues, 2, now)
    }

    #[inline(always)]
    fn span(&self) -> usize {
        self.queues.span()
    }

    #[inline(always)]
    fn item(&self, place: Place) -> Item {
        self.queues.get(place).whole()
    }

    #[inline]
    fn order(&self) -> Result<Vec<Item>> {
        let mut items = Vec::new(self.alloc);
        append_items(&self.queues, SMALL, &mut items)?;
        append_items(&self.queues, MAIN, &mut items)?;
        Ok(items)
    }

    #[inline(always)]
    fn pinned_weight(&self) -> usize {
        0
    }

    #[inline(always)]
    fn is_pinned(&self, _place: Place) -> bool {
        false
    }

    #[inline]
    fn looks(&self) -> u128 {
        self.looks
    }
}
