//! First in, first out.

// Written by rust/erase/erase.py from crates/foyer_policy/src/fifo.rt: change that.
#[allow(unused_imports)]
use crate::rattle_std::prelude::*;
use crate::proved::foyer_policy::dated_lists::DatedLists;
use crate::proved::foyer_policy::due::first_of_lists;
use crate::proved::foyer_policy::error::{Error, Reason, Result};
use crate::proved::foyer_policy::eviction::Eviction;
use crate::proved::foyer_policy::kept::Kept;
use crate::proved::foyer_policy::lists::Place;
use crate::proved::foyer_policy::queued::{append_items, whole_found};
use crate::proved::foyer_policy::types::Item;
use crate::rattle_std::serde::{Deserialize, Serialize};
use crate::rattle_std::alloc::Global;

/// The configuration of a [`Fifo`]: nothing to set.
#[derive(Clone, Debug, Default, PartialEq, Eq)]
pub struct FifoConfig {}

/// What a [`Fifo`] keeps beside an item: nothing.
#[derive(Debug, Default)]
pub struct FifoState {}

/// First in, first out: the record that was inserted first leaves first, used or not.
pub struct Fifo {
    queue: DatedLists<Kept, 1>,
    alloc: Global,
}

impl Eviction for Fifo {
    type Config = FifoConfig;

    #[inline]
    fn check(_config: &FifoConfig) -> Result<()> {
        Ok(())
    }

    #[inline]
    fn new(alloc: Global, _capacity: usize, config: &FifoConfig) -> Result<Self> {
        Self::check(config)?;
        Ok(Fifo { queue: DatedLists::new(alloc, 1), alloc })
    }

    #[inline]
    fn takes(&self, _config: &FifoConfig) -> bool {
        true
    }

    #[inline]
    fn update(&mut self, _capacity: usize, config: Option<&FifoConfig>) -> Result<()> {
        match config {
            Some(config) => Self::check(config),
            None => Ok(()),
        }
    }

    #[inline(always)]
    fn reserve(&mut self) -> Result<()> {
        match self.queue.reserve(1) {
            Ok(()) => Ok(()),
            Err(_) => Err(Error::new(Reason::NoMemory)),
        }
    }

    #[inline(always)]
    fn reserve_to(&mut self, wanted: usize) -> Result<()> {
        match self.queue.reserve_to(wanted) {
            Ok(()) => Ok(()),
            Err(_) => Err(Error::new(Reason::NoMemory)),
        }
    }

    #[inline(always)]
    fn next_place(&self) -> Place {
        self.queue.next_place()
    }

    #[inline(always)]
    fn push_at(&mut self, place: Place, item: Item) {
        self.queue.push_back_at(0, place, Kept::of(item));
    }

    #[inline(always)]
    fn pop_at(&mut self) -> Result<Option<(Place, Item)>> {
        Ok(whole_found(self.queue.pop_front_at(0)))
    }

    #[inline(always)]
    fn remove(&mut self, place: Place) -> Item {
        self.queue.remove(place).whole()
    }

    #[inline]
    fn reserve_clear(&mut self) -> Result<()> {
        Ok(())
    }

    #[inline]
    fn clear(&mut self) {
        while self.queue.pop_front(0).is_some() {}
    }

    #[inline(always)]
    fn acquire(&mut self, _place: Place) {}

    #[inline(always)]
    fn release(&mut self, _place: Place) {}

    #[inline(always)]
    fn ahead(&self) -> (Option<Place>, Option<Place>) {
        self.queue.first_two(0)
    }

    #[inline(always)]
    fn expired(&self, now: u64) -> Option<Place> {
        first_of_lists(&self.queue, 1, now)
    }

    #[inline(always)]
    fn span(&self) -> usize {
        self.queue.span()
    }

    #[inline(always)]
    fn item(&self, place: Place) -> Item {
        self.queue.get(place).whole()
    }

    #[inline]
    fn order(&self) -> Result<Vec<Item>> {
        let mut items = Vec::new(self.alloc);
        append_items(&self.queue, 0, &mut items)?;
        Ok(items)
    }

    #[inline(always)]
    fn pinned_weight(&self) -> usize {
        0
    }

    #[inline(always)]
    fn is_pinned(&self, _place: Place) -> bool {
        false
    }

    #[inline]
    fn looks(&self) -> u128 {
        0
    }
}
