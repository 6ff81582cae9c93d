//! A policy that is any of the five.

// Written by rust/erase/erase.py from crates/foyer_policy/src/any.rt: change that.
#[allow(unused_imports)]
use crate::rattle_std::prelude::*;
use crate::proved::foyer_policy::error::{Error, Reason, Result};
use crate::proved::foyer_policy::eviction::Eviction;
use crate::proved::foyer_policy::eviction_config::EvictionConfig;
use crate::proved::foyer_policy::fifo::Fifo;
use crate::proved::foyer_policy::lfu::Lfu;
use crate::proved::foyer_policy::lists::Place;
use crate::proved::foyer_policy::lru::Lru;
use crate::proved::foyer_policy::s3fifo::S3Fifo;
use crate::proved::foyer_policy::sieve::Sieve;
use crate::proved::foyer_policy::types::Item;
use crate::rattle_std::alloc::Global;

/// One of the five policies. Its configuration says which, and that never changes.
pub enum AnyEviction {
    /// First in, first out.
    Fifo(Fifo),
    /// S3-FIFO.
    S3Fifo(S3Fifo),
    /// Least recently used.
    Lru(Lru),
    /// W-TinyLFU.
    Lfu(Lfu),
    /// Sieve.
    Sieve(Sieve),
}

impl Eviction for AnyEviction {
    type Config = EvictionConfig;

    #[inline]
    fn check(config: &EvictionConfig) -> Result<()> {
        match config {
            EvictionConfig::Fifo(config) => Fifo::check(config),
            EvictionConfig::S3Fifo(config) => S3Fifo::check(config),
            EvictionConfig::Lru(config) => Lru::check(config),
            EvictionConfig::Lfu(config) => Lfu::check(config),
            EvictionConfig::Sieve(config) => Sieve::check(config),
        }
    }

    #[inline]
    fn new(alloc: Global, capacity: usize, config: &EvictionConfig) -> Result<Self> {
        match config {
            EvictionConfig::Fifo(config) => Ok(AnyEviction::Fifo(Fifo::new(alloc, capacity, config)?)),
            EvictionConfig::S3Fifo(config) => Ok(AnyEviction::S3Fifo(S3Fifo::new(alloc, capacity, config)?)),
            EvictionConfig::Lru(config) => Ok(AnyEviction::Lru(Lru::new(alloc, capacity, config)?)),
            EvictionConfig::Lfu(config) => Ok(AnyEviction::Lfu(Lfu::new(alloc, capacity, config)?)),
            EvictionConfig::Sieve(config) => Ok(AnyEviction::Sieve(Sieve::new(alloc, capacity, config)?)),
        }
    }

    #[inline]
    fn takes(&self, config: &EvictionConfig) -> bool {
        match (self, config) {
            (AnyEviction::Fifo(_), EvictionConfig::Fifo(_)) => true,
            (AnyEviction::S3Fifo(_), EvictionConfig::S3Fifo(_)) => true,
            (AnyEviction::Lru(_), EvictionConfig::Lru(_)) => true,
            (AnyEviction::Lfu(_), EvictionConfig::Lfu(_)) => true,
            (AnyEviction::Sieve(_), EvictionConfig::Sieve(_)) => true,
            _ => false,
        }
    }

    #[inline]
    fn update(&mut self, capacity: usize, config: Option<&EvictionConfig>) -> Result<()> {
        if let Some(config) = config {
            if !self.takes(config) {
                return Err(Error::new(Reason::WrongPolicy));
            }
        }
        match self {
            AnyEviction::Fifo(policy) => match config {
                Some(EvictionConfig::Fifo(config)) => policy.update(capacity, Some(config)),
                _ => policy.update(capacity, None),
            },
            AnyEviction::S3Fifo(policy) => match config {
                Some(EvictionConfig::S3Fifo(config)) => policy.update(capacity, Some(config)),
                _ => policy.update(capacity, None),
            },
            AnyEviction::Lru(policy) => match config {
                Some(EvictionConfig::Lru(config)) => policy.update(capacity, Some(config)),
                _ => policy.update(capacity, None),
            },
            AnyEviction::Lfu(policy) => match config {
                Some(EvictionConfig::Lfu(config)) => policy.update(capacity, Some(config)),
                _ => policy.update(capacity, None),
            },
            AnyEviction::Sieve(policy) => match config {
                Some(EvictionConfig::Sieve(config)) => policy.update(capacity, Some(config)),
                _ => policy.update(capacity, None),
            },
        }
    }

    #[inline(always)]
    fn reserve(&mut self) -> Result<()> {
        match self {
            AnyEviction::Fifo(policy) => policy.reserve(),
            AnyEviction::S3Fifo(policy) => policy.reserve(),
            AnyEviction::Lru(policy) => policy.reserve(),
            AnyEviction::Lfu(policy) => policy.reserve(),
            AnyEviction::Sieve(policy) => policy.reserve(),
        }
    }

    #[inline(always)]
    fn reserve_to(&mut self, wanted: usize) -> Result<()> {
        match self {
            AnyEviction::Fifo(policy) => policy.reserve_to(wanted),
            AnyEviction::S3Fifo(policy) => policy.reserve_to(wanted),
            AnyEviction::Lru(policy) => policy.reserve_to(wanted),
            AnyEviction::Lfu(policy) => policy.reserve_to(wanted),
            AnyEviction::Sieve(policy) => policy.reserve_to(wanted),
        }
    }

    #[inline(always)]
    fn next_place(&self) -> Place {
        match self {
            AnyEviction::Fifo(policy) => policy.next_place(),
            AnyEviction::S3Fifo(policy) => policy.next_place(),
            AnyEviction::Lru(policy) => policy.next_place(),
            AnyEviction::Lfu(policy) => policy.next_place(),
            AnyEviction::Sieve(policy) => policy.next_place(),
        }
    }

    #[inline(always)]
    fn push_at(&mut self, place: Place, item: Item) {
        match self {
            AnyEviction::Fifo(policy) => policy.push_at(place, item),
            AnyEviction::S3Fifo(policy) => policy.push_at(place, item),
            AnyEviction::Lru(policy) => policy.push_at(place, item),
            AnyEviction::Lfu(policy) => policy.push_at(place, item),
            AnyEviction::Sieve(policy) => policy.push_at(place, item),
        }
    }

    #[inline(always)]
    fn pop_at(&mut self) -> Result<Option<(Place, Item)>> {
        match self {
            AnyEviction::Fifo(policy) => policy.pop_at(),
            AnyEviction::S3Fifo(policy) => policy.pop_at(),
            AnyEviction::Lru(policy) => policy.pop_at(),
            AnyEviction::Lfu(policy) => policy.pop_at(),
            AnyEviction::Sieve(policy) => policy.pop_at(),
        }
    }

    #[inline(always)]
    fn remove(&mut self, place: Place) -> Item {
        match self {
            AnyEviction::Fifo(policy) => policy.remove(place),
            AnyEviction::S3Fifo(policy) => policy.remove(place),
            AnyEviction::Lru(policy) => policy.remove(place),
            AnyEviction::Lfu(policy) => policy.remove(place),
            AnyEviction::Sieve(policy) => policy.remove(place),
        }
    }

    #[inline]
    fn reserve_clear(&mut self) -> Result<()> {
        match self {
            AnyEviction::Fifo(policy) => policy.reserve_clear(),
            AnyEviction::S3Fifo(policy) => policy.reserve_clear(),
            AnyEviction::Lru(policy) => policy.reserve_clear(),
            AnyEviction::Lfu(policy) => policy.reserve_clear(),
            AnyEviction::Sieve(policy) => policy.reserve_clear(),
        }
    }

    #[inline]
    fn clear(&mut self) {
        match self {
            AnyEviction::Fifo(policy) => policy.clear(),
            AnyEviction::S3Fifo(policy) => policy.clear(),
            AnyEviction::Lru(policy) => policy.clear(),
            AnyEviction::Lfu(policy) => policy.clear(),
            AnyEviction::Sieve(policy) => policy.clear(),
        }
    }

    #[inline(always)]
    fn acquire(&mut self, place: Place) {
        match self {
            AnyEviction::Fifo(policy) => policy.acquire(place),
            AnyEviction::S3Fifo(policy) => policy.acquire(place),
            AnyEviction::Lru(policy) => policy.acquire(place),
            AnyEviction::Lfu(policy) => policy.acquire(place),
            AnyEviction::Sieve(policy) => policy.acquire(place),
        }
    }

    #[inline(always)]
    fn release(&mut self, place: Place) {
        match self {
            AnyEviction::Fifo(policy) => policy.release(place),
            AnyEviction::S3Fifo(policy) => policy.release(place),
            AnyEviction::Lru(policy) => policy.release(place),
            AnyEviction::Lfu(policy) => policy.release(place),
            AnyEviction::Sieve(policy) => policy.release(place),
        }
    }

    #[inline(always)]
    fn look_ahead(&self, place: Place) -> bool {
        match self {
            AnyEviction::Fifo(policy) => policy.look_ahead(place),
            AnyEviction::S3Fifo(policy) => policy.look_ahead(place),
            AnyEviction::Lru(policy) => policy.look_ahead(place),
            AnyEviction::Lfu(policy) => policy.look_ahead(place),
            AnyEviction::Sieve(policy) => policy.look_ahead(place),
        }
    }

    #[inline(always)]
    fn ahead(&self) -> (Option<Place>, Option<Place>) {
        match self {
            AnyEviction::Fifo(policy) => policy.ahead(),
            AnyEviction::S3Fifo(policy) => policy.ahead(),
            AnyEviction::Lru(policy) => policy.ahead(),
            AnyEviction::Lfu(policy) => policy.ahead(),
            AnyEviction::Sieve(policy) => policy.ahead(),
        }
    }

    #[inline(always)]
    fn expired(&self, now: u64) -> Option<Place> {
        match self {
            AnyEviction::Fifo(policy) => policy.expired(now),
            AnyEviction::S3Fifo(policy) => policy.expired(now),
            AnyEviction::Lru(policy) => policy.expired(now),
            AnyEviction::Lfu(policy) => policy.expired(now),
            AnyEviction::Sieve(policy) => policy.expired(now),
        }
    }

    #[inline(always)]
    fn span(&self) -> usize {
        match self {
            AnyEviction::Fifo(policy) => policy.span(),
            AnyEviction::S3Fifo(policy) => policy.span(),
            AnyEviction::Lru(policy) => policy.span(),
            AnyEviction::Lfu(policy) => policy.span(),
            AnyEviction::Sieve(policy) => policy.span(),
        }
    }

    #[inline(always)]
    fn item(&self, place: Place) -> Item {
        match self {
            AnyEviction::Fifo(policy) => policy.item(place),
            AnyEviction::S3Fifo(policy) => policy.item(place),
            AnyEviction::Lru(policy) => policy.item(place),
            AnyEviction::Lfu(policy) => policy.item(place),
            AnyEviction::Sieve(policy) => policy.item(place),
        }
    }

    #[inline]
    fn order(&self) -> Result<Vec<Item>> {
        match self {
            AnyEviction::Fifo(policy) => policy.order(),
            AnyEviction::S3Fifo(policy) => policy.order(),
            AnyEviction::Lru(policy) => policy.order(),
            AnyEviction::Lfu(policy) => policy.order(),
            AnyEviction::Sieve(policy) => policy.order(),
        }
    }

    #[inline(always)]
    fn pinned_weight(&self) -> usize {
        match self {
            AnyEviction::Fifo(policy) => policy.pinned_weight(),
            AnyEviction::S3Fifo(policy) => policy.pinned_weight(),
            AnyEviction::Lru(policy) => policy.pinned_weight(),
            AnyEviction::Lfu(policy) => policy.pinned_weight(),
            AnyEviction::Sieve(policy) => policy.pinned_weight(),
        }
    }

    #[inline(always)]
    fn is_pinned(&self, place: Place) -> bool {
        match self {
            AnyEviction::Fifo(policy) => policy.is_pinned(place),
            AnyEviction::S3Fifo(policy) => policy.is_pinned(place),
            AnyEviction::Lru(policy) => policy.is_pinned(place),
            AnyEviction::Lfu(policy) => policy.is_pinned(place),
            AnyEviction::Sieve(policy) => policy.is_pinned(place),
        }
    }

    #[inline]
    fn looks(&self) -> u128 {
        match self {
            AnyEviction::Fifo(policy) => policy.looks(),
            AnyEviction::S3Fifo(policy) => policy.looks(),
            AnyEviction::Lru(policy) => policy.looks(),
            AnyEviction::Lfu(policy) => policy.looks(),
            AnyEviction::Sieve(policy) => policy.looks(),
        }
    }
}

/// The law that no call changes which of the five a policy is. The function does nothing; the law is its contract.
#[inline]
pub fn kinds_stay() {}
