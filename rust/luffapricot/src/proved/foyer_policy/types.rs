//! Types that all crates of the cache share.

// Written by rust/erase/erase.py from crates/foyer_policy/src/types.rt: change that.
#[allow(unused_imports)]
use crate::rattle_std::prelude::*;
use crate::rattle_std::serde::{Deserialize, Serialize};
use crate::rattle_std::hash::Hash;

/// Why a record left.
#[derive(Clone, Copy, Debug, PartialEq, Eq, Hash)]
pub enum Event {
    /// It was evicted to make room, or because a predicate picked it.
    Evict,
    /// A newer record replaced it.
    Replace,
    /// Its key was removed.
    Remove,
    /// The cache was cleared.
    Clear,
}

/// A hint to the policy, given with a record.
#[derive(Clone, Copy, Debug, Default, PartialEq, Eq, Hash)]
pub enum Hint {
    /// The record has no special priority.
    #[default]
    Normal,
    /// The record should leave early.
    Low,
}

/// Where a record is to be kept.
#[derive(Clone, Copy, Debug, Default, PartialEq, Eq, Hash)]
pub enum Location {
    /// In memory and on disk.
    #[default]
    Default,
    /// In memory only.
    InMem,
    /// On disk only.
    OnDisk,
}

/// How old the disk's copy of a record is.
#[derive(Clone, Copy, Debug, Default, PartialEq, Eq, Hash)]
pub enum Age {
    /// It was written lately.
    #[default]
    Fresh,
    /// It is neither fresh nor old.
    Young,
    /// It is close to being dropped.
    Old,
}

/// Where an entry came from.
#[derive(Clone, Copy, Debug, PartialEq, Eq, Hash)]
pub enum Source {
    /// It was inserted, or fetched from outside.
    Outer,
    /// It was found in memory.
    Memory,
    /// It was read from disk.
    Disk,
}

/// A part of a capacity: `num / den`, rounded down.
#[derive(Clone, Copy, Debug, PartialEq, Eq, Hash)]
pub struct Ratio {
    pub num: u32,
    pub den: u32,
}

/// What a policy knows of a record.
#[derive(Clone, Copy, Debug, PartialEq, Eq, Hash)]
pub struct Item {
    /// The record's id, which its shard gives once.
    pub id: u64,
    /// The hash of the record's key.
    pub hash: u64,
    /// The weight.
    pub weight: usize,
    /// The hint that came with the record.
    pub hint: Hint,
    /// The time from which on the record is expired, or `None` for never.
    pub expires: Option<u64>,
}

/// A cache's key. Every fitting type is one.
pub trait Key: Eq + Hash + TryClone + 'static {}

impl<T: Eq + Hash + TryClone + 'static> Key for T {}

/// A cache's value. Every fitting type is one.
pub trait Value: 'static {}

impl<T: 'static> Value for T {}

/// Hears of each record that leaves a cache.
pub trait EventListener: 'static {
    /// The cache's key.
    type Key;

    /// The cache's value.
    type Value;

    /// Called once for each record that left, with the reason.
    fn on_leave(&self, event: Event, key: &Self::Key, value: &Self::Value);
}
