//! The configuration of a core.

// Written by rust/erase/erase.py from crates/foyer_core/src/config.rt: change that.
#[allow(unused_imports)]
use crate::rattle_std::prelude::*;
use crate::proved::foyer_core::filter::AdmitAll;
use crate::proved::foyer_core::record::Limits;
use crate::proved::foyer_core::weighter::UnitWeighter;

/// The configuration of a core. `C` is the policy's configuration, `S` the hash builder, `W` the weighter and `A` the
/// filter.
pub struct RawCacheConfig<C, S, W, A> {
    /// The weight that the records may have together.
    pub capacity: usize,
    /// How many shards the core has.
    pub shards: usize,
    /// The configuration of each shard's policy.
    pub eviction_config: C,
    /// Gives each key its hash.
    pub hash_builder: S,
    /// Gives each record its weight.
    pub weighter: W,
    /// Says which records are admitted.
    pub filter: A,
    /// The core's number. Give different ones to cores that exchange records.
    pub number: u64,
    /// The largest handle count and the limit of ids.
    pub limits: Limits,
}

impl<C: Default, S: Default> RawCacheConfig<C, S, UnitWeighter, AdmitAll> {
    /// Creates a configuration of this capacity, with defaults for everything else: 8 shards, the policy's default
    /// configuration, the default hash builder of its type, weight 1 for each record, every record admitted, number 0
    /// and the default limits.
    ///
    /// A field that keeps its type is set by struct update:
    /// `RawCacheConfig { shards: 1, ..RawCacheConfig::new(100) }`.
    #[inline]
    pub fn new(capacity: usize) -> Self {
        RawCacheConfig {
            capacity,
            shards: 8,
            eviction_config: C::default(),
            hash_builder: S::default(),
            weighter: UnitWeighter,
            filter: AdmitAll,
            number: 0,
            limits: Limits::default(),
        }
    }
}

impl<C, S, W, A> RawCacheConfig<C, S, W, A> {
    /// Sets the weighter.
    #[inline]
    pub fn with_weighter<B>(self, weighter: B) -> RawCacheConfig<C, S, B, A> {
        RawCacheConfig {
            capacity: self.capacity,
            shards: self.shards,
            eviction_config: self.eviction_config,
            hash_builder: self.hash_builder,
            weighter,
            filter: self.filter,
            number: self.number,
            limits: self.limits,
        }
    }

    /// Sets the filter.
    #[inline]
    pub fn with_filter<B>(self, filter: B) -> RawCacheConfig<C, S, W, B> {
        RawCacheConfig {
            capacity: self.capacity,
            shards: self.shards,
            eviction_config: self.eviction_config,
            hash_builder: self.hash_builder,
            weighter: self.weighter,
            filter,
            number: self.number,
            limits: self.limits,
        }
    }
}
