//! The five policies by name.

// Written by rust/erase/erase.py from crates/foyer_memory/src/kind.rt: change that.
#[allow(unused_imports)]
use crate::rattle_std::prelude::*;
use crate::proved::foyer_policy::EvictionConfig;

/// One of the five policies.
#[derive(Clone, Copy, Debug, PartialEq, Eq)]
pub enum Kind {
    /// First in, first out.
    Fifo,
    /// S3-FIFO.
    S3Fifo,
    /// Least recently used.
    Lru,
    /// W-TinyLFU.
    Lfu,
    /// Sieve.
    Sieve,
}

impl Kind {
    /// Returns the policy of a configuration.
    #[inline]
    pub fn of(config: &EvictionConfig) -> Self {
        match config {
            EvictionConfig::Fifo(_) => Kind::Fifo,
            EvictionConfig::S3Fifo(_) => Kind::S3Fifo,
            EvictionConfig::Lru(_) => Kind::Lru,
            EvictionConfig::Lfu(_) => Kind::Lfu,
            EvictionConfig::Sieve(_) => Kind::Sieve,
        }
    }

    /// Returns whether a configuration is of this policy.
    #[inline]
    pub fn has(self, config: &EvictionConfig) -> bool {
        match (self, config) {
            (Kind::Fifo, EvictionConfig::Fifo(_)) => true,
            (Kind::S3Fifo, EvictionConfig::S3Fifo(_)) => true,
            (Kind::Lru, EvictionConfig::Lru(_)) => true,
            (Kind::Lfu, EvictionConfig::Lfu(_)) => true,
            (Kind::Sieve, EvictionConfig::Sieve(_)) => true,
            _ => false,
        }
    }

    // Its name, as texts have it.
    #[inline]
    pub(crate) fn name(self) -> &'static str {
        match self {
            Kind::Fifo => "Fifo",
            Kind::S3Fifo => "S3Fifo",
            Kind::Lru => "Lru",
            Kind::Lfu => "Lfu",
            Kind::Sieve => "Sieve",
        }
    }
}
