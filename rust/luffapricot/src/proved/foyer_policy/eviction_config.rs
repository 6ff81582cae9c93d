//! The configuration of any policy.

// Written by rust/erase/erase.py from crates/foyer_policy/src/eviction_config.rt: change that.
#[allow(unused_imports)]
use crate::rattle_std::prelude::*;
use crate::proved::foyer_policy::fifo::FifoConfig;
use crate::proved::foyer_policy::lfu::LfuConfig;
use crate::proved::foyer_policy::lru::LruConfig;
use crate::proved::foyer_policy::s3fifo::S3FifoConfig;
use crate::proved::foyer_policy::sieve::SieveConfig;
use crate::rattle_std::serde::{Deserialize, Serialize};
use crate::rattle_std::str::FromStr;

/// The configuration of one of the five policies. Deserializing checks no ranges; `check` does.
#[derive(Clone, Debug, PartialEq, Eq)]
pub enum EvictionConfig {
    /// First in, first out.
    Fifo(FifoConfig),
    /// S3-FIFO.
    S3Fifo(S3FifoConfig),
    /// Least recently used.
    Lru(LruConfig),
    /// W-TinyLFU.
    Lfu(LfuConfig),
    /// Sieve.
    Sieve(SieveConfig),
}

impl Default for EvictionConfig {
    /// Returns the default configuration of LRU.
    #[inline]
    fn default() -> EvictionConfig {
        EvictionConfig::Lru(LruConfig::default())
    }
}

/// The text is not the name of a policy.
#[derive(Clone, Copy, Debug, PartialEq, Eq)]
pub struct UnknownPolicy;

impl ::std::fmt::Display for UnknownPolicy {
    #[inline]
    fn fmt(&self, f: &mut ::std::fmt::Formatter<'_>) -> ::std::fmt::Result {
        match self {
            UnknownPolicy { .. } => write!(f, "the policies are fifo, lru, lfu, s3fifo and sieve"),
        }
    }
}

impl ::std::error::Error for UnknownPolicy {}

/// Reads a policy's name, in lower case, and returns its default configuration.
impl FromStr for EvictionConfig {
    type Err = UnknownPolicy;

    #[inline]
    fn from_str(name: &str) -> Result<EvictionConfig, UnknownPolicy> {
        match name {
            "fifo" => Ok(EvictionConfig::Fifo(FifoConfig::default())),
            "lru" => Ok(EvictionConfig::Lru(LruConfig::default())),
            "lfu" => Ok(EvictionConfig::Lfu(LfuConfig::default())),
            "s3fifo" => Ok(EvictionConfig::S3Fifo(S3FifoConfig::default())),
            "sieve" => Ok(EvictionConfig::Sieve(SieveConfig::default())),
            _ => Err(UnknownPolicy),
        }
    }
}

impl From<FifoConfig> for EvictionConfig {
    #[inline]
    fn from(config: FifoConfig) -> Self {
        EvictionConfig::Fifo(config)
    }
}

impl From<S3FifoConfig> for EvictionConfig {
    #[inline]
    fn from(config: S3FifoConfig) -> Self {
        EvictionConfig::S3Fifo(config)
    }
}

impl From<LruConfig> for EvictionConfig {
    #[inline]
    fn from(config: LruConfig) -> Self {
        EvictionConfig::Lru(config)
    }
}

impl From<LfuConfig> for EvictionConfig {
    #[inline]
    fn from(config: LfuConfig) -> Self {
        EvictionConfig::Lfu(config)
    }
}

impl From<SieveConfig> for EvictionConfig {
    #[inline]
    fn from(config: SieveConfig) -> Self {
        EvictionConfig::Sieve(config)
    }
}
