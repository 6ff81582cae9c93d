//! The trait of the five policies' configurations.

// Written by rust/erase/erase.py from crates/foyer_memory/src/policy_config.rt: change that.
#[allow(unused_imports)]
use crate::rattle_std::prelude::*;
use crate::proved::foyer_memory::kind::Kind;
use crate::proved::foyer_policy::{EvictionConfig, FifoConfig, LfuConfig, LruConfig, S3FifoConfig, SieveConfig};

/// The configuration of one of the five policies.
pub trait PolicyConfig: Sized {
    /// Returns the policy.
    fn kind() -> Kind;

    /// Converts the configuration into one of any policy.
    fn into_any(self) -> EvictionConfig;
}

impl PolicyConfig for FifoConfig {
    #[inline]
    fn kind() -> Kind {
        Kind::Fifo
    }

    #[inline]
    fn into_any(self) -> EvictionConfig {
        EvictionConfig::Fifo(self)
    }
}

impl PolicyConfig for S3FifoConfig {
    #[inline]
    fn kind() -> Kind {
        Kind::S3Fifo
    }

    #[inline]
    fn into_any(self) -> EvictionConfig {
        EvictionConfig::S3Fifo(self)
    }
}

impl PolicyConfig for LruConfig {
    #[inline]
    fn kind() -> Kind {
        Kind::Lru
    }

    #[inline]
    fn into_any(self) -> EvictionConfig {
        EvictionConfig::Lru(self)
    }
}

impl PolicyConfig for LfuConfig {
    #[inline]
    fn kind() -> Kind {
        Kind::Lfu
    }

    #[inline]
    fn into_any(self) -> EvictionConfig {
        EvictionConfig::Lfu(self)
    }
}

impl PolicyConfig for SieveConfig {
    #[inline]
    fn kind() -> Kind {
        Kind::Sieve
    }

    #[inline]
    fn into_any(self) -> EvictionConfig {
        EvictionConfig::Sieve(self)
    }
}
