//! The policies' configurations.

use crate::proved::foyer_policy::{self, Ratio};
use std::str::FromStr;

/// First in, first out.
#[derive(Clone, Debug, Default, PartialEq)]
#[cfg_attr(feature = "serde", derive(serde::Serialize, serde::Deserialize))]
pub struct FifoConfig {}

/// Least recently used. While an entry of a `get` is held its record is pinned: no eviction takes it.
#[derive(Clone, Debug, PartialEq)]
#[cfg_attr(feature = "serde", derive(serde::Serialize, serde::Deserialize))]
pub struct LruConfig {
    /// The part of the capacity that records without the hint `Low` may weigh before the oldest lose their priority: from
    /// 0 to 1, by default 0.9.
    pub high_priority_pool_ratio: f64,
}

/// w-TinyLFU (Einziger, Friedman and Manes, 2017).
#[derive(Clone, Debug, PartialEq)]
#[cfg_attr(feature = "serde", derive(serde::Serialize, serde::Deserialize))]
pub struct LfuConfig {
    /// The part of the capacity that the window may weigh: between 0 and 1, by default 0.1.
    pub window_capacity_ratio: f64,
    /// The part of the capacity that protected records may weigh: between 0 and 1, by default 0.8. Both parts together
    /// are below 1.
    pub protected_capacity_ratio: f64,
    /// The error of the count-min sketch: each row has e / `cmsketch_eps` buckets. By default 0.001.
    pub cmsketch_eps: f64,
    /// The confidence of the count-min sketch: it has ln(1 / (1 - `cmsketch_confidence`)) rows. By default 0.9.
    pub cmsketch_confidence: f64,
}

/// S3-FIFO (Yang and others, SOSP 2023), as in `foyer-memory`: a record keeps its frequency when it is promoted.
#[derive(Clone, Debug, PartialEq)]
#[cfg_attr(feature = "serde", derive(serde::Serialize, serde::Deserialize))]
pub struct S3FifoConfig {
    /// The part of the capacity that the small queue may weigh: between 0 and 1, by default 0.1.
    pub small_queue_capacity_ratio: f64,
    /// The part of the capacity that the ghost queue may weigh: by default 1.
    pub ghost_queue_capacity_ratio: f64,
    /// From this frequency on, a record of the small queue is promoted: by default 1. More than 3 counts as 3.
    pub small_to_main_freq_threshold: u8,
}

/// Sieve (Zhang and others, NSDI 2024).
#[derive(Clone, Debug, Default, PartialEq)]
#[cfg_attr(feature = "serde", derive(serde::Serialize, serde::Deserialize))]
pub struct SieveConfig;

impl Default for LruConfig {
    fn default() -> Self {
        LruConfig { high_priority_pool_ratio: 0.9 }
    }
}

impl Default for LfuConfig {
    fn default() -> Self {
        LfuConfig {
            window_capacity_ratio: 0.1,
            protected_capacity_ratio: 0.8,
            cmsketch_eps: 0.001,
            cmsketch_confidence: 0.9,
        }
    }
}

impl Default for S3FifoConfig {
    fn default() -> Self {
        S3FifoConfig {
            small_queue_capacity_ratio: 0.1,
            ghost_queue_capacity_ratio: 1.0,
            small_to_main_freq_threshold: 1,
        }
    }
}

/// A policy and its configuration. The default is LRU, and a policy's name is parsed: `fifo`, `lru`, `lfu`, `s3fifo`,
/// `sieve`.
#[derive(Clone, Debug, PartialEq)]
#[cfg_attr(feature = "serde", derive(serde::Serialize, serde::Deserialize))]
pub enum EvictionConfig {
    /// First in, first out.
    Fifo(FifoConfig),
    /// S3-FIFO.
    S3Fifo(S3FifoConfig),
    /// Least recently used.
    Lru(LruConfig),
    /// w-TinyLFU.
    Lfu(LfuConfig),
    /// Sieve.
    Sieve(SieveConfig),
}

impl Default for EvictionConfig {
    fn default() -> Self {
        EvictionConfig::Lru(LruConfig::default())
    }
}

macro_rules! from {
    ($($name:ident $config:ident),*) => {$(
        impl From<$config> for EvictionConfig {
            fn from(config: $config) -> Self {
                EvictionConfig::$name(config)
            }
        }
    )*};
}
from!(Fifo FifoConfig, S3Fifo S3FifoConfig, Lru LruConfig, Lfu LfuConfig, Sieve SieveConfig);

impl FromStr for EvictionConfig {
    type Err = UnknownPolicy;

    fn from_str(name: &str) -> Result<Self, UnknownPolicy> {
        match name {
            "fifo" => Ok(FifoConfig::default().into()),
            "lru" => Ok(LruConfig::default().into()),
            "lfu" => Ok(LfuConfig::default().into()),
            "s3fifo" => Ok(S3FifoConfig::default().into()),
            "sieve" => Ok(SieveConfig.into()),
            _ => Err(UnknownPolicy),
        }
    }
}

pub use foyer_policy::UnknownPolicy;

impl EvictionConfig {
    // The configuration that the proved code checks. A number that it can't have is one that its check refuses.
    pub(crate) fn exact(&self) -> foyer_policy::EvictionConfig {
        match self {
            EvictionConfig::Fifo(_) => foyer_policy::FifoConfig {}.into(),
            EvictionConfig::Sieve(_) => foyer_policy::SieveConfig.into(),
            EvictionConfig::Lru(lru) => {
                foyer_policy::LruConfig { high_priority_pool_ratio: ratio(lru.high_priority_pool_ratio) }.into()
            }
            EvictionConfig::Lfu(lfu) => foyer_policy::LfuConfig {
                window_capacity_ratio: ratio(lfu.window_capacity_ratio),
                protected_capacity_ratio: ratio(lfu.protected_capacity_ratio),
                cmsketch_buckets: count(std::f64::consts::E / lfu.cmsketch_eps) as u32,
                cmsketch_hashes: count(-(1.0 - lfu.cmsketch_confidence).ln()).min(u8::MAX.into()) as u8,
            }
            .into(),
            EvictionConfig::S3Fifo(s3fifo) => foyer_policy::S3FifoConfig {
                small_queue_capacity_ratio: ratio(s3fifo.small_queue_capacity_ratio),
                ghost_queue_capacity_ratio: ratio(s3fifo.ghost_queue_capacity_ratio),
                small_to_main_freq_threshold: s3fifo.small_to_main_freq_threshold,
            }
            .into(),
        }
    }
}

// The fraction of at most nine decimals that is this number, or else its best approximation of 32 bits. A number that is
// negative or none has the denominator 0, which the check refuses (F2).
fn ratio(number: f64) -> Ratio {
    if !(0.0..=MOST).contains(&number) {
        return Ratio { num: 0, den: 0 };
    }
    let decimals = (0..10).map(|digits| 10f64.powi(digits)).map(|den| ((number * den).round(), den));
    let exact = decimals.take_while(|it| it.0 <= MOST).find(|it| it.0 / it.1 == number);
    let (num, den) = exact.unwrap_or_else(|| convergent(number));
    Ratio { num: num as u32, den: den as u32 }
}

const MOST: f64 = u32::MAX as f64;

// The first convergent of a number's continued fraction that is the number, or the last one that 32 bits allow.
fn convergent(number: f64) -> (f64, f64) {
    let (mut before, mut best, mut rest) = ((1.0, 0.0), (number.floor(), 1.0), number);
    while best.0 / best.1 != number {
        rest = 1.0 / rest.fract();
        let next = (rest.floor() * best.0 + before.0, rest.floor() * best.1 + before.1);
        if next.0.max(next.1) > MOST {
            break;
        }
        (before, best) = (best, next);
    }
    best
}

// A number of rows or buckets: rounded up, and 0, which the check refuses, for what is none.
fn count(number: f64) -> u64 {
    if number > 0.0 { number.ceil().min(MOST) as u64 } else { 0 }
}
