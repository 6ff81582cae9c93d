//! The cache that users call, with any of the five policies, and its builder.

// Written by rust/erase/erase.py from crates/foyer_memory/src/lib.rt: change that.
#[allow(unused_imports)]
use crate::rattle_std::prelude::*;
pub mod builder;
pub mod bytes;
pub mod cache;
pub mod entry;
pub mod fetch;
pub mod kind;
pub mod of;
pub mod policy_config;
pub mod types;

pub use builder::CacheBuilder;
pub use bytes::{ByteLen, Bytes};
pub use cache::Cache;
pub use entry::CacheEntry;
pub use fetch::{FetchTask, GetOrFetch};
pub use crate::proved::foyer_core::{CacheProperties, FetchTarget, Filter, Piece, Stats, Weighter};
pub use crate::proved::foyer_policy::{
    Eviction, EvictionConfig, FifoConfig, LfuConfig, LruConfig, S3FifoConfig, SieveConfig,
};
pub use crate::proved::foyer_raw::{
    Notifier, OptionalFetch, OptionalFetchBuilder, Pipe, Replaced, RequiredFetch, RequiredFetchBuilder, Waiter,
};
pub use kind::Kind;
pub use of::Of;
pub use policy_config::PolicyConfig;
pub use types::{
    FetchCache, FifoCache, FifoCacheEntry, FifoGetOrFetch, LfuCache, LfuCacheEntry, LfuGetOrFetch, LruCache,
    LruCacheEntry, LruGetOrFetch, PlainCache, S3FifoCache, S3FifoCacheEntry, S3FifoGetOrFetch, SieveCache,
    SieveCacheEntry, SieveGetOrFetch,
};
