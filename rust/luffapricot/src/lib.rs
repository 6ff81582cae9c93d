#![doc = include_str!("../README.md")]
#![warn(missing_docs)]

mod builder;
mod cache;
mod clock;
mod config;
mod entry;
mod error;
mod fetch;
mod guard;
mod key;
mod pipe;
mod properties;
#[cfg(not(luffa_internals))]
mod proved;
#[cfg(not(luffa_internals))]
mod rattle_std;
mod rules;
mod types;

/// For the tests of the proved modules alone (`rust/tests`).
#[cfg(luffa_internals)]
#[doc(hidden)]
#[allow(missing_docs)]
pub mod proved;
/// For the tests of the proved modules alone (`rust/tests`).
#[cfg(luffa_internals)]
#[doc(hidden)]
#[allow(missing_docs)]
pub mod rattle_std;

pub use builder::CacheBuilder;
pub use cache::Cache;
pub use config::{EvictionConfig, FifoConfig, LfuConfig, LruConfig, S3FifoConfig, SieveConfig, UnknownPolicy};
pub use entry::CacheEntry;
pub use error::{BoxError, Error, ErrorKind};
pub use fetch::{GetOrFetch, Spawner};
pub use key::Equivalent;
pub use pipe::{ArcPipe, BoxFuture, NoopPipe, Piece, Pipe};
pub use properties::{CacheProperties, Properties};
pub use proved::foyer_core::Stats;
pub use proved::foyer_policy::{Age, DefaultHasher, Event, Hint, Location, ModHasher, Source};
pub use proved::foyer_raw::Replaced;
pub use rules::{EventListener, Filter, Key, Value, Weighter};
pub use types::{FetchTarget, OptionalFetch, OptionalFetchBuilder, RequiredFetch, RequiredFetchBuilder};
