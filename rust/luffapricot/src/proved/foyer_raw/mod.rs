//! The cache that threads share: shards behind locks, entries that give their handle back when they are dropped, and
//! the task that fetches a missing key for all that wait for it.

// Written by rust/erase/erase.py from crates/foyer_raw/src/lib.rt: change that.
#[allow(unused_imports)]
use crate::rattle_std::prelude::*;
pub mod cache;
pub mod counted;
pub mod entry;
mod expiry;
pub mod fetch;
pub mod flush;
pub mod leaves;
pub mod listener;
pub mod pipe;
pub mod replaced;
pub mod runtime;
mod shards;
mod shared;
mod shares;
mod stripes;
pub mod ticket;

pub use cache::RawCache;
pub use counted::{At, Capacity, CountedShard, Hashed};
pub use entry::RawCacheEntry;
pub use fetch::{
    AllTasks, Direct, FetchTypes, Given, ListSpawner, NoFetch, OptionalFetch, OptionalFetchBuilder, Pollable, RawFetch,
    RawFetchState, RawGetOrFetch, RawWait, RequiredFetch, RequiredFetchBuilder, Spawner, TaskEvent,
};
pub use flush::{Flush, FlushIf};
pub use listener::{NoListener, tell};
pub use pipe::{NoopPipe, Pipe};
pub use replaced::Replaced;
pub use runtime::Runtime;
pub use ticket::{Answer, Notifier, Ticket, Waiter};
