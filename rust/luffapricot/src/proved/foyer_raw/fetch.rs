//! Fetches of missing keys: tasks, waits, and what runs and builds them.

// Written by rust/erase/erase.py from crates/foyer_raw/src/fetch.rt: change that.
#[allow(unused_imports)]
use crate::rattle_std::prelude::*;
mod direct;
mod pollable;
mod spawner;
mod state;
mod task;
mod types;
mod wait;

pub use direct::{Direct, Given, NoFetch};
pub use pollable::Pollable;
pub use spawner::{AllTasks, ListSpawner, Spawner};
pub use state::{RawFetchState, TaskEvent};
pub(crate) use task::Begin;
pub use task::RawFetch;
pub use types::{
    FetchTypes, OptionalFetch, OptionalFetchBuilder, OptionalFuture, RequiredFetch, RequiredFetchBuilder,
    RequiredFuture,
};
pub use wait::{RawGetOrFetch, RawWait};
