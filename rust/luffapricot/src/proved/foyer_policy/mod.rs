//! Eviction policies over linked lists, and the types that all crates of the cache share.

// Written by rust/erase/erase.py from crates/foyer_policy/src/lib.rt: change that.
#[allow(unused_imports)]
use crate::rattle_std::prelude::*;
pub mod any;
pub mod config;
pub(crate) mod dated_lists;
pub(crate) mod dates;
pub(crate) mod due;
pub mod error;
pub mod eviction;
pub mod eviction_config;
pub mod fault;
pub mod fifo;
pub mod ghost_queue;
pub mod hash;
pub(crate) mod kept;
pub mod lfu;
pub(crate) mod limit;
pub mod link;
pub mod lists;
pub mod looks;
pub mod lru;
pub(crate) mod min_tree;
pub mod moments;
pub mod past;
pub mod properties;
pub(crate) mod queued;
pub mod s3fifo;
pub mod sieve;
pub mod sketch;
pub mod types;

pub use any::AnyEviction;
pub use config::{Config, State};
pub use error::{Error, ErrorKind, Fault, Field, Reason, Result};
pub use eviction::Eviction;
pub use eviction_config::{EvictionConfig, UnknownPolicy};
pub use fault::OrFault;
pub use fifo::{Fifo, FifoConfig, FifoState};
pub use ghost_queue::{GhostQueue, longest_tails_are_kept};
pub use hash::{DefaultHasher, HashBuilder, ModHasher};
pub use lfu::{Lfu, LfuConfig, LfuState};
pub use link::Link;
pub use lists::{Lists, Place};
pub use looks::looks_are_paid;
pub use lru::{Lru, LruConfig, LruState};
pub use moments::{due_first_is_a_policy, victims_are_closed};
pub use past::Past;
pub use properties::Properties;
pub use s3fifo::{S3Fifo, S3FifoConfig, S3FifoState};
pub use sieve::{Sieve, SieveConfig, SieveState};
pub use sketch::Sketch;
pub use types::{Age, Event, EventListener, Hint, Item, Key, Location, Ratio, Source, Value};
