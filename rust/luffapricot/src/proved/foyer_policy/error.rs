//! Refusals: what kind each is of, its reason and its number.

// Written by rust/erase/erase.py from crates/foyer_policy/src/error.rt: change that.
#[allow(unused_imports)]
use crate::rattle_std::prelude::*;
use crate::rattle_std::alloc::{AllocError, AllocFailed, Global};

use crate::rattle_std::sync::Arc;

/// What kind of error it is.
#[derive(Clone, Copy, Debug, PartialEq, Eq, Hash)]
pub enum ErrorKind {
    /// A configuration that isn't accepted.
    Config,
    /// Out of memory.
    Memory,
    /// A limit of the cache.
    Limit,
    /// Something outside of the cache.
    External,
    /// A channel whose sender went.
    ChannelClosed,
    /// A task that was dropped.
    TaskCancelled,
}

/// The ratio of a configuration that is out of its range.
#[derive(Clone, Copy, Debug, PartialEq, Eq, Hash)]
pub enum Field {
    /// `high_priority_pool_ratio` of an `LruConfig`.
    HighPriorityPool,
    /// `window_capacity_ratio` of an `LfuConfig`.
    Window,
    /// `protected_capacity_ratio` of an `LfuConfig`.
    Protected,
    /// `small_queue_capacity_ratio` of an `S3FifoConfig`.
    SmallQueue,
}

/// What a fetch failed with.
#[derive(Clone, Debug, PartialEq, Eq)]
pub struct Fault {
    pub code: u64,
    pub message: String,
}

impl Fault {
    /// Returns a fault with this code and message.
    #[inline]
    pub fn new(code: u64, message: String) -> Self {
        Fault { code, message }
    }

    /// Returns a fault with this code and this text as its message, or with no message if memory runs out.
    #[inline]
    pub fn with_text(alloc: Global, code: u64, text: &str) -> Self {
        let message = match String::from_str(alloc, text) {
            Ok(message) => message,
            Err(_) => String::new(alloc),
        };
        Fault { code, message }
    }
}

/// Why a call was refused.
#[derive(Clone, Debug, PartialEq, Eq)]
pub enum Reason {
    NoShards,
    ZeroDenominator,
    RatioRange(Field),
    RatioSum,
    NoRows,
    NoBuckets,
    NoMemory,
    Weight,
    Handles,
    Ids,
    Fetch(Arc<Fault, Global>),
    WrongKey,
    NoValue,
    ChannelClosed,
    TaskCancelled,
    Spent,
    WrongPolicy,
}

impl ::std::fmt::Display for Reason {
    #[inline]
    fn fmt(&self, f: &mut ::std::fmt::Formatter<'_>) -> ::std::fmt::Result {
        match self {
            Reason::NoShards => write!(f, "the cache has no shards"),
            Reason::ZeroDenominator => write!(f, "a ratio has the denominator 0"),
            Reason::RatioRange(at_0) => write!(f, "a ratio is out of its range: {at_0:?}"),
            Reason::RatioSum => write!(f, "the ratios of window and protected leave nothing to probation"),
            Reason::NoRows => write!(f, "the sketch has no rows"),
            Reason::NoBuckets => write!(f, "the sketch has no buckets"),
            Reason::NoMemory => write!(f, "out of memory"),
            Reason::Weight => write!(f, "the usage would pass the greatest number"),
            Reason::Handles => write!(f, "the handle count would pass its limit"),
            Reason::Ids => write!(f, "no number is left"),
            Reason::Fetch(at_0) => write!(f, "the fetch failed: {at_0:?}"),
            Reason::WrongKey => write!(f, "a fetched piece has another key"),
            Reason::NoValue => write!(f, "the fetch gave no value"),
            Reason::ChannelClosed => write!(f, "the sender went without an answer"),
            Reason::TaskCancelled => write!(f, "the fetch task was dropped"),
            Reason::Spent => write!(f, "the answer was taken before"),
            Reason::WrongPolicy => write!(f, "the configuration is of another policy"),
        }
    }
}

impl ::std::error::Error for Reason {}

/// Why a call failed. Contracts see its reason, which determines its kind.
#[derive(Debug)]
pub struct Error {
    kind: ErrorKind,
    reason: Reason,
}

impl ::std::fmt::Display for Error {
    #[inline]
    fn fmt(&self, f: &mut ::std::fmt::Formatter<'_>) -> ::std::fmt::Result {
        match self {
            Error { reason, .. } => write!(f, "{reason}"),
        }
    }
}

impl ::std::error::Error for Error {}

impl TryClone for Error {
    /// Returns the same error. A fault is shared, which fails if its reference count is full.
    #[inline]
    fn try_clone(&self) -> crate::rattle_std::result::Result<Error, AllocError> {
        Ok(Error { kind: self.kind, reason: self.reason.try_clone()? })
    }
}

impl PartialEq for Error {
    #[inline]
    fn eq(&self, other: &Error) -> bool {
        self.reason == other.reason
    }
}

impl Eq for Error {}

impl From<AllocError> for Error {
    #[inline]
    fn from(_refused: AllocError) -> Error {
        Error::new(Reason::NoMemory)
    }
}

impl<T> From<AllocFailed<T>> for Error {
    #[inline]
    fn from(_refused: AllocFailed<T>) -> Error {
        Error::from(AllocError)
    }
}

/// What calls of the cache return.
pub type Result<T> = crate::rattle_std::result::Result<T, Error>;

impl Error {
    /// Creates an error with this reason.
    #[inline]
    pub fn new(reason: Reason) -> Self {
        Error { kind: kind(&reason), reason }
    }

    /// Returns the kind.
    #[inline]
    pub fn kind(&self) -> ErrorKind {
        self.kind
    }

    /// Returns the reason.
    #[inline]
    pub fn reason(&self) -> &Reason {
        &self.reason
    }

    /// Returns the number: 7 for F7.
    #[inline]
    pub fn number(&self) -> u8 {
        match &self.reason {
            Reason::NoShards => 1,
            Reason::ZeroDenominator => 2,
            Reason::RatioRange(_) => 3,
            Reason::RatioSum => 4,
            Reason::NoRows => 5,
            Reason::NoBuckets => 6,
            Reason::NoMemory => 7,
            Reason::Weight => 8,
            Reason::Handles => 9,
            Reason::Ids => 10,
            Reason::Fetch(_) => 11,
            Reason::WrongKey => 12,
            Reason::NoValue => 13,
            Reason::ChannelClosed => 14,
            Reason::TaskCancelled => 15,
            Reason::Spent => 16,
            Reason::WrongPolicy => 17,
        }
    }
}

// What a reason has to do with.
#[inline]
fn kind(reason: &Reason) -> ErrorKind {
    match reason {
        Reason::NoShards
        | Reason::ZeroDenominator
        | Reason::RatioRange(_)
        | Reason::RatioSum
        | Reason::NoRows
        | Reason::NoBuckets
        | Reason::WrongPolicy => ErrorKind::Config,
        Reason::NoMemory => ErrorKind::Memory,
        Reason::Weight | Reason::Handles | Reason::Ids => ErrorKind::Limit,
        Reason::Fetch(_) | Reason::WrongKey | Reason::NoValue | Reason::Spent => ErrorKind::External,
        Reason::ChannelClosed => ErrorKind::ChannelClosed,
        Reason::TaskCancelled => ErrorKind::TaskCancelled,
    }
}
