//! What inserts, look-ups and ends of fetches return.

// Written by rust/erase/erase.py from crates/foyer_core/src/outcome.rt: change that.
#[allow(unused_imports)]
use crate::rattle_std::prelude::*;
use crate::proved::foyer_core::entry::{CoreEntry, Leave};
use crate::proved::foyer_core::hold::Hold;
use crate::proved::foyer_core::piece::Piece;
use crate::proved::foyer_policy::{Error, Reason};
use crate::rattle_std::alloc::Global;
use crate::rattle_std::fmt::{self, Debug, Display};

/// Why an insert, a resize or an eviction failed, and what had left by then.
pub struct Refused<K, V, P> {
    /// The error.
    pub error: Error,
    /// What left, in order.
    pub leaves: Vec<Leave<K, V, P>>,
}

impl<K, V, P> Refused<K, V, P> {
    #[inline]
    pub(crate) fn new(reason: Reason, leaves: Vec<Leave<K, V, P>>) -> Self {
        Refused { error: Error::new(reason), leaves }
    }
}

/// A waiter with its token.
#[derive(Clone, PartialEq, Eq)]
pub struct Waiting<N> {
    /// The token's number.
    pub token: u64,
    /// The waiter.
    pub waiter: N,
}

/// How many entries an insert makes beside the first, and the spare room in their list.
#[derive(Clone, Copy)]
pub(crate) struct Further {
    /// The entries.
    pub(crate) count: usize,
    /// The spare room.
    pub(crate) room: usize,
}

/// Handles of an inserted record.
pub(crate) struct Handles<K, V, P> {
    /// The first.
    pub(crate) entry: CoreEntry<K, V, P>,
    /// The others.
    pub(crate) others: Vec<CoreEntry<K, V, P>>,
}

/// What the waiters of a key get.
pub enum Outcome<K, V, P> {
    /// An entry each, in the order of the waiters.
    Entries(Vec<CoreEntry<K, V, P>>),
    /// No entry.
    None,
    /// The same error each.
    Fault(Error),
}

impl<K, V, P> Outcome<K, V, P> {
    // One of the handles each, for which their list has room, or the same error each.
    #[inline]
    fn of(came: Result<Handles<K, V, P>, Error>) -> Self {
        match came {
            Ok(Handles { entry, mut others }) => {
                others.push_reserved(entry);
                Outcome::Entries(others)
            }
            Err(error) => Outcome::Fault(error),
        }
    }
}

/// The waiters of a key, and what they get.
pub struct Answers<K, V, P, N> {
    /// The waiters, in order.
    pub waiters: Vec<Waiting<N>>,
    /// What they get.
    pub outcome: Outcome<K, V, P>,
}

/// What an insert returns.
pub struct Inserted<K, V, P, N> {
    /// An entry of the record.
    pub entry: CoreEntry<K, V, P>,
    /// What the key's waiters get.
    pub answers: Answers<K, V, P, N>,
    /// What left, in order.
    pub leaves: Vec<Leave<K, V, P>>,
}

/// What an insert returns that appends what leaves to a list.
pub struct InsertedOnto<K, V, P, N> {
    /// An entry of the record.
    pub entry: CoreEntry<K, V, P>,
    /// What the key's waiters get.
    pub answers: Answers<K, V, P, N>,
}

/// What an insert returns of which no entry is wanted, and that appends what leaves to a list.
pub struct PutOnto<K, V, P, N> {
    /// What left with the record's entry: the record, if it is phantom.
    pub last: Option<Leave<K, V, P>>,
    /// What the key's waiters get.
    pub answers: Answers<K, V, P, N>,
}

impl<K, V, P, N> Answers<K, V, P, N> {
    // Nobody waited.
    #[inline(always)]
    pub(crate) fn nobody(alloc: Global) -> Self {
        Answers { waiters: Vec::new(alloc), outcome: Outcome::Entries(Vec::new(alloc)) }
    }

    /// Returns the waiters in order, and what they get: an entry each in the same order, an empty list if they get
    /// none, or the error that all of them get.
    #[inline]
    pub fn into_parts(self) -> (Vec<Waiting<N>>, Result<Vec<CoreEntry<K, V, P>>, Error>) {
        let Answers { waiters, outcome } = self;
        let got = match outcome {
            Outcome::Entries(entries) => Ok(entries),
            Outcome::None => Ok(Vec::new(*waiters.allocator())),
            Outcome::Fault(error) => Err(error),
        };
        (waiters, got)
    }
}

/// An entry that isn't the shard's.
#[derive(Clone, Copy)]
pub struct Foreign;

/// What a look-up finds.
pub enum Got<K, V, P> {
    /// An entry of the key's record.
    Hit(CoreEntry<K, V, P>),
    /// Nothing.
    Miss,
    /// A record that has as many handles as it may: F9.
    Full,
    /// A record, but a reference count is full: F7.
    OutOfMemory,
}

impl<K, V, P> Got<K, V, P> {
    /// Returns the entry, if there is one, or the refusal.
    #[inline(always)]
    pub fn into_result(self) -> Result<Option<CoreEntry<K, V, P>>, Error> {
        match self {
            Got::Hit(entry) => Ok(Some(entry)),
            Got::Miss => Ok(None),
            Got::Full => Err(Error::new(Reason::Handles)),
            Got::OutOfMemory => Err(Error::new(Reason::NoMemory)),
        }
    }
}

/// What a look-up returns that fetches a missing key.
pub enum Lookup<K, V, P, R> {
    /// An entry of the key's record.
    Hit(CoreEntry<K, V, P>),
    /// Nobody fetches the key: the caller leads a new fetch.
    Lead {
        /// The fetch's id.
        fetch: u64,
        /// The token that the leader waits with.
        token: u64,
        /// The leader's own builder.
        required: Option<R>,
    },
    /// The key has an open fetch.
    Wait {
        /// The token to wait with.
        token: u64,
    },
}

/// What a conditional insert returns.
pub enum ReplaceResult<K, V, P, N> {
    /// The key still had what was seen: the record was inserted.
    Inserted(InsertedOnto<K, V, P, N>),
    /// It hadn't, and nothing was inserted: a handle of the record that it has, if there is one.
    Changed(Option<Hold>),
}

/// What the end of a fetch returns.
pub struct Ended<K, V, P, N> {
    /// Whether the fetch was open. If it wasn't, nothing has changed.
    pub found: bool,
    /// What the waiters get.
    pub answers: Answers<K, V, P, N>,
    /// What left, in order.
    pub leaves: Vec<Leave<K, V, P>>,
}

impl<K, V, P, N> Ended<K, V, P, N> {
    // The end of a fetch that is not open.
    #[inline]
    pub(crate) fn lost(alloc: Global) -> Self {
        Ended {
            found: false,
            answers: Answers { waiters: Vec::new(alloc), outcome: Outcome::None },
            leaves: Vec::new(alloc),
        }
    }

    // The end of a fetch with these waiters: each gets one of the handles, or all get the error.
    #[inline]
    pub(crate) fn found(
        waiters: Vec<Waiting<N>>,
        came: Result<Handles<K, V, P>, Error>,
        leaves: Vec<Leave<K, V, P>>,
    ) -> Self {
        Ended { found: true, answers: Answers { waiters, outcome: Outcome::of(came) }, leaves }
    }
}

impl<K, V, P> From<Refused<K, V, P>> for Error {
    /// Returns the error. What had left is dropped.
    #[inline]
    fn from(refused: Refused<K, V, P>) -> Error {
        refused.error
    }
}

impl<K, V, P> Display for Refused<K, V, P> {
    #[inline]
    fn fmt(&self, f: &mut fmt::Formatter<'_>) -> fmt::Result {
        write!(f, "{}", self.error)
    }
}

impl<K, V, P> Debug for Refused<K, V, P> {
    #[inline]
    fn fmt(&self, f: &mut fmt::Formatter<'_>) -> fmt::Result {
        f.debug_struct("Refused").field("error", &self.error).finish()
    }
}

impl<K, V, P> crate::rattle_std::error::Error for Refused<K, V, P> {}

/// What a fetch completes with.
pub enum FetchTarget<K, V, P> {
    /// A value of the key, with its properties.
    Entry {
        /// The value.
        value: V,
        /// The properties.
        properties: P,
    },
    /// A piece of the key's record.
    Piece(Piece<K, V, P>),
}

impl<K, V, P: Default> From<V> for FetchTarget<K, V, P> {
    /// A value, with default properties.
    #[inline]
    fn from(value: V) -> Self {
        FetchTarget::Entry { value, properties: P::default() }
    }
}

impl<K, V, P> From<(V, P)> for FetchTarget<K, V, P> {
    /// A value with these properties.
    #[inline]
    fn from(made: (V, P)) -> Self {
        let (value, properties) = made;
        FetchTarget::Entry { value, properties }
    }
}

impl<K, V, P> From<Piece<K, V, P>> for FetchTarget<K, V, P> {
    /// A piece.
    #[inline]
    fn from(piece: Piece<K, V, P>) -> Self {
        FetchTarget::Piece(piece)
    }
}

impl<K, V, P> Debug for FetchTarget<K, V, P> {
    #[inline]
    fn fmt(&self, f: &mut fmt::Formatter<'_>) -> fmt::Result {
        f.debug_struct("FetchTarget").finish()
    }
}
