//! Pipes, which take what was evicted.

// Written by rust/erase/erase.py from crates/foyer_raw/src/pipe.rt: change that.
#[allow(unused_imports)]
use crate::rattle_std::prelude::*;
use crate::proved::foyer_core::{CacheProperties, Piece};
use crate::rattle_std::futures::Future;
use crate::rattle_std::futures::future::{Ready, ready};
use crate::rattle_std::fmt::{self, Debug};
use crate::rattle_std::marker::PhantomData;

/// Takes pieces of evicted records, for example to write them to a disk. Called with no lock held.
pub trait Pipe: Sized + 'static {
    /// The cache's key.
    type Key;

    /// The cache's value.
    type Value;

    /// The cache's properties.
    type Properties;

    /// The future that a flush waits for.
    type Flush: Future<Output = ()>;

    /// Returns whether the pipe takes pieces.
    fn is_enabled(&self) -> bool;

    /// Takes one piece.
    fn send(&self, piece: Piece<Self::Key, Self::Value, Self::Properties>);

    /// Takes many pieces, and returns a future that ends once they are where they go. It may be polled.
    fn flush(&self, pieces: Vec<Piece<Self::Key, Self::Value, Self::Properties>>) -> Self::Flush;
}

/// A pipe that is never enabled and does nothing.
pub struct NoopPipe<K, V, P = CacheProperties>(PhantomData<(K, V, P)>);

impl<K, V, P> Default for NoopPipe<K, V, P> {
    #[inline]
    fn default() -> Self {
        NoopPipe(PhantomData)
    }
}

impl<K, V, P> Debug for NoopPipe<K, V, P> {
    #[inline]
    fn fmt(&self, f: &mut fmt::Formatter<'_>) -> fmt::Result {
        f.debug_struct("NoopPipe").finish()
    }
}

impl<K: 'static, V: 'static, P: 'static> Pipe for NoopPipe<K, V, P> {
    type Key = K;

    type Value = V;

    type Properties = P;

    type Flush = Ready<()>;

    #[inline]
    fn is_enabled(&self) -> bool {
        false
    }

    #[inline]
    fn send(&self, _piece: Piece<K, V, P>) {}

    #[inline]
    fn flush(&self, _pieces: Vec<Piece<K, V, P>>) -> Ready<()> {
        ready(())
    }
}
