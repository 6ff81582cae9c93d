//! Pieces of records, and where evicted ones go.

use crate::guard::{Held, Resumed, caught};
use crate::key::Name;
use crate::properties::{Properties, Props};
use crate::proved::{foyer_core, foyer_raw};
use crate::rattle_std::clone::TryClone;
use crate::rattle_std::vec::Vec as Pieces;
use std::fmt;
use std::marker::PhantomData;
use std::pin::Pin;
use std::sync::Arc;

/// A future in a box, which any thread may poll.
pub type BoxFuture<T> = Pin<Box<dyn Future<Output = T> + Send>>;

type Inner<K, V, P> = foyer_core::Piece<Name<K>, Held<V>, Props<P>>;

/// A record's data without a handle, for a disk cache or for another cache.
pub struct Piece<K, V, P>(Resumed<Inner<K, V, P>>);

impl<K, V, P> Piece<K, V, P> {
    pub(crate) fn new(inner: Inner<K, V, P>) -> Self {
        Piece(Resumed::new(inner))
    }

    pub(crate) fn into_inner(self) -> Inner<K, V, P> {
        self.0.into_inner()
    }

    /// Returns the key.
    pub fn key(&self) -> &K {
        self.0.key().get()
    }

    /// Returns the value.
    pub fn value(&self) -> &V {
        self.0.value().get()
    }

    /// Returns the properties.
    pub fn properties(&self) -> &P {
        self.0.properties().user()
    }

    /// Returns the hash of the key.
    pub fn hash(&self) -> u64 {
        self.0.hash()
    }
}

impl<K, V, P> Clone for Piece<K, V, P> {
    /// Returns another piece of the same record. Panics if 2^63 clones are kept.
    fn clone(&self) -> Self {
        Piece::new(self.0.try_clone().expect("a reference count is full"))
    }
}

impl<K, V, P> fmt::Debug for Piece<K, V, P> {
    fn fmt(&self, f: &mut fmt::Formatter<'_>) -> fmt::Result {
        f.debug_struct("Piece").field("hash", &self.hash()).finish_non_exhaustive()
    }
}

/// Where a cache's evicted records go.
pub trait Pipe: Send + Sync + 'static {
    /// The cache's key.
    type Key;

    /// The cache's value.
    type Value;

    /// The cache's properties.
    type Properties;

    /// Whether evicted records are sent.
    fn is_enabled(&self) -> bool;

    /// Takes a record that was evicted. No lock is held.
    fn send(&self, piece: Piece<Self::Key, Self::Value, Self::Properties>);

    /// Takes all records of a flush, which waits for the future.
    fn flush(&self, pieces: Vec<Piece<Self::Key, Self::Value, Self::Properties>>) -> BoxFuture<()>;
}

/// A shared pipe.
pub type ArcPipe<K, V, P> = Arc<dyn Pipe<Key = K, Value = V, Properties = P>>;

/// A pipe that is never enabled.
pub struct NoopPipe<K, V, P>(PhantomData<fn(K, V, P)>);

impl<K, V, P> Default for NoopPipe<K, V, P> {
    fn default() -> Self {
        NoopPipe(PhantomData)
    }
}

impl<K, V, P> fmt::Debug for NoopPipe<K, V, P> {
    fn fmt(&self, f: &mut fmt::Formatter<'_>) -> fmt::Result {
        f.write_str("NoopPipe")
    }
}

impl<K: 'static, V: 'static, P: 'static> Pipe for NoopPipe<K, V, P> {
    type Key = K;

    type Value = V;

    type Properties = P;

    fn is_enabled(&self) -> bool {
        false
    }

    fn send(&self, _piece: Piece<K, V, P>) {}

    fn flush(&self, _pieces: Vec<Piece<K, V, P>>) -> BoxFuture<()> {
        Box::pin(std::future::ready(()))
    }
}

/// A user's pipe, as the proved code calls it.
pub(crate) struct PipeOf<K, V, P>(pub(crate) ArcPipe<K, V, P>);

impl<K: 'static, V: 'static, P: Properties> foyer_raw::Pipe for PipeOf<K, V, P> {
    type Key = Name<K>;

    type Value = Held<V>;

    type Properties = Props<P>;

    type Flush = BoxFuture<()>;

    fn is_enabled(&self) -> bool {
        caught(|| self.0.is_enabled()).unwrap_or(false)
    }

    fn send(&self, piece: Inner<K, V, P>) {
        caught(|| self.0.send(Piece::new(piece)));
    }

    fn flush(&self, pieces: Pieces<Inner<K, V, P>>) -> BoxFuture<()> {
        let flush = caught(|| self.0.flush(pieces.into_iter().map(Piece::new).collect()));
        flush.unwrap_or_else(|| Box::pin(std::future::ready(())))
    }
}
