//! Shares of the data of records.

// Written by rust/erase/erase.py from crates/foyer_core/src/share.rt: change that.
#[allow(unused_imports)]
use crate::rattle_std::prelude::*;
use crate::proved::foyer_core::record::Data;
use crate::proved::foyer_policy::{Error, Reason, Result};
use crate::rattle_std::alloc::Global;

use crate::rattle_std::sync::Arc;

/// What all shares of a record have in common.
pub struct Body<K, V, P> {
    pub(crate) key: K,
    pub(crate) value: V,
    pub(crate) properties: P,
}

/// A counted reference to a body. Hash and weight are beside it, since a record of another core may have the same
/// body with others.
pub struct Share<K, V, P> {
    body: Arc<Body<K, V, P>, Global>,
    hash: u64,
    weight: usize,
}

impl<K, V, P> Share<K, V, P> {
    /// Creates the first share of these data. If memory runs out, they come back as `Err`.
    #[inline(always)]
    pub fn new(alloc: Global, kept: Data<K, V, P>) -> crate::rattle_std::result::Result<Self, Data<K, V, P>> {
        let Data { key, value, properties, hash, weight } = kept;
        match Arc::new(alloc, Body { key, value, properties }) {
            Ok(body) => Ok(Share { body, hash, weight }),
            Err(failed) => {
                let Body { key, value, properties } = failed.value;
                Err(Data { key, value, properties, hash, weight })
            }
        }
    }

    /// Returns a share of this body with this hash and weight.
    #[inline(always)]
    pub fn of_body(body: Arc<Body<K, V, P>, Global>, hash: u64, weight: usize) -> Self {
        Share { body, hash, weight }
    }

    /// Returns the body, and the hash and the weight that are beside it.
    #[inline(always)]
    pub fn into_parts(self) -> (Arc<Body<K, V, P>, Global>, u64, usize) {
        let Share { body, hash, weight } = self;
        (body, hash, weight)
    }

    /// Returns the same body with another hash and weight.
    #[inline]
    pub fn with(self, hash: u64, weight: usize) -> Self {
        let Share { body, .. } = self;
        Share { body, hash, weight }
    }

    /// Returns one more reference to the body, or nothing if the reference count is full.
    #[inline(always)]
    pub fn body(&self) -> Option<Arc<Body<K, V, P>, Global>> {
        Arc::try_clone(&self.body).ok()
    }

    /// Returns one more share, or nothing if the reference count is full.
    #[inline(always)]
    pub fn another(&self) -> Option<Self> {
        Some(Share { body: self.body()?, hash: self.hash, weight: self.weight })
    }

    /// Returns one more share.
    ///
    /// # Errors
    /// F7 if the reference count is full.
    #[inline(always)]
    pub fn try_clone(&self) -> Result<Self> {
        match self.another() {
            Some(share) => Ok(share),
            None => Err(Error::new(Reason::NoMemory)),
        }
    }

    #[inline(always)]
    pub fn key(&self) -> &K {
        &self.body.key
    }

    #[inline(always)]
    pub fn value(&self) -> &V {
        &self.body.value
    }

    #[inline(always)]
    pub fn properties(&self) -> &P {
        &self.body.properties
    }

    #[inline(always)]
    pub fn hash(&self) -> u64 {
        self.hash
    }

    #[inline(always)]
    pub fn weight(&self) -> usize {
        self.weight
    }
}
