//! The weighter and the filter of a cache.

// Written by rust/erase/erase.py from crates/foyer_core/src/rules.rt: change that.
#[allow(unused_imports)]
use crate::rattle_std::prelude::*;
use crate::proved::foyer_core::filter::Filter;
use crate::proved::foyer_core::properties::marked;
use crate::proved::foyer_core::record::Data;
use crate::proved::foyer_core::weighter::Weighter;
use crate::proved::foyer_policy::Properties;

/// The weighter and the filter of a cache.
#[derive(Clone, Copy, Debug)]
pub struct Rules<W, A> {
    /// Says what a record counts against the capacity.
    pub weighter: W,
    /// Says whether a record is admitted.
    pub filter: A,
}

impl<W, A> Rules<W, A> {
    /// Returns the weight of a record and the properties it is inserted with: asks the weighter, and then the filter.
    ///
    /// A record that isn't admitted, or that is to be on disk alone, gets properties that say that it is phantom.
    #[inline(always)]
    pub fn judge<K, V, P: Properties>(&self, key: &K, value: &V, properties: P) -> (usize, P)
    where
        W: Weighter<K, V>,
        A: Filter<K, V>,
    {
        let weight = self.weighter.weigh(key, value);
        let admitted = self.filter.admit(key, value);
        (weight, marked(properties, admitted))
    }

    /// Returns the data of a record to insert, with the weight and the properties that `judge` returns.
    #[inline(always)]
    pub fn data<K, V, P: Properties>(&self, hash: u64, key: K, value: V, properties: P) -> Data<K, V, P>
    where
        W: Weighter<K, V>,
        A: Filter<K, V>,
    {
        let (weight, properties) = self.judge(&key, &value, properties);
        Data { key, value, properties, hash, weight }
    }
}
