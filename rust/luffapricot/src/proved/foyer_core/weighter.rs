//! What a record counts against the capacity.

// Written by rust/erase/erase.py from crates/foyer_core/src/weighter.rt: change that.
#[allow(unused_imports)]
use crate::rattle_std::prelude::*;
/// Says what a record counts against the capacity. An insert asks it once.
pub trait Weighter<K, V> {
    /// Returns the weight of a record with this key and value.
    fn weigh(&self, key: &K, value: &V) -> usize;
}

/// Every record weighs 1.
#[derive(Clone, Copy, Debug, Default)]
pub struct UnitWeighter;

impl<K, V> Weighter<K, V> for UnitWeighter {
    #[inline]
    fn weigh(&self, _key: &K, _value: &V) -> usize {
        1
    }
}
