//! Admission of records.

// Written by rust/erase/erase.py from crates/foyer_core/src/filter.rt: change that.
#[allow(unused_imports)]
use crate::rattle_std::prelude::*;
/// Says whether an inserted record is admitted. An insert asks it once, after the weighter.
pub trait Filter<K, V> {
    /// Returns whether a record with this key and value is admitted. A record that isn't becomes phantom: its entry
    /// holds it, and no `get` finds it.
    fn admit(&self, key: &K, value: &V) -> bool;
}

/// Admits every record.
#[derive(Clone, Copy, Debug, Default)]
pub struct AdmitAll;

impl<K, V> Filter<K, V> for AdmitAll {
    #[inline]
    fn admit(&self, _key: &K, _value: &V) -> bool {
        true
    }
}
