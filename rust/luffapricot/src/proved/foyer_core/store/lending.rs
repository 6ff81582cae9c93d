//! The value under a key, for reading in place.

// Written by rust/erase/erase.py from crates/foyer_core/src/store/lending.rt: change that.
#[allow(unused_imports)]
use crate::rattle_std::prelude::*;
use super::Store;
use crate::proved::foyer_core::finder::Finder;
use crate::proved::foyer_core::hold::Hold;
use crate::proved::foyer_core::prefetch;
use crate::proved::foyer_policy::{Error, Eviction, Key, Place, Properties, Reason, Result, Value};

impl<E: Eviction, K: Key, V: Value, P: Properties, I: Finder<K>> Store<E, K, V, P, I> {
    /// Counts a use of the record that the key hits at `now`, and returns its name, as `Shard::touch_named` does.
    #[inline(always)]
    pub fn touch_named(&mut self, now: u64, hash: u64, key: &K) -> Result<Option<Hold>> {
        let Some((slot, found)) = self.live_under(now, hash, key) else {
            return Ok(None);
        };
        let handles = found.handles();
        if handles >= self.limits.handles {
            return Err(Error::new(Reason::Handles));
        }
        let id = found.id();
        let place = Place::at(slot);
        prefetch::keep(self.eviction.look_ahead(place));
        self.eviction.acquire(place);
        if handles > 0 {
            return Ok(Some(Hold { hash, id, slot }));
        }
        self.eviction.release(place);
        Ok(Some(Hold { hash, id, slot }))
    }

    /// Returns the value that the key hits at `now`, as `Shard::value` does.
    #[inline(always)]
    pub fn value(&self, now: u64, hash: u64, key: &K) -> Option<&V> {
        let (_slot, found) = self.live_under(now, hash, key)?;
        Some(found.value())
    }
}
