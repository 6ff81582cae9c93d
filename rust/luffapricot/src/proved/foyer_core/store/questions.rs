//! Why a `get` would fail whatever memory there is.

// Written by rust/erase/erase.py from crates/foyer_core/src/store/questions.rt: change that.
#[allow(unused_imports)]
use crate::rattle_std::prelude::*;
use super::Store;
use crate::proved::foyer_core::finder::Finder;
use crate::proved::foyer_policy::{Eviction, Key, Properties, Reason, Value};

impl<E: Eviction, K: Key, V: Value, P: Properties, I: Finder<K>> Store<E, K, V, P, I> {
    // Why the record that a key hits at `now` can't have one more handle, whatever memory there is.
    #[inline]
    pub(crate) fn get_refusal(&self, now: u64, hash: u64, key: &K) -> Option<Reason> {
        let (_slot, found) = self.live_under(now, hash, key)?;
        if found.handles() >= self.limits.handles {
            return Some(Reason::Handles);
        }
        None
    }
}
