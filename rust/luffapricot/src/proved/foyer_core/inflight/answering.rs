//! What waiters get when an insert brings their key's record.

// Written by rust/erase/erase.py from crates/foyer_core/src/inflight/answering.rt: change that.
#[allow(unused_imports)]
use crate::rattle_std::prelude::*;
use super::InflightManager;
use crate::proved::foyer_core::entry::CoreEntry;
use crate::proved::foyer_core::outcome::{Answers, Outcome};
use crate::proved::foyer_policy::Key;

impl<K: Key, N, R> InflightManager<K, N, R> {
    // What the waiters of an inserted record's key get: one of these entries each. Closes the key's fetch. Takes no
    // memory.
    #[inline]
    pub(crate) fn answers<V, P>(
        &mut self,
        entry: &CoreEntry<K, V, P>,
        others: Vec<CoreEntry<K, V, P>>,
    ) -> Answers<K, V, P, N> {
        let waiters = self.close(entry.hash(), entry.key());
        Answers { waiters, outcome: Outcome::Entries(others) }
    }
}
