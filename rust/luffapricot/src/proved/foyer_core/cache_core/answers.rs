//! Answers that nobody wants.

// Written by rust/erase/erase.py from crates/foyer_core/src/cache_core/answers.rt: change that.
#[allow(unused_imports)]
use crate::rattle_std::prelude::*;
use super::CacheCore;
use crate::proved::foyer_core::entry::CoreEntry;
use crate::proved::foyer_core::filter::Filter;
use crate::proved::foyer_core::finder::Finder;
use crate::proved::foyer_core::outcome::{Answers, Outcome};
use crate::proved::foyer_core::weighter::Weighter;
use crate::proved::foyer_policy::{Eviction, HashBuilder, Key, Properties, Value};

impl<
    E: Eviction,
    K: Key,
    V: Value,
    P: Properties,
    S: HashBuilder,
    W: Weighter<K, V>,
    A: Filter<K, V>,
    N,
    R,
    I: Finder<K>,
> CacheCore<E, K, V, P, S, W, A, N, R, I>
{
    /// Ends answers that nobody wants: gives each entry back, from the last to the first, and drops the waiters.
    ///
    /// What leaves with the entries is dropped too. Takes no memory.
    #[inline]
    pub fn drop_answers(&mut self, answers: Answers<K, V, P, N>) {
        let Answers { waiters, outcome } = answers;
        drop(waiters);
        match outcome {
            Outcome::Entries(entries) => self.drop_entries(entries),
            Outcome::None => (),
            Outcome::Fault(error) => drop(error),
        }
    }

    // Ends entries, from the last to the first.
    #[inline]
    fn drop_entries(&mut self, mut entries: Vec<CoreEntry<K, V, P>>) {
        while let Some(entry) = entries.pop() {
            drop(self.drop_entry(entry));
        }
        entries.destroy_empty();
    }
}
