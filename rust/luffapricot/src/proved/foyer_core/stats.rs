//! Hits, misses and what else the calls of a cache did, as counts.

// Written by rust/erase/erase.py from crates/foyer_core/src/stats.rt: change that.
#[allow(unused_imports)]
use crate::rattle_std::prelude::*;
use crate::proved::foyer_core::entry::Left;
use crate::proved::foyer_core::properties::is_expired;
use crate::proved::foyer_policy::{Event, Properties};

/// How often a cache hit, missed, inserted, evicted and so on. A count wraps to 0 after 2^64 - 1.
///
/// A cache behind locks keeps its own. A core, a shard and a session keep none: the caller has a `Stats`, and after each
/// call counts what it returned ([`Stats::count`], [`Stats::count_insert`]) and each removal that it reported
/// ([`Stats::count_left`]). Phantom records are not counted.
#[derive(Clone, Copy, Debug, Default, PartialEq, Eq)]
pub struct Stats {
    /// Look-ups that found a record, by `get`, `touch` or with a fetch.
    pub hits: u64,
    /// Look-ups that found none.
    pub misses: u64,
    /// Records that were inserted, by a completed fetch too.
    pub inserts: u64,
    /// Records that were evicted.
    pub evictions: u64,
    /// Of these, the records that had expired.
    pub expired: u64,
    /// Records that were replaced by a newer one of their key.
    pub replaced: u64,
    /// Records that were removed.
    pub removed: u64,
    /// Records that were cleared.
    pub cleared: u64,
    /// Misses that opened a fetch.
    pub fetches: u64,
    /// Misses that waited for a fetch that was open.
    pub waits: u64,
    /// Inserts that failed, by a completed fetch too.
    pub refused: u64,
}

/// What a call did.
#[derive(Clone, Copy, Debug, PartialEq, Eq)]
pub enum Counted {
    /// A look-up found a record.
    Hit,
    /// A look-up found none, and opened no fetch.
    Miss,
    /// A look-up found none, and opened a fetch. It is a miss too.
    Fetch,
    /// A look-up found none, and waits for the open fetch. It is a miss too.
    Wait,
    /// A record was inserted, not a phantom.
    Insert,
    /// An insert failed.
    Refused,
}

impl Stats {
    /// Counts a call.
    #[inline(always)]
    pub fn count(&mut self, call: Counted) {
        match call {
            Counted::Hit => add_one(&mut self.hits),
            Counted::Miss => add_one(&mut self.misses),
            Counted::Fetch => {
                add_one(&mut self.misses);
                add_one(&mut self.fetches);
            }
            Counted::Wait => {
                add_one(&mut self.misses);
                add_one(&mut self.waits);
            }
            Counted::Insert => add_one(&mut self.inserts),
            Counted::Refused => add_one(&mut self.refused),
        }
    }

    /// Counts an insert that made a record with these properties, unless that is a phantom.
    #[inline(always)]
    pub fn count_insert<P: Properties>(&mut self, properties: &P) {
        if !is_phantom(properties) {
            self.count(Counted::Insert);
        }
    }

    /// Counts a record that left at a time, unless it is a phantom. An evicted record counts as expired if it was by then.
    #[inline]
    pub fn count_left<K, V, P: Properties>(&mut self, now: u64, event: Event, left: &Left<K, V, P>) {
        if is_phantom(left.properties()) {
            return;
        }
        match event {
            Event::Evict => {
                add_one(&mut self.evictions);
                if is_expired(left.properties().expiry(), now) {
                    add_one(&mut self.expired);
                }
            }
            Event::Replace => add_one(&mut self.replaced),
            Event::Remove => add_one(&mut self.removed),
            Event::Clear => add_one(&mut self.cleared),
        }
    }

    /// Returns each count with its name, in the order of the fields.
    pub fn named(&self) -> [(&'static str, u64); 11] {
        [
            ("hits", self.hits),
            ("misses", self.misses),
            ("inserts", self.inserts),
            ("evictions", self.evictions),
            ("expired", self.expired),
            ("replaced", self.replaced),
            ("removed", self.removed),
            ("cleared", self.cleared),
            ("fetches", self.fetches),
            ("waits", self.waits),
            ("refused", self.refused),
        ]
    }

    /// Adds the counts of others to these.
    #[inline]
    pub fn add(&mut self, other: &Stats) {
        let Stats { hits, misses, inserts, evictions, expired, replaced, removed, cleared, fetches, waits, refused } =
            other;
        *self = Stats {
            hits: self.hits.wrapping_add(*hits),
            misses: self.misses.wrapping_add(*misses),
            inserts: self.inserts.wrapping_add(*inserts),
            evictions: self.evictions.wrapping_add(*evictions),
            expired: self.expired.wrapping_add(*expired),
            replaced: self.replaced.wrapping_add(*replaced),
            removed: self.removed.wrapping_add(*removed),
            cleared: self.cleared.wrapping_add(*cleared),
            fetches: self.fetches.wrapping_add(*fetches),
            waits: self.waits.wrapping_add(*waits),
            refused: self.refused.wrapping_add(*refused),
        };
    }
}

// One more.
#[inline(always)]
fn add_one(count: &mut u64) {
    *count = count.wrapping_add(1);
}

// Whether properties say that their record is a phantom.
#[inline(always)]
fn is_phantom<P: Properties>(properties: &P) -> bool {
    properties.phantom() == Some(true)
}
