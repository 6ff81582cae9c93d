//! Counts of what a shard's calls returned and of what left.

// Written by rust/erase/erase.py from crates/foyer_raw/src/counted/counts.rt: change that.
#[allow(unused_imports)]
use crate::rattle_std::prelude::*;
use super::{FIRST, RawEnded, RawInserted};
use crate::proved::foyer_core::{CoreEntry, Counted, Got, Leave, Left, Lookup, Outcome, Stats};
use crate::proved::foyer_policy::{Event, Properties, Result};

// Counts a look-up.
#[inline(always)]
pub(crate) fn count_look_up<K, V, P>(stats: &mut Stats, found: &Got<K, V, P>) {
    match found {
        Got::Hit(_) => stats.count(Counted::Hit),
        Got::Miss => stats.count(Counted::Miss),
        Got::Full => {}
        Got::OutOfMemory => {}
    }
}

// Counts a look-up that another one follows if it finds nothing.
#[inline]
pub(crate) fn count_first_look<K, V, P>(stats: &mut Stats, found: &Got<K, V, P>) {
    if let Got::Hit(_) = found {
        stats.count(Counted::Hit);
    }
}

// Counts a touch.
#[inline]
pub(crate) fn count_touch(stats: &mut Stats, found: &Result<bool>) {
    match found {
        Ok(true) => stats.count(Counted::Hit),
        Ok(false) => stats.count(Counted::Miss),
        Err(_) => {}
    }
}

// Counts what a `remove` took out.
#[inline]
pub(crate) fn count_removed<K, V, P: Properties>(
    stats: &mut Stats,
    taken: &Result<Option<(CoreEntry<K, V, P>, Left<K, V, P>)>>,
) {
    if let Ok(Some((_, left))) = taken {
        stats.count_left(FIRST, Event::Remove, left);
    }
}

// Counts what a `delete` took out.
#[inline]
pub(crate) fn count_deleted<K, V, P: Properties>(stats: &mut Stats, taken: &Result<Option<Left<K, V, P>>>) {
    if let Ok(Some(left)) = taken {
        stats.count_left(FIRST, Event::Remove, left);
    }
}

// Counts a look-up that may begin a fetch.
#[inline]
pub(crate) fn count_ask<K, V, P, R>(stats: &mut Stats, look: &Result<Lookup<K, V, P, R>>) {
    match look {
        Ok(Lookup::Hit(_)) => stats.count(Counted::Hit),
        Ok(Lookup::Lead { .. }) => stats.count(Counted::Fetch),
        Ok(Lookup::Wait { .. }) => stats.count(Counted::Wait),
        Err(_) => {}
    }
}

// Counts what left at a time.
#[inline(always)]
pub(crate) fn count_leaves<K, V, P: Properties>(stats: &mut Stats, now: u64, leaves: &[Leave<K, V, P>]) {
    for (event, left) in leaves {
        stats.count_left(now, *event, left);
    }
}

// Counts the end of a fetch at a time: the record that it inserted, or its failure, and what left.
#[inline]
pub(crate) fn count_ended<K, V, P: Properties>(stats: &mut Stats, now: u64, ended: &RawEnded<K, V, P>) {
    if !ended.found {
        return;
    }
    count_outcome(stats, &ended.answers.outcome);
    count_leaves(stats, now, ended.leaves.as_slice());
}

// Counts what those got who waited.
#[inline]
fn count_outcome<K, V, P: Properties>(stats: &mut Stats, outcome: &Outcome<K, V, P>) {
    match outcome {
        Outcome::Entries(entries) => count_entries(stats, entries.as_slice()),
        Outcome::Fault(_) => stats.count(Counted::Refused),
        Outcome::None => {}
    }
}

// Counts the record of these entries, if there is one.
#[inline]
fn count_entries<K, V, P: Properties>(stats: &mut Stats, entries: &[CoreEntry<K, V, P>]) {
    if let Some(entry) = entries.first() {
        stats.count_insert(entry.properties());
    }
}

// Counts an insert that made an entry or failed.
#[inline]
pub(crate) fn count_made<K, V, P: Properties>(stats: &mut Stats, made: &Result<RawInserted<K, V, P>>) {
    match made {
        Ok(made) => stats.count_insert(made.entry.properties()),
        Err(_) => stats.count(Counted::Refused),
    }
}

// Counts an insert that failed or not, of a phantom record or not.
#[inline(always)]
pub(crate) fn count_put<T>(stats: &mut Stats, put: &Result<T>, is_phantom: bool) {
    match put {
        Ok(_) if is_phantom => {}
        Ok(_) => stats.count(Counted::Insert),
        Err(_) => stats.count(Counted::Refused),
    }
}

// Returns whether a record with these properties is a phantom.
#[inline(always)]
pub(crate) fn is_phantom<P: Properties>(properties: &P) -> bool {
    properties.phantom() == Some(true)
}
