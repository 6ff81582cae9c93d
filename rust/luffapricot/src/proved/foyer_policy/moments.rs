//! Policies at a given time: the items that are due leave first.

// Written by rust/erase/erase.py from crates/foyer_policy/src/moments.rt: change that.
#[allow(unused_imports)]
use crate::rattle_std::prelude::*;
use crate::proved::foyer_policy::eviction::Eviction;

/// The law that a policy at a given time is a policy: whichever items are due, the policy in which they leave first,
/// and which is otherwise the same, meets the laws of `IsPolicy`.
///
/// The function does nothing; the law is its contract.
#[inline]
pub fn due_first_is_a_policy<E: Eviction>() {}

/// The law of what leaves at a given time: whichever items are due, if no id occurs twice, all that leaves is, in
/// order, the due items that aren't pinned, in the policy's order, and then what the policy pops once these are
/// removed.
///
/// The function does nothing; the law is its contract.
#[inline]
pub fn victims_are_closed<E: Eviction>() {}
