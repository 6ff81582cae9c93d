//! How many readings the pops of a policy make, over all its calls.

// Written by rust/erase/erase.py from crates/foyer_policy/src/looks.rt: change that.
#[allow(unused_imports)]
use crate::rattle_std::prelude::*;
use crate::proved::foyer_policy::eviction::Eviction;

/// The law that bounds the work of pops: over every list of calls of a new policy, the looks of all its pops together
/// are at most the number of victims plus the number of calls of `acquire`.
///
/// Neither the victims of a `clear` nor what it reads are counted. The function does nothing; the law is its
/// contract.
#[inline]
pub fn looks_are_paid<E: Eviction>() {}
