//! A cache's time to live.

// Written by rust/erase/erase.py from crates/foyer_raw/src/expiry.rt: change that.
#[allow(unused_imports)]
use crate::rattle_std::prelude::*;
use crate::proved::foyer_raw::counted::At;
use crate::proved::foyer_policy::Properties;

/// These properties, with an expiry at `now + time_to_live` (at most 2^64 - 1) if they have none of their own.
#[inline(always)]
pub(crate) fn expiring<P: Properties>(properties: P, now: At, time_to_live: Option<u64>) -> P {
    let Some(time_to_live) = time_to_live else {
        return properties;
    };
    if properties.expiry().is_some() {
        return properties;
    }
    properties.with_expiry(Some(now.expiry(time_to_live)))
}
