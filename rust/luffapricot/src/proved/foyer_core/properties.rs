//! The properties of records in a plain cache.

// Written by rust/erase/erase.py from crates/foyer_core/src/properties.rt: change that.
#[allow(unused_imports)]
use crate::rattle_std::prelude::*;
use crate::proved::foyer_policy::{Age, Hint, Location, Properties};

/// Whether a record is phantom, its hint and its expiry. Location and age aren't kept.
#[derive(Clone, Debug, PartialEq, Eq)]
pub struct CacheProperties {
    // The small fields are side by side, so that the whole takes two words.
    phantom: Option<bool>,
    hint: Hint,
    expires: bool,
    // 0 if the record does not expire
    moment: u64,
}

impl Default for CacheProperties {
    /// Returns properties with no phantom flag, the normal hint and no expiry.
    #[inline]
    fn default() -> CacheProperties {
        CacheProperties { phantom: None, hint: Hint::Normal, moment: 0, expires: false }
    }
}

impl CacheProperties {
    /// Returns these properties with this hint.
    #[inline]
    pub fn with_hint(mut self, hint: Hint) -> Self {
        self.hint = hint;
        self
    }

    /// Returns the hint to the policy.
    #[inline]
    pub fn hint(&self) -> Hint {
        self.hint
    }

    /// Returns these properties with the time at which the record expires, or `None` for never.
    ///
    /// From that time on no `get` finds the record, and it is the first to be evicted. The unit is that of `now`.
    #[inline]
    pub fn with_expiry(self, expires: Option<u64>) -> Self {
        let (expires, moment) = match expires {
            Some(moment) => (true, moment),
            None => (false, 0),
        };
        CacheProperties { phantom: self.phantom, hint: self.hint, moment, expires }
    }

    /// Returns the time at which the record expires, or `None` for never.
    #[inline(always)]
    pub fn expiry(&self) -> Option<u64> {
        if self.expires { Some(self.moment) } else { None }
    }
}

impl Properties for CacheProperties {
    #[inline]
    fn with_phantom(mut self, phantom: bool) -> CacheProperties {
        self.phantom = Some(phantom);
        self
    }

    #[inline]
    fn phantom(&self) -> Option<bool> {
        self.phantom
    }

    // The hint is kept.
    #[inline]
    fn with_hint(self, hint: Hint) -> CacheProperties {
        CacheProperties::with_hint(self, hint)
    }

    #[inline]
    fn hint(&self) -> Option<Hint> {
        Some(self.hint)
    }

    #[inline]
    fn with_location(self, _location: Location) -> CacheProperties {
        self
    }

    #[inline]
    fn location(&self) -> Option<Location> {
        None
    }

    #[inline]
    fn with_age(self, _age: Age) -> CacheProperties {
        self
    }

    #[inline]
    fn age(&self) -> Option<Age> {
        None
    }

    // The expiry is kept.
    #[inline]
    fn with_expiry(self, expires: Option<u64>) -> CacheProperties {
        CacheProperties::with_expiry(self, expires)
    }

    #[inline(always)]
    fn expiry(&self) -> Option<u64> {
        CacheProperties::expiry(self)
    }
}

/// Returns whether a record with this expiry is expired at `now`.
#[inline(always)]
pub(crate) fn is_expired(expiry: Option<u64>, now: u64) -> bool {
    match expiry {
        Some(moment) => moment <= now,
        None => false,
    }
}

/// Returns the properties that a record is inserted with: phantom, if the filter didn't admit it or it is to be on
/// disk alone.
#[inline]
pub fn marked<P: Properties>(properties: P, admitted: bool) -> P {
    let is_on_disk = matches!(properties.location(), Some(Location::OnDisk));
    if !admitted || is_on_disk { properties.with_phantom(true) } else { properties }
}
