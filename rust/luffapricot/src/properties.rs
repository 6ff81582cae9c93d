//! What comes with a record beside its key and value.

use crate::clock::nanoseconds;
use crate::guard::{Held, caught};
use crate::proved::foyer_policy;
use crate::proved::foyer_policy::{Age, Hint, Location};
use crate::rattle_std::alloc::AllocError;
use crate::rattle_std::clone::TryClone;
use std::fmt::Debug;
use std::num::NonZeroU64;
use std::time::Duration;

/// What comes with a record. [`CacheProperties`] is one; bring your own to keep more.
pub trait Properties: Send + Sync + 'static + Clone + Default + Debug {
    /// Sets whether the record is a phantom: only its entries have it, no look-up finds it.
    fn with_phantom(self, phantom: bool) -> Self;

    /// Returns whether the record is a phantom, if that was set.
    fn phantom(&self) -> Option<bool>;

    /// Sets a hint to the policy.
    fn with_hint(self, hint: Hint) -> Self;

    /// Returns the hint, if one was set.
    fn hint(&self) -> Option<Hint>;

    /// Sets where the record is to be kept.
    fn with_location(self, location: Location) -> Self;

    /// Returns where the record is to be kept, if that was set.
    fn location(&self) -> Option<Location>;

    /// Sets how old the disk's copy is.
    fn with_age(self, age: Age) -> Self;

    /// Returns how old the disk's copy is, if that was set.
    fn age(&self) -> Option<Age>;

    /// Returns how long look-ups find the record, from its insert on. By default as long as the cache's builder says.
    fn time_to_live(&self) -> Option<Duration> {
        None
    }
}

/// The default properties: a phantom mark, a hint and a time to live.
#[derive(Clone, Debug, Default, PartialEq, Eq)]
pub struct CacheProperties {
    // In nanoseconds and one more, so that none takes no room of its own.
    time_to_live: Option<NonZeroU64>,
    phantom: bool,
    hint: Hint,
}

impl CacheProperties {
    /// Sets a hint to the policy.
    pub fn with_hint(mut self, hint: Hint) -> Self {
        self.hint = hint;
        self
    }

    /// Returns the hint.
    pub fn hint(&self) -> Hint {
        self.hint
    }

    /// Sets how long look-ups find the record, from its insert on; 584 years and more are as good as for ever.
    pub fn with_time_to_live(mut self, time_to_live: Duration) -> Self {
        self.time_to_live = NonZeroU64::new(nanoseconds(time_to_live).saturating_add(1));
        self
    }
}

impl Properties for CacheProperties {
    fn with_phantom(mut self, phantom: bool) -> Self {
        self.phantom = phantom;
        self
    }

    fn phantom(&self) -> Option<bool> {
        Some(self.phantom)
    }

    fn with_hint(self, hint: Hint) -> Self {
        CacheProperties::with_hint(self, hint)
    }

    fn hint(&self) -> Option<Hint> {
        Some(self.hint)
    }

    fn with_location(self, _location: Location) -> Self {
        self
    }

    fn location(&self) -> Option<Location> {
        None
    }

    fn with_age(self, _age: Age) -> Self {
        self
    }

    fn age(&self) -> Option<Age> {
        None
    }

    fn time_to_live(&self) -> Option<Duration> {
        self.time_to_live.map(|more| Duration::from_nanos(more.get() - 1))
    }
}

/// Properties as the proved code asks for them. What a user's type says was asked once, before any lock.
pub(crate) struct Props<P> {
    // None if the default ones panicked.
    user: Held<Option<P>>,
    // In nanoseconds of the cache's clock, or `NEVER`.
    expires: u64,
    phantom: Option<bool>,
    hint: Option<Hint>,
    location: Option<Location>,
    age: Option<Age>,
}

// An expiry that no clock reaches.
const NEVER: u64 = u64::MAX;

impl<P: Properties> Props<P> {
    pub(crate) fn new(user: P, expires: Option<u64>) -> Self {
        Props {
            expires: expires.unwrap_or(NEVER),
            phantom: user.phantom(),
            hint: user.hint(),
            location: user.location(),
            age: user.age(),
            user: Held::new(Some(user)),
        }
    }
}

impl<P> Props<P> {
    /// Returns the user's properties.
    pub(crate) fn user(&self) -> &P {
        self.user.get().as_ref().expect("the default properties panicked when this record was made")
    }
}

impl<P: Properties> TryClone for Props<P> {
    fn try_clone(&self) -> Result<Self, AllocError> {
        Ok(Props { user: self.user.try_clone()?, ..*self })
    }
}

impl<P: Properties> Default for Props<P> {
    fn default() -> Self {
        caught(|| Props::new(P::default(), None)).unwrap_or_else(|| Props {
            user: Held::new(None),
            expires: NEVER,
            phantom: Some(true),
            hint: None,
            location: None,
            age: None,
        })
    }
}

impl<P: Properties> foyer_policy::Properties for Props<P> {
    fn with_phantom(mut self, phantom: bool) -> Self {
        self.phantom = Some(phantom);
        self
    }

    #[inline(always)]
    fn phantom(&self) -> Option<bool> {
        self.phantom
    }

    fn with_hint(mut self, hint: Hint) -> Self {
        self.hint = Some(hint);
        self
    }

    #[inline(always)]
    fn hint(&self) -> Option<Hint> {
        self.hint
    }

    fn with_location(mut self, location: Location) -> Self {
        self.location = Some(location);
        self
    }

    #[inline(always)]
    fn location(&self) -> Option<Location> {
        self.location
    }

    fn with_age(mut self, age: Age) -> Self {
        self.age = Some(age);
        self
    }

    #[inline(always)]
    fn age(&self) -> Option<Age> {
        self.age
    }

    #[inline(always)]
    fn with_expiry(mut self, expires: Option<u64>) -> Self {
        self.expires = expires.unwrap_or(NEVER);
        self
    }

    #[inline(always)]
    fn expiry(&self) -> Option<u64> {
        (self.expires != NEVER).then_some(self.expires)
    }
}
