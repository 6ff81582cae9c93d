//! What comes with a record: phantom or not, a hint, a location, an age and an expiry.

// Written by rust/erase/erase.py from crates/foyer_policy/src/properties.rt: change that.
#[allow(unused_imports)]
use crate::rattle_std::prelude::*;
use crate::proved::foyer_policy::types::{Age, Hint, Location};

/// The properties of a record. A type returns `None` for what it doesn't keep.
pub trait Properties: Sized + Default + 'static {
    /// Returns these properties with this value of `phantom`.
    fn with_phantom(self, phantom: bool) -> Self;

    /// Returns whether the record is phantom: no `get` finds it, and it leaves with its last handle.
    fn phantom(&self) -> Option<bool>;

    /// Returns these properties with a hint, if the type keeps one.
    fn with_hint(self, hint: Hint) -> Self;

    /// Returns the hint to the policy.
    fn hint(&self) -> Option<Hint>;

    /// Returns these properties with a location, if the type keeps one.
    fn with_location(self, location: Location) -> Self;

    /// Returns where the record is to be kept.
    fn location(&self) -> Option<Location>;

    /// Returns these properties with an age, if the type keeps one.
    fn with_age(self, age: Age) -> Self;

    /// Returns how old the disk's copy of the record is.
    fn age(&self) -> Option<Age>;

    /// Returns these properties with the time at which the record expires, or `None` for never, if the type keeps it.
    fn with_expiry(self, expires: Option<u64>) -> Self;

    /// Returns the time at which the record expires, or `None` for never.
    ///
    /// From that time on no `get` finds the record, and it is the first to be evicted. Its item has the same
    /// (`Item::expires`).
    fn expiry(&self) -> Option<u64>;
}
