//! Limits from ratios, and which ratios are accepted.

// Written by rust/erase/erase.py from crates/foyer_policy/src/limit.rt: change that.
#[allow(unused_imports)]
use crate::rattle_std::prelude::*;
use crate::proved::foyer_policy::error::{Error, Field, Reason, Result};
use crate::proved::foyer_policy::types::Ratio;

/// The range in which a ratio is accepted.
#[derive(Clone, Copy)]
pub(crate) enum Range {
    /// From 0 to 1, both included.
    Closed,
    /// Above 0 and below 1.
    Open,
}

/// Returns the part of a capacity that a ratio gives, rounded down, and at most the largest `usize`. The denominator
/// must not be 0.
#[inline]
pub(crate) fn limit_of(capacity: usize, ratio: Ratio) -> usize {
    // A capacity of 64 bits times a numerator of 32 bits fits 96 bits.
    let part = capacity as u128 * u128::from(ratio.num) / u128::from(ratio.den);
    usize::try_from(part).unwrap_or(usize::MAX)
}

/// Checks the ratio of a field.
///
/// # Errors
/// F2 for a denominator of 0, F3 if it is outside of its range.
#[inline]
pub(crate) fn check_ratio(range: Range, field: Field, ratio: Ratio) -> Result<()> {
    if ratio.den == 0 {
        return Err(Error::new(Reason::ZeroDenominator));
    }
    let is_in_range = match range {
        Range::Closed => ratio.num <= ratio.den,
        Range::Open => 0 < ratio.num && ratio.num < ratio.den,
    };
    if !is_in_range {
        return Err(Error::new(Reason::RatioRange(field)));
    }
    Ok(())
}
