//! Places, which name values of lists.

// Written by rust/erase/erase.py from crates/foyer_policy/src/lists/place.rt: change that.
#[allow(unused_imports)]
use crate::rattle_std::prelude::*;
/// Names a value of a [`Lists`](super::Lists) until it is removed.
#[derive(Clone, Copy, Debug, PartialEq, Eq, Hash)]
pub struct Place {
    pub(crate) node: usize,
}

impl Place {
    /// Returns the number of its node, below the span of the lists. A caller may keep something else under the same
    /// number.
    #[inline(always)]
    pub fn number(self) -> usize {
        self.node
    }

    /// Returns the place with this number.
    #[inline(always)]
    pub fn at(number: usize) -> Place {
        Place { node: number }
    }
}
