//! Which slot each key leads to, for contracts only.

// Written by rust/erase/erase.py from crates/foyer_core/src/finder/trail.rt: change that.
#[allow(unused_imports)]
use crate::rattle_std::prelude::*;
use crate::proved::foyer_policy::Past;
use crate::rattle_std::mem;
use crate::rattle_std::snapshot::Snapshot;

/// A list of marks, the last one first.
enum Marks<K> {
    /// Nothing.
    Start,
    /// Marks that a key leads to a slot from here on, or to none.
    Mark { before: Past<Marks<K>>, hash: u64, key: Snapshot<K>, slot: Option<usize> },
}

/// Which slot each hashed key leads to, by the marks made. Takes no memory, and no code runs for it.
pub(crate) struct Trail<K> {
    marks: Past<Marks<K>>,
}

impl<K> Trail<K> {
    /// Creates a trail in which no key leads to a slot.
    #[inline(always)]
    pub(crate) fn new() -> Self {
        Trail { marks: Past::of(&Marks::Start) }
    }

    /// Marks that a key leads to a slot from here on, or to none.
    #[inline(always)]
    pub(crate) fn mark(&mut self, hash: u64, key: Snapshot<K>, slot: Option<usize>) {
        let start = Past::of(&Marks::Start);
        let before = mem::replace(&mut self.marks, start);
        self.marks = Past::of(&Marks::Mark { before, hash, key, slot });
    }
}
