//! What left with a call.

// Written by rust/erase/erase.py from crates/foyer_raw/src/leaves.rt: change that.
#[allow(unused_imports)]
use crate::rattle_std::prelude::*;
use crate::proved::foyer_core::Leave;
use crate::rattle_std::alloc::Global;
use crate::rattle_std::mem::replace;

/// What left with a call, in order. Up to two records take no memory.
pub struct Leaves<K, V, P> {
    pub(crate) first: Option<Leave<K, V, P>>,
    pub(crate) second: Option<Leave<K, V, P>>,
    pub(crate) more: Vec<Leave<K, V, P>>,
}

impl<K, V, P> Leaves<K, V, P> {
    /// Nothing.
    #[inline(always)]
    pub fn new(alloc: Global) -> Self {
        Leaves { first: None, second: None, more: Vec::new(alloc) }
    }

    // Takes all from a list, which keeps its room if at most two are in it.
    #[inline(always)]
    pub(crate) fn take(&mut self, all: &mut Vec<Leave<K, V, P>>) {
        match all.len() {
            0 => {}
            1 => self.first = all.pop(),
            _ => self.take_many(all),
        }
    }

    #[cold]
    #[inline(never)]
    fn take_many(&mut self, all: &mut Vec<Leave<K, V, P>>) {
        if all.len() == 2 {
            self.second = all.pop();
            self.first = all.pop();
            return;
        }
        let none = Vec::new(*all.allocator());
        self.more = replace(all, none);
    }
}
