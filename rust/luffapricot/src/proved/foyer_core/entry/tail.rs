//! The end of an entry: its source, its slot, and perhaps a share.

// Written by rust/erase/erase.py from crates/foyer_core/src/entry/tail.rt: change that.
#[allow(unused_imports)]
use crate::rattle_std::prelude::*;
use crate::proved::foyer_core::share::Body;
use crate::proved::foyer_policy::Source;
use crate::rattle_std::alloc::Global;
use crate::rattle_std::mem;
use crate::rattle_std::sync::Arc;

/// Where an entry came from, where its record was, and perhaps a share for `left`.
///
/// Tag, source, spare and slot fill one word. An `Option` of a share, and a source behind it, would leave gaps, which the
/// compiler copies byte by byte with every entry.
pub enum Tail<K, V, P> {
    /// No share.
    Alone(Source, u16, u32),
    /// A share for `left`.
    Shared(Source, u16, u32, Arc<Body<K, V, P>, Global>),
}

const SPARE: u16 = 0;

impl<K, V, P> Tail<K, V, P> {
    #[inline(always)]
    pub fn new(source: Source, slot: usize, share: Option<Arc<Body<K, V, P>, Global>>) -> Self {
        match share {
            Some(share) => Tail::Shared(source, SPARE, hint_of(slot), share),
            None => Tail::Alone(source, SPARE, hint_of(slot)),
        }
    }

    #[inline(always)]
    pub fn source(&self) -> Source {
        match self {
            Tail::Alone(source, ..) | Tail::Shared(source, ..) => *source,
        }
    }

    /// Returns the slot that the record may be in.
    #[inline(always)]
    pub fn slot(&self) -> usize {
        match self {
            Tail::Alone(_, _, slot) | Tail::Shared(_, _, slot, _) => *slot as usize,
        }
    }

    #[inline(always)]
    pub fn set_slot(&mut self, slot: usize) {
        match self {
            Tail::Alone(_, _, hint) => *hint = hint_of(slot),
            Tail::Shared(_, _, hint, _) => *hint = hint_of(slot),
        }
    }

    /// Takes the share out.
    #[inline]
    pub fn take_share(&mut self) -> Option<Arc<Body<K, V, P>, Global>> {
        let rest = Tail::new(self.source(), self.slot(), None);
        match mem::replace(self, rest) {
            Tail::Alone(..) => None,
            Tail::Shared(_, _, _, share) => Some(share),
        }
    }
}

// A slot as a hint, which may be wrong.
#[inline(always)]
fn hint_of(slot: usize) -> u32 {
    u32::try_from(slot).unwrap_or(u32::MAX)
}
