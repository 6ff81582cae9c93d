//! An index from hashes to slots, in eight bytes for each bucket: open addressing with linear probing.
//!
//! A tag is in the bucket of its hash or behind it, with no empty bucket between. Buckets behind the last home take
//! what runs over, so no probe wraps round. A removal moves the tags behind it back, so it leaves no marker (Knuth,
//! The Art of Computer Programming, volume 3, section 6.4, algorithm R).

// Written by rust/erase/erase.py from crates/foyer_core/src/tags.rt: change that.
#[allow(unused_imports)]
use crate::rattle_std::prelude::*;
use crate::proved::foyer_core::tags::buckets::{Buckets, Tag, fingerprint_of, home_of};
use crate::rattle_std::alloc::{AllocError, Global};

mod buckets;

// Twice as many homes come with each bit from here on.
const FIRST_BITS: u32 = 2;

// So many buckets come at a time, at least, behind those that are used.
const SPARE: usize = 8;

/// Slots under hashes, each below 2^32 - 1 and entered once.
///
/// Of a hash only a fingerprint of 32 mixed bits is kept, so a slot that is found is one that may have this hash.
pub struct Tags {
    buckets: Buckets,
    // there are 2^bits homes, whether these buckets are there or not
    bits: u32,
    // behind all homes and all tags
    end: usize,
    len: usize,
    // for so many slots these homes are enough
    limit: usize,
    alloc: Global,
}

impl Tags {
    /// Creates an index with no slots. Takes no memory.
    #[inline]
    pub fn new(alloc: Global) -> Self {
        Tags::over(alloc, FIRST_BITS)
    }

    /// Creates an index with no slots and room for so many.
    #[inline]
    pub fn with_capacity(alloc: Global, slots: usize) -> Result<Self, AllocError> {
        let mut tags = Tags::new(alloc);
        tags.reserve(slots)?;
        Ok(tags)
    }

    // No slots, over so many homes.
    #[inline]
    fn over(alloc: Global, bits: u32) -> Self {
        Tags { buckets: Buckets::new(alloc), bits, end: homes_of(bits), len: 0, limit: limit_of(bits), alloc }
    }

    /// Returns the number of slots.
    #[inline(always)]
    pub fn len(&self) -> usize {
        self.len
    }

    /// Makes room for so many more slots. If memory runs out, nothing has changed.
    #[inline(always)]
    pub fn reserve(&mut self, more: usize) -> Result<(), AllocError> {
        if self.has_room(more) {
            return Ok(());
        }
        self.make_room(more)
    }

    // Whether so many more slots have room in these buckets, and these homes are enough for them.
    #[inline(always)]
    fn has_room(&self, more: usize) -> bool {
        let Some(wanted) = self.end.checked_add(more) else {
            return false;
        };
        wanted <= self.buckets.len() && more <= self.limit.saturating_sub(self.len)
    }

    // Makes room by more buckets, or by more homes.
    #[cold]
    #[inline(never)]
    fn make_room(&mut self, more: usize) -> Result<(), AllocError> {
        let bits = bits_for(self.bits, self.len.saturating_add(more));
        if bits == self.bits {
            return self.lengthen(more);
        }
        let wider = self.widened(bits, more)?;
        *self = wider;
        Ok(())
    }

    // Makes room for so many more slots over the same homes.
    #[inline(always)]
    fn lengthen(&mut self, more: usize) -> Result<(), AllocError> {
        let Some(wanted) = self.end.checked_add(more) else {
            return Err(AllocError);
        };
        if self.buckets.len() < wanted {
            self.buckets.reserve(wanted.saturating_add(self.end / 64 + SPARE))?;
        }
        Ok(())
    }

    // The same slots over so many homes, with room for so many more.
    #[cold]
    #[inline(never)]
    fn widened(&self, bits: u32, more: usize) -> Result<Tags, AllocError> {
        let mut wider = Tags::over(self.alloc, bits);
        for bucket in 0..self.buckets.len() {
            if let Some(tag) = self.buckets.get(bucket) {
                wider.lengthen(1)?;
                wider.put(tag);
            }
        }
        wider.lengthen(more)?;
        Ok(wider)
    }

    /// Returns a slot under a hash for which `is_it` returns true, or `None`. It is called only for slots with the
    /// hash's fingerprint.
    #[inline(always)]
    pub fn find<F: Fn(usize) -> bool>(&self, hash: u64, is_it: F) -> Option<usize> {
        let found = self.buckets.find(self.bits, fingerprint_of(hash), is_it)?;
        Some(found.slot)
    }

    /// Enters a new slot under a hash, for which there is room. Takes no memory.
    #[inline(always)]
    pub fn insert(&mut self, hash: u64, slot: usize) {
        self.put(Tag::new(fingerprint_of(hash), slot));
    }

    // Enters a tag whose slot is new. Needs room.
    #[inline(always)]
    fn put(&mut self, tag: Tag) {
        let bucket = self.buckets.first_empty(home_of(tag.fingerprint, self.bits), self.end);
        self.buckets.put(bucket, tag);
        self.end = self.end.max(bucket + 1);
        self.len += 1;
    }

    /// Replaces a slot under a hash by a new one. Takes no memory.
    #[inline(always)]
    pub fn replace(&mut self, hash: u64, slot: usize, other: usize) {
        let fingerprint = fingerprint_of(hash);
        let found = self.buckets.find(self.bits, fingerprint, |found| found == slot);
        let Some(found) = found else {
            crate::rattle_std::macros::unreachable!();
        };
        self.buckets.put(found.bucket, Tag::new(fingerprint, other));
    }

    /// Removes a slot from under a hash, and returns whether it was there. Takes no memory.
    #[inline(always)]
    pub fn remove(&mut self, hash: u64, slot: usize) -> bool {
        let found = self.buckets.find(self.bits, fingerprint_of(hash), |other| other == slot);
        let Some(found) = found else {
            return false;
        };
        self.buckets.take(found.bucket);
        self.buckets.close_gap(self.bits, found.bucket);
        self.len -= 1;
        true
    }

    /// Removes all slots. The room stays.
    #[inline]
    pub fn clear(&mut self) {
        self.buckets.clear();
        self.end = homes_of(self.bits);
        self.len = 0;
    }
}

// How many homes there are for fingerprints of so many bits.
#[inline(always)]
fn homes_of(bits: u32) -> usize {
    1 << bits
}

// For how many slots the homes of so many bits are enough: a quarter of them is left over.
#[inline(always)]
fn limit_of(bits: u32) -> usize {
    homes_of(bits) / 4 * 3
}

// How many bits so many slots want, at least as many as there are.
#[inline(always)]
fn bits_for(bits: u32, slots: usize) -> u32 {
    let mut wanted = bits;
    while wanted < 32 && limit_of(wanted) < slots {
        wanted += 1;
    }
    wanted
}
