//! Tags in buckets that are probed one after the other.

// Written by rust/erase/erase.py from crates/foyer_core/src/tags/buckets.rt: change that.
#[allow(unused_imports)]
use crate::rattle_std::prelude::*;
use crate::rattle_std::alloc::{AllocError, Global};

// 2^64 divided by the golden ratio, and odd: its multiples spread evenly in their upper bits.
const GOLDEN: u64 = 0x9e37_79b9_7f4a_7c15;

/// A slot, with the fingerprint of its hash.
#[derive(Clone, Copy)]
pub(crate) struct Tag {
    pub(crate) fingerprint: u32,
    // the largest number if there is no slot
    slot: u32,
}

impl Tag {
    /// Creates the tag of a slot below 2^32 - 1.
    #[inline(always)]
    pub(crate) fn new(fingerprint: u32, slot: usize) -> Self {
        Tag { fingerprint, slot: slot as u32 }
    }

    // What an empty bucket has.
    #[inline(always)]
    fn empty() -> Self {
        Tag { fingerprint: 0, slot: u32::MAX }
    }
}

/// A tag that was found: its bucket and its slot.
#[derive(Clone, Copy)]
pub(crate) struct Found {
    pub(crate) bucket: usize,
    pub(crate) slot: usize,
}

/// Returns the fingerprint of a hash.
#[inline(always)]
pub(crate) fn fingerprint_of(hash: u64) -> u32 {
    (hash.wrapping_mul(GOLDEN) >> 32) as u32
}

/// Returns the home of a fingerprint: the bucket at which its probe begins, of 2^bits.
#[inline(always)]
pub(crate) fn home_of(fingerprint: u32, bits: u32) -> usize {
    (u64::from(fingerprint) >> (32 - bits)) as usize
}

/// Buckets, each with a tag or empty. Only `reserve` adds some.
pub(crate) struct Buckets {
    tags: Vec<Tag>,
}

impl Buckets {
    /// Creates no buckets.
    #[inline]
    pub(crate) fn new(alloc: Global) -> Self {
        Buckets { tags: Vec::new(alloc) }
    }

    /// Returns the number of buckets.
    #[inline(always)]
    pub(crate) fn len(&self) -> usize {
        self.tags.len()
    }

    /// Makes at least so many buckets. New ones are empty.
    #[inline]
    pub(crate) fn reserve(&mut self, buckets: usize) -> Result<(), AllocError> {
        if self.tags.len() < buckets {
            self.tags.resize(buckets, Tag::empty())?;
        }
        Ok(())
    }

    /// Empties every bucket.
    #[inline]
    pub(crate) fn clear(&mut self) {
        self.tags.fill(Tag::empty());
    }

    /// Returns the tag in a bucket, or `None` if it is empty.
    #[inline(always)]
    pub(crate) fn get(&self, bucket: usize) -> Option<Tag> {
        let tag = self.tags[bucket];
        if tag.slot == u32::MAX { None } else { Some(tag) }
    }

    /// Writes a bucket.
    #[inline(always)]
    pub(crate) fn put(&mut self, bucket: usize, tag: Tag) {
        self.tags[bucket] = tag;
    }

    /// Empties a bucket.
    #[inline(always)]
    pub(crate) fn take(&mut self, bucket: usize) {
        self.put(bucket, Tag::empty());
    }

    /// Returns the first tag of a fingerprint, from its home on, for whose slot `is_it` returns true.
    #[inline(always)]
    pub(crate) fn find<F: Fn(usize) -> bool>(&self, bits: u32, fingerprint: u32, is_it: F) -> Option<Found> {
        for bucket in home_of(fingerprint, bits)..self.len() {
            let tag = self.get(bucket)?;
            let slot = tag.slot as usize;
            if tag.fingerprint == fingerprint && is_it(slot) {
                return Some(Found { bucket, slot });
            }
        }
        None
    }

    /// Returns the first empty bucket from one on, before `end`, which is empty.
    #[inline(always)]
    pub(crate) fn first_empty(&self, from: usize, end: usize) -> usize {
        for bucket in from..end {
            if self.get(bucket).is_none() {
                return bucket;
            }
        }
        end
    }

    /// Moves tags back over an empty bucket, until each is found from its home on.
    #[inline(always)]
    pub(crate) fn close_gap(&mut self, bits: u32, bucket: usize) {
        let mut gap = bucket;
        for next in bucket + 1..self.len() {
            let Some(tag) = self.get(next) else {
                return;
            };
            if home_of(tag.fingerprint, bits) <= gap {
                self.put(gap, tag);
                self.take(next);
                gap = next;
            }
        }
    }
}
