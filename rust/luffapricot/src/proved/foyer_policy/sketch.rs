//! A count-min sketch, which estimates how often hashes were seen lately.

// Written by rust/erase/erase.py from crates/foyer_policy/src/sketch.rt: change that.
#[allow(unused_imports)]
use crate::rattle_std::prelude::*;
use crate::proved::foyer_policy::error::{Error, Reason, Result};
use crate::rattle_std::alloc::Global;

use crate::rattle_std::simd::prelude::*;

// How many counters are halved at once.
const LANES: usize = 32;

/// A count-min sketch (Cormode and Muthukrishnan, 2005): rows of counters of 16 bits that estimate how often each
/// hash was counted, in a fixed amount of memory.
///
/// A hash has one bucket in each row, and its estimate is the least of their counters, which hashes of the same
/// buckets raise too. Old counts fade as in TinyLFU (Einziger, Friedman and Manes, 2017): the step rises with each
/// hash, and once it equals the number of buckets, all counters and the step are halved.
///
/// The counters and the step come from some past of counted hashes and halvings. For each such past, a hash's
/// estimate is at least the hash's own count in it, and at most the step.
pub struct Sketch {
    // The counter of row r and bucket b is at r * buckets + b.
    counters: Vec<u16>,
    rows: usize,
    buckets: u32,
    step: u32,
}

// The bucket in a row, of a hash that is mixed for it.
#[inline]
fn bucket_in(number: u64, row: usize, buckets: u32) -> usize {
    if row == 0 { (number % buckets as u64) as usize } else { ((number >> 32) as u32 % buckets) as usize }
}

// A hash that is mixed for a row, mixed for the next.
#[inline]
fn mixed_next(number: u64) -> u64 {
    number.wrapping_mul(6364136223846793005).wrapping_add(1442695040888963407)
}

// Halves the 32 counters of one chunk.
#[inline]
fn halve_chunk(counters: &mut [u16], i: usize) {
    let (chunks, _) = counters.as_chunks::<LANES>();
    let halves = u16x32::from_array(chunks[i]) >> u16x32::splat(1);
    halves.copy_to_slice(&mut counters[i * LANES..]);
}

// Halves all counters.
#[inline]
fn halve_all(counters: &mut [u16]) {
    let chunks = counters.len() / LANES;
    for i in 0..chunks {
        halve_chunk(counters, i);
    }
    for k in chunks * LANES..counters.len() {
        counters[k] /= 2;
    }
}

// A counter that rises by one, up to the greatest number.
#[inline]
fn raised(counter: u16) -> u16 {
    counter.saturating_add(1)
}

// Counts a hash in each row.
#[inline]
fn count(counters: &mut [u16], rows: usize, buckets: u32, hash: u64) {
    let mut number = hash;
    for row in 0..rows {
        let bucket = bucket_in(number, row, buckets);
        let counter = &mut counters[row * buckets as usize + bucket];
        *counter = raised(*counter);
        number = mixed_next(number);
    }
}

// The least counter of a hash.
#[inline]
fn least_counter(counters: &[u16], rows: usize, buckets: u32, hash: u64) -> u16 {
    let mut least = u16::MAX;
    let mut number = hash;
    for row in 0..rows {
        let bucket = bucket_in(number, row, buckets);
        least = least.min(counters[row * buckets as usize + bucket]);
        number = mixed_next(number);
    }
    least
}

impl Sketch {
    /// Creates a sketch that has counted nothing.
    ///
    /// # Errors
    /// F5 if there are no rows, F6 if there are no buckets, then F7 if memory runs out.
    #[inline]
    pub fn new(alloc: Global, rows: u8, buckets: u32) -> Result<Self> {
        if rows == 0 {
            return Err(Error::new(Reason::NoRows));
        }
        if buckets == 0 {
            return Err(Error::new(Reason::NoBuckets));
        }
        let rows = rows as usize;
        let Ok(counters) = Vec::from_elem(alloc, 0, rows * buckets as usize) else {
            return Err(Error::new(Reason::NoMemory));
        };
        Ok(Sketch { counters, rows, buckets, step: 0 })
    }

    /// Counts a hash: adds 1 to its counter in each row, up to the largest number, and to the step. If the step then
    /// equals the number of buckets, halves the step and all counters, rounded down.
    #[inline]
    pub fn update(&mut self, hash: u64) {
        count(&mut self.counters, self.rows, self.buckets, hash);
        self.step += 1;
        if self.step >= self.buckets {
            halve_all(&mut self.counters);
            self.step /= 2;
        }
    }

    /// Returns about how often the hash was counted: the least of its counters.
    #[inline]
    pub fn estimate(&self, hash: u64) -> u16 {
        least_counter(&self.counters, self.rows, self.buckets, hash)
    }

    /// Halves all counters, rounded down. The step stays.
    #[inline]
    pub fn halve(&mut self) {
        halve_all(self.counters.as_mut_slice());
    }

    /// Returns the step: how many hashes were counted, halved whenever an `update` halved the counters. It is below
    /// the number of buckets.
    #[inline]
    pub fn step(&self) -> usize {
        self.step as usize
    }
}

/// The law of estimates: for each past that explains a sketch, a hash's estimate is at least the hash's own count in
/// that past, and at most the step.
///
/// The function does nothing; the law is its contract.
#[inline]
pub fn estimates_are_bounded() {}
