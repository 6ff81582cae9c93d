//! The slot of each id.
//!
//! Ids are given in order, and their records leave in about that order. So the last ids have a place each in a ring,
//! and an id whose record outstays the ring moves to a map.

// Written by rust/erase/erase.py from crates/foyer_core/src/records/ids.rt: change that.
#[allow(unused_imports)]
use crate::rattle_std::prelude::*;
use crate::rattle_std::alloc::{AllocError, Global};
use crate::rattle_std::collections::HashMap;

// Twice as many places come with each bit from here on.
const FIRST_BITS: u32 = 3;

/// The slot at a place of the ring, or none.
#[derive(Clone, Copy)]
struct Standing {
    // the greatest number for none
    slot: u32,
}

impl Standing {
    // No slot.
    #[inline(always)]
    fn none() -> Self {
        Standing { slot: u32::MAX }
    }

    // A slot whose number is small enough.
    #[inline(always)]
    fn of(slot: usize) -> Option<Self> {
        if slot >= u32::MAX as usize {
            return None;
        }
        Some(Standing { slot: slot as u32 })
    }

    #[inline(always)]
    fn slot(self) -> Option<usize> {
        if self.slot == u32::MAX {
            return None;
        }
        Some(self.slot as usize)
    }
}

/// The slot of each id. The last ids before `end` have a place each in the ring, by their low bits. An id that still
/// has a slot when its place is needed for a later one moves to the map.
pub(crate) struct Ids {
    // none, or a place for each number of so many bits
    near: Vec<Standing>,
    bits: u32,
    end: u64,
    far: HashMap<u64, usize>,
    alloc: Global,
}

impl Ids {
    /// Creates a table in which no id has a slot.
    #[inline]
    pub(crate) fn new(alloc: Global) -> Self {
        Ids { near: Vec::new(alloc), bits: FIRST_BITS, end: 0, far: HashMap::new(alloc), alloc }
    }

    /// Makes room for one more id beside those of so many records. If memory runs out, nothing has changed.
    #[inline(always)]
    pub(crate) fn reserve(&mut self, records: usize) -> Result<(), AllocError> {
        if self.far.capacity() == self.far.len() {
            self.far.reserve(1)?;
        }
        // There are twice as many places, so that few outstay them.
        if self.near.len() / 2 <= records && self.bits < 63 {
            return self.widen();
        }
        Ok(())
    }

    // Twice as many places, or the first ones.
    #[cold]
    #[inline(never)]
    fn widen(&mut self) -> Result<(), AllocError> {
        let bits = self.bits + 1;
        let wider = spread(self.alloc, &self.near, self.end, bits)?;
        self.near = wider;
        self.bits = bits;
        Ok(())
    }

    /// Returns the slot of an id.
    #[inline(always)]
    pub(crate) fn get(&self, id: u64) -> Option<usize> {
        match self.find_near(id) {
            Some(slot) => Some(slot),
            None => far_slot(&self.far, id),
        }
    }

    /// Sets the slot of an id that has none. Needs room.
    #[inline(always)]
    pub(crate) fn name(&mut self, id: u64, slot: usize) {
        let places = self.near.len();
        if id != self.end || id == u64::MAX || places == 0 {
            self.name_again(id, slot);
            return;
        }
        let Some(standing) = Standing::of(slot) else {
            self.name_again(id, slot);
            return;
        };
        let place = place_of(id, places);
        let older = self.near[place];
        self.near[place] = standing;
        self.end = id + 1;
        outstay(&mut self.far, older, id, places);
    }

    // Sets the slot of an id that isn't the next one, such as one that comes back with a piece.
    #[cold]
    #[inline(never)]
    fn name_again(&mut self, id: u64, slot: usize) {
        let places = self.near.len();
        if is_recent(places, self.end, id) {
            if let Some(standing) = Standing::of(slot) {
                self.near[place_of(id, places)] = standing;
                return;
            }
        }
        name_far(&mut self.far, id, slot);
    }

    /// Removes the slot of an id.
    #[inline(always)]
    pub(crate) fn remove(&mut self, id: u64) {
        if self.find_near(id).is_none() {
            forget_far(&mut self.far, id);
            return;
        }
        let place = place_of(id, self.near.len());
        self.near[place] = Standing::none();
    }

    // The slot of an id, if it is one of the last.
    #[inline(always)]
    fn find_near(&self, id: u64) -> Option<usize> {
        let places = self.near.len();
        if !is_recent(places, self.end, id) {
            return None;
        }
        self.near[place_of(id, places)].slot()
    }
}

// Returns the slot of an id in the map.
#[cold]
#[inline(never)]
fn far_slot(far: &HashMap<u64, usize>, id: u64) -> Option<usize> {
    far.get(&id).copied()
}

// Sets the slot of an id in the map, which has room for it.
#[cold]
#[inline(never)]
fn name_far(far: &mut HashMap<u64, usize>, id: u64, slot: usize) {
    let _ = far.insert(id, slot);
}

// Moves what was at an id's place, of so many, to the map, which has room for it.
#[inline(always)]
fn outstay(far: &mut HashMap<u64, usize>, older: Standing, id: u64, places: usize) {
    let Some(slot) = older.slot() else {
        return;
    };
    if let Some(outstays) = id.checked_sub(places as u64) {
        name_far(far, outstays, slot);
    }
}

// Removes an id from the map.
#[cold]
#[inline(never)]
fn forget_far(far: &mut HashMap<u64, usize>, id: u64) {
    let _ = far.remove(&id);
}

// How many numbers of so many bits there are.
#[inline(always)]
fn places_of(bits: u32) -> usize {
    1 << bits
}

// The place of an id among so many, a power of two: its low bits.
#[inline(always)]
fn place_of(id: u64, places: usize) -> usize {
    id as usize & (places - 1)
}

// Whether an id is one of so many that end before this one.
#[inline(always)]
fn is_recent(many: usize, end: u64, id: u64) -> bool {
    id < end && end - id <= many as u64
}

// What is at a place once there is one for each number of so many bits: what is at the place of the same id now, if
// that is one of the last.
#[inline]
fn stays_at(near: &[Standing], end: u64, bits: u32, place: usize) -> Standing {
    let places = places_of(bits);
    // How many ids there are between that of the place and the end.
    let behind = place_of(end, places) + (places - 1 - place);
    if place_of(behind as u64, places) >= near.len() {
        return Standing::none();
    }
    near[place_of(place as u64, near.len())]
}

// So many places, twice as many as there were, if there were any.
#[inline]
fn spread(alloc: Global, near: &[Standing], end: u64, bits: u32) -> Result<Vec<Standing>, AllocError> {
    let places = places_of(bits);
    let mut wider = Vec::with_capacity(alloc, places)?;
    for place in 0..places {
        wider.push_reserved(stays_at(near, end, bits, place));
    }
    Ok(wider)
}
