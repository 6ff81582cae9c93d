//! The trait of eviction policies.

// Written by rust/erase/erase.py from crates/foyer_policy/src/eviction.rt: change that.
#[allow(unused_imports)]
use crate::rattle_std::prelude::*;
use crate::proved::foyer_policy::error::Result;
use crate::proved::foyer_policy::lists::Place;
use crate::proved::foyer_policy::queued::item_found;
use crate::proved::foyer_policy::types::Item;
use crate::rattle_std::alloc::Global;

/// An eviction policy: holds an [`Item`] for each resident record at a [`Place`], and says which leaves next.
///
/// Contracts see a policy's abstract `view`, and what each call makes of it by the policy's `model`, which meets the
/// laws of `IsPolicy`. A `Place` that is passed must have an item.
pub trait Eviction: Sized {
    /// The policy's configuration.
    type Config;

    /// Checks a configuration, for every capacity alike. Takes no memory.
    ///
    /// # Errors
    /// F2 to F6 for the first fault. `new` and `update` fail with the same, and with no other fault.
    fn check(config: &Self::Config) -> Result<()>;

    /// Creates an empty policy.
    ///
    /// # Errors
    /// F2 to F6 for the configuration's first fault, then F7 if memory runs out.
    fn new(alloc: Global, capacity: usize, config: &Self::Config) -> Result<Self>;

    /// Returns whether a configuration is of this policy.
    fn takes(&self, config: &Self::Config) -> bool;

    /// Sets the capacity, and the configuration if one is given. Takes no memory.
    ///
    /// # Errors
    /// F17 if the configuration is of another policy, F2 to F6 for its first fault; nothing has changed.
    fn update(&mut self, capacity: usize, config: Option<&Self::Config>) -> Result<()>;

    /// Makes room for one push, for which the span may grow.
    ///
    /// # Errors
    /// F7 if there is none and memory runs out; nothing else has changed.
    fn reserve(&mut self) -> Result<()>;

    /// Makes nodes until there are `wanted`, so that each number below it is a place.
    ///
    /// # Errors
    /// F7 if there are fewer and memory runs out; nothing else has changed.
    fn reserve_to(&mut self, wanted: usize) -> Result<()>;

    /// Returns the free place that `push` takes next. Needs reserved room.
    fn next_place(&self) -> Place;

    /// Inserts an item at a free place below the span, which the caller chooses.
    ///
    /// The id must be new, and all weights together fit a `usize`. Takes no memory.
    fn push_at(&mut self, place: Place, item: Item);

    /// Inserts an item at the next place, and returns that.
    ///
    /// Needs reserved room; the id must be new, and all weights together fit a `usize`. Takes no memory.
    #[inline(always)]
    fn push(&mut self, item: Item) -> Place {
        let place = self.next_place();
        self.push_at(place, item);
        place
    }

    /// Removes the victim and returns it with its place, or `None` if every item is pinned.
    ///
    /// # Errors
    /// F7 if memory runs out, only in a policy that remembers what it evicted; nothing has changed.
    fn pop_at(&mut self) -> Result<Option<(Place, Item)>>;

    /// Removes the victim and returns it, as `pop_at` does, without its place.
    #[inline(always)]
    fn pop(&mut self) -> Result<Option<Item>> {
        Ok(item_found(self.pop_at()?))
    }

    /// Removes the item at a place and returns it. Takes no memory.
    fn remove(&mut self, place: Place) -> Item;

    /// Makes room for a `clear`.
    ///
    /// # Errors
    /// F7 if memory runs out, only in a policy that remembers what it evicted; nothing else has changed.
    fn reserve_clear(&mut self) -> Result<()>;

    /// Removes all items. Needs the room of `reserve_clear`, and takes no memory.
    fn clear(&mut self);

    /// Tells the policy that the item at a place was used. Takes no memory.
    fn acquire(&mut self, place: Place);

    /// Tells the policy that the item at a place has no handle left. Takes no memory.
    fn release(&mut self, place: Place);

    /// Reads what `acquire` and `release` will change, and returns true.
    ///
    /// A caller that is about to count shares of the record calls this first: after a locked count, each of these
    /// reads would wait for memory by itself. A policy in which a use changes nothing reads nothing.
    #[inline(always)]
    fn look_ahead(&self, place: Place) -> bool {
        let _ = place;
        true
    }

    /// Returns the places of two items that may leave next, so that the caller can read their records ahead. It is
    /// only a hint, and a policy may return none.
    #[inline(always)]
    fn ahead(&self) -> (Option<Place>, Option<Place>) {
        (None, None)
    }

    /// Returns the place of the first item in the policy's order that is expired at `now` and not pinned, or `None`.
    /// Takes no memory.
    ///
    /// The policies of this crate find it in steps that grow with the logarithm of how many items expire, and at once
    /// if none does. They walk along their order as long as `reserve` has made no room for that: until its next call
    /// after an item that expires was inserted, while memory is refused, and for places from 2^32 - 1 on.
    fn expired(&self, now: u64) -> Option<Place>;

    /// Returns the number of nodes, with items or free. Every place is below it. It only grows, by `reserve` and
    /// `reserve_to`.
    fn span(&self) -> usize;

    /// Returns the item at a place.
    fn item(&self, place: Place) -> Item;

    /// Returns all items, in the policy's order.
    ///
    /// # Errors
    /// F7 if memory runs out.
    fn order(&self) -> Result<Vec<Item>>;

    /// Returns the sum of the weights of the pinned items.
    fn pinned_weight(&self) -> usize;

    /// Returns whether the item at a place is pinned.
    fn is_pinned(&self, place: Place) -> bool;

    /// Returns how many readings the last `pop` made: 0 before any, after one that returned none, and after `clear`.
    fn looks(&self) -> u128;
}
