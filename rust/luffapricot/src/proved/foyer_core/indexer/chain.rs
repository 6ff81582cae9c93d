// Written by rust/erase/erase.py from crates/foyer_core/src/indexer/chain.rt: change that.
#[allow(unused_imports)]
use crate::rattle_std::prelude::*;
// Pairs of hashed keys and numbers in chains, one chain for each of several heads.
//
// This is a hash table with separate chaining. The chain of a hash is found by one multiplication.
// Both methods are in D. E. Knuth, The Art of Computer Programming, volume 3, section 6.4.

use crate::proved::foyer_policy::Link;
use crate::rattle_std::alloc::{AllocError, Global};

// 2^64 divided by the golden ratio, and odd: its multiples spread evenly in their upper bits.
const GOLDEN: u64 = 0x9e37_79b9_7f4a_7c15;

/// A hashed key with its number.
pub(crate) struct Pair<K> {
    pub(crate) hash: u64,
    pub(crate) key: K,
    pub(crate) number: u64,
    /// The next pair of its chain.
    pub(crate) next: Link,
}

// The number of the chain of a hash.
#[inline(always)]
fn home_of(hash: u64, shift: u32) -> usize {
    (hash.wrapping_mul(GOLDEN) >> shift) as usize
}

// The link to the first pair of the chain of a hash.
#[inline(always)]
fn head_of(heads: &[Link], shift: u32, hash: u64) -> Link {
    match heads.get(home_of(hash, shift)) {
        Some(link) => *link,
        None => Link::end(),
    }
}

// The place of the pair of a key.
#[inline]
pub(crate) fn find<K: Eq>(heads: &[Link], shift: u32, pairs: &[Pair<K>], hash: u64, key: &K) -> Option<usize> {
    let mut link = head_of(heads, shift, hash);
    while let Some(place) = link.place() {
        let pair = &pairs[place];
        if pair.hash == hash && *key == pair.key {
            return Some(place);
        }
        link = pair.next;
    }
    None
}

// The place of the pair whose link leads to the pair of a place, or `None` if the head of the chain leads there.
#[inline]
fn place_before<K>(heads: &[Link], shift: u32, pairs: &[Pair<K>], place: usize) -> Option<usize> {
    let mut before = None;
    let mut link = head_of(heads, shift, pairs[place].hash);
    while let Some(at) = link.place() {
        if at == place {
            break;
        }
        before = Some(at);
        link = pairs[at].next;
    }
    before
}

// Links the pair of a place, which is in no chain, into the chain of its hash.
#[inline]
pub(crate) fn put_in<K>(heads: &mut [Link], shift: u32, pairs: &mut [Pair<K>], place: usize) {
    let pair = &mut pairs[place];
    let home = home_of(pair.hash, shift);
    let first = heads[home];
    pair.next = first;
    heads[home] = Link::to(place);
}

// Takes the pair of a place out of its chain.
#[inline]
pub(crate) fn take_out<K>(heads: &mut [Link], shift: u32, pairs: &mut [Pair<K>], place: usize) {
    let after = pairs[place].next;
    match place_before(heads, shift, pairs, place) {
        Some(before) => pairs[before].next = after,
        None => heads[home_of(pairs[place].hash, shift)] = after,
    }
}

// Appends a pair of a key that no pair has, and puts it into its chain. There is room for it.
#[inline]
pub(crate) fn push<K>(heads: &mut [Link], shift: u32, pairs: &mut Vec<Pair<K>>, pair: Pair<K>) {
    let place = pairs.len();
    pairs.push_reserved(pair);
    put_in(heads, shift, pairs, place);
}

// Removes the pair of a place, and returns its number. The last pair takes its place.
#[inline]
pub(crate) fn swap_remove<K>(heads: &mut [Link], shift: u32, pairs: &mut Vec<Pair<K>>, place: usize) -> u64 {
    let last = pairs.len() - 1;
    take_out(heads, shift, pairs, place);
    if place == last {
        return pairs.swap_remove(place).number;
    }
    take_out(heads, shift, pairs, last);
    let taken = pairs.swap_remove(place);
    put_in(heads, shift, pairs, place);
    taken.number
}

// The numbers of all pairs, in their order.
#[inline]
pub(crate) fn numbers<K>(alloc: Global, pairs: &[Pair<K>]) -> Result<Vec<u64>, AllocError> {
    pairs.iter().map(|pair| pair.number).collect_with(alloc)
}

// Returns the heads of new chains, with all pairs linked into them. If memory runs out, nothing has changed.
#[cold]
#[inline(never)]
pub(crate) fn spread<K>(alloc: Global, shift: u32, pairs: &mut [Pair<K>]) -> Result<Vec<Link>, AllocError> {
    let mut heads = crate::rattle_std::macros::vec![ Link::end(); 1 << (64 - shift)]?;
    for place in 0..pairs.len() {
        put_in(&mut heads, shift, pairs, place);
    }
    Ok(heads)
}
