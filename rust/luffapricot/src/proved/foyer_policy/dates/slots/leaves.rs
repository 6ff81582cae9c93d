//! The leaves of a tree over slots: for each block of slots, a number that none of its dates is below.

// Written by rust/erase/erase.py from crates/foyer_policy/src/dates/slots/leaves.rt: change that.
#[allow(unused_imports)]
use crate::rattle_std::prelude::*;
use super::row::Row;
use super::{BLOCK, Gone};
use crate::proved::foyer_policy::min_tree::MinTree;

// The least date in a block, or the largest number if there is none.
#[inline]
fn least_date(row: &Row, block: usize) -> u64 {
    let start = block.saturating_mul(BLOCK);
    let end = start.saturating_add(BLOCK).min(row.len());
    let mut least = u64::MAX;
    for index in start..end {
        let date = match row.get(index) {
            Some((_, date)) => date,
            None => u64::MAX,
        };
        least = least.min(date);
    }
    least
}

// Sets the leaf of a block to its least date. A function of its own, so that its callers, which rarely need it, stay
// short.
#[inline(never)]
fn refresh(tree: &mut MinTree, row: &Row, block: usize) {
    tree.set(block, least_date(row, block));
}

// Sets the first `count` leaves, which must be those of all slots.
#[inline]
pub(crate) fn refresh_all(tree: &mut MinTree, row: &Row, count: usize) {
    for block in 0..count {
        refresh(tree, row, block);
    }
}

// Sets the leaf of a block anew, if the date that was removed may have been the least. If its place was the first of
// its list, the next to be removed is often beside it: then the block is marked, and its leaf is set when another
// block is marked.
#[inline(always)]
pub(crate) fn raise(tree: &mut MinTree, row: &Row, block: usize, gone: Gone) {
    if gone.date > tree.get(block) {
        return;
    }
    if !gone.was_first {
        refresh(tree, row, block);
        return;
    }
    let marked = tree.marked();
    if marked != block {
        refresh(tree, row, marked);
        tree.mark(block);
    }
}

// Lowers the leaf of a block to a new date.
#[inline(always)]
pub(crate) fn lower(tree: &mut MinTree, block: usize, date: u64) {
    if date < tree.get(block) {
        tree.set(block, date);
    }
}
