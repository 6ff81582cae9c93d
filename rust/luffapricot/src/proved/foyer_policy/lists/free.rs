//! The free nodes of a block, as a list of their own: nodes are added in front, and any one may be taken.

// Written by rust/erase/erase.py from crates/foyer_policy/src/lists/free.rt: change that.
#[allow(unused_imports)]
use crate::rattle_std::prelude::*;
use crate::proved::foyer_policy::link::Link;
use crate::proved::foyer_policy::lists::arena::Links;
use crate::proved::foyer_policy::lists::block::{Base, Nodes};

// Sets what comes before the node `at`, if there is such a node.
#[inline(always)]
fn set_before<T>(nodes: &mut Nodes<Links, T>, base: Base<Links, T>, at: Link, to: Link) {
    if let Some(at) = at.place() {
        let mut links = *nodes.links(base, at);
        links.before = to;
        nodes.set_links(base, at, links);
    }
}

// Sets what comes after the node `at`, if there is such a node.
#[inline(always)]
fn set_after<T>(nodes: &mut Nodes<Links, T>, base: Base<Links, T>, at: Link, to: Link) {
    if let Some(at) = at.place() {
        let mut links = *nodes.links(base, at);
        links.after = to;
        nodes.set_links(base, at, links);
    }
}

/// Adds a node without a value in front of the free ones, of which `free` is the first.
#[inline(always)]
pub(crate) fn put_free<T, const N: usize>(nodes: &mut Nodes<Links, T>, base: Base<Links, T>, place: usize, free: Link) {
    set_before(nodes, base, free, Link::to(place));
    let links = Links { list: N, before: Link::end(), after: free };
    nodes.set_links(base, place, links);
}

/// Takes a node from the free ones, of which `free` is the first, and returns the first that is left.
#[inline(always)]
pub(crate) fn take_free<T>(nodes: &mut Nodes<Links, T>, base: Base<Links, T>, place: usize, free: Link) -> Link {
    let links = *nodes.links(base, place);
    set_before(nodes, base, links.after, links.before);
    set_after(nodes, base, links.before, links.after);
    match links.before.place() {
        Some(_) => free,
        None => links.after,
    }
}
