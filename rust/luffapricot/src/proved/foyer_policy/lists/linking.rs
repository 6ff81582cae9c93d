//! Steps of linked lists over the nodes of an arena: linking a node in, out of its list, and removing it.

// Written by rust/erase/erase.py from crates/foyer_policy/src/lists/linking.rt: change that.
#[allow(unused_imports)]
use crate::rattle_std::prelude::*;
use crate::proved::foyer_policy::link::Link;
use crate::proved::foyer_policy::lists::arena::{Arena, Links};

// Sets what comes after the node `at`, or the list's head if there is no such node.
#[inline(always)]
fn set_after<T, const N: usize>(nodes: &mut Arena<T, N>, heads: &mut [Link], list: usize, at: Link, to: Link) {
    match at.place() {
        Some(at) => {
            let mut links = nodes.links(at);
            links.after = to;
            nodes.set_links(at, links);
        }
        None => heads[list] = to,
    }
}

// Sets what comes before the node `at`, or the list's tail if there is no such node.
#[inline(always)]
fn set_before<T, const N: usize>(nodes: &mut Arena<T, N>, tails: &mut [Link], list: usize, at: Link, to: Link) {
    match at.place() {
        Some(at) => {
            let mut links = nodes.links(at);
            links.before = to;
            nodes.set_links(at, links);
        }
        None => tails[list] = to,
    }
}

// Appends a value to a list, in a node that has none.
#[inline(always)]
pub(crate) fn link_back<T, const N: usize>(
    nodes: &mut Arena<T, N>,
    heads: &mut [Link],
    tails: &mut [Link],
    list: usize,
    node: usize,
    value: T,
) {
    let before = tails[list];
    let links = Links { list, before, after: Link::end() };
    nodes.insert_at(node, links, value);
    set_after(nodes, heads, list, before, Link::to(node));
    tails[list] = Link::to(node);
}

// Unlinks a node from its list. It keeps its value, and is in no list.
#[inline(always)]
pub(crate) fn unlink<T, const N: usize>(nodes: &mut Arena<T, N>, heads: &mut [Link], tails: &mut [Link], place: usize) {
    let links = nodes.links(place);
    set_after(nodes, heads, links.list, links.before, links.after);
    set_before(nodes, tails, links.list, links.after, links.before);
}

// Appends a node that is in no list to one.
#[inline(always)]
pub(crate) fn relink<T, const N: usize>(
    nodes: &mut Arena<T, N>,
    heads: &mut [Link],
    tails: &mut [Link],
    list: usize,
    place: usize,
) {
    let before = tails[list];
    set_after(nodes, heads, list, before, Link::to(place));
    tails[list] = Link::to(place);
    let links = Links { list, before, after: Link::end() };
    nodes.set_links(place, links);
}

// Removes the value of a node from its list, and frees the node.
#[inline(always)]
pub(crate) fn take_out<T, const N: usize>(
    nodes: &mut Arena<T, N>,
    heads: &mut [Link],
    tails: &mut [Link],
    place: usize,
) -> T {
    unlink(nodes, heads, tails, place);
    nodes.remove(place)
}

// Reads what moving a node will write: the nodes at both sides. Returns true.
#[inline(always)]
pub(crate) fn has_neighbors<T, const N: usize>(
    nodes: &Arena<T, N>,
    heads: &[Link],
    tails: &[Link],
    place: usize,
) -> bool {
    let links = nodes.links(place);
    is_listed(nodes, links.before) && is_listed(nodes, links.after)
}

// Reads the node that a link leads to, if there is one. Returns true.
#[inline(always)]
fn is_listed<T, const N: usize>(nodes: &Arena<T, N>, at: Link) -> bool {
    match at.place() {
        Some(at) => nodes.links(at).list < N,
        None => true,
    }
}
