//! Listeners, which are told of what leaves.

// Written by rust/erase/erase.py from crates/foyer_raw/src/listener.rt: change that.
#[allow(unused_imports)]
use crate::rattle_std::prelude::*;
use crate::proved::foyer_raw::pipe::Pipe;
use crate::proved::foyer_core::Left;
use crate::proved::foyer_policy::{Event, EventListener, Key, Properties, Value};
use crate::rattle_std::marker::PhantomData;

/// A listener that does nothing.
pub struct NoListener<K, V>(PhantomData<(K, V)>);

impl<K, V> NoListener<K, V> {
    /// Creates a listener that does nothing.
    #[inline]
    pub fn new() -> Self {
        NoListener(PhantomData)
    }
}

impl<K: 'static, V: 'static> EventListener for NoListener<K, V> {
    type Key = K;

    type Value = V;

    #[inline]
    fn on_leave(&self, _event: Event, _key: &K, _value: &V) {}
}

/// Tells the listener of a record that left, and then the pipe, if the record was evicted and there is an enabled one.
#[inline]
pub fn tell<K, V, P, L, Q>(listener: &L, pipe: Option<&Q>, event: Event, left: Left<K, V, P>)
where
    K: Key,
    V: Value,
    P: Properties,
    L: EventListener<Key = K, Value = V>,
    Q: Pipe<Key = K, Value = V, Properties = P>,
{
    listener.on_leave(event, left.key(), left.value());
    if event != Event::Evict {
        return;
    }
    let Some(pipe) = pipe else {
        return;
    };
    if pipe.is_enabled() {
        pipe.send(left.piece());
    }
}
