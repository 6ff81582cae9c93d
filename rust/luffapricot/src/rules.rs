//! Weighers, filters and listeners of a user's, as the proved code calls them.

use crate::guard::{Held, caught};
use crate::key::Name;
use crate::proved::{foyer_core, foyer_policy};
use foyer_policy::Event;
use std::marker::PhantomData;
use std::sync::Arc;

/// A cache's key. Every fitting type is one.
pub trait Key: std::hash::Hash + Eq + Clone + Send + Sync + 'static {}
impl<T: std::hash::Hash + Eq + Clone + Send + Sync + 'static> Key for T {}

/// A cache's value. Every fitting type is one.
pub trait Value: Send + Sync + 'static {}
impl<T: Send + Sync + 'static> Value for T {}

/// Gives a record its weight. Every fitting closure is one.
pub trait Weighter<K, V>: Fn(&K, &V) -> usize + Send + Sync + 'static {}
impl<K, V, F: Fn(&K, &V) -> usize + Send + Sync + 'static> Weighter<K, V> for F {}

/// Says whether a record is admitted. Every fitting closure is one.
pub trait Filter<K, V>: Fn(&K, &V) -> bool + Send + Sync + 'static {}
impl<K, V, F: Fn(&K, &V) -> bool + Send + Sync + 'static> Filter<K, V> for F {}

/// Hears of each record that leaves a cache. It is called with no lock held, so it may call the cache.
pub trait EventListener: Send + Sync + 'static {
    /// The cache's key.
    type Key;

    /// The cache's value.
    type Value;

    /// Called once for each record that left, with the reason.
    fn on_leave(&self, reason: Event, key: &Self::Key, value: &Self::Value);
}

/// A closure as a listener.
pub(crate) struct Closure<K, V, F>(pub(crate) F, pub(crate) PhantomData<fn(&K, &V)>);

impl<K: Key, V: Value, F: Fn(Event, &K, &V) + Send + Sync + 'static> EventListener for Closure<K, V, F> {
    type Key = K;

    type Value = V;

    fn on_leave(&self, reason: Event, key: &K, value: &V) {
        (self.0)(reason, key, value);
    }
}

/// The weigher; without one, each record weighs 1.
pub(crate) struct Weigh<K, V>(pub(crate) Option<Box<dyn Weighter<K, V>>>);

impl<K, V> foyer_core::Weighter<Name<K>, Held<V>> for Weigh<K, V> {
    #[inline(always)]
    fn weigh(&self, key: &Name<K>, value: &Held<V>) -> usize {
        match &self.0 {
            None => 1,
            Some(weigh) => caught(|| weigh(key.get(), value.get())).unwrap_or(0),
        }
    }
}

/// The filter; without one, each record is admitted whose weigher didn't panic.
pub(crate) struct Admit<K, V>(pub(crate) Option<Box<dyn Filter<K, V>>>);

impl<K, V> foyer_core::Filter<Name<K>, Held<V>> for Admit<K, V> {
    #[inline(always)]
    fn admit(&self, key: &Name<K>, value: &Held<V>) -> bool {
        !crate::guard::is_pending()
            && self.0.as_ref().is_none_or(|admit| caught(|| admit(key.get(), value.get())).unwrap_or(false))
    }
}

/// The listener, if there is one.
pub(crate) struct Tell<K, V>(pub(crate) Option<Arc<dyn EventListener<Key = K, Value = V>>>);

impl<K: 'static, V: 'static> foyer_policy::EventListener for Tell<K, V> {
    type Key = Name<K>;

    type Value = Held<V>;

    #[inline(always)]
    fn on_leave(&self, event: Event, key: &Name<K>, value: &Held<V>) {
        if let Some(listener) = &self.0 {
            caught(|| listener.on_leave(event, key.get(), value.get()));
        }
    }
}
