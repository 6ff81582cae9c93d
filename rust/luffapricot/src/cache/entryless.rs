//! Calls that make no entry: one lock each, and nothing to give back.

use super::{Cache, refused};
use crate::error::Result;
use crate::guard::{Held, caught, resumed};
use crate::key::{Equivalent, Name};
use crate::properties::{Properties, Props};
use crate::proved::foyer_policy;
use crate::rules::{Key, Value};
use std::hash::{BuildHasher, Hash};

impl<K, V, S, P> Cache<K, V, S, P>
where
    K: Key,
    V: Value,
    S: BuildHasher + Send + Sync + 'static,
    P: Properties,
{
    /// Calls `look` with the key's value, counts a use of its record, and returns what `look` returned.
    ///
    /// `look` runs under a lock: **it must not call the cache**, and should be short.
    #[inline]
    pub fn read<Q: Hash + Equivalent<K> + ?Sized, T>(&self, key: &Q, look: impl FnOnce(&V) -> T) -> Option<T> {
        let look = |value: &Held<V>| caught(|| look(value.get()));
        let found = self.ask(key, |name| self.inner.read(self.clock.now(), name, look));
        found.unwrap_or_else(|error| refused(error)).flatten()
    }

    /// Calls `look` with the key's value as `read` does, but counts no use, and neither a hit nor a miss.
    #[inline]
    pub fn peek<Q: Hash + Equivalent<K> + ?Sized, T>(&self, key: &Q, look: impl FnOnce(&V) -> T) -> Option<T> {
        let look = |value: &Held<V>| caught(|| look(value.get()));
        self.ask(key, |name| self.inner.peek(self.clock.now(), name, look)).flatten()
    }

    /// Returns a clone of the key's value, made under a lock, which counts as a use.
    #[inline]
    pub fn get_cloned<Q: Hash + Equivalent<K> + ?Sized>(&self, key: &Q) -> Option<V>
    where
        V: Clone,
    {
        self.read(key, V::clone)
    }

    /// Inserts a record of which no entry is wanted.
    ///
    /// # Panics
    /// If memory runs out, or a count is full. See `try_put`.
    #[inline]
    pub fn put(&self, key: K, value: V) {
        self.put_with_properties(key, value, P::default());
    }

    /// Inserts a record with properties of which no entry is wanted.
    ///
    /// # Panics
    /// If memory runs out, or a count is full. See `try_put`.
    #[inline]
    pub fn put_with_properties(&self, key: K, value: V, properties: P) {
        self.put_inner(key, value, properties).unwrap_or_else(|error| refused(error));
    }

    /// Inserts a record with properties of which no entry is wanted.
    ///
    /// # Errors
    /// Those of `try_insert`.
    pub fn try_put(&self, key: K, value: V, properties: P) -> Result<()> {
        Ok(self.put_inner(key, value, properties)?)
    }

    #[inline(always)]
    fn put_inner(&self, key: K, value: V, properties: P) -> foyer_policy::Result<()> {
        let expires = self.clock.expiry(properties.time_to_live());
        let (key, value) = (Name::new(key), Held::new(value));
        let properties = Props::new(properties, expires);
        resumed(|| self.inner.put_with_properties(self.clock.now(), key, value, properties))
    }

    /// Removes the key's record, expired or not, and returns whether there was one.
    pub fn delete<Q: Hash + Equivalent<K> + ?Sized>(&self, key: &Q) -> bool {
        let found = self.ask(key, |name| self.inner.delete(name));
        found.unwrap_or_else(|error| refused(error))
    }
}
