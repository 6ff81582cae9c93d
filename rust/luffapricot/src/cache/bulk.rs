//! Calls that visit all shards.

use super::{Cache, refused};
use crate::error::Result;
use crate::guard::{caught, resumed};
use crate::properties::Properties;
use crate::rattle_std::futures::future::Std;
use crate::rules::{Key, Value};

impl<K: Key, V: Value, S, P: Properties> Cache<K, V, S, P> {
    /// Removes all records, and tells the listener of them as `Clear`.
    pub fn clear(&self) {
        resumed(|| self.inner.clear()).unwrap_or_else(|error| refused(error));
    }

    /// Evicts all records that aren't pinned.
    pub fn evict_all(&self) {
        resumed(|| self.inner.evict_all(self.clock.now())).unwrap_or_else(|error| refused(error));
    }

    /// Changes the capacity, and evicts what no longer fits.
    ///
    /// # Errors
    /// F7 if memory runs out; the capacity is set, and some records have left.
    pub fn resize(&self, capacity: usize) -> Result<()> {
        Ok(resumed(|| self.inner.resize(self.clock.now(), capacity))?)
    }

    /// Evicts all records that aren't pinned, and waits until the pipe has written them.
    pub async fn flush(&self) {
        let flush = resumed(|| self.inner.flush(self.clock.now()));
        Std(flush).await.unwrap_or_else(|error| refused(error));
    }

    /// Evicts the records for which the predicate returns true, pinned ones too, and waits until the pipe has written them.
    ///
    /// The predicate runs under a lock and must not call the cache.
    pub async fn flush_if<F: Fn(&K, &V) -> bool>(&self, predicate: F) {
        let flush = {
            let picks = |key: &_, value: &_| picked(&predicate, key, value);
            resumed(|| self.inner.flush_if(picks))
        };
        Std(flush).await.unwrap_or_else(|error| refused(error));
    }

    /// Calls `visit` for each record, expired ones included, in the policy's order in each shard, with no lock held.
    pub fn for_each(&self, mut visit: impl FnMut(&K, &V)) {
        let visited = resumed(|| self.inner.for_each(|key, value| visit(key.get(), value.get())));
        visited.unwrap_or_else(|error| refused(error));
    }

    /// Returns clones of all keys, those of expired records included.
    pub fn keys(&self) -> Vec<K> {
        let mut keys = Vec::new();
        self.for_each(|key, _| keys.push(key.clone()));
        keys
    }

    /// Removes the records for which `keep` returns false. It is called with no lock held.
    pub fn retain(&self, mut keep: impl FnMut(&K, &V) -> bool) {
        let done = resumed(|| self.inner.retain(|key, value| keep(key.get(), value.get())));
        done.unwrap_or_else(|error| refused(error));
    }
}

// Whether a predicate picks a record. One that panics picks none.
fn picked<K, V>(predicate: impl Fn(&K, &V) -> bool, key: &crate::key::Name<K>, value: &crate::guard::Held<V>) -> bool {
    caught(|| predicate(key.get(), value.get())).unwrap_or(false)
}
