//! Inserts and removals that depend on what a key has.

use super::{Cache, refused};
use crate::entry::CacheEntry;
use crate::error::Result;
use crate::guard::{Held, resumed};
use crate::key::{Equivalent, Name};
use crate::properties::{Properties, Props};
use crate::proved::foyer_policy;
use crate::proved::foyer_raw::Replaced;
use crate::rules::{Key, Value};
use std::hash::{BuildHasher, Hash};
use std::time::Duration;

impl<K, V, S, P> Cache<K, V, S, P>
where
    K: Key,
    V: Value,
    S: BuildHasher + Send + Sync + 'static,
    P: Properties,
{
    /// Inserts a record if the key still has the record of `seen`, expired or not, or, for `None`, if a `get` finds none. If not,
    /// nothing is inserted, and the result is what a `get` finds: that counts as a use, but not among hits and misses. All of it
    /// is one step, under one lock. A key never has the record of another key's entry, nor of another cache's.
    ///
    /// So no thread's change is lost:
    ///
    /// ```
    /// use luffapricot::{Cache, Replaced};
    ///
    /// fn count(visits: &Cache<String, u64>, page: &str) {
    ///     let mut seen = visits.get(page);
    ///     loop {
    ///         let next = seen.as_deref().map_or(1, |before| before + 1);
    ///         match visits.replace_if(seen.as_ref(), page.to_owned(), next) {
    ///             Replaced::Inserted(_) => return,
    ///             Replaced::Changed(found) => seen = found,
    ///         }
    ///     }
    /// }
    ///
    /// let visits = Cache::builder(100).build();
    /// std::thread::scope(|threads| {
    ///     for _ in 0..8 {
    ///         threads.spawn(|| count(&visits, "home"));
    ///     }
    /// });
    /// assert_eq!(visits.get_cloned("home"), Some(8));
    /// ```
    ///
    /// # Panics
    /// If memory runs out, or a count is full. See `try_replace_if`.
    pub fn replace_if(
        &self,
        seen: Option<&CacheEntry<K, V, S, P>>,
        key: K,
        value: V,
    ) -> Replaced<CacheEntry<K, V, S, P>> {
        self.replace_inner(seen, key, value, P::default()).unwrap_or_else(|error| refused(error))
    }

    /// Inserts a record with properties as `replace_if` does.
    ///
    /// # Errors
    /// Those of `try_insert`, and F9 if the handle count of what is found would overflow.
    pub fn try_replace_if(
        &self,
        seen: Option<&CacheEntry<K, V, S, P>>,
        key: K,
        value: V,
        properties: P,
    ) -> Result<Replaced<CacheEntry<K, V, S, P>>> {
        Ok(self.replace_inner(seen, key, value, properties)?)
    }

    fn replace_inner(
        &self,
        seen: Option<&CacheEntry<K, V, S, P>>,
        key: K,
        value: V,
        properties: P,
    ) -> foyer_policy::Result<Replaced<CacheEntry<K, V, S, P>>> {
        let seen = seen.map(CacheEntry::inner);
        let (key, value, properties) = self.coming(key, value, properties);
        let replaced = resumed(|| self.inner.replace_if(self.clock.now(), seen, key, value, properties))?;
        Ok(match replaced {
            Replaced::Inserted(entry) => Replaced::Inserted(CacheEntry::new(entry)),
            Replaced::Changed(found) => Replaced::Changed(found.map(CacheEntry::new)),
        })
    }

    /// Inserts a record if its weight is at most its shard's capacity less what LRU pins of other keys there. If not, nothing is
    /// inserted or evicted.
    ///
    /// ```
    /// use luffapricot::CacheBuilder;
    ///
    /// let pages = CacheBuilder::new(1_000).with_shards(1).with_weighter(|_: &u32, page: &Vec<u8>| page.len()).build();
    /// let pages: luffapricot::Cache<u32, Vec<u8>> = pages;
    /// assert!(pages.insert_if_fits(1, vec![0; 800]).is_some());
    /// let shown = pages.get(&1);
    /// assert!(pages.insert_if_fits(2, vec![0; 201]).is_none() && pages.contains(&1));
    /// drop(shown);
    /// assert!(pages.insert_if_fits(2, vec![0; 201]).is_some() && !pages.contains(&1));
    /// ```
    ///
    /// # Panics
    /// If memory runs out, or a count is full. See `try_insert_if_fits`.
    pub fn insert_if_fits(&self, key: K, value: V) -> Option<CacheEntry<K, V, S, P>> {
        self.fit_inner(key, value, P::default()).unwrap_or_else(|error| refused(error))
    }

    /// Inserts a record with properties as `insert_if_fits` does.
    ///
    /// # Errors
    /// Those of `try_insert`.
    pub fn try_insert_if_fits(&self, key: K, value: V, properties: P) -> Result<Option<CacheEntry<K, V, S, P>>> {
        Ok(self.fit_inner(key, value, properties)?)
    }

    fn fit_inner(&self, key: K, value: V, properties: P) -> foyer_policy::Result<Option<CacheEntry<K, V, S, P>>> {
        let (key, value, properties) = self.coming(key, value, properties);
        let made = resumed(|| self.inner.insert_if_fits(self.clock.now(), key, value, properties))?;
        Ok(made.map(CacheEntry::new))
    }

    // The parts of a record that is to be inserted.
    fn coming(&self, key: K, value: V, properties: P) -> (Name<K>, Held<V>, Props<P>) {
        let expires = self.clock.expiry(properties.time_to_live());
        (Name::new(key), Held::new(value), Props::new(properties, expires))
    }

    /// Removes the entry's record, expired or not, if its key still has it, and returns whether it had. The entry stays readable.
    ///
    /// ```
    /// let pages: luffapricot::Cache<&str, u32> = luffapricot::Cache::builder(100).build();
    /// let old = pages.insert("home", 1);
    /// let new = pages.insert("home", 2);
    /// assert!(!pages.remove_this(&old) && pages.contains("home"));
    /// assert!(pages.remove_this(&new) && !pages.contains("home"));
    /// ```
    pub fn remove_this(&self, entry: &CacheEntry<K, V, S, P>) -> bool {
        resumed(|| self.inner.remove_this(entry.inner()))
    }

    /// Gives the key's record another time to live, from now on (`None`: it never expires), and returns whether a `get` finds one,
    /// which counts as a use. All of it is one step, under one lock.
    ///
    /// The record is inserted again, with its weight, its properties and clones of its key and value, which are made under the lock.
    /// So the old one leaves as `Replace`, and a full shard may evict another one. What the properties say of the time to live stays.
    ///
    /// ```
    /// use std::time::Duration;
    ///
    /// let sessions: luffapricot::Cache<&str, u32> = luffapricot::Cache::builder(100).build();
    /// sessions.put("ann", 1);
    /// assert!(sessions.set_time_to_live("ann", Some(Duration::ZERO)) && !sessions.contains("ann"));
    /// assert!(!sessions.set_time_to_live("ann", None));
    /// ```
    ///
    /// # Panics
    /// If memory runs out, or a count is full. See `try_set_time_to_live`.
    pub fn set_time_to_live<Q: Hash + Equivalent<K> + ?Sized>(&self, key: &Q, time_to_live: Option<Duration>) -> bool
    where
        V: Clone,
    {
        self.expire_inner(key, time_to_live).unwrap_or_else(|error| refused(error))
    }

    /// Gives the key's record another time to live, as `set_time_to_live` does.
    ///
    /// # Errors
    /// F9 if the handle count would overflow, and those of `try_insert`.
    pub fn try_set_time_to_live<Q: Hash + Equivalent<K> + ?Sized>(
        &self,
        key: &Q,
        time_to_live: Option<Duration>,
    ) -> Result<bool>
    where
        V: Clone,
    {
        Ok(self.expire_inner(key, time_to_live)?)
    }

    fn expire_inner<Q: Hash + Equivalent<K> + ?Sized>(
        &self,
        key: &Q,
        time_to_live: Option<Duration>,
    ) -> foyer_policy::Result<bool>
    where
        V: Clone,
    {
        let expires = self.clock.expiry(time_to_live);
        self.ask(key, |name| self.inner.set_expires(self.clock.now(), name, expires))
    }
}
