//! Blocking calls that make what is missing.

use super::Cache;
use crate::entry::{CacheEntry, InnerEntry};
use crate::error::{BoxError, Error, Result, fault_of};
use crate::guard::{Held, resumed};
use crate::key::{Equivalent, Name};
use crate::properties::{Properties, Props};
use crate::proved::{foyer_policy, foyer_raw::At};
use crate::rules::{Key, Value};
use crate::types::panicked;
use std::hash::{BuildHasher, Hash};
use std::panic::{AssertUnwindSafe, catch_unwind, resume_unwind};

impl<K, V, S, P> Cache<K, V, S, P>
where
    K: Key,
    V: Value,
    S: BuildHasher + Send + Sync + 'static,
    P: Properties,
{
    /// Returns an entry of the key's record; if there is none, makes the value and inserts it.
    ///
    /// If several callers miss the same key, one calls its closure, with no lock held, and the others block until it is
    /// done. If that panics, or the key's open fetch fails, one of the others calls its own. The closure may use the cache
    /// under other keys; **one that waits for its own key never returns**.
    ///
    /// # Panics
    /// If the closure panics, memory runs out or a count is full.
    pub fn get_or_insert_with<Q>(&self, key: &Q, make: impl FnOnce() -> V) -> CacheEntry<K, V, S, P>
    where
        Q: Hash + Equivalent<K> + ?Sized + ToOwned<Owned = K>,
    {
        let mut make = Some(make);
        loop {
            let made = || -> std::result::Result<V, BoxError> {
                let make = make.take().ok_or_else(|| Box::new(Error::no_memory()))?;
                Ok(make())
            };
            match self.get_or_try_insert_with(key, made) {
                Ok(entry) => return entry,
                // Another caller's maker failed, and this one wasn't called.
                Err(error) if make.is_some() && error.number() >= 11 => {}
                Err(error) => panic!("{error:?}"),
            }
        }
    }

    /// Returns an entry of the key's record; if there is none, makes the value and inserts it, unless that fails.
    ///
    /// As `get_or_insert_with`, but all callers that wait get the closure's error.
    ///
    /// # Errors
    /// F11 with the closure's error, or with the message of its panic for those who waited; F7 to F10 as `try_insert`; what
    /// the key's open fetch ends with, if there is one.
    ///
    /// # Panics
    /// If the closure panics.
    pub fn get_or_try_insert_with<Q, E>(
        &self,
        key: &Q,
        make: impl FnOnce() -> std::result::Result<V, E>,
    ) -> Result<CacheEntry<K, V, S, P>>
    where
        Q: Hash + Equivalent<K> + ?Sized + ToOwned<Owned = K>,
        E: Into<BoxError>,
    {
        self.get_or_try_insert_with_properties(key, || Ok((make().map_err(Into::into)?, P::default())))
    }

    /// Returns an entry of the key's record as `get_or_try_insert_with` does. The closure returns the properties too, such
    /// as the value's own time to live.
    ///
    /// # Errors
    /// Those of `get_or_try_insert_with`.
    ///
    /// # Panics
    /// If the closure panics.
    pub fn get_or_try_insert_with_properties<Q>(
        &self,
        key: &Q,
        make: impl FnOnce() -> std::result::Result<(V, P), BoxError>,
    ) -> Result<CacheEntry<K, V, S, P>>
    where
        Q: Hash + Equivalent<K> + ?Sized + ToOwned<Owned = K>,
    {
        if let Some(entry) = self.get_first(key)? {
            return Ok(CacheEntry::new(entry));
        }
        let mut panic = None;
        let make = || {
            let made = || {
                let (value, properties) = make().map_err(fault_of)?;
                let expires = self.clock.expiry(properties.time_to_live());
                Ok((Held::new(value), Props::new(properties, expires)))
            };
            catch_unwind(AssertUnwindSafe(made)).unwrap_or_else(|thrown| {
                let fault = panicked(Some(&thrown));
                panic = Some(thrown);
                Err(fault)
            })
        };
        let entry = resumed(|| {
            let name = Name::new(key.to_owned());
            self.inner.get_or_insert_with_properties(self.clock.read(), &name, make)
        });
        if let Some(panic) = panic {
            resume_unwind(panic);
        }
        Ok(CacheEntry::new(entry?))
    }

    // An entry of a hit. A miss isn't counted, since another look-up follows it.
    #[inline(always)]
    pub(crate) fn get_first<Q>(&self, key: &Q) -> foyer_policy::Result<Option<InnerEntry<K, V, S, P>>>
    where
        Q: Hash + Equivalent<K> + ?Sized,
    {
        self.ask(key, |name| self.inner.get_first(At::new(self.clock.now()), self.inner.hashed(name)))
    }
}
