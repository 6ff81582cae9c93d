//! Maps, sets and queues that refuse to grow if memory runs out.

use super::alloc::{AllocError, AllocFailed, Global};
use super::hash::{BuildHasherDefault, FoldHasher, Hash};
use ::std::ops::Deref;

type Build = BuildHasherDefault<FoldHasher>;

/// Rust's `HashMap`.
#[derive(Clone, Debug)]
pub struct HashMap<K, V>(::std::collections::HashMap<K, V, Build>);

impl<K: Eq + Hash, V> HashMap<K, V> {
    pub fn new(_alloc: Global) -> Self {
        HashMap(::std::collections::HashMap::default())
    }

    pub fn reserve(&mut self, more: usize) -> Result<(), AllocError> {
        Ok(self.0.try_reserve(more)?)
    }

    pub fn insert(&mut self, key: K, value: V) -> Result<Option<V>, AllocFailed<(K, V)>> {
        if self.0.try_reserve(1).is_err() {
            return Err(AllocFailed { value: (key, value) });
        }
        Ok(self.0.insert(key, value))
    }

    pub fn get(&self, key: &K) -> Option<&V> {
        self.0.get(key)
    }

    pub fn get_mut(&mut self, key: &K) -> Option<&mut V> {
        self.0.get_mut(key)
    }

    pub fn remove(&mut self, key: &K) -> Option<V> {
        self.0.remove(key)
    }

    pub fn contains_key(&self, key: &K) -> bool {
        self.0.contains_key(key)
    }

    pub fn capacity(&self) -> usize {
        self.0.capacity()
    }

    pub fn len(&self) -> usize {
        self.0.len()
    }

    pub fn is_empty(&self) -> bool {
        self.0.is_empty()
    }

    pub fn clear(&mut self) {
        self.0.clear();
    }
}

/// Rust's `HashSet`.
#[derive(Clone, Debug)]
pub struct HashSet<K>(::std::collections::HashSet<K, Build>);

impl<K: Eq + Hash> HashSet<K> {
    pub fn new(_alloc: Global) -> Self {
        HashSet(::std::collections::HashSet::default())
    }

    pub fn reserve(&mut self, more: usize) -> Result<(), AllocError> {
        Ok(self.0.try_reserve(more)?)
    }

    pub fn insert(&mut self, key: K) -> Result<bool, AllocFailed<K>> {
        if self.0.try_reserve(1).is_err() {
            return Err(AllocFailed { value: key });
        }
        Ok(self.0.insert(key))
    }

    pub fn remove(&mut self, key: &K) -> bool {
        self.0.remove(key)
    }

    pub fn contains(&self, key: &K) -> bool {
        self.0.contains(key)
    }

    pub fn len(&self) -> usize {
        self.0.len()
    }

    pub fn clear(&mut self) {
        self.0.clear();
    }
}

/// Rust's `VecDeque`.
#[derive(Clone, Debug)]
pub struct VecDeque<T>(::std::collections::VecDeque<T>);

impl<T> VecDeque<T> {
    pub fn new(_alloc: Global) -> Self {
        VecDeque(::std::collections::VecDeque::new())
    }

    pub fn reserve(&mut self, more: usize) -> Result<(), AllocError> {
        Ok(self.0.try_reserve(more)?)
    }

    /// Appends a value, for which room was reserved.
    pub fn push_back_reserved(&mut self, value: T) {
        debug_assert!(self.0.len() < self.0.capacity());
        self.0.push_back(value);
    }

    pub fn pop_front(&mut self) -> Option<T> {
        self.0.pop_front()
    }
}

impl<T> Deref for VecDeque<T> {
    type Target = ::std::collections::VecDeque<T>;

    fn deref(&self) -> &Self::Target {
        &self.0
    }
}
