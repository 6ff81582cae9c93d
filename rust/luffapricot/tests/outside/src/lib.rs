//! Upstream's names for its own tests, over this crate: modules, and a cache with its policy as a type.
#![allow(dead_code, unused_imports)]

extern crate alloc;
extern crate self as foyer_common;

pub mod hasher {
    pub use luffapricot::ModHasher;
}

pub mod properties {
    pub use luffapricot::{Age, Hint, Location, Properties};
}

pub mod error {
    pub use luffapricot::Error;
}

pub mod indexer {
    pub trait Indexer: 'static {
        type Eviction;
    }

    pub mod hash_table {
        pub struct HashTableIndexer<E>(std::marker::PhantomData<fn(E)>);

        impl<E: 'static> super::Indexer for HashTableIndexer<E> {
            type Eviction = E;
        }
    }
}

pub mod eviction {
    use luffapricot::{EvictionConfig, Key, Properties, Value};

    pub trait Eviction: 'static {
        type Key: Key;
        type Value: Value;
        type Properties: Properties;
        type Config: Into<EvictionConfig>;
    }

    macro_rules! policy {
        ($module:ident $policy:ident $config:ident) => {
            pub mod $module {
                use luffapricot::{Key, Properties, Value};
                use std::marker::PhantomData;

                pub use luffapricot::$config;

                pub struct $policy<K, V, P>(PhantomData<fn(K, V, P)>);

                impl<K: Key, V: Value, P: Properties> super::Eviction for $policy<K, V, P> {
                    type Key = K;
                    type Value = V;
                    type Properties = P;
                    type Config = $config;
                }
            }
        };
    }
    policy!(fifo Fifo FifoConfig);
    policy!(lfu Lfu LfuConfig);
    policy!(lru Lru LruConfig);
    policy!(s3fifo S3Fifo S3FifoConfig);
    policy!(sieve Sieve SieveConfig);

    pub mod test_utils {
        use luffapricot::{Age, Hint, Location, Properties};

        include!("test_properties.rs");
    }
}

pub mod test_utils {
    use crate::eviction::test_utils::TestProperties;
    use luffapricot::{BoxFuture, Pipe};
    use std::sync::Mutex;

    type Piece = luffapricot::Piece<u64, u64, TestProperties>;

    /// A pipe that keeps what it is sent.
    #[derive(Default)]
    pub struct PiecePipe(Mutex<Vec<Piece>>);

    impl PiecePipe {
        pub fn pieces(&self) -> Vec<Piece> {
            self.0.lock().unwrap().clone()
        }
    }

    impl Pipe for PiecePipe {
        type Key = u64;
        type Value = u64;
        type Properties = TestProperties;

        fn is_enabled(&self) -> bool {
            true
        }

        fn send(&self, piece: Piece) {
            self.0.lock().unwrap().push(piece);
        }

        fn flush(&self, pieces: Vec<Piece>) -> BoxFuture<()> {
            self.0.lock().unwrap().extend(pieces);
            Box::pin(std::future::ready(()))
        }
    }
}

pub mod raw {
    use crate::eviction::Eviction;
    use crate::indexer::Indexer;
    use crate::properties::Properties;
    use itertools::Itertools;
    use luffapricot::{ArcPipe, Cache, CacheBuilder, EventListener};
    use std::hash::BuildHasher;
    use std::marker::PhantomData;
    use std::ops::Deref;
    use std::sync::Arc;

    pub trait HashBuilder: BuildHasher + Send + Sync + 'static {}
    impl<S: BuildHasher + Send + Sync + 'static> HashBuilder for S {}

    pub struct Metrics;

    impl Metrics {
        pub fn noop() -> Self {
            Metrics
        }
    }

    type Weighter<K, V> = Arc<dyn Fn(&K, &V) -> usize + Send + Sync>;
    type Filter<K, V> = Arc<dyn Fn(&K, &V) -> bool + Send + Sync>;
    type Listener<K, V> = Arc<dyn EventListener<Key = K, Value = V>>;

    pub struct RawCacheConfig<E: Eviction, S> {
        pub capacity: usize,
        pub shards: usize,
        pub eviction_config: E::Config,
        pub hash_builder: S,
        pub weighter: Weighter<E::Key, E::Value>,
        pub filter: Filter<E::Key, E::Value>,
        pub event_listener: Option<Listener<E::Key, E::Value>>,
        pub metrics: Arc<Metrics>,
    }

    pub struct RawCache<E: Eviction, S: 'static, I: Indexer<Eviction = E>>(
        Cache<E::Key, E::Value, S, E::Properties>,
        PhantomData<fn(I)>,
    );

    impl<E: Eviction, S: HashBuilder, I: Indexer<Eviction = E>> RawCache<E, S, I> {
        pub fn new(config: RawCacheConfig<E, S>) -> Self {
            let (weighter, filter) = (config.weighter, config.filter);
            let mut builder = CacheBuilder::new(config.capacity)
                .with_shards(config.shards)
                .with_eviction_config(config.eviction_config)
                .with_hash_builder(config.hash_builder)
                .with_weighter(move |key: &E::Key, value: &E::Value| weighter(key, value))
                .with_filter(move |key: &E::Key, value: &E::Value| filter(key, value));
            if let Some(listener) = config.event_listener {
                builder = builder.with_event_listener(listener);
            }
            RawCache(builder.build(), PhantomData)
        }

        pub fn with_pipe(self, pipe: ArcPipe<E::Key, E::Value, E::Properties>) -> Self {
            RawCache(self.0.with_pipe(pipe), PhantomData)
        }
    }

    impl<E: Eviction, S, I: Indexer<Eviction = E>> Clone for RawCache<E, S, I> {
        fn clone(&self) -> Self {
            RawCache(self.0.clone(), PhantomData)
        }
    }

    impl<E: Eviction, S, I: Indexer<Eviction = E>> Deref for RawCache<E, S, I> {
        type Target = Cache<E::Key, E::Value, S, E::Properties>;

        fn deref(&self) -> &Self::Target {
            &self.0
        }
    }

    // run.py puts upstream's tests here.
    #[cfg(upstream)]
    include!("raw_tests.rs");
}

pub mod cache {
    use luffapricot::{Cache, CacheBuilder, SieveConfig};
    use std::sync::Arc;

    #[cfg(upstream)]
    include!("cache_tests.rs");
}

/// The crate `lru`'s names for its tests, over a cache of one shard.
pub mod lru {
    use luffapricot::{Cache, CacheBuilder, Equivalent, Key, LruConfig, Value};
    use std::hash::Hash;
    use std::sync::Arc;

    pub struct LruCache<K: Key, V: Value>(Cache<K, Arc<V>>);

    // What a cache lends for as long as a test likes.
    fn lent<T>(value: T) -> &'static T {
        Box::leak(Box::new(value))
    }

    impl<K: Key, V: Value> LruCache<K, V> {
        pub fn new(capacity: usize) -> Self {
            let config = LruConfig { high_priority_pool_ratio: 1.0 };
            LruCache(CacheBuilder::new(capacity).with_shards(1).with_eviction_config(config).build())
        }

        pub fn unbounded() -> Self {
            Self::new(usize::MAX)
        }

        /// Returns the old value unless it was lent.
        pub fn put(&mut self, key: K, value: V) -> Option<V> {
            let old = self.0.remove(&key).map(|entry| Arc::clone(&entry));
            self.0.put(key, Arc::new(value));
            old.and_then(Arc::into_inner)
        }

        pub fn get<Q: Hash + Equivalent<K> + ?Sized>(&mut self, key: &Q) -> Option<&V> {
            self.0.get_cloned(key).map(|value| &**lent(value))
        }

        pub fn get_or_insert(&mut self, key: K, make: impl FnOnce() -> V) -> Option<&V> {
            Some(&**lent(Arc::clone(&self.0.get_or_insert_with(&key, || Arc::new(make())))))
        }

        pub fn peek<Q: Hash + Equivalent<K> + ?Sized>(&self, key: &Q) -> Option<&V> {
            self.0.peek(key, Arc::clone).map(|value| &**lent(value))
        }

        pub fn contains<Q: Hash + Equivalent<K> + ?Sized>(&self, key: &Q) -> bool {
            self.0.contains(key)
        }

        pub fn len(&self) -> usize {
            self.0.entries()
        }

        pub fn is_empty(&self) -> bool {
            self.len() == 0
        }

        pub fn cap(&self) -> usize {
            self.0.capacity()
        }

        pub fn resize(&mut self, capacity: usize) {
            self.0.resize(capacity).unwrap();
        }

        pub fn clear(&mut self) {
            self.0.clear();
        }

        fn all(&self) -> Vec<(K, Arc<V>)> {
            let mut all = Vec::new();
            self.0.for_each(|key, value| all.push((key.clone(), Arc::clone(value))));
            all
        }

        /// The records, the one used last first.
        pub fn iter(&self) -> std::vec::IntoIter<(&K, &V)> {
            let pairs: Vec<(&K, &V)> = self.all().into_iter().rev().map(lent).map(|pair| (&pair.0, &*pair.1)).collect();
            pairs.into_iter()
        }

        pub fn peek_lru(&self) -> Option<(&K, &V)> {
            self.iter().next_back()
        }
    }

    impl<K: Key, V: Value + Clone> LruCache<K, V> {
        pub fn pop_entry<Q: Hash + Equivalent<K> + ?Sized>(&mut self, key: &Q) -> Option<(K, V)> {
            self.0.remove(key).map(|entry| (entry.key().clone(), V::clone(&entry)))
        }

        pub fn pop<Q: Hash + Equivalent<K> + ?Sized>(&mut self, key: &Q) -> Option<V> {
            self.pop_entry(key).map(|pair| pair.1)
        }

        pub fn pop_lru(&mut self) -> Option<(K, V)> {
            let key = self.all().first()?.0.clone();
            self.pop_entry(&key)
        }

        #[allow(clippy::should_implement_trait)]
        pub fn into_iter(self) -> std::vec::IntoIter<(K, V)> {
            let pairs: Vec<(K, V)> = self.all().into_iter().map(|(key, value)| (key, V::clone(&value))).collect();
            pairs.into_iter()
        }
    }

    #[cfg(lru)]
    include!("lru_tests.rs");
}
