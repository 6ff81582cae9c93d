//! What a cache and its records are given: pipes, settings, properties, closures, errors and parameters of policies.

use crate::common;
use luffapricot::*;
use std::hash::BuildHasher;
use std::sync::Arc;
use std::sync::atomic::{AtomicU64, AtomicUsize, Ordering};
use std::time::Duration;

// A pipe that keeps the keys of what it is sent and flushed.
#[derive(Default)]
struct Kept {
    is_enabled: bool,
    sent: std::sync::Mutex<Vec<u64>>,
    flushed: std::sync::Mutex<Vec<u64>>,
}

impl Pipe for Kept {
    type Key = u64;
    type Value = u64;
    type Properties = CacheProperties;

    fn is_enabled(&self) -> bool {
        self.is_enabled
    }

    fn send(&self, piece: Piece<u64, u64, CacheProperties>) {
        assert_eq!(*piece.value(), 7 * piece.key());
        self.sent.lock().unwrap().push(*piece.key());
    }

    fn flush(&self, pieces: Vec<Piece<u64, u64, CacheProperties>>) -> BoxFuture<()> {
        self.flushed.lock().unwrap().extend(pieces.iter().map(|piece| *piece.key()));
        Box::pin(std::future::ready(()))
    }
}

#[test]
fn a_pipe_gets_what_is_evicted_and_nothing_else() {
    const MANY: u64 = 5000;
    for is_enabled in [true, false] {
        let pipe = Arc::new(Kept { is_enabled, ..Kept::default() });
        let builder = CacheBuilder::new(MANY as usize).with_shards(1).with_eviction_config(FifoConfig {});
        let cache: Cache<u64, u64> = builder.build().with_pipe(Arc::clone(&pipe) as ArcPipe<_, _, _>);
        let put = |keys: std::ops::Range<u64>| keys.for_each(|key| cache.put(key, 7 * key));
        let sent = || std::mem::take(&mut *pipe.sent.lock().unwrap());
        let flushed = || std::mem::take(&mut *pipe.flushed.lock().unwrap());
        let wanted = |keys: std::ops::Range<u64>| {
            if is_enabled { keys.collect() } else { Vec::new() }
        };
        put(0..MANY);
        cache.remove(&1);
        cache.put(2, 14);
        cache.retain(|key, _| *key != 3);
        assert_eq!(sent(), []);
        cache.clear();
        assert_eq!(sent(), []);
        put(0..MANY + 2);
        assert_eq!(sent(), wanted(0..2));
        cache.evict_all();
        assert_eq!((sent(), flushed()), (wanted(2..MANY + 2), vec![]));
        put(0..MANY);
        common::block_on(cache.flush_if(|key, _| *key < 4500));
        assert_eq!((sent(), flushed()), (vec![], wanted(0..4500)));
        common::block_on(cache.flush());
        assert_eq!((sent(), flushed(), cache.entries()), (vec![], wanted(4500..MANY), 0));
    }
}

#[test]
fn settings_come_in_any_order_and_owners_share_them() {
    let (left, spawned) = (Arc::new(AtomicUsize::new(0)), Arc::new(AtomicUsize::new(0)));
    let (told, tasks, time) = (Arc::clone(&left), Arc::clone(&spawned), Arc::new(AtomicU64::new(0)));
    let clock = Arc::clone(&time);
    let first: Cache<u64, u64, ModHasher> = CacheBuilder::new(30)
        .with_shards(3)
        .with_eviction_config(FifoConfig {})
        .with_weighter(|_: &u64, value: &u64| *value as usize)
        .with_filter(|key: &u64, _: &u64| *key != 9)
        .with_listener(move |_, _: &u64, _: &u64| {
            told.fetch_add(1, Ordering::SeqCst);
        })
        .with_time_to_live(Duration::from_secs(60))
        .with_clock(move || Duration::from_secs(clock.load(Ordering::SeqCst)))
        .with_spawner(move |mut task: BoxFuture<()>| {
            tasks.fetch_add(1, Ordering::SeqCst);
            assert!(common::poll_once(&mut task).is_ready());
        })
        .with_hash_builder(ModHasher::default())
        .build();
    let piped = first.clone().with_pipe(Arc::new(NoopPipe::default()));
    for (at, cache) in [first.clone(), piped.clone(), piped, first].iter().enumerate() {
        cache.clear();
        let before = left.load(Ordering::SeqCst);
        assert_eq!((cache.shards(), cache.capacity(), cache.hash(&5)), (3, 30, ModHasher::default().hash_one(5u64)));
        cache.put(0, 6);
        cache.put(3, 5);
        cache.put(9, 1);
        assert_eq!([0, 3, 9].map(|key| cache.contains(&key)), [false, true, false]);
        assert_eq!((left.load(Ordering::SeqCst) - before, cache.usage()), (3, 5));
        drop(cache.get_or_fetch(&1, || async { Ok::<_, BoxError>(4) }));
        assert_eq!((spawned.load(Ordering::SeqCst), cache.get_cloned(&1)), (at + 1, Some(4)));
        time.fetch_add(59, Ordering::SeqCst);
        assert!(cache.contains(&1) && cache.contains(&3));
        time.fetch_add(1, Ordering::SeqCst);
        assert!(!cache.contains(&1) && !cache.contains(&3));
    }
}

#[test]
fn a_setter_keeps_what_others_set() {
    let life = Duration::from_secs(1 << 33);
    let has_all = |it: CacheProperties| {
        assert_eq!((it.hint(), it.phantom(), it.time_to_live()), (Hint::Low, Some(true), Some(life)), "{it:?}");
    };
    let empty = CacheProperties::default;
    assert_eq!((empty().hint(), empty().phantom(), empty().time_to_live()), (Hint::Normal, Some(false), None));
    has_all(empty().with_hint(Hint::Low).with_phantom(true).with_time_to_live(life));
    has_all(empty().with_time_to_live(life).with_phantom(true).with_hint(Hint::Low));
    has_all(Properties::with_hint(empty().with_time_to_live(life).with_phantom(true), Hint::Low));
    has_all(empty().with_hint(Hint::Low).with_time_to_live(life).with_phantom(true));
    has_all(
        empty()
            .with_hint(Hint::Low)
            .with_time_to_live(life)
            .with_phantom(true)
            .with_location(Location::OnDisk)
            .with_age(Age::Old),
    );
}

#[test]
fn closures_that_are_called_with_no_lock_held_may_call_the_cache() {
    static CACHE: std::sync::OnceLock<Cache<u64, u64>> = std::sync::OnceLock::new();
    static CALLS: AtomicUsize = AtomicUsize::new(0);
    // Each call of the cache comes to the one shard's lock.
    fn call() -> usize {
        let cache = CACHE.get().expect("a cache");
        CALLS.fetch_add(1, Ordering::SeqCst);
        assert!(cache.entries() <= 2 && cache.peek(&1000, |_| ()).is_none());
        1
    }
    let builder = CacheBuilder::new(2)
        .with_shards(1)
        .with_eviction_config(FifoConfig {})
        .with_weighter(|_: &u64, _: &u64| call())
        .with_filter(|_: &u64, _: &u64| call() == 1)
        .with_listener(|event, key: &u64, value: &u64| {
            call();
            // What leaves is told also of calls that the listener makes.
            let cache = CACHE.get().expect("a cache");
            if event == Event::Remove && *key < 100 {
                cache.put(key + 100, *value);
                cache.delete(&(key + 100));
            }
        });
    CACHE.set(builder.build()).expect("it is set once");
    let cache = CACHE.get().expect("a cache");
    let counted = |least: usize, what: &dyn Fn()| {
        let before = CALLS.load(Ordering::SeqCst);
        what();
        assert!(CALLS.load(Ordering::SeqCst) >= before + least);
    };
    counted(7, &|| (0..3).for_each(|key| cache.put(key, key)));
    counted(2, &|| cache.for_each(|_, _| assert_eq!(call(), 1)));
    counted(3, &|| cache.retain(|key, _| call() == 1 && *key != 2));
    counted(2, &|| assert!(cache.delete(&1)));
    counted(3, &|| drop(cache.get_or_insert_with(&5, || call() as u64)));
    let fetch = || async { Ok::<_, BoxError>(call() as u64) };
    counted(3, &|| drop(common::block_on(cache.get_or_fetch(&6, fetch))));
    counted(1, &|| drop(cache.remove(&6)));
    counted(1, &|| cache.clear());
    assert_eq!(cache.entries(), 0);
}

#[test]
fn an_error_of_a_fetch_keeps_its_code_and_message() {
    let cache: Cache<u64, u64> = Cache::<u64, u64>::builder(10).build();
    let is_it = |error: &Error| assert_eq!((error.number(), error.fault()), (11, Some((1 << 40, "gone"))));
    let fetch = || cache.get_or_fetch(&1, || async { Err::<u64, _>(Error::fetch(1 << 40, "gone")) });
    let (first, second) = (fetch(), fetch());
    for wait in [first, second] {
        let error = common::block_on(wait).unwrap_err();
        is_it(&error);
        is_it(&error.clone());
    }
    is_it(&cache.get_or_try_insert_with(&1, || Err::<u64, _>(Error::fetch(1 << 40, "gone"))).unwrap_err());
}

#[test]
fn an_entry_says_where_it_came_from() {
    let cache: Cache<u64, u64> = Cache::<u64, u64>::builder(10).build();
    assert_eq!(cache.insert(1, 1).source(), Source::Outer);
    assert_eq!(cache.get(&1).map(|entry| entry.source()), Some(Source::Memory));
    let fetched = |key: &u64| {
        common::block_on(cache.get_or_fetch(key, || async { Ok::<_, BoxError>(2) })).map(|entry| entry.source())
    };
    assert_eq!((fetched(&2).unwrap(), fetched(&2).unwrap()), (Source::Outer, Source::Memory));
    let piece = cache.insert(3, 3).piece();
    cache.remove(&3);
    let fetch = || async { Ok::<_, BoxError>(piece) };
    assert_eq!(common::block_on(cache.get_or_fetch(&3, fetch)).map(|entry| *entry).unwrap(), 3);
}

#[test]
fn each_parameter_reaches_its_policy() {
    let lfu = |window, protected, eps| {
        let lfu = LfuConfig {
            window_capacity_ratio: window,
            protected_capacity_ratio: protected,
            cmsketch_eps: eps,
            ..LfuConfig::default()
        };
        EvictionConfig::from(lfu)
    };
    let s3fifo = |small, ghost, threshold| {
        EvictionConfig::from(S3FifoConfig {
            small_queue_capacity_ratio: small,
            ghost_queue_capacity_ratio: ghost,
            small_to_main_freq_threshold: threshold,
        })
    };
    // What is resident after many gets of few keys and some of many.
    let resident = |config: EvictionConfig| {
        let cache: Cache<u64, u64, ModHasher> = CacheBuilder::new(60)
            .with_shards(1)
            .with_eviction_config(config)
            .with_hash_builder(ModHasher::default())
            .build();
        let mut random = common::Random::new(3);
        for _ in 0..3000 {
            let most = 1 + random.below(300);
            let key = random.below(most);
            if cache.get(&key).is_none() {
                cache.put(key, key);
            }
        }
        cache.keys()
    };
    assert_eq!(resident(lfu(0.1, 0.8, 0.001)), resident(LfuConfig::default().into()));
    assert_eq!(resident(s3fifo(0.1, 1.0, 1)), resident(S3FifoConfig::default().into()));
    for (one, others) in [
        (lfu(0.1, 0.8, 0.001), vec![lfu(0.15, 0.8, 0.001), lfu(0.1, 0.4, 0.001), lfu(0.1, 0.8, 0.5)]),
        (s3fifo(0.1, 1.0, 1), vec![s3fifo(0.5, 1.0, 1), s3fifo(0.1, 0.1, 1), s3fifo(0.1, 1.0, 3)]),
    ] {
        let plain = resident(one);
        for other in others {
            assert_ne!(resident(other.clone()), plain, "{other:?}");
        }
    }
}

#[derive(Clone, Debug, Default)]
struct Placed(Option<Location>);

impl Properties for Placed {
    fn with_phantom(self, _: bool) -> Self {
        self
    }

    fn phantom(&self) -> Option<bool> {
        None
    }

    fn with_hint(self, _: Hint) -> Self {
        self
    }

    fn hint(&self) -> Option<Hint> {
        None
    }

    fn with_location(self, location: Location) -> Self {
        Placed(Some(location))
    }

    fn location(&self) -> Option<Location> {
        self.0
    }

    fn with_age(self, _: Age) -> Self {
        self
    }

    fn age(&self) -> Option<Age> {
        None
    }
}

#[test]
fn a_record_that_is_to_be_on_disk_alone_is_not_kept_in_memory() {
    let cache: Cache<u64, u64, _, Placed> = CacheBuilder::new(10).build();
    for (key, location, is_kept) in
        [(1, Location::Default, true), (2, Location::InMem, true), (3, Location::OnDisk, false)]
    {
        let entry = cache.insert_with_properties(key, key, Placed::default().with_location(location));
        assert_eq!((*entry, entry.properties().location(), cache.contains(&key)), (key, Some(location), is_kept));
    }
    cache.put(4, 4);
    assert!(cache.contains(&4) && cache.entries() == 3);
}
