//! Calls at sizes that users have: many shards of which some are empty, thousands of departures and of held entries, times
//! and weights past 2^48. `tests/sizes/run rust` compares random scripts of such sizes with `foyer-sim`.

mod common;

use common::block_on;
use luffapricot::*;
use std::sync::atomic::{AtomicU64, Ordering::SeqCst};
use std::sync::{Arc, Mutex};
use std::time::Duration;

type Left = Vec<(Event, u64)>;
type Numbers = Cache<u64, u64, ModHasher>;

const MANY: u64 = 5000;

/// A cache of numbers, whose hashes they are, with a clock that is set in nanoseconds and a list of what left.
struct Watched {
    cache: Numbers,
    clock: Arc<AtomicU64>,
    left: Arc<Mutex<Left>>,
}

fn nanoseconds(life: u64) -> CacheProperties {
    CacheProperties::default().with_time_to_live(Duration::from_nanos(life))
}

impl Watched {
    fn new(capacity: usize, shards: usize, config: impl Into<EvictionConfig>) -> Self {
        Self::of(CacheBuilder::new(capacity).with_shards(shards).with_eviction_config(config))
    }

    fn of(builder: CacheBuilder<u64, u64>) -> Self {
        let (clock, left) = (Arc::new(AtomicU64::new(0)), Arc::new(Mutex::new(Vec::new())));
        let (time, told) = (Arc::clone(&clock), Arc::clone(&left));
        let cache = builder
            .with_hash_builder(ModHasher::default())
            .with_clock(move || Duration::from_nanos(time.load(SeqCst)))
            .with_listener(move |event, key: &u64, _: &u64| told.lock().unwrap().push((event, *key)))
            .build();
        Watched { cache, clock, left }
    }

    fn at(&self, time: u64) {
        self.clock.store(time, SeqCst);
    }

    fn left(&self) -> Left {
        std::mem::take(&mut *self.left.lock().unwrap())
    }
}

fn all(event: Event, keys: impl IntoIterator<Item = u64>) -> Left {
    keys.into_iter().map(|key| (event, key)).collect()
}

/// Keys in the order of their shards, of which those of even numbers but the last are empty, three a shard.
fn of_odd_shards(shards: u64) -> Vec<u64> {
    let full = (0..shards).filter(|it| it % 2 == 1 || it + 1 == shards);
    full.flat_map(|shard| (1..4).map(move |round| round * shards + shard)).collect()
}

#[test]
fn calls_over_all_shards_come_to_each_though_some_are_empty() {
    for shards in [17, 65, 100, 1000] {
        let keys = of_odd_shards(shards);
        let made = || {
            let it = Watched::new(4 * shards as usize, shards as usize, FifoConfig {});
            it.cache.clear();
            keys.iter().rev().for_each(|key| it.cache.put(*key, 7 * key));
            assert_eq!((it.cache.entries(), it.cache.usage(), it.left()), (keys.len(), keys.len(), vec![]));
            it
        };
        // In each shard the last key was put first.
        let ordered: Vec<u64> = keys.chunks(3).flat_map(|chunk| chunk.iter().rev().copied()).collect();

        let it = made();
        assert_eq!(it.cache.keys(), ordered);
        let mut seen = Vec::new();
        it.cache.for_each(|key, value| seen.push((*key, *value)));
        assert_eq!(seen, ordered.iter().map(|key| (*key, 7 * key)).collect::<Vec<_>>());
        keys.iter().for_each(|key| assert_eq!(it.cache.get_cloned(key), Some(7 * key)));
        let stats = it.cache.stats();
        assert_eq!((stats.inserts, stats.hits, stats.misses), (keys.len() as u64, keys.len() as u64, 0));
        it.cache.reset_stats();
        assert_eq!(it.cache.stats(), Stats::default());

        it.cache.retain(|key, _| key / shards == 2);
        let (kept, gone): (Vec<u64>, Vec<u64>) = ordered.iter().partition(|key| **key / shards == 2);
        assert_eq!((it.left(), it.cache.keys()), (all(Event::Remove, gone), kept.clone()));
        it.cache.clear();
        assert_eq!((it.left(), it.cache.entries(), it.cache.usage()), (all(Event::Clear, kept), 0, 0));

        let it = made();
        it.cache.evict_all();
        assert_eq!((it.left(), it.cache.entries()), (all(Event::Evict, ordered.clone()), 0));

        let it = made();
        it.cache.resize(shards as usize).unwrap();
        let (kept, gone): (Vec<u64>, Vec<u64>) = ordered.iter().partition(|key| **key / shards == 1);
        assert_eq!(
            (it.left(), it.cache.keys(), it.cache.capacity()),
            (all(Event::Evict, gone), kept.clone(), shards as usize)
        );
        block_on(it.cache.flush_if(|key, _| (key + 1) % shards == 0));
        let last = 2 * shards - 1;
        assert_eq!(it.left(), all(Event::Evict, [last]));
        block_on(it.cache.flush());
        assert_eq!(it.left(), all(Event::Evict, kept.into_iter().filter(|key| *key != last)));

        let Watched { cache, left, .. } = made();
        let owner = cache.clone();
        drop(cache);
        assert_eq!(owner.entries(), keys.len());
        drop(owner);
        assert_eq!(*left.lock().unwrap(), all(Event::Clear, ordered.clone()));
    }
}

#[test]
fn each_shard_is_reconfigured() {
    for shards in [17, 65, 100, 1000] {
        let it = Watched::new(4 * shards as usize, shards as usize, LruConfig { high_priority_pool_ratio: 1.0 });
        for key in of_odd_shards(shards) {
            it.cache.put(key, key);
        }
        // Without a pool a record of low priority no longer leaves first.
        it.cache.reconfigure(LruConfig { high_priority_pool_ratio: 0.0 }).unwrap();
        let full: Vec<u64> = of_odd_shards(shards).chunks(3).map(|chunk| chunk[0]).collect();
        for key in &full {
            it.cache.put_with_properties(key + 3 * shards, 0, CacheProperties::default().with_hint(Hint::Low));
            it.cache.put(key + 4 * shards, 0);
        }
        assert_eq!(it.left(), all(Event::Evict, full));
    }
}

#[test]
fn one_call_tells_of_thousands_that_left() {
    let capacity = 2 * MANY as usize;
    let tells = |call: fn(&Numbers), event| {
        let it = Watched::new(capacity, 1, FifoConfig {});
        (0..MANY).for_each(|key| it.cache.put(key, key));
        call(&it.cache);
        assert_eq!((it.left(), it.cache.entries(), it.cache.usage()), (all(event, 0..MANY), 0, 0));
    };
    tells(|cache| cache.clear(), Event::Clear);
    tells(|cache| cache.resize(0).unwrap(), Event::Evict);
    tells(|cache| cache.evict_all(), Event::Evict);
    tells(|cache| cache.retain(|_, _| false), Event::Remove);
    let heavy = CacheBuilder::new(capacity).with_shards(1).with_eviction_config(FifoConfig {});
    let it = Watched::of(heavy.with_weighter(|_, value| *value as usize));
    (0..MANY).for_each(|key| it.cache.put(key, 1));
    it.cache.put(MANY, capacity as u64);
    assert_eq!((it.left(), it.cache.keys()), (all(Event::Evict, 0..MANY), vec![MANY]));
}

#[test]
fn more_records_than_16_bits_count() {
    let count = 70_000;
    let it = Watched::new(2 * count as usize, 1, FifoConfig {});
    (0..count).for_each(|key| it.cache.put(key, key));
    assert_eq!((it.cache.entries(), it.cache.usage()), (count as usize, count as usize));
    assert_eq!(it.cache.keys(), (0..count).collect::<Vec<_>>());
    (0..count).for_each(|key| assert!(it.cache.touch(&key)));
    assert_eq!((it.cache.stats().inserts, it.cache.stats().hits), (count, count));
    it.cache.clear();
    assert_eq!(it.left(), all(Event::Clear, 0..count));
}

#[test]
fn thousands_of_entries_are_held_while_calls_run() {
    let it = Watched::new(MANY as usize, 17, LruConfig::default());
    (0..MANY).for_each(|key| it.cache.put(key, 7 * key));
    let resident = it.cache.keys();
    it.left();
    let held: Vec<_> = resident.iter().map(|key| it.cache.get(key).unwrap()).collect();
    let clones = held.clone();
    assert!(held.iter().all(|entry| entry.refs() == 2));
    it.cache.evict_all();
    it.cache.resize(0).unwrap();
    assert_eq!((it.left(), it.cache.entries()), (vec![], resident.len()));
    drop(clones);
    assert!(held.iter().all(|entry| entry.refs() == 1 && !entry.is_outdated()));
    let (kept, given): (Vec<_>, Vec<_>) = held.into_iter().partition(|entry| entry.key() % 2 == 0);
    drop(given);
    it.cache.evict_all();
    let odd: Vec<u64> = resident.iter().filter(|key| *key % 2 == 1).copied().collect();
    assert_eq!((it.left(), it.cache.entries()), (all(Event::Evict, odd), kept.len()));
    it.cache.clear();
    assert!(kept.iter().all(|entry| entry.is_outdated() && **entry == 7 * entry.key()));
    let one = it.cache.insert(1, 1);
    let handles: Vec<_> = (0..MANY).map(|_| one.clone()).collect();
    assert_eq!(one.refs(), handles.len() + 1);
    drop(handles);
    assert_eq!(one.refs(), 1);
}

#[test]
fn thousands_wait_for_one_fetch_and_each_is_counted() {
    let it = Watched::new(100, 17, LruConfig::default());
    let waits: Vec<_> = (0..MANY).map(|_| it.cache.get_or_fetch(&1, || async { Ok::<_, Error>(7) })).collect();
    let entries: Vec<_> = waits.into_iter().map(|wait| block_on(wait).unwrap()).collect();
    assert!(entries.iter().all(|entry| **entry == 7 && entry.refs() == entries.len()));
    let stats = it.cache.stats();
    let wanted = Stats { misses: MANY, inserts: 1, fetches: 1, waits: MANY - 1, ..Stats::default() };
    assert_eq!(stats, wanted);
}

#[test]
fn times_past_2_to_the_48_expire_in_look_ups_and_in_calls_over_all_shards() {
    for start in [1 << 32, 1 << 48, 1 << 53, 1 << 63, u64::MAX - 100] {
        let it = Watched::new(300, 3, FifoConfig {});
        it.at(start);
        (0..6).for_each(|key| it.cache.put(key, key));
        (6..9).for_each(|key| it.cache.put_with_properties(key, key, nanoseconds(50)));
        it.at(start + 49);
        assert!(it.cache.contains(&6) && it.cache.touch(&7) && it.cache.get(&8).is_some());
        it.at(start + 50);
        assert!(!it.cache.contains(&6) && !it.cache.touch(&7) && it.cache.get(&8).is_none());
        assert!(it.cache.read(&6, |_| ()).is_none() && it.cache.peek(&7, |_| ()).is_none() && it.cache.contains(&0));
        assert_eq!(*it.cache.get_or_insert_with(&6, || 60), 60);
        it.left();
        // What has expired leaves first.
        it.cache.resize(6).unwrap();
        assert_eq!(it.left(), all(Event::Evict, [0, 7, 8]));
        it.cache.put_with_properties(7, 7, nanoseconds(10));
        it.at(start + 60);
        it.left();
        it.cache.evict_all();
        assert_eq!(it.left(), all(Event::Evict, [3, 6, 7, 4, 2, 5]));
    }
}

#[test]
fn the_longest_life_is_for_ever() {
    let forever = CacheProperties::default().with_time_to_live(Duration::MAX);
    let shorter = CacheProperties::default().with_time_to_live(Duration::from_secs(1));
    assert_eq!(Properties::time_to_live(&shorter), Some(Duration::from_secs(1)));
    for life in [Duration::MAX, Duration::from_secs(1 << 55), Duration::from_nanos(u64::MAX)] {
        let it = Watched::of(CacheBuilder::new(100).with_time_to_live(life));
        it.at(1 << 50);
        it.cache.put(1, 1);
        it.cache.put_with_properties(2, 2, forever.clone());
        it.cache.put_with_properties(3, 3, shorter.clone());
        it.cache.get_or_insert_with(&4, || 4);
        block_on(it.cache.get_or_fetch(&5, || async { Ok::<_, Error>(5) })).unwrap();
        for time in [1 << 63, u64::MAX - 1, u64::MAX] {
            it.at(time);
            assert_eq!(
                [1, 2, 3, 4, 5].map(|key| it.cache.contains(&key)),
                [true, true, false, true, true],
                "{life:?} at {time}"
            );
        }
    }
}

#[test]
fn a_record_of_low_priority_has_a_life_too() {
    for (hint_first, life) in [(true, 1 << 40), (false, 1 << 40)] {
        let it = Watched::new(3, 1, LruConfig::default());
        let time = Duration::from_nanos(life);
        let low = match hint_first {
            true => CacheProperties::default().with_hint(Hint::Low).with_time_to_live(time),
            false => CacheProperties::default().with_time_to_live(time).with_hint(Hint::Low),
        };
        assert_eq!((low.hint(), Properties::time_to_live(&low)), (Hint::Low, Some(time)));
        it.cache.put(1, 1);
        it.cache.put(2, 2);
        it.cache.put_with_properties(3, 3, low.clone());
        it.cache.put(4, 4);
        assert_eq!(it.left(), all(Event::Evict, [3]));
        it.cache.resize(4).unwrap();
        it.cache.put_with_properties(3, 3, low);
        it.at(life - 1);
        assert!(it.cache.contains(&3));
        it.at(life);
        assert!(!it.cache.contains(&3) && it.cache.contains(&1));
    }
    // It keeps its priority with another life.
    let it = Watched::new(4, 1, LruConfig::default());
    it.cache.put_with_properties(1, 1, CacheProperties::default().with_hint(Hint::Low));
    (2..4).for_each(|key| it.cache.put(key, key));
    assert!(it.cache.set_time_to_live(&1, Some(Duration::MAX)));
    (4..6).for_each(|key| it.cache.put(key, key));
    assert_eq!(it.left(), [(Event::Replace, 1), (Event::Evict, 1)]);
}

#[test]
fn each_insert_gives_a_record_its_priority_and_its_life_which_ends_for_all_owners() {
    type Call = fn(&Numbers, CacheProperties);
    let inserts: [Call; 6] = [
        |it, low| drop(it.insert_with_properties(3, 3, low)),
        |it, low| it.put_with_properties(3, 3, low),
        |it, low| drop(it.try_insert_if_fits(3, 3, low)),
        |it, low| drop(it.try_replace_if(None, 3, 3, low)),
        |it, low| drop(it.get_or_try_insert_with_properties(&3, || Ok((3, low)))),
        |it, low| {
            let fetch = || async { Ok::<_, Error>(FetchTarget::Entry { value: 3, properties: low }) };
            drop(block_on(it.get_or_fetch(&3, fetch)));
        },
    ];
    let life = 1 << 40;
    for (at, insert) in inserts.iter().enumerate() {
        let it = Watched::new(3, 1, LruConfig::default());
        let owner = it.cache.clone();
        (1..3).for_each(|key| it.cache.put(key, key));
        insert(&it.cache, nanoseconds(life).with_hint(Hint::Low));
        for (time, is_there) in [(life - 1, true), (life, false), (0, true)] {
            it.at(time);
            assert_eq!([1, 3].map(|key| owner.contains(&key)), [true, is_there], "{at} at {time}");
        }
        it.cache.put(4, 4);
        assert_eq!(it.left(), all(Event::Evict, [3]), "{at}");
    }
}

#[test]
fn records_that_weigh_nothing_evict_nothing() {
    let builder = CacheBuilder::new(10).with_shards(1).with_eviction_config(FifoConfig {});
    let it = Watched::of(builder.with_weighter(|_, value| *value as usize));
    (0..10).for_each(|key| it.cache.put(key, 1));
    (10..MANY).for_each(|key| it.cache.put(key, 0));
    assert_eq!((it.left(), it.cache.entries(), it.cache.usage()), (vec![], MANY as usize, 10));
    assert_eq!((it.cache.get(&10).unwrap().weight(), it.cache.get(&9).unwrap().weight()), (0, 1));
    it.cache.put(MANY, 1 << 40);
    assert_eq!(it.left(), all(Event::Evict, 0..10));
    it.cache.resize((1 << 40) + 5).unwrap();
    it.cache.put(0, 5);
    assert_eq!((it.left(), it.cache.usage(), it.cache.capacity()), (vec![], (1 << 40) + 5, (1 << 40) + 5));
    it.cache.put(1, 1);
    let left: Vec<_> = it.left().into_iter().filter(|it| it.1 == MANY || it.1 < 10).collect();
    assert_eq!(left, all(Event::Evict, [MANY]));
}

#[test]
fn a_life_begins_with_the_call_or_if_the_value_brings_it_with_the_value() {
    let start = 1 << 48;
    let it = Watched::of(CacheBuilder::new(100).with_time_to_live(Duration::from_nanos(100)));
    it.at(start);
    let clock = Arc::clone(&it.clock);
    it.cache.get_or_insert_with(&1, || clock.fetch_add(40, SeqCst));
    let made = it.cache.get_or_try_insert_with_properties(&2, || {
        clock.fetch_add(40, SeqCst);
        Ok((2, nanoseconds(100)))
    });
    drop(made.unwrap());
    let later = Arc::clone(&it.clock);
    let fetch = || async move {
        later.fetch_add(10, SeqCst);
        Ok::<_, Error>(FetchTarget::Entry { value: 3, properties: nanoseconds(100) })
    };
    block_on(it.cache.get_or_fetch(&3, fetch)).unwrap();
    let second = (100, [false, true, true]);
    let third = (180, [false, false, true]);
    for (time, found) in [(99, [true; 3]), second, (179, second.1), third, (189, third.1), (190, [false; 3])] {
        it.at(start + time);
        assert_eq!([1, 2, 3].map(|key| it.cache.contains(&key)), found, "at {time}");
    }
}

#[test]
fn a_part_of_a_third_is_a_third() {
    let it = Watched::new(3, 1, LruConfig { high_priority_pool_ratio: 1.0 / 3.0 });
    it.cache.put(1, 1);
    (2..4).for_each(|key| it.cache.put_with_properties(key, key, CacheProperties::default().with_hint(Hint::Low)));
    it.cache.put(4, 4);
    assert_eq!(it.left(), all(Event::Evict, [2]));
}

#[test]
fn a_fetch_or_maker_that_began_before_anything_expired_evicts_what_has_expired_first() {
    let made = || {
        let it = Watched::new(2, 1, FifoConfig {});
        it.at(1 << 40);
        it
    };
    let fill = |it: &Watched| {
        it.cache.put(1, 1);
        it.cache.put_with_properties(2, 2, nanoseconds(0));
    };
    let it = made();
    let look = it.cache.get_or_fetch(&3, || async { Ok::<_, Error>(3) });
    fill(&it);
    block_on(look).unwrap();
    assert_eq!(it.left(), all(Event::Evict, [2]));
    let it = made();
    it.cache.get_or_insert_with(&3, || {
        fill(&it);
        3
    });
    assert_eq!(it.left(), all(Event::Evict, [2]));
}

#[test]
fn each_insert_and_flush_evicts_what_has_expired_first() {
    type Call = fn(&Watched, Piece<u64, u64, CacheProperties>);
    let inserts: [Call; 6] = [
        |it, _| drop(it.cache.insert(3, 3)),
        |it, _| it.cache.put(3, 3),
        |it, piece| drop(it.cache.insert_piece(piece)),
        |it, _| drop(it.cache.insert_if_fits(3, 3)),
        |it, _| drop(it.cache.replace_if(None, 3, 3)),
        |it, _| drop(block_on(it.cache.get_or_fetch(&3, || async { Ok::<_, Error>(3) }))),
    ];
    for start in [0, 1 << 32, 1 << 48, 1 << 63] {
        let made = || {
            let it = Watched::new(2, 1, FifoConfig {});
            it.at(start);
            it.cache.put(1, 1);
            it.cache.put_with_properties(2, 2, nanoseconds(10));
            it.at(start + 10);
            it
        };
        let other = Watched::new(1, 1, FifoConfig {});
        for (at, insert) in inserts.iter().enumerate() {
            let it = made();
            insert(&it, other.cache.insert(3, 3).piece());
            assert_eq!((it.left(), it.cache.get_cloned(&3)), (all(Event::Evict, [2]), Some(3)), "{at} at {start}");
        }
        let it = made();
        assert!(it.cache.set_time_to_live(&1, Some(Duration::from_nanos(10))));
        assert_eq!(it.left(), [(Event::Evict, 2), (Event::Replace, 1)]);
        let it = made();
        block_on(it.cache.flush());
        assert_eq!(it.left(), all(Event::Evict, [2, 1]));
    }
}

#[test]
fn weights_past_2_to_the_63_are_exact_and_their_sum_is_at_most_the_greatest() {
    let builder = CacheBuilder::new(usize::MAX).with_shards(2).with_eviction_config(FifoConfig {});
    let it = Watched::of(builder.with_weighter(|_, value| *value as usize));
    assert_eq!(it.cache.capacity(), usize::MAX);
    for weight in [1, (1 << 32) + 1, (1 << 62) - 9] {
        it.cache.put(weight << 1, weight);
    }
    assert_eq!((it.cache.usage(), it.left()), ((1 << 62) + (1 << 32) - 7, vec![]));
    let heaviest = it.cache.insert(1, u64::MAX);
    assert_eq!(
        (heaviest.weight(), it.cache.usage(), it.cache.entries(), it.left()),
        (usize::MAX, usize::MAX, 4, vec![])
    );
    let next = it.cache.insert(3, (1 << 63) - 1);
    assert_eq!((next.weight(), it.left()), ((1 << 63) - 1, all(Event::Evict, [1])));
    assert_eq!(it.cache.usage(), (1 << 63) - 1 + (1 << 62) + (1 << 32) - 7);
    it.cache.resize(usize::MAX >> 1).unwrap();
    assert_eq!((it.cache.capacity(), it.cache.usage()), (usize::MAX >> 1, (1 << 62) - 9));
    assert_eq!(it.left(), all(Event::Evict, [2, (1 << 33) + 2, 3]));
}
