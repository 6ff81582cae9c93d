//! Eight threads over one cache.

mod common;

use common::{Random, block_on, policies};
use luffapricot::*;
use std::sync::Arc;
use std::sync::atomic::{AtomicU64, Ordering::SeqCst};

// A value that says which key it is of.
#[derive(Clone)]
struct Page {
    key: String,
    serial: u64,
    sum: u64,
}

fn sum(key: &str, serial: u64) -> u64 {
    key.bytes().fold(serial, |sum, byte| sum.rotate_left(9).wrapping_mul(0x9e37_79b9_7f4a_7c15) ^ u64::from(byte))
}

impl Page {
    fn new(key: &str, serial: u64) -> Page {
        Page { key: key.to_owned(), serial, sum: sum(key, serial) }
    }

    fn check(&self, key: &str) {
        assert_eq!((self.key.as_str(), self.sum), (key, sum(key, self.serial)));
    }
}

// Counts of records, and the sums of their serials.
#[derive(Default)]
struct Flow {
    came: AtomicU64,
    came_sum: AtomicU64,
    left: AtomicU64,
    left_sum: AtomicU64,
}

impl Flow {
    fn come(&self, serial: u64) {
        self.came.fetch_add(1, SeqCst);
        self.came_sum.fetch_add(serial, SeqCst);
    }
}

fn work(cache: &Cache<String, Page>, flow: &Flow, serials: &AtomicU64, seed: u64) {
    let mut random = Random::new(seed);
    let mut held = Vec::new();
    // Under valgrind `STEPS` says how many calls each thread makes.
    let steps = std::env::var("STEPS").map_or(4000, |steps| steps.parse().expect("a number"));
    for step in 0..steps {
        let key = format!("page-{}", random.below(300));
        let page = || {
            let serial = serials.fetch_add(1, SeqCst);
            flow.come(serial);
            Page::new(&key, serial)
        };
        match random.below(100) {
            0..30 => cache.insert(key.clone(), page()).check(&key),
            30..60 => {
                if let Some(entry) = cache.get(key.as_str()) {
                    entry.check(&key);
                    held.push(entry);
                }
            }
            60..70 => {
                if let Some(entry) = cache.remove(key.as_str()) {
                    entry.check(&key);
                    assert!(entry.is_outdated());
                }
            }
            70..85 => {
                let serial = serials.fetch_add(1, SeqCst);
                let entry = cache.get_or_insert_with(key.as_str(), || Page::new(&key, serial));
                entry.check(&key);
                // Or another page was made or inserted meanwhile.
                if entry.serial == serial {
                    flow.come(serial);
                }
            }
            85..90 => {
                let (serial, own) = (serials.fetch_add(1, SeqCst), key.clone());
                let fetch = move || async move { Ok::<_, BoxError>(Page::new(&own, serial)) };
                let entry = block_on(cache.get_or_fetch(key.as_str(), fetch)).unwrap();
                entry.check(&key);
                if entry.serial == serial {
                    flow.come(serial);
                }
            }
            90..92 => {
                let (seen, serial) = (cache.get(key.as_str()), serials.fetch_add(1, SeqCst));
                match cache.replace_if(seen.as_ref(), key.clone(), Page::new(&key, serial)) {
                    Replaced::Inserted(entry) => {
                        entry.check(&key);
                        flow.come(serial);
                    }
                    Replaced::Changed(found) => drop(found.map(|entry| entry.check(&key))),
                }
            }
            92..94 => {
                let serial = serials.fetch_add(1, SeqCst);
                if let Some(entry) = cache.insert_if_fits(key.clone(), Page::new(&key, serial)) {
                    entry.check(&key);
                    flow.come(serial);
                }
            }
            94..96 => drop(held.pop().map(|entry| cache.remove_this(&entry))),
            96..98 => held.truncate(random.below(20) as usize),
            _ => match step % 7 {
                0 => cache.clear(),
                1 => cache.resize(50 + random.below(100) as usize).unwrap(),
                2 => cache.retain(|_, page| page.serial % 3 != 0),
                3 => block_on(cache.flush()),
                4 => block_on(cache.flush_if(|_, page| page.serial % 2 == 0)),
                5 => cache.for_each(|key, page| page.check(key)),
                _ => cache.evict_all(),
            },
        }
        for entry in held.iter().rev().take(2) {
            entry.check(entry.key());
        }
    }
}

#[test]
fn what_came_in_left_or_is_in() {
    for policy in policies() {
        let (flow, serials) = (Arc::new(Flow::default()), AtomicU64::new(1));
        let out = Arc::clone(&flow);
        let cache: Cache<String, Page> = CacheBuilder::new(100)
            .with_shards(4)
            .with_eviction_config(policy)
            .with_weighter(|key: &String, _: &Page| key.len() % 3 + 1)
            .with_listener(move |_, key: &String, page: &Page| {
                page.check(key);
                out.left.fetch_add(1, SeqCst);
                out.left_sum.fetch_add(page.serial, SeqCst);
            })
            .build();
        std::thread::scope(|scope| {
            for seed in 0..8 {
                let (cache, flow, serials) = (cache.clone(), &flow, &serials);
                scope.spawn(move || work(&cache, flow, serials, seed));
            }
        });
        let (mut is_in, mut is_in_sum, mut usage) = (0, 0, 0);
        cache.for_each(|key, page| {
            page.check(key);
            (is_in, is_in_sum, usage) = (is_in + 1, is_in_sum + page.serial, usage + key.len() % 3 + 1);
        });
        assert_eq!((cache.entries() as u64, cache.usage()), (is_in, usage));
        assert!(cache.usage() <= cache.capacity());
        assert_eq!(flow.came.load(SeqCst), flow.left.load(SeqCst) + is_in);
        assert_eq!(flow.came_sum.load(SeqCst), flow.left_sum.load(SeqCst) + is_in_sum);
        drop(cache);
        assert_eq!(flow.came_sum.load(SeqCst), flow.left_sum.load(SeqCst));
    }
}

// Adds to the number of a key, which begins as missing.
fn add(cache: &Cache<u64, u64>, key: u64, more: u64) {
    let mut seen = cache.get(&key);
    loop {
        let sum = seen.as_deref().copied().unwrap_or(0) + more;
        match cache.replace_if(seen.as_ref(), key, sum) {
            Replaced::Inserted(_) => return,
            Replaced::Changed(found) => seen = found,
        }
    }
}

#[test]
fn no_change_by_replace_if_is_lost() {
    for policy in policies() {
        let cache: Cache<u64, u64> = CacheBuilder::new(1000).with_shards(3).with_eviction_config(policy).build();
        let steps = std::env::var("STEPS").map_or(3000, |steps| steps.parse().expect("a number"));
        std::thread::scope(|scope| {
            for thread in 0..8 {
                let cache = &cache;
                scope.spawn(move || (0..steps).for_each(|step| add(cache, step % 5, thread + (1 << 40))));
            }
        });
        let sum: u64 = (0..5).map(|key| cache.get_cloned(&key).expect("a sum")).sum();
        assert_eq!(sum, steps * ((0..8).sum::<u64>() + (8 << 40)));
        assert_eq!((cache.stats().inserts, cache.stats().replaced), (8 * steps, 8 * steps - 5));
    }
}

#[test]
fn a_spawner_of_threads_runs_one_fetch_a_key() {
    let fetches = Arc::new(AtomicU64::new(0));
    let cache: Cache<u64, u64> = Cache::<u64, u64>::builder(1000)
        .with_spawner(|task| {
            std::thread::spawn(move || block_on(task));
        })
        .build();
    std::thread::scope(|scope| {
        for thread in 0..8u64 {
            let (cache, fetches) = (&cache, &fetches);
            scope.spawn(move || {
                for key in 0..20 {
                    let counted = Arc::clone(fetches);
                    let fetch = move || async move {
                        common::yield_now().await;
                        counted.fetch_add(1, SeqCst);
                        Ok::<_, BoxError>(key)
                    };
                    let wait = cache.get_or_fetch(&key, fetch);
                    // Half of the callers go: the fetch goes on.
                    if thread % 2 == 0 {
                        assert_eq!(*block_on(wait).unwrap(), key);
                    }
                }
            });
        }
    });
    assert_eq!(fetches.load(SeqCst), 20);
}

#[test]
fn without_a_spawner_the_first_caller_runs_the_fetch() {
    let cache: Cache<u64, u64> = Cache::<u64, u64>::builder(10).build();
    for is_polled in [false, true] {
        let mut first = cache.get_or_fetch(&1, || async {
            common::yield_now().await;
            Ok::<_, BoxError>(1)
        });
        if is_polled {
            assert!(common::poll_once(&mut first).is_pending());
        }
        std::thread::scope(|scope| {
            let others: Vec<_> = (0..4).map(|_| cache.get_or_fetch(&1, || async { Ok::<_, BoxError>(2) })).collect();
            let others: Vec<_> = others.into_iter().map(|wait| scope.spawn(move || block_on(wait))).collect();
            drop(first);
            for other in others {
                assert_eq!(other.join().unwrap().unwrap_err().number(), 15);
            }
        });
        assert!(!cache.contains(&1));
    }
    assert_eq!(*block_on(cache.get_or_fetch(&1, || async { Ok::<_, BoxError>(3) })).unwrap(), 3);
}
