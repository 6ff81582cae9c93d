//! Calls of which one request for memory is refused, each in turn, and how many requests an insert makes.

use luffapricot::*;
use std::alloc::{GlobalAlloc, Layout, System};
use std::cell::Cell;
use std::collections::HashMap;
use std::sync::atomic::{AtomicI64, Ordering::SeqCst};
use std::sync::{Arc, Mutex};

/// The system's allocator, which refuses the request to which `LEFT` counts down, in its thread.
struct Refusing;

thread_local! {
    static LEFT: Cell<u64> = const { Cell::new(u64::MAX) };
}

fn is_refused() -> bool {
    let left = LEFT.get();
    if left != u64::MAX {
        LEFT.set(left.wrapping_sub(1));
    }
    left == 0
}

// SAFETY: it is the system's allocator, or refuses.
unsafe impl GlobalAlloc for Refusing {
    unsafe fn alloc(&self, layout: Layout) -> *mut u8 {
        if is_refused() { std::ptr::null_mut() } else { unsafe { System.alloc(layout) } }
    }

    unsafe fn dealloc(&self, block: *mut u8, layout: Layout) {
        unsafe { System.dealloc(block, layout) }
    }

    unsafe fn realloc(&self, block: *mut u8, layout: Layout, size: usize) -> *mut u8 {
        if is_refused() { std::ptr::null_mut() } else { unsafe { System.realloc(block, layout, size) } }
    }
}

#[global_allocator]
static ALLOCATOR: Refusing = Refusing;

// Calls with the request after `n` others refused. Returns whether there was one.
fn refusing<T>(n: u64, call: impl FnOnce() -> T) -> (T, bool) {
    LEFT.set(n);
    let result = call();
    let left = LEFT.replace(u64::MAX);
    (result, left == u64::MAX)
}

// Calls, and returns how many requests that made.
fn requests<T>(call: impl FnOnce() -> T) -> (T, u64) {
    const FROM: u64 = u64::MAX - 1;
    LEFT.set(FROM);
    let result = call();
    (result, FROM - LEFT.replace(u64::MAX))
}

static LIVE: AtomicI64 = AtomicI64::new(0);
// Tests that count what lives run one after the other.
static ALONE: Mutex<()> = Mutex::new(());

struct Page(u64);

impl Page {
    fn new(serial: u64) -> Page {
        LIVE.fetch_add(1, SeqCst);
        Page(serial)
    }
}

impl Drop for Page {
    fn drop(&mut self) {
        LIVE.fetch_sub(1, SeqCst);
    }
}

fn policies() -> [EvictionConfig; 5] {
    ["fifo", "lru", "lfu", "s3fifo", "sieve"].map(|name| name.parse().expect("a policy"))
}

type Told = Arc<Mutex<HashMap<u64, u32>>>;

fn builder(policy: EvictionConfig, told: &Told) -> CacheBuilder<u64, Page> {
    let told = Arc::clone(told);
    CacheBuilder::new(24)
        .with_shards(2)
        .with_eviction_config(policy)
        .with_weighter(|key: &u64, _: &Page| 1 + (key % 3) as usize)
        // What it takes itself isn't refused.
        .with_listener(move |_, _: &u64, page: &Page| {
            let left = LEFT.replace(u64::MAX);
            *told.lock().unwrap().entry(page.0).or_default() += 1;
            LEFT.set(left);
        })
}

fn check(cache: &Cache<u64, Page>, told: &Told) {
    let (mut usage, mut entries) = (0, 0);
    cache.for_each(|key, page| {
        (usage, entries) = (usage + 1 + (key % 3) as usize, entries + 1);
        assert!(!told.lock().unwrap().contains_key(&page.0), "{} is in, and was told", page.0);
    });
    assert_eq!((cache.usage(), cache.entries()), (usage, entries));
}

#[test]
fn a_builder_fails_with_f7_if_memory_is_refused() {
    let _alone = ALONE.lock().unwrap();
    for policy in policies() {
        let told = Told::default();
        for n in 0.. {
            let builder = builder(policy.clone(), &told);
            let (built, is_refused) = refusing(n, || builder.try_build::<CacheProperties>());
            assert_eq!(built.err().map(|error| error.number()), is_refused.then_some(7), "{policy:?} {n}");
            if !is_refused {
                assert!(n > 5);
                break;
            }
        }
    }
}

// Runs calls, each again with each of its requests refused before.
fn run(policy: EvictionConfig) -> u64 {
    let told = Told::default();
    let cache: Cache<u64, Page> = builder(policy, &told).build();
    let (mut serial, mut refusals, mut kept) = (0, 0, Vec::new());
    for step in 0..300u64 {
        let key = step * 7 % 41;
        for n in 0.. {
            serial += 1;
            let page = Page::new(serial);
            let before = told.lock().unwrap().len();
            let (result, is_refused) = match step % 7 {
                5 => {
                    let seen = kept.iter().rfind(|entry: &&CacheEntry<u64, Page>| *entry.key() == key);
                    let replaced = refusing(n, || cache.try_replace_if(seen, key, page, CacheProperties::default()));
                    (
                        replaced.0.map(|replaced| {
                            matches!(replaced, Replaced::Inserted(_)).then(|| cache.get(&key)).flatten()
                        }),
                        replaced.1,
                    )
                }
                6 => refusing(n, || cache.try_insert_if_fits(key, page, CacheProperties::default())),
                0..3 => refusing(n, || cache.try_insert(key, page, CacheProperties::default()).map(Some)),
                3 => refusing(n, || cache.get_or_try_insert_with(&(key + 100), || Ok::<_, BoxError>(page)).map(Some)),
                _ => {
                    let capacity = if step % 10 == 4 { 9 } else { 24 };
                    refusing(n, || cache.resize(capacity).map(|()| None))
                }
            };
            match result {
                Ok(entry) => kept.extend(entry.filter(|_| step % 6 == 0)),
                Err(error) => {
                    assert!(is_refused, "F{} and nothing was refused", error.number());
                    assert_eq!(error.number(), 7);
                }
            }
            check(&cache, &told);
            assert!(told.lock().unwrap().len() >= before);
            refusals += u64::from(is_refused);
            if !is_refused {
                break;
            }
        }
        if step % 37 == 0 {
            kept.clear();
        }
    }
    drop((kept, cache));
    for (serial, times) in told.lock().unwrap().iter() {
        assert_eq!(*times, 1, "record {serial}");
    }
    refusals
}

#[test]
fn a_call_fails_with_f7_and_the_cache_stays_whole_if_memory_is_refused() {
    let _alone = ALONE.lock().unwrap();
    for policy in policies() {
        let refusals = run(policy);
        assert!(refusals > 300, "{refusals}");
        assert_eq!(LIVE.load(SeqCst), 0, "pages leak or were dropped twice");
    }
}

// Once the tables have their size. Every third insert replaces.
#[test]
fn an_insert_of_a_string_key_allocates_its_record_alone() {
    let key = |n: u64| format!("key {}", if n % 3 == 0 { n - 1 } else { n });
    for policy in policies() {
        let cache: Cache<String, u64> =
            CacheBuilder::new(100).with_shards(2).with_eviction_config(policy.clone()).build();
        for n in 1..22_000 {
            let own = key(n);
            let ((), made) = match n % 2 {
                0 => requests(|| cache.put(own, n)),
                _ => requests(|| drop(cache.insert(own, n))),
            };
            assert!(n < 20_000 || made == 1, "{policy:?} {n} {made}");
        }
    }
}
