//! Fetches as tasks of tokio's runtime.

use luffapricot::*;
use std::sync::Arc;
use std::sync::atomic::{AtomicUsize, Ordering::SeqCst};
use std::time::Duration;

#[tokio::test(flavor = "multi_thread", worker_threads = 4)]
async fn a_thousand_tasks_fetch_each_of_a_hundred_keys_once() {
    for policy in ["fifo", "lru", "lfu", "s3fifo", "sieve"] {
        let cache: Cache<u64, String> = CacheBuilder::new(1000).with_eviction_config(policy.parse::<EvictionConfig>().unwrap()).build();
        let fetches = Arc::new(AtomicUsize::new(0));
        let tasks: Vec<_> = (0..1000u64)
            .map(|task| {
                let (cache, fetches) = (cache.clone(), Arc::clone(&fetches));
                tokio::spawn(async move {
                    let key = task % 100;
                    let fetch = || async move {
                        fetches.fetch_add(1, SeqCst);
                        tokio::time::sleep(Duration::from_millis(1)).await;
                        Ok::<_, BoxError>(format!("page {key}"))
                    };
                    let entry = cache.get_or_fetch(&key, fetch).await.unwrap();
                    assert_eq!(*entry, format!("page {key}"));
                })
            })
            .collect();
        for task in tasks {
            task.await.unwrap();
        }
        assert_eq!((fetches.load(SeqCst), cache.entries()), (100, 100));
    }
}

#[tokio::test]
async fn the_first_caller_may_go() {
    let cache: Cache<u64, u64> = Cache::<u64, u64>::builder(10).build();
    let fetch = |value: u64| {
        cache.get_or_fetch(&1, move || async move {
            tokio::time::sleep(Duration::from_millis(5)).await;
            Ok::<_, BoxError>(value)
        })
    };
    let (first, second) = (fetch(1), fetch(2));
    assert!(first.need_await() && second.need_await());
    drop(first);
    assert_eq!(*second.await.unwrap(), 1);
    drop(fetch(3));
    assert_eq!(*cache.get(&1).unwrap(), 1);
}

#[tokio::test]
async fn a_fetch_that_panics_is_an_error_for_all() {
    let cache: Cache<u64, u64> = Cache::<u64, u64>::builder(10).build();
    let fetch = || {
        cache.get_or_fetch(&1, || async {
            tokio::task::yield_now().await;
            let pages: Vec<u64> = Vec::new();
            Ok::<_, BoxError>(pages.into_iter().next().expect("no page"))
        })
    };
    let (first, second) = (fetch(), fetch());
    for wait in [first, second] {
        let error = wait.await.unwrap_err();
        assert_eq!((error.number(), error.to_string().as_str()), (11, "the fetch failed: it panicked: no page"));
    }
}
