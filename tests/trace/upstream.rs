//! upstream POLICY CAPACITY SHARDS one|size: replays `key size` lines of standard input over foyer-memory itself, by
//! get-else-insert, and prints the hits. The hash of a key is its number mixed by splitmix64's finalizer, as foyer-trace
//! mixes keys. `upstream.py` runs it.

use std::{env, io::BufRead};

use foyer_common::hasher::ModHasher;
use foyer_memory::{
    Cache, CacheBuilder, CacheProperties, EvictionConfig, FifoConfig, LfuConfig, LruConfig, S3FifoConfig, SieveConfig,
};

fn mix(number: u64) -> u64 {
    let first = (number ^ (number >> 30)).wrapping_mul(0xBF58476D1CE4E5B9);
    let second = (first ^ (first >> 27)).wrapping_mul(0x94D049BB133111EB);
    second ^ (second >> 31)
}

fn config(policy: &str) -> EvictionConfig {
    match policy {
        "fifo" => FifoConfig::default().into(),
        "lru" => LruConfig::default().into(),
        "lfu" => LfuConfig::default().into(),
        "s3fifo" => S3FifoConfig::default().into(),
        _ => SieveConfig.into(),
    }
}

fn main() {
    let words: Vec<String> = env::args().skip(1).collect();
    let [policy, capacity, shards, weigh] = words.as_slice() else {
        panic!("usage: upstream POLICY CAPACITY SHARDS one|size");
    };
    let weighs_sizes = weigh == "size";
    let cache: Cache<u64, usize, ModHasher, CacheProperties> = CacheBuilder::new(capacity.parse().unwrap())
        .with_shards(shards.parse().unwrap())
        .with_eviction_config(config(policy))
        .with_hash_builder(ModHasher::default())
        .with_weighter(move |_: &u64, size: &usize| if weighs_sizes { *size } else { 1 })
        .build();
    let mut hits = 0u64;
    for line in std::io::stdin().lock().lines().map(Result::unwrap) {
        let (key, size) = line.split_once(' ').unwrap();
        let key = mix(key.parse().unwrap());
        match cache.get(&key) {
            Some(_) => hits += 1,
            None => drop(cache.insert(key, size.parse().unwrap())),
        }
    }
    println!("{hits}");
}
