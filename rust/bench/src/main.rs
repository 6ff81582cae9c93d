//! Drives this crate and upstream's in turn, in one process and over one trace: for each key a look-up, and on a miss an
//! insert of key and value. Keys are numbers that are their own hashes, or strings of 16 bytes with values of 100 and SipHash.

mod trace;

use std::fmt::Debug;
use std::hash::{BuildHasher, BuildHasherDefault, DefaultHasher, Hash};
use std::sync::Barrier;
use std::time::Instant;
use trace::{Skew, Trace};

const USAGE: &str = "usage: run POLICY CAPACITY SHARDS OPS KEYSPACE SKEW SEED
    [--threads N] [--keys u64|string] [--calls entries|read] [--reps N] [--only ours|upstream] [--lto]";

struct Args {
    policy: String,
    capacity: usize,
    shards: usize,
    ops: usize,
    keyspace: u64,
    skew: Skew,
    seed: u64,
    threads: usize,
    keys: String,
    calls: String,
    reps: usize,
    only: String,
}

fn args() -> Option<Args> {
    let (mut places, mut threads, mut reps) = (vec![], 1, 1);
    let (mut keys, mut calls, mut only) = ("u64".to_owned(), "entries".to_owned(), String::new());
    let mut words = std::env::args().skip(1);
    while let Some(word) = words.next() {
        match word.as_str() {
            "--threads" => threads = words.next()?.parse().ok().filter(|n| *n > 0)?,
            "--keys" => keys = words.next()?,
            "--calls" => calls = words.next()?,
            "--reps" => reps = words.next()?.parse().ok().filter(|n| *n > 0)?,
            "--only" => only = words.next()?,
            _ => places.push(word),
        }
    }
    let [policy, capacity, shards, ops, keyspace, skew, seed] = places.as_slice() else {
        return None;
    };
    Some(Args {
        policy: policy.clone(),
        capacity: capacity.parse().ok()?,
        shards: shards.parse().ok()?,
        ops: ops.parse().ok()?,
        keyspace: keyspace.parse().ok()?,
        skew: Skew::parse(skew)?,
        seed: seed.parse().ok()?,
        threads,
        keys,
        calls,
        reps,
        only,
    })
}

/// A key, with what is kept under it, and what both caches hash it by.
trait Key: Hash + Eq + Clone + Send + Sync + Debug + 'static {
    type Value: Clone + Send + Sync + Debug + 'static;
    type Build: BuildHasher + Default + Send + Sync + Debug + 'static;

    fn value(&self) -> Self::Value;
}

impl Key for u64 {
    type Value = u64;
    type Build = foyer_common::hasher::ModHasher;

    #[inline(always)]
    fn value(&self) -> u64 {
        *self
    }
}

impl Key for String {
    type Value = Vec<u8>;
    type Build = BuildHasherDefault<DefaultHasher>;

    #[inline(always)]
    fn value(&self) -> Vec<u8> {
        vec![self.as_bytes()[15]; 100]
    }
}

/// A cache as the benchmark calls it: whether a key is found, and else an insert of it.
trait Target<K>: Sync {
    fn by_entry(&self, key: &K) -> bool;
    fn by_read(&self, key: &K) -> bool;
}

impl<K: Key> Target<K> for luffapricot::Cache<K, K::Value, K::Build> {
    #[inline(always)]
    fn by_entry(&self, key: &K) -> bool {
        if self.get(key).is_some() {
            return true;
        }
        self.insert(key.clone(), key.value());
        false
    }

    #[inline(always)]
    fn by_read(&self, key: &K) -> bool {
        let seen = self.read(key, |value| {
            std::hint::black_box(value);
        });
        if seen.is_some() {
            return true;
        }
        self.put(key.clone(), key.value());
        false
    }
}

impl<K: Key> Target<K> for foyer_memory::Cache<K, K::Value, K::Build> {
    #[inline(always)]
    fn by_entry(&self, key: &K) -> bool {
        if self.get(key).is_some() {
            return true;
        }
        self.insert(key.clone(), key.value());
        false
    }

    /// Upstream's callers have entries alone.
    #[inline(always)]
    fn by_read(&self, key: &K) -> bool {
        self.by_entry(key)
    }
}

/// Runs all threads, and returns the hits and the nanoseconds of one operation.
fn drive<K: Sync>(args: &Args, target: &impl Target<K>, traces: &[Vec<K>]) -> (usize, f64) {
    let reads = args.calls == "read";
    let run = |trace: &[K]| match reads {
        true => trace.iter().filter(|key| target.by_read(key)).count(),
        false => trace.iter().filter(|key| target.by_entry(key)).count(),
    };
    let each = |start: Instant| start.elapsed().as_nanos() as f64 / (args.ops * args.threads) as f64;
    if let [trace] = traces {
        let start = Instant::now();
        return (run(trace), each(start));
    }
    let barrier = Barrier::new(traces.len() + 1);
    std::thread::scope(|scope| {
        let threads: Vec<_> = traces
            .iter()
            .map(|trace| {
                scope.spawn(|| {
                    barrier.wait();
                    run(trace)
                })
            })
            .collect();
        barrier.wait();
        let start = Instant::now();
        let hits = threads.into_iter().map(|thread| thread.join().expect("a thread")).sum();
        (hits, each(start))
    })
}

fn upstream_config(policy: &str) -> Option<foyer_memory::EvictionConfig> {
    Some(match policy {
        "fifo" => foyer_memory::FifoConfig::default().into(),
        "lru" => foyer_memory::LruConfig::default().into(),
        "lfu" => foyer_memory::LfuConfig::default().into(),
        "s3fifo" => foyer_memory::S3FifoConfig::default().into(),
        "sieve" => foyer_memory::SieveConfig.into(),
        _ => return None,
    })
}

fn bench<K: Key>(args: &Args, traces: &[Vec<K>]) -> Option<()> {
    let upstream = upstream_config(&args.policy)?;
    let ours: luffapricot::EvictionConfig = args.policy.parse().ok()?;
    let mut ratios = Vec::new();
    for rep in 0..args.reps {
        let mut results = [None, None];
        for which in [rep % 2, 1 - rep % 2] {
            let hasher = K::Build::default();
            if which == 0 && args.only != "upstream" {
                let builder = luffapricot::CacheBuilder::new(args.capacity).with_shards(args.shards);
                let cache: luffapricot::Cache<K, K::Value, _> = builder.with_eviction_config(ours.clone()).with_hash_builder(hasher).build();
                results[0] = Some(drive(args, &cache, traces));
            } else if which == 1 && args.only != "ours" {
                let builder = foyer_memory::CacheBuilder::new(args.capacity).with_shards(args.shards);
                let cache: foyer_memory::Cache<K, K::Value, _> =
                    builder.with_eviction_config(upstream.clone()).with_hash_builder(hasher).build();
                results[1] = Some(drive(args, &cache, traces));
            }
        }
        if let [Some((hits, own)), Some((others, theirs))] = results {
            println!("ours {own:.1} ns, upstream {theirs:.1} ns, ratio {:.3}, hits {hits} {others}", own / theirs);
            ratios.push((own / theirs, own, theirs));
        }
    }
    if !ratios.is_empty() {
        summary(args, &ratios);
    }
    Some(())
}

fn summary(args: &Args, ratios: &[(f64, f64, f64)]) {
    let sorted = |of: fn(&(f64, f64, f64)) -> f64| {
        let mut all: Vec<f64> = ratios.iter().map(of).collect();
        all.sort_by(f64::total_cmp);
        all
    };
    let (pairs, own, theirs) = (sorted(|it| it.0), sorted(|it| it.1), sorted(|it| it.2));
    println!(
        "{} {} threads {}: of the pairs' ratios median {:.2} ({:.2} to {:.2}), of the least times {:.2}",
        args.policy,
        args.keys,
        args.threads,
        pairs[pairs.len() / 2],
        pairs[0],
        pairs[pairs.len() - 1],
        own[0] / theirs[0]
    );
}

fn main() {
    let done = args().and_then(|args| {
        let trace = Trace::new(args.keyspace, args.skew, true);
        let traces: Vec<Vec<u64>> = (0..args.threads as u64).map(|i| trace.keys(args.seed.wrapping_add(i), args.ops)).collect();
        match args.keys.as_str() {
            "u64" => bench(&args, &traces),
            "string" => {
                let named = |trace: &Vec<u64>| trace.iter().map(|key| format!("{key:016x}")).collect();
                bench::<String>(&args, &traces.iter().map(named).collect::<Vec<_>>())
            }
            _ => None,
        }
    });
    if done.is_none() {
        eprintln!("{USAGE}");
        std::process::exit(2);
    }
}
