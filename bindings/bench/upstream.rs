//! What bench.c does, over the `Cache` of the crate foyer-memory, with keys and values of bytes.
use foyer_memory::{
    Cache, CacheBuilder, EvictionConfig, FifoConfig, LfuConfig, LruConfig, S3FifoConfig, SieveConfig,
};
use std::time::Instant;

type Bytes = Vec<u8>;

const SHORTEST_TRACE: usize = 100000;

fn trace(ops: usize, keys: usize) -> Vec<u64> {
    let mut sums = Vec::with_capacity(keys);
    let mut sum = 0.0;
    for i in 0..keys {
        sum += 1.0 / (i + 1) as f64;
        sums.push(sum);
    }
    let mut state = 88172645463325252u64;
    let mut number = || {
        state ^= state << 13;
        state ^= state >> 7;
        state ^= state << 17;
        let wanted = (state >> 11) as f64 * (-53f64).exp2() * sum;
        sums[..keys - 1].partition_point(|it| *it < wanted) as u64
    };
    (0..ops).map(|_| number()).collect()
}

fn fill(key: &mut [u8], number: u64) {
    key[..8].copy_from_slice(&number.to_ne_bytes());
    if key.len() >= 16 {
        key[8..16].copy_from_slice(&number.wrapping_mul(0x9E3779B97F4A7C15).to_ne_bytes());
    }
}

fn work(cache: &Cache<Bytes, Bytes>, trace: &[u64], key_len: usize, value_len: usize, is_copied: bool) -> (u64, u64) {
    let (mut hits, mut wrong) = (0, 0);
    let mut key = vec![0u8; key_len];
    let mut buffer = vec![0u8; 1024];
    for number in trace {
        fill(&mut key, *number);
        match cache.get(&key) {
            Some(entry) => {
                hits += 1;
                let value = entry.value();
                let found = if is_copied {
                    buffer[..value.len()].copy_from_slice(value);
                    &buffer[..8]
                } else {
                    &value[..8]
                };
                wrong += (found != number.to_ne_bytes()) as u64;
            }
            None => {
                let mut value = vec![7u8; value_len];
                value[..8].copy_from_slice(&number.to_ne_bytes());
                drop(cache.insert(key.clone(), value));
            }
        }
    }
    (hits, wrong)
}

fn main() {
    let words: Vec<String> = std::env::args().skip(1).collect();
    let config: EvictionConfig = match words[0].as_str() {
        "fifo" => FifoConfig::default().into(),
        "lru" => LruConfig::default().into(),
        "lfu" => LfuConfig::default().into(),
        "s3fifo" => S3FifoConfig::default().into(),
        _ => SieveConfig.into(),
    };
    let is_copied = words[1] == "copy";
    let mut numbers = [1, 8, 8, 2000000, 100000, 10000, 8];
    for (number, word) in numbers.iter_mut().zip(&words[2..]) {
        *number = word.parse().unwrap();
    }
    let [threads, key_len, value_len, ops, keys, capacity, shards] = numbers;
    let ops = ops / threads * threads;
    let trace = trace(ops.max(SHORTEST_TRACE), keys);
    let cache: Cache<Bytes, Bytes> =
        CacheBuilder::new(capacity).with_shards(shards).with_eviction_config(config).build();
    let begin = Instant::now();
    let ends: Vec<(u64, u64)> = if threads == 1 {
        vec![work(&cache, &trace[..ops], key_len, value_len, is_copied)]
    } else {
        std::thread::scope(|scope| {
            let parts: Vec<_> = trace[..ops]
                .chunks(ops / threads)
                .map(|part| scope.spawn(|| work(&cache, part, key_len, value_len, is_copied)))
                .collect();
            parts.into_iter().map(|it| it.join().unwrap()).collect()
        })
    };
    let took = begin.elapsed().as_secs_f64();
    let (hits, wrong) = ends.iter().fold((0, 0), |sum, it| (sum.0 + it.0, sum.1 + it.1));
    let text = if wrong == 0 { "" } else { ", WRONG VALUES" };
    println!("{:.1} ns, hits {:.4}{text}", took * 1e9 / ops as f64, hits as f64 / ops as f64);
}
