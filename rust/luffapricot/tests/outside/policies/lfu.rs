//! w-TinyLFU, as upstream's tests drive it.

use super::segments::{PROBATION, PROTECTED, WINDOW};
use std::collections::HashMap;

type Inner<E> = Over<super::Lfu, E>;

crate::upstream::policy!(Lfu LfuConfig over lists: window = WINDOW, probation = PROBATION, protected = PROTECTED;
    window_weight_capacity: usize = |over: &Inner<Self>| over.policy.window_limit,
    protected_weight_capacity: usize = |over: &Inner<Self>| over.policy.protected_limit,
    frequencies: HashMap<u64, u16> = Self::estimates);

impl<K: Key, V: Value, P: Properties> Lfu<K, V, P> {
    // What the sketch says of each record.
    fn estimates(over: &Inner<Self>) -> HashMap<u64, u16> {
        let hashes = over.records.iter().map(|it| it.2.0.hash);
        hashes.map(|hash| (hash, over.policy.sketch.estimate(hash))).collect()
    }

    fn estimate_frequency(frequencies: &HashMap<u64, u16>, hash: u64) -> u16 {
        frequencies[&hash]
    }
}

include!("lfu_tests.rs");
